//! The index beside a sheet of document 02's change requests 5 and 8. The blocks of a sheet and their ids come from the
//! layer, so from the original; the index text, its reading and 3, 14, 15, 16 and 19 are the oracle's own, after the
//! document's words. A mended index is built afresh from the new text.

use crate::layer::{self, Number};

/// How many bytes an index text of a request may have, and the lent buffer.
pub const INDEX_LIMIT: usize = 262_144;
/// How many rows a lent record table may have: no index text within its limit has more records.
pub const ROWS_LIMIT: usize = 43_690;

/// The word of the first line, and the version behind it.
const WORD: &str = "carve-attr-index";
const VERSION: &str = "2";

/// What an index tells of a block: its first line, its lines, the place of its first line's first byte, and its id.
#[derive(Clone, Debug, PartialEq)]
pub struct Record {
    pub line: usize,
    pub count: usize,
    pub offset: usize,
    pub id: Option<Vec<u8>>,
}

/// What is lent: the join buffer's bytes, the record table's rows and the index buffer's bytes.
#[derive(Clone, Copy)]
pub struct Lent {
    pub cap: usize,
    pub rows: usize,
    pub buf: usize,
}

/// Everything that an index is asked for has room in these.
pub const AMPLE: Lent = Lent { cap: layer::TEXT_LIMIT, rows: ROWS_LIMIT, buf: INDEX_LIMIT };

/// The first line of an index.
pub fn header() -> Vec<u8> {
    format!("{WORD}\t{VERSION}\n").into_bytes()
}

/// The index text of these records.
fn written(records: &[Record]) -> Vec<u8> {
    let mut out = header();
    for Record { line, count, offset, id } in records {
        out.extend_from_slice(format!("{line}\t{count}\t{offset}").as_bytes());
        if let Some(id) = id {
            out.push(b'\t');
            out.extend_from_slice(id);
        }
        out.push(b'\n');
    }
    out
}

/// The records of a sheet: its blocks that the sheet program prints. 1 or 2 where it isn't read.
fn records(bytes: &[u8]) -> Result<Vec<Record>, Number> {
    let blocks = layer::blocks(bytes)?;
    let lines = layer::line_ranges(bytes);
    let mut out = Vec::new();
    for block in blocks {
        let Ok(attrs) = block.read.and_then(|attrs| layer::canonical(&attrs).map(|_| attrs)) else {
            continue;
        };
        let id = attrs.id.map(String::into_bytes);
        out.push(Record { line: block.first, count: block.count, offset: lines[block.first - 1].0, id });
    }
    as_printed(bytes, &out);
    Ok(out)
}

/// The records once more, from the lines that the sheet program writes: the same lines and counts, and what stands at each
/// offset begins a line and, trimmed, with a brace. The ids are those of the canonical texts, read by the original.
fn as_printed(bytes: &[u8], records: &[Record]) {
    let report = String::from_utf8(layer::sheet(bytes)).expect("canonical texts are UTF-8");
    let printed: Vec<&str> = report.split_terminator('\n').filter(|line| line.starts_with("block\t")).collect();
    assert_eq!(printed.len(), records.len(), "the printed blocks are indexed");
    let (mut at, mut line_number) = (0, 1);
    for (line, record) in printed.iter().zip(records) {
        let Record { line: first, count, offset, id } = record;
        let canonical = line.strip_prefix(&format!("block\t{first}\t{count}\t")).expect("the lines of the block");
        let (attrs, _) = layer::read_attrs_at(canonical.as_bytes(), 0, false).expect("a canonical text is read back");
        assert_eq!(attrs.id.map(String::into_bytes), *id, "the id is that of the canonical text");
        line_number += bytes[at..*offset].iter().filter(|&&b| b == b'\n').count();
        at = *offset;
        assert_eq!(line_number, *first, "the offset is on the block's first line");
        assert!(*offset == 0 || bytes[offset - 1] == b'\n', "the offset is where a line begins");
        assert!(bytes[*offset..].trim_ascii_start().starts_with(b"{"), "a block begins there");
    }
}

/// The records written where both have room: 15 for the table, then 19 for the buffer.
fn lay(records: &[Record], lent: Lent) -> Result<Vec<u8>, Number> {
    if records.len() > lent.rows {
        return Err(15);
    }
    let text = written(records);
    assert_eq!(form(&text).as_deref(), Some(records), "what is built is read back");
    if text.len() > lent.buf {
        return Err(19);
    }
    Ok(text)
}

/// The index of a sheet: 1, 2, 9, 15, 19.
pub fn build(bytes: &[u8], lent: Lent) -> Result<Vec<u8>, Number> {
    let records = records(bytes)?;
    if lent.cap < layer::TEXT_LIMIT {
        return Err(9);
    }
    lay(&records, lent)
}

/// A number of the form: decimal, no leading zero, from `least` to 65,535.
fn in_form(field: &[u8], least: usize) -> Option<usize> {
    let number: usize = std::str::from_utf8(field).ok()?.parse().ok()?;
    // Its only spelling: no sign and no leading zero.
    ((least..=65_535).contains(&number) && number.to_string().as_bytes() == field).then_some(number)
}

/// The records of an index text, or none where it isn't of the form. Every line ends in LF.
fn form(index: &[u8]) -> Option<Vec<Record>> {
    let lines = index.strip_prefix(&header()[..])?;
    if lines.is_empty() {
        return Some(Vec::new());
    }
    let lines = lines.strip_suffix(b"\n")?;
    lines.split(|&b| b == b'\n').map(record).collect()
}

/// One record, without its LF. The fourth field runs to the end, tabs and a CR included.
fn record(line: &[u8]) -> Option<Record> {
    let mut fields = line.splitn(4, |&b| b == b'\t');
    let mut number = |least| in_form(fields.next()?, least);
    let (line, count, offset) = (number(1)?, number(1)?, number(0)?);
    Some(Record { line, count, offset, id: fields.next().map(<[u8]>::to_vec) })
}

/// Whether the first line, with its LF, is that of an index but for another number. What follows it doesn't matter.
fn of_another_version(index: &[u8]) -> bool {
    let first = index.split_inclusive(|&b| b == b'\n').next().unwrap_or(b"");
    let number = first.strip_prefix(WORD.as_bytes()).and_then(|rest| rest.strip_prefix(b"\t")).and_then(|rest| rest.strip_suffix(b"\n"));
    number.is_some_and(|number| in_form(number, 0).is_some() && number != VERSION.as_bytes())
}

/// 16 for an index of another version, which comes before all else that may be wrong about an index.
fn check_version(index: &[u8]) -> Result<(), Number> {
    if !of_another_version(index) {
        return Ok(());
    }
    assert!(form(index).is_none(), "no index is of two versions");
    Err(16)
}

/// The records of an index text: 16, 14, then 15 for a table of fewer rows.
pub fn read(index: &[u8], rows: usize) -> Result<Vec<Record>, Number> {
    check_version(index)?;
    let records = form(index).ok_or(14)?;
    assert_eq!(written(&records), index, "an index is what its records are written as");
    if records.len() > rows {
        return Err(15);
    }
    Ok(records)
}

/// The first record of that id, where there is one; or 16, or 14, also for a fault behind that record.
pub fn look_up(index: &[u8], id: &[u8]) -> Result<Option<Record>, Number> {
    Ok(read(index, ROWS_LIMIT)?.into_iter().find(|record| record.id.as_deref() == Some(id)))
}

/// Whether the new text has, without overlap, the old bytes before line a at its front and those behind line b at its end.
/// The line ends behind its LF.
fn replaced(old: &[u8], new: &[u8], a: usize, b: usize) -> bool {
    let lines: Vec<&[u8]> = old.split_inclusive(|&byte| byte == b'\n').collect();
    assert_eq!(lines.len(), layer::line_ranges(old).len(), "as many lines");
    if a < 1 || b < a || b > lines.len() {
        return false;
    }
    let (before, behind) = (lines[..a - 1].concat(), lines[b..].concat());
    new.strip_prefix(&before[..]).is_some_and(|rest| rest.ends_with(&behind))
}

/// The index after lines a to b of the old text were replaced: 1 and 2 of the old text, 1 and 2 of the new one, 9, 3, 16,
/// 14, 15, 19.
pub fn mend(a: usize, b: usize, old: &[u8], new: &[u8], index: &[u8], lent: Lent) -> Result<Vec<u8>, Number> {
    let of_old = records(old)?;
    let of_new = records(new)?;
    if lent.cap < layer::TEXT_LIMIT {
        return Err(9);
    }
    if !replaced(old, new, a, b) {
        return Err(3);
    }
    check_version(index)?;
    if index != written(&of_old) {
        return Err(14);
    }
    lay(&of_new, lent)
}

/// What the program `index` writes for the words behind its name, `build SHEET`, `find INDEX ID` or `mend A B OLD NEW
/// INDEX`; none where the words are others.
pub fn program(words: &[String], file: impl Fn(&str) -> Vec<u8>) -> Option<Vec<u8>> {
    let words: Vec<&str> = words.iter().map(String::as_str).collect();
    let made = match words[..] {
        ["build", sheet] => build(&file(sheet), AMPLE),
        ["find", index, id] => look_up(&file(index), id.as_bytes()).map(|found| match found {
            Some(Record { line, count, offset, .. }) => format!("{line}\t{count}\t{offset}\n").into_bytes(),
            None => b"not found\n".to_vec(),
        }),
        ["mend", a, b, old, new, index] => {
            mend(a.parse().ok()?, b.parse().ok()?, &file(old), &file(new), &file(index), AMPLE)
        }
        _ => return None,
    };
    Some(made.unwrap_or_else(|number| format!("refused\t{number}\n").into_bytes()))
}
