//! One request line in, one answer line out.

use crate::ast::Attrs;
use crate::columns::{self, Column, Width};
use crate::document::Value;
use crate::index::{self, Lent, Record};
use crate::langtags;
use crate::layer::{self, Consumed, Entry, MergeRefusal, Number, Refused, Trace, Traced};
use crate::parse::attrs::door;
use crate::places::{self, Whole};
use crate::rows::{Name, Rows, Slot};
use crate::standins::*;
use crate::totals::{self, Totals};
use crate::variants;
use std::io::Write;

/// The longest text that a request may carry, but for an index.
const HEX_LIMIT: usize = 65_600;
/// The longest request line.
const LINE_LIMIT: usize = 800_000;

/// Answers one request; the answer line has no LF yet.
pub fn answer(request: &[u8], out: &mut Vec<u8>) {
    let at = out.len();
    if request.len() > LINE_LIMIT || answer_known(request, out).is_none() {
        out.truncate(at);
        out.extend_from_slice(b"error");
    }
}

fn number(field: &[u8]) -> Option<usize> {
    if field.is_empty() || !field.iter().all(u8::is_ascii_digit) {
        return None;
    }
    let value: u64 = std::str::from_utf8(field).ok()?.parse().ok()?;
    usize::try_from(value).ok()
}

/// The numbers of a report, parted by commas.
fn numbers(field: &[u8]) -> Option<Totals> {
    let list: Vec<u64> = field.split(|&b| b == b',').map(|part| number(part).map(|n| n as u64)).collect::<Option<_>>()?;
    list.try_into().ok()
}

/// The mode of a reading at a brace.
fn is_loose(field: &[u8]) -> Option<bool> {
    match field {
        b"strict" => Some(false),
        b"loose" => Some(true),
        _ => None,
    }
}

fn digit(byte: u8) -> Option<u8> {
    match byte {
        b'0'..=b'9' => Some(byte - b'0'),
        b'a'..=b'f' => Some(byte - b'a' + 10),
        _ => None,
    }
}

/// Lower-case hex, or `-` for no bytes.
fn hex(field: &[u8]) -> Option<Vec<u8>> {
    hex_within(field, HEX_LIMIT)
}

fn hex_within(field: &[u8], most: usize) -> Option<Vec<u8>> {
    if field == b"-" {
        return Some(Vec::new());
    }
    if field.is_empty() || field.len() % 2 != 0 || field.len() > 2 * most {
        return None;
    }
    field.chunks_exact(2).map(|pair| Some(digit(pair[0])? * 16 + digit(pair[1])?)).collect()
}

fn put_hex(bytes: &[u8], out: &mut Vec<u8>) {
    if bytes.is_empty() {
        out.push(b'-');
    }
    for &byte in bytes {
        out.push(b"0123456789abcdef"[usize::from(byte >> 4)]);
        out.push(b"0123456789abcdef"[usize::from(byte & 15)]);
    }
}

macro_rules! put {
    ($out:expr, $($words:tt)*) => {
        write!($out, $($words)*).expect("writing to memory")
    };
}

fn put_yes(answer: bool, out: &mut Vec<u8>) {
    out.extend_from_slice(if answer { b"yes" } else { b"no" });
}

fn put_refused(number: Number, out: &mut Vec<u8>) {
    put!(out, "refused {number}");
}

fn put_run(trace: &Trace, out: &mut Vec<u8>) {
    put!(out, " lookahead {} joined ", trace.lookahead);
    put_hex(&trace.joined, out);
}

fn put_canon(text: Result<Vec<u8>, Number>, out: &mut Vec<u8>) {
    match text {
        Ok(text) => {
            out.extend_from_slice(b" canon ");
            put_hex(&text, out);
        }
        Err(number) => put!(out, " canon refused {number}"),
    }
}

/// `ok next N SET`, of a reading at a brace of this text.
fn put_reading(read: Result<(Attrs, usize), Number>, text: &[u8], out: &mut Vec<u8>) {
    match read {
        Ok((attrs, next)) => {
            put!(out, "ok next {next}");
            put_canon(layer::canonical_over(&attrs, text), out);
        }
        Err(number) => put_refused(number, out),
    }
}

fn put_value(value: Value, out: &mut Vec<u8>) {
    match value {
        Value::Plain(from, to) => put!(out, " plain {from} {to}"),
        Value::Quoted(from, to) => put!(out, " quoted {from} {to}"),
        Value::Empty => out.extend_from_slice(b" empty"),
    }
}

/// `ok NEXT`, then the rows of each table behind their count. Here no row is past its count, and so all of them are zero.
fn put_rows(rows: &Rows, next: usize, out: &mut Vec<u8>) {
    put!(out, "ok {next} id");
    match rows.id {
        Some(value) => put_value(value, out),
        None => out.extend_from_slice(b" none"),
    }
    put!(out, " classes {}", rows.classes.len());
    for &class in &rows.classes {
        put_value(class, out);
    }
    put!(out, " keys {}", rows.keys.len());
    for &(name, value) in &rows.keys {
        match name {
            Name::At(from, to) => put!(out, " at {from} {to}"),
            Name::Lang => out.extend_from_slice(b" lang"),
        }
        put_value(value, out);
    }
    put!(out, " slots {}", rows.slots.len());
    for &slot in &rows.slots {
        match slot {
            Slot::Id => out.extend_from_slice(b" id"),
            Slot::Class => out.extend_from_slice(b" class"),
            Slot::Key(row) => put!(out, " key {row}"),
        }
    }
    out.extend_from_slice(b" past zero");
}

/// `ok lines N RUN`, with the set behind it where the entry hands one out.
fn put_block(found: Traced<Result<(Attrs, usize), Number>>, with_set: bool, out: &mut Vec<u8>) {
    match &found.answer {
        Ok((_, count)) => put!(out, "ok lines {count}"),
        Err(number) => put_refused(*number, out),
    }
    put_run(&found.trace, out);
    if let (Ok((attrs, _)), true) = (&found.answer, with_set) {
        put_canon(layer::canonical(attrs), out);
    }
}

fn put_report(totals: &Totals, out: &mut Vec<u8>) {
    put!(out, "report {}", totals.map(|number| number.to_string()).join(","));
}

/// `ok SET`, or where the merge ended.
fn put_merge(merged: Result<Attrs, MergeRefusal>, out: &mut Vec<u8>) {
    match merged {
        Ok(attrs) => {
            out.extend_from_slice(b"ok");
            put_canon(layer::canonical(&attrs), out);
        }
        Err(refusal) => put_unmerged(refusal, out),
    }
}

/// Where a merge ended that has no set.
fn put_unmerged(refusal: MergeRefusal, out: &mut Vec<u8>) {
    match refusal {
        MergeRefusal::First(number) => put!(out, "unread first {number}"),
        MergeRefusal::Second(number) => put!(out, "unread second {number}"),
        MergeRefusal::Merge(number) => put_refused(number, out),
    }
}

/// `columns N`, then each column's align, vertical align and width, which has its text before it where there are two.
fn put_columns(columns: &[Column], two_texts: bool, out: &mut Vec<u8>) {
    put!(out, "columns {}", columns.len());
    for Column { align, valign, width } in columns {
        put!(out, " {align} {valign} ");
        match width {
            Some((text, Width::Range(from, to))) if two_texts => put!(out, "{text}:{from}-{to}"),
            Some((_, Width::Range(from, to))) => put!(out, "{from}-{to}"),
            Some((_, Width::Empty)) => out.extend_from_slice(b"empty"),
            None => out.extend_from_slice(b"none"),
        }
    }
}

/// `yes SET` or `no SET`.
fn put_consumed(consumed: &Consumed, out: &mut Vec<u8>) {
    put_yes(consumed.acted, out);
    put_canon(layer::canonical_or_12(&consumed.left), out);
}

fn put_index(made: Result<Vec<u8>, Number>, out: &mut Vec<u8>) {
    match made {
        Ok(text) => {
            out.extend_from_slice(b"ok ");
            put_hex(&text, out);
        }
        Err(number) => put_refused(number, out),
    }
}

fn put_records(records: &[Record], out: &mut Vec<u8>) {
    put!(out, "records {}", records.len());
    for Record { line, count, offset, id } in records {
        put!(out, " {line} {count} {offset} ");
        match id {
            Some(id) => put_hex(id, out),
            None => out.extend_from_slice(b"none"),
        }
    }
}

/// The number behind this word where the last field begins with it, which is then taken off; else the most that it may be.
fn lent(fields: &mut Vec<&[u8]>, word: &[u8], most: usize) -> Option<usize> {
    match fields[1..].last().and_then(|field| field.strip_prefix(word)) {
        Some(given) => {
            fields.pop();
            number(given).filter(|&given| given <= most)
        }
        None => Some(most),
    }
}

fn answer_known(request: &[u8], out: &mut Vec<u8>) -> Option<()> {
    let mut fields: Vec<&[u8]> = request.split(|&b| b == b' ').collect();
    if fields[0] == b"leaf" {
        return answer_leaf(&fields[1..], out);
    }
    // What is lent stands at the end, in the order `cap=`, `rows=`, `buf=`; only an index has the last two.
    let (mut buf, mut rows) = (index::INDEX_LIMIT, index::ROWS_LIMIT);
    if [&b"index_build"[..], b"index_mend"].contains(&fields[0]) {
        buf = lent(&mut fields, b"buf=", buf)?;
    }
    if [&b"index_build"[..], b"index_mend", b"index_read"].contains(&fields[0]) {
        rows = lent(&mut fields, b"rows=", rows)?;
    }
    let cap = lent(&mut fields, b"cap=", layer::TEXT_LIMIT)?;
    match (fields[0], &fields[1..]) {
        (verb @ (b"read_attrs_at" | b"place" | b"read_attrs_at_lang" | b"place_lang"), [place, mode, text]) => {
            let (place, loose, text) = (number(place)?, is_loose(mode)?, hex(text)?);
            let read = if verb.ends_with(b"_lang") { langtags::read_attrs_at } else { layer::read_attrs_at }(&text, place, loose);
            let unread = read == Err(5);
            put_reading(read, &text, out);
            if unread && verb.starts_with(b"place") {
                put!(out, " at {}", places::at_brace(&text, place, loose));
            }
        }
        (b"language_tag_strict", [text]) => put_yes(langtags::allowed(&hex(text)?), out),
        (b"rows", [place, mode, text]) => {
            let (place, loose, text) = (number(place)?, is_loose(mode)?, hex(text)?);
            match layer::rows(&text, place, loose) {
                Ok((rows, next)) => put_rows(&rows, next, out),
                Err(number) => put_refused(number, out),
            }
        }
        (b"attr_payload_provably_invalid", [place, text]) => {
            let (place, text) = (number(place)?, hex(text)?);
            put_yes(layer::attr_payload_provably_invalid(&text, place), out);
        }
        (b"payload_at", [place, text]) => {
            let (place, text) = (number(place)?, hex(text)?);
            let (from, to) = layer::payload_at(&text, place).unwrap_or((0, 0));
            put!(out, "from {from} to {to}");
        }
        (b"parse_attrs", [text]) => put_yes(layer::parse_attrs(&hex(text)?), out),
        (b"is_valid_attr_payload", [text]) => put_yes(layer::is_valid_attr_payload(&hex(text)?), out),
        (b"valid_wrapped_attr_continuation", [text]) => {
            put_yes(layer::valid_wrapped_attr_continuation(&hex(text)?), out)
        }
        (b"parse_standalone_attrs", [line, text]) => {
            match layer::parse_standalone_attrs(&hex(text)?, number(line)?) {
                Ok(attrs) => {
                    out.extend_from_slice(b"ok");
                    put_canon(layer::canonical(&attrs), out);
                }
                Err(number) => put_refused(number, out),
            }
        }
        (b"parse_standalone_attrs_block", [line, text]) => {
            put_block(layer::block(Entry::Block, &hex(text)?, number(line)?, cap), true, out)
        }
        (b"standalone_attrs_block_len", [line, text]) => {
            put_block(layer::block(Entry::Standalone, &hex(text)?, number(line)?, cap), false, out)
        }
        (b"indented_wrapped_attrs_block_len", [line, text]) => {
            put_block(layer::block(Entry::Indented, &hex(text)?, number(line)?, cap), false, out)
        }
        (b"attrs_block_len_at", [column, line, text]) => {
            let entry = Entry::At(number(column)?);
            put_block(layer::block(entry, &hex(text)?, number(line)?, cap), false, out)
        }
        (b"wrapped_attrs_run_at", [base, line, text]) => {
            put_block(layer::wrapped_attrs_run_at(&hex(text)?, number(base)?, number(line)?, cap), true, out)
        }
        (b"refused_brace_run", [line, text]) => {
            let found = layer::refused_brace_run(&hex(text)?, number(line)?, cap);
            match found.answer {
                Ok(Refused::Lines(count)) => put!(out, "lines {count}"),
                Ok(Refused::No(count)) => put!(out, "no {count}"),
                Ok(Refused::NoToTheEnd) => out.extend_from_slice(b"no end"),
                Err(number) => put_refused(number, out),
            }
            put_run(&found.trace, out);
        }
        (b"ends_in_refused_brace_run", [text]) => {
            let found = layer::ends_in_refused_brace_run(&hex(text)?, cap);
            match found.answer {
                Ok(answer) => put_yes(answer, out),
                Err(number) => put_refused(number, out),
            }
            put_run(&found.trace, out);
        }
        (entry @ (b"merge" | b"merge_leading"), [a, b]) => {
            let (a, b) = (hex(a)?, hex(b)?);
            if a.contains(&b'\n') || b.contains(&b'\n') {
                return None;
            }
            put_merge(layer::merge(&a, &b, entry == b"merge_leading"), out);
        }
        (b"merge2", [a, b]) => put_merge(layer::merge2(&hex(a)?, &hex(b)?), out),
        (b"merge2_block", [a, b]) => put_merge(layer::merge2_block(&hex(a)?, &hex(b)?, cap), out),
        (b"sheet", [text]) => {
            let written = layer::sheet(&hex(text)?);
            out.extend_from_slice(b"sheet ");
            put_hex(&written, out);
        }
        (b"variants", [text]) => match variants::table(&hex(text)?, cap) {
            Ok(table) => {
                out.extend_from_slice(b"table");
                for &valve in table.iter().flatten() {
                    put!(out, " {}", variants::cell(valve));
                }
            }
            Err(refusal) => put_refused(refusal.number, out),
        },
        (b"report", texts @ [_, ..]) => {
            let sheets: Vec<Vec<u8>> = texts.iter().map(|text| hex(text)).collect::<Option<_>>()?;
            put_report(&totals::report(&sheets), out);
        }
        (b"report_feed", [before, text]) => {
            let (before, text) = (numbers(before)?, hex(text)?);
            let fed = totals::feed(&before, &text, cap);
            if let Err(number) = fed {
                put!(out, "refused {number} ");
            }
            put_report(&fed.unwrap_or(before), out);
        }
        (b"report_add", [a, b]) => match totals::add(&numbers(a)?, &numbers(b)?) {
            Ok(sum) => put_report(&sum, out),
            Err(number) => put_refused(number, out),
        },
        (b"runs", [text]) => match totals::runs(&hex(text)?, cap) {
            Ok((blocks, trace)) => {
                put!(out, "blocks {blocks} lines {}", trace.lines);
                put_run(&trace, out);
            }
            Err(number) => put_refused(number, out),
        },
        (b"index_build", [text]) => put_index(index::build(&hex(text)?, Lent { cap, rows, buf }), out),
        (b"index_read", [text]) => match index::read(&hex_within(text, index::INDEX_LIMIT)?, rows) {
            Ok(records) => put_records(&records, out),
            Err(number) => put_refused(number, out),
        },
        (b"index_lookup", [text, id]) => {
            match index::look_up(&hex_within(text, index::INDEX_LIMIT)?, &hex(id)?) {
                Ok(Some(Record { line, count, offset, .. })) => put!(out, "record {line} {count} {offset}"),
                Ok(None) => out.extend_from_slice(b"not found"),
                Err(number) => put_refused(number, out),
            }
        }
        (b"index_mend", [a, b, old, new, text]) => {
            let (a, b, old, new) = (number(a)?, number(b)?, hex(old)?, hex(new)?);
            let text = hex_within(text, index::INDEX_LIMIT)?;
            put_index(index::mend(a, b, &old, &new, &text, Lent { cap, rows, buf }), out);
        }
        (b"loose", [line, text]) => match layer::loose(&hex(text)?, number(line)?, cap) {
            Ok(consumed) => put_consumed(&consumed, out),
            Err(number) => put!(out, "unread {number}"),
        },
        (b"loose2", [a, b]) => match layer::loose2(&hex(a)?, &hex(b)?, cap) {
            Ok(consumed) => put_consumed(&consumed, out),
            Err(refusal) => put_unmerged(refusal, out),
        },
        (b"columns", [line, text]) => match columns::of_block(&hex(text)?, number(line)?, cap) {
            Ok((columns, joined)) => {
                put_columns(&columns, false, out);
                out.extend_from_slice(if joined { b" over joined" } else { b" over lent" });
            }
            Err(columns::Refusal::Unread(number)) => put!(out, "unread {number}"),
            Err(columns::Refusal::Columns(number)) => put_refused(number, out),
        },
        (b"columns2", [a, b]) => match columns::of_merge(&hex(a)?, &hex(b)?, cap) {
            Ok(columns) => put_columns(&columns, true, out),
            Err(refusal) => put_unmerged(refusal, out),
        },
        _ => return None,
    }
    Some(())
}

/// Requests for the smallest parts, over any bytes.
fn answer_leaf(fields: &[&[u8]], out: &mut Vec<u8>) -> Option<()> {
    match fields {
        [b"is_utf8", text] => put_yes(std::str::from_utf8(&hex(text)?).is_ok(), out),
        [b"is_char_boundary", place, text] => {
            let (place, text) = (number(place)?, hex(text)?);
            let by_bytes = place <= text.len() && (place == text.len() || !is_continuation(text[place]));
            let answer = match std::str::from_utf8(&text) {
                Ok(text) => text.is_char_boundary(place),
                Err(_) => by_bytes,
            };
            put_yes(answer, out);
        }
        [b"char_count", text] => {
            let text = hex(text)?;
            let by_bytes = text.iter().filter(|&&b| !is_continuation(b)).count();
            let answer = std::str::from_utf8(&text).map_or(by_bytes, |text| text.chars().count());
            put!(out, "{answer}");
        }
        [b"is_identifier", text] => put_yes(on_text(&hex(text)?, door::is_identifier), out),
        [b"is_css_identifier", text] => put_yes(on_text(&hex(text)?, door::is_css_identifier), out),
        [b"is_boolean_attr_name", text] => put_yes(on_text(&hex(text)?, door::is_boolean_attr_name), out),
        [b"is_language_tag", text] => put_yes(on_text(&hex(text)?, door::is_language_tag), out),
        [b"place_of", kind, text] => {
            let whole = match *kind {
                b"name" => Whole::Name,
                b"key" => Whole::Key,
                b"bare" => Whole::Bare,
                b"tag" => Whole::Tag,
                _ => return None,
            };
            match places::stops(whole, &hex(text)?) {
                Some(place) => put!(out, "{place}"),
                None => out.extend_from_slice(b"whole"),
            }
        }
        [b"trim_ascii", text] => {
            let text = hex(text)?;
            let (from, to) = trim_range(&text);
            assert_eq!(text[from..to], *text.trim_ascii(), "the stand-in trims what Rust's own function trims");
            put_range((from, to), out);
        }
        [b"trim_ascii_start", text] => put_range(trim_start_range(&hex(text)?), out),
        [b"trim_ascii_end", text] => put_range(trim_end_range(&hex(text)?), out),
        [b"is_blank_line", text] => put_yes(hex(text)?.iter().all(|&b| is_ascii_blank(b)), out),
        [b"line", line, text] => {
            let (line, text) = (number(line)?, hex(text)?);
            match line.checked_sub(1).and_then(|at| layer::line_ranges(&text).get(at).copied()) {
                Some(range) => put_range(range, out),
                None => out.extend_from_slice(b"none"),
            }
        }
        [b"line_from", place, text] => {
            let (place, text) = (number(place)?, hex(text)?);
            let (to, next) = line_from(&text, place);
            put!(out, "to {to} next {next}");
        }
        [b"indent_columns", text] => put!(out, "{}", indent_columns_of(&hex(text)?)),
        [b"columns", text] => {
            let mut column = 0;
            for byte in hex(text)? {
                column += match byte {
                    b'\t' => 4 - column % 4,
                    _ => usize::from(!is_continuation(byte)),
                };
            }
            put!(out, "{column}");
        }
        [b"unescape_title", text] => put_hex(&unescape_bytes(&hex(text)?), out),
        [b"same_unescaped", a, b] => put_yes(unescape_bytes(&hex(a)?) == hex(b)?, out),
        [b"piece_at", place, text] => {
            let (place, text) = (number(place)?, hex(text)?);
            match piece_at(&text, place) {
                Some((byte, next)) => put!(out, "byte {byte} next {next}"),
                None => out.extend_from_slice(b"end"),
            }
        }
        [b"check_text", text] => put!(out, "{}", layer::whole_text(&hex(text)?).err().unwrap_or(0)),
        [b"is_class", byte] => {
            let byte = u8::try_from(number(byte)?).ok()?;
            let classes = [
                byte.is_ascii_alphabetic(),
                byte.is_ascii_digit(),
                byte.is_ascii_alphanumeric(),
                door::is_css_ident_start(byte),
                door::is_attr_ident_start(byte),
                door::is_attr_ident_part(byte),
                is_ascii_blank(byte),
                byte.is_ascii_punctuation(),
                byte == b'"' || byte == b'\'',
                !b"}|\"'\\ \t\r\n".contains(&byte),
                byte == b' ',
                b" \r\n".contains(&byte),
                b" \t".contains(&byte),
                is_continuation(byte),
            ];
            out.extend(classes.map(|yes| if yes { b'y' } else { b'n' }));
        }
        _ => return None,
    }
    Some(())
}

/// A byte that goes on with a character in UTF-8: 80 to BF.
fn is_continuation(byte: u8) -> bool {
    byte & 0xC0 == 0x80
}

/// Where the line that begins at the place ends, and where the next one begins; both are the place where no byte stands
/// there. The line ends at LF, and a CR of its own just before that LF is dropped.
fn line_from(text: &[u8], place: usize) -> (usize, usize) {
    let rest = text.get(place..).unwrap_or(b"");
    let whole = rest.split_inclusive(|&b| b == b'\n').next().unwrap_or(b"");
    let line = match whole.strip_suffix(b"\n") {
        Some(line) => line.strip_suffix(b"\r").unwrap_or(line),
        None => whole,
    };
    if let Ok(rest) = std::str::from_utf8(rest) {
        assert_eq!(line, rest.lines().next().unwrap_or("").as_bytes(), "the line is that of Rust's own splitting");
    }
    (place + line.len(), place + whole.len())
}

/// The first byte of what the raw bytes from the place on stand for, and where the raw bytes behind it begin.
fn piece_at(text: &[u8], place: usize) -> Option<(u8, usize)> {
    let rest = text.get(place..)?;
    let stands_for = unescape_bytes(rest);
    let &byte = stands_for.first()?;
    // Two bytes that stand for one are an escape.
    let taken = if rest.len() > 1 && unescape_bytes(&rest[..2]).len() == 1 { 2 } else { 1 };
    assert_eq!(unescape_bytes(&rest[taken..]), stands_for[1..], "the raw bytes behind it stand for what follows");
    Some((byte, place + taken))
}

/// The original's test of a text; bytes that aren't UTF-8 are no name and no tag.
fn on_text(bytes: &[u8], test: impl Fn(&str) -> bool) -> bool {
    std::str::from_utf8(bytes).is_ok_and(test)
}

fn put_range((from, to): (usize, usize), out: &mut Vec<u8>) {
    put!(out, "from {from} to {to}");
}
