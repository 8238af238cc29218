//! The report over many sheets of document 02's change request 10. The blocks of a sheet, their sets and what the
//! measuring runs leave come from the layer, so from the original and its own counter; the numbers are counted here, after
//! the document's words, and held against the lines that the sheet program writes.

use crate::layer::{self, Found, Number};

/// The names of the thirteen numbers, in the order in which a report has them.
const NAMES: [&str; 13] = [
    "sheets", "blocks", "wrapped", "refused-1", "refused-2", "refused-6", "refused-7", "refused-10", "classes", "keys", "joined",
    "lookahead", "longest",
];
const SHEETS: usize = 0;
const BLOCKS: usize = 1;
const WRAPPED: usize = 2;
const CLASSES: usize = 8;
const KEYS: usize = 9;
const JOINED: usize = 10;
const LOOKAHEAD: usize = 11;
const LONGEST: usize = 12;

/// The numbers of a report.
pub type Totals = [u64; NAMES.len()];

/// The place of the number that counts this refusal.
fn refused(number: Number) -> usize {
    NAMES.iter().position(|name| *name == format!("refused-{number}")).expect("a refusal that the sheet program prints")
}

/// The numbers of one sheet. One that gives 1 or 2 is a sheet, and that is all that is counted of it.
fn counts(bytes: &[u8]) -> Totals {
    let mut out = [0; NAMES.len()];
    out[SHEETS] = 1;
    match layer::goes(bytes) {
        Err(number) => out[refused(number)] = 1,
        Ok(gone) => {
            out[JOINED] = gone.trace.lines as u64;
            out[LOOKAHEAD] = gone.trace.lookahead as u64;
            for block in &gone.answer {
                count_block(block, &mut out);
            }
            let found = out[BLOCKS] + [6, 7, 10].map(|number| out[refused(number)]).iter().sum::<u64>();
            assert_eq!(found, gone.answer.len() as u64, "each block is printed or refused");
        }
    }
    assert!(out[WRAPPED] <= out[BLOCKS], "a wrapped block is a block");
    assert_eq!(out[LONGEST] == 0, out[BLOCKS] == 0, "there is a longest block exactly where there is one");
    as_printed(&layer::sheet(bytes), &out);
    out
}

/// A block's classes as they are listed and its distinct keys, where it is printed; else its refusal.
fn count_block(block: &Found, out: &mut Totals) {
    let printed = block.read.as_ref().map_err(|&number| number).and_then(|attrs| layer::canonical(attrs).map(|_| attrs));
    match printed {
        Ok(attrs) => {
            out[BLOCKS] += 1;
            out[WRAPPED] += u64::from(block.count > 1);
            out[CLASSES] += attrs.classes.len() as u64;
            out[KEYS] += attrs.key_values.len() as u64;
            out[LONGEST] = out[LONGEST].max(block.count as u64);
        }
        Err(number) => out[refused(number)] += 1,
    }
}

/// The blocks, refusals and lines of blocks once more, from the lines that the sheet program writes.
fn as_printed(report: &[u8], counted: &Totals) {
    let mut told = [0; NAMES.len()];
    for line in std::str::from_utf8(report).expect("canonical texts are UTF-8").split_terminator('\n') {
        let mut fields = line.splitn(4, '\t');
        let mut field = || fields.next().expect("four fields");
        let (word, _, count, last) = (field(), field(), field(), field());
        let count: u64 = count.parse().expect("a count of lines");
        if word == "refused" {
            told[refused(last.parse().expect("a refusal's number"))] += 1;
        } else {
            told[BLOCKS] += 1;
            told[WRAPPED] += u64::from(count > 1);
            told[LONGEST] = told[LONGEST].max(count);
        }
    }
    let unprinted = [SHEETS, CLASSES, KEYS, JOINED, LOOKAHEAD];
    assert!((0..NAMES.len()).all(|n| unprinted.contains(&n) || told[n] == counted[n]), "the sheet program prints these numbers");
}

/// Two reports added up: the longest by the larger, or 17 where one of the other twelve would not fit.
pub fn add(a: &Totals, b: &Totals) -> Result<Totals, Number> {
    let mut out = [0; NAMES.len()];
    for (n, sum) in out.iter_mut().enumerate() {
        *sum = if n == LONGEST { a[n].max(b[n]) } else { a[n].checked_add(b[n]).ok_or(17)? };
    }
    Ok(out)
}

/// The report after one more sheet, read with a join buffer of `cap` bytes: 9 for one that is shorter than whole sheets
/// need, where the sheet itself gives neither 1 nor 2, then 17.
pub fn feed(before: &Totals, bytes: &[u8], cap: usize) -> Result<Totals, Number> {
    let refused = layer::whole_text(bytes).is_err();
    if !refused && cap < layer::TEXT_LIMIT {
        return Err(9);
    }
    add(before, &counts(bytes))
}

/// The report over these sheets, one after the other. It is the one that any two parts of the list add up to.
pub fn report(sheets: &[Vec<u8>]) -> Totals {
    let numbers: Vec<Totals> = sheets.iter().map(|sheet| counts(sheet)).collect();
    let sum = |part: &[Totals]| part.iter().fold([0; NAMES.len()], |sum, more| add(&sum, more).expect("small numbers"));
    let whole = sum(&numbers);
    for at in 0..=numbers.len() {
        let (before, behind) = numbers.split_at(at);
        assert_eq!(add(&sum(before), &sum(behind)), Ok(whole), "reports over two parts add up to that over both");
    }
    whole
}

/// How the sheet program goes over a sheet, with a join buffer of `cap` bytes: the blocks found, refused ones too, and
/// what its measuring runs leave; or 1, 2 or 9.
pub fn runs(bytes: &[u8], cap: usize) -> Result<(usize, layer::Trace), Number> {
    let gone = layer::goes(bytes)?;
    if cap < layer::TEXT_LIMIT {
        return Err(9);
    }
    Ok((gone.answer.len(), gone.trace))
}

/// What the program `numbers` prints: one record a line, name, tab, number.
pub fn written(totals: &Totals) -> String {
    NAMES.iter().zip(totals).map(|(name, number)| format!("{name}\t{number}\n")).collect()
}
