//! Bridlesnow for Rust: a safe face of the proved reader of Carve attribute blocks.
//!
//! A crate without dependencies (`Cargo.toml` beside this file), and one file that plain `rustc` takes too. Either links
//! `target/door/libdoor.a`, which `door/library` writes, or what `make install` has installed (`BRIDLESNOW_LIB` names its folder):
//!
//! ```text
//! cargo test --offline --manifest-path door/rust/Cargo.toml --target-dir target/rust
//! rustc --edition 2024 -O --crate-type rlib --out-dir target door/rust/bridlesnow.rs -L target/door -l static=door
//! ```
//!
//! A [`Reader`] owns the memory that the calls are lent, 192 KB, and hands out canonical text as a part of it. A class that
//! is listed again is written once, at its first place. What the functions answer is proved; that this file passes pointers, lengths and numbers on in the right order is not, and is tested below.

use std::array::from_fn;
use std::fmt;
use std::ops::Range;

/// The longest text, and the longest canonical text.
pub const MAX: usize = 65_535;

/// No line of a report is longer.
pub const LINE: usize = 65_600;

/// The dealers' table: its variants, its wheels, and what an unfilled cell holds.
pub const VARIANTS: usize = 30;
pub const WHEELS: usize = 4;
pub const UNFILLED: u16 = 256;

/// The valve of each wheel of each variant: front-left, front-right, rear-left, rear-right; `None` where the cell is unfilled.
pub type Valves = [[Option<u8>; WHEELS]; VARIANTS];

/// The totals of a report over sheets, in document 02's order: `sheets`, `blocks`, `wrapped`, `refused-1`, `refused-2`, `refused-6`, `refused-7`,
/// `refused-10`, `classes`, `keys`, `joined`, `lookahead`, `longest`. All are 0 before the first sheet.
pub const TOTALS: usize = 13;
pub type Totals = [u64; TOTALS];

/// The longest text of a report over sheets.
pub const TOTALS_TEXT: usize = 384;

/// An index beside a sheet: the most records of a sheet, how many numbers of a table each takes, and the longest text of an index.
pub const RECORDS: usize = 16_384;
pub const RECORD: usize = 5;
pub const INDEX: usize = 376_850;

/// The functions of the library, as `door/bridlesnow.h` declares them.
mod raw {
    unsafe extern "C" {
        pub fn bridlesnow_is_utf8(text: *const u8, len: usize) -> bool;
        pub fn bridlesnow_check_text(text: *const u8, len: usize) -> u8;
        pub fn bridlesnow_parse_attrs(payload: *const u8, len: usize) -> bool;
        pub fn bridlesnow_is_valid_attr_payload(payload: *const u8, len: usize) -> bool;
        pub fn bridlesnow_valid_wrapped_attr_continuation(line: *const u8, len: usize) -> bool;
        pub fn bridlesnow_read_attrs_at(
            text: *const u8, len: usize, place: usize, loose: u8,
            out: *mut u8, out_len: usize, told: *mut usize, told_len: usize,
        ) -> u8;
        pub fn bridlesnow_read_attrs_at_tags(
            text: *const u8, len: usize, place: usize, loose: u8, strict_tags: u8,
            out: *mut u8, out_len: usize, told: *mut usize, told_len: usize,
        ) -> u8;
        pub fn bridlesnow_read_attrs_once(
            text: *const u8, len: usize, place: usize, loose: u8, strict_tags: u8,
            out: *mut u8, out_len: usize, told: *mut usize, told_len: usize,
        ) -> u8;
        pub fn bridlesnow_parse_standalone_attrs(
            text: *const u8, len: usize, line: usize,
            out: *mut u8, out_len: usize, told: *mut usize, told_len: usize,
        ) -> u8;
        pub fn bridlesnow_merge_lines(
            text: *const u8, len: usize, common: usize, variant: usize,
            out: *mut u8, out_len: usize, told: *mut usize, told_len: usize,
        ) -> u8;
        pub fn bridlesnow_parse_standalone_attrs_block(
            text: *const u8, len: usize, line: usize, join: *mut u8, join_len: usize,
            out: *mut u8, out_len: usize, told: *mut usize, told_len: usize,
        ) -> u8;
        pub fn bridlesnow_wrapped_attrs_run_at(
            text: *const u8, len: usize, line: usize, base: usize, join: *mut u8, join_len: usize,
            out: *mut u8, out_len: usize, told: *mut usize, told_len: usize,
        ) -> u8;
        pub fn bridlesnow_read_block_at(
            text: *const u8, len: usize, at: usize, join: *mut u8, join_len: usize,
            out: *mut u8, out_len: usize, told: *mut usize, told_len: usize,
        ) -> u8;
        pub fn bridlesnow_merge_blocks(
            text: *const u8, len: usize, common: usize, variant: usize,
            join: *mut u8, join_len: usize, other_join: *mut u8, other_join_len: usize,
            out: *mut u8, out_len: usize, told: *mut usize, told_len: usize,
        ) -> u8;
        pub fn bridlesnow_consume_loose(
            text: *const u8, len: usize, line: usize, join: *mut u8, join_len: usize,
            out: *mut u8, out_len: usize, told: *mut usize, told_len: usize,
        ) -> u8;
        pub fn bridlesnow_item_at(
            text: *const u8, len: usize, line: usize, n: usize, join: *mut u8, join_len: usize,
            out: *mut u8, out_len: usize, told: *mut usize, told_len: usize,
        ) -> u8;
        pub fn bridlesnow_value_at(
            text: *const u8, len: usize, line: usize, name: *const u8, name_len: usize, n: usize,
            join: *mut u8, join_len: usize, out: *mut u8, out_len: usize, told: *mut usize, told_len: usize,
        ) -> u8;
        pub fn bridlesnow_attrs_item_at(
            text: *const u8, len: usize, place: usize, loose: u8, n: usize,
            out: *mut u8, out_len: usize, told: *mut usize, told_len: usize,
        ) -> u8;
        pub fn bridlesnow_attrs_value_at(
            text: *const u8, len: usize, place: usize, loose: u8, name: *const u8, name_len: usize, n: usize,
            out: *mut u8, out_len: usize, told: *mut usize, told_len: usize,
        ) -> u8;
        pub fn bridlesnow_payload_at(text: *const u8, len: usize, place: usize, told: *mut usize, told_len: usize) -> bool;
        pub fn bridlesnow_next_token(
            text: *const u8, len: usize, at: usize, loose: u8, told: *mut usize, told_len: usize,
        ) -> bool;
        pub fn bridlesnow_table_columns(
            text: *const u8, len: usize, line: usize, join: *mut u8, join_len: usize,
            numbers: *mut usize, numbers_len: usize, told: *mut usize, told_len: usize,
        ) -> u8;
        pub fn bridlesnow_standalone_attrs_block_len(
            text: *const u8, len: usize, line: usize, join: *mut u8, join_len: usize, told: *mut usize, told_len: usize,
        ) -> u8;
        pub fn bridlesnow_indented_wrapped_attrs_block_len(
            text: *const u8, len: usize, line: usize, join: *mut u8, join_len: usize, told: *mut usize, told_len: usize,
        ) -> u8;
        pub fn bridlesnow_attrs_block_len_at(
            text: *const u8, len: usize, line: usize, column: usize,
            join: *mut u8, join_len: usize, told: *mut usize, told_len: usize,
        ) -> u8;
        pub fn bridlesnow_refused_brace_run(
            text: *const u8, len: usize, line: usize, join: *mut u8, join_len: usize, told: *mut usize, told_len: usize,
        ) -> u8;
        pub fn bridlesnow_ends_in_refused_brace_run(
            text: *const u8, len: usize, join: *mut u8, join_len: usize, told: *mut usize, told_len: usize,
        ) -> u8;
        pub fn bridlesnow_report_start(
            text: *const u8, len: usize, join: *mut u8, join_len: usize,
            out: *mut u8, out_len: usize, told: *mut usize, told_len: usize,
        ) -> u8;
        pub fn bridlesnow_report_part(
            text: *const u8, len: usize, at: usize, line: usize, join: *mut u8, join_len: usize,
            out: *mut u8, out_len: usize, told: *mut usize, told_len: usize,
        ) -> u8;
        pub fn bridlesnow_variants(
            text: *const u8, len: usize, join: *mut u8, join_len: usize,
            cells: *mut u16, cells_len: usize, told: *mut usize, told_len: usize,
        ) -> u8;
        pub fn bridlesnow_totals_feed(
            totals: *mut u64, totals_len: usize, text: *const u8, len: usize, join: *mut u8, join_len: usize,
        ) -> u8;
        pub fn bridlesnow_totals_add(totals: *mut u64, totals_len: usize, more: *const u64, more_len: usize) -> u8;
        pub fn bridlesnow_totals_text(
            totals: *const u64, totals_len: usize, out: *mut u8, out_len: usize, told: *mut usize, told_len: usize,
        ) -> u8;
        pub fn bridlesnow_index_build(
            text: *const u8, len: usize, join: *mut u8, join_len: usize,
            table: *mut usize, table_len: usize, out: *mut u8, out_len: usize, told: *mut usize, told_len: usize,
        ) -> u8;
        pub fn bridlesnow_index_read(
            index: *const u8, len: usize, table: *mut usize, table_len: usize, told: *mut usize, told_len: usize,
        ) -> u8;
        pub fn bridlesnow_index_find(
            index: *const u8, len: usize, id: *const u8, id_len: usize, told: *mut usize, told_len: usize,
        ) -> u8;
        pub fn bridlesnow_index_find_row(
            index: *const u8, len: usize, table: *const usize, table_len: usize, n: usize,
            id: *const u8, id_len: usize, told: *mut usize, told_len: usize,
        ) -> u8;
        pub fn bridlesnow_index_mend(
            old: *const u8, old_len: usize, new: *const u8, new_len: usize, a: usize, b: usize,
            index: *const u8, index_len: usize, join: *mut u8, join_len: usize,
            table: *mut usize, table_len: usize, out: *mut u8, out_len: usize, told: *mut usize, told_len: usize,
        ) -> u8;
    }
}

/// Why nothing is handed out: the numbers of `docs/SCOPE.md`.
#[derive(Clone, Copy, Debug, PartialEq, Eq)]
pub struct Refusal(pub u8);

impl fmt::Display for Refusal {
    fn fmt(&self, f: &mut fmt::Formatter<'_>) -> fmt::Result {
        f.write_str(match self.0 {
            1 => "the text has more than 65,535 bytes",
            2 => "not UTF-8",
            3 => "nothing is there to read",
            4 => "no close",
            5 => "no reading",
            6 => "more than 64 classes",
            7 => "more than 64 keys",
            9 => "the next line to join doesn't fit",
            10 => "the canonical text is too long",
            14 => "not an index, or not that of the old text",
            15 => "the records have no room in the table",
            17 => "a total over all sheets would not fit",
            19 => "the index has no room",
            20 => "one or two of variant, wheel and valve, or a value out of range",
            21 => "a variant has one valve at two wheels",
            _ => "refused",
        })
    }
}

impl std::error::Error for Refusal {}

/// `Ok` for 0.
fn granted(number: u8) -> Result<(), Refusal> {
    if number == 0 { Ok(()) } else { Err(Refusal(number)) }
}

/// Adds the report `more`, the longest by the larger. Where a total would not fit, `totals` stay as they are.
pub fn add_totals(totals: &mut Totals, more: &Totals) -> Result<(), Refusal> {
    granted(unsafe { raw::bridlesnow_totals_add(totals.as_mut_ptr(), TOTALS, more.as_ptr(), TOTALS) })
}

/// The text of a report: a line for each total, name, tab and number.
pub fn totals_text(totals: &Totals) -> String {
    let mut out = vec![0u8; TOTALS_TEXT];
    let mut len = 0;
    let number = unsafe { raw::bridlesnow_totals_text(totals.as_ptr(), TOTALS, out.as_mut_ptr(), out.len(), &mut len, 1) };
    assert_eq!(number, 0, "any report has room in {TOTALS_TEXT} bytes");
    out.truncate(len);
    String::from_utf8(out).expect("names and digits")
}

/// Where a block stands that was looked up: its first line, its line count, and the place of its first line's first byte, at which
/// [`Reader::read_block_at`] reads it.
#[derive(Clone, Copy, Debug, PartialEq, Eq)]
pub struct Found {
    pub line: usize,
    pub count: usize,
    pub offset: usize,
}

impl Found {
    fn of(told: [usize; 4]) -> Option<Self> {
        let [found, line, count, offset] = told;
        (found == 1).then_some(Found { line, count, offset })
    }
}

/// An index beside a sheet: its text, and the rows of its records, over which an id is found without reading the text again.
#[derive(Clone, Debug, PartialEq, Eq)]
pub struct Index {
    text: Vec<u8>,
    rows: Vec<usize>,
}

impl Index {
    /// Reads an index text.
    pub fn read(text: &[u8]) -> Result<Self, Refusal> {
        // No record takes fewer than six bytes.
        let mut rows = vec![0usize; text.len() / 6 * RECORD];
        let mut records = 0;
        granted(unsafe { raw::bridlesnow_index_read(text.as_ptr(), text.len(), rows.as_mut_ptr(), rows.len(), &mut records, 1) })?;
        rows.truncate(records * RECORD);
        Ok(Index { text: text.to_vec(), rows })
    }

    /// The text, to be kept beside the sheet.
    pub fn text(&self) -> &[u8] {
        &self.text
    }

    /// How many records there are.
    pub fn records(&self) -> usize {
        self.rows.len() / RECORD
    }

    /// The first record of an id.
    pub fn find(&self, id: &[u8]) -> Option<Found> {
        let mut told = [0usize; 4];
        let number = unsafe {
            raw::bridlesnow_index_find_row(
                self.text.as_ptr(), self.text.len(), self.rows.as_ptr(), self.rows.len(), self.records(),
                id.as_ptr(), id.len(), told.as_mut_ptr(), told.len(),
            )
        };
        assert_eq!(number, 0, "looking up over rows refuses nothing");
        Found::of(told)
    }
}

/// The first record of an id in an index text, which is read whole.
pub fn find_record(index: &[u8], id: &[u8]) -> Result<Option<Found>, Refusal> {
    let mut told = [0usize; 4];
    granted(unsafe {
        raw::bridlesnow_index_find(index.as_ptr(), index.len(), id.as_ptr(), id.len(), told.as_mut_ptr(), told.len())
    })?;
    Ok(Found::of(told))
}

/// Whether the bytes are UTF-8.
pub fn is_utf8(text: &[u8]) -> bool {
    unsafe { raw::bridlesnow_is_utf8(text.as_ptr(), text.len()) }
}

/// 1 or 2 for a text that is refused as a whole.
pub fn check_text(text: &[u8]) -> Result<(), Refusal> {
    granted(unsafe { raw::bridlesnow_check_text(text.as_ptr(), text.len()) })
}

/// Whether the bytes are the payload of an inline block.
pub fn parse_attrs(payload: &[u8]) -> bool {
    unsafe { raw::bridlesnow_parse_attrs(payload.as_ptr(), payload.len()) }
}

/// Whether the bytes are the payload of a block on lines of its own.
pub fn is_valid_attr_payload(payload: &[u8]) -> bool {
    unsafe { raw::bridlesnow_is_valid_attr_payload(payload.as_ptr(), payload.len()) }
}

/// Whether a wrapped block can go on with the line.
pub fn valid_wrapped_attr_continuation(line: &[u8]) -> bool {
    unsafe { raw::bridlesnow_valid_wrapped_attr_continuation(line.as_ptr(), line.len()) }
}

/// What parts the attributes of a block at a brace: spaces, or also CR (an LF before the close is 4 in both).
#[derive(Clone, Copy, Debug, PartialEq, Eq)]
pub enum Mode {
    Strict,
    Loose,
}

/// Whether `lang` may have any value, or has to be empty or a language tag that is well-formed by RFC 5646 section 2.1.
#[derive(Clone, Copy, Debug, PartialEq, Eq)]
pub enum Tags {
    Any,
    WellFormed,
}

/// What is said of a block's lines, also where its set is refused.
#[derive(Clone, Copy, Debug, PartialEq, Eq, Default)]
pub struct Lines {
    /// How many lines it takes, 0 where there is no block.
    pub count: usize,
    /// The place behind it, or that of the line where there is none.
    pub next: usize,
    /// The sum of the lengths of the lines that were joined.
    pub lookahead: usize,
    /// How many bytes the joined text has.
    pub joined: usize,
}

impl Lines {
    fn of(told: &[usize]) -> Self {
        Lines { count: told[0], next: told[1], lookahead: told[2], joined: told[3] }
    }
}

/// What is said of a brace run that may be refused only for a line too far left.
#[derive(Clone, Copy, Debug, PartialEq, Eq)]
pub enum BraceRun {
    /// It is refused and takes so many lines.
    Lines(usize),
    /// It isn't; a comment run was looked at over so many lines, `usize::MAX` where they reach to the end.
    No(usize),
}

/// An item of a block: its name, and the bytes that its value stands for, which may be none.
pub type Item<'a> = (&'a str, &'a str);

/// A token of a payload: what it is, with the range of its name or key, and for a key that of what stands behind its `=`, quotes too.
#[derive(Clone, Debug, PartialEq, Eq)]
pub enum Token {
    Tag(Range<usize>),
    Id(Range<usize>),
    Class(Range<usize>),
    Plain(Range<usize>, Range<usize>),
    Quoted(Range<usize>, Range<usize>),
    Bare(Range<usize>),
}

/// The tokens of a payload one by one; `Err` with the place at which the bytes stop being a token, and then none.
#[derive(Clone, Debug)]
pub struct Tokens<'a> {
    payload: &'a [u8],
    at: usize,
    mode: Mode,
    over: bool,
}

/// The tokens of the bytes of a payload, as [`payload_at`] hands it back.
pub fn tokens(payload: &[u8], mode: Mode) -> Tokens<'_> {
    Tokens { payload, at: 0, mode, over: false }
}

impl Iterator for Tokens<'_> {
    type Item = Result<Token, usize>;

    fn next(&mut self) -> Option<Self::Item> {
        let mut told = [0usize; 4];
        if self.over {
            return None;
        }
        let found = unsafe {
            raw::bridlesnow_next_token(
                self.payload.as_ptr(), self.payload.len(), self.at, u8::from(self.mode == Mode::Loose), told.as_mut_ptr(), told.len(),
            )
        };
        let [kind, from, to, end] = told;
        self.at = end;
        self.over = !found;
        Some(Ok(match kind {
            1 => Token::Tag(from..to),
            2 => Token::Id(from..to),
            3 => Token::Class(from..to),
            4 => Token::Plain(from..to, to + 1..end),
            5 => Token::Quoted(from..to, to + 1..end),
            6 => Token::Bare(from..to),
            7 => return None,
            _ => return Some(Err(from)),
        }))
    }
}

/// The payload of the block whose brace stands at `place`, which is UTF-8, whether it has a reading or not.
pub fn payload_at(text: &[u8], place: usize) -> Option<&[u8]> {
    let mut told = [0usize; 2];
    let found = unsafe { raw::bridlesnow_payload_at(text.as_ptr(), text.len(), place, told.as_mut_ptr(), told.len()) };
    found.then(|| &text[told[0]..told[1]])
}

/// The side on which a column's text stands.
#[derive(Clone, Copy, Debug, PartialEq, Eq)]
pub enum Align {
    Left,
    Right,
    Center,
}

/// The height at which a column's text stands.
#[derive(Clone, Copy, Debug, PartialEq, Eq)]
pub enum Valign {
    Top,
    Middle,
    Bottom,
}

/// A column of a valve table. The width is its bytes as they are written, backslashes too; that of a bare `widths` has none.
#[derive(Clone, Copy, Debug, PartialEq, Eq)]
pub struct Column<'a> {
    pub align: Option<Align>,
    pub valign: Option<Valign>,
    pub width: Option<&'a [u8]>,
}

/// Why a block at a brace isn't read, and where.
#[derive(Clone, Copy, Debug, PartialEq, Eq)]
pub struct Unread {
    pub refusal: Refusal,
    /// For 5 how many bytes of the payload, up to the end of a character, can still be continued to one that has a reading; counted from behind the brace.
    pub place: Option<usize>,
}

impl Unread {
    fn of(refusal: Refusal, place: usize) -> Self {
        Unread { refusal, place: (refusal == Refusal(5)).then_some(place) }
    }
}

impl fmt::Display for Unread {
    fn fmt(&self, f: &mut fmt::Formatter<'_>) -> fmt::Result {
        self.refusal.fmt(f)?;
        self.place.map_or(Ok(()), |place| write!(f, " behind byte {place} of the payload"))
    }
}

impl std::error::Error for Unread {}

/// Why a sheet has no table, and where.
#[derive(Clone, Copy, Debug, PartialEq, Eq)]
pub struct NoTable {
    pub refusal: Refusal,
    /// The first line and the line count of the block that is refused, 0 and 0 where no block is.
    pub line: usize,
    pub lines: usize,
    /// For 21 the first variant that has one valve at two wheels, else 0.
    pub variant: usize,
}

/// Memory for the calls, to be used again and again.
pub struct Reader {
    join: Vec<u8>,
    other_join: Vec<u8>,
    out: Vec<u8>,
}

impl Default for Reader {
    fn default() -> Self {
        Self::new()
    }
}

impl Reader {
    /// With room for every text.
    pub fn new() -> Self {
        Self::with_room(MAX, LINE)
    }

    /// With `join` bytes to join the lines of each block in and `out` bytes for canonical text: what doesn't fit is refused by 9 or 10.
    pub fn with_room(join: usize, out: usize) -> Self {
        Reader { join: vec![0; join], other_join: vec![0; join], out: vec![0; out] }
    }

    /// The first `len` bytes that were written. Canonical text over UTF-8 is UTF-8; where the bytes that were read aren't, it is refused by 2 here.
    fn canonical(&self, len: usize) -> Result<&str, Refusal> {
        std::str::from_utf8(&self.out[..len]).map_err(|_| Refusal(2))
    }

    /// What the last call that joined lines left in the join buffer.
    pub fn joined(&self, len: usize) -> &[u8] {
        &self.join[..len.min(self.join.len())]
    }

    /// The block whose brace stands at `place`: the place behind it and its canonical text.
    pub fn read_attrs_at(&mut self, text: &[u8], place: usize, mode: Mode) -> Result<(usize, &str), Unread> {
        let mut told = [0usize; 3];
        let number = unsafe {
            raw::bridlesnow_read_attrs_at(
                text.as_ptr(), text.len(), place, u8::from(mode == Mode::Loose),
                self.out.as_mut_ptr(), self.out.len(), told.as_mut_ptr(), told.len(),
            )
        };
        self.at_brace(number, told)
    }

    fn at_brace(&self, number: u8, told: [usize; 3]) -> Result<(usize, &str), Unread> {
        let [next, len, place] = told;
        let canonical = granted(number).and_then(|()| self.canonical(len)).map_err(|refusal| Unread::of(refusal, place))?;
        Ok((next, canonical))
    }

    /// The same, with `lang` empty or a well-formed language tag: 13 where it is neither. With `Tags::Any` it is `read_attrs_at`.
    pub fn read_attrs_at_tags(&mut self, text: &[u8], place: usize, mode: Mode, tags: Tags) -> Result<(usize, &str), Unread> {
        let mut told = [0usize; 3];
        let number = unsafe {
            raw::bridlesnow_read_attrs_at_tags(
                text.as_ptr(), text.len(), place, u8::from(mode == Mode::Loose), u8::from(tags == Tags::WellFormed),
                self.out.as_mut_ptr(), self.out.len(), told.as_mut_ptr(), told.len(),
            )
        };
        self.at_brace(number, told)
    }

    /// The same by a second reader, in one walk over the bytes: it answers alike, which is proved. The desktop tool takes this one; the display keeps the first.
    pub fn read_attrs_once(&mut self, text: &[u8], place: usize, mode: Mode, tags: Tags) -> Result<(usize, &str), Unread> {
        let mut told = [0usize; 3];
        let number = unsafe {
            raw::bridlesnow_read_attrs_once(
                text.as_ptr(), text.len(), place, u8::from(mode == Mode::Loose), u8::from(tags == Tags::WellFormed),
                self.out.as_mut_ptr(), self.out.len(), told.as_mut_ptr(), told.len(),
            )
        };
        self.at_brace(number, told)
    }

    /// One line of blocks.
    pub fn parse_standalone_attrs(&mut self, text: &[u8], line: usize) -> Result<&str, Refusal> {
        let mut told = [0usize; 1];
        granted(unsafe {
            raw::bridlesnow_parse_standalone_attrs(
                text.as_ptr(), text.len(), line,
                self.out.as_mut_ptr(), self.out.len(), told.as_mut_ptr(), told.len(),
            )
        })?;
        self.canonical(told[0])
    }

    /// The sets of two lines made into one: what the variant's line says wins. The number with a refusal says where: 1 the common line, 2 the
    /// variant's, 3 the merge, 0 the writing.
    pub fn merge_lines(&mut self, text: &[u8], common: usize, variant: usize) -> Result<&str, (Refusal, usize)> {
        let mut told = [0usize; 2];
        let number = unsafe {
            raw::bridlesnow_merge_lines(
                text.as_ptr(), text.len(), common, variant,
                self.out.as_mut_ptr(), self.out.len(), told.as_mut_ptr(), told.len(),
            )
        };
        granted(number).map_err(|refusal| (refusal, told[0]))?;
        self.canonical(told[1]).map_err(|refusal| (refusal, 0))
    }

    fn block(&self, number: u8, told: [usize; 5]) -> Result<(Lines, &str), (Refusal, Lines)> {
        let lines = Lines::of(&told);
        granted(number).map_err(|refusal| (refusal, lines))?;
        let text = self.canonical(told[4]).map_err(|refusal| (refusal, lines))?;
        Ok((lines, text))
    }

    /// The block of one or more lines that begins at a line.
    pub fn parse_standalone_attrs_block(&mut self, text: &[u8], line: usize) -> Result<(Lines, &str), (Refusal, Lines)> {
        let mut told = [0usize; 5];
        let number = unsafe {
            raw::bridlesnow_parse_standalone_attrs_block(
                text.as_ptr(), text.len(), line, self.join.as_mut_ptr(), self.join.len(),
                self.out.as_mut_ptr(), self.out.len(), told.as_mut_ptr(), told.len(),
            )
        };
        self.block(number, told)
    }

    /// The wrapped run at a line, also of one line; `base` is added to the column of the first line's brace.
    pub fn wrapped_attrs_run_at(&mut self, text: &[u8], line: usize, base: usize) -> Result<(Lines, &str), (Refusal, Lines)> {
        let mut told = [0usize; 5];
        let number = unsafe {
            raw::bridlesnow_wrapped_attrs_run_at(
                text.as_ptr(), text.len(), line, base, self.join.as_mut_ptr(), self.join.len(),
                self.out.as_mut_ptr(), self.out.len(), told.as_mut_ptr(), told.len(),
            )
        };
        self.block(number, told)
    }

    /// The block whose first line begins at byte `at` of a text that [`check_text`] took; over bytes that aren't UTF-8 it is refused by 2.
    pub fn read_block_at(&mut self, text: &[u8], at: usize) -> Result<(Lines, &str), (Refusal, Lines)> {
        let mut told = [0usize; 5];
        let number = unsafe {
            raw::bridlesnow_read_block_at(
                text.as_ptr(), text.len(), at, self.join.as_mut_ptr(), self.join.len(),
                self.out.as_mut_ptr(), self.out.len(), told.as_mut_ptr(), told.len(),
            )
        };
        self.block(number, told)
    }

    /// The blocks of one or more lines at two lines made into one: what the variant's block says wins. Answers the lines of both; the number with a
    /// refusal says where: 1 the common block, 2 the variant's, 3 the merge or its writing.
    pub fn merge_blocks(&mut self, text: &[u8], common: usize, variant: usize) -> Result<(usize, usize, &str), (Refusal, usize)> {
        let mut told = [0usize; 4];
        let number = unsafe {
            raw::bridlesnow_merge_blocks(
                text.as_ptr(), text.len(), common, variant,
                self.join.as_mut_ptr(), self.join.len(), self.other_join.as_mut_ptr(), self.other_join.len(),
                self.out.as_mut_ptr(), self.out.len(), told.as_mut_ptr(), told.len(),
            )
        };
        granted(number).map_err(|refusal| (refusal, told[0]))?;
        let text = self.canonical(told[1]).map_err(|refusal| (refusal, 3))?;
        Ok((told[2], told[3], text))
    }

    /// The block of one or more lines at a line without its key `loose`, which is taken out where it has no value: whether that was done, the block's
    /// lines, and the canonical text of what is left, none where nothing is.
    pub fn consume_loose(&mut self, text: &[u8], line: usize) -> Result<(bool, Lines, Option<&str>), (Refusal, Lines)> {
        let mut told = [0usize; 6];
        let number = unsafe {
            raw::bridlesnow_consume_loose(
                text.as_ptr(), text.len(), line, self.join.as_mut_ptr(), self.join.len(),
                self.out.as_mut_ptr(), self.out.len(), told.as_mut_ptr(), told.len(),
            )
        };
        let (acted, lines) = (told[0] == 1, Lines::of(&told[2..]));
        // 12 is the writer's word for an empty set, and no refusal of the block.
        if number == 12 {
            return Ok((acted, lines, None));
        }
        granted(number).map_err(|refusal| (refusal, lines))?;
        let text = self.canonical(told[1]).map_err(|refusal| (refusal, lines))?;
        Ok((acted, lines, Some(text)))
    }

    /// Item `n`, counted from 0, of the block of one or more lines at a line, and how many items it has: none where that is no more than `n`. The items are
    /// those of the canonical text, each class once; their values are unescaped.
    pub fn item_at(&mut self, text: &[u8], line: usize, n: usize) -> Result<(usize, Option<Item<'_>>), (Refusal, Lines)> {
        let mut told = [0usize; 7];
        let number = unsafe {
            raw::bridlesnow_item_at(
                text.as_ptr(), text.len(), line, n, self.join.as_mut_ptr(), self.join.len(),
                self.out.as_mut_ptr(), self.out.len(), told.as_mut_ptr(), told.len(),
            )
        };
        granted(number).map_err(|refusal| (refusal, Lines::of(&told[3..])))?;
        self.item(n, told[0], told[1], told[2]).map_err(|refusal| (refusal, Lines::of(&told[3..])))
    }

    /// Value `n`, counted from 0, of those that the block of one or more lines at a line has under a name, and how many there are: one or none under `id` or a
    /// key, one for each class under `class`. It is unescaped, and an empty one is there.
    pub fn value_at(&mut self, text: &[u8], line: usize, name: &[u8], n: usize) -> Result<(usize, Option<&str>), (Refusal, Lines)> {
        let mut told = [0usize; 6];
        let number = unsafe {
            raw::bridlesnow_value_at(
                text.as_ptr(), text.len(), line, name.as_ptr(), name.len(), n, self.join.as_mut_ptr(), self.join.len(),
                self.out.as_mut_ptr(), self.out.len(), told.as_mut_ptr(), told.len(),
            )
        };
        granted(number).map_err(|refusal| (refusal, Lines::of(&told[2..])))?;
        let (count, item) = self.item(n, told[0], 0, told[1]).map_err(|refusal| (refusal, Lines::of(&told[2..])))?;
        Ok((count, item.map(|(_, value)| value)))
    }

    /// The same of the block whose brace stands at `place`: item `n`.
    pub fn attrs_item_at(&mut self, text: &[u8], place: usize, mode: Mode, n: usize) -> Result<(usize, Option<Item<'_>>), Unread> {
        let mut told = [0usize; 5];
        let number = unsafe {
            raw::bridlesnow_attrs_item_at(
                text.as_ptr(), text.len(), place, u8::from(mode == Mode::Loose), n,
                self.out.as_mut_ptr(), self.out.len(), told.as_mut_ptr(), told.len(),
            )
        };
        granted(number).and_then(|()| self.item(n, told[0], told[1], told[2])).map_err(|refusal| Unread::of(refusal, told[4]))
    }

    /// And value `n` under a name.
    pub fn attrs_value_at(&mut self, text: &[u8], place: usize, mode: Mode, name: &[u8], n: usize) -> Result<(usize, Option<&str>), Unread> {
        let mut told = [0usize; 4];
        let number = unsafe {
            raw::bridlesnow_attrs_value_at(
                text.as_ptr(), text.len(), place, u8::from(mode == Mode::Loose), name.as_ptr(), name.len(), n,
                self.out.as_mut_ptr(), self.out.len(), told.as_mut_ptr(), told.len(),
            )
        };
        let (count, item) =
            granted(number).and_then(|()| self.item(n, told[0], 0, told[1])).map_err(|refusal| Unread::of(refusal, told[3]))?;
        Ok((count, item.map(|(_, value)| value)))
    }

    /// What was laid of an item: a name of `name` bytes, and behind it a value of `value` bytes.
    fn item(&self, n: usize, count: usize, name: usize, value: usize) -> Result<(usize, Option<Item<'_>>), Refusal> {
        let part = |from: usize, to: usize| std::str::from_utf8(&self.out[from..to]).map_err(|_| Refusal(2));
        Ok((count, if n < count { Some((part(0, name)?, part(name, name + value)?)) } else { None }))
    }

    /// The columns that the block of one or more lines at a line says, and the block's lines.
    pub fn table_columns<'a>(&'a mut self, text: &'a [u8], line: usize) -> Result<(Vec<Column<'a>>, usize), Refusal> {
        let (mut numbers, mut told) = ([0usize; 5 * 32], [0usize; 3]);
        granted(unsafe {
            raw::bridlesnow_table_columns(
                text.as_ptr(), text.len(), line, self.join.as_mut_ptr(), self.join.len(),
                numbers.as_mut_ptr(), numbers.len(), told.as_mut_ptr(), told.len(),
            )
        })?;
        let join: &'a [u8] = &self.join;
        let column = |n: &[usize]| Column {
            align: [None, Some(Align::Left), Some(Align::Right), Some(Align::Center)][n[0]],
            valign: [None, Some(Valign::Top), Some(Valign::Middle), Some(Valign::Bottom)][n[1]],
            width: [None, Some(&text[..0]), text.get(n[3]..n[4]), join.get(n[3]..n[4])][n[2]],
        };
        Ok((numbers.chunks(5).take(told[0]).map(column).collect(), told[1]))
    }

    fn measured(number: u8, told: [usize; 4]) -> Result<Lines, (Refusal, Lines)> {
        granted(number).map(|()| Lines::of(&told)).map_err(|refusal| (refusal, Lines::of(&told)))
    }

    /// The lines of the block at a line that isn't indented.
    pub fn standalone_attrs_block_len(&mut self, text: &[u8], line: usize) -> Result<Lines, (Refusal, Lines)> {
        let mut told = [0usize; 4];
        let number = unsafe {
            raw::bridlesnow_standalone_attrs_block_len(
                text.as_ptr(), text.len(), line, self.join.as_mut_ptr(), self.join.len(), told.as_mut_ptr(), told.len(),
            )
        };
        Self::measured(number, told)
    }

    /// The lines of a wrapped block, whatever its indentation.
    pub fn indented_wrapped_attrs_block_len(&mut self, text: &[u8], line: usize) -> Result<Lines, (Refusal, Lines)> {
        let mut told = [0usize; 4];
        let number = unsafe {
            raw::bridlesnow_indented_wrapped_attrs_block_len(
                text.as_ptr(), text.len(), line, self.join.as_mut_ptr(), self.join.len(), told.as_mut_ptr(), told.len(),
            )
        };
        Self::measured(number, told)
    }

    /// The lines of the block at a line that stands in a column.
    pub fn attrs_block_len_at(&mut self, text: &[u8], line: usize, column: usize) -> Result<Lines, (Refusal, Lines)> {
        let mut told = [0usize; 4];
        let number = unsafe {
            raw::bridlesnow_attrs_block_len_at(
                text.as_ptr(), text.len(), line, column,
                self.join.as_mut_ptr(), self.join.len(), told.as_mut_ptr(), told.len(),
            )
        };
        Self::measured(number, told)
    }

    /// Whether the brace run at a line is refused only for a line too far left, with the lookahead and how many bytes were joined.
    pub fn refused_brace_run(&mut self, text: &[u8], line: usize) -> Result<(BraceRun, usize, usize), Refusal> {
        let mut told = [0usize; 4];
        granted(unsafe {
            raw::bridlesnow_refused_brace_run(
                text.as_ptr(), text.len(), line, self.join.as_mut_ptr(), self.join.len(), told.as_mut_ptr(), told.len(),
            )
        })?;
        let run = if told[0] == 1 { BraceRun::Lines(told[1]) } else { BraceRun::No(told[1]) };
        Ok((run, told[2], told[3]))
    }

    /// Whether the text ends in such a run, with the lookahead of the runs made.
    pub fn ends_in_refused_brace_run(&mut self, text: &[u8]) -> Result<(bool, usize), Refusal> {
        let mut told = [0usize; 2];
        granted(unsafe {
            raw::bridlesnow_ends_in_refused_brace_run(
                text.as_ptr(), text.len(), self.join.as_mut_ptr(), self.join.len(), told.as_mut_ptr(), told.len(),
            )
        })?;
        Ok((told[0] == 1, told[1]))
    }

    /// The report on a sheet, handed to `lay` part by part: a line for each block, or one line for a text that gives 1 or 2, which is refused all the
    /// same.
    pub fn report(&mut self, text: &[u8], mut lay: impl FnMut(&[u8])) -> Result<(), Refusal> {
        let mut told = [0usize; 3];
        let mut number = unsafe {
            raw::bridlesnow_report_start(
                text.as_ptr(), text.len(), self.join.as_mut_ptr(), self.join.len(),
                self.out.as_mut_ptr(), self.out.len(), told.as_mut_ptr(), told.len(),
            )
        };
        loop {
            let [len, at, line] = told;
            lay(&self.out[..len]);
            if line == 0 {
                return granted(number);
            }
            number = unsafe {
                raw::bridlesnow_report_part(
                    text.as_ptr(), text.len(), at, line, self.join.as_mut_ptr(), self.join.len(),
                    self.out.as_mut_ptr(), self.out.len(), told.as_mut_ptr(), told.len(),
                )
            };
        }
    }

    /// The dealers' table of a sheet.
    pub fn variants(&mut self, text: &[u8]) -> Result<Valves, NoTable> {
        let mut cells = [UNFILLED; VARIANTS * WHEELS];
        let mut told = [0usize; 3];
        let number = unsafe {
            raw::bridlesnow_variants(
                text.as_ptr(), text.len(), self.join.as_mut_ptr(), self.join.len(),
                cells.as_mut_ptr(), cells.len(), told.as_mut_ptr(), told.len(),
            )
        };
        let [line, lines, variant] = told;
        granted(number).map_err(|refusal| NoTable { refusal, line, lines, variant })?;
        Ok(from_fn(|variant| from_fn(|wheel| u8::try_from(cells[variant * WHEELS + wheel]).ok())))
    }

    /// Counts one sheet more; one that is too long or isn't UTF-8 is counted too. On a refusal `totals` stay as they are.
    pub fn feed(&mut self, totals: &mut Totals, text: &[u8]) -> Result<(), Refusal> {
        granted(unsafe {
            raw::bridlesnow_totals_feed(
                totals.as_mut_ptr(), TOTALS, text.as_ptr(), text.len(), self.join.as_mut_ptr(), self.join.len(),
            )
        })
    }

    /// The index of a sheet.
    pub fn build_index(&mut self, text: &[u8]) -> Result<Index, Refusal> {
        let (mut rows, mut out, mut told) = (vec![0usize; RECORDS * RECORD], vec![0u8; INDEX], [0usize; 2]);
        granted(unsafe {
            raw::bridlesnow_index_build(
                text.as_ptr(), text.len(), self.join.as_mut_ptr(), self.join.len(),
                rows.as_mut_ptr(), rows.len(), out.as_mut_ptr(), out.len(), told.as_mut_ptr(), told.len(),
            )
        })?;
        let [records, bytes] = told;
        rows.truncate(records * RECORD);
        out.truncate(bytes);
        Ok(Index { text: out, rows })
    }

    /// The index of the new text, from that of the old one, after lines `a` to `b` were replaced.
    pub fn mend_index(&mut self, old: &[u8], new: &[u8], a: usize, b: usize, index: &[u8]) -> Result<Index, Refusal> {
        let (mut rows, mut out, mut told) = (vec![0usize; RECORDS * RECORD], vec![0u8; INDEX], [0usize; 2]);
        granted(unsafe {
            raw::bridlesnow_index_mend(
                old.as_ptr(), old.len(), new.as_ptr(), new.len(), a, b,
                index.as_ptr(), index.len(), self.join.as_mut_ptr(), self.join.len(),
                rows.as_mut_ptr(), rows.len(), out.as_mut_ptr(), out.len(), told.as_mut_ptr(), told.len(),
            )
        })?;
        let [records, bytes] = told;
        rows.truncate(records * RECORD);
        out.truncate(bytes);
        Ok(Index { text: out, rows })
    }
}

#[cfg(test)]
mod tests {
    use super::*;
    use std::ptr::{null, null_mut};

    fn at_brace(text: &str) -> Result<(usize, String), Unread> {
        Reader::new().read_attrs_at(text.as_bytes(), 0, Mode::Strict).map(|(next, canonical)| (next, canonical.to_string()))
    }

    /// A refusal at a brace that has no place, and 5, which has one.
    fn refused<T>(number: u8) -> Result<T, Unread> {
        Err(Unread { refusal: Refusal(number), place: None })
    }
    fn wrong_at<T>(place: usize) -> Result<T, Unread> {
        Err(Unread { refusal: Refusal(5), place: Some(place) })
    }

    /// The twelve cases of docs/SCOPE.md.
    #[test]
    fn cases() {
        let read = |next: usize, canonical: &str| Ok((next, canonical.to_string()));
        assert_eq!(at_brace("{:}"), read(3, "{lang=\"\"}"));
        assert_eq!(at_brace("{class=\"\"}"), read(10, "{class=\"\"}"));
        assert_eq!(at_brace("{_a}"), wrong_at(2));
        assert_eq!(at_brace("{:abcdefgh}"), read(11, "{lang=\"abcdefgh\"}"));
        assert_eq!(at_brace("{:abcdefghi}"), wrong_at(9));
        assert_eq!(at_brace("{a=}"), wrong_at(2));
        assert_eq!(at_brace("{}"), wrong_at(0));
        assert_eq!(at_brace("{a=\"1\"b}"), wrong_at(5));
        assert_eq!(at_brace("{a=\"}\"}"), read(7, "{a=\"}\"}"));
        assert_eq!(at_brace("{k=1 k=2}"), read(9, "{k=\"2\"}"));
        assert_eq!(at_brace("{a"), refused(4));
        assert_eq!(at_brace("{.a #x k=1 .b}"), read(14, "{class=\"a\" class=\"b\" id=\"x\" k=\"1\"}"));
    }

    #[test]
    fn numbers_at_a_brace() {
        let mut reader = Reader::new();
        assert_eq!(reader.read_attrs_at(&vec![b'{'; MAX + 1], 0, Mode::Strict), refused(1));
        assert_eq!(reader.read_attrs_at(b"a{.b}", 0, Mode::Strict), refused(3));
        assert_eq!(reader.read_attrs_at(b"a{.b}", usize::MAX, Mode::Strict), refused(3));
        assert_eq!(reader.read_attrs_at(b"a{.b}c", 1, Mode::Strict), Ok((5, "{class=\"b\"}")));
        assert_eq!(reader.read_attrs_at(b"{k=\xff}", 0, Mode::Strict), refused(2));
        // The block is read, and the writer then refuses the text for what stands behind the block.
        assert_eq!(reader.read_attrs_at(b"{.a}\xff", 0, Mode::Strict), refused(2));
        assert_eq!(reader.read_attrs_at(b"{.a\r.b}", 0, Mode::Strict), wrong_at(2));
        assert_eq!(reader.read_attrs_at(b"{.a\r.b}", 0, Mode::Loose), Ok((7, "{class=\"a\" class=\"b\"}")));
        let many = |word: &str, n: usize| (0..n).map(|i| format!(" {word}{i}")).collect::<String>();
        assert!(reader.read_attrs_at(format!("{{{}}}", many(".c", 64)).as_bytes(), 0, Mode::Strict).is_ok());
        assert_eq!(reader.read_attrs_at(format!("{{{}}}", many(".c", 65)).as_bytes(), 0, Mode::Strict), refused(6));
        assert!(reader.read_attrs_at(format!("{{{}}}", many("k", 64)).as_bytes(), 0, Mode::Strict).is_ok());
        assert_eq!(reader.read_attrs_at(format!("{{{}}}", many("k", 65)).as_bytes(), 0, Mode::Strict), refused(7));
    }

    /// Counted from behind the brace, in bytes; limits don't count; in the mode that is asked for.
    #[test]
    fn places_at_a_brace() {
        let mut reader = Reader::new();
        for (text, place) in [
            ("{ }", 1), ("{_a b}", 2), ("{_}", 1), ("{:a-}", 3), ("{:a--b}", 3), ("{:-}", 1), ("{#-}", 1), ("{a=b\"c\"}", 3), ("{a= b}", 2), ("{a\\}}", 1),
            ("{\\\"}", 0), ("{\"}\"}", 0), ("{é}", 0), ("{:aé}", 2), ("{a=é\\ }", 4), ("{a\t}", 1), ("{a=\"\t\" =}", 6),
        ] {
            assert_eq!(at_brace(text), wrong_at(place), "{text}");
        }
        assert_eq!(reader.read_attrs_at(b"x{a=}", 1, Mode::Strict), wrong_at(2));
        assert_eq!(reader.read_attrs_at(b"{a\r=}", 0, Mode::Strict), wrong_at(1));
        assert_eq!(reader.read_attrs_at(b"{a\r=}", 0, Mode::Loose), wrong_at(2));
        assert_eq!(reader.read_attrs_at(format!("{{{}=}}", ".a ".repeat(65)).as_bytes(), 0, Mode::Strict), wrong_at(195));
        assert_eq!(reader.read_attrs_at(format!("{{{}=}}", "a".repeat(65_532)).as_bytes(), 0, Mode::Strict), wrong_at(65_533));
        assert_eq!(reader.read_attrs_at_tags(b"{:1 =}", 0, Mode::Strict, Tags::WellFormed), wrong_at(3));
        assert_eq!(reader.read_attrs_at_tags(b"{:1}", 0, Mode::Strict, Tags::WellFormed), refused(13));
        let said = |unread: Unread| unread.to_string();
        assert_eq!(at_brace("{a=}").map_err(said), Err("no reading behind byte 2 of the payload".to_string()));
        assert_eq!(at_brace("{a").map_err(said), Err("no close".to_string()));
    }

    #[test]
    fn tags_at_a_brace() {
        let mut reader = Reader::new();
        let mut number = |text: &str, tags: Tags| reader.read_attrs_at_tags(text.as_bytes(), 0, Mode::Strict, tags).map_or_else(|unread| unread.refusal.0, |_| 0);
        // The value that counts is the last one, unescaped, wherever it is said.
        for good in ["{:en}", "{:1 :en}", "{lang=1 :en-GB-oed}", "{:I-AMI}", r#"{lang="en\-GB"}"#, "{:}", "{lang}", r#"{lang=""}"#, "{:1 lang}", "{LANG=1}", "{.a k=1}", "{:x-1-1}"] {
            assert_eq!((number(good, Tags::WellFormed), number(good, Tags::Any)), (0, 0), "{good}");
        }
        for bad in ["{:1}", "{:en :1}", "{:en lang=1}", r#"{lang="e\n"}"#, r#"{lang=" en"}"#, "{lang=de_DE}", "{lang=en-}", "{:deutsch-DE-1}", "{lang=\u{e9}}"] {
            assert_eq!((number(bad, Tags::WellFormed), number(bad, Tags::Any)), (13, 0), "{bad}");
        }
        // Behind 5, and before 6 and 7, which look at what is listed.
        assert_eq!(number("{:1 =}", Tags::WellFormed), 5);
        let many = |word: &str, last: &str| format!("{{{}{last}}}", (0..200).map(|i| format!(" {word}{i}")).collect::<String>());
        assert_eq!((number(&many("k", " :1"), Tags::WellFormed), number(&many("k", " :en"), Tags::WellFormed)), (13, 7));
        assert_eq!((number(&many(".c", " :1"), Tags::WellFormed), number(&many(".c", " :en"), Tags::WellFormed)), (13, 6));
        // A long tag.
        assert_eq!(number(&format!("{{:x{}}}", "-1".repeat(32000)), Tags::WellFormed), 0);
        assert_eq!(reader.read_attrs_at_tags(b"{k=\xff :1}", 0, Mode::Strict, Tags::WellFormed), refused(2));
        assert_eq!(reader.read_attrs_at_tags(b"a{:de-DE}", 1, Mode::Loose, Tags::WellFormed), Ok((9, "{lang=\"de-DE\"}")));
    }

    /// Both readers on the same inputs: every number, both modes, both choices of tags.
    #[test]
    fn two_readers() {
        let (mut first, mut second) = (Reader::new(), Reader::new());
        let many = |word: &str, last: &str| format!("{{{}{last}}}", (0..66).map(|i| format!(" {word}{i}")).collect::<String>());
        let mut texts: Vec<Vec<u8>> = [
            "", "a", "{", "{}", "{ }", "{.a}", "{#v17 .wheel side=\"left\"}", "{=", "{=\\}", "{=\"}", "{=\\}}", "{=\"}\"}", "{a=}", "{.}", "{:a-}", "{_a}", "{_a=1}", "{a=\"}\"}", "{a='\\''}",
            "{\na}", "{a\rb}", "{class=\" a  b \"}", "{class=\"\"}", "{class}", "{k=1 k=2 id=x #y}", "{:1}", "{:1 :en}", "{:en lang=1}", "{:1 =}", "{a=\u{e9}}", "{\u{e9}}", "{a=1}}", "{a\"}",
        ].iter().map(|text| text.as_bytes().to_vec()).collect();
        for last in ["", " =", " :1", " :en"] {
            texts.extend([many(".c", last), many("k", last), many(".c", &many("k", last)[1..])].map(String::into_bytes));
        }
        texts.extend([b"{=\xff}".to_vec(), b"{=\xff".to_vec(), b"{k=\xff}".to_vec(), vec![b'{'; MAX + 1]]);
        for text in &texts {
            for place in [0, 1, text.len(), usize::MAX] {
                for mode in [Mode::Strict, Mode::Loose] {
                    for tags in [Tags::Any, Tags::WellFormed] {
                        assert_eq!(first.read_attrs_at_tags(text, place, mode, tags), second.read_attrs_once(text, place, mode, tags), "{text:?} {place}");
                    }
                }
            }
        }
    }

    #[test]
    fn texts_and_payloads() {
        assert!(is_utf8("gr\u{f6}\u{df}er".as_bytes()) && !is_utf8(b"\xc0\x80"));
        assert_eq!(check_text(b""), Ok(()));
        assert_eq!(check_text(&vec![b' '; MAX]), Ok(()));
        assert_eq!(check_text(&vec![b' '; MAX + 1]), Err(Refusal(1)));
        assert_eq!(check_text(b"\xff"), Err(Refusal(2)));
        assert!(parse_attrs(b"a b=1") && !parse_attrs(b"a\nb") && is_valid_attr_payload(b"a\nb") && !is_valid_attr_payload(b""));
        assert!(valid_wrapped_attr_continuation(b" b}") && !valid_wrapped_attr_continuation(b" =}x"));
    }

    #[test]
    fn lines_and_merges() {
        let mut reader = Reader::new();
        let text = b"{.wheel side=left}\r\ntext\n  {side=right #v17}{.b}\n{.a";
        assert_eq!(reader.parse_standalone_attrs(text, 1), Ok("{class=\"wheel\" side=\"left\"}"));
        assert_eq!(reader.parse_standalone_attrs(text, 2), Err(Refusal(3)));
        assert_eq!(reader.parse_standalone_attrs(text, 3), Ok("{side=\"right\" id=\"v17\" class=\"b\"}"));
        assert_eq!(reader.parse_standalone_attrs(text, 4), Err(Refusal(5)));
        assert_eq!(reader.parse_standalone_attrs(text, 0), Err(Refusal(3)));
        assert_eq!(reader.merge_lines(text, 1, 3), Ok("{class=\"wheel\" class=\"b\" side=\"right\" id=\"v17\"}"));
        assert_eq!(reader.merge_lines(text, 3, 1), Ok("{side=\"left\" id=\"v17\" class=\"b\" class=\"wheel\"}"));
        assert_eq!(reader.merge_lines(text, 2, 1), Err((Refusal(3), 1)));
        assert_eq!(reader.merge_lines(text, 1, 4), Err((Refusal(5), 2)));
        let classes = (0..33).map(|i| format!(" .c{i}")).collect::<String>();
        assert_eq!(reader.merge_lines(format!("{{{classes}}}\n{{{classes}}}").as_bytes(), 1, 2), Err((Refusal(6), 3)));
    }

    #[test]
    fn blocks() {
        let mut reader = Reader::new();
        let text = b"{#v17\n side=right}\n{.a}{.b}\n";
        let first = Lines { count: 2, next: 19, lookahead: 17, joined: 17 };
        assert_eq!(reader.parse_standalone_attrs_block(text, 1), Ok((first, "{id=\"v17\" side=\"right\"}")));
        assert_eq!(reader.joined(17), b"{#v17 side=right}");
        assert_eq!(reader.read_block_at(text, 0), Ok((first, "{id=\"v17\" side=\"right\"}")));
        let second = Lines { count: 1, next: 28, lookahead: 0, joined: 0 };
        assert_eq!(reader.read_block_at(text, 19), Ok((second, "{class=\"a\" class=\"b\"}")));
        let other = Lines { count: 1, next: 5, lookahead: 0, joined: 0 };
        assert_eq!(reader.read_block_at(b"{a=\xff}", 0), Err((Refusal(2), other)));
        let run = Lines { lookahead: 8, joined: 8, ..second };
        assert_eq!(reader.wrapped_attrs_run_at(text, 3, 0), Ok((run, "{class=\"a\" class=\"b\"}")));
        assert_eq!(reader.standalone_attrs_block_len(text, 1), Ok(first));
        assert_eq!(reader.standalone_attrs_block_len(b" {a}", 1), Err((Refusal(3), Lines::default())));
        assert_eq!(reader.indented_wrapped_attrs_block_len(text, 1), Ok(first));
        assert_eq!(reader.indented_wrapped_attrs_block_len(text, 3), Err((Refusal(5), Lines { count: 0, next: 19, ..Lines::default() })));
        assert_eq!(reader.attrs_block_len_at(text, 1, 0), Ok(first));
        let refused = Lines { count: 0, next: 0, lookahead: 5, joined: 5 };
        assert_eq!(reader.attrs_block_len_at(text, 1, 1), Err((Refusal(5), refused)));
        // A block keeps its lines where a limit refuses its set.
        let classes = (0..65).map(|i| format!(" .c{i}")).collect::<String>();
        let lines = Lines { count: 1, next: classes.len() + 2, lookahead: 0, joined: 0 };
        assert_eq!(reader.parse_standalone_attrs_block(format!("{{{classes}}}").as_bytes(), 1), Err((Refusal(6), lines)));
    }

    #[test]
    fn merged_blocks() {
        let mut reader = Reader::new();
        // A common line, a wrapped variant, a wrapped common block, plain text, a line that gives 5.
        let text = b"{.wheel side=left}\n{side=right\n #v17}\n{.b\n side=up}\ntext\n{.a";
        assert_eq!(reader.merge_blocks(text, 1, 2), Ok((1, 2, "{class=\"wheel\" side=\"right\" id=\"v17\"}")));
        assert_eq!((&reader.join[..3], &reader.other_join[..18]), (&b"\0\0\0"[..], &b"{side=right #v17}\0"[..]));
        assert_eq!(reader.merge_blocks(text, 2, 1), Ok((2, 1, "{side=\"left\" id=\"v17\" class=\"wheel\"}")));
        assert_eq!(reader.merge_blocks(text, 4, 2), Ok((2, 2, "{class=\"b\" side=\"right\" id=\"v17\"}")));
        assert_eq!((&reader.join[..12], &reader.other_join[..17]), (&b"{.b side=up}"[..], &b"{side=right #v17}"[..]));
        // A class of both is written once.
        assert_eq!(reader.merge_blocks(text, 1, 1), Ok((1, 1, "{class=\"wheel\" side=\"left\"}")));
        assert_eq!(reader.merge_blocks(text, 6, 2), Err((Refusal(3), 1)));
        assert_eq!(reader.merge_blocks(text, 7, 6), Err((Refusal(5), 1)));
        assert_eq!(reader.merge_blocks(text, 2, 7), Err((Refusal(5), 2)));
        assert_eq!(reader.merge_blocks(text, 2, 0), Err((Refusal(3), 2)));
        assert_eq!(reader.merge_blocks(b"{.a}\n\xff", 1, 1), Err((Refusal(2), 1)));
        let classes = (0..33).map(|i| format!(" .c{i}")).collect::<String>();
        assert_eq!(reader.merge_blocks(format!("{{{classes}}}\n{{{classes}\n b}}").as_bytes(), 1, 2), Err((Refusal(6), 3)));
        let keys = |word: &str| (0..33).map(|i| format!(" {word}{i}")).collect::<String>();
        assert_eq!(reader.merge_blocks(format!("{{{}}}\n{{{}\n b}}", keys("k"), keys("l")).as_bytes(), 1, 2), Err((Refusal(7), 3)));
        // As much room as is needed, and one byte less.
        assert!(Reader::with_room(17, 37).merge_blocks(text, 1, 2).is_ok());
        assert_eq!(Reader::with_room(17, 36).merge_blocks(text, 1, 2), Err((Refusal(10), 3)));
        assert_eq!(Reader::with_room(16, 37).merge_blocks(text, 1, 2), Err((Refusal(9), 2)));
        assert_eq!(Reader::with_room(16, 37).merge_blocks(text, 2, 1), Err((Refusal(9), 1)));
        assert!(Reader::with_room(0, 27).merge_blocks(text, 1, 1).is_ok());
        assert_eq!(Reader::with_room(0, 26).merge_blocks(text, 1, 1), Err((Refusal(10), 3)));
    }

    #[test]
    fn items_and_values() {
        let mut reader = Reader::new();
        let text = b"t\n{#v17 .a .b .a\n note=\"say \\\"x\\\"\" :en\n empty bare=''}\n";
        let items = [("id", "v17"), ("class", "a"), ("class", "b"), ("note", "say \"x\""), ("lang", "en"), ("empty", ""), ("bare", "")];
        let line = [&b"t "[..], &text[2..text.len() - 1]].concat().iter().map(|b| if *b == b'\n' { b' ' } else { *b }).collect::<Vec<u8>>();
        for n in 0..items.len() + 2 {
            let wanted = (items.len(), items.get(n).copied());
            assert_eq!(reader.item_at(text, 2, n), Ok(wanted));
            assert_eq!(reader.attrs_item_at(&line, 2, Mode::Strict, n), Ok(wanted));
        }
        // A value by its name: of the classes each once; an empty one, which is there, and one that isn't.
        for (name, n, count, value) in [
            ("id", 0, 1, Some("v17")), ("id", 1, 1, None), ("class", 0, 2, Some("a")), ("class", 1, 2, Some("b")), ("class", 2, 2, None),
            ("note", 0, 1, Some("say \"x\"")), ("lang", 0, 1, Some("en")), ("bare", 0, 1, Some("")), ("side", 0, 0, None), ("", usize::MAX, 0, None),
        ] {
            assert_eq!(reader.value_at(text, 2, name.as_bytes(), n), Ok((count, value)), "{name}");
            assert_eq!(reader.attrs_value_at(&line, 2, Mode::Strict, name.as_bytes(), n), Ok((count, value)), "{name}");
        }
        // Refusals: of the block, of its set, and of the room.
        assert_eq!(reader.item_at(b"t", 1, 0), Err((Refusal(3), Lines::default())));
        assert_eq!(reader.value_at(b"\xff", 1, b"id", 0), Err((Refusal(2), Lines::default())));
        assert_eq!(reader.attrs_item_at(b"{#}", 0, Mode::Strict, 0), Err(Unread { refusal: Refusal(5), place: Some(1) }));
        assert_eq!(reader.attrs_value_at(b"{a", 0, Mode::Loose, b"a", 0), Err(Unread { refusal: Refusal(4), place: None }));
        let lines = Lines { count: 1, next: 8, lookahead: 0, joined: 0 };
        assert_eq!(Reader::with_room(0, 3).item_at(b"{a=bcd}\n", 1, 0), Err((Refusal(10), lines)));
        assert_eq!(Reader::with_room(0, 3).value_at(b"{a=bcd}\n", 1, b"a", 0), Ok((1, Some("bcd"))));
        assert_eq!(Reader::with_room(0, 0).item_at(b"{a=bcd}\n", 1, 1), Ok((1, None)));
        assert_eq!(Reader::with_room(0, 4).attrs_item_at(b"{a=bcd}", 0, Mode::Loose, 0), Ok((1, Some(("a", "bcd")))));
    }

    #[test]
    fn payloads_and_tokens() {
        let text = b"see {:en #i .c k=v q=\"a \\\" b\" bare} there";
        let payload = payload_at(text, 4).unwrap();
        assert_eq!((payload, payload_at(text, 5), payload_at(b"{}", 0)), (&text[5..34], None, Some(&b""[..])));
        assert_eq!(
            tokens(payload, Mode::Strict).collect::<Result<Vec<_>, _>>(),
            Ok(vec![
                Token::Tag(1..3), Token::Id(5..6), Token::Class(8..9), Token::Plain(10..11, 12..13), Token::Quoted(14..15, 16..24), Token::Bare(25..29),
            ])
        );
        assert_eq!(tokens(b" a  .% b", Mode::Strict).collect::<Vec<_>>(), [Ok(Token::Bare(1..2)), Err(5)]);
        assert_eq!(tokens(b"a\tb", Mode::Strict).count(), 1);
        assert_eq!(tokens(b"", Mode::Loose).count(), 0);
    }

    #[test]
    fn loose_lists() {
        let mut reader = Reader::new();
        let text = b"{loose .tools}\n{loose}\n{loose=x}\n{.a\n loose=\"\"}\n{loose loose=x}\n{loose=x loose}\n{.loose #loose LOOSE loose-list}\ntext\n{loose";
        let one = |next| Lines { count: 1, next, lookahead: 0, joined: 0 };
        assert_eq!(reader.consume_loose(text, 1), Ok((true, one(15), Some("{class=\"tools\"}"))));
        assert_eq!(reader.consume_loose(text, 2), Ok((true, one(23), None)));
        assert_eq!(reader.consume_loose(text, 3), Ok((false, one(33), Some("{loose=\"x\"}"))));
        let wrapped = Lines { count: 2, next: 48, lookahead: 13, joined: 13 };
        assert_eq!(reader.consume_loose(text, 4), Ok((true, wrapped, Some("{class=\"a\"}"))));
        assert_eq!(reader.joined(13), b"{.a loose=\"\"}");
        // The last value counts.
        assert_eq!(reader.consume_loose(text, 6), Ok((false, one(64), Some("{loose=\"x\"}"))));
        assert_eq!(reader.consume_loose(text, 7), Ok((true, one(80), None)));
        // A class, an id and other names are something else.
        assert_eq!(reader.consume_loose(text, 8), Ok((false, one(113), Some("{class=\"loose\" id=\"loose\" LOOSE=\"\" loose-list=\"\"}"))));
        assert_eq!(reader.consume_loose(text, 9).map_err(|e| e.0), Err(Refusal(3)));
        assert_eq!(reader.consume_loose(text, 10).map_err(|e| e.0), Err(Refusal(5)));
        assert_eq!(reader.consume_loose(text, 11).map_err(|e| e.0), Err(Refusal(3)));
        assert_eq!(reader.consume_loose(b"{loose}\n\xff", 1), Err((Refusal(2), Lines::default())));
        // As much room as is needed, and one byte less; nothing needs none.
        assert!(Reader::with_room(13, 11).consume_loose(text, 4).is_ok());
        assert_eq!(Reader::with_room(13, 10).consume_loose(text, 4), Err((Refusal(10), wrapped)));
        assert_eq!(Reader::with_room(12, 11).consume_loose(text, 4).map_err(|e| e.0), Err(Refusal(9)));
        assert_eq!(Reader::with_room(0, 0).consume_loose(text, 2), Ok((true, one(23), None)));
    }

    #[test]
    fn valve_tables() {
        let mut reader = Reader::new();
        let text = b"{aligns=\"left,right,center,Left\" valigns=\"top,middle,bottom\" widths=\"10,20\\%,\"}\n{.valves\n widths=1}\n{widths}\n{.a}\ntext";
        let column = |align, valign, width| Column { align, valign, width };
        let first = vec![
            column(Some(Align::Left), Some(Valign::Top), Some(&b"10"[..])),
            column(Some(Align::Right), Some(Valign::Middle), Some(b"20\\%")),
            column(Some(Align::Center), Some(Valign::Bottom), Some(b"")),
            column(None, None, None),
        ];
        assert_eq!(reader.table_columns(text, 1), Ok((first, 1)));
        // Over the joined lines.
        assert_eq!(reader.table_columns(text, 2), Ok((vec![column(None, None, Some(&b"1"[..]))], 2)));
        assert_eq!(reader.table_columns(text, 4), Ok((vec![column(None, None, Some(&b""[..]))], 1)));
        assert_eq!(reader.table_columns(text, 5), Ok((vec![], 1)));
        assert_eq!(reader.table_columns(text, 6), Err(Refusal(3)));
        assert_eq!(reader.table_columns(b"{aligns=a}\n\xff", 1), Err(Refusal(2)));
        for (commas, many) in [(31, Ok(32)), (32, Err(Refusal(18)))] {
            for key in ["aligns", "valigns", "widths"] {
                let block = format!("{{{key}=\"{}\"}}", ",".repeat(commas));
                assert_eq!(reader.table_columns(block.as_bytes(), 1).map(|found| found.0.len()), many);
            }
        }
    }

    fn reported(reader: &mut Reader, text: &[u8]) -> (String, usize, Result<(), Refusal>) {
        let (mut report, mut parts) = (Vec::new(), 0);
        let answer = reader.report(text, |part| {
            report.extend_from_slice(part);
            parts += 1;
        });
        (String::from_utf8(report).unwrap(), parts, answer)
    }

    #[test]
    fn reports() {
        let mut reader = Reader::new();
        let sheet = b"{.wheel side=left}\ntext\n{#v17\n side=right}\n{.a}{.b side=\"x}y\"}\n";
        let lines = "block\t1\t1\t{class=\"wheel\" side=\"left\"}\nblock\t3\t2\t{id=\"v17\" side=\"right\"}\n\
                     block\t5\t1\t{class=\"a\" class=\"b\" side=\"x}y\"}\n";
        // Before each line the longest has to have room, so the smallest buffer takes a part for each.
        assert_eq!(reported(&mut reader, sheet), (lines.into(), 3, Ok(())));
        assert_eq!(reported(&mut Reader::with_room(MAX, 1 << 20), sheet), (lines.into(), 1, Ok(())));
        assert_eq!(reported(&mut reader, b""), ("".into(), 1, Ok(())));
        assert_eq!(reported(&mut reader, b"{.a}\n\xff"), ("refused\t0\t0\t2\n".into(), 1, Err(Refusal(2))));
        assert_eq!(reported(&mut reader, &vec![b'a'; MAX + 1]), ("refused\t0\t0\t1\n".into(), 1, Err(Refusal(1))));
        let classes = (0..65).map(|i| format!(" .c{i}")).collect::<String>();
        assert_eq!(reported(&mut reader, format!("\n{{{classes}}}").as_bytes()), ("refused\t2\t1\t6\n".into(), 1, Ok(())));
        assert_eq!(reported(&mut Reader::with_room(MAX - 1, LINE), sheet), ("".into(), 1, Err(Refusal(9))));
        assert_eq!(reported(&mut Reader::with_room(MAX, LINE - 1), sheet), ("".into(), 1, Err(Refusal(10))));
        assert_eq!(reported(&mut Reader::with_room(MAX, LINE - 1), b"\xff"), ("".into(), 1, Err(Refusal(2))));
    }

    /// The line of a cell's block; variants are counted from 1, wheels from 0.
    fn setting(variant: usize, wheel: usize, valve: usize) -> String {
        let name = ["front-left", "front-right", "rear-left", "rear-right"][wheel];
        format!("{{variant={variant} wheel={name} valve={valve}}}\n")
    }

    #[test]
    fn variants() {
        let mut reader = Reader::new();
        // Every cell, the last first: valves from 0 on in one sheet, to 255 in the other.
        for low in [0, 136] {
            let sheet = (0..VARIANTS * WHEELS).rev().map(|i| setting(i / WHEELS + 1, i % WHEELS, low + i)).collect::<String>();
            let table: Valves = from_fn(|variant| from_fn(|wheel| u8::try_from(low + variant * WHEELS + wheel).ok()));
            assert_eq!(reader.variants(sheet.as_bytes()), Ok(table));
        }
        let unfilled: Valves = [[None; WHEELS]; VARIANTS];
        assert_eq!(reader.variants(b""), Ok(unfilled));
        // A later block overrides, a block with none of the keys is passed over, and two variants may have one valve.
        let mut table = unfilled;
        (table[1][2], table[29][3]) = (Some(7), Some(7));
        let sheet = format!("{}{{.a}}\n{}text\n{{valve=7 wheel=\"rear\\-right\"\n variant=30}}\n", setting(2, 2, 6), setting(2, 2, 7));
        assert_eq!(reader.variants(sheet.as_bytes()), Ok(table));
    }

    /// The number, the memory for cells and that for numbers, as a caller from C sees them.
    fn laid(text: &[u8], join: &mut [u8], room: usize) -> (u8, [u16; 121], [usize; 4]) {
        let (mut cells, mut told) = ([777; 121], [99; 4]);
        let number = unsafe {
            raw::bridlesnow_variants(text.as_ptr(), text.len(), join.as_mut_ptr(), join.len(), cells.as_mut_ptr(), room, told.as_mut_ptr(), 4)
        };
        (number, cells, told)
    }

    #[test]
    fn room_for_cells() {
        let mut join = vec![0; MAX];
        let sheet = format!("{}{}{}", setting(1, 1, 0), setting(1, 3, 255), setting(30, 3, 8));
        let whole: [u16; 121] = from_fn(|i| match i {
            1 => 0,
            3 => 255,
            119 => 8,
            120 => 777,
            _ => UNFILLED,
        });
        for room in 0..=121 {
            let front = from_fn(|i| if i < room { whole[i] } else { 777 });
            assert_eq!(laid(sheet.as_bytes(), &mut join, room), (0, front, [0, 0, 0, 99]));
        }
    }

    #[test]
    fn no_table() {
        let many = |word: &str| (0..65).map(|i| format!(" {word}{i}")).collect::<String>();
        let refused = |text: &[u8], told: (u8, usize, usize, usize)| {
            let (number, line, lines, variant) = told;
            assert_eq!(laid(text, &mut vec![0; MAX], 121), (number, [777; 121], [line, lines, variant, 99]));
            assert_eq!(Reader::new().variants(text), Err(NoTable { refusal: Refusal(number), line, lines, variant }));
        };
        refused(&vec![b'a'; MAX + 1], (1, 0, 0, 0));
        refused(b"{variant=1}\n\xff", (2, 0, 0, 0));
        let good = setting(1, 0, 1);
        refused(format!("{good}\n{{{}\n b}}\n{{valve=1}}\n", many(".c")).as_bytes(), (6, 3, 2, 0));
        refused(format!("{good}{{{}}}\n", many("k")).as_bytes(), (7, 2, 1, 0));
        // One or two of the keys, and values out of range.
        refused(format!("{good}text\n{{variant=1\n valve=2}}\n").as_bytes(), (20, 3, 2, 0));
        for block in ["variant=1", "wheel=rear-left valve=1", "variant=1 wheel=rear valve=1", "variant=1 wheel=rear-left valve=01"] {
            refused(format!("{good}{{{block}}}").as_bytes(), (20, 2, 1, 0));
        }
        refused(setting(0, 0, 1).as_bytes(), (20, 1, 1, 0));
        refused(setting(31, 0, 1).as_bytes(), (20, 1, 1, 0));
        refused(setting(1, 0, 256).as_bytes(), (20, 1, 1, 0));
        // One valve at two wheels: the first such variant, unless a later block overrides it or is refused.
        let pair = |variant: usize| format!("{}{}", setting(variant, 0, 5), setting(variant, 3, 5));
        refused(format!("{}{}", pair(30), pair(7)).as_bytes(), (21, 0, 0, 7));
        refused(format!("{}{}{}", pair(30), pair(7), setting(7, 3, 6)).as_bytes(), (21, 0, 0, 30));
        refused(format!("{}{{valve=1}}", pair(7)).as_bytes(), (20, 3, 1, 0));
        // A join buffer one byte short, which a text that isn't UTF-8 comes before.
        assert_eq!(laid(good.as_bytes(), &mut vec![0; MAX - 1], 121), (9, [777; 121], [0, 0, 0, 99]));
        assert_eq!(laid(b"\xff", &mut vec![0; MAX - 1], 121).0, 2);
        let refusal = Refusal(9);
        assert_eq!(Reader::with_room(MAX - 1, 0).variants(good.as_bytes()), Err(NoTable { refusal, line: 0, lines: 0, variant: 0 }));
    }

    #[test]
    fn joined_for_the_table() {
        let joined = |text: &[u8], len: usize| {
            let mut join = vec![b'.'; len];
            let number = laid(text, &mut join, 121).0;
            let end = join.iter().rposition(|b| *b != b'.').map_or(0, |i| i + 1);
            (number, String::from_utf8(join[..end].to_vec()).unwrap())
        };
        let wrapped = "{variant=1\n wheel=front-left\n valve=1}\n";
        assert_eq!(joined(wrapped.as_bytes(), MAX), (0, "{variant=1 wheel=front-left valve=1}".into()));
        // A later run writes over the front of it, up to and including the block that is refused.
        assert_eq!(joined(format!("{wrapped}{{a\n b}}\n").as_bytes(), MAX), (0, "{a b}ant=1 wheel=front-left valve=1}".into()));
        assert_eq!(joined(format!("{{valve=1\n .b}}\n{wrapped}").as_bytes(), MAX), (20, "{valve=1 .b}".into()));
        // Nothing is joined where the text or the buffer is refused.
        assert_eq!(joined(wrapped.as_bytes(), MAX - 1), (9, "".into()));
        assert_eq!(joined(&[wrapped.as_bytes(), b"\xff"].concat(), MAX), (2, "".into()));
        assert_eq!(joined(&[wrapped.as_bytes(), &vec![b'a'; MAX]].concat(), MAX), (1, "".into()));
    }

    /// The report over sheets fed one after the other.
    fn counted(sheets: &[&[u8]]) -> Totals {
        let mut totals = [0; TOTALS];
        for sheet in sheets {
            assert_eq!(Reader::new().feed(&mut totals, sheet), Ok(()));
        }
        totals
    }

    #[test]
    fn totals() {
        assert_eq!(counted(&[]), [0; TOTALS]);
        assert_eq!(counted(&[b""]), [1, 0, 0, 0, 0, 0, 0, 0, 0, 0, 0, 0, 0]);
        // Sheets of 1 and 2 are counted and refused by no number.
        assert_eq!(counted(&[&vec![b'a'; MAX + 1], b"\xff", b"{a\n b}"]), [3, 1, 1, 1, 1, 0, 0, 0, 0, 2, 2, 5, 2]);
        // Runs that are no block count their lines, and printed blocks alone their classes and keys.
        assert_eq!(counted(&[b"{a\nb}"]), [1, 0, 0, 0, 0, 0, 0, 0, 0, 0, 1, 2, 0]);
        assert_eq!(counted(&[b"{.a .a k k}\n{:en k}\n"]), [1, 2, 0, 0, 0, 0, 0, 0, 2, 3, 0, 0, 1]);
        let many = |word: &str| (0..65).map(|i| format!(" {word}{i}")).collect::<String>();
        let sheet = format!("{{{}}}\n{{{}}}\n{{k='{}'}}\n", many(".c"), many("k"), "\"".repeat(32_765));
        assert_eq!(counted(&[sheet.as_bytes()]), [1, 0, 0, 0, 0, 1, 1, 1, 0, 0, 0, 0, 0]);
        // Reports over two lists add up to the report over both, the longest by the larger.
        let sheets: [&[u8]; 4] = [b"{a\n b\n c}", b"{.x}\n{a", b"\xff", b"text\n{k\n v}\n"];
        for at in 0..=4 {
            let mut sum = counted(&sheets[..at]);
            assert_eq!(add_totals(&mut sum, &counted(&sheets[at..])), Ok(()));
            assert_eq!(sum, counted(&sheets));
        }
    }

    #[test]
    fn totals_too_large() {
        for place in 0..TOTALS {
            let mut totals: Totals = from_fn(|i| if i == place { u64::MAX } else { 1 });
            let (before, one): (Totals, Totals) = (totals, from_fn(|i| if i == place { 1 } else { u64::MAX - 1 }));
            if place == TOTALS - 1 {
                assert_eq!(add_totals(&mut totals, &one), Ok(()));
                assert_eq!(totals, [u64::MAX; TOTALS]);
            } else {
                assert_eq!(add_totals(&mut totals, &one), Err(Refusal(17)));
                assert_eq!(totals, before);
            }
        }
        // A sheet that is counted, and one that isn't: 9 comes before 17, and a sheet of 2 needs no join buffer.
        let mut totals: Totals = from_fn(|i| if i == 0 { u64::MAX } else { 0 });
        let before = totals;
        assert_eq!(Reader::new().feed(&mut totals, b""), Err(Refusal(17)));
        assert_eq!(Reader::with_room(MAX - 1, 0).feed(&mut totals, b""), Err(Refusal(9)));
        assert_eq!(totals, before);
        assert_eq!(Reader::with_room(0, 0).feed(&mut totals, b"\xff"), Err(Refusal(17)));
        totals[0] -= 1;
        assert_eq!(Reader::with_room(0, 0).feed(&mut totals, b"\xff"), Ok(()));
        assert_eq!((totals[0], totals[4]), (u64::MAX, 1));
    }

    #[test]
    fn text_of_totals() {
        assert_eq!(
            totals_text(&from_fn(|i| i as u64 * 10)),
            "sheets\t0\nblocks\t10\nwrapped\t20\nrefused-1\t30\nrefused-2\t40\nrefused-6\t50\nrefused-7\t60\nrefused-10\t70\n\
             classes\t80\nkeys\t90\njoined\t100\nlookahead\t110\nlongest\t120\n"
        );
        assert_eq!(totals_text(&[u64::MAX; TOTALS]).len(), TOTALS_TEXT);
    }

    #[test]
    fn room_for_totals() {
        let (zeros, mut join) = ([0u64; TOTALS + 1], vec![0u8; MAX]);
        for room in 0..=TOTALS + 1 {
            let (mut totals, wanted) = (zeros, if room < TOTALS { 17 } else { 0 });
            let fed = unsafe { raw::bridlesnow_totals_feed(totals.as_mut_ptr(), room, null(), 0, join.as_mut_ptr(), MAX) };
            assert_eq!((fed, totals[0], totals[TOTALS]), (wanted, u64::from(room >= TOTALS), 0));
            let mut sum = zeros;
            let added = unsafe { raw::bridlesnow_totals_add(sum.as_mut_ptr(), TOTALS, totals.as_ptr(), room) };
            assert_eq!((added, sum[0]), (wanted, u64::from(room >= TOTALS)));
            let (mut out, mut len) = ([0u8; TOTALS_TEXT], 99);
            let text = unsafe { raw::bridlesnow_totals_text(totals.as_ptr(), room, out.as_mut_ptr(), out.len(), &mut len, 1) };
            assert_eq!((text, len == 0, out[0] == 0), (wanted, room < TOTALS, room < TOTALS));
        }
    }

    #[test]
    fn joined_for_totals() {
        let joined = |totals: u64, text: &[u8], len: usize| {
            let (mut totals, mut join): (Totals, _) = (from_fn(|i| if i == 0 { totals } else { 0 }), vec![b'.'; len]);
            let number = unsafe { raw::bridlesnow_totals_feed(totals.as_mut_ptr(), TOTALS, text.as_ptr(), text.len(), join.as_mut_ptr(), len) };
            let end = join.iter().rposition(|b| *b != b'.').map_or(0, |i| i + 1);
            (number, String::from_utf8(join[..end].to_vec()).unwrap())
        };
        // Each run writes over the front of what the one before left, also where the total doesn't fit.
        assert_eq!(joined(0, b"{a\n b\n{c\n", MAX), (0, "{c b".into()));
        assert_eq!(joined(u64::MAX, b"{a\n b\n{c\n", MAX), (17, "{c b".into()));
        assert_eq!(joined(0, b"{a\n b\n{c\n", MAX - 1), (9, "".into()));
        assert_eq!(joined(0, b"{a\n b\n\xff", MAX), (0, "".into()));
    }

    #[test]
    fn indexes() {
        let mut reader = Reader::new();
        let text = b"t\r\n{id}\n{#v17\n side=right}\n{.a}\n{#v17 b}\n{id='a\tb\r'}\n";
        let index = reader.build_index(text).unwrap();
        let lines = "carve-attr-index\t2\n2\t1\t3\t\n3\t2\t8\tv17\n5\t1\t27\n6\t1\t32\tv17\n7\t1\t41\ta\tb\r\n";
        assert_eq!((std::str::from_utf8(index.text()), index.records()), (Ok(lines), 5));
        assert_eq!(Index::read(lines.as_bytes()), Ok(index.clone()));
        // The first of two; an empty id, which is no missing one; one of a tab and a CR; one that no block has.
        for (id, found) in [(&b"v17"[..], Some((3, 2, 8))), (b"", Some((2, 1, 3))), (b"a\tb\r", Some((7, 1, 41))), (b"a\tb", None), (b"V17", None)] {
            let found = found.map(|(line, count, offset)| Found { line, count, offset });
            assert_eq!((index.find(id), find_record(lines.as_bytes(), id)), (found, Ok(found)));
        }
        let place = index.find(b"v17").unwrap().offset;
        assert_eq!(reader.read_block_at(text, place).map(|(lines, canonical)| (lines.count, canonical)), Ok((2, "{id=\"v17\" side=\"right\"}")));
        // Neither a text that is refused nor a short join buffer has an index; what isn't one is refused also behind the record.
        assert_eq!(reader.build_index(&vec![b' '; MAX + 1]), Err(Refusal(1)));
        assert_eq!(reader.build_index(b"{a}\n\xff"), Err(Refusal(2)));
        assert_eq!(Reader::with_room(MAX - 1, 0).build_index(text), Err(Refusal(9)));
        for bad in ["", "carve-attr-index\t02\n", "carve-attr-index\t2\r\n", "carve-attr-index\t2\n1\t1\t0\tx\n01\t1\t0\n", "carve-attr-index\t2\n1\t1\t0\tx"] {
            assert_eq!((Index::read(bad.as_bytes()), find_record(bad.as_bytes(), b"x")), (Err(Refusal(14)), Err(Refusal(14))));
        }
        // Last season's, and any other version's.
        for other in ["carve-attr-index\t1\n1\t1\t0\tx\n", "carve-attr-index\t65535\n"] {
            assert_eq!((Index::read(other.as_bytes()), find_record(other.as_bytes(), b"x")), (Err(Refusal(16)), Err(Refusal(16))));
            assert_eq!(reader.mend_index(b"{#x}", b"{#x}", 1, 1, other.as_bytes()), Err(Refusal(16)));
        }
        // The most blocks that a sheet has, and its index.
        let most = [&b"{a}\n".repeat(RECORDS - 1)[..], b"{a}"].concat();
        let index = reader.build_index(&most).unwrap();
        assert_eq!((most.len(), index.records(), index.text().len(), index.find(b"")), (MAX, RECORDS, 215_511, None));
    }

    #[test]
    fn mended_indexes() {
        let mut reader = Reader::new();
        let old = b"{#a}\n{#b\n k}\ntext\n{#c}\n";
        let index = reader.build_index(old).unwrap();
        // A line more, a line less, one that opens a block with the next line's, one that runs into the next line, and nothing changed.
        for (a, b, new) in [
            (1, 1, &b"{#a}\n{#x}\n{#b\n k}\ntext\n{#c}\n"[..]), (2, 3, b"{#a}\ntext\n{#c}\n"), (4, 4, b"{#a}\n{#b\n k}\n{#d\n l}\n{#c}\n"),
            (2, 2, b"{#a}\n{#y k}\n"), (4, 4, b"{#a}\n{#b\n k}\n t{#c}\n"), (5, 5, b"{#a}\n{#b\n k}\ntext\n"), (1, 5, b""), (3, 4, old),
        ] {
            // The fourth takes line 2 out of another text: what stands behind it isn't there.
            let wanted = if new == b"{#a}\n{#y k}\n" { Err(Refusal(3)) } else { reader.build_index(new) };
            assert_eq!(reader.mend_index(old, new, a, b, index.text()), wanted, "{}", String::from_utf8_lossy(new));
        }
        assert_eq!(reader.mend_index(b"a\nb\na\n", b"a\n", 2, 2, b"carve-attr-index\t2\n"), Err(Refusal(3)));
        // The orders: 1 and 2 of the old text, then of the new one, 9, 3, 14.
        let long = vec![b' '; MAX + 1];
        for (old, new, number) in [(&long[..], &b"\xff"[..], 1), (b"\xff", &long, 2), (b"", &long, 1), (b"", b"\xff", 2), (b"", b"", 9)] {
            assert_eq!(Reader::with_room(0, 0).mend_index(old, new, 0, 0, b""), Err(Refusal(number)));
        }
        assert_eq!(reader.mend_index(old, old, 0, 1, b""), Err(Refusal(3)));
        assert_eq!(reader.mend_index(old, old, 1, 1, b""), Err(Refusal(14)));
        // An index of the form, which is another text's.
        assert_eq!(reader.mend_index(old, old, 1, 1, b"carve-attr-index\t2\n"), Err(Refusal(14)));
    }

    #[test]
    fn room_for_indexes() {
        let (text, len, mut join) = (b"{#a\n b}\n{.c}\n", "carve-attr-index\t2\n1\t2\t0\ta\n3\t1\t8\n".len(), vec![b'.'; MAX]);
        for (numbers, bytes, wanted) in [(9, 0, 15), (10, len - 1, 19), (10, len, 0), (12, len + 1, 0)] {
            let (mut table, mut out, mut told) = ([77usize; 12], [7u8; 64], [77usize; 3]);
            let number = unsafe {
                raw::bridlesnow_index_build(
                    text.as_ptr(), text.len(), join.as_mut_ptr(), MAX, table.as_mut_ptr(), numbers, out.as_mut_ptr(), bytes, told.as_mut_ptr(), 3,
                )
            };
            let rows = if wanted == 0 { [1, 2, 0, 25, 26, 3, 1, 8, 0, 0, 77, 77] } else { [77; 12] };
            assert_eq!((number, table, told), (wanted, rows, if wanted == 0 { [2, len, 77] } else { [0, 0, 77] }));
            assert_eq!((out[0], out[len - 1], out[len]), if wanted == 0 { (b'c', b'\n', 7) } else { (7, 7, 7) });
            assert_eq!(&join[..7], b"{#a b}.");
        }
    }

    #[test]
    fn refused_runs() {
        let mut reader = Reader::new();
        assert_eq!(reader.refused_brace_run(b"{a\nb}", 1), Ok((BraceRun::Lines(2), 4, 5)));
        assert_eq!(reader.refused_brace_run(b"{%\n\nx", 1), Ok((BraceRun::No(usize::MAX), 0, 0)));
        assert_eq!(reader.refused_brace_run(b"{a}", 7), Ok((BraceRun::No(0), 0, 0)));
        assert_eq!(reader.refused_brace_run(b"\xff", 1), Err(Refusal(2)));
        assert_eq!(reader.ends_in_refused_brace_run(b"t\n{a\nb}\n"), Ok((true, 4)));
        assert_eq!(reader.ends_in_refused_brace_run(b"t\n{a\n b}\n"), Ok((false, 0)));
    }

    #[test]
    fn room() {
        let text = b"{#v17\n side=right}\n";
        assert!(Reader::with_room(17, 23).parse_standalone_attrs_block(text, 1).is_ok());
        let lines = Lines { count: 2, next: 19, lookahead: 17, joined: 17 };
        assert_eq!(Reader::with_room(17, 22).parse_standalone_attrs_block(text, 1), Err((Refusal(10), lines)));
        let lines = Lines { count: 0, next: 0, lookahead: 5, joined: 5 };
        assert_eq!(Reader::with_room(16, 23).parse_standalone_attrs_block(text, 1), Err((Refusal(9), lines)));
        assert_eq!(Reader::with_room(0, 0).read_attrs_at(b"{.a}", 0, Mode::Strict), refused(10));
    }

    /// What only a caller from C can pass: no memory at all, and memory for fewer numbers than there are.
    #[test]
    fn no_memory() {
        unsafe {
            assert!(raw::bridlesnow_is_utf8(null(), 0));
            assert_eq!(raw::bridlesnow_check_text(null(), 0), 0);
            assert!(!raw::bridlesnow_parse_attrs(null(), 0));
            assert_eq!(raw::bridlesnow_read_attrs_at(null(), 0, 0, 0, null_mut(), 0, null_mut(), 0), 3);
            assert_eq!(raw::bridlesnow_read_attrs_at(b"{.a}".as_ptr(), 4, 0, 7, null_mut(), 0, null_mut(), 0), 10);
            assert_eq!(raw::bridlesnow_read_attrs_at_tags(null(), 0, 0, 0, 1, null_mut(), 0, null_mut(), 0), 3);
            assert_eq!(raw::bridlesnow_read_attrs_once(null(), 0, 0, 0, 1, null_mut(), 0, null_mut(), 0), 3);
            assert_eq!(raw::bridlesnow_parse_standalone_attrs_block(null(), 0, 1, null_mut(), 0, null_mut(), 0, null_mut(), 0), 3);
            assert_eq!(raw::bridlesnow_standalone_attrs_block_len(b"{a\n b}".as_ptr(), 6, 1, null_mut(), 0, null_mut(), 0), 9);
            assert_eq!(raw::bridlesnow_merge_lines(null(), 0, 1, 2, null_mut(), 0, null_mut(), 0), 3);
            assert_eq!(raw::bridlesnow_merge_blocks(null(), 0, 1, 2, null_mut(), 0, null_mut(), 0, null_mut(), 0, null_mut(), 0), 3);
            assert_eq!(raw::bridlesnow_consume_loose(null(), 0, 1, null_mut(), 0, null_mut(), 0, null_mut(), 0), 3);
            assert_eq!(raw::bridlesnow_consume_loose(b"{loose}".as_ptr(), 7, 1, null_mut(), 0, null_mut(), 0, null_mut(), 0), 12);
            assert_eq!(raw::bridlesnow_item_at(null(), 0, 1, 0, null_mut(), 0, null_mut(), 0, null_mut(), 0), 3);
            assert_eq!(raw::bridlesnow_item_at(b"{a}".as_ptr(), 3, 1, 0, null_mut(), 0, null_mut(), 0, null_mut(), 0), 10);
            assert_eq!(raw::bridlesnow_value_at(b"{a}".as_ptr(), 3, 1, b"a".as_ptr(), 1, 0, null_mut(), 0, null_mut(), 0, null_mut(), 0), 0);
            assert_eq!(raw::bridlesnow_attrs_item_at(null(), 0, 0, 0, 0, null_mut(), 0, null_mut(), 0), 3);
            assert_eq!(raw::bridlesnow_attrs_value_at(b"{a}".as_ptr(), 3, 0, 9, null(), 0, 0, null_mut(), 0, null_mut(), 0), 0);
            assert!(!raw::bridlesnow_payload_at(null(), 0, 0, null_mut(), 0));
            assert!(!raw::bridlesnow_next_token(null(), 0, 7, 0, null_mut(), 0));
            assert_eq!(raw::bridlesnow_variants(null(), 0, null_mut(), 0, null_mut(), 0, null_mut(), 0), 9);
            assert_eq!(raw::bridlesnow_index_build(null(), 0, null_mut(), 0, null_mut(), 0, null_mut(), 0, null_mut(), 0), 9);
            assert_eq!(raw::bridlesnow_index_read(null(), 0, null_mut(), 0, null_mut(), 0), 14);
            assert_eq!(raw::bridlesnow_index_find(null(), 0, null(), 0, null_mut(), 0), 14);
            assert_eq!(raw::bridlesnow_index_find_row(null(), 0, null(), 0, 7, null(), 0, null_mut(), 0), 0);
            assert_eq!(raw::bridlesnow_index_mend(null(), 0, null(), 0, 1, 1, null(), 0, null_mut(), 0, null_mut(), 0, null_mut(), 0, null_mut(), 0), 9);
            let mut join = vec![0u8; MAX];
            assert_eq!(raw::bridlesnow_variants(null(), 0, join.as_mut_ptr(), MAX, null_mut(), 0, null_mut(), 0), 0);
            let mut out = [255u8; 12];
            let mut told = [77usize; 2];
            assert_eq!(raw::bridlesnow_read_attrs_at(b"{.a}".as_ptr(), 4, 0, 0, out.as_mut_ptr(), 12, told.as_mut_ptr(), 1), 0);
            assert_eq!((&out, told), (b"{class=\"a\"}\xff", [4, 77]));
            assert_eq!(raw::bridlesnow_read_attrs_at(b"{.a}".as_ptr(), 4, 1, 0, out.as_mut_ptr(), 12, told.as_mut_ptr(), 2), 3);
            assert_eq!((&out, told), (b"{class=\"a\"}\xff", [0, 0]));
        }
    }
}
