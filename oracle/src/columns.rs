//! The column settings of valve tables, document 02's change request 13. Count, aligns and vertical aligns are the
//! original's; the raw ranges of the widths are found here, after the document's words, and each is held against the piece
//! that the original asked its rule of widths for.

use crate::ast::{Attrs, TableAlign, TableVerticalAlign};
use crate::document::{self, Token, Value};
use crate::layer::{self, Entry, MergeRefusal, Number};
use crate::parse::attrs::door;
use crate::rows::placed;
use crate::standins::{trim_range, unescape_bytes};
use crate::table_width;

/// How many columns a table has at most.
const COLUMN_LIMIT: usize = 32;
/// The keys that a table reads.
const KEYS: [&str; 3] = ["aligns", "valigns", "widths"];
const WIDTHS: usize = 2;

/// A width: the range of a piece in its text, or the one of a bare key, which stands nowhere.
#[derive(Clone, Copy)]
pub enum Width {
    Range(usize, usize),
    Empty,
}

/// A column; the width has the text that it is of, 1 or 2.
pub struct Column {
    pub align: &'static str,
    pub valign: &'static str,
    pub width: Option<(usize, Width)>,
}

/// A block that was read: its set, the text that the set is over with the range of the blocks in it, and whether that is
/// a joined text.
struct Over {
    attrs: Attrs,
    text: Vec<u8>,
    from: usize,
    to: usize,
    joined: bool,
}

/// The block at that line, with all the join buffer that it may want.
fn block_at(bytes: &[u8], line: usize, cap: usize) -> Result<Over, Number> {
    let found = layer::block(Entry::Block, bytes, line, cap);
    let (attrs, _) = found.answer?;
    let joined = !found.trace.joined.is_empty();
    if joined {
        let text = found.trace.joined;
        return Ok(Over { attrs, from: 0, to: text.len(), text, joined });
    }
    let (start, end) = layer::line_ranges(bytes)[line - 1];
    let (from, to) = trim_range(&bytes[start..end]);
    Ok(Over { attrs, text: bytes.to_vec(), from: start + from, to: start + to, joined })
}

impl Over {
    /// The last value of each of the three keys, over the blocks back to back.
    fn values(&self) -> [Option<Value>; KEYS.len()] {
        let mut out = [None; KEYS.len()];
        let mut at = self.from;
        while at < self.to {
            let close = document::close(&self.text[..self.to], at).expect("a block that was read has its close");
            for token in document::tokens(&self.text[..close], at + 1, true).expect("and tokens") {
                if let Token::Named(from, to, value) = token {
                    if let Some(key) = KEYS.iter().position(|key| key.as_bytes() == &self.text[from..to]) {
                        out[key] = Some(value);
                    }
                }
            }
            at = close + 1;
        }
        for (key, value) in KEYS.iter().zip(out) {
            let listed = self.attrs.key_values.get(*key).map(|value| value.as_bytes().to_vec());
            assert_eq!(value.map(|value| document::stands_for(&self.text, value)), listed, "the value is the original's");
        }
        out
    }
    /// The raw ranges of a value's pieces between commas, unescaped ones too. A piece of no bytes stands behind the comma
    /// before it, or where the value begins.
    fn pieces(&self, value: Value) -> Vec<Width> {
        let mut at = match value {
            Value::Plain(from, _) | Value::Quoted(from, _) => from,
            Value::Empty => return vec![Width::Empty],
        };
        let bytes = placed(&self.text, value);
        let mut out = Vec::new();
        for piece in bytes.split_inclusive(|&(byte, ..)| byte == b',') {
            let commas = usize::from(matches!(piece.last(), Some(&(b',', ..))));
            let to = piece[..piece.len() - commas].last().map_or(at, |&(_, _, to)| to);
            out.push(Width::Range(at, to));
            at = piece.last().map_or(at, |&(_, _, next)| next);
        }
        // Behind a comma, and where there is no byte, one piece more begins.
        if !matches!(bytes.last(), Some(&(byte, ..)) if byte != b',') {
            out.push(Width::Range(at, at));
        }
        out
    }
    /// What a piece stands for: unescaped where the value is in quotes.
    fn stands_for(&self, value: Value, width: Width) -> Vec<u8> {
        match (value, width) {
            (Value::Quoted(..), Width::Range(from, to)) => unescape_bytes(&self.text[from..to]),
            (_, Width::Range(from, to)) => self.text[from..to].to_vec(),
            (_, Width::Empty) => Vec::new(),
        }
    }
}

/// The columns of a set whose `widths`, where it has them, is this value of that text; 18 for too many.
fn columns(attrs: &Attrs, widths: Option<(usize, &Over, Value)>) -> Result<Vec<Column>, Number> {
    let (original, asked) = table_width::noted(|| door::table_columns_from_attrs(attrs));
    let ranges = widths.map_or(Vec::new(), |(_, over, value)| over.pieces(value));
    let stand_for: Vec<Vec<u8>> =
        widths.map_or(Vec::new(), |(_, over, value)| ranges.iter().map(|&range| over.stands_for(value, range)).collect());
    assert!(asked.iter().map(String::as_bytes).eq(stand_for.iter().map(Vec::as_slice)), "the ranges stand for the original's pieces");
    let longest = KEYS.iter().map(|key| attrs.key_values.get(*key).map_or(0, |value| 1 + value.matches(',').count())).max();
    assert_eq!(Some(original.len()), longest, "the longest list is counted");
    if original.len() > COLUMN_LIMIT {
        return Err(18);
    }
    let text = widths.map_or(0, |(text, ..)| text);
    let named = |(n, column): (usize, crate::ast::TableColumn)| Column {
        align: match column.align {
            Some(TableAlign::Left) => "left",
            Some(TableAlign::Right) => "right",
            Some(TableAlign::Center) => "center",
            None => "none",
        },
        valign: match column.valign {
            Some(TableVerticalAlign::Top) => "top",
            Some(TableVerticalAlign::Middle) => "middle",
            Some(TableVerticalAlign::Bottom) => "bottom",
            None => "none",
        },
        width: ranges.get(n).map(|&width| (text, width)),
    };
    Ok(original.into_iter().enumerate().map(named).collect())
}

/// Why a request for columns has none.
pub enum Refusal {
    Unread(Number),
    Columns(Number),
}

/// The columns of the block at that line, and whether their widths are of the joined text.
pub fn of_block(bytes: &[u8], line: usize, cap: usize) -> Result<(Vec<Column>, bool), Refusal> {
    let over = block_at(bytes, line, cap).map_err(Refusal::Unread)?;
    let widths = over.values()[WIDTHS].map(|value| (1, &over, value));
    let columns = columns(&over.attrs, widths).map_err(Refusal::Columns)?;
    Ok((columns, over.joined))
}

/// The columns of the merge of the blocks at line 1 of two texts; a value of the second counts.
pub fn of_merge(a: &[u8], b: &[u8], cap: usize) -> Result<Vec<Column>, MergeRefusal> {
    let merged = layer::merge2_block(a, b, cap)?;
    let texts = [block_at(a, 1, cap).map_err(MergeRefusal::First)?, block_at(b, 1, cap).map_err(MergeRefusal::Second)?];
    let last = (0..2).rev().find_map(|n| texts[n].values()[WIDTHS].map(|value| (n + 1, &texts[n], value)));
    columns(&merged, last).map_err(MergeRefusal::Merge)
}
