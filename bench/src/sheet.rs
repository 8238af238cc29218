//! The sheet program in plain Rust over the original: what the oracle's `sheet` does, without its assertions and its second readings.

use crate::ast::{AttrSlot, Attrs};
use crate::parse::attrs::door;
use std::io::Write;

pub const TEXT_LIMIT: usize = 65_535;
const CLASS_LIMIT: usize = 64;
const KEY_LIMIT: usize = 64;

/// The text, or 1 where it is too long, or 2 where it isn't UTF-8.
pub fn text_of(bytes: &[u8]) -> Result<&str, u8> {
    if bytes.len() > TEXT_LIMIT {
        return Err(1);
    }
    std::str::from_utf8(bytes).map_err(|_| 2)
}

/// 6 or 7 where a limit is passed.
pub fn limit_passed(attrs: &Attrs) -> Option<u8> {
    if attrs.classes.len() > CLASS_LIMIT {
        Some(6)
    } else if attrs.key_values.len() > KEY_LIMIT {
        Some(7)
    } else {
        None
    }
}

fn item(out: &mut Vec<u8>, start: usize, name: &str, value: &str) {
    out.push(if out.len() == start { b'{' } else { b' ' });
    out.extend_from_slice(name.as_bytes());
    out.extend_from_slice(b"=\"");
    for &byte in value.as_bytes() {
        if byte == b'"' || byte == b'\\' {
            out.push(b'\\');
        }
        out.push(byte);
    }
    out.push(b'"');
}

/// The canonical text of a set, put behind what stands in `out`: each class once, at its first place.
pub fn canonical(attrs: &Attrs, out: &mut Vec<u8>) {
    let start = out.len();
    for slot in &attrs.order {
        match slot {
            AttrSlot::Id => item(out, start, "id", attrs.id.as_deref().unwrap_or("")),
            AttrSlot::Class => {
                for (n, class) in attrs.classes.iter().enumerate() {
                    if !attrs.classes[..n].contains(class) {
                        item(out, start, "class", class);
                    }
                }
            }
            AttrSlot::Key(key) => item(out, start, key, &attrs.key_values[key]),
        }
    }
    out.push(b'}');
}

fn report(out: &mut Vec<u8>, line: usize, count: usize, attrs: &Attrs) {
    let start = out.len();
    let number = limit_passed(attrs).or_else(|| {
        let _ = write!(out, "block\t{line}\t{count}\t");
        let front = out.len();
        canonical(attrs, out);
        (out.len() - front > TEXT_LIMIT).then_some(10)
    });
    if let Some(number) = number {
        out.truncate(start);
        let _ = write!(out, "refused\t{line}\t{count}\t{number}");
    }
    out.push(b'\n');
}

/// The whole job: each line is measured, and where a block begins it is read and written.
pub fn sheet(bytes: &[u8], out: &mut Vec<u8>) {
    out.clear();
    let text = match text_of(bytes) {
        Ok(text) => text,
        Err(number) => {
            let _ = writeln!(out, "refused\t0\t0\t{number}");
            return;
        }
    };
    let lines: Vec<&str> = text.lines().collect();
    let mut at = 0;
    while at < lines.len() {
        let Some(count) = door::standalone_attrs_block_len(&lines[at..]) else {
            at += 1;
            continue;
        };
        if let Some((attrs, _)) = door::parse_standalone_attrs_block(&lines[at..]) {
            report(out, at + 1, count, &attrs);
        }
        at += count;
    }
}

/// The same answers with each block read once: a line that isn't indented is read without being measured first.
pub fn sheet_once(bytes: &[u8], out: &mut Vec<u8>) {
    out.clear();
    let text = match text_of(bytes) {
        Ok(text) => text,
        Err(number) => {
            let _ = writeln!(out, "refused\t0\t0\t{number}");
            return;
        }
    };
    let lines: Vec<&str> = text.lines().collect();
    let mut at = 0;
    while at < lines.len() {
        if lines[at].starts_with([' ', '\t']) {
            at += 1;
            continue;
        }
        match door::parse_standalone_attrs_block(&lines[at..]) {
            Some((attrs, count)) => {
                report(out, at + 1, count, &attrs);
                at += count;
            }
            None => at += 1,
        }
    }
}
