//! Stand-ins for the helpers that source 000 calls and that were not supplied with it, written from document 01.

/// The five ASCII whitespace bytes: space, tab, LF, FF, CR. No other byte is trimmed or blank.
pub fn is_ascii_blank(byte: u8) -> bool {
    matches!(byte, b' ' | b'\t' | b'\n' | 0x0C | b'\r')
}

/// The range that stays when blanks are dropped in front; the bytes need not be UTF-8.
pub fn trim_start_range(bytes: &[u8]) -> (usize, usize) {
    let from = bytes.iter().position(|&b| !is_ascii_blank(b)).unwrap_or(bytes.len());
    (from, bytes.len())
}

/// The range that stays when blanks are dropped behind.
pub fn trim_end_range(bytes: &[u8]) -> (usize, usize) {
    (0, bytes.iter().rposition(|&b| !is_ascii_blank(b)).map_or(0, |at| at + 1))
}

/// The end-trim of the start-trim: all blank of length n gives n to n.
pub fn trim_range(bytes: &[u8]) -> (usize, usize) {
    let (from, _) = trim_start_range(bytes);
    let (_, len) = trim_end_range(&bytes[from..]);
    (from, from + len)
}

pub fn trim_ascii(s: &str) -> &str {
    let (from, to) = trim_range(s.as_bytes());
    &s[from..to]
}

pub fn trim_ascii_start(s: &str) -> &str {
    &s[trim_start_range(s.as_bytes()).0..]
}

pub fn trim_ascii_end(s: &str) -> &str {
    &s[..trim_end_range(s.as_bytes()).1]
}

/// Nothing remains after trimming.
pub fn is_blank_line(line: &str) -> bool {
    trim_ascii(line).is_empty()
}

/// The column behind the leading spaces and tabs; a tab goes to the next multiple of 4 (CommonMark 2.2).
pub fn indent_columns_of(bytes: &[u8]) -> usize {
    let mut column = 0;
    for &byte in bytes {
        match byte {
            b' ' => column += 1,
            b'\t' => column += 4 - column % 4,
            _ => break,
        }
    }
    column
}

pub fn indent_columns(line: &str) -> usize {
    indent_columns_of(line.as_bytes())
}

/// A backslash before an ASCII punctuation byte is dropped, any other stays; left to right in pairs (CommonMark 2.4).
pub fn unescape_bytes(bytes: &[u8]) -> Vec<u8> {
    let mut out = Vec::with_capacity(bytes.len());
    let mut at = 0;
    while at < bytes.len() {
        if bytes[at] == b'\\' && at + 1 < bytes.len() && bytes[at + 1].is_ascii_punctuation() {
            at += 1;
        }
        out.push(bytes[at]);
        at += 1;
    }
    out
}

pub fn unescape_title(s: &str) -> String {
    String::from_utf8(unescape_bytes(s.as_bytes())).expect("only ASCII bytes are dropped")
}

/// Lazy lines are left behind, so a line is never framed and this changes nothing.
pub fn strip_lazy(line: &str) -> &str {
    line
}

/// Asked by source 000 for lazy lines only, of which there are none.
pub fn lazy_source_column(_raw: &str) -> Option<usize> {
    None
}
