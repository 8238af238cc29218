//! Document 01's payload grammar, close and good line, set down after its words and not after source 000's functions.
//!
//! The layer holds the readings against the original on every request, so that a place where the document and the
//! original part stops the oracle loudly. Two of them also answer, as the original doesn't tell: `close`, which parts 4
//! from 5 and gives the payload's range, and `tokens`, whose places the module `rows` puts into a set's rows.

use crate::ast::{AttrSlot, Attrs};
use crate::standins::{is_ascii_blank, unescape_bytes};
use std::collections::HashSet;

fn is_name_byte(b: u8) -> bool {
    b.is_ascii_alphanumeric() || b == b'_' || b == b'-'
}

/// `#` or `.` is followed by a letter, digit or `_`, then letters, digits, `_`, `-`.
fn is_name(name: &[u8]) -> bool {
    match name.split_first() {
        Some((&first, rest)) => (first.is_ascii_alphanumeric() || first == b'_') && rest.iter().all(|&b| is_name_byte(b)),
        None => false,
    }
}

/// A tag is one subtag, or a subtag, a hyphen and a tag.
fn is_tag(tag: &[u8]) -> bool {
    let end = tag.iter().position(|&b| b == b'-').unwrap_or(tag.len());
    let subtag = &tag[..end];
    let good = (1..=8).contains(&subtag.len()) && subtag.iter().all(|b| b.is_ascii_alphanumeric());
    good && (end == tag.len() || is_tag(&tag[end + 1..]))
}

/// What a set comes to be while tokens are read: the last id and the last value win, slots stand where first met.
#[derive(Default)]
struct Builder {
    attrs: Attrs,
    met: HashSet<AttrSlot>,
}

impl Builder {
    fn slot(&mut self, slot: AttrSlot) {
        if self.met.insert(slot.clone()) {
            self.attrs.order.push(slot);
        }
    }
    fn id(&mut self, value: &[u8]) {
        self.slot(AttrSlot::Id);
        self.attrs.id = Some(text(value));
    }
    fn class(&mut self, value: &[u8]) {
        self.slot(AttrSlot::Class);
        self.attrs.classes.push(text(value));
    }
    /// Split at the five ASCII whitespace bytes; with no piece left the whole value is one class.
    fn classes(&mut self, value: &[u8]) {
        let mut pieces = 0;
        for piece in value.split(|&b| is_ascii_blank(b)).filter(|piece| !piece.is_empty()) {
            self.class(piece);
            pieces += 1;
        }
        if pieces == 0 {
            self.class(value);
        }
    }
    fn key(&mut self, name: &[u8], value: &[u8]) {
        match name {
            b"id" => self.id(value),
            b"class" => self.classes(value),
            _ => {
                self.slot(AttrSlot::Key(text(name)));
                self.attrs.key_values.insert(text(name), text(value));
            }
        }
    }
}

pub fn text(bytes: &[u8]) -> String {
    String::from_utf8(bytes.to_vec()).expect("a part of UTF-8 text cut at ASCII bytes")
}

/// How an id, class or value stands in its text: as it is, in quotes, which its range is without, or not at all.
#[derive(Clone, Copy, Debug, PartialEq)]
pub enum Value {
    Plain(usize, usize),
    Quoted(usize, usize),
    /// A bare name's.
    Empty,
}

/// A plain value stands as it is, a quoted one unescaped, an empty one as no bytes.
pub fn stands_for(text: &[u8], value: Value) -> Vec<u8> {
    match value {
        Value::Plain(from, to) => text[from..to].to_vec(),
        Value::Quoted(from, to) => unescape_bytes(&text[from..to]),
        Value::Empty => Vec::new(),
    }
}

/// A token with the places of its parts.
pub enum Token {
    /// `:` and its tag, which may have no bytes.
    Lang(Value),
    /// `#` and a name.
    Id(Value),
    /// `.` and a name.
    Class(Value),
    /// A key with its value, or a bare name; the range is the name's.
    Named(usize, usize, Value),
}

/// A walk over a payload that goes to the end of `s`. In strict mode blanks are spaces, in loose mode also CR and LF.
struct Walk<'a> {
    s: &'a [u8],
    at: usize,
    loose: bool,
}

impl Walk<'_> {
    fn blank(&self) -> bool {
        self.s.get(self.at).is_some_and(|&b| b == b' ' || self.loose && (b == b'\r' || b == b'\n'))
    }
    /// Whether a token may end here: before a blank, or at the payload's end.
    fn ends(&self) -> bool {
        self.at == self.s.len() || self.blank()
    }
    /// The token that begins here; whether it may end where it does is for the caller to see.
    fn token(&mut self) -> Option<Token> {
        let start = self.at;
        let first = self.s[start];
        if first == b':' || first == b'#' || first == b'.' {
            while !self.ends() {
                self.at += 1;
            }
            let rest = &self.s[start + 1..self.at];
            let value = Value::Plain(start + 1, self.at);
            return match first {
                b':' if rest.is_empty() || is_tag(rest) => Some(Token::Lang(value)),
                b'#' if is_name(rest) => Some(Token::Id(value)),
                b'.' if is_name(rest) => Some(Token::Class(value)),
                _ => None,
            };
        }
        if !(first.is_ascii_alphabetic() || first == b'_') {
            return None;
        }
        while self.at < self.s.len() && is_name_byte(self.s[self.at]) {
            self.at += 1;
        }
        let end = self.at;
        if self.s.get(end) != Some(&b'=') {
            return first.is_ascii_alphabetic().then_some(Token::Named(start, end, Value::Empty));
        }
        self.at += 1;
        Some(Token::Named(start, end, self.value()?))
    }
    /// The value behind `=`.
    fn value(&mut self) -> Option<Value> {
        let first = *self.s.get(self.at)?;
        if first == b'"' || first == b'\'' {
            return self.quoted(first);
        }
        let from = self.at;
        while self.at < self.s.len() && !b"}|\"'\\ \t\r\n".contains(&self.s[self.at]) {
            self.at += 1;
        }
        (self.at > from).then_some(Value::Plain(from, self.at))
    }
    fn quoted(&mut self, quote: u8) -> Option<Value> {
        self.at += 1;
        let from = self.at;
        loop {
            match *self.s.get(self.at)? {
                // The next character goes along; its first byte is enough, as no later byte of one is a quote.
                b'\\' => self.at += 2,
                b if b == quote => break,
                _ => self.at += 1,
            }
        }
        self.at += 1;
        Some(Value::Quoted(from, self.at - 1))
    }
}

/// The tokens of the payload that goes from `from` to the end of `s`: one or more, parted by blanks, which may stand at
/// both ends.
pub fn tokens(s: &[u8], from: usize, loose: bool) -> Option<Vec<Token>> {
    let mut walk = Walk { s, at: from, loose };
    let mut list = Vec::new();
    loop {
        while walk.blank() {
            walk.at += 1;
        }
        if walk.at == s.len() {
            return (!list.is_empty()).then_some(list);
        }
        list.push(walk.token()?);
        if !walk.ends() {
            return None;
        }
    }
}

/// The reading of a payload in strict or loose mode.
pub fn payload(src: &str, loose: bool) -> Option<Attrs> {
    let s = src.as_bytes();
    let mut out = Builder::default();
    for token in tokens(s, 0, loose)? {
        match token {
            Token::Lang(value) => out.key(b"lang", &stands_for(s, value)),
            Token::Id(value) => out.id(&stands_for(s, value)),
            Token::Class(value) => out.class(&stands_for(s, value)),
            Token::Named(from, to, value) => out.key(&s[from..to], &stands_for(s, value)),
        }
    }
    Some(out.attrs)
}

/// Where the payload behind the brace at `place` ends: before the first `}` that no quote or backslash covers.
pub fn close(bytes: &[u8], place: usize) -> Option<usize> {
    let mut quote = None;
    let mut at = place + 1;
    while at < bytes.len() {
        match (bytes[at], quote) {
            (b'\n', _) => return None,
            // The covered byte is passed over, unless it is an LF, before which nothing closes.
            (b'\\', _) if bytes.get(at + 1) != Some(&b'\n') => at += 1,
            (b'"' | b'\'', None) => quote = Some(bytes[at]),
            (b, Some(q)) if b == q => quote = None,
            (b'}', None) => return Some(at),
            _ => {}
        }
        at += 1;
    }
    None
}

/// A line is trimmed, then blocks stand back to back to its end and are merged left to right: a later id wins, classes
/// are joined, later key values win, new slots go behind.
pub fn line(trimmed: &str) -> Option<Attrs> {
    let bytes = trimmed.as_bytes();
    let mut at = 0;
    let mut out = Builder::default();
    loop {
        if bytes.get(at) != Some(&b'{') {
            return None;
        }
        let end = close(bytes, at)?;
        let block = payload(&trimmed[at + 1..end], true)?;
        for slot in block.order {
            out.slot(slot);
        }
        if block.id.is_some() {
            out.attrs.id = block.id;
        }
        out.attrs.classes.extend(block.classes);
        out.attrs.key_values.extend(block.key_values);
        at = end + 1;
        if at == bytes.len() {
            return Some(out.attrs);
        }
    }
}
