//! The rows of a set, after document 01's words on tables. The original's set holds strings and has no rows, so this
//! answers alone; the layer holds what the rows list against the original's set.

use crate::ast::{AttrSlot, Attrs};
use crate::document::{self, stands_for, text, Token, Value};
use crate::standins::is_ascii_blank;

/// A key's name: a range of the text, or the fixed name `lang`, which `:` gives.
#[derive(Clone, Copy)]
pub enum Name {
    At(usize, usize),
    Lang,
}

impl Name {
    fn bytes(self, s: &[u8]) -> &[u8] {
        match self {
            Name::At(from, to) => &s[from..to],
            Name::Lang => b"lang",
        }
    }
}

/// A slot; a key's has the number of its row, counted from 0.
#[derive(Clone, Copy, PartialEq)]
pub enum Slot {
    Id,
    Class,
    Key(usize),
}

/// A set over a text, row by row.
#[derive(Default)]
pub struct Rows {
    pub id: Option<Value>,
    pub classes: Vec<Value>,
    pub keys: Vec<(Name, Value)>,
    pub slots: Vec<Slot>,
}

impl Rows {
    /// The rows of the payload that goes from `from` to the end of `s`.
    pub fn read(s: &[u8], from: usize, loose: bool) -> Option<Rows> {
        let mut out = Rows::default();
        for token in document::tokens(s, from, loose)? {
            match token {
                Token::Lang(value) => out.key(s, Name::Lang, value),
                Token::Id(value) => out.id(value),
                Token::Class(value) => out.class(value),
                // Keys `id` and `class`, bare or valued, go to the id and the classes.
                Token::Named(from, to, value) => match &s[from..to] {
                    b"id" => out.id(value),
                    b"class" => pieces(s, value).into_iter().for_each(|piece| out.class(piece)),
                    _ => out.key(s, Name::At(from, to), value),
                },
            }
        }
        Some(out)
    }
    /// A slot stands once, where first met.
    fn slot(&mut self, slot: Slot) {
        if !self.slots.contains(&slot) {
            self.slots.push(slot);
        }
    }
    /// The last id wins.
    fn id(&mut self, value: Value) {
        self.slot(Slot::Id);
        self.id = Some(value);
    }
    fn class(&mut self, value: Value) {
        self.slot(Slot::Class);
        self.classes.push(value);
    }
    /// A key met again keeps its row and first name, and its last value wins; names compare as bytes.
    fn key(&mut self, s: &[u8], name: Name, value: Value) {
        match self.keys.iter().position(|(known, _)| known.bytes(s) == name.bytes(s)) {
            Some(row) => self.keys[row].1 = value,
            None => {
                self.slot(Slot::Key(self.keys.len()));
                self.keys.push((name, value));
            }
        }
    }
    /// What the rows list: every value as what it stands for, a repeated class too, keys and slots by name.
    pub fn listed(&self, s: &[u8]) -> Attrs {
        let value = |&value: &Value| text(&stands_for(s, value));
        let name = |&(name, _): &(Name, Value)| text(name.bytes(s));
        Attrs {
            id: self.id.as_ref().map(value),
            classes: self.classes.iter().map(value).collect(),
            key_values: self.keys.iter().map(|key| (name(key), value(&key.1))).collect(),
            order: self
                .slots
                .iter()
                .map(|&slot| match slot {
                    Slot::Id => AttrSlot::Id,
                    Slot::Class => AttrSlot::Class,
                    Slot::Key(row) => AttrSlot::Key(name(&self.keys[row])),
                })
                .collect(),
        }
    }
}

/// Each byte that a value stands for, with the range of the bytes that stand for it: two for an escape, else one.
pub fn placed(s: &[u8], value: Value) -> Vec<(u8, usize, usize)> {
    let (mut at, to, quoted) = match value {
        Value::Plain(from, to) => (from, to, false),
        Value::Quoted(from, to) => (from, to, true),
        Value::Empty => return Vec::new(),
    };
    let mut out = Vec::new();
    while at < to {
        let escape = quoted && s[at] == b'\\' && at + 1 < to && s[at + 1].is_ascii_punctuation();
        let next = at + if escape { 2 } else { 1 };
        out.push((s[next - 1], at, next));
        at = next;
    }
    assert!(out.iter().map(|&(byte, ..)| byte).eq(stands_for(s, value)), "the bytes are those that the value stands for");
    out
}

/// A class value, unescaped first if quoted, is split at the five ASCII whitespace bytes; a piece is as its value, with
/// its own range. With no piece left the whole value is one class.
fn pieces(s: &[u8], value: Value) -> Vec<Value> {
    let bytes = placed(s, value);
    let mut out = Vec::new();
    for piece in bytes.split(|&(byte, ..)| is_ascii_blank(byte)) {
        if let (Some(&(_, from, _)), Some(&(_, _, to))) = (piece.first(), piece.last()) {
            out.push(if matches!(value, Value::Quoted(..)) { Value::Quoted(from, to) } else { Value::Plain(from, to) });
        }
    }
    if out.is_empty() {
        out.push(value);
    }
    out
}
