//! Strict language tags, document 02's change request 3. The grammar is RFC 5646's own text, section 2.1, set down without a
//! copy at hand; it is read as ABNF and tried as a tree of choices, with every way of going back, over the whole string.

use crate::ast::Attrs;
use crate::layer::{self, Number};
use crate::parse::attrs::door;
use std::collections::HashMap;
use std::sync::OnceLock;

const ABNF: &str = r#"
Language-Tag  = langtag             ; normal language tags
              / privateuse          ; private use tag
              / grandfathered       ; grandfathered tags

langtag       = language
                ["-" script]
                ["-" region]
                *("-" variant)
                *("-" extension)
                ["-" privateuse]

language      = 2*3ALPHA            ; shortest ISO 639 code
                ["-" extlang]       ; sometimes followed by extended language subtags
              / 4ALPHA              ; or reserved for future use
              / 5*8ALPHA            ; or registered language subtag

extlang       = 3ALPHA              ; selected ISO 639 codes
                *2("-" 3ALPHA)      ; permanently reserved

script        = 4ALPHA              ; ISO 15924 code

region        = 2ALPHA              ; ISO 3166-1 code
              / 3DIGIT              ; UN M.49 code

variant       = 5*8alphanum         ; registered variants
              / (DIGIT 3alphanum)

extension     = singleton 1*("-" (2*8alphanum))

singleton     = DIGIT               ; 0 - 9
              / %x41-57             ; A - W
              / %x59-5A             ; Y - Z
              / %x61-77             ; a - w
              / %x79-7A             ; y - z

privateuse    = "x" 1*("-" (1*8alphanum))

grandfathered = irregular           ; non-redundant tags registered
              / regular             ; during the RFC 3066 era

irregular     = "en-GB-oed" / "i-ami" / "i-bnn" / "i-default" / "i-enochian" / "i-hak" / "i-klingon" / "i-lux"
              / "i-mingo" / "i-navajo" / "i-pwn" / "i-tao" / "i-tay" / "i-tsu"
              / "sgn-BE-FR" / "sgn-BE-NL" / "sgn-CH-DE"

regular       = "art-lojban" / "cel-gaulish" / "no-bok" / "no-nyn" / "zh-guoyu" / "zh-hakka" / "zh-min"
              / "zh-min-nan" / "zh-xiang"

alphanum      = (ALPHA / DIGIT)     ; letters and numbers

ALPHA         = %x41-5A / %x61-7A   ; RFC 5234
DIGIT         = %x30-39
"#;

/// An expression of the grammar.
enum Rule {
    /// One of these.
    Choice(Vec<Rule>),
    /// All of these, one behind the other.
    Row(Vec<Rule>),
    /// From so many to so many times, or without end.
    Times(usize, usize, Box<Rule>),
    /// These bytes, letter case ignored.
    Word(String),
    /// One byte of these.
    Range(u8, u8),
    /// What the rule of that name says.
    Named(String),
}

/// A walk over the words of the grammar.
struct Words<'a> {
    list: Vec<&'a str>,
    at: usize,
}

impl<'a> Words<'a> {
    /// The words of a rule's text: literals, brackets, slashes, and what stands between blanks.
    fn of(text: &'a str) -> Words<'a> {
        let mut list = Vec::new();
        let mut rest = text.trim_start();
        while let Some(first) = rest.chars().next() {
            let end = match first {
                '"' => rest[1..].find('"').expect("a literal ends") + 2,
                '[' | ']' | '(' | ')' | '/' => 1,
                _ => rest.find([' ', '\n', '"', '[', ']', '(', ')', '/']).unwrap_or(rest.len()),
            };
            list.push(&rest[..end]);
            // How often stands before an element without a blank, and is a word of its own.
            let count = list[list.len() - 1].find(|c: char| !c.is_ascii_digit() && c != '*').unwrap_or(0);
            if count > 0 {
                let word = list.pop().expect("just put");
                list.extend([&word[..count], &word[count..]]);
            }
            rest = rest[end..].trim_start();
        }
        Words { list, at: 0 }
    }
    fn next(&mut self) -> &'a str {
        self.at += 1;
        self.list[self.at - 1]
    }
    fn peek(&self) -> Option<&'a str> {
        self.list.get(self.at).copied()
    }
    fn choice(&mut self) -> Rule {
        let mut choices = vec![self.row()];
        while self.peek() == Some("/") {
            self.at += 1;
            choices.push(self.row());
        }
        Rule::Choice(choices)
    }
    fn row(&mut self) -> Rule {
        let mut row = Vec::new();
        while !matches!(self.peek(), None | Some("/" | "]" | ")")) {
            row.push(self.repeated());
        }
        Rule::Row(row)
    }
    /// `n*m`, `n*`, `*m`, `*` or `n` before an element.
    fn repeated(&mut self) -> Rule {
        let word = self.peek().expect("an element");
        if !word.starts_with(|c: char| c.is_ascii_digit() || c == '*') {
            return self.element();
        }
        self.at += 1;
        let number = |digits: &str, none: usize| digits.parse().unwrap_or(none);
        let (least, most) = match word.split_once('*') {
            Some((least, most)) => (number(least, 0), number(most, usize::MAX)),
            None => (number(word, 0), number(word, 0)),
        };
        Rule::Times(least, most, Box::new(self.element()))
    }
    fn element(&mut self) -> Rule {
        let word = self.next();
        match word {
            "(" => {
                let inside = self.choice();
                assert_eq!(self.next(), ")");
                inside
            }
            "[" => {
                let inside = self.choice();
                assert_eq!(self.next(), "]");
                Rule::Times(0, 1, Box::new(inside))
            }
            _ if word.starts_with('"') => Rule::Word(word.trim_matches('"').to_string()),
            _ => match word.strip_prefix("%x").and_then(|range| range.split_once('-')) {
                Some((from, to)) => {
                    let byte = |digits: &str| u8::from_str_radix(digits, 16).expect("hex");
                    Rule::Range(byte(from), byte(to))
                }
                None => Rule::Named(word.to_string()),
            },
        }
    }
}

/// The rules by their names. A rule begins at the front of a line.
fn grammar() -> &'static HashMap<String, Rule> {
    static RULES: OnceLock<HashMap<String, Rule>> = OnceLock::new();
    RULES.get_or_init(|| {
        let lines = ABNF.lines().map(|line| line.split(';').next().expect("a part").trim_end()).filter(|line| !line.is_empty());
        let mut texts: Vec<(String, String)> = Vec::new();
        for line in lines {
            if line.starts_with(' ') {
                texts.last_mut().expect("a rule").1.push_str(line);
            } else {
                let (name, text) = line.split_once('=').expect("a name and its rule");
                texts.push((name.trim().to_string(), text.to_string()));
            }
        }
        let rule = |text: &str| {
            let mut words = Words::of(text);
            let rule = words.choice();
            assert_eq!(words.peek(), None, "the whole text is a rule");
            rule
        };
        texts.iter().map(|(name, text)| (name.clone(), rule(text))).collect()
    })
}

/// Every place at which a match of the rule that begins at `from` may end.
fn ends(rule: &Rule, s: &[u8], from: usize) -> Vec<usize> {
    let mut out = match rule {
        Rule::Choice(choices) => choices.iter().flat_map(|choice| ends(choice, s, from)).collect(),
        Rule::Row(row) => row.iter().fold(vec![from], |places, rule| all_ends(rule, s, &places)),
        Rule::Times(least, most, rule) => times(*least, *most, rule, s, from),
        Rule::Word(word) => {
            let to = from + word.len();
            if s.get(from..to).is_some_and(|part| part.eq_ignore_ascii_case(word.as_bytes())) { vec![to] } else { Vec::new() }
        }
        Rule::Range(low, high) => match s.get(from) {
            Some(byte) if (low..=high).contains(&byte) => vec![from + 1],
            _ => Vec::new(),
        },
        Rule::Named(name) => ends(&grammar()[name], s, from),
    };
    if out.len() > 1 {
        out.sort_unstable();
        out.dedup();
    }
    out
}

fn all_ends(rule: &Rule, s: &[u8], places: &[usize]) -> Vec<usize> {
    let mut out: Vec<usize> = places.iter().flat_map(|&place| ends(rule, s, place)).collect();
    out.sort_unstable();
    out.dedup();
    out
}

/// The places after so many times, however often it was. What is repeated has a byte, so there is an end to it.
fn times(least: usize, most: usize, rule: &Rule, s: &[u8], from: usize) -> Vec<usize> {
    let mut out = Vec::new();
    let mut places = vec![from];
    let mut count = 0;
    while !places.is_empty() {
        if count >= least {
            out.extend_from_slice(&places);
        }
        if count == most {
            break;
        }
        places = all_ends(rule, s, &places);
        count += 1;
    }
    out
}

/// Whether some way through the tree takes the whole string.
pub fn well_formed(tag: &[u8]) -> bool {
    let answer = ends(&grammar()["Language-Tag"], tag, 0).contains(&tag.len());
    if answer {
        let text = std::str::from_utf8(tag).expect("only ASCII is taken");
        assert!(!text.is_empty() && door::is_language_tag(text), "a well-formed tag is one of document 01's grammar");
    }
    if tag.len() <= 24 {
        for other in [tag.to_ascii_lowercase(), tag.to_ascii_uppercase()] {
            assert_eq!(ends(&grammar()["Language-Tag"], &other, 0).contains(&other.len()), answer, "letter case is ignored");
        }
    }
    answer
}

/// The empty tag stays allowed, since it means unknown.
pub fn allowed(tag: &[u8]) -> bool {
    tag.is_empty() || well_formed(tag)
}

/// The reading at a brace with strict tags: the value of `lang` of the finished set, so the last one, unescaped, is tested.
/// 1, 3, 4, 2, 5, 13, 6, 7.
pub fn read_attrs_at(bytes: &[u8], place: usize, loose: bool) -> Result<(Attrs, usize), Number> {
    let (attrs, next) = layer::reading_at(bytes, place, loose)?;
    let ordinary = layer::read_attrs_at(bytes, place, loose);
    if attrs.key_values.get("lang").is_some_and(|tag| !allowed(tag.as_bytes())) {
        assert!(matches!(ordinary, Ok(_) | Err(6 | 7)), "a reading exists");
        return Err(13);
    }
    let read = layer::within_limits(attrs).map(|attrs| (attrs, next));
    assert_eq!(read, ordinary, "a set that is handed out is that of the ordinary reading");
    read
}
