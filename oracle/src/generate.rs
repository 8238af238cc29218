//! Prints request lines, the same ones for the same words on the command line.
//!
//!     generate random FAMILIES SEED FROM COUNT      requests FROM to FROM + COUNT of an endless list
//!     generate exhaustive FAMILY LENGTH FROM COUNT  all strings of up to LENGTH atoms, in every request of the family
//!     generate size FAMILY LENGTH                   how many requests that is
//!     generate groups KIND SEED FROM COUNT          triples of lines for the merger of groups, of a KIND of its own
//!
//! FAMILIES are names parted by commas: leaves, brace, lines, refused, merge, sheet, rows, quick, merge2, repeats,
//! variants, report, reports, index, mends, loose, columns, place, lang, once; `all` stands for all of them.
//! The family `errors`, which is in no `all`, damages the request lines themselves.
//! Each request is made from the seed and its own number, so any part of the list can be made again. A request that
//! carries the index of a text has it from the oracle's own modules.

#[allow(dead_code)]
mod ast;
#[allow(dead_code)]
mod document;
#[allow(dead_code)]
mod index;
#[allow(dead_code)]
mod layer;
#[allow(dead_code, unused_imports)]
mod parse;
#[allow(dead_code)]
mod rows;
#[allow(dead_code)]
mod standins;
#[allow(dead_code)]
mod table_width;

use index::{INDEX_LIMIT, ROWS_LIMIT};
use std::io::{self, BufWriter, Write};
use std::sync::{Mutex, OnceLock};

const FAMILIES: [&str; 20] = [
    "leaves", "brace", "lines", "refused", "merge", "sheet", "rows", "quick", "merge2", "repeats", "variants", "report", "index",
    "mends", "loose", "columns", "reports", "place", "lang", "once",
];
/// Kinds of strings of which there are only lists of all.
const LISTED: [&str; 10] = [
    "payload", "text", "refused-text", "bytes", "place-characters", "place-tags", "place-bytes", "lang-letters", "lang-kinds", "lang-subtags",
];
const TEXT_LIMIT: usize = 65_535;

// ---- Chance ----

/// xorshift64*, started from a mixed seed.
struct Rng(u64);

impl Rng {
    fn new(seed: u64, number: u64) -> Rng {
        // splitmix64 spreads neighbouring seeds and numbers apart.
        let mut z = seed.wrapping_mul(0x9E37_79B9_7F4A_7C15) ^ number.wrapping_add(1).wrapping_mul(0xD1B5_4A32_D192_ED03);
        z = (z ^ (z >> 30)).wrapping_mul(0xBF58_476D_1CE4_E5B9);
        z = (z ^ (z >> 27)).wrapping_mul(0x94D0_49BB_1331_11EB);
        Rng((z ^ (z >> 31)) | 1)
    }
    fn next(&mut self) -> u64 {
        self.0 ^= self.0 >> 12;
        self.0 ^= self.0 << 25;
        self.0 ^= self.0 >> 27;
        self.0.wrapping_mul(0x2545_F491_4F6C_DD1D)
    }
    fn below(&mut self, n: usize) -> usize {
        ((self.next() >> 33) % n as u64) as usize
    }
    fn between(&mut self, low: usize, high: usize) -> usize {
        low + self.below(high - low + 1)
    }
    /// True once in `n` times.
    fn once_in(&mut self, n: usize) -> bool {
        self.below(n) == 0
    }
    fn percent(&mut self, n: usize) -> bool {
        self.below(100) < n
    }
    fn pick<'a, T: ?Sized>(&mut self, list: &[&'a T]) -> &'a T {
        list[self.below(list.len())]
    }
    /// One of the entries, each as often as its weight says.
    fn weighted(&mut self, weights: &[usize]) -> usize {
        let mut at = self.below(weights.iter().sum());
        for (n, &weight) in weights.iter().enumerate() {
            if at < weight {
                return n;
            }
            at -= weight;
        }
        unreachable!()
    }
}

// ---- Pieces of blocks ----

const NAMES: &[&str] = &[
    "a", "b", "c", "k", "x", "y", "id", "class", "lang", "side", "wheel", "k1", "k2", "A", "Z9", "a-b", "data-x", "_a", "__",
    "a_", "a-", "Id", "CLASS", "ids", "clas", "lan",
];
const ODD_NAMES: &[&str] = &["", "-a", "1a", "9", "-", "é", "aé", "a.b", "a#b", "a:b", "a{", "a%", "\u{a0}", "K", "ſ", "a\u{b}"];
const TAGS: &[&str] = &["", "en", "de-DE", "abcdefgh", "zh-Hant-TW", "1", "x-12345678-9", "A1b2-c", "a-b-c-d"];
const ODD_TAGS: &[&str] = &["abcdefghi", "a-", "-a", "-", "a--b", "de_DE", "a.b", "é", "en=x", "abcdefgh-123456789", "a=\"b\""];
const QUOTED: &[&str] = &[
    "a", "b", "1", " ", "  ", "b c", "}", "{", "}{", "{}", "\\\\", "\\\"", "\\'", "\\a", "\\}", "\\ ", "\t", "\r", "\u{c}",
    "\u{b}", "é", "€", "😀", "=", "|", "#", ".", "\\é", "\\\t", "\u{a0}", "\u{85}", "\u{3000}", "\u{feff}", "%", "%}", "\\_",
    "\\\\_", "\u{7f}", "\0",
];
const UNQUOTED: &[&str] = &[
    "a", "b", "1", "x1", "é", "€", "😀", "{", "=", "==", "#", ".", ":", "\u{c}", "\u{b}", "\u{a0}", "\u{85}", "\u{3000}", "-",
    "%", "[", "/", "&", "<", "\0", "\u{7f}", "\u{feff}", "_", "a\u{c}b",
];
const ODD_UNQUOTED: &[&str] = &["|", "'", "\"", "\\", "}", "\\\"", "a\"b\"", "\\}"];
/// Bytes that mean something somewhere, for damage.
const SPECIAL: &[&str] = &[
    "{", "}", "}{", "\"", "'", "\\", " ", "\t", "\n", "\r", "\r\n", "\u{c}", "\u{b}", "#", ".", ":", "=", "|", "-", "_", "%", "%}",
    "{%", "a", "1", "é", "😀", "\0", "\u{a0}", "\u{85}", "\u{feff}",
];
const PROSE: &[&str] = &["text", "a b", "", " ", "\t", "x}", "x{", "%}", "a %}", "it's", "\"q", "- item", "é€", "# h", "{", "}", "{%", "\u{c}", "\r"];

/// Every kind of broken UTF-8, and the good sequences that stand next to them.
const BROKEN: &[&[u8]] = &[
    b"\xC0\x80", b"\xC1\xBF", b"\xE0\x80\x80", b"\xE0\x9F\xBF", b"\xF0\x80\x80\x80", b"\xF0\x8F\xBF\xBF", // overlong
    b"\xED\xA0\x80", b"\xED\xBF\xBF", b"\xED\xA0\xBD\xED\xB8\x80", // surrogates
    b"\xC2", b"\xDF", b"\xE2\x82", b"\xE2", b"\xF0\x9F\x98", b"\xF0\x9F", b"\xF0", // cut short
    b"\xC2 ", b"\xE2\x82 ", b"\xF0\x9F\x98 ", b"\xE2\xC2\x80", b"\xF0\x9F\xC2\x80", b"\xC2}", b"\xE2\x82\"", b"\xC2\\", // cut by a character
    b"\x80", b"\xBF", b"\xC2\x80\x80", b"a\x80", // stray continuation
    b"\xF4\x90\x80\x80", b"\xF4\xBF\xBF\xBF", b"\xF5\x80\x80\x80", b"\xF7\xBF\xBF\xBF", // above 10FFFF
    b"\xF8\x88\x80\x80\x80", b"\xFC\x84\x80\x80\x80\x80", b"\xFE", b"\xFF", b"\xFD",
];
const GOOD_EDGES: &[&[u8]] = &[
    b"\xC2\x80", b"\xDF\xBF", b"\xE0\xA0\x80", b"\xED\x9F\xBF", b"\xEE\x80\x80", b"\xEF\xBF\xBF", b"\xF0\x90\x80\x80", b"\xF4\x8F\xBF\xBF",
    b"\xF3\xBF\xBF\xBF", b"\xE1\x80\x80", b"\xEC\xBF\xBF",
];

fn name(rng: &mut Rng) -> String {
    match rng.weighted(&[70, 20, 3]) {
        0 => rng.pick(NAMES).to_string(),
        1 => {
            let first = b"abcxyzABCXYZ_";
            let later = b"abcxyzABCXYZ_-0189";
            let mut out = String::new();
            out.push(first[rng.below(first.len())] as char);
            for _ in 0..rng.below(6) {
                out.push(later[rng.below(later.len())] as char);
            }
            out
        }
        _ => rng.pick(ODD_NAMES).to_string(),
    }
}

fn tag(rng: &mut Rng) -> String {
    match rng.weighted(&[70, 20, 10]) {
        0 => rng.pick(TAGS).to_string(),
        1 => {
            let subtags: Vec<String> = (0..rng.between(1, 3))
                .map(|_| (0..rng.between(1, 9)).map(|_| b"abzABZ019"[rng.below(9)] as char).collect())
                .collect();
            subtags.join("-")
        }
        _ => rng.pick(ODD_TAGS).to_string(),
    }
}

fn quoted(rng: &mut Rng) -> String {
    let quote = rng.pick(&["\"", "\"", "'"]);
    let mut out = quote.to_string();
    for _ in 0..rng.weighted(&[15, 40, 25, 12, 8]) {
        let piece = rng.pick(QUOTED);
        out.push_str(piece);
        if rng.once_in(12) {
            // The other kind of quote needs no backslash.
            out.push_str(if quote == "'" { "\"" } else { "'" });
        }
    }
    match rng.weighted(&[96, 2, 1, 1]) {
        0 => out.push_str(quote),
        1 => {}
        2 => out.push_str(&format!("{quote}b")),
        _ => out.push_str(&format!("{quote}{quote}")),
    }
    out
}

fn unquoted(rng: &mut Rng) -> String {
    let mut out = String::new();
    for _ in 0..rng.weighted(&[2, 60, 25, 13]) {
        out.push_str(if rng.once_in(60) { rng.pick(ODD_UNQUOTED) } else { rng.pick(UNQUOTED) });
    }
    out
}

fn value(rng: &mut Rng) -> String {
    if rng.percent(55) {
        quoted(rng)
    } else {
        unquoted(rng)
    }
}

fn token(rng: &mut Rng) -> String {
    match rng.weighted(&[20, 9, 34, 12, 7, 8, 4, 3, 2, 1]) {
        0 => format!(".{}", name(rng)),
        1 => format!("#{}", name(rng)),
        2 => format!("{}={}", name(rng), value(rng)),
        3 => name(rng),
        4 => format!(":{}", tag(rng)),
        5 => format!("class={}", value(rng)),
        6 => format!("id={}", value(rng)),
        7 => format!("lang={}", value(rng)),
        8 => rng.pick(&["id", "class", "lang", "class=\"a b\"", "class=\" \"", "class=''", "class=a\u{c}b", "class=\"\\\"a\\ \\b\""]).to_string(),
        _ => rng.pick(SPECIAL).to_string(),
    }
}

fn separator(rng: &mut Rng) -> &'static str {
    match rng.weighted(&[180, 8, 3, 2, 2, 2, 1, 1, 1]) {
        0 => " ",
        1 => "  ",
        2 => "\r",
        3 => "\n",
        4 => "\t",
        5 => "",
        6 => "\u{c}",
        7 => "\u{b}",
        _ => "\u{a0}",
    }
}

/// The tokens of a block's inside; now and then as many classes or keys as stand around a limit.
fn tokens(rng: &mut Rng) -> Vec<String> {
    if rng.once_in(60) {
        return crowd(rng);
    }
    (0..rng.weighted(&[2, 35, 30, 18, 10, 5])).map(|_| token(rng)).collect()
}

/// So many less than 63 that all numbers around a limit stand around 32, where it was once: now and then.
fn lower(rng: &mut Rng) -> usize {
    32 * usize::from(rng.once_in(5))
}

/// A number of classes or keys around their limit, or now and then around half of it.
fn around_limit(rng: &mut Rng) -> usize {
    rng.between(63, 66) - lower(rng)
}

/// As many classes or keys, spelled in several ways.
fn crowd(rng: &mut Rng) -> Vec<String> {
    let count = around_limit(rng);
    let mut out: Vec<String> = match rng.below(6) {
        0 => (0..count).map(|n| format!(".c{n}")).collect(),
        1 => (0..count).map(|n| format!("k{n}=v")).collect(),
        2 => (0..count).map(|n| format!("k{n}")).collect(),
        3 => vec![format!("class=\"{}\"", (0..count).map(|n| format!("c{n}")).collect::<Vec<_>>().join(rng.pick(&[" ", "\t", "\u{c}", "  "])))],
        4 => {
            // Both at once.
            let keys = around_limit(rng);
            (0..count).map(|n| format!(".c{n}")).chain((0..keys).map(|n| format!("k{n}=\"v\""))).collect()
        }
        // Repeated classes count each time, repeated keys once.
        _ => (0..count).map(|_| ".a".to_string()).chain((0..count + 2).map(|n| format!("k{}=1", n % (count - 2)))).collect(),
    };
    if rng.once_in(3) {
        out.push(":en".to_string());
    }
    if rng.once_in(3) {
        out.push("lang=x".to_string());
    }
    if rng.once_in(3) {
        out.insert(0, "#i".to_string());
    }
    if rng.once_in(6) {
        out.push(token(rng));
    }
    out
}

fn payload(rng: &mut Rng) -> String {
    let mut out = String::new();
    if rng.once_in(15) {
        out.push_str(separator(rng));
    }
    for (n, token) in tokens(rng).iter().enumerate() {
        if n > 0 {
            out.push_str(separator(rng));
        }
        out.push_str(token);
    }
    if rng.once_in(15) {
        out.push_str(separator(rng));
    }
    out
}

fn block(rng: &mut Rng) -> String {
    format!("{{{}}}", payload(rng))
}

/// Blocks back to back.
fn chain(rng: &mut Rng) -> String {
    if rng.once_in(200) {
        // An overflow in the first block and a fault in the last.
        return format!("{{{}}}{}", crowd(rng).join(" "), block(rng));
    }
    let mut out = block(rng);
    for _ in 0..rng.weighted(&[60, 28, 12]) {
        if rng.once_in(40) {
            out.push_str(rng.pick(SPECIAL));
        }
        out.push_str(&block(rng));
    }
    out
}

/// Damages a text in one or two places, about once in `n` times.
fn damage(rng: &mut Rng, text: &mut Vec<u8>, n: usize) {
    if !rng.once_in(n) {
        return;
    }
    for _ in 0..rng.between(1, 2) {
        let at = rng.below(text.len() + 1);
        let end = (at + rng.between(1, 3)).min(text.len());
        match rng.weighted(&[25, 30, 20, 8, 8, 4, 5]) {
            0 => drop(text.drain(at..end.min(at + 1))),
            1 => drop(text.splice(at..at, rng.pick(SPECIAL).bytes())),
            2 => drop(text.splice(at..end.min(at + 1), rng.pick(SPECIAL).bytes())),
            3 => {
                let copy = text[at..end].to_vec();
                drop(text.splice(at..at, copy));
            }
            4 => {
                if at + 1 < text.len() {
                    text.swap(at, at + 1);
                }
            }
            5 => text.truncate(at),
            _ => {
                let list = if rng.percent(75) { BROKEN } else { GOOD_EDGES };
                drop(text.splice(at..at, rng.pick(list).iter().copied()));
            }
        }
    }
}

// ---- Numbers ----

/// A number that is mostly `good`, else near it, or one that a narrower type would cut to it, or huge.
fn number(rng: &mut Rng, good: usize, percent_good: usize) -> u64 {
    let good = good as u64;
    if rng.percent(percent_good) {
        return good;
    }
    match rng.below(10) {
        0 => 0,
        1 => good + 1,
        2 => good.saturating_sub(1),
        3 => rng.below(8) as u64,
        4 => (1 << 32) + good,
        5 => (1 << 16) + good,
        6 => u64::MAX,
        7 => u64::MAX - rng.below(5) as u64,
        8 => (1 << 63) + good,
        _ => (1u64 << rng.below(64)) + rng.below(3) as u64 - 1,
    }
}

// ---- Texts with lines ----

/// Appends white space that reaches the column from the line's start, with tabs now and then.
fn indent(rng: &mut Rng, column: usize, out: &mut String) {
    let mut at = 0;
    let tabs = rng.once_in(5);
    while at < column {
        let next = at + 4 - at % 4;
        if tabs && next <= column && rng.percent(70) {
            out.push('\t');
            at = next;
        } else {
            out.push(' ');
            at += 1;
        }
    }
}

/// The column behind the last character, and that of the last brace that opens, as a person would count them.
fn columns(line: &str) -> (usize, usize) {
    let (mut column, mut brace) = (0, 0);
    for ch in line.chars() {
        if ch == '{' {
            brace = column;
        }
        column = if ch == '\t' { column + 4 - column % 4 } else { column + 1 };
    }
    (column, brace)
}

/// A chain of blocks broken over several lines. `shallow` is how many of a hundred later lines stand at or before the
/// last open brace.
fn wrapped(rng: &mut Rng, opener_column: usize, shallow: usize) -> String {
    let mut line = String::new();
    indent(rng, opener_column, &mut line);
    if rng.once_in(40) {
        line.push_str(rng.pick(&["\u{c}", "\r", "\u{b}", "\u{a0}", " \u{c} "]));
    }
    let mut out = String::new();
    let blocks = rng.weighted(&[0, 60, 28, 12]);
    for n in 0..blocks {
        line.push('{');
        let list = tokens(rng);
        for (at, token) in list.iter().enumerate() {
            // Breaks stand at the front, between tokens and before the close.
            let breaks = if at == 0 { rng.once_in(8) } else { rng.percent(45) };
            if breaks {
                break_line(rng, &mut out, &mut line, shallow);
            } else if at > 0 {
                line.push_str(separator(rng));
            }
            line.push_str(token);
        }
        if rng.once_in(if n + 1 == blocks { 6 } else { 10 }) {
            break_line(rng, &mut out, &mut line, shallow);
        }
        line.push('}');
        if rng.once_in(50) {
            line.push_str(rng.pick(SPECIAL));
        }
    }
    if rng.once_in(10) {
        line.push_str(rng.pick(&[" ", "  ", "\t", "\r", "\u{c}"]));
    }
    out + &line
}

fn break_line(rng: &mut Rng, out: &mut String, line: &mut String, shallow: usize) {
    let (_, brace) = columns(line);
    if rng.once_in(10) {
        line.push_str(rng.pick(&[" ", "  ", "\t", "\r", "\u{c}", " x"]));
    }
    out.push_str(line);
    out.push_str(if rng.once_in(15) { "\r\n" } else { "\n" });
    line.clear();
    let column = if rng.percent(shallow) {
        match rng.below(4) {
            0 => 0,
            1 => brace.saturating_sub(1),
            2 => brace,
            _ => rng.below(brace + 1),
        }
    } else {
        match rng.below(5) {
            0..=2 => brace + 1,
            3 => brace + rng.between(1, 6),
            _ => brace / 4 * 4 + 4,
        }
    };
    indent(rng, column, line);
    if rng.once_in(60) {
        line.push_str(rng.pick(&["\u{c}", "\r", "\u{b}", "\u{a0}"]));
    }
}

fn prose(rng: &mut Rng) -> String {
    let mut out = rng.pick(PROSE).to_string();
    if rng.once_in(3) {
        out.push_str(rng.pick(PROSE));
    }
    out
}

fn opener_column(rng: &mut Rng) -> usize {
    match rng.weighted(&[60, 20, 20]) {
        0 => 0,
        1 => rng.between(1, 3),
        _ => rng.between(1, 9),
    }
}

/// A comment run: `{%`, lines of anything, `%}`.
fn comment(rng: &mut Rng) -> String {
    let mut out = String::new();
    let column = opener_column(rng);
    indent(rng, column, &mut out);
    out.push_str(rng.pick(&["{%", "{% a", "{% \"x", "{%}", "{ %", "{%%"]));
    for _ in 0..rng.below(4) {
        out.push('\n');
        let at = if rng.percent(60) { column + 1 } else { rng.below(column + 2) };
        indent(rng, at, &mut out);
        out.push_str(rng.pick(&["x", "{a", "{%", "}", "\"", "a b", "%", "y}", "{", "", "{b}"]));
    }
    if rng.percent(85) {
        if rng.percent(60) {
            out.push('\n');
            let at = rng.below(column + 3);
            indent(rng, at, &mut out);
        }
        out.push_str(rng.pick(&["%}", "a %}", "%} b", "%}}", "%}{a}"]));
    }
    out
}

/// A text of some lines and the number of the line that its main block starts at.
fn text_of_lines(rng: &mut Rng, shallow: usize, comments: usize) -> (Vec<u8>, usize) {
    let mut out = String::new();
    let mut before = 0;
    for _ in 0..rng.weighted(&[70, 18, 12]) {
        let part = if rng.percent(70) { prose(rng) } else { wrapped(rng, 0, shallow) };
        before += part.matches('\n').count() + 1;
        out.push_str(&part);
        out.push('\n');
    }
    let column = opener_column(rng);
    let main = if rng.percent(comments) { comment(rng) } else { wrapped(rng, column, shallow) };
    out.push_str(&main);
    for _ in 0..rng.weighted(&[55, 25, 20]) {
        out.push('\n');
        let part = match rng.below(4) {
            0 => wrapped(rng, 0, shallow),
            1 => format!(" {}", token(rng)),
            _ => prose(rng),
        };
        out.push_str(&part);
    }
    if rng.once_in(4) {
        out.push_str(rng.pick(&["\n", "\r\n", "\r", "\n\n", " "]));
    }
    let mut bytes = out.into_bytes();
    damage(rng, &mut bytes, 4);
    (bytes, before + 1)
}

/// A join buffer's length that stands at one of the places where another line begins or stops to fit.
fn cap(rng: &mut Rng, text: &[u8], line: usize) -> String {
    if !rng.once_in(4) {
        return String::new();
    }
    let mut lengths = Vec::new();
    let mut total = 0;
    for line in text.split(|&b| b == b'\n').skip(line - 1).take(8) {
        let blank = |b: &u8| b" \t\n\x0C\r".contains(b);
        let from = line.iter().position(|b| !blank(b)).unwrap_or(line.len());
        let to = line.iter().rposition(|b| !blank(b)).map_or(from, |at| at + 1);
        total += to - from + usize::from(!lengths.is_empty());
        lengths.push(total);
    }
    let exact = if lengths.is_empty() { 0 } else { lengths[rng.below(lengths.len())] };
    let cap = match rng.below(6) {
        0 | 1 => exact,
        2 | 3 => exact.saturating_sub(1),
        4 => exact + 1,
        _ => rng.below(12),
    };
    format!(" cap={}", cap.min(TEXT_LIMIT))
}

// ---- Long texts ----

/// A size at or near the limit; the requests carry at most 65,600 bytes.
fn long_size(rng: &mut Rng) -> usize {
    match rng.below(6) {
        0 => TEXT_LIMIT - 1,
        1 | 2 => TEXT_LIMIT,
        3 => TEXT_LIMIT + 1,
        4 => rng.between(TEXT_LIMIT - 20, TEXT_LIMIT + 65),
        _ => rng.between(30_000, TEXT_LIMIT),
    }
}

/// `head`, as many copies of `filler` as fit, plain letters up to the size, and `tail`.
fn filled(size: usize, head: &str, filler: &str, tail: &str) -> String {
    let room = size.saturating_sub(head.len() + tail.len());
    let mut out = head.to_string();
    out.push_str(&filler.repeat(room / filler.len()));
    out.push_str(&"z".repeat(room % filler.len()));
    out + tail
}

/// A long text that is one line, or starts with one long line.
fn long_line(rng: &mut Rng) -> String {
    let size = long_size(rng);
    match rng.below(9) {
        0 => filled(size, "{k=", "x", "}"),
        1 => filled(size, "{k=\"", "é", "\"}"),
        2 => filled(size, "{", " ", "a}"),
        3 => filled(size, "{k=", "😀", ""),
        4 => filled(size, "{k='", "\\\"", "'}"),
        5 => filled(size, "{.a}{", ".b ", "}"),
        6 => filled(size, "{.a}", "{b}", "{.c}"),
        7 => {
            // Each quote takes two bytes in the canonical text: its limit is met with half as many.
            let extra = rng.between(0, 4);
            format!("{{k='{}{}'}}", "\"".repeat(32_763), "x".repeat(extra))
        }
        _ => {
            let mut keys = String::from("{");
            let mut n = 0;
            while keys.len() < size - 12 {
                keys.push_str(&format!("k{n} "));
                n += 1;
            }
            filled(size, &keys, "x", "}")
        }
    }
}

/// A long text of many lines.
fn long_lines(rng: &mut Rng) -> String {
    let size = long_size(rng);
    match rng.below(8) {
        0 => filled(size, "{a\n", " b\n", " c}"),
        1 => filled(size, "{a=\"1\"", "\n b=2", "}"),
        2 => filled(size, "", "x\n", "\n{a\n b}"),
        3 => filled(size, "", "{.a}\n", ""),
        4 => filled(size, "{a\n b}\n", "t\r\n", "{c}"),
        5 => filled(size, "{a\n", " b=xxxxxxxxxxxxxxxxxxxxxxxxxxxxxxxxxxxxxxxxxxxxxxxxxxxxxxxxxxxxxxxx\n", " c}\nend"),
        6 => filled(size, "   {a\n", "b\n", "c}"),
        _ => filled(size, "{% a\n", "x\n", "%}"),
    }
}

// ---- Requests ----

struct Out {
    line: Vec<u8>,
}

impl Out {
    fn words(&mut self, words: &str) {
        self.line.extend_from_slice(words.as_bytes());
    }
    fn hex(&mut self, bytes: &[u8]) {
        if bytes.is_empty() {
            self.line.push(b'-');
        }
        for &byte in bytes {
            self.line.push(b"0123456789abcdef"[usize::from(byte >> 4)]);
            self.line.push(b"0123456789abcdef"[usize::from(byte & 15)]);
        }
    }
    fn request(&mut self, words: &str, bytes: &[u8], behind: &str) {
        self.words(words);
        self.line.push(b' ');
        self.hex(bytes);
        self.words(behind);
    }
    /// A request with one text or two; the second is none if it is empty.
    fn texts(&mut self, words: &str, first: &str, second: &str) {
        self.request(words, first.as_bytes(), if second.is_empty() { "" } else { " " });
        if !second.is_empty() {
            self.hex(second.as_bytes());
        }
    }
}

fn random(family: &str, rng: &mut Rng, out: &mut Out) {
    match family {
        "leaves" => leaf(rng, out),
        "brace" => brace(rng, out),
        "lines" => lines(rng, out),
        "refused" => refused(rng, out),
        "merge" => merge(rng, out),
        "merge2" => merge2(rng, out),
        "repeats" => repeats(rng, out),
        "rows" => rows(rng, out),
        "quick" => quick(rng, out),
        "variants" => variants(rng, out),
        "report" => report(rng, out),
        "reports" => reports(rng, out),
        "index" => indexes(rng, out),
        "mends" => mends(rng, out),
        "place" => place(rng, out),
        "lang" => lang(rng, out),
        "once" => once(rng, out),
        "loose" => loose(rng, out),
        "columns" => columns_of_tables(rng, out),
        "errors" => errors(rng, out),
        _ => sheet(rng, out),
    }
}

/// Characters of all lengths with broken ones among them.
fn utf8_mix(rng: &mut Rng) -> Vec<u8> {
    let mut out = Vec::new();
    let broken = rng.percent(60);
    for _ in 0..rng.below(6) {
        match rng.below(5) {
            0 => out.extend_from_slice(rng.pick(GOOD_EDGES)),
            1 if broken => out.extend_from_slice(rng.pick(BROKEN)),
            2 if broken => out.push(rng.below(256) as u8),
            3 => {
                let code = rng.below(0x11_0000) as u32;
                out.extend(char::from_u32(code).unwrap_or('x').to_string().bytes());
            }
            _ => out.extend_from_slice(rng.pick(SPECIAL).as_bytes()),
        }
    }
    if rng.once_in(6) {
        out.truncate(rng.below(out.len() + 1));
    }
    out
}

fn leaf(rng: &mut Rng, out: &mut Out) {
    if rng.once_in(4000) {
        let text = if rng.percent(50) { long_line(rng) } else { long_lines(rng) };
        let mut text = text.into_bytes();
        damage(rng, &mut text, 2);
        text.truncate(65_600);
        let words = rng.pick(&[
            "is_utf8", "check_text", "check_text", "check_text", "char_count", "columns", "trim_ascii", "unescape_title", "line 3", "line_from 3",
            "line_from 65530", "piece_at 65534", "piece_at 65535", "is_char_boundary 65535",
        ]);
        return out.request(&format!("leaf {words}"), &text, "");
    }
    match rng.below(26) {
        0 | 1 => {
            let mut text = utf8_mix(rng);
            damage(rng, &mut text, 6);
            out.request("leaf is_utf8", &text, "");
        }
        2 | 3 => {
            let text = utf8_mix(rng);
            let place = place_in(rng, &text);
            out.request(&format!("leaf is_char_boundary {place}"), &text, "");
        }
        4 => out.request("leaf char_count", &utf8_mix(rng), ""),
        5..=7 => {
            let mut text = name(rng).into_bytes();
            damage(rng, &mut text, 4);
            let words = rng.pick(&["is_identifier", "is_css_identifier", "is_boolean_attr_name"]);
            out.request(&format!("leaf {words}"), &text, "");
        }
        8 | 9 => {
            let mut text = tag(rng).into_bytes();
            damage(rng, &mut text, 4);
            out.request("leaf is_language_tag", &text, "");
        }
        10..=12 => {
            let mut text = Vec::new();
            for _ in 0..rng.below(7) {
                let blank = rng.percent(65);
                let piece = if blank { rng.pick(&[" ", "\t", "\n", "\u{c}", "\r"]) } else { rng.pick(&["a", "é", "\u{b}", "\u{a0}", "\u{85}", "\0", "{"]) };
                text.extend_from_slice(piece.as_bytes());
            }
            damage(rng, &mut text, 8);
            let words = rng.pick(&["trim_ascii", "trim_ascii_start", "trim_ascii_end", "is_blank_line", "indent_columns"]);
            out.request(&format!("leaf {words}"), &text, "");
        }
        13 | 14 => {
            let text = short_lines(rng);
            let line = rng.between(0, 5);
            let line = number(rng, line, 90);
            out.request(&format!("leaf line {line}"), &text, "");
        }
        15 => {
            let text = if rng.percent(50) { utf8_mix(rng) } else { text_of_lines(rng, 20, 10).0 };
            out.request("leaf columns", &text, "");
        }
        16 => out.request("leaf unescape_title", &escaped(rng), ""),
        17 | 18 => {
            let mut a = Vec::new();
            for _ in 0..rng.below(6) {
                a.extend_from_slice(rng.pick(&["\\", "a", "\"", "_", "é", "b", "\\a", "\\_"]).as_bytes());
            }
            // Mostly the true answer, else nearly.
            let mut b = Vec::new();
            let mut at = 0;
            while at < a.len() {
                if a[at] == b'\\' && a.get(at + 1).is_some_and(u8::is_ascii_punctuation) {
                    at += 1;
                }
                b.push(a[at]);
                at += 1;
            }
            if rng.once_in(10) {
                b = a.clone();
            }
            damage(rng, &mut b, 3);
            out.request("leaf same_unescaped", &a, " ");
            out.hex(&b);
        }
        19 | 20 => {
            let text = short_lines(rng);
            let place = place_in(rng, &text);
            out.request(&format!("leaf line_from {place}"), &text, "");
        }
        21 | 22 => {
            let text = escaped(rng);
            let place = place_in(rng, &text);
            out.request(&format!("leaf piece_at {place}"), &text, "");
        }
        23 | 24 => {
            let mut text = if rng.percent(50) { utf8_mix(rng) } else { text_of_lines(rng, 20, 10).0 };
            damage(rng, &mut text, 6);
            out.request("leaf check_text", &text, "");
        }
        _ => out.words(&format!("leaf is_class {}", rng.below(256))),
    }
}

/// A few short lines with all kinds of ends.
fn short_lines(rng: &mut Rng) -> Vec<u8> {
    let mut text = Vec::new();
    for _ in 0..rng.below(9) {
        text.extend_from_slice(rng.pick(&["a", "\n", "\n", "\r", "\r\n", "b c", "", "\u{c}"]).as_bytes());
    }
    damage(rng, &mut text, 10);
    text
}

/// Backslashes before punctuation and before other bytes.
fn escaped(rng: &mut Rng) -> Vec<u8> {
    let mut text = Vec::new();
    for _ in 0..rng.below(7) {
        text.extend_from_slice(rng.pick(&["\\", "\\", "a", "\"", "_", "é", " ", "1", "\\~", "\\\u{7f}", "\t"]).as_bytes());
    }
    damage(rng, &mut text, 8);
    text
}

/// A place that is mostly in the text or just behind it.
fn place_in(rng: &mut Rng, text: &[u8]) -> u64 {
    let inside = rng.below(text.len() + 2);
    number(rng, inside, 90)
}

/// A text with a block in it, mostly at the place.
fn block_in_text(rng: &mut Rng, make: fn(&mut Rng) -> String) -> (Vec<u8>, u64) {
    let mut text = Vec::new();
    match rng.weighted(&[75, 15, 4, 6]) {
        0 => {}
        1 => text.extend_from_slice(prose(rng).as_bytes()),
        2 => text.extend_from_slice(rng.pick(BROKEN)),
        _ => text.extend_from_slice(block(rng).as_bytes()),
    }
    let place = text.len();
    text.extend_from_slice(make(rng).as_bytes());
    match rng.weighted(&[70, 12, 4, 14]) {
        0 => {}
        1 => text.extend_from_slice(prose(rng).as_bytes()),
        2 => text.extend_from_slice(rng.pick(BROKEN)),
        _ => text.extend_from_slice(block(rng).as_bytes()),
    }
    damage(rng, &mut text, 3);
    let place = if rng.once_in(15) { rng.below(text.len() + 2) } else { place };
    (text, number(rng, place, 97))
}

fn brace(rng: &mut Rng, out: &mut Out) {
    if rng.once_in(3000) {
        let mut text = if rng.percent(75) { long_line(rng) } else { long_lines(rng) }.into_bytes();
        damage(rng, &mut text, 6);
        text.truncate(65_600);
        let end = text.len();
        let words = match rng.below(8) {
            0..=2 => "read_attrs_at 0 strict".to_string(),
            3 => "read_attrs_at 0 loose".to_string(),
            4 => "payload_at 0".to_string(),
            5 => format!("payload_at {}", end - rng.below(3)),
            6 => rng.pick(&["parse_attrs", "is_valid_attr_payload"]).to_string(),
            _ => "valid_wrapped_attr_continuation".to_string(),
        };
        return out.request(&words, &text, "");
    }
    match rng.weighted(&[55, 8, 12, 12, 13]) {
        0 | 1 => {
            let (text, place) = block_in_text(rng, block);
            let words = if rng.once_in(8) {
                format!("payload_at {place}")
            } else {
                format!("read_attrs_at {place} {}", rng.pick(&["strict", "strict", "loose"]))
            };
            out.request(&words, &text, "");
        }
        2 | 3 => {
            let mut text = payload(rng).into_bytes();
            damage(rng, &mut text, 4);
            out.request(rng.pick(&["parse_attrs", "is_valid_attr_payload"]), &text, "");
        }
        _ => {
            let mut text = String::new();
            indent_some(rng, &mut text);
            match rng.below(5) {
                0 | 1 => text.push_str(&payload(rng)),
                2 => text.push_str(&format!("{}}}", payload(rng))),
                3 => text.push_str(&format!("{}}}{{{}", payload(rng), payload(rng))),
                _ => text.push_str(&format!("{}}}{{{}}}{{{}", payload(rng), payload(rng), payload(rng))),
            }
            indent_some(rng, &mut text);
            let mut text = text.into_bytes();
            damage(rng, &mut text, 4);
            out.request("valid_wrapped_attr_continuation", &text, "");
        }
    }
}

/// Tokens of few names in many spellings, so that rows are met again and slots stand in every order.
fn few_names(rng: &mut Rng) -> Vec<String> {
    let mut tokens = Vec::new();
    for _ in 0..rng.between(1, 7) {
        let name = rng.pick(&["k", "k", "m", "_n", "lang", "id", "class", "class"]);
        tokens.push(match rng.below(8) {
            0 => format!(":{}", tag(rng)),
            1 => format!("#{name}"),
            2 => format!(".{name}"),
            3 if name != "_n" => name.to_string(),
            4 | 5 => format!("{name}={}", quoted(rng)),
            _ => format!("{name}={}", value(rng)),
        });
    }
    tokens
}

/// A block of such tokens.
fn row_block(rng: &mut Rng) -> String {
    let tokens = few_names(rng);
    let blank = rng.pick(&[" ", " ", " ", "  ", "\r", "\n"]);
    let (before, behind) = (rng.pick(&["", "", " "]), rng.pick(&["", "", " "]));
    format!("{{{before}{}{behind}}}", tokens.join(blank))
}

/// The rows of the set that is read at a brace.
fn rows(rng: &mut Rng, out: &mut Out) {
    let mode = rng.pick(&["strict", "strict", "loose"]);
    if rng.once_in(3000) {
        let mut text = long_line(rng).into_bytes();
        damage(rng, &mut text, 6);
        text.truncate(65_600);
        return out.request(&format!("rows 0 {mode}"), &text, "");
    }
    let make = if rng.percent(60) { row_block } else { block };
    let (text, place) = block_in_text(rng, make);
    out.request(&format!("rows {place} {mode}"), &text, "");
}

/// What the quick test goes past, and where it may end: each kind of byte at a token's front and in its inside.
const PASSED: &[&str] = &[".a", "#b9", ".0-_", "#_", "name", "_x-", "Z-9", " ", " ", " ", "  ", "\t", "\r"];
const QUICK_ENDS: &[&[u8]] = &[
    b"", b"}", b"\n", b"\"", b"'", b"\\", b":", b":en}", b"=", b"=x", b"a=", b"a=}", b"a= ", b"a=\t", b"a=\r", b"a=\n", b"a=x", b"a=\"", b"a=\x80", b"a=\x0C",
    b"_=", b"a-=}", b"#", b".", b"#-", b".=", b"#}", b". ", b".#", b"#\x80", b".\xC3\xA9", b"-", b"0", b"9a", b"{", b"[", b"(", b"|", b"~", b"\0", b"\x7F",
    b"\x0B", b"\x0C", b"\x80", b"\xC3\xA9", b"\xFF",
];

/// The quick test, over any bytes and at any place.
fn quick(rng: &mut Rng, out: &mut Out) {
    let (mut text, mut place) = (Vec::new(), 0);
    match rng.weighted(&[5990, 1500, 1500, 1000, 10]) {
        0 => {
            text.extend_from_slice(if rng.percent(80) { b"" } else { rng.pick(&["}", "x", " ", "{.a", "\n"]).as_bytes() });
            place = text.len();
            text.push(b'{');
            for _ in 0..rng.below(7) {
                text.extend_from_slice(rng.pick(PASSED).as_bytes());
            }
            text.extend_from_slice(rng.pick(QUICK_ENDS));
            if rng.percent(40) {
                text.extend_from_slice(rng.pick(&["}", " ", "a", "x}", "=", " .a}"]).as_bytes());
            }
            damage(rng, &mut text, 5);
        }
        1 => {
            let (text, place) = block_in_text(rng, block);
            return out.request(&format!("attr_payload_provably_invalid {place}"), &text, "");
        }
        2 => {
            text = utf8_mix(rng);
            place = rng.below(text.len() + 2);
            text.insert(place.min(text.len()), b'{');
        }
        3 => text.extend((0..rng.below(9)).map(|_| rng.below(256) as u8)),
        _ => {
            let size = long_size(rng);
            let (filler, tail) = (rng.pick(&[".a ", "#b\t", "name ", "x", " ", "a-"]), rng.pick(&["", "}", "=", "a=x}", ".", "-", "\n"]));
            text = filled(size, "{", filler, tail).into_bytes();
        }
    }
    let place = number(rng, place, 94);
    out.request(&format!("attr_payload_provably_invalid {place}"), &text, "");
}

fn indent_some(rng: &mut Rng, out: &mut String) {
    for _ in 0..rng.weighted(&[60, 25, 15]) {
        out.push_str(rng.pick(&[" ", " ", "\t", "\r", "\u{c}", "\n"]));
    }
}

fn lines(rng: &mut Rng, out: &mut Out) {
    let long = rng.once_in(3000);
    let (text, line) = if long {
        let mut text = if rng.percent(35) { long_line(rng) } else { long_lines(rng) }.into_bytes();
        damage(rng, &mut text, 8);
        text.truncate(65_600);
        let last = text.iter().filter(|&&b| b == b'\n').count();
        let line = *[1, 1, 1, last.max(1), last + 1].get(rng.below(5)).unwrap();
        (text, line)
    } else if rng.once_in(4) {
        // One line with a chain on it.
        let mut text = String::new();
        indent_some(rng, &mut text);
        text.push_str(&chain(rng));
        indent_some(rng, &mut text);
        let mut text = text.into_bytes();
        damage(rng, &mut text, 4);
        (text, 1)
    } else {
        text_of_lines(rng, 12, 2)
    };
    let cap = if long && rng.percent(50) { format!(" cap={}", TEXT_LIMIT - rng.below(4)) } else { cap(rng, &text, line) };
    let line = number(rng, line, 96);
    let column = if rng.percent(60) { rng.below(6) } else { 0 };
    let column = number(rng, column, 85);
    let words = match rng.weighted(&[15, 35, 15, 10, 10, 15]) {
        0 => return out.request(&format!("parse_standalone_attrs {line}"), &text, ""),
        1 => format!("parse_standalone_attrs_block {line}"),
        2 => format!("standalone_attrs_block_len {line}"),
        3 => format!("indented_wrapped_attrs_block_len {line}"),
        4 => format!("attrs_block_len_at {column} {line}"),
        _ => format!("wrapped_attrs_run_at {column} {line}"),
    };
    out.request(&words, &text, &cap);
}

/// Several runs one after the other, with a last line that makes both of the last two candidates count.
fn runs_in_a_row(rng: &mut Rng) -> Vec<u8> {
    let mut out = String::new();
    for _ in 0..rng.between(1, 3) {
        let column = opener_column(rng);
        let part = match rng.below(8) {
            0 => comment(rng),
            1 => "    {a\nb}{c\nd}".to_string(),
            2 | 3 => format!("{{{}\n{}}}", name(rng), name(rng)),
            _ => wrapped(rng, column, 60),
        };
        out.push_str(&part);
        out.push('\n');
        if rng.once_in(5) {
            out.push_str(&prose(rng));
            out.push('\n');
        }
    }
    match rng.below(5) {
        0 | 1 => out.push_str(rng.pick(&["t %}", "%}", "x} %}", "a=\"}\" %}", " %}\r"])),
        2 => out.push_str(rng.pick(&["}", "t}", "b}", "{a}", " c} "])),
        _ => drop(out.pop()),
    }
    if rng.once_in(3) {
        out.push('\n');
    }
    let mut bytes = out.into_bytes();
    damage(rng, &mut bytes, 4);
    bytes
}

fn refused(rng: &mut Rng, out: &mut Out) {
    if rng.once_in(4000) {
        let mut text = long_lines(rng).into_bytes();
        damage(rng, &mut text, 8);
        text.truncate(65_600);
        let cap = if rng.percent(50) { format!(" cap={}", TEXT_LIMIT - rng.below(6)) } else { String::new() };
        return out.request(rng.pick(&["refused_brace_run 1", "ends_in_refused_brace_run"]), &text, &cap);
    }
    if rng.percent(55) {
        let (text, line) = text_of_lines(rng, 55, 15);
        let cap = cap(rng, &text, line);
        let line = number(rng, line, 96);
        out.request(&format!("refused_brace_run {line}"), &text, &cap);
    } else {
        let text = if rng.percent(60) { runs_in_a_row(rng) } else { text_of_lines(rng, 55, 15).0 };
        let count = text.iter().filter(|&&b| b == b'\n').count() + 1;
        let line = rng.between(1, count);
        let cap = cap(rng, &text, line);
        out.request("ends_in_refused_brace_run", &text, &cap);
    }
}

fn merge(rng: &mut Rng, out: &mut Out) {
    let words = rng.pick(&["merge", "merge_leading"]);
    let mut pair = match rng.weighted(&[9690, 300, 10]) {
        0 => [chain(rng), chain(rng)],
        1 => {
            // Together around a limit, with some keys on both sides.
            let total = around_limit(rng);
            let half = rng.between(1, total - 1);
            let shared = rng.below(3);
            let classes = rng.percent(50);
            let list = |range: std::ops::Range<usize>| -> String {
                let items: Vec<String> = range.map(|n| if classes { format!(".c{n}") } else { format!("k{n}={n}") }).collect();
                format!("{{{}}}", items.join(" "))
            };
            [list(0..half), list(half.saturating_sub(shared)..total)]
        }
        _ => {
            // The two texts with the LF between them stand around the text limit, at most 65,600 bytes together.
            let size = long_size(rng);
            let first = rng.between(10, size - 12);
            [filled(first, "{k='", "\"", "'}"), filled(size - 1 - first, "{m='", "\"", "'}")]
        }
    }
    .map(String::into_bytes);
    for text in &mut pair {
        if rng.once_in(20) {
            text.extend_from_slice(rng.pick(&[" ", "\r", "\t", "\u{c}"]).as_bytes());
        }
        if text.len() < 1000 {
            damage(rng, text, 5);
        }
        // An LF has no place here; one request in many keeps it, to be answered as an error.
        if !rng.once_in(200) {
            text.retain(|&b| b != b'\n');
        }
    }
    out.request(words, &pair[0], " ");
    out.hex(&pair[1]);
}

/// A pair of texts, whose lines or blocks at line 1 are merged.
fn merge2(rng: &mut Rng, out: &mut Out) {
    let words = rng.pick(&["merge2", "merge2_block", "merge2_block"]);
    // How many of a hundred blocks are wrapped: at `merge2` line 1 of such a text is seldom good.
    let wraps = if words == "merge2" { 12 } else { 55 };
    let long = rng.once_in(900);
    let pair = if long {
        long_pair(rng).map(|text| {
            let mut text = text.into_bytes();
            damage(rng, &mut text, 6);
            text.truncate(65_600);
            text
        })
    } else {
        let blocks = match rng.weighted(&[60, 30, 10]) {
            0 => [(); 2].map(|()| any_block(rng, wraps)),
            1 => [(); 2].map(|()| few_names(rng)).map(|list| laid(rng, &list, wraps)),
            _ => crowded_pair(rng).map(|list| laid(rng, &list, wraps)),
        };
        blocks.map(|block| at_line_one(rng, &block))
    };
    // Each has a join buffer of that length; `merge2` has none, and takes the word all the same.
    let side = rng.below(2);
    let cap = if long && rng.percent(50) { format!(" cap={}", TEXT_LIMIT - rng.below(4)) } else { cap(rng, &pair[side], 1) };
    out.request(words, &pair[0], " ");
    out.hex(&pair[1]);
    if words == "merge2_block" || rng.once_in(10) {
        out.words(&cap);
    }
}

/// A block on one line or over several, good or not.
fn any_block(rng: &mut Rng, wraps: usize) -> String {
    if rng.percent(30) {
        let list = tokens(rng);
        laid(rng, &list, wraps)
    } else if rng.percent(wraps) {
        let column = opener_column(rng);
        wrapped(rng, column, 8)
    } else {
        chain(rng)
    }
}

/// These tokens as blocks on one line or, all as they should stand, over several.
fn laid(rng: &mut Rng, list: &[String], wraps: usize) -> String {
    if rng.percent(wraps) {
        return broken(rng, list);
    }
    format!("{{{}}}", list.join(rng.pick(&[" ", " ", " ", "  ", "}{"])))
}

/// A text that begins with a block, and what may stand around it: blanks, a byte order mark, more lines, CR LF, what
/// isn't UTF-8.
fn at_line_one(rng: &mut Rng, block: &str) -> Vec<u8> {
    let mut text = String::new();
    if rng.once_in(15) {
        text.push_str(rng.pick(&[" ", "  ", "\t", "\u{c}", "\r", "\u{b}", "\u{a0}", "\u{feff}", "\n", "\r\n", "x"]));
    }
    text.push_str(block);
    if rng.once_in(12) {
        text.push_str(rng.pick(&[" ", "\t", "\r", "\u{c}", " \t ", "\u{a0}", "\u{feff}", "x", "{", "\\"]));
    }
    for _ in 0..rng.weighted(&[65, 22, 13]) {
        text.push('\n');
        let part = match rng.below(4) {
            0 => wrapped(rng, 0, 10),
            1 => format!(" {}}}", token(rng)),
            _ => prose(rng),
        };
        text.push_str(&part);
    }
    if rng.once_in(5) {
        text.push('\n');
    }
    if rng.once_in(8) {
        text = text.replace("\r\n", "\n").replace('\n', "\r\n");
    }
    let mut text = text.into_bytes();
    damage(rng, &mut text, 8);
    if rng.once_in(80) {
        // Behind the block, mostly in a line of its own: the whole text is asked.
        text.extend_from_slice(rng.pick(&["\n", "\n", ""]).as_bytes());
        text.extend_from_slice(rng.pick(BROKEN));
    }
    text
}

/// Classes or keys of two sets that stand together around a limit, some or all of them in both.
fn crowded_pair(rng: &mut Rng) -> [Vec<String>; 2] {
    let total = around_limit(rng);
    let half = rng.between(1, total);
    let shared = if rng.once_in(4) { half } else { rng.below(3).min(half) };
    let spelled = rng.below(5);
    let list = |range: std::ops::Range<usize>| -> Vec<String> {
        match spelled {
            0 => range.map(|n| format!(".c{n}")).collect(),
            1 => range.map(|n| format!("k{n}={n}")).collect(),
            2 => range.map(|n| format!("k{n}=\"\\\"{n}\"")).collect(),
            3 => vec![format!("class='{}'", range.map(|n| format!("c{n}")).collect::<Vec<_>>().join(" "))],
            // Both at once: classes go first.
            _ => range.flat_map(|n| [format!(".c{n}"), format!("k{n}")]).collect(),
        }
    };
    // A value under the names of the other text, and bare names.
    let mut pair = [list(0..half), list(half - shared..total)];
    for side in &mut pair {
        if rng.once_in(3) {
            let at = rng.below(side.len() + 1);
            side.insert(at, rng.pick(&[":en", ":", "lang=x", "lang", "#i", "id=\"i j\"", "k0='\"'", "k1", ".c0"]).to_string());
        }
    }
    pair
}

/// Texts at the limit or past it, one or both; or two whose merge has a canonical text around the limit.
fn long_pair(rng: &mut Rng) -> [String; 2] {
    match rng.below(8) {
        0 | 1 => [(); 2].map(|()| if rng.percent(60) { long_line(rng) } else { long_lines(rng) }),
        2 => [long_line(rng), any_block(rng, 50)],
        3 => [any_block(rng, 50), long_line(rng)],
        4 => [long_lines(rng), any_block(rng, 50)],
        // A long value that the other text overrides.
        5 => [wide_block(rng, 65_540), rng.pick(&["{k=1}", "{k}", "{a\n k='2'}", "{id}"]).to_string()],
        _ => {
            // Quotes take two bytes each there.
            let room = TEXT_LIMIT + rng.below(5) - 2 - "{k=\"\" m=\"\"}".len();
            let first = rng.between(1, room - 1);
            let value = |room: usize| "\"".repeat(room / 2) + &"x".repeat(room % 2);
            let breaks = [(); 2].map(|()| rng.pick(&["", "\n ", " "]));
            [format!("{{{}k='{}'}}", breaks[0], value(first)), format!("{{{}m='{}'}}", breaks[1], value(room - first))]
        }
    }
}

/// What classes stand for, some nearly alike.
const MEANT: &[&str] = &[
    "a", "a", "b", "A", "aa", "a-", "class", "", " ", "  ", "\t", "\u{c}", ".", "..", "\"", "'", "\\", "\\a", "\\\\", "\"a", "a\\", "é", "e\u{301}", "}", "}{",
    "=", "|", "a\u{b}",
];

/// A few classes to repeat; now and then up to `most` bytes long and alike but for their ends.
fn few_classes(rng: &mut Rng, most: usize) -> Vec<String> {
    if rng.once_in(5) {
        let alike = rng.pick(&["a", "\"", ".", "a\\", "é"]).repeat(rng.between(1, most / 2));
        return ["", "a", ".", "\"", "a", "\\"][..rng.between(1, 6)].iter().map(|end| alike.clone() + end).collect();
    }
    (0..rng.between(1, 4)).map(|_| rng.pick(MEANT).to_string()).collect()
}

/// A value in quotes: with a backslash before each quote of its own kind, before a backslash that would be an escape,
/// and as chance has it before none, some or all of the other punctuation.
fn in_quotes(rng: &mut Rng, value: &str) -> String {
    let quote = ['"', '\''][rng.below(2)];
    let escapes = [0, 30, 100][rng.below(3)];
    let mut out = String::from(quote);
    let mut chars = value.chars().peekable();
    while let Some(ch) = chars.next() {
        let escape = ch == '\\' && chars.peek().map_or(true, char::is_ascii_punctuation);
        if ch == quote || escape || ch.is_ascii_punctuation() && rng.percent(escapes) {
            out.push('\\');
        }
        out.push(ch);
    }
    out.push(quote);
    out
}

/// One of the spellings of a class.
fn spelled(rng: &mut Rng, class: &str) -> String {
    let plain = !class.is_empty() && !class.contains([' ', '\t', '\u{c}', '}', '|', '"', '\'', '\\']);
    let name = class.starts_with(|ch: char| ch.is_ascii_alphanumeric()) && class.chars().all(|ch| ch.is_ascii_alphanumeric() || ch == '-');
    match rng.below(4) {
        0 if name => format!(".{class}"),
        0 if class.is_empty() => "class".to_string(),
        1 if plain => format!("class={class}"),
        _ => format!("class={}", in_quotes(rng, class)),
    }
}

/// Tokens in which these classes come again and again, each time as chance spells them.
fn repeated(rng: &mut Rng, classes: &[String]) -> Vec<String> {
    let count = if rng.once_in(40) { rng.between(62, 66) - lower(rng) } else { rng.between(1, 6) };
    let mut list = Vec::new();
    for _ in 0..count {
        let class = &classes[rng.below(classes.len())];
        list.push(match rng.weighted(&[72, 10, 10, 4, 4]) {
            0 => spelled(rng, class),
            1 => {
                // Some in one value, which is split.
                let several: Vec<&str> = (0..rng.between(2, 4)).map(|_| classes[rng.below(classes.len())].as_str()).collect();
                let value = several.join(rng.pick(&[" ", " ", "  ", "\t"]));
                format!("class={}", in_quotes(rng, &value))
            }
            // A value that is a class elsewhere.
            2 => format!("{}={}", rng.pick(&["k", "m", "id", "lang", "Class"]), in_quotes(rng, class)),
            3 => rng.pick(&["k", "#a", ":a", "id", "k=1"]).to_string(),
            _ => token(rng),
        });
    }
    list
}

/// Classes that repeat, in one block, over a chain or lines, merged and in a sheet.
fn repeats(rng: &mut Rng, out: &mut Out) {
    if rng.once_in(800) {
        return repeats_at_limit(rng, out);
    }
    let most = if rng.once_in(200) { 3_000 } else { 40 };
    let classes = few_classes(rng, most);
    let text = |rng: &mut Rng, wraps: usize| {
        let list = repeated(rng, &classes);
        let mut text = laid(rng, &list, wraps).into_bytes();
        damage(rng, &mut text, 15);
        text
    };
    match rng.weighted(&[25, 10, 25, 25, 15]) {
        0 => {
            let words = rng.pick(&["read_attrs_at 0 strict", "read_attrs_at 0 strict", "read_attrs_at 0 loose"]);
            out.request(words, &text(rng, 0), "");
        }
        1 => out.request(rng.pick(&["rows 0 strict", "rows 0 loose"]), &text(rng, 0), ""),
        2 => {
            let words = rng.pick(&["parse_standalone_attrs 1", "parse_standalone_attrs_block 1", "parse_standalone_attrs_block 1", "wrapped_attrs_run_at 0 1"]);
            let text = text(rng, if words == "parse_standalone_attrs 1" { 0 } else { 60 });
            let cap = if words == "parse_standalone_attrs 1" { String::new() } else { cap(rng, &text, 1) };
            out.request(words, &text, &cap);
        }
        3 => {
            let words = rng.pick(&["merge", "merge_leading", "merge2", "merge2_block", "merge2_block"]);
            let wraps = if words == "merge2_block" { 50 } else { 0 };
            let mut pair = [(); 2].map(|()| text(rng, wraps));
            if words == "merge" || words == "merge_leading" {
                pair.iter_mut().for_each(|text| text.retain(|&b| b != b'\n'));
            }
            out.request(words, &pair[0], " ");
            out.hex(&pair[1]);
        }
        _ => {
            let mut sheet = Vec::new();
            for _ in 0..rng.between(1, 5) {
                sheet.extend(if rng.once_in(5) { prose(rng).into_bytes() } else { text(rng, 40) });
                sheet.extend_from_slice(if rng.once_in(10) { b"\r\n" } else { b"\n" });
            }
            out.request("sheet", &sheet, "");
        }
    }
}

/// A set with repeated classes whose canonical text stands around its limit, counted with each class once or with all
/// that are listed.
fn repeats_at_limit(rng: &mut Rng, out: &mut Out) {
    let pool = few_classes(rng, 4_000);
    let classes: Vec<&String> = (0..rng.between(2, 4)).map(|_| &pool[rng.below(pool.len())]).collect();
    let listed = rng.percent(50);
    let counted = classes.iter().enumerate().filter(|(n, class)| listed || !classes[..*n].contains(class));
    // A quote and a backslash take two bytes there.
    let takes = |class: &str| class.len() + class.matches(['"', '\\']).count();
    let around = "{k=\"\"}".len() + counted.map(|(_, class)| " class=\"\"".len() + takes(class)).sum::<usize>();
    let room = TEXT_LIMIT + rng.below(5) - 2 - around;
    let mut list: Vec<String> = classes.iter().map(|class| spelled(rng, class)).collect();
    list.insert(rng.below(list.len() + 1), format!("k='{}{}'", "\"".repeat(room / 2), "x".repeat(room % 2)));
    match rng.below(5) {
        0 => out.request(rng.pick(&["read_attrs_at 0 strict", "read_attrs_at 0 loose"]), format!("{{{}}}", list.join(" ")).as_bytes(), ""),
        1 => out.request("parse_standalone_attrs 1", format!("{{{}}}", list.join("}{")).as_bytes(), ""),
        2 => out.request("parse_standalone_attrs_block 1", format!("{{{}}}", list.join("\n ")).as_bytes(), ""),
        3 => out.request("sheet", format!("{{a}}\n{{{}}}\n{{b}}\n", list.join(" ")).as_bytes(), ""),
        _ => {
            let (first, second) = list.split_at(rng.between(1, list.len() - 1));
            let words = rng.pick(&["merge2", "merge", "merge_leading"]);
            out.texts(words, &format!("{{{}}}", first.join(" ")), &format!("{{{}}}", second.join(" ")));
        }
    }
}

fn sheet(rng: &mut Rng, out: &mut Out) {
    out.request("sheet", &whole_sheet(rng), "");
}

/// A sheet: text and blocks of every kind, mostly a few, now and then up to the text limit.
fn whole_sheet(rng: &mut Rng) -> Vec<u8> {
    let mut text = match rng.weighted(&[9_600, 360, 20, 6, 14]) {
        0 => {
            let parts = rng.between(0, 7);
            sheet_parts(rng, parts)
        }
        1 => {
            let parts = rng.between(8, 60);
            sheet_parts(rng, parts)
        }
        2 => long_sheet(rng),
        3 => {
            if rng.percent(40) {
                long_line(rng)
            } else {
                long_lines(rng)
            }
        }
        _ => {
            let (before, behind) = (rng.below(4), rng.below(4));
            let edge = if rng.once_in(4) { format!("{}\n{}", wide_block(rng, 60_000), wide_block(rng, 60_000)) } else { canon_edge(rng) };
            format!("{}{edge}\n{}", sheet_parts(rng, before), sheet_parts(rng, behind))
        }
    };
    if rng.once_in(3) {
        text.pop();
    }
    match rng.weighted(&[76, 20, 2, 2]) {
        0 => {}
        // Written on another system: every line ends in CR LF.
        1 => text = text.replace("\r\n", "\n").replace('\n', "\r\n"),
        2 => text = text.replace('\n', "\r"),
        _ => text.insert_str(0, rng.pick(&["\u{feff}", "\u{c}", "\r", "\n", " "])),
    }
    let mut text = text.into_bytes();
    damage(rng, &mut text, 5);
    text.truncate(65_600);
    text
}

/// So many parts of a sheet, each with its line end.
fn sheet_parts(rng: &mut Rng, parts: usize) -> String {
    let mut text = String::new();
    for _ in 0..parts {
        text.push_str(&sheet_part(rng));
        text.push_str(if rng.once_in(10) { "\r\n" } else { "\n" });
    }
    text
}

fn sheet_part(rng: &mut Rng) -> String {
    match rng.weighted(&[300, 290, 250, 80, 50, 15, 12, 3]) {
        0 => {
            // What stands around a chain is trimmed, but a space or tab before it makes the line plain text.
            let before = if rng.once_in(15) { rng.pick(&["\u{c}", "\r", "\u{c}\r", " ", "\t", "\u{c} ", "\u{b}", "\u{a0}"]) } else { "" };
            let behind = if rng.once_in(10) { rng.pick(&[" ", "\t", "\u{c}", "\r", " \t ", "\u{a0}", "x"]) } else { "" };
            format!("{before}{}{behind}", chain(rng))
        }
        1 => {
            let column = if rng.percent(90) { 0 } else { opener_column(rng) };
            wrapped(rng, column, 10)
        }
        2 => prose(rng),
        3 => wrapped(rng, 0, 60),
        4 => comment(rng),
        5 => format!("{{{}}}", crowd(rng).join(" ")),
        6 => {
            let list = if rng.percent(70) { crowd(rng) } else { (0..rng.between(5, 40)).map(|_| token(rng)).collect() };
            broken(rng, &list)
        }
        _ => wide_block(rng, 3_000),
    }
}

/// These tokens as a chain of blocks over several lines, all as they should stand.
fn broken(rng: &mut Rng, list: &[String]) -> String {
    let (mut out, mut line) = (String::new(), "{".to_string());
    let (breaks, chains) = (rng.between(5, 60), rng.below(8));
    for (n, token) in list.iter().enumerate() {
        if n > 0 && rng.percent(chains) {
            line.push_str("}{");
        } else if n > 0 && rng.percent(breaks) {
            break_line(rng, &mut out, &mut line, 0);
        } else if n > 0 {
            line.push(' ');
        }
        line.push_str(token);
    }
    out + &line + "}"
}

/// A block whose value has up to `most` bytes.
fn wide_block(rng: &mut Rng, most: usize) -> String {
    let size = rng.between(1, most);
    match rng.below(5) {
        0 => filled(size, "{k=", "x", "}"),
        1 => filled(size, "{.a k='", "\"", "'}"),
        2 => filled(size, "{id=\"", "é ", "\"}"),
        3 => filled(size, "{a\n k=\"", "\\\\", "\"}"),
        _ => filled(size, "{.a\n class='", "\"\\a", "'\n b}"),
    }
}

/// A block whose canonical text is as long as the limit allows, or a little shorter or longer, while its own text is much
/// shorter: a quote, and a backslash that stays, takes one byte more there.
fn canon_edge(rng: &mut Rng) -> String {
    let target = if rng.percent(85) { TEXT_LIMIT + rng.below(5) - 2 } else { rng.between(60_000, 120_000) };
    // What stands before and behind the value, and in the canonical text.
    let (head, tail, canon) = match rng.below(7) {
        0 => ("{k='", "'}", "{k=\"\"}"),
        1 => ("{id='", "'}", "{id=\"\"}"),
        2 => ("{class='", "'}", "{class=\"\"}"),
        3 => ("{.a}{k='", "'}", "{class=\"a\" k=\"\"}"),
        4 => ("{.a\n k='", "'}", "{class=\"a\" k=\"\"}"),
        5 => ("{:en k='", "'\n #b}", "{lang=\"en\" k=\"\" id=\"b\"}"),
        _ => ("{\n k='", "' k2}", "{k=\"\" k2=\"\"}"),
    };
    let mut room = target - canon.len();
    let mut value = String::new();
    for _ in 0..rng.below(12) {
        let (piece, takes) = [("x", 1), ("\\a", 3), ("\\\\", 2), ("\\\"", 2), ("é", 2), ("\\'", 1), ("\"\"\"", 6)][rng.below(7)];
        value.push_str(piece);
        room -= takes;
    }
    // The rest are quotes, two bytes each.
    value.push_str(&"\"".repeat(room / 2));
    value.push_str(&"x".repeat(room % 2));
    format!("{head}{value}{tail}")
}

/// Parts up to a size at or near the text limit, exactly.
fn long_sheet(rng: &mut Rng) -> String {
    let size = long_size(rng);
    let mut text = String::new();
    let plain = rng.once_in(3);
    while text.len() < size {
        if plain {
            // Short blocks in plenty: the report is then many times as long as the sheet.
            text.push_str(rng.pick(&["{a}\n", "{a}\n", "{.b}\n", "{:}\n", "{#c}\n", "{a\n b}\n", "{a}\r\n", "\n"]));
        } else if rng.once_in(40) {
            text.push_str(&wide_block(rng, 12_000));
            text.push('\n');
        } else {
            text.push_str(&sheet_part(rng));
            text.push('\n');
        }
    }
    let mut cut = size;
    while !text.is_char_boundary(cut) {
        cut -= 1;
    }
    text.truncate(cut);
    // Cut in the middle of a line, or filled up with one that is whole.
    if rng.percent(50) {
        let end = text.rfind('\n').map_or(0, |at| at + 1);
        text.truncate(end);
        text = filled(size, &text, "z", "");
    }
    text
}

// ---- Sheets of variants ----

const WHEELS: &[&str] = &["front-left", "front-right", "rear-left", "rear-right"];
/// What is no wheel, though some of it looks like one.
const ODD_WHEELS: &[&str] = &[
    "", "x", "front", "left", "Front-left", "REAR-RIGHT", "front_left", "front-lef", "front-leftx", "front-left ", " rear-left",
    "front--left", "left-front", "middle-left", "front-left\0", "fr\u{f6}nt-left", "rear\u{2010}left", "0", "rear-right,front-left",
];
/// What is no number, though some of it looks like one.
const ODD_NUMBERS: &[&str] = &[
    "", "x", "+1", "-1", "-0", " 1", "1 ", "1.0", "1,", "1e1", "0x1", "1_0", "1a", "a1", "one", "1 2", "#1", "/", ":", "1/", "1:", "\u{661}", "\u{ff11}",
    "\u{b2}", "1\0", "\u{feff}1", "1\t", "1\u{c}",
];
/// Names that are none of the three.
const NEAR_NAMES: &[&str] = &["Variant", "variants", "varian", "VALVE", "valve-", "valve_", "valves", "valv", "Wheel", "wheels", "whee", "lang", "_valve"];

/// How many of a hundred keys are missing or have a bad value, how many variants and valves there are to choose from.
struct Care {
    faults: usize,
    variants: usize,
    valves: usize,
}

/// A number in decimal that is mostly one of the first so many, at times the lowest or the highest that is allowed.
fn allowed(rng: &mut Rng, low: usize, high: usize, choice: usize) -> String {
    match rng.weighted(&[90, 4, 6]) {
        0 => rng.between(low, (low + choice - 1).min(high)),
        1 => low,
        _ => high,
    }
    .to_string()
}

/// A value that isn't allowed: beyond an end, far beyond it, one that a narrower type would cut to a good one, one with
/// leading zeros, or no number at all.
fn beyond(rng: &mut Rng, low: usize, high: usize) -> String {
    let good = rng.between(low, high);
    match rng.weighted(&[20, 15, 15, 15, 35]) {
        0 => (high + 1).to_string(),
        1 => match low.checked_sub(1) {
            Some(below) => below.to_string(),
            None => rng.between(high + 1, high + 300).to_string(),
        },
        2 => {
            let wraps = [1 << 8, 1 << 16, 1 << 32, 1 << 64, 1u128 << 127];
            (wraps[rng.below(wraps.len())] + good as u128).to_string()
        }
        3 => match rng.below(4) {
            0 => rng.pick(&["1000", "9999", "65535", "65536", "99999", "99999999999999999999", "18446744073709551615"]).to_string(),
            1 => "1".repeat(rng.between(4, 40)),
            2 => format!("{}{good}", "0".repeat(rng.between(1, 20))),
            _ => format!("{good}{}", rng.below(1000) + 100),
        },
        _ => rng.pick(ODD_NUMBERS).to_string(),
    }
}

/// The value as it stands in a block: plain where it may be, in quotes, or in quotes with a backslash before some of it.
/// Before a hyphen the backslash is dropped, before a digit or a letter it stays.
fn spelled_value(rng: &mut Rng, value: &str, faults: usize) -> String {
    let plain = !value.is_empty() && !value.contains([' ', '\t', '\n', '\r', '\\', '"', '\'', '}', '|']);
    if plain && rng.percent(60) {
        return value.to_string();
    }
    let quote = rng.pick(&["\"", "\"", "'"]);
    let mut out = quote.to_string();
    for ch in value.chars() {
        if ch == '-' && rng.percent(40) || rng.percent(faults) && rng.once_in(4) {
            out.push('\\');
        }
        out.push(ch);
    }
    out + quote
}

/// One of the three keys with a value, or now and then bare.
fn variant_key(rng: &mut Rng, key: usize, care: &Care) -> String {
    let bad = rng.percent(care.faults);
    if bad && rng.once_in(12) {
        return ["variant", "wheel", "valve"][key].to_string();
    }
    let value = match (key, bad) {
        (0, false) => allowed(rng, 1, 30, care.variants),
        (0, true) => beyond(rng, 1, 30),
        (1, false) => rng.pick(WHEELS).to_string(),
        (1, true) => rng.pick(ODD_WHEELS).to_string(),
        (_, false) => allowed(rng, 0, 255, care.valves),
        (_, true) => beyond(rng, 0, 255),
    };
    format!("{}={}", ["variant", "wheel", "valve"][key], spelled_value(rng, &value, care.faults))
}

/// The tokens of a block for the table, in any order, some keys met again, others among them.
fn variant_tokens(rng: &mut Rng, care: &Care) -> Vec<String> {
    let mut list = Vec::new();
    // Where there are faults, a key that is met again may have a bad value before its good one or, swapped, behind it.
    let again = Care { faults: if care.faults == 0 { 0 } else { 50 }, ..*care };
    for key in 0..3 {
        if rng.percent(care.faults) {
            continue;
        }
        if rng.once_in(12) {
            list.push(variant_key(rng, key, &again));
        }
        list.push(variant_key(rng, key, care));
    }
    if list.is_empty() || rng.once_in(4) {
        list.push(match rng.below(4) {
            0 => format!("{}={}", rng.pick(NEAR_NAMES), rng.pick(&["1", "0", "x", "front-left", "'31'"])),
            1 => rng.pick(&[".a", "#b", ":en", ":", "k", "k=1", "class='variant wheel'", "id=valve", ".valve", "lang=1", "k='valve=1'"]).to_string(),
            _ => format!("{}={}", name(rng), quoted(rng)),
        });
    }
    if !rng.once_in(3) {
        return list;
    }
    // Each may stand anywhere.
    for at in (1..list.len()).rev() {
        list.swap(at, rng.below(at + 1));
    }
    list
}

/// 60 to 62 other keys around the three, or 63 to 65 classes, so that the limits are met from both sides; now and then 32
/// less.
fn crowded_variant(rng: &mut Rng, care: &Care) -> Vec<String> {
    let mut list = if rng.percent(60) { variant_tokens(rng, care) } else { Vec::new() };
    let less = lower(rng);
    let others: Vec<String> = match rng.below(3) {
        0 => (0..rng.between(63, 65) - less).map(|n| format!(".c{n}")).collect(),
        1 => (0..rng.between(60, 62) - less + 3 * usize::from(list.is_empty())).map(|n| format!("k{n}")).collect(),
        _ => (0..65 - less).map(|n| format!("k{}={n}", n % (rng.between(58, 65) - less))).collect(),
    };
    let at = rng.below(list.len() + 1);
    drop(list.splice(at..at, others));
    list
}

/// A part of such a sheet, mostly a block for the table.
fn variant_part(rng: &mut Rng, care: &Care) -> String {
    let others = if care.faults == 0 { 2 } else { 12 };
    match rng.weighted(&[880, 40, 40, others, others]) {
        0 => {
            let list = variant_tokens(rng, care);
            laid(rng, &list, 25)
        }
        1 => rng.pick(&["{k}", "{.a #b}", "{k\n m}", "{:en}", "text", "", "# Valves", "{k}{m}", "{}", "{", "}"]).to_string(),
        2 => {
            // It is text by what stands before or in it, or blanks around it are trimmed.
            let list = variant_tokens(rng, care);
            let before = rng.pick(&[" ", "\t", "x", "\u{feff}", "", "", "\u{c}", "\r"]);
            let behind = rng.pick(&["", "", " ", "\t", "x", "}", "{", "{k=}", "\\"]);
            format!("{before}{{{}}}{behind}", list.join(" "))
        }
        3 => {
            let list = crowded_variant(rng, care);
            laid(rng, &list, 25)
        }
        _ => sheet_part(rng),
    }
}

/// A sheet of blocks for the table: mostly a few, at times many, seldom up to the text limit.
fn variants(rng: &mut Rng, out: &mut Out) {
    let care = Care {
        faults: [0, 2, 12][rng.weighted(&[50, 35, 15])],
        variants: [1, 2, 30][rng.weighted(&[40, 35, 25])],
        valves: [2, 4, 9, 256][rng.weighted(&[15, 25, 35, 25])],
    };
    let mut text = String::new();
    let parts = match rng.weighted(&[20, 930, 48, 2]) {
        0 => 0,
        1 => rng.between(1, 6),
        2 => rng.between(7, 25),
        _ => rng.between(60, 200),
    };
    for _ in 0..parts {
        text.push_str(&variant_part(rng, &care));
        text.push('\n');
    }
    if rng.once_in(4000) {
        text = long_variants(rng, &care, text);
    }
    if rng.once_in(3) {
        text.pop();
    }
    if rng.once_in(8) {
        text = text.replace("\r\n", "\n").replace('\n', "\r\n");
    }
    let mut text = text.into_bytes();
    damage(rng, &mut text, 25);
    text.truncate(65_600);
    let cap = match rng.below(100) {
        0 => format!(" cap={}", TEXT_LIMIT - rng.below(3)),
        1 => format!(" cap={}", rng.pick(&["0", "1", "65535", "30000", "65534"])),
        _ => String::new(),
    };
    out.request("variants", &text, &cap);
}

/// A block for the table whose canonical text is too long, which counts all the same; a sheet of many blocks, or one with
/// a block at its end, as long as the text limit or a little shorter or longer.
fn long_variants(rng: &mut Rng, care: &Care, text: String) -> String {
    let list = variant_tokens(rng, care).join(" ");
    match rng.below(4) {
        0 => {
            let room = rng.between(32_700, 32_800);
            format!("{{{list} k='{}'}}\n{text}", "\"".repeat(room))
        }
        1 => {
            let room = rng.between(32_700, 32_800);
            format!("{text}{{k='{}'\n {list}}}\n", "\"".repeat(room))
        }
        2 => {
            let size = long_size(rng);
            filled(size, &text, &format!("{{{list}}}\n"), "")
        }
        _ => {
            let size = long_size(rng);
            filled(size, &text, "x", &format!("\n{{{list}}}"))
        }
    }
}

// ---- Reports over many sheets ----

/// How many numbers a report has.
const TOTALS: usize = 13;

/// One number of a report: none or few, or at most so much below 2^64.
fn total(rng: &mut Rng, near: usize, below: usize) -> u64 {
    if rng.percent(near) {
        return u64::MAX - rng.below(below) as u64;
    }
    match rng.weighted(&[50, 30, 10, 10]) {
        0 => 0,
        1 => rng.below(50) as u64,
        2 => (1u64 << rng.below(64)) - 1 + rng.below(3) as u64,
        _ => rng.next(),
    }
}

/// The numbers of a report, of which some may not bear one more sheet: all, a few, one, or none.
fn totals(rng: &mut Rng) -> [u64; TOTALS] {
    let mut out = [0; TOTALS];
    let (near, below) = [(100, 3), (100, 40), (30, 6), (8, 30), (0, 1)][rng.weighted(&[10, 20, 25, 30, 15])];
    for number in &mut out {
        *number = total(rng, near, below);
    }
    if rng.once_in(4) {
        // One stands at the edge and no other does.
        let at = rng.below(TOTALS);
        out = out.map(|number| number / 2);
        out[at] = u64::MAX - rng.below(12) as u64;
    }
    out
}

fn listed(totals: [u64; TOTALS]) -> String {
    totals.map(|number| number.to_string()).join(",")
}

/// A sheet for a report: of any kind, or one of runs that end early, of crowded blocks, or of blocks whose canonical text
/// stands around its limit.
fn report_sheet(rng: &mut Rng) -> Vec<u8> {
    match rng.weighted(&[700, 240, 59, 1]) {
        0 => whole_sheet(rng),
        1 => {
            let shallow = [5, 40][rng.below(2)];
            text_of_lines(rng, shallow, 5).0
        }
        2 => {
            let mut text = String::new();
            for _ in 0..rng.between(1, 4) {
                let list = crowd(rng);
                text.push_str(&laid(rng, &list, 40));
                text.push('\n');
            }
            text.into_bytes()
        }
        _ => format!("{}\n{{.a\n b}}\n{{.b .b}}", canon_edge(rng)).into_bytes(),
    }
}

/// Reports over up to four sheets, one more sheet to a report that may be nearly full, two reports added up, and how the
/// sheet program goes over a sheet.
fn report(rng: &mut Rng, out: &mut Out) {
    match rng.weighted(&[40, 40, 5, 15]) {
        0 => {
            out.words("report");
            for _ in 0..rng.weighted(&[0, 30, 35, 20, 15]) {
                out.request("", &report_sheet(rng), "");
            }
        }
        1 => {
            let before = totals(rng);
            let text = report_sheet(rng);
            let cap = whole_cap(rng);
            out.request(&format!("report_feed {}", listed(before)), &text, &cap);
        }
        2 => {
            let first = totals(rng);
            let mut second = totals(rng);
            for at in 0..TOTALS {
                // What just fits, and one more.
                match rng.below(10) {
                    0..=5 => second[at] = u64::MAX - first[at],
                    6 if rng.once_in(8) => second[at] = (u64::MAX - first[at]).wrapping_add(1),
                    _ => {}
                }
            }
            out.words(&format!("report_add {} {}", listed(first), listed(second)));
        }
        _ => {
            let text = report_sheet(rng);
            let cap = whole_cap(rng);
            out.request("runs", &text, &cap);
        }
    }
}

/// Parts of short sheets, each of which counts as something: blocks of one line and of more, classes and keys met again,
/// runs that are none, lines that are no block, and what isn't UTF-8.
const REPORT_PARTS: &[&[u8]] = &[
    b"{a}\n", b"{.a .a}\n", b"{a\n b}\n", b"{.a\n k\n m=1}\n", b"{k k :en lang=x}\n", b"{.a}{.a k}{k}\n", b"{.a}{b\n      c}\r\n", b"text\n", b"\n", b"{a\n", b" b}\n", b"{=}\n", b"{}\n", b"{a\nb}\n",
    b"{a\n\n", b" {a}\n", b"\x0C{a}\n", b"{a=\"\n", b"{k='\xC3\xA9'}\r\n", b"}\n", b"{class='a b a' #i}\n", b"\t{a\n", b"{a\n b\n c\n d\n}\n", b"{.a", b"{a\n b", b"\r",
];

/// A sheet of a few of these; seldom one that is no text, that is too long, or that has a block of too much of something.
fn short_sheet(rng: &mut Rng) -> Vec<u8> {
    if rng.once_in(60) {
        let list = crowd(rng);
        return laid(rng, &list, 40).into_bytes();
    }
    if rng.once_in(20_000) {
        return if rng.percent(50) { filled(TEXT_LIMIT + rng.below(2), "{a}\n", "x", "\n{b}").into_bytes() } else { canon_edge(rng).into_bytes() };
    }
    let mut text = Vec::new();
    for _ in 0..rng.weighted(&[8, 30, 30, 20, 12]) {
        text.extend_from_slice(rng.pick(REPORT_PARTS));
    }
    if rng.once_in(15) {
        text.extend_from_slice(rng.pick(BROKEN));
    }
    text
}

/// Lists of short sheets, of which some come again: one report over them, or one more sheet to a report.
fn reports(rng: &mut Rng, out: &mut Out) {
    if rng.percent(25) {
        let (before, text, cap) = (totals(rng), short_sheet(rng), whole_cap(rng));
        return out.request(&format!("report_feed {}", listed(before)), &text, &cap);
    }
    let count = match rng.weighted(&[600, 380, 20]) {
        0 => rng.between(1, 5),
        1 => rng.between(6, 14),
        _ => rng.between(15, 60),
    };
    let mut sheets: Vec<Vec<u8>> = Vec::new();
    for n in 0..count {
        let again = n > 0 && rng.once_in(6);
        let sheet = if again { sheets[rng.below(n)].clone() } else { short_sheet(rng) };
        sheets.push(sheet);
    }
    // No request line is longer than that.
    while sheets.iter().map(|sheet| 2 * sheet.len() + 2).sum::<usize>() > 500_000 {
        sheets.pop();
    }
    out.words("report");
    for sheet in sheets {
        out.request("", &sheet, "");
    }
}

/// Seldom a join buffer shorter than whole sheets need, or as long as it takes.
fn whole_cap(rng: &mut Rng) -> String {
    match rng.below(60) {
        0 => format!(" cap={}", TEXT_LIMIT - rng.below(3)),
        1 => format!(" cap={}", rng.pick(&["0", "1", "65535", "30000", "65534"])),
        _ => String::new(),
    }
}

// ---- Indexes ----

/// Lines of sheets that have an index: blocks with and without an id, parts of wrapped ones, what looks like a record.
const INDEX_LINES: &[&str] = &[
    "{a}", "{#x}", "{#x", "{.a #y", " b}", " k=1", " k=1}", " .c}", "\"", "", " ", "\t", "\u{c}", "\u{c}{b}", "\r{c}", "text", "{#x}{.a}", "{#y}", "{id}",
    "{id=\"\"}", "{id='a\tb'}", "{id='\t'}", "{id=\"a\r\"}", "{id='\"'}", "{id=\"\\\"\"}", "{id='\\\\'}", "{id='\\a'}", "{id='1\t1\t0'}", "{id=x}", "{id=é}",
    "{a\r", "{a=\"", " b\"}", "\tb}", "}", "{", "{%", " %}", "x}", "{k=\"}\"}", " {a}", "{}", "{a=}", "carve-attr-index\t2", "1\t1\t0",
];

/// Some of these lines, each with its LF or CR LF.
fn index_lines(rng: &mut Rng, most: usize, crlf: bool) -> String {
    let mut text = String::new();
    for _ in 0..rng.below(most + 1) {
        text.push_str(if rng.once_in(12) { " " } else { "" });
        text.push_str(rng.pick(INDEX_LINES));
        text.push_str(if crlf { "\r\n" } else { "\n" });
    }
    text
}

/// A sheet that has an index, with few lines mostly.
fn indexed_sheet(rng: &mut Rng) -> Vec<u8> {
    if rng.once_in(3000) {
        let size = long_size(rng);
        let line = rng.pick(&["{a}\n", "{.a}\n", "{#x}\n", "{#x\n y}\n", " {a}\n", "{id='\t'}\n", "{a\n", "text\n", "{a}\r\n"]);
        return filled(size, "", line, "").into_bytes();
    }
    let crlf = rng.once_in(8);
    let mut text = match rng.weighted(&[780, 150, 60, 10]) {
        0 => index_lines(rng, 8, crlf).into_bytes(),
        1 => text_of_lines(rng, 20, 5).0,
        2 => {
            let parts = rng.between(1, 6);
            sheet_parts(rng, parts).into_bytes()
        }
        _ => whole_sheet(rng),
    };
    if rng.once_in(3) && text.last() == Some(&b'\n') {
        text.pop();
    }
    damage(rng, &mut text, 30);
    text.truncate(65_600);
    text
}

/// The index of a text, as the oracle builds it; of one that isn't read, that of no byte.
fn index_of(text: &[u8]) -> Vec<u8> {
    index::build(text, index::AMPLE).unwrap_or_else(|_| index::header())
}

/// What is lent for an index, which is this one where it is built: seldom exactly as much as it takes, or one less.
fn lent(rng: &mut Rng, index: &[u8], with_buffer: bool) -> String {
    let mut out = if with_buffer { whole_cap(rng) } else { String::new() };
    if rng.once_in(6) {
        let records = index.iter().filter(|&&b| b == b'\n').count().saturating_sub(1);
        let rows = [records, records, records.saturating_sub(1), records + 1, 0, ROWS_LIMIT][rng.below(6)];
        out.push_str(&format!(" rows={}", rows.min(ROWS_LIMIT)));
    }
    if with_buffer && rng.once_in(6) {
        let buf = [index.len(), index.len(), index.len().saturating_sub(1), index.len() + 1, 0, INDEX_LIMIT][rng.below(6)];
        out.push_str(&format!(" buf={}", buf.min(INDEX_LIMIT)));
    }
    out
}

/// Numbers of a record that are of the form, and some that aren't.
const RECORD_NUMBERS: &[&str] = &[
    "1", "2", "3", "9", "10", "65535", "65534", "12345", "0", "65536", "01", "00", "", "+1", "-1", " 1", "1 ", "1\r", "99999", "655350", "4294967297",
    "18446744073709551617", "x", "1.0", "\u{661}",
];
/// Ids of records, also such as no text of UTF-8 has.
const RECORD_IDS: &[&[u8]] =
    &[b"", b"x", b"y", b"xx", b"\t", b"a\tb", b"\r", b"x\r", b" ", b"x ", b"1\t1\t0", b"\"", b"\\", b"\xC3\xA9", b"\xFF", b"\0", b"carve-attr-index\t2"];

/// An index text by hand: mostly of the form, the numbers of its records in no order.
fn index_by_hand(rng: &mut Rng) -> Vec<u8> {
    let mut out = index::header();
    for _ in 0..rng.below(5) {
        for field in 0..3 {
            // The first eight are of the form anywhere.
            let number = if rng.percent(97) { RECORD_NUMBERS[rng.below(8)] } else { rng.pick(RECORD_NUMBERS) };
            out.extend_from_slice(if field > 0 { b"\t" } else { b"" });
            out.extend_from_slice(number.as_bytes());
        }
        if rng.percent(60) {
            out.push(b'\t');
            out.extend_from_slice(rng.pick(RECORD_IDS));
        }
        out.push(b'\n');
    }
    out
}

/// First lines that are none of this version's: of other numbers, and such as have no number or aren't right otherwise.
const FIRST_LINES: &[&str] = &[
    "carve-attr-index\t1\n", "carve-attr-index\t0\n", "carve-attr-index\t3\n", "carve-attr-index\t12\n", "carve-attr-index\t20\n", "carve-attr-index\t65535\n",
    "carve-attr-index\t65536\n", "carve-attr-index\t02\n", "carve-attr-index\t00\n", "carve-attr-index\t\n", "carve-attr-index\t2\r\n", "carve-attr-index\t1\r\n",
    "carve-attr-index\t1", "carve-attr-index\t 1\n", "carve-attr-index\t+1\n", "carve-attr-index\t-1\n", "carve-attr-index\t1\t\n", "carve-attr-index\t4294967297\n",
    "carve-attr-index\n", "carve-attr-index 1\n", "Carve-attr-index\t1\n", "carve-attr-index\tx\n", "carve-attr-index\t1 \n",
];

/// An index with one fault, of another version, or of another text.
fn wrong_index(rng: &mut Rng, index: &mut Vec<u8>) {
    let at = rng.below(index.len());
    match rng.below(10) {
        0 => index[at] = b"0123456789\t\n\r x-cC\xFF"[rng.below(19)],
        1 => drop(index.remove(at)),
        2 => index.insert(at, b"0123456789\t\n\r x"[rng.below(15)]),
        3 => index.truncate(at),
        4 => drop(index.pop()),
        5 => index.extend_from_slice(rng.pick(&["1\t1\t0\n", "1\t1\t0", "\n", "1\t1\t0\tx\n", "\r\n", "x", "65535\t1\t65535\t\n"]).as_bytes()),
        6 | 7 => {
            // A record twice, or left out.
            let mut lines: Vec<Vec<u8>> = index.split_inclusive(|&b| b == b'\n').map(<[u8]>::to_vec).collect();
            let line = rng.below(lines.len());
            if rng.percent(50) {
                lines.insert(line, lines[line].clone());
            } else {
                lines.remove(line);
            }
            *index = lines.concat();
        }
        8 => {
            let first = rng.pick(FIRST_LINES);
            let behind = index.iter().position(|&b| b == b'\n').map_or(index.len(), |at| at + 1);
            drop(index.splice(..behind, first.bytes()));
        }
        _ => *index = index_by_hand(rng),
    }
}

/// Building, reading and looking up.
fn indexes(rng: &mut Rng, out: &mut Out) {
    if rng.percent(30) {
        let text = indexed_sheet(rng);
        let lent = lent(rng, &index_of(&text), true);
        return out.request("index_build", &text, &lent);
    }
    let mut text = if rng.percent(40) { index_by_hand(rng) } else { index_of(&indexed_sheet(rng)) };
    if rng.once_in(4) {
        wrong_index(rng, &mut text);
    }
    if rng.once_in(4000) {
        // As long as a request carries it, or nearly; one byte more is no request.
        let size = INDEX_LIMIT + 1 - rng.below(3);
        text = [index::header(), b"1\t1\t0\n".repeat(ROWS_LIMIT)].concat();
        text.truncate(size);
        if rng.percent(60) {
            let whole = text.iter().rposition(|&b| b == b'\n').expect("a line");
            text[whole] = b'\t';
            text[size - 1] = b'\n';
        }
    }
    if rng.percent(55) {
        let lent = lent(rng, &text, false);
        return out.request("index_read", &text, &lent);
    }
    // An id that stands in it, as a field of four, or any.
    let ids: Vec<&[u8]> = text.split(|&b| b == b'\n').filter_map(|line| line.splitn(4, |&b| b == b'\t').nth(3)).collect();
    let mut id = if ids.is_empty() || rng.once_in(4) { rng.pick(RECORD_IDS).to_vec() } else { ids[rng.below(ids.len())].to_vec() };
    if rng.once_in(8) {
        id.push(b"\t\r x"[rng.below(4)]);
    }
    if rng.once_in(12) {
        id.pop();
    }
    out.request("index_lookup", &text, " ");
    out.hex(&id);
}

/// What stands in place of these lines: nothing, other lines, lines that run into the next, or the old ones changed.
fn new_part(rng: &mut Rng, old: &[u8]) -> Vec<u8> {
    let crlf = rng.once_in(10);
    match rng.below(8) {
        0 => Vec::new(),
        1 | 2 => index_lines(rng, 3, crlf).into_bytes(),
        3 => {
            // The next line grows.
            let mut part = index_lines(rng, 2, crlf);
            part.push_str(rng.pick(INDEX_LINES));
            part.into_bytes()
        }
        4 => old.iter().copied().filter(|&b| b != b'\n').collect(),
        5 => [b" ", old].concat(),
        6 => old.trim_ascii_start().to_vec(),
        _ => {
            let mut part = old.to_vec();
            let at = rng.below(part.len() + 1);
            drop(part.splice(at..at, rng.pick(SPECIAL).bytes()));
            part
        }
    }
}

/// An index mended after lines of its text were replaced.
fn mends(rng: &mut Rng, out: &mut Out) {
    let old = indexed_sheet(rng);
    let lines: Vec<&[u8]> = old.split_inclusive(|&b| b == b'\n').collect();
    let count = lines.len();
    // At the front, at the end or anywhere, one line mostly.
    let first = match rng.below(4) {
        0 => 1,
        1 => count.max(1),
        _ => rng.between(1, count.max(1)),
    };
    let last = [first, first + 1, first + 2, count][rng.weighted(&[60, 20, 10, 10])].clamp(first, count.max(first));
    let (before, behind) = (lines[..first - 1].concat(), lines[last.min(count)..].concat());
    let replaced = lines[(first - 1).min(count)..last.min(count)].concat();
    let mut new = [before, new_part(rng, &replaced), behind].concat();
    if rng.once_in(25) {
        // Something else has changed, or the parts that stay overlap.
        match rng.below(4) {
            0 => new.truncate(rng.below(new.len() + 1)),
            1 => drop(new.drain(..rng.below(new.len() + 1))),
            2 => new = old.clone(),
            _ => damage(rng, &mut new, 1),
        }
    }
    new.truncate(65_600);
    let mut index = index_of(&old);
    match rng.below(40) {
        0 | 1 => wrong_index(rng, &mut index),
        2 => index = index_of(&new),
        _ => {}
    }
    let (a, b) = (number(rng, first, 98), number(rng, last, 98));
    let lent = if rng.percent(30) { lent(rng, &index_of(&new), true) } else { String::new() };
    out.request(&format!("index_mend {a} {b}"), &old, " ");
    out.hex(&new);
    out.words(" ");
    out.hex(&index);
    out.words(&lent);
}

// ---- Where a payload went wrong ----

/// Tokens that are none, and one that is none behind another.
const FAULTS: &[&str] = &[
    "a=", "=", "=a", "_a", "_", "_=", ":abcdefghi", ":a-", ":-", ":a--b", ":a_b", ":abcdefgh-123456789", "#", ".", "#-", ".-a", "#a.b", ".a#b", "1", "-a", "9=1", "a.b",
    "a:b", "a=\"1\"b", "a='1'\"2\"", "a=b\"c\"", "a=b'", "a=|", "a=b|c", "a\\", "a=\\", "a=b\\}", "\\\"", "\"}\"", "'a'", "a= b", "a =b", "é", "€", ":aé", "aé", "#é", "a=é\\ ", "a=é|",
    "a=\"é\"é", "a\tb", "\t", "a\rb", "a=\"\t\" =", "a=\"\\\"\"b", "a='\\\\'b", "a\u{c}b", "\u{a0}", "\0", "a=\"b\"=", "a=\"", "a='\\'", "a=\"b\\",
];
/// Long blocks by their head, what fills them, and their end; most of them go wrong at the end, some at the front.
const LONG_FAULTS: &[(&str, &str, &str)] = &[
    ("{k=", "x", "|}"), ("{k=", "é", "'}"), ("{k=", "€", "\\}}"), ("{k=\"", "é", "\"b}"), ("{k='", "\\'", "'\"}\"}"), ("{k=\"", "\\\\", "\"'\"'}"), ("{k=\"", "x", "}"), ("{", ".a ", "=}"),
    ("{", "a ", "a=}"), ("{", "a=b ", "_c}"), ("{.", "a", "é}"), ("{#", "a-", "}{"), ("{a", "b", "=}"), ("{_", "a", "}"), ("{:", "a-", "-}"), ("{:", "abcdefgh-", "abcdefghi}"),
    ("{:a-", "12345678-", "}"), ("{", ":en ", ":en-}"), ("{", " ", "}"), ("{", " ", "\t}"), ("{", "\r", "=}"), ("{|", "x", "}"), ("{a=", "x", ""), ("{= ", "a ", "}"), ("{é", "'x'", "}"),
    ("{a=\"b\"c", "\"}\"", "}"), ("{a=\"", " ", "\" b= }"), ("{.a .", "b.", "}"),
];

/// Tokens with one among them that is none.
fn faulty_block(rng: &mut Rng) -> String {
    let mut list = tokens(rng);
    let at = rng.below(list.len() + 1);
    list.insert(at, rng.pick(FAULTS).to_string());
    let (before, behind) = (rng.pick(&["", "", "", " ", "\r"]), rng.pick(&["", "", "", " ", "  "]));
    format!("{{{before}{}{behind}}}", list.join(rng.pick(&[" ", " ", " ", "  ", "\r"])))
}

/// A long block that goes wrong.
fn long_faulty(rng: &mut Rng) -> Vec<u8> {
    let size = if rng.percent(40) { long_size(rng) } else { rng.between(100, 30_000) };
    let (head, filler, tail) = LONG_FAULTS[rng.below(LONG_FAULTS.len())];
    let mut text = filled(size, head, filler, tail).into_bytes();
    damage(rng, &mut text, 8);
    text.truncate(65_600);
    text
}

/// The place of a 5 at a brace, and of what is no name, key, bare name or tag.
fn place(rng: &mut Rng, out: &mut Out) {
    let mode = rng.pick(&["strict", "loose"]);
    match rng.weighted(&[5_200, 2_000, 1_000, 1_790, 10]) {
        0 => {
            let (text, place) = block_in_text(rng, faulty_block);
            out.request(&format!("place {place} {mode}"), &text, "");
        }
        1 => {
            let (text, place) = block_in_text(rng, block);
            out.request(&format!("place {place} {mode}"), &text, "");
        }
        2 => {
            // Characters of the syntax as they come.
            let mut text = b"{".to_vec();
            for _ in 0..rng.below(24) {
                text.extend_from_slice(rng.pick(PLACE_CHARACTERS));
            }
            text.push(b'}');
            out.request(&format!("place 0 {mode}"), &text, "");
        }
        3 => {
            let kind = rng.pick(&["name", "key", "bare", "tag", "tag"]);
            let mut text = if kind == "tag" { tag(rng) } else { name(rng) }.into_bytes();
            if rng.once_in(400) {
                text = rng.pick(&["a", "a-", "abcdefgh-", "_", "1"]).repeat(rng.between(10, 6_000)).into_bytes();
            }
            damage(rng, &mut text, 2);
            text.truncate(65_600);
            out.request(&format!("leaf place_of {kind}"), &text, "");
        }
        _ => out.request(&format!("place 0 {mode}"), &long_faulty(rng), ""),
    }
}

// ---- Strict language tags ----

/// The registered tags that RFC 5646 lists, irregular ones first.
const REGISTERED: [&str; 26] = [
    "en-GB-oed", "i-ami", "i-bnn", "i-default", "i-enochian", "i-hak", "i-klingon", "i-lux", "i-mingo", "i-navajo", "i-pwn", "i-tao", "i-tay", "i-tsu", "sgn-BE-FR",
    "sgn-BE-NL", "sgn-CH-DE", "art-lojban", "cel-gaulish", "no-bok", "no-nyn", "zh-guoyu", "zh-hakka", "zh-min", "zh-min-nan", "zh-xiang",
];
/// Tags of the RFC's own examples, as far as they are known, and some that go wrong.
const KNOWN_TAGS: &[&str] = &[
    "de", "fr", "zh-Hant", "sr-Cyrl", "zh-cmn-Hans-CN", "cmn-Hans-CN", "zh-yue-HK", "sr-Latn-RS", "sl-rozaj", "sl-rozaj-biske", "de-CH-1901", "sl-IT-nedis",
    "hy-Latn-IT-arevela", "es-419", "de-CH-x-phonebk", "az-Arab-x-AZE-derbend", "x-whatever", "qaa-Qaaa-QM-x-southern", "en-US-u-islamcal", "zh-CN-a-myext-x-private",
    "en-a-myext-b-another", "de-1996-1996", "en-a-bb-a-cc", "ar-a-aaa-b-bbb-a-ccc", "abcd", "en-abc-def-ghi", "de-419-DE", "a-DE", "en-a", "en-x", "x", "x-", "i", "i-en", "1", "en-",
    "-en", "en--GB", "de_DE", "deutsch-DE-1", "en-abc-def-ghi-jkl", "en-GB-oed-x-a", "abcdefghi", "en-1ab", "en-a1b2", "en-x-123456789", "en-u-a", "é", "", "en-GB\0",
];
/// Subtags by length and kind: letters, digits, a letter first, a digit first; then such as mean something, and none at all.
const KINDS: &[&[u8]] = &[
    b"a", b"Bc", b"abc", b"Abcd", b"abcde", b"abcDEF", b"abcdefg", b"abcdefgh", b"abcdefghi", b"1", b"12", b"123", b"1234", b"12345", b"123456", b"1234567", b"12345678",
    b"123456789", b"a1", b"ab1", b"a123", b"abcd1", b"a1b2c3", b"abcdef7", b"a1234567", b"abcdefgh9", b"1a", b"12a", b"1abc", b"1abcd", b"123abc", b"1abcdef", b"1234567a",
    b"12345678a", b"x", b"X", b"i", b"I", b"", b"\xC3\xA9", b"_", b"a_b", b"en", b"GB", b"oed", b"sgn", b"BE", b"zh", b"min", b"nan",
];
/// Those that a tag is mostly made of.
const FEW_KINDS: &[&[u8]] = &[b"a", b"1", b"x", b"i", b"aa", b"aaa", b"aaaa", b"aaaaa", b"aaaaaaaa", b"aaaaaaaaa", b"111", b"1aaa", b"a1"];

/// The registered tags in small, large and mixed letters: as they are, with private use behind them, and with each byte
/// changed, dropped and doubled.
fn registered_changed() -> &'static [Vec<u8>] {
    static LIST: OnceLock<Vec<Vec<u8>>> = OnceLock::new();
    LIST.get_or_init(|| {
        let mut list = Vec::new();
        for tag in REGISTERED {
            let small = tag.to_ascii_lowercase().into_bytes();
            let mixed = small.iter().enumerate().map(|(n, b)| if n % 2 == 0 { b.to_ascii_uppercase() } else { *b }).collect();
            for tag in [small.clone(), small.to_ascii_uppercase(), mixed] {
                list.extend([tag.clone(), [&tag[..], b"-x-a"].concat()]);
                for at in 0..tag.len() {
                    let (before, behind) = (&tag[..at], &tag[at + 1..]);
                    list.extend([&b"q"[..], b"7", b"-", b"", &[tag[at]; 2]].map(|byte| [before, byte, behind].concat()));
                }
            }
        }
        list
    })
}

/// A tag: of subtags of all kinds, mostly such as may stand there; a known or registered one, or one that is nearly so.
fn strict_tag(rng: &mut Rng) -> Vec<u8> {
    let mut tag = match rng.weighted(&[45, 15, 15, 25]) {
        0 => {
            // In their order, each there or not.
            let mut parts: Vec<&[u8]> = vec![KINDS[rng.between(1, 7)]];
            for (chance, kinds) in [(25, &[2][..]), (10, &[2]), (30, &[3]), (40, &[1, 11, 1]), (30, &[4, 7, 22, 28, 27]), (15, &[4, 31])] {
                if rng.percent(chance) {
                    parts.push(KINDS[kinds[rng.below(kinds.len())]]);
                }
            }
            for _ in 0..rng.weighted(&[60, 30, 10]) {
                parts.push([&b"a"[..], b"u", b"1", b"Z"][rng.below(4)]);
                for _ in 0..rng.weighted(&[8, 60, 32]) {
                    parts.push(KINDS[rng.between(1, 7)]);
                }
            }
            if rng.once_in(4) {
                parts.push([&b"x"[..], b"X"][rng.below(2)]);
                for _ in 0..rng.weighted(&[10, 60, 30]) {
                    parts.push(KINDS[rng.below(8)]);
                }
            }
            parts.join(&b'-')
        }
        1 => (0..rng.between(1, 6)).map(|_| KINDS[rng.below(KINDS.len())]).collect::<Vec<_>>().join(&b'-'),
        2 => rng.pick(&REGISTERED).as_bytes().to_vec(),
        _ => rng.pick(KNOWN_TAGS).as_bytes().to_vec(),
    };
    for byte in &mut tag {
        if rng.once_in(10) {
            *byte = byte.to_ascii_uppercase();
        }
    }
    damage(rng, &mut tag, 6);
    if rng.once_in(3000) {
        // As long as a request carries it, or nearly.
        let front = rng.pick(&["x", "en-x", "en-a-bb", "en", "i", "en-u"]);
        let part = rng.pick(&["-1", "-abcdefgh", "-abcde", "-1abc", "-a-bb", "-bb"]);
        let most = [64_990, 5_000][rng.below(2)];
        tag = format!("{front}{}", part.repeat(rng.between(most / 20, most) / part.len())).into_bytes();
        damage(rng, &mut tag, 3);
        tag.truncate(65_500);
    }
    tag
}

/// A token that sets `lang`, or one that only looks like it: behind a colon, plain, or in quotes with escapes.
fn lang_token(rng: &mut Rng) -> String {
    let tag = String::from_utf8_lossy(&strict_tag(rng)).into_owned();
    let plain = |text: &str| !text.is_empty() && !text.contains(['}', '|', '"', '\'', '\\', ' ', '\t', '\r', '\n']);
    match rng.weighted(&[30, 20, 30, 12, 8]) {
        0 if plain(&tag) => format!(":{tag}"),
        1 if plain(&tag) => format!("lang={tag}"),
        0..=2 => {
            let quote = rng.pick(&["\"", "'"]);
            let mut out = format!("lang={quote}");
            for ch in tag.chars() {
                // Before a hyphen the backslash is dropped, before a letter or a digit it stays.
                if "\"'\\".contains(ch) || ch == '-' && rng.percent(30) || rng.once_in(60) {
                    out.push('\\');
                }
                out.push(ch);
            }
            out + quote
        }
        3 => rng.pick(&[":", "lang", "lang=\"\"", ":en", ":1", ":i", "lang=' '", "lang=\" en\"", "lang='e\\n'", "lang=é", ":x-1", ":i-ami", "lang=\"en\\-GB\""]).to_string(),
        _ => rng.pick(&["LANG=1", "Lang", "lang-=1", "_lang=1", "langs=1", ".lang", "#lang", "class=lang", "id=lang", "k=':1'"]).to_string(),
    }
}

/// A block with tags among its tokens; now and then as many keys or classes as stand around their limits, or a token that
/// is none.
fn lang_block(rng: &mut Rng) -> String {
    let mut list = match rng.weighted(&[70, 20, 10]) {
        0 => (0..rng.below(3)).map(|_| token(rng)).collect(),
        1 => Vec::new(),
        _ => crowd(rng),
    };
    for _ in 0..rng.weighted(&[4, 66, 30]) {
        let at = [list.len(), rng.below(list.len() + 1)][rng.below(2)];
        list.insert(at, lang_token(rng));
    }
    if rng.once_in(12) {
        list.insert(rng.below(list.len() + 1), rng.pick(FAULTS).to_string());
    }
    format!("{{{}}}", list.join(rng.pick(&[" ", " ", " ", "  ", "\r"])))
}

/// Tags by themselves, and readings at a brace with strict tags.
fn lang(rng: &mut Rng, out: &mut Out) {
    if rng.percent(40) {
        return out.request("language_tag_strict", &strict_tag(rng), "");
    }
    let words = rng.pick(&["read_attrs_at_lang", "place_lang"]);
    let mode = rng.pick(&["strict", "strict", "loose"]);
    let (mut text, place) = block_in_text(rng, lang_block);
    text.truncate(65_600);
    out.request(&format!("{words} {place} {mode}"), &text, "");
}

// ---- At a brace, for two readers ----

/// The four requests at a brace that both readers are asked.
const READINGS: [&str; 4] = ["read_attrs_at", "place", "read_attrs_at_lang", "place_lang"];

/// 31 to 66 classes, keys or both, in one spelling each or mixed, with tags and ids among them.
fn crowded_tokens(rng: &mut Rng) -> Vec<String> {
    let (classes, keys) = (rng.between(31, 66), rng.between(31, 66));
    let class_form = rng.pick(&[".c@", "class=c@", "class='c@'", "class", ".a", "class=\"c@ d\"", "class=\"\\\"@\""]);
    let key_form = rng.pick(&["k@", "k@=v", "_@='\"'", "k@=\"\\\"\"", "k@=é"]);
    let spelled = |form: &str, count: usize| -> Vec<String> { (0..count).map(|n| form.replace('@', &n.to_string())).collect() };
    let mut list = match rng.below(5) {
        0 => spelled(class_form, classes),
        1 => spelled(key_form, keys),
        2 => [spelled(class_form, classes), spelled(key_form, keys)].concat(),
        3 => [spelled(key_form, keys), spelled(class_form, classes)].concat(),
        // In turn, and keys that are met again.
        _ => {
            let distinct = rng.between(1, keys);
            (0..classes.max(keys)).flat_map(|n| [class_form.replace('@', &n.to_string()), key_form.replace('@', &(n % distinct).to_string())]).collect()
        }
    };
    for _ in 0..rng.weighted(&[30, 40, 30]) {
        let at = [0, list.len(), rng.below(list.len() + 1)][rng.below(3)];
        list.insert(at, if rng.percent(60) { lang_token(rng) } else { rng.pick(&[":en", ":1", "lang", "#i", "id=''", "k0=2", "k64", ".c64"]).to_string() });
    }
    list
}

/// A block whose tokens are good or not, with what ends a reading early or late: a token that is none, a byte that isn't
/// UTF-8, a quote left open, no close, a backslash before it, a line end.
fn reading_block(rng: &mut Rng) -> Vec<u8> {
    let mut list = match rng.weighted(&[45, 20, 20, 15]) {
        0 => tokens(rng),
        1 => few_names(rng),
        2 => {
            let mut list = tokens(rng);
            list.push(lang_token(rng));
            list
        }
        _ => crowded_tokens(rng),
    };
    if rng.once_in(3) {
        // At the front, at the end, or anywhere.
        let at = [0, list.len(), rng.below(list.len() + 1)][rng.below(3)];
        list.insert(at, rng.pick(FAULTS).to_string());
    }
    let mut text = format!("{{{}", list.join(rng.pick(&[" ", " ", " ", "  ", "\r"]))).into_bytes();
    if rng.once_in(8) {
        let at = [1, text.len(), rng.between(1, text.len())][rng.below(3)];
        let wrong: &[&[u8]] = &[b"\xFF", b"\xC3", b"\x80", b"\n", b"\t", b"\0", b"\"", b"'", b"\\", b"=", b"|", b"}", b"\xE2\x82", b" a=\"", b" a='", b"\\}", b"\"}\""];
        drop(text.splice(at..at, rng.pick(wrong).iter().copied()));
    }
    let end: &[&[u8]] = &[b"}", b"}", b"}", b"}", b"}", b"}", b"}", b" }", b"", b"\\}", b"\"}", b"'}", b"\n}", b"\xFF}", b"\xFF", b"}}", b"} =\xFF}"];
    text.extend_from_slice(rng.pick(end));
    text
}

/// Readings at a brace, in all ways in which they are asked.
fn once(rng: &mut Rng, out: &mut Out) {
    let (words, mode) = (rng.pick(&READINGS), rng.pick(&["strict", "loose"]));
    match rng.weighted(&[7_000, 1_500, 1_480, 20]) {
        0 => {
            let fronts: &[&[u8]] = &[b"", b"", b"", b"", b"", b"", b"x", b"\xFF\n", b"{a}", b"{\"", b"\\"];
            let mut text = rng.pick(fronts).to_vec();
            let place = text.len();
            text.extend(reading_block(rng));
            let place = number(rng, place, 97);
            out.request(&format!("{words} {place} {mode}"), &text, "");
        }
        1 => {
            let (text, place) = block_in_text(rng, lang_block);
            out.request(&format!("{words} {place} {mode}"), &text, "");
        }
        2 => {
            let mut text = b"{".to_vec();
            for _ in 0..rng.below(30) {
                text.extend_from_slice(if rng.once_in(20) { b"\xFF" } else { rng.pick(PLACE_CHARACTERS) });
            }
            text.extend_from_slice(if rng.percent(70) { b"}" } else { b"" });
            out.request(&format!("{words} 0 {mode}"), &text, "");
        }
        _ => {
            let mut text = if rng.percent(50) { long_faulty(rng) } else { long_line(rng).into_bytes() };
            if rng.once_in(3) {
                // Filled up with tokens and blanks to a size around the limit, with a reading at its front.
                let size = long_size(rng);
                let mut front = reading_block(rng);
                let end = front.len();
                front.resize(size.max(end), b' ');
                if rng.percent(60) {
                    front[end - 1] = b' ';
                    *front.last_mut().expect("a byte") = b'}';
                }
                text = front;
            }
            damage(rng, &mut text, 6);
            text.truncate(65_600);
            out.request(&format!("{words} 0 {mode}"), &text, "");
        }
    }
}

// ---- Loose lists ----

/// Tokens that are the key `loose` in all its spellings, and what only looks like it.
const LOOSE: &[&str] = &[
    "loose", "loose", "loose", "loose=\"\"", "loose=''", "loose=x", "loose=\" \"", "loose='\\\\'", "loose=\"\\\"\"", "loose=loose", ".loose", "#loose", "LOOSE",
    "Loose", "loose-list", "loosen", "loos", "_loose", "loose_", ":loose", "class=loose", "id=loose", "lang=loose", "k=loose", "k='loose'",
];

/// The tokens of a list's block: some of these among others, or as many keys as stand around 32 and 64.
fn loose_tokens(rng: &mut Rng) -> Vec<String> {
    if rng.once_in(25) {
        let keys = rng.between(30, 33) + 32 * rng.below(2);
        let mut list: Vec<String> = (0..keys).map(|n| format!("k{n}")).collect();
        let at = [0, list.len(), rng.below(list.len() + 1)][rng.below(3)];
        list.insert(at, rng.pick(LOOSE).to_string());
        if rng.once_in(3) {
            list.insert(rng.below(list.len()), rng.pick(&[".a", "#b", "loose=x", "class='a b'", ":en"]).to_string());
        }
        return list;
    }
    let mut list = Vec::new();
    for _ in 0..rng.weighted(&[0, 30, 30, 20, 12, 8]) {
        list.push(match rng.weighted(&[50, 25, 25]) {
            0 => rng.pick(LOOSE).to_string(),
            1 => rng.pick(&["k=1", "k", ".a", ".b", "#c", ":en", ":", "m=''", "id", "class", "lang"]).to_string(),
            _ => token(rng),
        });
    }
    list
}

/// A loose list's block at some line, or two texts of which each has one at line 1.
fn loose(rng: &mut Rng, out: &mut Out) {
    let text = |rng: &mut Rng| {
        if rng.once_in(4000) {
            // What is left has a canonical text around its limit, or what there was has.
            let room = TEXT_LIMIT + rng.below(5) - 2 - "{k=\"\"}".len() - 9 * rng.below(2);
            let between = rng.pick(&[" ", "\n ", "}{"]);
            let value = "\"".repeat(room / 2) + &"x".repeat(room % 2);
            return format!("{{loose{between}k='{value}'}}").into_bytes();
        }
        let list = loose_tokens(rng);
        let block = laid(rng, &list, 40);
        at_line_one(rng, &block)
    };
    if rng.percent(40) {
        out.request("loose2", &text(rng), " ");
        return out.hex(&text(rng));
    }
    let before = rng.weighted(&[75, 15, 10]);
    let mut lines: Vec<u8> = (0..before).flat_map(|_| rng.pick(&["text\n", "\n", "{a}\n", "{b\n", "\r\n"]).bytes()).collect();
    lines.extend(text(rng));
    lines.truncate(65_600);
    let line = number(rng, before + 1, 95);
    out.request(&format!("loose {line}"), &lines, "");
}

// ---- Columns of tables ----

const COLUMN_KEYS: [&str; 3] = ["aligns", "valigns", "widths"];
/// Pieces of their lists, with escapes that are dropped and such as stay, and commas of either kind.
const COLUMN_PIECES: &[&str] = &[
    "left", "right", "center", "top", "middle", "bottom", "left", "top", "", "", "1", "20", "33.3", "50%", "1/3", "Left", "TOP", " left", "left ", "lef", "leftt",
    "none", "\\left", "le\\ft", "\\,", "\\,\\,", "1\\,2", "\\\\", "1\\\\", "\\\\\\,", "\\\"", "\\'", "1\\%", "\\ ", "é", "\\é", "€", " ", "\t", "\u{c}", ";", "left;right", "{", "}",
    "=", "\\",
];
/// What plain values may have between commas.
const PLAIN_PIECES: &[&str] = &["left", "right", "center", "top", "middle", "bottom", "", "1", "20", "50%", "é", "Left", "x", "\u{c}", "{"];

/// One of the three keys: with a list in quotes or plain, or bare.
fn column_key(rng: &mut Rng) -> String {
    let key = COLUMN_KEYS[rng.below(3)];
    let count = match rng.weighted(&[88, 12]) {
        0 => rng.between(1, 5),
        _ => rng.between(30, 34),
    };
    match rng.weighted(&[70, 22, 4, 4]) {
        0 => {
            let quote = rng.pick(&["\"", "'"]);
            // Mostly what the key is made for.
            let few = rng.percent(50);
            let pieces: Vec<&str> = (0..count).map(|_| if few { COLUMN_PIECES[rng.below(12)] } else { rng.pick(COLUMN_PIECES) }).collect();
            format!("{key}={quote}{}{quote}", pieces.join(","))
        }
        1 => {
            let pieces: Vec<&str> = (0..count).map(|_| rng.pick(PLAIN_PIECES)).collect();
            format!("{key}={}", pieces.join(","))
        }
        2 => format!("{key}={}", rng.pick(&["\"\"", "''", ",", "\",\"", "\"\\,\"", "\"\\\\,\"", "'\\\\\\,'"])),
        _ => key.to_string(),
    }
}

/// A table's block at some line, or two texts of which each has one at line 1.
fn columns_of_tables(rng: &mut Rng, out: &mut Out) {
    let text = |rng: &mut Rng| {
        if rng.once_in(4000) {
            let size = long_size(rng);
            let piece = rng.pick(&["x", ",", "\\,", "\\\\", "é", "left,"]);
            let many = filled(size, "{widths=\"", piece, "\"}");
            // As few commas as a table bears, mostly.
            return if rng.percent(70) { many.replacen(',', ".", many.matches(',').count().saturating_sub(rng.between(29, 33))) } else { many }.into_bytes();
        }
        let mut list = Vec::new();
        for _ in 0..rng.weighted(&[2, 40, 35, 18, 5]) {
            list.push(column_key(rng));
        }
        if list.is_empty() || rng.once_in(4) {
            let at = rng.below(list.len() + 1);
            list.insert(at, if rng.percent(60) { token(rng) } else { rng.pick(&["align=left", "width=1", "Widths='1,2'", "widths_", ".widths", "#aligns", "k"]).to_string() });
        }
        let block = laid(rng, &list, 40);
        at_line_one(rng, &block)
    };
    if rng.percent(40) {
        let first = text(rng);
        out.request("columns2", &first[..first.len().min(65_600)], " ");
        let second = text(rng);
        return out.hex(&second[..second.len().min(65_600)]);
    }
    let before = rng.weighted(&[70, 20, 10]);
    let mut lines: Vec<u8> = (0..before).flat_map(|_| rng.pick(&["text\n", "\n", "{widths=1}\n", "é\r\n", "{b\n"]).bytes()).collect();
    lines.extend(text(rng));
    lines.truncate(65_600);
    let line = number(rng, before + 1, 96);
    out.request(&format!("columns {line}"), &lines, "");
}

/// A request with one fault in its line, or, now and then, none.
fn errors(rng: &mut Rng, out: &mut Out) {
    random(FAMILIES[rng.below(FAMILIES.len())], rng, out);
    let mut fields: Vec<Vec<u8>> = out.line.split(|&b| b == b' ').map(<[u8]>::to_vec).collect();
    let at = rng.below(fields.len());
    match rng.below(12) {
        0 => drop(fields.remove(at)),
        1 => fields.insert(at, b"".to_vec()),
        2 => fields.push(b"".to_vec()),
        3 => {
            let lent = [
                "cap=65536", "cap=", "cap=-1", "cap=18446744073709551616", "cap=5", "cap=5 cap=5", "cap=5 -", "x", "rows=5", "rows=43691", "rows=", "buf=5",
                "buf=262145", "buf=-", "cap=5 rows=5", "rows=5 buf=5", "cap=65535 rows=5 buf=50", "buf=5 rows=5", "rows=5 cap=5", "rows=5 rows=5", "Rows=5",
            ];
            fields.push(rng.pick(&lent).as_bytes().to_vec());
        }
        4 => fields[at].make_ascii_uppercase(),
        5 => drop(fields[at].pop()),
        6 => fields[at].push(b"0a-gG.\t\r"[rng.below(8)]),
        7 => fields[at] = rng.pick(&["18446744073709551616", "99999999999999999999999", "-1", "+1", "1.0", "0x1", "", "a"]).as_bytes().to_vec(),
        8 => fields[at] = b"-".to_vec(),
        9 => fields.swap(0, at),
        10 => fields[0] = rng.pick(&["", "leaf", "Sheet", "read_attrs", "parse_attrs_with", "\u{e9}", "sheets"]).as_bytes().to_vec(),
        _ => {}
    }
    out.line = fields.join(&b' ');
}

// ---- Groups of three ----

/// Forty small blocks: ids, classes and keys that meet again in others, escapes, `lang` in its spellings, empty values.
const SMALL_BLOCKS: [&str; 40] = [
    "{#a}", "{#b}", "{id}", "{id=\"\"}", "{id='\"'}", "{.a}", "{.b}", "{.a .a}", "{.b .a}", "{class}", "{class=\"\"}", "{class=' '}", "{class='a b'}", "{class='\\.'}",
    "{class=.}", "{k}", "{k=1}", "{k=\"2\"}", "{k=''}", "{m}", "{m='\\\\'}", "{k=1 m=2}", "{m=1 k=2}", "{:}", "{:en}", "{lang=de}", "{lang}", "{lang='\\\"' :en}",
    "{.a #a k}", "{k .b #b}", "{.a}{k=3}", "{k=4}{.b}{#c}", "{loose}", "{loose=x}", "{k=\"}\"}", "{k='\t'}", "{k=é}", "{K=1}", "{_k=1}", "{.a .b .c #d e f=1 :x}",
];

/// A line of blocks back to back, mostly good, with names that others have too; of every hundred tokens so many are
/// classes, so many keys, and so on.
fn group_line(rng: &mut Rng, most: usize, weights: &[usize; 5]) -> String {
    let mut list = Vec::new();
    for _ in 0..rng.between(1, most) {
        list.push(match rng.weighted(weights) {
            0 => {
                let class = if rng.percent(70) { format!("c{}", rng.below(80)) } else { rng.pick(MEANT).to_string() };
                spelled(rng, &class)
            }
            1 => {
                let name = if rng.percent(80) { format!("k{}", rng.below(80)) } else { rng.pick(&["k", "m", "K", "_k", "loose"]).to_string() };
                let value = rng.pick(MEANT).to_string();
                format!("{name}={}", in_quotes(rng, &value))
            }
            2 => rng.pick(&[":", ":en", ":de-DE", "lang", "lang=x", "lang='\\\"'", "lang=\"\""]).to_string(),
            3 => rng.pick(&["#a", "#b", "id", "id=''", "id='\\'\"'", "id=c"]).to_string(),
            _ => token(rng),
        });
    }
    let blocks = rng.percent(30);
    let text = format!("{{{}}}", list.join(if blocks { "}{" } else { " " }));
    text.replace(['\n', '\r'], " ")
}

/// So many distinct names of classes or keys over three lines, the first so many of them in the first and so on.
fn distinct(classes: bool, total: usize, cuts: [usize; 2]) -> [String; 3] {
    let list = |from: usize, to: usize| {
        let names: Vec<String> = (from..to).map(|n| if classes { format!(".c{n}") } else { format!("k{n}='{n}'") }).collect();
        format!("{{{}}}", names.join(" "))
    };
    [list(0, cuts[0]), list(cuts[0], cuts[1]), list(cuts[1], total)]
}

/// One triple, and the number that refuses a step of each grouping, if one must.
fn group(kind: &str, seed: u64, number: u64) -> ([String; 3], String) {
    let free = "-".to_string();
    match kind {
        "random" => {
            let mut rng = Rng::new(seed, number);
            // Few tokens of all kinds; or so many, most of them classes or keys, that three lines stand around a limit.
            let limit = layer::CLASS_LIMIT.max(layer::KEY_LIMIT);
            let most = [4, 8, limit / 2, limit * 3 / 4][rng.weighted(&[50, 25, 10, 15])];
            let weights = [[35, 35, 12, 12, 6], [92, 4, 2, 2, 0], [4, 92, 2, 2, 0]][if most < 9 { 0 } else { rng.below(3) }];
            ([(); 3].map(|()| group_line(&mut rng, most, &weights)), free)
        }
        // All of them, in an order in which each part of the list has blocks of all kinds.
        "blocks" => {
            let (number, blocks) = (number * 7919 % 64_000, SMALL_BLOCKS.len() as u64);
            ([number, number / blocks, number / blocks / blocks].map(|n| SMALL_BLOCKS[(n % blocks) as usize].to_string()), free)
        }
        // One below the limit, at it and one above, cut in three at every two places.
        "limits" => {
            let (classes, number) = (number % 2 == 0, number / 2);
            let limit = if classes { layer::CLASS_LIMIT } else { layer::KEY_LIMIT };
            let (total, number) = (limit - 1 + number as usize % 3, number as usize / 3);
            let cuts = (1..limit - 2).flat_map(|a| (a + 1..limit - 1).map(move |b| [a, b])).nth(number).expect("a pair of places");
            let refused = if total <= limit { "-" } else if classes { "6" } else { "7" };
            (distinct(classes, total, cuts), refused.to_string())
        }
        // Three canonical texts, each of six bytes and its value, that are a line around the text limit.
        _ => {
            let room = TEXT_LIMIT - 2 + number as usize % 5 - 18;
            let first = [1, 20_000, 65_000][number as usize / 5 % 3];
            let second = [1, 300][number as usize / 15 % 2];
            let values = [first, second, room - first - second];
            ([("a", 0), ("b", 1), ("c", 2)].map(|(name, n)| format!("{{{name}={}}}", "x".repeat(values[n]))), free)
        }
    }
}

/// How many triples there are of a kind that has an end.
fn groups_in(kind: &str) -> Option<u64> {
    let places = |limit: u64| (limit - 3) * (limit - 2) / 2;
    match kind {
        "random" => Some(u64::MAX),
        "blocks" => Some(64_000),
        "limits" => Some(6 * places(layer::CLASS_LIMIT.min(layer::KEY_LIMIT) as u64)),
        "long" => Some(30),
        _ => None,
    }
}

// ---- Exhaustive lists ----

/// All strings over these atoms, in each of these requests: the words before and behind the string's hex, with the bytes
/// that stand before and behind the string itself.
struct Section {
    atoms: &'static [&'static [u8]],
    forms: &'static [(&'static str, &'static [u8], &'static [u8])],
}

const ESCAPE_ATOMS: &[&[u8]] = &[b"\\", b"a", b"\"", b"_", b" ", b"\xC3\xA9", b"~", b"\x7F", b"\x80"];
const BRACE_FORMS: &[(&str, &[u8], &[u8])] = &[
    ("read_attrs_at 0 strict", b"{", b"}"),
    ("read_attrs_at 0 loose", b"{", b"}"),
    ("read_attrs_at 0 strict", b"{", b""),
    ("read_attrs_at 1 loose", b"", b""),
    ("payload_at 0", b"{", b"}"),
    ("parse_attrs", b"", b""),
    ("is_valid_attr_payload", b"", b""),
    ("valid_wrapped_attr_continuation", b"", b""),
];
/// The sixteen bytes of the syntax, and twenty characters with two and three bytes among them.
const SYNTAX_BYTES: &[&[u8]] = &[b"a", b"1", b"_", b"-", b".", b"#", b":", b"=", b"\"", b"'", b"\\", b" ", b"\t", b"\n", b"}", b"|"];
const PLACE_CHARACTERS: &[&[u8]] = &[
    b"a", b"1", b"_", b"-", b".", b"#", b":", b"=", b"\"", b"'", b"\\", b" ", b"\t", b"\r", b"\n", b"}", b"{", b"|", "é".as_bytes(), "€".as_bytes(),
];
const PLACE_FORMS: &[(&str, &[u8], &[u8])] = &[("place 0 strict", b"{", b"}"), ("place 0 loose", b"{", b"}")];
const TAG_FORMS: &[(&str, &[u8], &[u8])] = &[("language_tag_strict", b"", b"")];
const LINE_FORMS: &[(&str, &[u8], &[u8])] = &[
    ("parse_standalone_attrs 1", b"{", b""),
    ("parse_standalone_attrs_block 1", b"{", b""),
    ("parse_standalone_attrs_block 1", b"{a\n", b"}"),
    ("standalone_attrs_block_len 1", b"", b""),
    ("indented_wrapped_attrs_block_len 1", b" {a", b"}"),
    ("attrs_block_len_at 1 1", b"{a", b""),
    ("wrapped_attrs_run_at 0 1", b"{", b"}"),
    ("wrapped_attrs_run_at 2 1", b"{a", b"\n    b}"),
];
const REFUSED_FORMS: &[(&str, &[u8], &[u8])] = &[
    ("refused_brace_run 1", b"", b""),
    ("refused_brace_run 1", b"  {a\n", b"}"),
    ("refused_brace_run 1", b"{", b"\nb}"),
    ("ends_in_refused_brace_run", b"", b""),
    ("ends_in_refused_brace_run", b"{a\n", b"}"),
    ("ends_in_refused_brace_run", b"{a\nb}\n{", b"\n%}"),
];

const TEXT_FORMS: &[(&str, &[u8], &[u8])] = &[
    ("parse_standalone_attrs 1", b"", b""),
    ("parse_standalone_attrs_block 1", b"", b""),
    ("standalone_attrs_block_len 1", b"", b""),
    ("indented_wrapped_attrs_block_len 1", b"", b""),
    ("attrs_block_len_at 1 1", b"", b""),
    ("wrapped_attrs_run_at 0 1", b"", b""),
];

/// Both modes, and a block that doesn't stand at the text's front, with what isn't UTF-8 before it.
const ROW_FORMS: &[(&str, &[u8], &[u8])] =
    &[("rows 0 strict", b"{", b"}"), ("rows 0 loose", b"{", b"}"), ("rows 3 strict", b"\xC3\xA9\xFF{", b"}{.z}")];

/// Ten spellings of classes, of which some stand for the same one, and each as a block of its own.
const SPELLINGS: &[&[u8]] = &[
    b".a ", b"class=a ", b"class=\"a\" ", b"class='\\.' ", b"class=\".\" ", b".b ", b"class ", b"class=\"\" ", b"class=\" \" ", b"class=\"a b a\" ",
];
const SPELLED_BLOCKS: &[&[u8]] = &[
    b"{.a}", b"{class=a}", b"{class=\"a\"}", b"{class='\\.'}", b"{class=\".\"}", b"{.b}", b"{class}", b"{class=\"\"}", b"{class=\" \"}", b"{class=\"a b a\"}",
];
/// Requests over a list of classes that is cut in two: the words, and one or two texts, in which `A` and `B` stand for
/// the halves.
const CUT_FORMS: &[(&str, &str, &str)] = &[
    ("parse_standalone_attrs 1", "{A}{B}", ""),
    ("parse_standalone_attrs_block 1", "{A\n B}", ""),
    ("merge", "{A}", "{B}"),
    ("merge_leading", "{A}", "{B}"),
    ("merge2", "{A}", "{B}"),
    ("merge2_block", "{A}", "{\n B}"),
];
/// Requests whose canonical text, or what it would be with every class that is listed, stands around its limit: the
/// words, one or two texts, and the canonical text that is counted. `Q` stands for as many double quotes as that has room
/// for, two bytes each, `E` for the same in escapes, and `R` for letters that fill it up.
const EDGES: &[(&str, &str, &str, &str)] = &[
    // Each class once.
    ("read_attrs_at 0 strict", "{.a k='Q' class=\"a\" id='R'}", "", "{class=\"a\" k=\"Q\" id=\"R\"}"),
    ("parse_standalone_attrs_block 1", "{.a\n k='Q'}{.b id='R'}{class='b a'}", "", "{class=\"a\" class=\"b\" k=\"Q\" id=\"R\"}"),
    ("sheet", "{class=\" \" k='Q' class=' '}{id='R'}\n", "", "{class=\" \" k=\"Q\" id=\"R\"}"),
    ("merge", "{.a k='Q'}", "{.a id='R'}", "{class=\"a\" k=\"Q\" id=\"R\"}"),
    ("merge_leading", "{class='\"'}", "{class='Q' id='R' class=\"\\\"\"}", "{class=\"Q\" class=\"\\\"\" id=\"R\"}"),
    ("merge2", "{class='Q' id='R'}", "{class=\"E\"}", "{class=\"Q\" id=\"R\"}"),
    ("merge2_block", "{class='Q'}", "{\n class='Q' id='R'}", "{class=\"Q\" id=\"R\"}"),
    // All that are listed.
    ("read_attrs_at 0 strict", "{.a k='Q' class=\"a\" id='R'}", "", "{class=\"a\" class=\"a\" k=\"Q\" id=\"R\"}"),
    ("read_attrs_at 0 loose", "{class='Q' class=\"E\" id='R'}", "", "{class=\"Q\" class=\"Q\" id=\"R\"}"),
    ("sheet", "{class='Q'\n class='Q'\n id='R'}\n", "", "{class=\"Q\" class=\"Q\" id=\"R\"}"),
    ("merge2", "{class='Q'}", "{class='Q' id='R'}", "{class=\"Q\" class=\"Q\" id=\"R\"}"),
    ("merge2_block", "{class=\"E\"}", "{\n class='Q' id='R'}", "{class=\"Q\" class=\"Q\" id=\"R\"}"),
    // None is repeated: they differ at their ends.
    ("read_attrs_at 0 strict", "{class='Qa' class='Qb' id='R'}", "", "{class=\"Qa\" class=\"Qb\" id=\"R\"}"),
    ("merge2_block", "{class=\"Ea\"}", "{\n class='Qb' id='R'}", "{class=\"Qa\" class=\"Qb\" id=\"R\"}"),
];
/// From two bytes below the limit to two above.
const EDGE_SIZES: usize = 5;

/// Each of the 256 bytes.
const BYTES: &[[u8; 1]; 256] = &{
    let mut bytes = [[0]; 256];
    let mut n = 0;
    while n < 256 {
        bytes[n] = [n as u8];
        n += 1;
    }
    bytes
};
const EACH_BYTE: [&[u8]; 256] = {
    let mut atoms: [&[u8]; 256] = [&[]; 256];
    let mut n = 0;
    while n < 256 {
        atoms[n] = &BYTES[n];
        n += 1;
    }
    atoms
};

const VARIANT_SECTIONS: &[Section] = &[
    // Blocks with and without LF between them: the three keys right, each one missing, each out of range, none of them, and
    // a wrapped block. Where no LF stands they are a chain.
    Section {
        atoms: &[
            b"{variant=1 wheel=front-left valve=0}",
            b"{wheel=front-right valve=0}",
            b"{variant=1 valve=1}",
            b"{variant=1 wheel=rear-left}",
            b"{variant=31 wheel=front-left valve=0}",
            b"{variant=1 wheel=Front-left valve=0}",
            b"{variant=1 wheel=front-left valve=256}",
            b"{k}",
            b"{variant=1\n wheel=rear-right valve=0}",
            b"\n",
        ],
        forms: &[("variants", b"", b"")],
    },
    // Blocks line by line: what overrides, heals, and makes pairs, in one variant and in two.
    Section {
        atoms: &[
            b"{variant=1 wheel=front-left valve=0}\n",
            b"{variant=1 wheel=front-left valve=255}\n",
            b"{variant=1 wheel=front-right valve=0}\n",
            b"{variant=1 wheel=rear-left valve=255}\n",
            b"{variant=1 wheel=rear-right\n valve=0}\n",
            b"{variant=30 wheel=front-left valve=0}\n",
            b"{variant=30\n wheel=rear-right valve=0}\n",
            b"{variant=30 wheel=rear-right}{valve=7}\n",
            b"{valve=0}\n",
            b"{k}\n",
            b"\xFF",
        ],
        forms: &[("variants", b"", b""), ("variants", b"{variant=1 wheel=rear-left valve=0}\n", b"")],
    },
    // What stands in a value.
    Section {
        atoms: &[b"0", b"1", b"2", b"3", b"5", b"6", b"9", b"\\", b"-", b" ", b"+", b"\xC3\xA9"],
        forms: &[
            ("variants", b"{variant=\"", b"\" wheel=rear-left valve=1}"),
            ("variants", b"{variant=1 wheel=front-right valve='", b"'}"),
            ("variants", b"{variant=1 wheel=front-right valve=", b"}"),
        ],
    },
    Section {
        atoms: &[b"front", b"rear", b"left", b"right", b"-", b"\\-", b"\\", b"R", b" ", b"_"],
        forms: &[("variants", b"{variant=2 wheel=\"", b"\" valve=3}"), ("variants", b"{variant=2 valve=3 wheel=", b"}")],
    },
];

/// Numbers of columns around their limit, how a list of them is written, and pieces of short lists.
const COLUMN_COUNTS: [usize; 3] = [31, 32, 33];
const COLUMN_QUOTES: [&str; 3] = ["", "\"", "'"];
const COLUMN_ATOMS: [&str; 4] = ["left", "top", "", "x"];

/// How many lists there are of at most four pieces, and no more than that many.
fn column_lists(length: usize) -> u64 {
    strings(COLUMN_ATOMS.len(), length.min(4)) - 1
}

/// One of them, its pieces parted by commas.
fn column_list(mut number: u64) -> String {
    let mut pieces = vec![COLUMN_ATOMS[(number % 4) as usize]];
    while number >= 4 {
        number = number / 4 - 1;
        pieces.push(COLUMN_ATOMS[(number % 4) as usize]);
    }
    pieces.join(",")
}

/// So many columns by one key or by all three, on one line or wrapped; or two lists, in one block, in two back to back, over
/// two texts, or the first again behind the second.
fn exhaustive_columns(length: usize, number: u64, out: &mut Out) {
    let counts = (COLUMN_COUNTS.len() * 4 * COLUMN_QUOTES.len() * 2) as u64;
    if number < counts {
        let mut number = number as usize;
        let mut digit = |of: usize| {
            let digit = number % of;
            number /= of;
            digit
        };
        let (count, keys, quote, wrapped) = (COLUMN_COUNTS[digit(3)], digit(4), COLUMN_QUOTES[digit(3)], digit(2));
        let list = vec!["1"; count].join(",");
        let tokens: Vec<String> =
            (0..3).filter(|&key| keys == 3 || keys == key).map(|key| format!("{}={quote}{list}{quote}", COLUMN_KEYS[key])).collect();
        let text = format!("{{{}}}", tokens.join(["\n ", " "][wrapped]));
        return out.request("columns 1", text.as_bytes(), "");
    }
    let lists = column_lists(length);
    let number = number - counts;
    let (form, number) = (number % 4, number / 4);
    let (keys, number) = ([(0, 1), (0, 2), (2, 1)][(number % 3) as usize], number / 3);
    let [a, b] = [(keys.0, number % lists), (keys.1, number / lists)].map(|(key, list)| format!("{}=\"{}\"", COLUMN_KEYS[key], column_list(list)));
    match form {
        0 => out.request("columns 1", format!("{{{a} {b}}}").as_bytes(), ""),
        1 => out.request("columns 1", format!("{{{a}}}{{{b}}}").as_bytes(), ""),
        2 => out.texts("columns2", &format!("{{{a}}}"), &format!("{{{b}}}")),
        _ => {
            let again = format!("{}='{}'", COLUMN_KEYS[keys.0], column_list(number / lists));
            out.texts("columns2", &format!("{{{a}}}"), &format!("{{\n {b}\n {again}}}"));
        }
    }
}

/// The tokens of loose lists.
const LOOSE_ATOMS: &[&[u8]] = &[
    b"loose ", b"loose=\"\" ", b"loose='' ", b"loose=x ", b"loose=\"\\\"\" ", b".loose ", b"#loose ", b"k=1 ", b":en ", b".a ", b"LOOSE ",
];
/// How the second of two blocks begins.
const LOOSE_PAIRS: [&[u8]; 2] = [b"{", b"{\n "];

/// The first line of an index without its number, whole with its LF, and then the first two numbers of a record.
const INDEX_WORD: &[u8] = b"carve-attr-index\t";
const INDEX_FRONT: &[u8] = b"carve-attr-index\t2\n";
const INDEX_RECORD: &[u8] = b"carve-attr-index\t2\n1\t65535";

/// What sheets are made of: bytes, parts of blocks and lines, blanks.
const SHEET_BYTES: &[&[u8]] = &[b"{", b"}", b"a", b" ", b"\n", b"\r", b"\"", b"="];
const SHEET_PARTS: &[&[u8]] = &[b"{a", b"}", b"}{.b", b"\n", b"\n ", b" ", b"c=\"", b"\"", b"{#d}", b"text", b"\r\n"];
const SHEET_BLANKS: &[&[u8]] = &[b"{", b"}", b"a", b"\n", b"\t", b" ", b"\\", b"\x0C"];

/// A report that bears one sheet, one block, two keys and so on, and no more.
const FULL_FEED: &str = "report_feed 18446744073709551614,18446744073709551614,18446744073709551614,18446744073709551615,18446744073709551615,\
18446744073709551615,18446744073709551615,18446744073709551615,18446744073709551614,18446744073709551613,18446744073709551613,18446744073709551609,\
18446744073709551615";

/// Sheets with a canonical text around its limit, and that text; `Q`, `E` and `R` are those of [`EDGES`].
const REPORT_EDGES: &[(&str, &str)] = &[
    ("{k='Q' id='R'}", "{k=\"Q\" id=\"R\"}"),
    ("{a}\n{.a k='Q'\n .a id='R'}\n{b\n c}", "{class=\"a\" k=\"Q\" id=\"R\"}"),
    ("{class='Q'\n class=\"E\" id='R'}\n", "{class=\"Q\" class=\"Q\" id=\"R\"}"),
    ("{class='Qa'\n class='Qb' id='R'}\n{.a\n .a}", "{class=\"Qa\" class=\"Qb\" id=\"R\"}"),
];
/// Numbers of classes and keys around their limits; none is 0 of them.
const AROUND: [usize; 7] = [0, 32, 33, 63, 64, 65, 66];

fn sections(family: &str) -> &'static [Section] {
    match family {
        "bytes" => &[Section {
            atoms: &EACH_BYTE,
            forms: &[
                ("leaf is_identifier", b"", b""),
                ("leaf is_css_identifier", b"", b""),
                ("leaf is_boolean_attr_name", b"", b""),
                ("leaf is_language_tag", b"", b""),
            ],
        }],
        "place" => &[Section { atoms: SYNTAX_BYTES, forms: PLACE_FORMS }],
        "place-characters" => &[Section { atoms: PLACE_CHARACTERS, forms: PLACE_FORMS }],
        "place-tags" => &[Section { atoms: &[b"a", b"1", b"-", b"_"], forms: &[("leaf place_of tag", b"", b""), ("place 0 strict", b"{:", b"}")] }],
        "place-bytes" => &[Section {
            atoms: &EACH_BYTE,
            forms: &[("leaf place_of name", b"", b""), ("leaf place_of key", b"", b""), ("leaf place_of bare", b"", b""), ("leaf place_of tag", b"", b"")],
        }],
        "once" => &[Section {
            atoms: &[b"a", b"1", b".", b"#", b":", b"-", b"=", b"\"", b"'", b"\\", b" ", b"}", b"\n", b"\xFF"],
            forms: &[
                ("place 0 strict", b"{", b"}"),
                ("place 0 loose", b"{", b"}"),
                ("place 0 strict", b"{", b""),
                ("place 0 loose", b"{", b""),
                ("place_lang 0 strict", b"{", b"}"),
                ("place_lang 0 loose", b"{", b"}"),
                ("place_lang 0 strict", b"{", b""),
                ("place_lang 0 loose", b"{", b""),
            ],
        }],
        "lang" => &[Section {
            atoms: &[b":", b"lang=", b"lang=\"", b"\"", b"\\-", b"-", b"en", b"1", b"x", b" ", b"lang", b".a "],
            forms: &[("read_attrs_at_lang 0 strict", b"{", b"}"), ("read_attrs_at_lang 0 loose", b"{", b"}"), ("place_lang 0 strict", b"{", b"}")],
        }],
        "lang-letters" => &[Section { atoms: &[b"a", b"A", b"1", b"-", b"x"], forms: TAG_FORMS }],
        "lang-kinds" => &[Section { atoms: KINDS, forms: TAG_FORMS }],
        "lang-subtags" => &[Section { atoms: FEW_KINDS, forms: TAG_FORMS }],
        "payload" => &[Section {
            atoms: SYNTAX_BYTES,
            forms: &[("read_attrs_at 0 strict", b"{", b"}"), ("read_attrs_at 0 loose", b"{", b"}")],
        }],
        "text" => &[Section { atoms: &[b"{", b"}", b"a", b"\"", b"\\", b"\n", b" ", b"\t"], forms: TEXT_FORMS }],
        "refused-text" => &[Section {
            atoms: &[b"{", b"}", b"%", b"a", b"\n", b" ", b"\"", b"\\"],
            forms: &[("refused_brace_run 1", b"", b""), ("ends_in_refused_brace_run", b"", b"")],
        }],
        "leaves" => &[
            Section {
                atoms: &[
                    b"\x00", b"a", b"\x7F", b"\x80", b"\x8F", b"\x90", b"\x9F", b"\xA0", b"\xBF", b"\xC0", b"\xC1", b"\xC2", b"\xDF", b"\xE0", b"\xE1",
                    b"\xED", b"\xEE", b"\xEF", b"\xF0", b"\xF1", b"\xF3", b"\xF4", b"\xF5", b"\xFF",
                ],
                forms: &[
                    ("leaf is_utf8", b"", b""),
                    ("leaf check_text", b"", b""),
                    ("leaf char_count", b"", b""),
                    ("leaf is_char_boundary 1", b"", b""),
                    ("leaf is_char_boundary 2", b"", b""),
                ],
            },
            Section {
                atoms: &[b"a", b" ", b"\t", b"\n", b"\r", b"\x0C", b"\x0B", b"\xC2\xA0"],
                forms: &[
                    ("leaf trim_ascii", b"", b""),
                    ("leaf trim_ascii_start", b"", b""),
                    ("leaf trim_ascii_end", b"", b""),
                    ("leaf is_blank_line", b"", b""),
                    ("leaf indent_columns", b"", b""),
                    ("leaf columns", b"", b""),
                    ("leaf line 0", b"", b""),
                    ("leaf line 1", b"", b""),
                    ("leaf line 2", b"", b""),
                    ("leaf line 3", b"", b""),
                    ("leaf line_from 0", b"", b""),
                    ("leaf line_from 1", b"", b""),
                    ("leaf line_from 2", b"", b""),
                    ("leaf line_from 18446744073709551615", b"", b""),
                ],
            },
            Section {
                atoms: &[b"a", b"z", b"A", b"Z", b"0", b"9", b"_", b"-", b".", b"@", b"[", b"`", b"{", b"/", b":", b"\xC3\xA9", b"\x80"],
                forms: &[
                    ("leaf is_identifier", b"", b""),
                    ("leaf is_css_identifier", b"", b""),
                    ("leaf is_boolean_attr_name", b"", b""),
                    ("leaf is_language_tag", b"", b""),
                    ("leaf is_language_tag", b"abcdef", b""),
                    ("leaf is_language_tag", b"a-", b"-1"),
                ],
            },
            Section {
                atoms: ESCAPE_ATOMS,
                forms: &[
                    ("leaf unescape_title", b"", b""),
                    ("leaf piece_at 0", b"", b""),
                    ("leaf piece_at 1", b"", b""),
                    ("leaf piece_at 2", b"", b""),
                    ("leaf piece_at 18446744073709551615", b"", b""),
                ],
            },
        ],
        "brace" => &[
            Section {
                atoms: &[
                    b"a", b"1", b"_", b"-", b".", b"#", b":", b"=", b"\"", b"'", b"\\", b" ", b"\t", b"\r", b"\n", b"}", b"{", b"|", b"\xC3\xA9", b"\x0C",
                ],
                forms: BRACE_FORMS,
            },
            Section {
                atoms: &[b".a", b"#b", b"k=", b"k=1", b"k=\"", b"\"", b"'", b"\\", b"id", b"class", b"=", b":en", b" ", b"}", b"\x80"],
                forms: BRACE_FORMS,
            },
        ],
        "lines" => &[
            Section { atoms: &[b"{", b"}", b"a", b" ", b"\n", b"\"", b"\\", b"=", b"\t", b"\r"], forms: LINE_FORMS },
            Section {
                atoms: &[b"{a", b"}{b", b"}", b"c=\"", b"\"", b"'", b"\\", b"\n", b"\n ", b"\n\t", b" ", b"\n   ", b"\xC3\xA9", b"k=v"],
                forms: LINE_FORMS,
            },
        ],
        "refused" => &[
            Section { atoms: &[b"{", b"}", b"a", b" ", b"\n", b"\"", b"%", b"\\", b"\t"], forms: REFUSED_FORMS },
            Section {
                atoms: &[b"{a", b"}{b", b"}", b"%}", b"c=\"", b"\"", b"\\", b"\n", b"\n ", b"\n\t", b"\n\n", b" ", b"{%", b"d"],
                forms: REFUSED_FORMS,
            },
        ],
        "quick" => &[Section {
            atoms: &[
                b"}", b"\n", b"\"", b"'", b"\\", b":", b" ", b"\t", b"\r", b"#", b".", b"=", b"-", b"_", b"a", b"0", b"\x80",
            ],
            forms: &[("attr_payload_provably_invalid 0", b"{", b"")],
        }],
        "rows" => &[
            Section {
                atoms: &[
                    b"#a ", b".b ", b"k=1 ", b"k=\"\\\"2\" ", b"k ", b"_m='' ", b"id ", b"id=\"c d\" ", b"id=\xC3\xA9 ", b"class ", b"class=\"e\\\\  f\" ",
                    b"class=' ' ", b"class=g\x0Ch ", b": ", b":en-1 ", b"lang=x ", b"lang ", b"\r", b"\n", b"}",
                ],
                forms: ROW_FORMS,
            },
            // What stands in a value.
            Section {
                atoms: &[b"a", b"\\", b"\"", b"'", b" ", b"\t", b"\r", b"\x0C", b"_", b"\xC3\xA9", b"}", b"\x80"],
                forms: &[
                    ("rows 0 strict", b"{class=\"", b"\"}"),
                    ("rows 0 loose", b"{class='", b"'}"),
                    ("rows 0 strict", b"{class=", b"}"),
                    ("rows 0 strict", b"{k=\"", b"\" id=b}"),
                    ("rows 0 loose", b"{id=", b" .b}"),
                ],
            },
        ],
        "merge" => &[Section {
            atoms: &[b".a ", b".b ", b"#x ", b"#y ", b"k=1 ", b"k=2 ", b"m ", b"id ", b":en ", b"lang=\"\\\"\" ", b"class=\"c d\" ", b"}{"],
            forms: &[("merge", b"{", b"}"), ("merge_leading", b"{", b"}")],
        }],
        "merge2" => &[
            Section {
                atoms: &[
                    b".a ", b".b ", b"#x ", b"k=1 ", b"k='2' ", b"m ", b"id ", b":en ", b"lang=\"\\\"\" ", b"class=\"c d\" ", b"}{", b"\n ",
                ],
                forms: &[("merge2", b"{", b"}"), ("merge2_block", b"{", b"}")],
            },
            // What isn't read, and where a block ends.
            Section {
                atoms: &[b"{a}", b"{.b", b"}", b" k=1}", b"\n", b"\n ", b"\r\n ", b"\r", b"{c=", b"\xC3\xA9", b"\xFF"],
                forms: &[("merge2", b"", b""), ("merge2_block", b"", b""), ("merge2_block cap=5", b"", b"")],
            },
        ],
        "repeats" => &[
            Section {
                atoms: SPELLINGS,
                forms: &[("read_attrs_at 0 strict", b"{", b"}"), ("rows 0 strict", b"{", b"}"), ("parse_standalone_attrs_block 1", b"{\n ", b"}")],
            },
            Section { atoms: SPELLED_BLOCKS, forms: &[("parse_standalone_attrs 1", b"", b"")] },
        ],
        "variants" => VARIANT_SECTIONS,
        "mends" => &[],
        "columns" => &[Section {
            atoms: &[b",", b"\\", b"\"", b"left", b"top", b"1", b"%", b" ", b"\xC3\xA9"],
            forms: &[
                ("columns 1", b"{aligns=\"", b"\"}"),
                ("columns 1", b"{aligns='", b"'}"),
                ("columns 1", b"{aligns=", b"}"),
                ("columns 1", b"{valigns=\"", b"\"}"),
                ("columns 1", b"{valigns='", b"'}"),
                ("columns 1", b"{valigns=", b"}"),
                ("columns 1", b"{widths=\"", b"\"}"),
                ("columns 2", b"\n{.a\n widths='", b"'}"),
                ("columns 1", b"{widths=", b"}"),
            ],
        }],
        "loose" => &[
            Section { atoms: LOOSE_ATOMS, forms: &[("loose 1", b"{", b"}")] },
            Section {
                atoms: &[
                    b"{loose}", b"{loose=\"\"}", b"{loose=''}", b"{loose=x}", b"{loose=\"\\\"\"}", b"{.loose}", b"{#loose}", b"{k=1}", b"{:en}", b"{.a}", b"{LOOSE}",
                ],
                forms: &[("loose 1", b"", b"")],
            },
            Section {
                atoms: &[
                    b"\n loose", b"\n loose=\"\"", b"\n loose=''", b"\n loose=x", b"\n loose=\"\\\"\"", b"\n .loose", b"\n #loose", b"\n k=1", b"\n :en", b"\n .a",
                    b"\n LOOSE",
                ],
                forms: &[("loose 2", b"text\n{", b"}\n")],
            },
        ],
        "index" => &[
            // What is read, from the first line on, behind it, and in the middle of a record; and looked up.
            Section {
                atoms: &[INDEX_WORD, b"1", b"2", b"0", b"65535", b"65536", b"\t", b"\n", b"\r", b"x"],
                forms: &[
                    ("index_read", b"", b""),
                    ("index_read", INDEX_FRONT, b""),
                    ("index_read", INDEX_RECORD, b"\n"),
                    ("index_lookup 78", INDEX_RECORD, b"\n1\t2\t3\tx\n"),
                ],
            },
            Section { atoms: MEND_ATOMS, forms: &[("index_build", b"", b""), ("index_build", b"{#y\n", b"")] },
        ],
        "report" | "reports" => &[
            Section {
                atoms: SHEET_BYTES,
                forms: &[("report", b"", b""), ("runs", b"", b""), (FULL_FEED, b"{", b"}\n{b}"), ("runs", b"{", b"}\n{b}")],
            },
            Section { atoms: SHEET_PARTS, forms: &[("report", b"", b""), ("runs", b"", b"")] },
            Section { atoms: SHEET_BLANKS, forms: &[("report 7b2e610a20627d", b"", b""), ("runs", b"", b""), (FULL_FEED, b"", b"")] },
        ],
        _ => &[
            Section { atoms: SHEET_BYTES, forms: &[("sheet", b"", b""), ("sheet", b"{", b"}\n{b}")] },
            Section { atoms: SHEET_PARTS, forms: &[("sheet", b"", b"")] },
            Section { atoms: SHEET_BLANKS, forms: &[("sheet", b"", b"")] },
        ],
    }
}

/// How many strings of at most that many atoms there are.
fn strings(atoms: usize, length: usize) -> u64 {
    (0..=length as u32).map(|n| (atoms as u64).pow(n)).sum()
}

fn section_size(section: &Section, length: usize) -> u64 {
    section.forms.len() as u64 * strings(section.atoms.len(), length)
}

/// Sizes around the text limit and the longest that a request carries, and texts of them: ASCII, and what isn't UTF-8 at
/// the front or at the end.
const SIZES: [usize; 5] = [TEXT_LIMIT - 1, TEXT_LIMIT, TEXT_LIMIT + 1, TEXT_LIMIT + 2, 65_600];
const SIZED: [fn(&mut [u8]); 3] = [|_| {}, |text| text[0] = 0xFF, |text| text[text.len() - 1] = 0xC2];

/// How many pairs of strings there are with so many atoms together, at least `least` of them in each.
fn pairs_of(atoms: usize, least: u64, count: u64) -> u64 {
    (count + 1).saturating_sub(2 * least) * (atoms as u64).pow(count as u32)
}

/// How many there are with at most that many.
fn pairs(atoms: usize, least: u64, length: usize) -> u64 {
    (0..=length as u64).map(|count| pairs_of(atoms, least, count)).sum()
}

/// One of them: first the length of both together, then where the second begins, then the atoms as digits.
fn pair(atoms: &[&'static [u8]], least: u64, mut number: u64) -> [Vec<u8>; 2] {
    let mut count = 2 * least;
    while number >= pairs_of(atoms.len(), least, count) {
        number -= pairs_of(atoms.len(), least, count);
        count += 1;
    }
    let places = count + 1 - 2 * least;
    let list = digits(atoms, number / places, count as u32);
    let (a, b) = list.split_at((least + number % places) as usize);
    [a.concat(), b.concat()]
}

/// What the quick test goes past before it meets a byte that decides.
const BEFORE_A_BYTE: [&[u8]; 7] = [b"{", b"{ ", b"{#", b"{.", b"{.a", b"{a", b"{a="];

/// The leaves begin with all 256 byte classes, then come the texts by size, then pairs of raw and unescaped text. The
/// quick test begins with each of the 256 bytes wherever one decides, merges over two texts with texts by size. Repeated
/// classes begin with canonical texts around the limit, then come the lists that are cut in two. Reports begin with
/// canonical texts around the limit and with as many classes and keys as stand around theirs. Mends are all of this kind,
/// and loose lists begin with the pairs of blocks. Strict tags begin with the registered ones and such as are nearly they. Columns begin with as many as stand around their limit, by each key and
/// by all three, then come pairs of lists under two of the keys.
fn extra(family: &str, length: usize) -> u64 {
    match family {
        "leaves" => 256 + (SIZES.len() * SIZED.len()) as u64 + pairs(ESCAPE_ATOMS.len(), 0, length),
        "quick" => 256 * BEFORE_A_BYTE.len() as u64,
        "merge2" => (SIZES.len() * SIZED.len() * 3 * 2) as u64,
        "repeats" => (EDGES.len() * EDGE_SIZES) as u64 + CUT_FORMS.len() as u64 * pairs(SPELLINGS.len(), 1, length),
        "loose" => LOOSE_PAIRS.len() as u64 * pairs(LOOSE_ATOMS.len(), 1, length),
        "columns" => (COLUMN_COUNTS.len() * 4 * COLUMN_QUOTES.len() * 2) as u64 + 3 * 4 * column_lists(length).pow(2),
        "lang" => 2 * registered_changed().len() as u64,
        "mends" => *mend_starts(length).last().expect("a start"),
        "report" => ((REPORT_EDGES.len() * EDGE_SIZES + AROUND.len() * AROUND.len() * 2) * REPORT_WORDS.len()) as u64,
        _ => 0,
    }
}

fn exhaustive_extra(family: &str, length: usize, mut number: u64, out: &mut Out) {
    if family == "quick" {
        let text = [BEFORE_A_BYTE[(number / 256) as usize], &[(number % 256) as u8]].concat();
        return out.request("attr_payload_provably_invalid 0", &text, "");
    }
    if family == "merge2" {
        return exhaustive_sizes(number as usize, out);
    }
    if family == "repeats" {
        return exhaustive_repeats(number, out);
    }
    if family == "report" {
        return exhaustive_report(number as usize, out);
    }
    if family == "lang" {
        // The tag by itself, and in a block.
        let tag = &registered_changed()[number as usize / 2];
        return match number % 2 {
            0 => out.request("language_tag_strict", tag, ""),
            _ => out.request("read_attrs_at_lang 0 strict", &[b"{lang=\"", &tag[..], b"\"}"].concat(), ""),
        };
    }
    if family == "mends" {
        return exhaustive_mend(length, number, out);
    }
    if family == "columns" {
        return exhaustive_columns(length, number, out);
    }
    if family == "loose" {
        // Two blocks, the second on one line or wrapped.
        let [a, b] = pair(LOOSE_ATOMS, 1, number / LOOSE_PAIRS.len() as u64);
        out.request("loose2", &[b"{", &a[..], b"}"].concat(), " ");
        return out.hex(&[LOOSE_PAIRS[(number % LOOSE_PAIRS.len() as u64) as usize], &b[..], b"}"].concat());
    }
    if number < 256 {
        return out.words(&format!("leaf is_class {number}"));
    }
    number -= 256;
    let sized = SIZED.len() as u64;
    if number < SIZES.len() as u64 * sized {
        let mut text = vec![b'a'; SIZES[(number / sized) as usize]];
        SIZED[(number % sized) as usize](&mut text);
        return out.request("leaf check_text", &text, "");
    }
    number -= SIZES.len() as u64 * sized;
    let [a, b] = pair(ESCAPE_ATOMS, 0, number);
    out.request("leaf same_unescaped", &a, " ");
    out.hex(&b);
}

/// The text filled so that the counted canonical text has two bytes less than its limit and so many more.
fn at_edge(text: &str, counted: &str, more: usize) -> String {
    let takes = 2 * counted.matches('Q').count();
    let room = TEXT_LIMIT - 2 + more - counted.replace(['Q', 'R'], "").len();
    let (quotes, rest) = ("\"".repeat(room / takes), "x".repeat(room % takes));
    text.replace('Q', &quotes).replace('E', &quotes.replace('"', "\\\"")).replace('R', &rest)
}

/// The requests for a sheet of a report by itself.
const REPORT_WORDS: [&str; 3] = ["report", "runs", FULL_FEED];

/// A sheet with a canonical text around the limit, or with a block of so many classes and keys, on one line or wrapped.
fn exhaustive_report(number: usize, out: &mut Out) {
    let (words, number) = (REPORT_WORDS[number % REPORT_WORDS.len()], number / REPORT_WORDS.len());
    let edges = REPORT_EDGES.len() * EDGE_SIZES;
    if number < edges {
        let (text, counted) = REPORT_EDGES[number / EDGE_SIZES];
        return out.request(words, at_edge(text, counted, number % EDGE_SIZES).as_bytes(), "");
    }
    let number = number - edges;
    let (classes, keys) = (AROUND[number / 2 % AROUND.len()], AROUND[number / 2 / AROUND.len()]);
    let list: Vec<String> = (0..classes).map(|n| format!(".c{n}")).chain((0..keys).map(|n| format!("k{n}"))).collect();
    let text = format!("{{.a}}\n{{{}}}\n{{b\n c}}\n", list.join(["\n ", " "][number % 2]));
    out.request(words, text.as_bytes(), "");
}

/// A canonical text around the limit, or a list of classes that is cut in two.
fn exhaustive_repeats(number: u64, out: &mut Out) {
    let edges = (EDGES.len() * EDGE_SIZES) as u64;
    if number < edges {
        let (words, first, second, counted) = EDGES[number as usize / EDGE_SIZES];
        let fill = |text: &str| at_edge(text, counted, number as usize % EDGE_SIZES);
        return out.texts(words, &fill(first), &fill(second));
    }
    let number = number - edges;
    let (words, first, second) = CUT_FORMS[(number % CUT_FORMS.len() as u64) as usize];
    let halves = pair(SPELLINGS, 1, number / CUT_FORMS.len() as u64).map(|half| String::from_utf8(half).expect("ASCII"));
    let fill = |text: &str| text.replace('A', &halves[0]).replace('B', &halves[1]);
    out.texts(words, &fill(first), &fill(second));
}

/// A text by size as the first, as the second or as both, asked by line and by block.
fn exhaustive_sizes(number: usize, out: &mut Out) {
    let words = ["merge2", "merge2_block"][number % 2];
    let sides = number / 2 % 3;
    let number = number / 6;
    let mut text = filled(SIZES[number / SIZED.len()], "{k=", "x", "}").into_bytes();
    SIZED[number % SIZED.len()](&mut text);
    let short: &[u8] = b"{.a\n b}";
    out.request(words, if sides == 1 { short } else { &text }, " ");
    out.hex(if sides == 0 { short } else { &text });
}

/// What old texts and new parts of mends are made of.
const MEND_ATOMS: &[&[u8]] = &[b"{a}", b"{#x", b" b}", b"\"", b"\n", b" ", b"k=1", b"\x0C"];
/// How many atoms a new part has at most.
const PART_LENGTH: usize = 2;

fn lines_in(text: &[u8]) -> u64 {
    text.split_inclusive(|&b| b == b'\n').count() as u64
}

/// Where the requests of each old text begin in the list, and where the list ends: every range of its lines with every new
/// part, and a range that isn't there. It is made once, for the one length that the program is asked for.
fn mend_starts(length: usize) -> &'static [u64] {
    static STARTS: OnceLock<Vec<u64>> = OnceLock::new();
    STARTS.get_or_init(|| {
        let mut starts = vec![0];
        for number in 0..strings(MEND_ATOMS.len(), length) {
            let lines = lines_in(&nth_string(MEND_ATOMS, number).concat());
            let requests = lines * (lines + 1) / 2 * strings(MEND_ATOMS.len(), PART_LENGTH);
            starts.push(starts[number as usize] + requests + 1);
        }
        starts
    })
}

/// One of them. The index is that of the old text, which is the same for many requests in a row.
fn exhaustive_mend(length: usize, number: u64, out: &mut Out) {
    static LAST: Mutex<Option<(u64, Vec<u8>)>> = Mutex::new(None);
    let starts = mend_starts(length);
    let text = starts.partition_point(|&start| start <= number) as u64 - 1;
    let mut number = number - starts[text as usize];
    let old = nth_string(MEND_ATOMS, text).concat();
    let mut last_index = LAST.lock().expect("one thread");
    if last_index.as_ref().map(|(of, _)| *of) != Some(text) {
        *last_index = Some((text, index_of(&old)));
    }
    let parts = strings(MEND_ATOMS.len(), PART_LENGTH);
    let part = nth_string(MEND_ATOMS, number % parts).concat();
    number /= parts;
    let lines: Vec<&[u8]> = old.split_inclusive(|&b| b == b'\n').collect();
    let count = lines.len();
    // By their first lines, then by their last; behind all ranges one that isn't there.
    let ranges = (1..=count).flat_map(|a| (a..=count).map(move |b| (a, b)));
    let (a, b) = ranges.chain([(count.max(1), count + 1)]).nth(number as usize).expect("a range");
    let new = [&lines[..a - 1].concat(), &part[..], &lines[b.min(count)..].concat()].concat();
    out.request(&format!("index_mend {a} {b}"), &old, " ");
    out.hex(&new);
    out.words(" ");
    out.hex(&last_index.as_ref().expect("just made").1);
}

/// One of the strings over these atoms: first the length, then the atoms as digits.
fn nth_string(atoms: &[&'static [u8]], mut number: u64) -> Vec<&'static [u8]> {
    let mut count = 0;
    while number >= (atoms.len() as u64).pow(count) {
        number -= (atoms.len() as u64).pow(count);
        count += 1;
    }
    digits(atoms, number, count)
}

/// As many atoms, as digits of the number.
fn digits(atoms: &[&'static [u8]], mut number: u64, count: u32) -> Vec<&'static [u8]> {
    let mut list = Vec::new();
    for _ in 0..count {
        list.push(atoms[(number % atoms.len() as u64) as usize]);
        number /= atoms.len() as u64;
    }
    list
}

fn exhaustive_size(family: &str, length: usize) -> u64 {
    extra(family, length) + sections(family).iter().map(|section| section_size(section, length)).sum::<u64>()
}

fn exhaustive(family: &str, length: usize, mut number: u64, out: &mut Out) {
    if number < extra(family, length) {
        return exhaustive_extra(family, length, number, out);
    }
    number -= extra(family, length);
    for section in sections(family) {
        let size = section_size(section, length);
        if number >= size {
            number -= size;
            continue;
        }
        let forms = section.forms.len() as u64;
        let (words, before, behind) = section.forms[(number % forms) as usize];
        let list = nth_string(section.atoms, number / forms);
        if family == "lang-kinds" || family == "lang-subtags" {
            return out.request(words, &list.join(&b'-'), "");
        }
        if family == "index" {
            // What is looked up stands behind the index.
            let (words, id) = words.split_once(' ').map_or((words, String::new()), |(words, id)| (words, format!(" {id}")));
            return out.request(words, &[before, &list.concat(), behind].concat(), &id);
        }
        if family == "merge" || family == "merge2" {
            // One half on each side, and the join buffer's length behind them.
            let (a, b) = list.split_at(list.len() / 2);
            let (words, cap) = words.split_at(words.find(" cap=").unwrap_or(words.len()));
            out.request(words, &[before, &a.concat(), behind].concat(), " ");
            out.hex(&[before, &b.concat(), behind].concat());
            return out.words(cap);
        }
        return out.request(words, &[before, &list.concat(), behind].concat(), "");
    }
}

// ---- The command line ----

fn main() -> io::Result<()> {
    let words: Vec<String> = std::env::args().skip(1).collect();
    let words: Vec<&str> = words.iter().map(String::as_str).collect();
    let number_of = |word: &str| word.parse::<u64>().ok();
    let known = |name: &str| FAMILIES.contains(&name);
    let listed = |name: &str| known(name) || LISTED.contains(&name);
    let mut to = BufWriter::with_capacity(1 << 20, io::stdout().lock());
    let mut out = Out { line: Vec::new() };
    let mut write = |out: &mut Out| {
        out.line.push(b'\n');
        let written = to.write_all(&out.line);
        out.line.clear();
        written
    };
    match words[..] {
        ["random", families, seed, from, count] => {
            let families: Vec<&str> = if families == "all" { FAMILIES.to_vec() } else { families.split(',').collect() };
            let (Some(seed), Some(from), Some(count)) = (number_of(seed), number_of(from), number_of(count)) else {
                return usage();
            };
            if !families.iter().all(|name| known(name) || *name == "errors") {
                return usage();
            }
            for number in from..from + count {
                let family = families[(number % families.len() as u64) as usize];
                random(family, &mut Rng::new(seed, number), &mut out);
                write(&mut out)?;
            }
        }
        ["exhaustive", family, length, from, count] if listed(family) => {
            let (Some(length), Some(from), Some(count)) = (number_of(length), number_of(from), number_of(count)) else {
                return usage();
            };
            let size = exhaustive_size(family, length as usize);
            for number in from..size.min(from + count) {
                exhaustive(family, length as usize, number, &mut out);
                write(&mut out)?;
            }
        }
        ["groups", kind, seed, from, count] => {
            let (Some(seed), Some(from), Some(count), Some(size)) = (number_of(seed), number_of(from), number_of(count), groups_in(kind)) else {
                return usage();
            };
            for number in from..size.min(from.saturating_add(count)) {
                let (lines, refused) = group(kind, seed, number);
                for text in lines {
                    out.hex(text.as_bytes());
                    out.words(" ");
                }
                out.words(&refused);
                write(&mut out)?;
            }
        }
        ["size", family, length] if listed(family) => {
            let Some(length) = number_of(length) else {
                return usage();
            };
            out.words(&exhaustive_size(family, length as usize).to_string());
            write(&mut out)?;
        }
        _ => return usage(),
    }
    to.flush()
}

fn usage() -> io::Result<()> {
    eprintln!("generate random FAMILIES SEED FROM COUNT | exhaustive FAMILY LENGTH FROM COUNT | size FAMILY LENGTH | groups KIND SEED FROM COUNT");
    std::process::exit(2)
}
