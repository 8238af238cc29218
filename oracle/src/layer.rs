//! Document 01's layer over source 000: refusal numbers and their order, limits, lookahead, the join buffer's content,
//! canonical text and the sheet.
//!
//! Readings, line counts and merges come from the original. Where the layer walks by itself, because the original
//! answers less than document 01 asks, it asserts that both come to the same; an assertion that fires stops the oracle.

use crate::ast::{AttrSlot, Attrs};
use crate::document;
use crate::parse::attrs::door::{self, RefusedBraceRun};
use crate::rows::Rows;
use crate::standins::*;

pub const TEXT_LIMIT: usize = 65_535;
pub const CLASS_LIMIT: usize = 64;
pub const KEY_LIMIT: usize = 64;

/// A column that no line of a text within the limit reaches. A base beyond it is handed to the original as this one:
/// the answers are those of the true number, and the original's addition stays in its range.
const FAR_COLUMN: usize = 1 << 40;

/// One of document 01's refusal numbers.
pub type Number = u8;

/// The byte ranges of a text's lines: a line ends at LF, one CR just before that LF is dropped, text after the last LF
/// is a line if it isn't empty.
pub fn line_ranges(bytes: &[u8]) -> Vec<(usize, usize)> {
    let mut ranges = Vec::new();
    let mut from = 0;
    for (at, _) in bytes.iter().enumerate().filter(|(_, &b)| b == b'\n') {
        let to = if at > from && bytes[at - 1] == b'\r' { at - 1 } else { at };
        ranges.push((from, to));
        from = at + 1;
    }
    if from < bytes.len() {
        ranges.push((from, bytes.len()));
    }
    ranges
}

/// 1 and 2 over the whole text, or its lines.
fn lines_of(bytes: &[u8]) -> Result<Vec<&str>, Number> {
    let text = whole_text(bytes)?;
    let lines: Vec<&str> = line_ranges(bytes).into_iter().map(|(from, to)| &text[from..to]).collect();
    assert!(text.lines().eq(lines.iter().copied()), "lines are those of Rust's own splitting");
    Ok(lines)
}

/// The text, or 1 where it is too long, else 2 where it isn't UTF-8.
pub fn whole_text(bytes: &[u8]) -> Result<&str, Number> {
    if bytes.len() > TEXT_LIMIT {
        return Err(1);
    }
    std::str::from_utf8(bytes).map_err(|_| 2)
}

/// The line of that number and those behind it; numbers count from 1. None where there is no such line.
fn from_line<'b, 'a>(lines: &'b [&'a str], line: usize) -> Option<&'b [&'a str]> {
    (1..=lines.len()).contains(&line).then(|| &lines[line - 1..])
}

/// 6 and 7, in this order, for a set that was read or merged. Every class listed counts, a repeated one too. There is no
/// 8, and none is called for.
pub fn within_limits(attrs: Attrs) -> Result<Attrs, Number> {
    assert_eq!(attrs.order.len(), slot_count(&attrs), "slots name what is there, once each");
    assert!(attrs.order.len() <= attrs.key_values.len() + 2, "slots are at most two more than keys");
    if attrs.classes.len() > CLASS_LIMIT {
        Err(6)
    } else if attrs.key_values.len() > KEY_LIMIT {
        Err(7)
    } else {
        Ok(attrs)
    }
}

fn slot_count(attrs: &Attrs) -> usize {
    usize::from(attrs.id.is_some()) + usize::from(!attrs.classes.is_empty()) + attrs.key_values.len()
}

// ---- At a brace ----

/// The payload's range at a brace, or 1, 3, 4, 2 in this order.
pub fn payload_at(bytes: &[u8], place: usize) -> Result<(usize, usize), Number> {
    if bytes.len() > TEXT_LIMIT {
        return Err(1);
    }
    if bytes.get(place) != Some(&b'{') {
        return Err(3);
    }
    let close = document::close(bytes, place).ok_or(4)?;
    if std::str::from_utf8(&bytes[place + 1..close]).is_err() {
        return Err(2);
    }
    Ok((place + 1, close))
}

/// The reading at a brace and the place after its close.
pub fn read_attrs_at(bytes: &[u8], place: usize, loose: bool) -> Result<(Attrs, usize), Number> {
    let (attrs, next) = reading_at(bytes, place, loose)?;
    Ok((within_limits(attrs)?, next))
}

/// The same before the limits count.
pub fn reading_at(bytes: &[u8], place: usize, loose: bool) -> Result<(Attrs, usize), Number> {
    let last_close = bytes.iter().rposition(|&b| b == b'}');
    let payload = payload_at(bytes, place);
    if payload == Err(1) {
        return Err(1);
    }
    // A place beyond what the original can step over is answered before it is asked.
    let original = if place >= bytes.len() {
        None
    } else if loose {
        door::read_attrs_at_loose(bytes, place, last_close)
    } else {
        door::read_attrs_at(bytes, place, last_close)
    };
    let (from, to) = match payload {
        Ok(range) => range,
        Err(number) => {
            assert!(original.is_none(), "the original reads where the layer answers {number}");
            return Err(number);
        }
    };
    let inner = std::str::from_utf8(&bytes[from..to]).expect("tested");
    let grammar = read_payload(inner, loose);
    assert_eq!(original, grammar.map(|attrs| (attrs, to + 1)), "the reading at a brace is the payload's reading");
    if original.is_some() {
        assert!(!door::attr_payload_provably_invalid(bytes, place), "the quick test refuses nothing good");
    }
    if place < bytes.len() {
        // Any place at or behind the brace stands for "there may be a close".
        let again = if loose { door::read_attrs_at_loose } else { door::read_attrs_at };
        assert_eq!(again(bytes, place, Some(bytes.len())), original, "the third argument changes nothing");
    }
    original.ok_or(5)
}

/// The original's reading of a payload, held against document 01's grammar.
fn read_payload(inner: &str, loose: bool) -> Option<Attrs> {
    let original = door::parse_attrs_with(inner, !loose);
    assert_eq!(original, document::payload(inner, loose), "document 01's grammar and the original read alike");
    original
}

/// The rows of the reading at a brace, and the place after its close. The rows are document 01's; what they list is held
/// against the original's set.
pub fn rows(bytes: &[u8], place: usize, loose: bool) -> Result<(Rows, usize), Number> {
    let (attrs, next) = read_attrs_at(bytes, place, loose)?;
    let (from, to) = payload_at(bytes, place).expect("what was read has a payload");
    let rows = Rows::read(&bytes[..to], from, loose).expect("what was read has tokens");
    assert_eq!(rows.listed(bytes), attrs, "the rows list the original's set");
    assert_eq!(rows.keys.len(), attrs.key_values.len(), "one row for each key");
    Ok((rows, next))
}

/// The original's quick test on any bytes. At the last of all numbers its sum would leave its range; as behind every
/// other place past the end, no byte stands there, and a payload that runs off the end is refused.
pub fn attr_payload_provably_invalid(bytes: &[u8], place: usize) -> bool {
    let answer = place == usize::MAX || door::attr_payload_provably_invalid(bytes, place);
    if answer && place < bytes.len() {
        if let Some(inner) = document::close(bytes, place).and_then(|to| std::str::from_utf8(&bytes[place + 1..to]).ok()) {
            let read = [false, true].map(|loose| document::payload(inner, loose).is_some());
            assert_eq!(read, [false, false], "the quick test refuses nothing that the grammar accepts");
        }
    }
    answer
}

// ---- Payload entries: yes or no, and no for 1 and 2 ----

pub fn parse_attrs(bytes: &[u8]) -> bool {
    whole_text(bytes).is_ok_and(|text| {
        let answer = door::parse_attrs(text).is_some();
        assert_eq!(answer, read_payload(text, false).is_some());
        answer
    })
}

pub fn is_valid_attr_payload(bytes: &[u8]) -> bool {
    whole_text(bytes).is_ok_and(|text| {
        let answer = door::is_valid_attr_payload(text);
        assert_eq!(answer, read_payload(text, true).is_some());
        answer
    })
}

pub fn valid_wrapped_attr_continuation(bytes: &[u8]) -> bool {
    whole_text(bytes).is_ok_and(door::valid_wrapped_attr_continuation)
}

// ---- One line ----

/// The original's reading of a line, held against document 01's words on lines.
fn good_line(line: &str) -> Option<Attrs> {
    let original = door::parse_standalone_attrs(line);
    assert_eq!(original, document::line(trim_ascii(line)), "document 01 and the original read this line alike");
    original
}

pub fn parse_standalone_attrs(bytes: &[u8], line: usize) -> Result<Attrs, Number> {
    let lines = lines_of(bytes)?;
    let first = from_line(&lines, line).ok_or(3)?[0];
    if !trim_ascii(first).starts_with('{') {
        return Err(3);
    }
    within_limits(good_line(first).ok_or(5)?)
}

// ---- Runs of lines ----

/// What a run, or a call that may make runs, leaves besides its answer.
#[derive(Default, Clone, Debug, PartialEq)]
pub struct Trace {
    /// How many lines were joined, the first line of a run too.
    pub lines: usize,
    /// The sum of the untrimmed lengths of the lines joined.
    pub lookahead: usize,
    /// What the join buffer holds at its front.
    pub joined: Vec<u8>,
}

impl Trace {
    /// A run after this one: the counts add up, and it writes over the front of what this one left.
    fn then(&mut self, later: Trace) {
        self.lines += later.lines;
        self.lookahead += later.lookahead;
        let left = self.joined.len().min(later.joined.len());
        self.joined.splice(..left, later.joined);
    }
}

/// An answer with its run's trace.
pub struct Traced<T> {
    pub answer: T,
    pub trace: Trace,
}

fn untraced<T>(answer: T) -> Traced<T> {
    Traced { answer, trace: Trace::default() }
}

/// The lookahead is at most the text's length, the sum over the runs of one call too.
fn bounded<T>(found: Traced<T>, bytes: &[u8]) -> Traced<T> {
    assert!(found.trace.lookahead <= bytes.len(), "the lookahead keeps its bound");
    found
}

/// A line of a run: its text as the run sees it, and the length that it counts with.
#[derive(Clone, Copy)]
struct RunLine<'a> {
    text: &'a str,
    counts: usize,
}

/// How a walk over a run ended: the set and line count, or 5 or 9.
struct Walked {
    end: Result<(Attrs, usize), Number>,
    trace: Trace,
    /// The lookahead as the original counts it, over the texts that it was handed.
    original_lookahead: usize,
}

/// A wrapped run by document 01, joined into a buffer of `cap` bytes. The scanners are the original's; what is the
/// layer's own is the order of the tests, what is joined and what is counted.
fn walk<'a>(base: usize, lines: impl Iterator<Item = RunLine<'a>>, cap: usize) -> Walked {
    let mut joined = String::new();
    let mut open_quote = false;
    let mut joined_lines = 0;
    let mut lookahead = 0;
    let mut original_lookahead = 0;
    let mut brace_column: u128 = 0;
    let mut end = Err(5);
    for (count, line) in lines.enumerate() {
        let trimmed = trim_ascii(line.text);
        if trimmed.is_empty() {
            break;
        }
        if count > 0 {
            let indented = indent_columns(line.text) as u128 > brace_column;
            if !indented || !door::valid_wrapped_attr_continuation(line.text) || open_quote {
                break;
            }
        }
        if let Some(column) = door::last_open_brace_column(line.text, None) {
            // The base counts for the first line alone, and as a true number.
            brace_column = column as u128 + if count == 0 { base as u128 } else { 0 };
        }
        // Whether it fits is tested after the line's own tests and before a byte of it is written.
        let space = usize::from(count > 0);
        if joined.len() + space + trimmed.len() > cap {
            end = Err(9);
            break;
        }
        if count > 0 {
            joined.push(' ');
        }
        joined.push_str(trimmed);
        joined_lines += 1;
        lookahead += line.counts;
        original_lookahead += line.text.len();
        open_quote = door::open_quote_at_end(trimmed).is_some();
        if line.text.contains('}') && !door::holds_open_attr_block(&joined) {
            end = good_line(&joined).map(|attrs| (attrs, count + 1)).ok_or(5);
            break;
        }
    }
    Walked { end, trace: Trace { lines: joined_lines, lookahead, joined: joined.into_bytes() }, original_lookahead }
}

/// How many of the lines have so many bytes together. Every line that is joined has a byte, so the original's count of
/// bytes says how many lines it joined.
fn lines_within<'a>(bytes: usize, lines: impl Iterator<Item = RunLine<'a>>) -> usize {
    let mut left = bytes;
    let mut count = 0;
    for line in lines {
        if left == 0 {
            break;
        }
        left = left.checked_sub(line.text.len()).expect("whole lines are counted");
        count += 1;
    }
    assert_eq!(left, 0, "the bytes of lines are counted");
    count
}

/// The run over these lines, held against the original's answer and its count of the lookahead.
fn run<'a>(base: usize, lines: impl Iterator<Item = RunLine<'a>> + Clone, cap: usize) -> Walked {
    // First with all the room it wants, as the original has it.
    let free = walk(base, lines.clone(), usize::MAX);
    let (original, counted) =
        door::counted(|| door::wrapped_attrs_run_at(base.min(FAR_COLUMN), lines.clone().map(|line| line.text)));
    assert_eq!(original.as_ref(), free.end.as_ref().ok(), "the run's set and line count are the original's");
    assert_eq!(counted, free.original_lookahead, "the run's lookahead is the original's");
    assert_eq!(lines_within(counted, lines.clone()), free.trace.lines, "the lines joined are those that the original counted");
    if free.trace.joined.len() <= cap {
        return free;
    }
    let tight = walk(base, lines, cap);
    assert!(matches!(tight.end, Err(9)), "a run that wants more room than there is meets its end");
    assert!(free.trace.joined.starts_with(&tight.trace.joined), "what was joined is what fitted");
    tight
}

fn run_lines<'a: 'b, 'b>(lines: &'b [&'a str]) -> impl Iterator<Item = RunLine<'a>> + Clone + 'b {
    lines.iter().map(|&text| RunLine { text, counts: text.len() })
}

/// The entries that read or measure a block.
#[derive(Clone, Copy, PartialEq)]
pub enum Entry {
    /// `parse_standalone_attrs_block`
    Block,
    /// `standalone_attrs_block_len`
    Standalone,
    /// `indented_wrapped_attrs_block_len`
    Indented,
    /// `attrs_block_len_at` with its column
    At(usize),
}

/// A block that starts at the line of that number: its set and how many lines it takes. Only [`Entry::Block`] knows
/// limits.
pub fn block(entry: Entry, bytes: &[u8], line: usize, cap: usize) -> Traced<Result<(Attrs, usize), Number>> {
    let lines = match lines_of(bytes) {
        Ok(lines) => lines,
        Err(number) => return untraced(Err(number)),
    };
    match from_line(&lines, line) {
        Some(lines) => bounded(block_of(entry, lines, cap), bytes),
        None => untraced(Err(3)),
    }
}

fn block_of(entry: Entry, lines: &[&str], cap: usize) -> Traced<Result<(Attrs, usize), Number>> {
    let found = find_block(entry, lines, cap);
    // The original's own entry must come to the same line count and set; it knows no full join buffer.
    if !matches!(found.answer, Err(9)) {
        let count = found.answer.as_ref().ok().map(|&(_, count)| count);
        let (original, counted) = door::counted(|| match entry {
            Entry::Block => {
                let (attrs, moved) = door::parse_standalone_attrs_block(lines);
                assert_eq!(attrs.as_ref(), found.answer.as_ref().ok().map(|(attrs, _)| attrs), "the block's set");
                attrs.map(|_| moved)
            }
            Entry::Standalone => door::standalone_attrs_block_len(lines),
            Entry::Indented => door::indented_wrapped_attrs_block_len(lines),
            Entry::At(column) => door::attrs_block_len_at(column.min(FAR_COLUMN), lines[0], &lines[1..]),
        });
        assert_eq!(original, count, "the block's line count is the original's");
        assert_eq!(counted, found.trace.lookahead, "the block's lookahead is the original's");
    }
    let answer = match (entry, found.answer) {
        (Entry::Block, Ok((attrs, count))) => within_limits(attrs).map(|attrs| (attrs, count)),
        (_, answer) => answer,
    };
    Traced { answer, trace: found.trace }
}

fn find_block(entry: Entry, lines: &[&str], cap: usize) -> Traced<Result<(Attrs, usize), Number>> {
    let first = lines[0];
    if !trim_ascii(first).starts_with('{') || entry == Entry::Standalone && first.starts_with([' ', '\t']) {
        return untraced(Err(3));
    }
    if let Some(attrs) = good_line(first) {
        return untraced(if entry == Entry::Indented { Err(5) } else { Ok((attrs, 1)) });
    }
    if trim_ascii_end(first).ends_with('}') {
        return untraced(Err(5));
    }
    let base = if let Entry::At(column) = entry { column } else { 0 };
    let walked = run(base, run_lines(lines), cap);
    Traced { answer: walked.end, trace: walked.trace }
}

pub fn wrapped_attrs_run_at(
    bytes: &[u8],
    base: usize,
    line: usize,
    cap: usize,
) -> Traced<Result<(Attrs, usize), Number>> {
    let lines = match lines_of(bytes) {
        Ok(lines) => lines,
        Err(number) => return untraced(Err(number)),
    };
    let Some(lines) = from_line(&lines, line) else {
        return untraced(Err(3));
    };
    if !trim_ascii(lines[0]).starts_with('{') {
        let original = door::wrapped_attrs_run_at(base.min(FAR_COLUMN), lines.iter().copied());
        assert!(original.is_none(), "no run starts without a brace");
        return untraced(Err(3));
    }
    let walked = run(base, run_lines(lines), cap);
    let answer = walked.end.and_then(|(attrs, count)| within_limits(attrs).map(|attrs| (attrs, count)));
    bounded(Traced { answer, trace: walked.trace }, bytes)
}

// ---- Refused brace runs ----

/// What `refused_brace_run` answers.
#[derive(Clone, Copy, Debug, PartialEq)]
pub enum Refused {
    Lines(usize),
    No(usize),
    NoToTheEnd,
}

/// A refused brace run as the layer walks it.
struct RefusedWalk {
    answer: Result<Refused, Number>,
    trace: Trace,
    /// The original would leave the range of its numbers here, so it isn't asked.
    out_of_range: bool,
    /// The lookahead as the original counts it, over padded copies.
    original_lookahead: usize,
}

/// The walk of source 000, up to the inner run, with pads as numbers.
fn walk_refused(lines: &[&str], cap: usize) -> RefusedWalk {
    let mut out =
        RefusedWalk { answer: Ok(Refused::No(0)), trace: Trace::default(), out_of_range: false, original_lookahead: 0 };
    let Some(first) = lines.first() else {
        return out;
    };
    if !trim_ascii_start(first).starts_with('{') {
        return out;
    }
    let opener_column = indent_columns(first);
    if trim_ascii_start(first).starts_with("{%") {
        out.answer = Ok(walk_comment(lines, opener_column));
        return out;
    }
    let mut pads = Vec::new();
    let mut shallow = false;
    let mut open = false;
    let mut brace_column = opener_column;
    for (n, line) in lines.iter().enumerate() {
        let rest = trim_ascii_start(line);
        if rest.is_empty() || n > 0 && rest.starts_with('{') {
            return out;
        }
        let column = indent_columns(line);
        if n == 0 {
            pads.push(0);
        } else {
            shallow |= column <= brace_column;
            let Some(beyond) = (brace_column + 1).checked_sub(opener_column) else {
                // Document 01's difference: No(0) where the original's subtraction falls below zero.
                out.out_of_range = true;
                return out;
            };
            pads.push(column.saturating_sub(opener_column).max(beyond).max(1));
        }
        let mut quote = None;
        let mut at = column;
        let mut chars = rest.chars();
        while let Some(ch) = chars.next() {
            match quote {
                Some(_) if ch == '\\' => {
                    // The covered character is one column wide, a tab too.
                    chars.next();
                    at += 1;
                }
                Some(q) if q == ch => quote = None,
                Some(_) => {}
                None if ch == '"' || ch == '\'' => quote = Some(ch),
                None if ch == '{' && !open => {
                    brace_column = at;
                    open = true;
                }
                None if ch == '}' && !open => return out,
                None if ch == '}' => open = false,
                None => {}
            }
            at = if ch == '\t' { at + 4 - at % 4 } else { at + 1 };
        }
        if !open {
            if shallow {
                inner_run(&mut out, &lines[..=n], &pads, cap);
            }
            return out;
        }
    }
    out
}

/// The inner run over the padded copies, counted over the source lines.
fn inner_run(out: &mut RefusedWalk, lines: &[&str], pads: &[usize], cap: usize) {
    let padded: Vec<String> =
        lines.iter().zip(pads).map(|(line, &pad)| format!("{}{}", " ".repeat(pad), trim_ascii(line))).collect();
    let walked = run(0, padded.iter().zip(lines).map(|(text, line)| RunLine { text, counts: line.len() }), cap);
    out.trace = walked.trace;
    out.original_lookahead = walked.original_lookahead;
    out.answer = match walked.end {
        Ok((_, count)) if count == lines.len() => Ok(Refused::Lines(count)),
        Err(9) => Err(9),
        _ => Ok(Refused::No(0)),
    };
}

/// A comment run: up to the first line with `%}`, or to the end where a blank line or the text's end comes first.
fn walk_comment(lines: &[&str], opener_column: usize) -> Refused {
    let mut shallow = false;
    for (n, line) in lines.iter().enumerate() {
        if is_blank_line(line) {
            break;
        }
        shallow |= n > 0 && indent_columns(line) <= opener_column;
        if line.contains("%}") {
            return if shallow { Refused::Lines(n + 1) } else { Refused::No(n + 1) };
        }
    }
    Refused::NoToTheEnd
}

/// The layer's walk, held against the original.
fn refused_of(lines: &[&str], cap: usize) -> RefusedWalk {
    let walked = walk_refused(lines, cap);
    if !walked.out_of_range && walked.answer != Err(9) {
        let (original, counted) = door::counted(|| match door::refused_brace_run(lines) {
            RefusedBraceRun::Lines(count) => Refused::Lines(count),
            RefusedBraceRun::No(usize::MAX) => Refused::NoToTheEnd,
            RefusedBraceRun::No(count) => Refused::No(count),
        });
        assert_eq!(Ok(original), walked.answer, "the refused run's answer is the original's");
        assert_eq!(counted, walked.original_lookahead, "the original counts padded copies");
    }
    walked
}

pub fn refused_brace_run(bytes: &[u8], line: usize, cap: usize) -> Traced<Result<Refused, Number>> {
    let lines = match lines_of(bytes) {
        Ok(lines) => lines,
        Err(number) => return untraced(Err(number)),
    };
    let Some(lines) = from_line(&lines, line) else {
        return untraced(Ok(Refused::No(0)));
    };
    let walked = refused_of(lines, cap);
    bounded(Traced { answer: walked.answer, trace: walked.trace }, bytes)
}

pub fn ends_in_refused_brace_run(bytes: &[u8], cap: usize) -> Traced<Result<bool, Number>> {
    let lines = match lines_of(bytes) {
        Ok(lines) => lines,
        Err(number) => return untraced(Err(number)),
    };
    let mut ask_original = true;
    let mut out = untraced(Ok(false));
    // From the last line upwards, at most two lines that start with a brace are tried.
    let last = lines.last().copied().unwrap_or("");
    let mut candidates = 0;
    for start in (0..lines.len()).rev() {
        if !last.contains('}') || is_blank_line(lines[start]) {
            break;
        }
        if !trim_ascii_start(lines[start]).starts_with('{') {
            continue;
        }
        let walked = refused_of(&lines[start..], cap);
        ask_original &= !walked.out_of_range;
        out.trace.then(walked.trace);
        match walked.answer {
            Err(number) => {
                out.answer = Err(number);
                break;
            }
            Ok(Refused::Lines(count)) if start + count == lines.len() => {
                out.answer = Ok(true);
                break;
            }
            Ok(_) => {}
        }
        candidates += 1;
        if candidates == 2 || !last.contains("%}") {
            break;
        }
    }
    if let (Ok(answer), true) = (out.answer, ask_original) {
        let owned: Vec<String> = lines.iter().map(|line| line.to_string()).collect();
        assert_eq!(door::ends_in_refused_brace_run(&owned), answer, "the end's answer is the original's");
    }
    bounded(out, bytes)
}

// ---- Merging ----

/// Where a merge request ended: one of its sets isn't read, or the merge is refused.
#[derive(Debug, PartialEq)]
pub enum MergeRefusal {
    First(Number),
    Second(Number),
    Merge(Number),
}

/// The sets of the two lines of A LF B, merged. With `leading`, A is the set that is there and B goes before it.
pub fn merge(a: &[u8], b: &[u8], leading: bool) -> Result<Attrs, MergeRefusal> {
    let text = [a, b"\n", b].concat();
    let first = parse_standalone_attrs(&text, 1).map_err(MergeRefusal::First)?;
    let second = parse_standalone_attrs(&text, 2).map_err(MergeRefusal::Second)?;
    let way = if leading { door::merge_leading_attrs } else { door::merge_attrs };
    within_limits(merged(way, first, second)).map_err(MergeRefusal::Merge)
}

/// The original's merge of two sets, which lists every class of both. What it means hangs on what the two mean.
fn merged(way: fn(&mut Option<Attrs>, Attrs), first: Attrs, second: Attrs) -> Attrs {
    let merge = |first: Attrs, second: Attrs| {
        let mut target = Some(first);
        way(&mut target, second);
        target.expect("a merge leaves a set")
    };
    let meant = each_class_once(&merge(each_class_once(&first), each_class_once(&second)));
    let listed = merge(first, second);
    assert_eq!(each_class_once(&listed), meant, "the merge of what two sets mean is what their merge means");
    listed
}

/// A set that was read, and the blocks back to back that it was read from: a line or a run's joined text, trimmed.
type Read = (Attrs, String);

/// The sets of two texts, merged by the original, the second later. They are over texts of their own, and together may
/// be longer than any text.
fn merge_two((first, blocks): Read, (second, later_blocks): Read) -> Result<Attrs, Number> {
    let listed = merged(door::merge_attrs, first, second);
    // Document 01 merges blocks that stand back to back from left to right, so one line of all of them has that set.
    assert_eq!(Some(&listed), good_line(&(blocks + &later_blocks)).as_ref(), "the merge is what the blocks list back to back");
    within_limits(listed)
}

/// The sets that two texts are read to, merged; the first is asked first.
fn merge_read(a: &[u8], b: &[u8], read: impl Fn(&[u8]) -> Result<Read, Number>) -> Result<Attrs, MergeRefusal> {
    let first = read(a).map_err(MergeRefusal::First)?;
    let second = read(b).map_err(MergeRefusal::Second)?;
    merge_two(first, second).map_err(MergeRefusal::Merge)
}

/// The sets of line 1 of each of two texts, merged.
pub fn merge2(a: &[u8], b: &[u8]) -> Result<Attrs, MergeRefusal> {
    let answer = merge_read(a, b, |text| Ok((parse_standalone_attrs(text, 1)?, line_one(text))));
    // A LF B is then a text whose two lines these are.
    let texts = [a, b].iter().all(|text| one_line(text) && whole_text(text).is_ok());
    if texts && a.len() + b.len() < TEXT_LIMIT {
        assert_eq!(answer, merge(a, b, false), "two texts of one line merge as two lines of one text");
    }
    answer
}

/// The sets of the blocks at line 1 of each of two texts, merged; each has a join buffer of `cap` bytes.
pub fn merge2_block(a: &[u8], b: &[u8], cap: usize) -> Result<Attrs, MergeRefusal> {
    use MergeRefusal::{First, Second};
    let answer = merge_read(a, b, |text| {
        let found = block(Entry::Block, text, 1, cap);
        let (attrs, _) = found.answer?;
        let joined = String::from_utf8(found.trace.joined).expect("lines of UTF-8 are joined to UTF-8");
        Ok((attrs, if joined.is_empty() { line_one(text) } else { joined }))
    });
    // A block is the line's own set, or a run where the line isn't good; a run takes a second line.
    match merge2(a, b) {
        Err(First(5)) if !one_line(a) || answer == Err(First(9)) => {}
        Err(Second(5)) if !one_line(b) || answer == Err(Second(9)) => {}
        lines => assert_eq!(answer, lines, "blocks of one line merge as lines"),
    }
    answer
}

/// No LF, so there is no second line.
fn one_line(text: &[u8]) -> bool {
    !text.contains(&b'\n')
}

/// Line 1 of a text that has been read, trimmed.
fn line_one(bytes: &[u8]) -> String {
    trim_ascii(lines_of(bytes).expect("a text that was read")[0]).to_string()
}

// ---- Loose lists ----

/// Whether the original took the key `loose` off a set, and what is left, which may be nothing.
pub struct Consumed {
    pub acted: bool,
    pub left: Attrs,
}

fn consume_loose(attrs: Attrs) -> Consumed {
    let mut left = attrs.clone();
    let acted = door::consume_loose(&mut left);
    assert_eq!(acted, attrs.key_values.get("loose").is_some_and(String::is_empty), "an empty value is taken, and no other");
    let mut others = attrs.clone();
    if acted {
        others.key_values.retain(|key, _| key != "loose");
        others.order.retain(|slot| *slot != AttrSlot::Key("loose".to_string()));
        assert_eq!(others.order.len() + 1, attrs.order.len(), "one slot goes");
    }
    assert_eq!(left, others, "all others stay, in their order");
    assert_eq!(door::attrs_are_empty(&left), slot_count(&left) == 0, "a set is empty where it has no slot");
    assert!(!door::consume_loose(&mut others), "what is taken once is not there again");
    Consumed { acted, left }
}

/// The set of the block at that line after `consume_loose`, or why it isn't read.
pub fn loose(bytes: &[u8], line: usize, cap: usize) -> Result<Consumed, Number> {
    let (attrs, _) = block(Entry::Block, bytes, line, cap).answer?;
    Ok(consume_loose(attrs))
}

/// The merge of the blocks at line 1 of two texts after it.
pub fn loose2(a: &[u8], b: &[u8], cap: usize) -> Result<Consumed, MergeRefusal> {
    merge2_block(a, b, cap).map(consume_loose)
}

/// What the writer makes of a set that may be empty: 12 where it is.
pub fn canonical_or_12(attrs: &Attrs) -> Result<Vec<u8>, Number> {
    if door::attrs_are_empty(attrs) {
        return Err(12);
    }
    canonical(attrs)
}

// ---- Canonical text ----

/// What a set means, after document 02: a class equal byte for byte to an earlier one doesn't count, and the first place
/// stays. Nothing else is made one.
fn each_class_once(listed: &Attrs) -> Attrs {
    let classes = &listed.classes;
    let counts = |&n: &usize| !classes[..n].contains(&classes[n]);
    Attrs { classes: (0..classes.len()).filter(counts).map(|n| classes[n].clone()).collect(), ..listed.clone() }
}

/// What the writer makes of a set over a text that it can use: the canonical text of what the set means, or 10.
pub fn canonical(listed: &Attrs) -> Result<Vec<u8>, Number> {
    let attrs = each_class_once(listed);
    let mut items: Vec<(&str, &str)> = Vec::new();
    for slot in &attrs.order {
        match slot {
            AttrSlot::Id => items.push(("id", attrs.id.as_deref().expect("an id has its slot"))),
            AttrSlot::Class => items.extend(attrs.classes.iter().map(|class| ("class", class.as_str()))),
            AttrSlot::Key(key) => items.push((key, &attrs.key_values[key])),
        }
    }
    assert!(!items.is_empty(), "no set that was read is empty");
    let mut out = Vec::new();
    for (n, (name, value)) in items.iter().enumerate() {
        out.push(if n == 0 { b'{' } else { b' ' });
        out.extend_from_slice(name.as_bytes());
        out.extend_from_slice(b"=\"");
        for &byte in value.as_bytes() {
            if byte == b'"' || byte == b'\\' {
                out.push(b'\\');
            }
            out.push(byte);
        }
        out.push(b'"');
    }
    out.push(b'}');
    // Reading back is the original's strict reading at byte 0.
    let back = door::read_attrs_at(&out, 0, Some(out.len() - 1));
    let written = out.len();
    assert_eq!(back, Some((attrs, written)), "canonical text reads back to the set with each class once");
    if written > TEXT_LIMIT {
        return Err(10);
    }
    Ok(out)
}

/// The writer on a set read at a brace, whose text may not be UTF-8 elsewhere.
pub fn canonical_over(attrs: &Attrs, bytes: &[u8]) -> Result<Vec<u8>, Number> {
    whole_text(bytes)?;
    canonical(attrs)
}

// ---- Whole sheets ----

/// A block of a sheet: its first line, how many lines it takes, and its set, or 6 or 7.
pub struct Found {
    pub first: usize,
    pub count: usize,
    pub read: Result<Attrs, Number>,
}

/// The blocks of a sheet as the sheet program finds them: from line 1 on, past each block or, with none, on one line; or
/// 1 or 2.
pub fn blocks(bytes: &[u8]) -> Result<Vec<Found>, Number> {
    Ok(goes(bytes)?.answer)
}

/// The same with what all measuring runs leave, those that find no block too. Reading a block that has been measured
/// makes the same run again, which isn't counted.
pub fn goes(bytes: &[u8]) -> Result<Traced<Vec<Found>>, Number> {
    let lines = lines_of(bytes)?;
    let mut out = untraced(Vec::new());
    let mut at = 0;
    while at < lines.len() {
        let measured = block_of(Entry::Standalone, &lines[at..], TEXT_LIMIT);
        out.trace.then(measured.trace.clone());
        let Ok((_, count)) = measured.answer else {
            at += 1;
            continue;
        };
        let again = block_of(Entry::Block, &lines[at..], TEXT_LIMIT);
        assert_eq!(again.trace, measured.trace, "reading and measuring make the same run");
        let read = again.answer.map(|(attrs, read_count)| {
            assert_eq!(read_count, count, "reading and measuring agree");
            attrs
        });
        assert!(matches!(read, Ok(_) | Err(6 | 7)), "a block that is measured is read, but for its limits");
        out.answer.push(Found { first: at + 1, count, read });
        at += count;
    }
    assert!(out.trace.lines <= lines.len(), "no line is joined in two runs");
    Ok(bounded(out, bytes))
}

/// What the sheet program writes.
pub fn sheet(bytes: &[u8]) -> Vec<u8> {
    let mut out = Vec::new();
    let blocks = match blocks(bytes) {
        Ok(blocks) => blocks,
        Err(number) => return format!("refused\t0\t0\t{number}\n").into_bytes(),
    };
    for Found { first, count, read } in blocks {
        match read.and_then(|attrs| canonical(&attrs)) {
            Ok(text) => {
                out.extend_from_slice(format!("block\t{first}\t{count}\t").as_bytes());
                out.extend_from_slice(&text);
                out.push(b'\n');
            }
            Err(number) => out.extend_from_slice(format!("refused\t{first}\t{count}\t{number}\n").as_bytes()),
        }
    }
    out
}
