// Source document 000, src/parse/attrs.rs of markup-carve/carve-rs (MIT licence): the functions that documents 01 and
// 02 take over, to the letter and in the original's order. oracle/check-source compares them; nothing is edited here.
// Copyright (c) 2026 Mark Scherer and contributors.

use super::*;

pub(in crate::parse) fn parse_standalone_attrs(line: &str) -> Option<Attrs> {
    let trimmed = trim_ascii(line);
    if !trimmed.starts_with('{') {
        return None;
    }
    let bytes = trimmed.as_bytes();
    let last_close_brace = bytes.iter().rposition(|&b| b == b'}');
    let mut pos = 0usize;
    let mut attrs: Option<Attrs> = None;
    let mut slots = None;
    while pos < bytes.len() {
        // The block-attribute LINE, so `whitespace` at all three of its slots.
        let (incoming, next) = read_attrs_at_with(bytes, pos, last_close_brace, false)?;
        merge_attrs_indexed(&mut attrs, incoming, &mut slots);
        pos = next;
        if pos < bytes.len() && bytes[pos] != b'{' {
            return None;
        }
    }
    attrs
}

#[cfg(test)]
thread_local! {
    pub(in crate::parse) static ATTRS_LOOKAHEAD_BYTES: Cell<usize> = const { Cell::new(0) };
}

pub(in crate::parse) fn valid_wrapped_attr_continuation(line: &str) -> bool {
    let line = trim_ascii(line);
    if line.ends_with('}') {
        return true;
    }
    // The tail of a line that closes one block and opens the next, `}{.b`.
    let payload = line.rfind("}{").map_or(line, |at| &line[at + 2..]);
    parse_attrs_with(payload, false).is_some()
}

/// A standalone block-attribute block, possibly spanning several contiguous
/// (non-blank) lines: it opens with `{` and closes with `}` on a later line
/// (`{#id` / ` .foo}`). Consumes the lines and returns the parsed attributes,
/// or leaves the cursor untouched if it is not a valid attribute block.
pub(in crate::parse) fn parse_standalone_attrs_block(cur: &mut LineCursor) -> Option<Attrs> {
    // The OPENER is read RAW: a framed first line is a lazily-folded indented
    // `{...}`, which is paragraph text under the strict column-0 rule and must
    // NOT be pulled flush-left into a block. Only the CONTINUATION lines below
    // are unframed, so a wrapped block whose CLOSER folded down from a shallower
    // quote depth still joins (carve-rs#1538); the opener there arrives unframed
    // through the quote's own marker.
    let first = cur.peek()?;
    if !trim_ascii_start(first).starts_with('{') {
        return None;
    }
    if let Some(attrs) = parse_standalone_attrs(first) {
        cur.consume();
        return Some(attrs);
    }
    // See `standalone_attrs_block_len` for the cursor-free twin of everything
    // below; the two must keep answering the same way.
    // A COMPLETE single line (already closes with `}`) that parse_standalone_attrs
    // rejected is not a valid attribute block -- do NOT rescue it via the
    // multi-line strip-outer path below, which would parse an interior `}{` as an
    // unquoted value (`{k=v}{+i+}` -> k="v}{+i+", swallowing the whole line). The
    // multi-line join is only for a block that genuinely continues onto later
    // lines (`{#id` then `.foo}`), i.e. whose first line does not itself close.
    // Matches carve-js, which keeps such a line literal.
    if trim_ascii_end(first).ends_with('}') {
        return None;
    }
    let start = cur.pos;
    let lines =
        std::iter::successors(Some(start), |at| Some(at + 1)).map_while(|at| cur.lines.line(at));
    let (attrs, count) = wrapped_attrs_run(lines)?;
    for _ in 0..count {
        cur.consume();
    }
    Some(attrs)
}

/// How many LINES a standalone attribute block occupies when one starts at
/// `lines[0]`, or `None` when these lines do not spell one.
///
/// The cursor-free twin of `parse_standalone_attrs_block`, for the predicates
/// that must ask "does an attribute block sit here" without a cursor to consume
/// from. Both follow the same rules: a single complete line, or a run joined
/// until one closes with `}`, refused at a blank line and refused when a quoted
/// value is left open across a break (PART 4, markup-carve/carve#888).
///
/// FLUSH-LEFT ONLY, like every caller's own guard: an indented `{...}` is lazy
/// paragraph text under the strict column-0 rule (PART 9 section 24 C3).
pub(in crate::parse) fn standalone_attrs_block_len(lines: &[&str]) -> Option<usize> {
    standalone_attrs_block_len_iter(lines.iter().copied())
}

pub(in crate::parse) fn standalone_attrs_block_len_iter<'a>(
    mut lines: impl Iterator<Item = &'a str>,
) -> Option<usize> {
    // OPENER read RAW (see `parse_standalone_attrs_block`): a framed first line
    // is lazily-folded indented text, not a block opener. Only the CONTINUATION
    // lines in the join loop below are unframed.
    let first = lines.next()?;
    if first.starts_with([' ', '\t']) {
        return None;
    }
    attrs_block_len_from(first, lines)
}

/// A WRAPPED block whose opener is indented: PART 9 §15 A5 (CARVE-P0-024)
/// makes it an attribute line whatever the opener's indentation.
pub(in crate::parse) fn indented_wrapped_attrs_block_len<'a>(
    mut lines: impl Iterator<Item = &'a str>,
) -> Option<usize> {
    let first = lines.next()?;
    // A lazy line is the paragraph's, not a continuation of this block.
    let unframed = lines.take_while(|line| strip_lazy(line).len() == line.len());
    attrs_block_len_from(first, unframed).filter(|&len| len > 1)
}

/// [`attrs_block_len_from`] for an opener cut from its line: `first` stands at
/// `column`, in the coordinates the continuation `lines` are written in.
pub(in crate::parse) fn attrs_block_len_at<'a>(
    column: usize,
    first: &'a str,
    lines: impl Iterator<Item = &'a str>,
) -> Option<usize> {
    if !trim_ascii(first).starts_with('{') {
        return None;
    }
    if parse_standalone_attrs(first).is_some() {
        return Some(1);
    }
    if trim_ascii_end(first).ends_with('}') {
        return None;
    }
    wrapped_attrs_run_at(column, std::iter::once(first).chain(lines)).map(|(_, count)| count)
}

pub(in crate::parse) fn attrs_block_len_from<'a>(
    first: &'a str,
    lines: impl Iterator<Item = &'a str>,
) -> Option<usize> {
    // AN ATTRIBUTE BLOCK OPENS WITH A BRACE, and refusing everything else here
    // is what keeps this cheap. `interrupts_paragraph` asks this question of
    // EVERY continuation line, and without the guard a paragraph whose lines
    // never end in `}` sends the join loop below over the whole remainder once
    // per line - quadratic time and allocation on ordinary prose that has no
    // attributes in it at all.
    if !trim_ascii(first).starts_with('{') {
        return None;
    }
    if parse_standalone_attrs(first).is_some() {
        return Some(1);
    }
    // Same refusal as the cursor form: a line that already closes and was
    // rejected is not rescued by the multi-line join.
    if trim_ascii_end(first).ends_with('}') {
        return None;
    }
    wrapped_attrs_run(std::iter::once(first).chain(lines)).map(|(_, count)| count)
}

/// A wrapped attribute run: contiguous lines joined until every block has
/// closed. Each block of a glued run may wrap (carve#4078), and continues only
/// on lines indented past its own `{` (carve#5080). A lazy line sits at column 0.
fn wrapped_attrs_run<'a>(lines: impl Iterator<Item = &'a str>) -> Option<(Attrs, usize)> {
    wrapped_attrs_run_at(0, lines)
}

/// [`wrapped_attrs_run`] with the first line's text starting at `base`.
fn wrapped_attrs_run_at<'a>(
    base: usize,
    lines: impl Iterator<Item = &'a str>,
) -> Option<(Attrs, usize)> {
    let mut joined = String::new();
    let mut quote: Option<char> = None;
    let mut brace_column = 0;
    for (count, raw) in lines.enumerate() {
        let line = strip_lazy(raw);
        if is_blank_line(line) {
            return None;
        }
        if count > 0 && (line.len() != raw.len() || indent_columns(line) <= brace_column) {
            return None;
        }
        if count > 0 && !valid_wrapped_attr_continuation(line) {
            return None;
        }
        if let Some(column) = last_open_brace_column(line, quote) {
            brace_column = column + if count == 0 { base } else { 0 };
        }
        if !joined.is_empty() {
            if quote.is_some() {
                return None;
            }
            joined.push(' ');
        }
        #[cfg(test)]
        ATTRS_LOOKAHEAD_BYTES.with(|work| work.set(work.get() + line.len()));
        joined.push_str(trim_ascii(line));
        quote = open_quote_at_end(trim_ascii(line));
        if line.contains('}') && !holds_open_attr_block(&joined) {
            return parse_standalone_attrs(&joined).map(|attrs| (attrs, count + 1));
        }
    }
    None
}

/// What a block-position brace run says when its only fault is a continuation
/// at or below its `{` column (carve#5080): the run is literal paragraph text.
pub(crate) enum RefusedBraceRun {
    /// The run is refused and takes this many lines.
    Lines(usize),
    /// Not refused. A comment run scanned this many lines, and none of them
    /// opens a refused comment run either.
    No(usize),
}

/// `lazy_refuses` is false in a quote, whose lazy line keeps an attribute run inline.
pub(crate) fn refused_brace_run<'a>(
    lines: impl Iterator<Item = &'a str>,
    lazy_refuses: bool,
) -> RefusedBraceRun {
    refused_brace_run_with_columns(lines, lazy_refuses, |_, _| None)
}

/// Collection may rebase ordinary and framed lazy lines. Callers with an
/// authored-column map supply each line's original brace-continuation column.
pub(crate) fn refused_brace_run_with_columns<'a>(
    mut lines: impl Iterator<Item = &'a str>,
    lazy_refuses: bool,
    mut source_column: impl FnMut(usize, &str) -> Option<usize>,
) -> RefusedBraceRun {
    let Some(first) = lines.next() else {
        return RefusedBraceRun::No(0);
    };
    let column_of =
        |at: usize, raw: &str, source_column: &mut dyn FnMut(usize, &str) -> Option<usize>| {
            let line = strip_lazy(raw);
            if line.len() == raw.len() {
                source_column(at, raw).unwrap_or_else(|| indent_columns(line))
            } else {
                lazy_source_column(raw)
                    .or_else(|| source_column(at, raw))
                    .unwrap_or_else(|| indent_columns(line))
            }
        };
    let opener = trim_ascii_start(strip_lazy(first));
    if !opener.starts_with('{') {
        return RefusedBraceRun::No(0);
    }
    let opener_column = column_of(0, first, &mut source_column);
    let comment = opener.starts_with("{%");
    let mut repaired: Vec<String> = Vec::new();
    let mut shallow = false;
    let mut depth = 0usize;
    let mut brace_column = opener_column;
    for (n, raw) in std::iter::once(first).chain(lines).enumerate() {
        if is_blank_line(raw) {
            break;
        }
        let line = strip_lazy(raw);
        // A lazy line has no column, so it never continues a comment run (carve#5189).
        if !lazy_refuses && !comment && line.len() != raw.len() {
            return RefusedBraceRun::No(0);
        }
        let column = column_of(n, raw, &mut source_column);
        let rest = trim_ascii_start(line);
        if n > 0 && !comment && rest.starts_with('{') {
            return RefusedBraceRun::No(0);
        }
        if n > 0 && column <= brace_column {
            shallow = true;
        }
        if comment {
            if line.contains("%}") {
                return if shallow {
                    RefusedBraceRun::Lines(n + 1)
                } else {
                    RefusedBraceRun::No(n + 1)
                };
            }
            continue;
        }
        let pad = if n == 0 {
            0
        } else {
            (column.saturating_sub(opener_column))
                .max(brace_column + 1 - opener_column)
                .max(1)
        };
        repaired.push(format!("{}{}", " ".repeat(pad), trim_ascii_end(rest)));
        let mut quote = None;
        let mut source_column = column;
        let mut chars = rest.chars();
        while let Some(ch) = chars.next() {
            match (quote, ch) {
                (Some(_), '\\') => {
                    chars.next();
                    source_column += 1;
                }
                (Some(q), _) if q == ch => quote = None,
                (Some(_), _) => {}
                (None, '"' | '\'') => quote = Some(ch),
                (None, '{') if depth == 0 => {
                    brace_column = source_column;
                    depth = 1;
                }
                (None, '}') if depth == 0 => return RefusedBraceRun::No(0),
                (None, '}') => depth -= 1,
                _ => {}
            }
            source_column = if ch == '\t' {
                source_column + 4 - source_column % 4
            } else {
                source_column + 1
            };
        }
        if depth == 0 {
            let valid = shallow
                && wrapped_attrs_run(repaired.iter().map(String::as_str))
                    .is_some_and(|(_, count)| count == n + 1);
            return if valid {
                RefusedBraceRun::Lines(n + 1)
            } else {
                RefusedBraceRun::No(0)
            };
        }
    }
    RefusedBraceRun::No(if comment { usize::MAX } else { 0 })
}

/// Whether the collected lines end in a refused brace run, whose paragraph
/// takes the next line whatever it opens (carve#5080).
pub(in crate::parse) fn ends_in_refused_brace_run(lines: &[String]) -> bool {
    let Some(last) = lines.last().filter(|line| line.contains('}')) else {
        return false;
    };
    let mut start = lines.len() - 1;
    let mut candidates = 0;
    loop {
        if is_blank_line(&lines[start]) {
            return false;
        }
        if trim_ascii_start(&lines[start]).starts_with('{') {
            if matches!(
                refused_brace_run(lines[start..].iter().map(String::as_str), true),
                RefusedBraceRun::Lines(count) if start + count == lines.len()
            ) {
                return true;
            }
            candidates += 1;
            if candidates == 2 || !last.contains("%}") {
                return false;
            }
        }
        if start == 0 {
            return false;
        }
        start -= 1;
    }
}

/// The source column of the last `{` this line opens outside a quoted value,
/// with tabs at four-column stops. `quote` is the value left open above it.
fn last_open_brace_column(line: &str, mut quote: Option<char>) -> Option<usize> {
    let mut column = 0;
    let mut found = None;
    let mut chars = line.chars();
    while let Some(ch) = chars.next() {
        match (quote, ch) {
            (Some(_), '\\') => {
                if chars.next().is_some() {
                    column += 1;
                }
            }
            (Some(q), _) if q == ch => quote = None,
            (Some(_), _) => {}
            (None, '"' | '\'') => quote = Some(ch),
            (None, '{') => found = Some(column),
            _ => {}
        }
        column = if ch == '\t' {
            column + 4 - column % 4
        } else {
            column + 1
        };
    }
    found
}

/// Whether the run's last block is still open. A `{` inside an open block or a
/// `}` outside one is not a run at all, so neither reads as open.
fn holds_open_attr_block(run: &str) -> bool {
    let mut open = false;
    let mut quote = None;
    let mut chars = run.chars();
    while let Some(ch) = chars.next() {
        match (quote, ch) {
            (Some(_), '\\') => {
                chars.next();
            }
            (Some(q), _) if q == ch => quote = None,
            (Some(_), _) => {}
            (None, '"' | '\'') => quote = Some(ch),
            (None, '{') if open => return false,
            (None, '{') => open = true,
            (None, '}') if !open => return false,
            (None, '}') => open = false,
            _ => {}
        }
    }
    open
}

/// The quote a run leaves OPEN at its end.
///
/// A backslash escapes the next character, so `\"` neither opens a value nor
/// closes one. Used to decide whether a line break falls inside a
/// `quoted_value`, which PART 4 forbids in both of its alternatives
/// (carve#888).
///
/// The scan starts from NO open quote every time, and deliberately takes no
/// incoming state: a line that ends inside a value refuses the block at the
/// very next break, so no later line is ever scanned from inside one. A
/// carried-in state would be a parameter that cannot take a second value -
/// dead by construction and untestable, which is the shape this repository has
/// had to remove repeatedly.
pub(in crate::parse) fn open_quote_at_end(s: &str) -> Option<char> {
    let mut quote = None;
    let mut escaped = false;
    for ch in s.chars() {
        if escaped {
            escaped = false;
            continue;
        }
        match quote {
            Some(q) => {
                if ch == '\\' {
                    escaped = true;
                } else if ch == q {
                    quote = None;
                }
            }
            None => match ch {
                '\\' => escaped = true,
                '"' | '\'' => quote = Some(ch),
                _ => {}
            },
        }
    }
    quote
}

pub(in crate::parse) fn merge_attrs(target: &mut Option<Attrs>, incoming: Attrs) {
    if target.is_none() {
        *target = Some(incoming);
        return;
    }
    merge_attrs_indexed(target, incoming, &mut None);
}

pub(in crate::parse) fn merge_attrs_indexed(
    target: &mut Option<Attrs>,
    incoming: Attrs,
    slots: &mut Option<HashSet<AttrSlot>>,
) {
    if target.is_none() {
        *slots = None;
        *target = Some(incoming);
        return;
    }
    let target = target.as_mut().unwrap();
    let slots = slots.get_or_insert_with(|| target.order.iter().cloned().collect());
    if incoming.id.is_some() {
        target.id = incoming.id;
    }
    target.classes.extend(incoming.classes);
    target.key_values.extend(incoming.key_values);
    for slot in incoming.order {
        if slots.insert(slot.clone()) {
            target.order.push(slot);
        }
    }
}

/// Merge a leading block-attribute line onto a node that may already carry
/// its own opener attributes. Leading attrs are earlier in source, so their
/// classes precede the opener's and the opener wins on id/key conflict (§15).
pub(crate) fn merge_leading_attrs(target: &mut Option<Attrs>, leading: Attrs) {
    match target.take() {
        None => *target = Some(leading),
        Some(own) => {
            *target = Some(leading);
            merge_attrs(target, own);
        }
    }
}

/// PART 9 §17 L7: the consumed `loose` boolean, taken off the attribute line.
///
/// Returns whether the key was SPELLED, and removes it, so it never reaches the
/// output as an HTML attribute. The precedent is PART 12 §15's `header-rows`:
/// a structural fact riding the block-attribute line, consumed rather than
/// emitted.
///
/// A BOOLEAN AND AN EMPTY VALUE ARE ONE KEY. PART 4 makes `{loose}` and
/// `{loose=""}` the same attribute, and both arrive here with an empty value,
/// so both are consumed. `loose=x` names a value this key does not take, so it
/// is NOT this key: it is left alone and renders `loose="x"` like any other
/// attribute. There is no error state and no spelling that half-applies.
pub(in crate::parse) fn consume_loose(attrs: &mut Attrs) -> bool {
    if attrs.key_values.get("loose").map(String::as_str) != Some("") {
        return false;
    }
    attrs.key_values.remove("loose");
    attrs
        .order
        .retain(|slot| !matches!(slot, AttrSlot::Key(key) if key == "loose"));
    true
}

pub(in crate::parse) fn attrs_are_empty(attrs: &Attrs) -> bool {
    attrs.id.is_none()
        && attrs.classes.is_empty()
        && attrs.key_values.is_empty()
        && attrs.order.is_empty()
}

pub(in crate::parse) fn table_columns_from_attrs(attrs: &Attrs) -> Vec<TableColumn> {
    let split = |key: &str| {
        attrs
            .key_values
            .get(key)
            .map(|v| v.split(',').collect::<Vec<_>>())
            .unwrap_or_default()
    };
    let aligns = split("aligns");
    let valigns = split("valigns");
    let widths = split("widths");
    let len = aligns.len().max(valigns.len()).max(widths.len());
    (0..len)
        .map(|i| TableColumn {
            align: aligns.get(i).and_then(|v| match *v {
                "left" => Some(TableAlign::Left),
                "right" => Some(TableAlign::Right),
                "center" => Some(TableAlign::Center),
                _ => None,
            }),
            valign: valigns.get(i).and_then(|v| match *v {
                "top" => Some(TableVerticalAlign::Top),
                "middle" => Some(TableVerticalAlign::Middle),
                "bottom" => Some(TableVerticalAlign::Bottom),
                _ => None,
            }),
            width: widths.get(i).and_then(|v| crate::table_width::fraction(v)),
        })
        .collect()
}

/// First byte of an attribute identifier (id/class/key): a letter or `_`
/// (matches `is_identifier`'s first-char rule). Non-ASCII bytes are never a
/// start here (`is_identifier` uses `is_ascii_alphabetic`).
#[inline]
fn is_attr_ident_start(b: u8) -> bool {
    b.is_ascii_alphabetic() || b == b'_'
}

#[inline]
fn is_css_ident_start(b: u8) -> bool {
    is_attr_ident_start(b) || b.is_ascii_digit()
}

/// Continuation byte of an attribute identifier: a letter, digit, `_`, or `-`
/// (matches `is_identifier`'s tail rule). Non-ASCII → false, ending the run.
#[inline]
pub(in crate::parse) fn is_attr_ident_part(b: u8) -> bool {
    b.is_ascii_alphanumeric() || b == b'_' || b == b'-'
}

/// Whether the attribute payload following the `{` at `brace` provably cannot
/// parse -- i.e. `read_attrs_at`'s scan+`parse_attrs` would return `None`.
///
/// It walks the SAME token grammar `attr_tokens`/`parse_attrs` accept and bails
/// at the first byte that cannot continue a valid token, so a doomed payload is
/// rejected in O(1) per opener instead of the char walk running to a far `}`
/// (O(n²) on `[x]{`×n + `}`, `[x]{a `×n + `}`, `[x]{.a `×n + `}`, `[x]{k= `×n +
/// `}`, …). It is a pure SKIP filter: it returns `true` ONLY when the payload is
/// provably invalid; on a `}` (a candidate close), a newline, a quote, an
/// escape, a `key=<value>` with a real value, or any non-ASCII byte, it returns
/// `false` and the full scan/`parse_attrs` path decides. Every accepted block and
/// its output, is byte-identical. A nested `{`/`[` (or any other invalid
/// boundary byte) ends the walk, so each byte is visited O(1) times -> O(n)
/// total. Deferring on non-ASCII keeps it correct without decoding chars (only
/// the ASCII pathological shapes need the O(1) bail; a non-ASCII payload is rare
/// and still handled correctly by the full scan). Mirrors carve-js
/// `spanAttrProvablyInvalid`, matched to carve-rs's first-`}` (non-balancing)
/// acceptance.
fn attr_payload_provably_invalid(bytes: &[u8], brace: usize) -> bool {
    let n = bytes.len();
    let mut i = brace + 1;
    while i < n {
        let c = bytes[i];
        // Defer non-ASCII content to the full parser.
        if !c.is_ascii() {
            return false;
        }
        match c {
            // A candidate close at a token boundary: let the real scan decide.
            b'}' => return false,
            // A newline ends an inline block (read_attrs_at bails); defer.
            b'\n' => return false,
            // Skip space, tab, and carriage return; line feed defers above.
            b' ' | b'\t' | b'\r' => i += 1,
            // Quotes and escapes are subtle -- defer.
            b'"' | b'\'' | b'\\' => return false,
            // `#id` / `.class`: an identifier MUST follow, else the token (and
            // the whole payload) is invalid (§14).
            b'#' | b'.' => {
                match bytes.get(i + 1) {
                    Some(&d) if is_css_ident_start(d) => {}
                    _ => return true,
                }
                i += 2;
                while i < n && is_attr_ident_part(bytes[i]) {
                    i += 1;
                }
            }
            // `:TAG` / `:` semantic language attribute. The full parser owns
            // the structural subtag envelope; this fast path only avoids
            // rejecting the newly claimed token before it gets there.
            b':' => return false,
            // A bareword: a boolean attribute, or the name in `key=value`.
            _ if is_attr_ident_start(c) => {
                i += 1;
                while i < n && is_attr_ident_part(bytes[i]) {
                    i += 1;
                }
                if bytes.get(i) == Some(&b'=') {
                    // `key=` with an EMPTY value (EOF, `}`, or ASCII whitespace
                    // next) leaves a dangling `=` -> invalid. A bare value
                    // (>=1 non-space) or a quoted value: defer (a valid bare
                    // value is consumed whole by the scan -> linear). Non-ASCII
                    // after `=` (a value byte) also defers.
                    match bytes.get(i + 1) {
                        None => return true,
                        Some(&b'}') => return true,
                        Some(b' ' | b'\t' | b'\r' | b'\n') => return true,
                        _ => return false,
                    }
                }
                // else continue to the next token.
            }
            // Any other ASCII byte cannot begin a valid token at a boundary
            // (`[`, `{`, `(`, a digit, `-`, `+`, `=`, `,`, …): invalid.
            _ => return true,
        }
    }
    // Ran off the end without a `}`: the scan would fail too.
    true
}

/// Read an inline attribute block `{...}` at `start` (which must index a `{`).
///
/// `last_close_brace` is the index of the last `}` in `bytes` (or `None` if
/// there is none). A block can only close on a `}`, so when no `}` lies at or
/// after `start` the scan could only walk to end-of-text and fail -- it is
/// skipped in O(1). This keeps a run of unclosed `{`-attribute openers
/// (`[x]{`×n, `*a*{`×n, `:a:{`×n, …) linear instead of O(n^2). Callers scanning
/// a fresh slice (block attributes, table cells) pass that slice's own last-`}`
/// index. Skipping only elides a call that would return `None`, so output is
/// byte-identical.
/// The INLINE `attributes` production, whose interior is SPACE-ONLY.
///
/// Every whitespace slot of the inline block takes `space` (PART 4 THE INLINE
/// INTERIOR IS SPACE-ONLY, carve#906): the run after `{`, the run between two
/// attributes, the run before `}`, the boundary after an unquoted value, and
/// the blessed empty block `{ }`. All five sit AFTER the first non-whitespace
/// character of their line, which is where PART 7's rule already says a tab is
/// not syntax.
pub(in crate::parse) fn read_attrs_at(
    bytes: &[u8],
    start: usize,
    last_close_brace: Option<usize>,
) -> Option<(Attrs, usize)> {
    read_attrs_at_with(bytes, start, last_close_brace, true)
}

/// `read_attrs_at`, with the interior's whitespace rule as a parameter.
///
/// `space_only` is TRUE for the inline production and FALSE for the
/// block-attribute LINE, which keeps `whitespace` at all three of its slots -
/// and that distinction is the ruling rather than an omission. The block line
/// is the one construct whose interior can hold a leading indentation run:
/// after a `continuation`, the next line's leading whitespace IS indentation,
/// and the rule that narrows the inline block is the same rule that protects
/// this one.
fn read_attrs_at_with(
    bytes: &[u8],
    start: usize,
    last_close_brace: Option<usize>,
    space_only: bool,
) -> Option<(Attrs, usize)> {
    if bytes.get(start) != Some(&b'{') {
        return None;
    }
    if last_close_brace.map_or(true, |p| p < start) {
        return None;
    }
    // Reject, in O(1) per opener, a payload that provably cannot parse before the
    // char walk below runs to a far `}`. Without this, a run of never-validating
    // openers whose only `}` lies far ahead (`[x]{`×n + `}`, `[x]{a `×n + `}`, …)
    // walks to that `}` AND re-parses the whole tail at every opener -- O(n^2).
    // The filter only reports "invalid" where `parse_attrs` would return `None`
    // too, so output is byte-identical.
    if attr_payload_provably_invalid(bytes, start) {
        return None;
    }
    let mut i = start + 1;
    let mut quote: Option<u8> = None;
    let mut escaped = false;
    while i < bytes.len() {
        // An inline attribute block is single-line (grammar): a newline before
        // the closing `}` means this is not an inline attr -- the `{` stays
        // literal (`[x]{.a\n.b}` is text). Matches carve-js. Block-attribute
        // lines, which may span lines, are read by a separate path.
        if bytes[i] == b'\n' {
            return None;
        }
        if escaped {
            escaped = false;
            i += 1;
            continue;
        }
        if bytes[i] == b'\\' {
            escaped = true;
            i += 1;
            continue;
        }
        if let Some(q) = quote {
            if bytes[i] == q {
                quote = None;
            }
            i += 1;
            continue;
        }
        if bytes[i] == b'"' || bytes[i] == b'\'' {
            quote = Some(bytes[i]);
            i += 1;
            continue;
        }
        if bytes[i] == b'}' {
            break;
        }
        i += 1;
    }
    if i >= bytes.len() {
        return None;
    }
    let inner = std::str::from_utf8(&bytes[start + 1..i]).ok()?;
    Some((parse_attrs_with(inner, space_only)?, i + 1))
}

/// A generic attribute name starts with a letter or underscore. Explicit id
/// and class shorthands use the wider `is_css_identifier` preservation rule.
fn is_identifier(name: &str) -> bool {
    let mut chars = name.chars();
    matches!(chars.next(), Some(c) if c.is_ascii_alphabetic() || c == '_')
        && chars.all(|c| c.is_ascii_alphanumeric() || c == '_' || c == '-')
}

pub(crate) fn is_css_identifier(name: &str) -> bool {
    let mut chars = name.chars();
    matches!(chars.next(), Some(c) if c.is_ascii_alphanumeric() || c == '_')
        && chars.all(|c| c.is_ascii_alphanumeric() || c == '_' || c == '-')
}

/// Whether a name can be written as a BOOLEAN attribute -- a bare word with no
/// value. Narrower than [`is_identifier`] by exactly one character: a leading
/// `_` is legal in an id, a class and a key, and refused here.
///
/// `{_x_}` is BOTH a boolean attribute named `_x_` and a forced underline, and
/// alone on a line the attribute reading won: the block below came out as
/// `<p _x_="">`, and with no block below the line rendered NOTHING -- five
/// characters kept in the source and gone from the output. The bare form gives
/// the collision up (markup-carve/carve#1450). HTML has no underscore-first
/// boolean attribute to lose, and every other form ends in something other than
/// `_}`, so none of them collides.
fn is_boolean_attr_name(name: &str) -> bool {
    let mut chars = name.chars();
    matches!(chars.next(), Some(c) if c.is_ascii_alphabetic())
        && chars.all(|c| c.is_ascii_alphanumeric() || c == '_' || c == '-')
}

pub(in crate::parse) fn parse_attrs(src: &str) -> Option<Attrs> {
    parse_attrs_with(src, true)
}

/// Whether `src`, the text between an attribute block's braces, is a valid block.
pub(crate) fn is_valid_attr_payload(src: &str) -> bool {
    parse_attrs_with(src, false).is_some()
}

fn parse_attrs_with(src: &str, space_only: bool) -> Option<Attrs> {
    // A TAB AT ANY OF THE FIVE INLINE POSITIONS MAKES THE BLOCK UNRECOGNIZED,
    // and its braces show. One test rather than five, because all five are the
    // same question - is this interior character syntax or not - and narrowing
    // them one at a time is how the executable spec left `[x]{<TAB>}` a valid
    // EMPTY block after its separator had already been narrowed. Inside a
    // QUOTED value the character is content and does not move.
    {
        let mut quote: Option<char> = None;
        let mut escaped = false;
        for ch in src.chars() {
            if escaped {
                escaped = false;
                continue;
            }
            match quote {
                Some(q) => {
                    if ch == '\\' {
                        escaped = true;
                    } else if ch == q {
                        quote = None;
                    }
                }
                None => match ch {
                    '\\' => escaped = true,
                    '"' | '\'' => quote = Some(ch),
                    '\t' => return None,
                    '\r' | '\n' if space_only => return None,
                    _ => {}
                },
            }
        }
    }
    if src.trim().is_empty() {
        return None;
    }
    let mut attrs = Attrs::default();
    for token in attr_tokens(src)? {
        if let Some(tag) = token.strip_prefix(':') {
            if !is_language_tag(tag) {
                return None;
            }
            if !attrs.key_values.contains_key("lang") {
                attrs.order.push(AttrSlot::Key("lang".to_string()));
            }
            attrs.key_values.insert("lang".to_string(), tag.to_string());
        } else if let Some(id) = token.strip_prefix('#') {
            if !is_css_identifier(id) {
                return None;
            }
            if attrs.id.is_none() {
                attrs.order.push(AttrSlot::Id);
            }
            attrs.id = Some(id.to_string());
        } else if let Some(class) = token.strip_prefix('.') {
            if !is_css_identifier(class) {
                return None;
            }
            if attrs.classes.is_empty() {
                attrs.order.push(AttrSlot::Class);
            }
            attrs.classes.push(class.to_string());
        } else if let Some((key, value)) = token.split_once('=') {
            if !is_identifier(key) {
                return None;
            }
            if value.is_empty() {
                return None;
            }
            // A quoted value unescapes ANY backslash-escaped ASCII punctuation
            // (grammar: escaped_char = '\' ascii_punctuation), not just \" / \'.
            // Route it through the same scan link/image titles use, matching
            // carve-js / carve-php. A bare value carries no escapes.
            let value = if let Some(inner) = value
                .strip_prefix('"')
                .and_then(|v| v.strip_suffix('"'))
                .or_else(|| value.strip_prefix('\'').and_then(|v| v.strip_suffix('\'')))
            {
                unescape_title(inner)
            } else {
                if value.chars().any(|ch| {
                    matches!(ch, '}' | '|' | '"' | '\'' | '\\' | ' ' | '\t' | '\r' | '\n')
                }) {
                    return None;
                }
                value.to_string()
            };
            if key == "id" {
                // `id=value` is the same attribute as `#id`: it feeds the id
                // slot, last-wins (§15), instead of emitting a second `id="…"`
                // (invalid HTML). `id` never enters key_values, so a bare `id`
                // boolean (below) cannot leave a stale duplicate. Matches
                // carve-php.
                if attrs.id.is_none() {
                    attrs.order.push(AttrSlot::Id);
                }
                attrs.id = Some(value);
            } else if key == "class" {
                // `class=value` is a SPELLING OF THE CLASS SLOT, the same way
                // `id=value` above is a spelling of the id slot (CARVE-P4-007):
                // it appends to `classes` in source order and never enters
                // `key_values`, so `{class=a .b}` is one `class="a b"` instead of
                // two `class` attributes on one element (carve#2439). The two
                // spellings stay distinct in SOURCE, because `.` reads the
                // `explicit_identifier` a fence word does while a value reaches
                // past it - `-col` is a class only the key-value form can spell.
                // ONE `Class` entry for the merged slot, the way the `.` branch
                // above records it: every class renders in a single `class`
                // attribute, so a second entry would make the writer spell an
                // attribute that does not exist.
                if attrs.classes.is_empty() {
                    attrs.order.push(AttrSlot::Class);
                }
                // The value is a list of class tokens (CARVE-P4-007); a value
                // with no token stays one empty entry.
                let tokens = value
                    .split([' ', '\t', '\n', '\x0C', '\r'])
                    .filter(|token| !token.is_empty());
                let before = attrs.classes.len();
                attrs.classes.extend(tokens.map(str::to_string));
                if attrs.classes.len() == before {
                    attrs.classes.push(value);
                }
            } else {
                if !attrs.key_values.contains_key(key) {
                    attrs.order.push(AttrSlot::Key(key.to_string()));
                }
                attrs.key_values.insert(key.to_string(), value);
            }
        } else if is_boolean_attr_name(&token) {
            if token == "id" {
                // A bare boolean `id` also feeds the id slot (value ""), last-wins
                // and single -- `{id id=j}` -> `id="j"`, `{id}` -> `id=""`.
                if attrs.id.is_none() {
                    attrs.order.push(AttrSlot::Id);
                }
                attrs.id = Some(String::new());
            } else if token == "class" {
                // And a bare boolean `class` feeds the class slot, because PART 4
                // gives it the SAME empty-string AST value as `class=""` - which
                // the branch above folds - so leaving it here would make two
                // spellings of one documented value build different trees, and
                // would keep the second `class` attribute CARVE-P4-007 removes.
                if attrs.classes.is_empty() {
                    attrs.order.push(AttrSlot::Class);
                }
                attrs.classes.push(String::new());
            } else {
                // Boolean attribute: a bare word with no value, rendered name="".
                // (Matched last so `k=v` is a key/value, not a bare `k`.)
                if !attrs.key_values.contains_key(&token) {
                    attrs.order.push(AttrSlot::Key(token.clone()));
                }
                attrs.key_values.insert(token, String::new());
            }
        } else {
            return None;
        }
    }
    Some(attrs)
}

fn is_language_tag(tag: &str) -> bool {
    tag.is_empty()
        || tag.split('-').all(|subtag| {
            !subtag.is_empty()
                && subtag.len() <= 8
                && subtag.bytes().all(|byte| byte.is_ascii_alphanumeric())
        })
}

fn attr_tokens(src: &str) -> Option<Vec<String>> {
    let mut tokens = Vec::new();
    let mut buf = String::new();
    let mut quote: Option<char> = None;
    let mut escaped = false;
    let mut closed_quote = false;
    for ch in src.chars() {
        if escaped {
            buf.push('\\');
            buf.push(ch);
            escaped = false;
            continue;
        }
        if ch == '\\' && quote.is_some() {
            escaped = true;
            continue;
        }
        if let Some(q) = quote {
            buf.push(ch);
            if ch == q {
                quote = None;
                closed_quote = true;
            }
            continue;
        }
        if ch == '"' || ch == '\'' {
            if closed_quote || !matches!(buf.split_once('='), Some((_, ""))) {
                return None;
            }
            quote = Some(ch);
            buf.push(ch);
            continue;
        }
        // NO SPLIT ON A SIGIL. `attribute_list` is
        // `attribute, {space+, attribute}` (PART 7): a separator is required,
        // so `{.a.b}`, `{#i.c}` and `{.a#i}` are not attribute blocks and stay
        // literal. This branch used to break a class or id token at the next
        // `#` or `.`, manufacturing two attributes where the source has one
        // malformed one - `.a.b` now stays one token and fails `is_identifier`,
        // which is what makes the whole block literal.
        if matches!(ch, ' ' | '\t' | '\r' | '\n') {
            closed_quote = false;
            if !buf.is_empty() {
                tokens.push(std::mem::take(&mut buf));
            }
        } else {
            if closed_quote {
                return None;
            }
            buf.push(ch);
        }
    }
    if quote.is_some() || escaped {
        return None;
    }
    if !buf.is_empty() {
        tokens.push(buf);
    }
    Some(tokens)
}
