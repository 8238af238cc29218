//! The module `parse` around source 000: the names that its `use super::*` expects, and a door to its private functions.

use crate::ast::{AttrSlot, Attrs, TableAlign, TableColumn, TableVerticalAlign};
use crate::standins::*;
use std::cell::Cell;
use std::collections::HashSet;

/// The lines of a [`LineCursor`], as far as source 000 asks for them.
#[derive(Clone, Copy)]
pub(in crate::parse) struct CursorLines<'a>(&'a [&'a str]);

impl<'a> CursorLines<'a> {
    pub(in crate::parse) fn line(self, index: usize) -> Option<&'a str> {
        self.0.get(index).copied()
    }
}

/// The smallest cursor with which `parse_standalone_attrs_block` compiles unchanged. `peek` and `consume` do what
/// source 002 does.
pub(in crate::parse) struct LineCursor<'a> {
    pub(in crate::parse) lines: CursorLines<'a>,
    pub(in crate::parse) pos: usize,
}

impl<'a> LineCursor<'a> {
    pub(in crate::parse) fn peek(&self) -> Option<&'a str> {
        self.lines.line(self.pos)
    }
    pub(in crate::parse) fn consume(&mut self) -> Option<&'a str> {
        let line = self.peek();
        if line.is_some() {
            self.pos += 1;
        }
        line
    }
}

// Some of the original's functions are reached only through others, or not at all.
#[allow(dead_code)]
pub(crate) mod attrs {
    include!("source.rs");

    /// A child module may call the private functions of its parent. It hands the original's answers to the layer and
    /// decides nothing itself.
    pub(crate) mod door {
        use super::super::{CursorLines, LineCursor};
        use super::ATTRS_LOOKAHEAD_BYTES;
        use crate::ast::{Attrs, TableColumn};

        pub(crate) use super::{is_css_identifier, RefusedBraceRun};

        /// The original's own answer and the lookahead that it counted on the way.
        pub(crate) fn counted<T>(ask: impl FnOnce() -> T) -> (T, usize) {
            ATTRS_LOOKAHEAD_BYTES.with(|work| work.set(0));
            let answer = ask();
            (answer, ATTRS_LOOKAHEAD_BYTES.with(|work| work.get()))
        }

        pub(crate) fn is_attr_ident_start(byte: u8) -> bool {
            super::is_attr_ident_start(byte)
        }
        pub(crate) fn is_css_ident_start(byte: u8) -> bool {
            super::is_css_ident_start(byte)
        }
        pub(crate) fn is_attr_ident_part(byte: u8) -> bool {
            super::is_attr_ident_part(byte)
        }
        pub(crate) fn is_identifier(name: &str) -> bool {
            super::is_identifier(name)
        }
        pub(crate) fn is_boolean_attr_name(name: &str) -> bool {
            super::is_boolean_attr_name(name)
        }
        pub(crate) fn is_language_tag(tag: &str) -> bool {
            super::is_language_tag(tag)
        }
        pub(crate) fn parse_attrs(src: &str) -> Option<Attrs> {
            super::parse_attrs(src)
        }
        pub(crate) fn is_valid_attr_payload(src: &str) -> bool {
            super::is_valid_attr_payload(src)
        }
        pub(crate) fn parse_attrs_with(src: &str, space_only: bool) -> Option<Attrs> {
            super::parse_attrs_with(src, space_only)
        }
        pub(crate) fn attr_payload_provably_invalid(bytes: &[u8], brace: usize) -> bool {
            super::attr_payload_provably_invalid(bytes, brace)
        }
        pub(crate) fn read_attrs_at(bytes: &[u8], start: usize, last: Option<usize>) -> Option<(Attrs, usize)> {
            super::read_attrs_at(bytes, start, last)
        }
        pub(crate) fn read_attrs_at_loose(bytes: &[u8], start: usize, last: Option<usize>) -> Option<(Attrs, usize)> {
            super::read_attrs_at_with(bytes, start, last, false)
        }
        pub(crate) fn valid_wrapped_attr_continuation(line: &str) -> bool {
            super::valid_wrapped_attr_continuation(line)
        }
        pub(crate) fn parse_standalone_attrs(line: &str) -> Option<Attrs> {
            super::parse_standalone_attrs(line)
        }
        /// The block that starts at the first of these lines, and how many lines the cursor moved.
        pub(crate) fn parse_standalone_attrs_block(lines: &[&str]) -> (Option<Attrs>, usize) {
            let mut cursor = LineCursor { lines: CursorLines(lines), pos: 0 };
            let attrs = super::parse_standalone_attrs_block(&mut cursor);
            (attrs, cursor.pos)
        }
        pub(crate) fn standalone_attrs_block_len(lines: &[&str]) -> Option<usize> {
            super::standalone_attrs_block_len(lines)
        }
        pub(crate) fn indented_wrapped_attrs_block_len(lines: &[&str]) -> Option<usize> {
            super::indented_wrapped_attrs_block_len(lines.iter().copied())
        }
        pub(crate) fn attrs_block_len_at(column: usize, first: &str, later: &[&str]) -> Option<usize> {
            super::attrs_block_len_at(column, first, later.iter().copied())
        }
        pub(crate) fn wrapped_attrs_run_at<'a>(
            base: usize,
            lines: impl Iterator<Item = &'a str>,
        ) -> Option<(Attrs, usize)> {
            super::wrapped_attrs_run_at(base, lines)
        }
        pub(crate) fn refused_brace_run(lines: &[&str]) -> RefusedBraceRun {
            super::refused_brace_run(lines.iter().copied(), true)
        }
        pub(crate) fn ends_in_refused_brace_run(lines: &[String]) -> bool {
            super::ends_in_refused_brace_run(lines)
        }
        pub(crate) fn last_open_brace_column(line: &str, quote: Option<char>) -> Option<usize> {
            super::last_open_brace_column(line, quote)
        }
        pub(crate) fn holds_open_attr_block(run: &str) -> bool {
            super::holds_open_attr_block(run)
        }
        pub(crate) fn open_quote_at_end(s: &str) -> Option<char> {
            super::open_quote_at_end(s)
        }
        pub(crate) fn merge_attrs(target: &mut Option<Attrs>, incoming: Attrs) {
            super::merge_attrs(target, incoming)
        }
        pub(crate) fn merge_leading_attrs(target: &mut Option<Attrs>, leading: Attrs) {
            super::merge_leading_attrs(target, leading)
        }
        pub(crate) fn consume_loose(attrs: &mut Attrs) -> bool {
            super::consume_loose(attrs)
        }
        pub(crate) fn attrs_are_empty(attrs: &Attrs) -> bool {
            super::attrs_are_empty(attrs)
        }
        pub(crate) fn table_columns_from_attrs(attrs: &Attrs) -> Vec<TableColumn> {
            super::table_columns_from_attrs(attrs)
        }
    }
}
