//! The original Rust, to the letter (`oracle/src/source.rs`), with the oracle's stand-ins and nothing else around it: no counter of
//! lookahead, no assertion, no second reading.

use crate::ast::{AttrSlot, Attrs, TableAlign, TableColumn, TableVerticalAlign};
use crate::standins::*;
use std::collections::HashSet;

/// The lines of a [`LineCursor`], as far as the original asks for them.
#[derive(Clone, Copy)]
struct CursorLines<'a>(&'a [&'a str]);

impl<'a> CursorLines<'a> {
    fn line(self, index: usize) -> Option<&'a str> {
        self.0.get(index).copied()
    }
}

/// The smallest cursor with which the original's block reader compiles.
struct LineCursor<'a> {
    lines: CursorLines<'a>,
    pos: usize,
}

impl<'a> LineCursor<'a> {
    fn peek(&self) -> Option<&'a str> {
        self.lines.line(self.pos)
    }
    fn consume(&mut self) -> Option<&'a str> {
        let line = self.peek();
        if line.is_some() {
            self.pos += 1;
        }
        line
    }
}

// The original makes its functions visible in `crate::parse`.
pub mod attrs {
    include!("../../oracle/src/source.rs");

    /// A child module may call the private functions of its parent.
    pub mod door {
        use super::super::{CursorLines, LineCursor};
        use crate::ast::Attrs;

        pub fn read_attrs_at(bytes: &[u8], start: usize, last: Option<usize>) -> Option<(Attrs, usize)> {
            super::read_attrs_at(bytes, start, last)
        }
        pub fn parse_standalone_attrs(line: &str) -> Option<Attrs> {
            super::parse_standalone_attrs(line)
        }
        pub fn standalone_attrs_block_len(lines: &[&str]) -> Option<usize> {
            super::standalone_attrs_block_len(lines)
        }
        /// The block at the first of these lines, and how many lines it takes.
        pub fn parse_standalone_attrs_block(lines: &[&str]) -> Option<(Attrs, usize)> {
            let mut cursor = LineCursor { lines: CursorLines(lines), pos: 0 };
            super::parse_standalone_attrs_block(&mut cursor).map(|attrs| (attrs, cursor.pos))
        }
        pub fn merge_attrs(target: &mut Option<Attrs>, incoming: Attrs) {
            super::merge_attrs(target, incoming)
        }
        pub fn ends_in_refused_brace_run(lines: &[String]) -> bool {
            super::ends_in_refused_brace_run(lines)
        }
    }
}
