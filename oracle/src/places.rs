//! Where a payload went wrong, document 02's change request 2: the length of its longest prefix, on a character boundary,
//! that can still be continued to an acceptable payload in the same mode. What is acceptable the original says, asked for a
//! prefix with something behind it; no walk over the payload is made here. Limits and the text's length don't count.

use crate::layer;
use crate::parse::attrs::door;
use std::cell::RefCell;
use std::collections::HashMap;

/// What may stand behind a prefix so that it is whole: nothing, a letter for what has begun, a value, or the end of what
/// stands in quotes, with a letter for a backslash before it.
const RESTS: [&str; 7] = ["", "a", "=a", "\"", "'", "a\"", "a'"];

/// For short prefixes every string of up to two of these is tried too.
const TRIED: [&str; 16] = ["a", "1", "-", "_", "=", ":", ".", "\"", "'", "\\", " ", "}", "\n", "\r", "\t", "é"];

/// Up to how many bytes of a text each of its prefixes is asked, each with all that is tried, and up to how many the first
/// prefix that doesn't go on.
const EACH_ASKED: usize = 8;
const EACH_TRIED: usize = 4;
const FIRST_TRIED: usize = 8;

/// What a text may be a part of: a payload in a mode, or a name, key, bare name or tag.
#[derive(Clone, Copy, PartialEq, Eq, Hash)]
pub enum Whole {
    Payload { loose: bool },
    /// Behind `#` or `.`.
    Name,
    Key,
    Bare,
    /// Behind `:`, where there may be nothing.
    Tag,
}

impl Whole {
    /// Whether the original takes it.
    fn accepts(self, text: &str) -> bool {
        match self {
            Whole::Payload { loose } => door::parse_attrs_with(text, !loose).is_some(),
            Whole::Name => door::is_css_identifier(text),
            Whole::Key => door::is_identifier(text),
            Whole::Bare => door::is_boolean_attr_name(text),
            Whole::Tag => door::is_language_tag(text),
        }
    }
    /// The rest of the seven with which the prefix is taken, if there is one.
    fn rest(self, prefix: &str) -> Option<&'static str> {
        RESTS.into_iter().find(|rest| self.accepts(&format!("{prefix}{rest}")))
    }
    fn goes_on(self, prefix: &str) -> bool {
        self.rest(prefix).is_some()
    }
    /// Whether any string of up to two of the sixteen makes it whole. Short prefixes are met again and again, so their
    /// answers are kept.
    fn goes_on_somehow(self, prefix: &str) -> bool {
        thread_local! {
            static KNOWN: RefCell<HashMap<(Whole, String), bool>> = RefCell::new(HashMap::new());
        }
        let ask = || {
            let longer = |rest: &str| TRIED.iter().any(|last| self.accepts(&format!("{prefix}{rest}{last}")));
            self.accepts(prefix) || longer("") || TRIED.iter().any(|rest| longer(rest))
        };
        if prefix.len() > EACH_TRIED {
            return ask();
        }
        KNOWN.with(|known| *known.borrow_mut().entry((self, prefix.to_string())).or_insert_with(ask))
    }
    /// How many bytes the longest prefix has that goes on. Where one goes on each shorter one does, by what is behind it;
    /// so it may be found by halving.
    pub fn longest(self, text: &str) -> usize {
        let ends: Vec<usize> = text.char_indices().map(|(at, _)| at).chain([text.len()]).collect();
        let count = ends.partition_point(|&end| self.goes_on(&text[..end]));
        let place = ends[count.checked_sub(1).expect("nothing goes on to something")];
        if text.len() <= EACH_ASKED {
            assert!(ends.iter().all(|&end| self.goes_on(&text[..end]) == (end <= place)), "halving finds the longest");
        }
        if text.len() <= EACH_TRIED {
            let tried = |end: usize| self.goes_on_somehow(&text[..end]);
            assert!(ends.iter().all(|&end| tried(end) == (end <= place)), "the seven rests are all that it takes");
        } else if text.len() <= FIRST_TRIED && count < ends.len() {
            assert!(!self.goes_on_somehow(&text[..ends[count]]), "and no other goes further");
        }
        place
    }
}

/// The place of a 5 at a brace, in bytes of the payload.
pub fn at_brace(bytes: &[u8], brace: usize, loose: bool) -> usize {
    let (from, to) = layer::payload_at(bytes, brace).expect("a 5 has a payload");
    let payload = std::str::from_utf8(&bytes[from..to]).expect("which is UTF-8");
    let whole = Whole::Payload { loose };
    let place = whole.longest(payload);
    if payload.len() <= EACH_ASKED {
        // A block could hold it: with its rest and a brace behind it the original reads it at a brace.
        let rest = whole.rest(&payload[..place]).expect("it goes on");
        let block = format!("{{{}{rest}}}", &payload[..place]);
        let last = Some(block.len() - 1);
        let read = if loose { door::read_attrs_at_loose } else { door::read_attrs_at }(block.as_bytes(), 0, last);
        assert_eq!(read.map(|(_, next)| next), Some(block.len()), "the continued payload is read at a brace");
    }
    place
}

/// How far bytes can be continued to a name, key, bare name or tag; none where they are one.
pub fn stops(whole: Whole, bytes: &[u8]) -> Option<usize> {
    // What isn't UTF-8 goes on to nothing, and neither does a part of a character.
    let text = std::str::from_utf8(bytes).unwrap_or_else(|error| std::str::from_utf8(&bytes[..error.valid_up_to()]).expect("as far as it is"));
    let place = whole.longest(text);
    if text.len() == bytes.len() && whole.accepts(text) {
        assert_eq!(place, bytes.len(), "what is whole goes on to the end");
        return None;
    }
    Some(place)
}
