//! Stand-in for the rule of widths, which source 000 calls and which was not supplied with it: it notes the piece that it
//! is asked for, and answers none.

use std::cell::RefCell;

thread_local! {
    static ASKED: RefCell<Vec<String>> = const { RefCell::new(Vec::new()) };
}

pub fn fraction(piece: &str) -> Option<f64> {
    ASKED.with(|asked| asked.borrow_mut().push(piece.to_string()));
    None
}

/// An answer and the pieces that were asked for on the way, in their order.
pub fn noted<T>(ask: impl FnOnce() -> T) -> (T, Vec<String>) {
    ASKED.with(|asked| asked.borrow_mut().clear());
    let answer = ask();
    (answer, ASKED.with(|asked| asked.borrow_mut().split_off(0)))
}
