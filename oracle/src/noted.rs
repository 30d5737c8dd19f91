//! util/mod.rs as the other files name it: all that it has, and a note of each word that its write32 writes.

use std::cell::RefCell;

pub use crate::supplied::*;

thread_local! {
    /// The address of each word and what it became, while `written` runs.
    static WORDS: RefCell<Option<Vec<(usize, u32)>>> = const { RefCell::new(None) };
}

/// util/mod.rs's own, noted; not where the functions are timed, of which a note is no part.
pub fn write32(loc: &mut [u8], val: u32) {
    crate::supplied::write32(loc, val);
    if !cfg!(timed) {
        WORDS.with_borrow_mut(|words| words.iter_mut().for_each(|words| words.push((loc.as_ptr() as usize, val))));
    }
}

/// Runs `f`, which does not unwind, on some bytes. Beside its answer: the words that write32 wrote there, in their order,
/// each with its offset.
pub fn written<T>(bytes: &mut [u8], f: impl FnOnce(&mut [u8]) -> T) -> (T, Vec<(usize, u32)>) {
    let start = bytes.as_ptr() as usize;
    WORDS.set(Some(Vec::new()));
    let done = f(bytes);
    let words = WORDS.take().unwrap_or_default();
    (done, words.into_iter().map(|(at, word)| (at - start, word)).collect())
}
