//! Why a file cannot be linked.

use std::error::Error;
use std::fmt;

use hauklivo::{Refusal, Reloc};

use crate::object::{Object, Section};

/// Why a file cannot be linked, as a sentence.
#[derive(Clone, Debug, PartialEq, Eq)]
pub struct Fault(String);

impl Fault {
    /// A fault of these words.
    pub fn new(words: impl Into<String>) -> Self {
        Self(words.into())
    }

    /// A call's refusal: its number, what that means, what was being worked on, and where it is.
    pub fn refused(what: &str, refusal: Refusal, at: Option<String>) -> Self {
        let at = at.map_or(String::new(), |at| format!(": {at}"));
        Self(format!("{what}: number {refusal}{at}"))
    }

    /// An entry of a section whose symbol is not there.
    pub fn no_symbol(object: &Object, section: &Section, entry: &Reloc) -> Self {
        let (name, Reloc { offset, target, .. }) = (&section.name, entry);
        let count = object.symbols.len();
        Self(format!("section {name}: the entry at offset {offset:x} names symbol {target}, and there are {count}"))
    }
}

impl fmt::Display for Fault {
    fn fmt(&self, f: &mut fmt::Formatter) -> fmt::Result {
        f.write_str(&self.0)
    }
}

impl Error for Fault {}
