//! The entries of an object, as the reader of its machine fills them.

use hauklivo::Reloc;

use crate::Fault;
use crate::calls::Calls;
use crate::object::{Object, Section};
use crate::refused;

/// The entries of each section.
///
/// # Errors
///
/// A sentence for a refused call.
pub fn entries(object: &Object, calls: &Calls) -> Result<Vec<Vec<Reloc>>, Fault> {
    chosen(object, calls, |_| true)
}

/// The entries of each section of a choice, and none of any other.
pub fn chosen(object: &Object, calls: &Calls, choice: impl Fn(&Section) -> bool) -> Result<Vec<Vec<Reloc>>, Fault> {
    let (machine, sections) = (object.machine, &object.sections);
    let addresses: Vec<u64> = sections.iter().map(|s| s.address).collect();
    let read = |s: &Section| match choice(s) {
        true => calls.entries(machine, s, &addresses).map_err(|r| refused::reading(object, s, &addresses, r)),
        false => Ok(Vec::new()),
    };
    sections.iter().map(read).collect()
}
