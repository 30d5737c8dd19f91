//! The calls that take lists of records, over slices of this crate's. Each is the function of the same
//! name in the crate's root, which takes bytes: for lists of a file, or of a linker's own types
//! ([`Record`]).
//!
//! A slice is whole records, so that [`Refusal::Lengths`] is left for lists of more than 2^32 - 1
//! records and for targets that are not one for each entry.
//!
//! ```
//! use hauklivo::{MachRel, Reloc, Report, Resolved, flag, ty, typed};
//!
//! // A call of symbol 5, and a pointer to it with 16 added.
//! let mut section = [0x94000000_u32, 0, 16, 0].map(u32::to_le_bytes).concat();
//! let records = [MachRel::new(0, 5, true, 2, true, ty::BRANCH26), MachRel::new(8, 5, false, 3, true, ty::UNSIGNED)];
//! let mut slots = [Reloc::default(); 2];
//! let n = typed::read_relocs(&section, &records, &[], &mut slots)?;
//! let entries = &slots[..n];
//!
//! let symbol = Resolved { address: 0x2000, branch: 0x2000, flags: flag::HAS_ADDRESS, ..Resolved::default() };
//! let mut slots = [Report::default(); 2];
//! let n = typed::apply_reloc_alloc(&mut section, 0x1000, 0, 0, entries, &[symbol; 2], &mut slots)?;
//! let reports = &slots[..n];
//! assert!(reports.is_empty());
//! assert_eq!(section, [0x94000400_u32, 0, 0x2010, 0].map(u32::to_le_bytes).concat());
//! # Ok::<(), hauklivo::Refusal>(())
//! ```

use crate::{HintRecord, MachRel, Record, Refusal, Reloc, Report, Resolved, RuleRecord, Tally};

/// Reads the relocation records of a section of an arm64 object into entries, and says how many it
/// filled; slots after those stay. `sections` has the address of each section of the object, `slots` at
/// least one place for each record.
///
/// # Errors
///
/// Those of [`read_relocs`](crate::read_relocs).
pub fn read_relocs(
    contents: &[u8],
    records: &[MachRel],
    sections: &[u64],
    slots: &mut [Reloc],
) -> Result<usize, Refusal> {
    crate::read_relocs(contents, MachRel::bytes(records), sections, Reloc::bytes_mut(slots))
}

/// Reads the relocation records of a section of an x86_64 object into entries, one for each record, and
/// says how many that is; slots after those stay. `sections` has the address of each section of the
/// object, `address` is that of the section that the records are of, `slots` has at least one place for
/// each record. The other calls here take every entry as arm64's.
///
/// # Errors
///
/// Those of [`read_relocs_x86_64`](crate::read_relocs_x86_64).
pub fn read_relocs_x86_64(
    contents: &[u8],
    records: &[MachRel],
    sections: &[u64],
    address: u64,
    slots: &mut [Reloc],
) -> Result<usize, Refusal> {
    crate::read_relocs_x86_64(contents, MachRel::bytes(records), sections, address, Reloc::bytes_mut(slots))
}

/// Fixes up a section's bytes by its entries and their resolved targets, and says how many reports it
/// filled; slots after those stay. `base` is the address of the section's first byte, `tls_begin` the
/// start of thread-local storage, `image_base` the address of the image; `targets` has one for each entry,
/// `slots` at least one place for each.
///
/// # Errors
///
/// Those of [`apply_reloc_alloc`](crate::apply_reloc_alloc).
pub fn apply_reloc_alloc(
    section: &mut [u8],
    base: u64,
    tls_begin: u64,
    image_base: u64,
    entries: &[Reloc],
    targets: &[Resolved],
    slots: &mut [Report],
) -> Result<usize, Refusal> {
    let (entries, targets) = (Reloc::bytes(entries), Resolved::bytes(targets));
    crate::apply_reloc_alloc(section, base, tls_begin, image_base, entries, targets, Report::bytes_mut(slots))
}

/// Works hints on an image whose bytes are fixed up, and says what became of them. The order of work,
/// and what it costs, are those of [`apply_hints`](crate::apply_hints).
///
/// # Errors
///
/// Those of [`apply_hints`](crate::apply_hints).
pub fn apply_hints(image: &mut [u8], hints: &[HintRecord], entries: &[Reloc]) -> Result<Tally, Refusal> {
    crate::apply_hints(image, HintRecord::bytes(hints), Reloc::bytes(entries))
}

/// Works hints as [`apply_hints`] does, and says of each hint, in the order of work, which rule acted;
/// records after those stay. `records` has at least one for each hint.
///
/// # Errors
///
/// Those of [`apply_hints_listed`](crate::apply_hints_listed).
pub fn apply_hints_listed(
    image: &mut [u8],
    hints: &[HintRecord],
    entries: &[Reloc],
    records: &mut [RuleRecord],
) -> Result<Tally, Refusal> {
    crate::apply_hints_listed(image, HintRecord::bytes(hints), Reloc::bytes(entries), RuleRecord::bytes_mut(records))
}
