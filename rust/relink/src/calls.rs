//! The calls that the work is done by.

use hauklivo::{HintRecord, MachRel, Refusal, Reloc, Report, Resolved, RuleRecord, Tally, typed};

use crate::object::{Machine, Section};

/// Records of a section's contents, with the addresses of all sections, into entries; how many.
pub type ReadRelocs =
    fn(contents: &[u8], records: &[MachRel], sections: &[u64], slots: &mut [Reloc]) -> Result<usize, Refusal>;

/// The same for x86_64, with the section's own address, too.
pub type ReadRelocsX86_64 = fn(
    contents: &[u8],
    records: &[MachRel],
    sections: &[u64],
    address: u64,
    slots: &mut [Reloc],
) -> Result<usize, Refusal>;

/// Fixes up a section of a base address, with the start of thread-local storage and the image base; how many reports.
pub type ApplyRelocAlloc = fn(
    section: &mut [u8],
    base: u64,
    tls_begin: u64,
    image_base: u64,
    entries: &[Reloc],
    targets: &[Resolved],
    slots: &mut [Report],
) -> Result<usize, Refusal>;

/// Runs hints on an image, and says of each, in the order of work, which rule acted.
pub type ApplyHintsListed =
    fn(image: &mut [u8], hints: &[HintRecord], entries: &[Reloc], records: &mut [RuleRecord]) -> Result<Tally, Refusal>;

/// The calls. [`PORT`] has those of the proved library.
#[derive(Clone, Copy)]
pub struct Calls {
    /// The reader.
    pub read_relocs: ReadRelocs,
    /// The reader for x86_64.
    pub read_relocs_x86_64: ReadRelocsX86_64,
    /// The fix-up.
    pub apply_reloc_alloc: ApplyRelocAlloc,
    /// Writes the stub at an address that jumps through a pointer; says whether it reaches.
    pub write_stub: fn(bytes: &mut [u8], address: u64, pointer: u64) -> Result<bool, Refusal>,
    /// Writes the thunk entry at an address that jumps to a target.
    pub write_thunk: fn(bytes: &mut [u8], address: u64, target: u64) -> Result<(), Refusal>,
    /// The listed hint run.
    pub apply_hints_listed: ApplyHintsListed,
}

/// The calls of the proved library.
pub const PORT: Calls = Calls {
    read_relocs: typed::read_relocs,
    read_relocs_x86_64: typed::read_relocs_x86_64,
    apply_reloc_alloc: typed::apply_reloc_alloc,
    write_stub: hauklivo::write_stub,
    write_thunk: hauklivo::write_thunk,
    apply_hints_listed: typed::apply_hints_listed,
};

impl Calls {
    /// The entries of a section of an object for `machine`, whose sections have these addresses.
    ///
    /// # Errors
    ///
    /// The reader's.
    pub fn entries(&self, machine: Machine, section: &Section, sections: &[u64]) -> Result<Vec<Reloc>, Refusal> {
        let Section { contents, records, address, .. } = section;
        let mut entries = vec![Reloc::default(); records.len()];
        let count = match machine {
            Machine::Arm64 => (self.read_relocs)(contents, records, sections, &mut entries)?,
            Machine::X86_64 => (self.read_relocs_x86_64)(contents, records, sections, *address, &mut entries)?,
        };
        entries.truncate(count);
        Ok(entries)
    }
}
