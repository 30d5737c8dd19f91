//! Stands in for input_files.rs: the object file, and a record's section as RULES 4.10 gives it.

use std::cell::Cell;
use std::path::{Path, PathBuf};

use crate::input_sections::{InputSections, Reloc, RelocTarget};
use crate::macho::{MachRel, MachSection, MachSym};
use crate::symbol::SymbolId;

pub const DW_EH_PE_SDATA4: u8 = 0x0b;

/// The mapped file, of which diagnostics want the name.
#[derive(Default)]
pub struct MappedFile {
    pub name: PathBuf,
}

#[derive(Default)]
pub struct ObjectFile {
    pub mf: MappedFile,
    pub is_reachable: bool,
    pub symbols: Vec<SymbolId>,
    pub mach_syms: Vec<MachSym>,
    pub sect_hdrs: Vec<MachSection>,
    pub relocs: Vec<Reloc>,
    /// Hints: kind and the addresses of the words in the object.
    pub loh: Vec<(u8, Vec<u64>)>,
    /// The shim's own: the subsection of each hint, and the hint that was asked for last.
    pub loh_subsecs: Vec<u32>,
    pub loh_last: Cell<usize>,
}

impl ObjectFile {
    /// Stands in for ld64's search: a hint has a subsection of its own, found by the list it holds.
    /// Hints are asked for in list order, so the search goes round from the last one.
    pub fn hint_subsec(&self, _isecs: &InputSections, addrs: &[u64]) -> Option<u32> {
        let last = self.loh_last.get();
        let mut round = (last..self.loh.len()).chain(0..last);
        let i = round.find(|&i| std::ptr::eq(self.loh[i].1.as_slice(), addrs))?;
        self.loh_last.set(i);
        Some(self.loh_subsecs[i])
    }
}

/// No literal is merged here.
pub fn has_merged_subsecs(_hdr: &MachSection) -> bool {
    false
}

/// The section a record that is not extern names: ordinals count from 1, and the addend is
/// lessened by the section's address, wrapping.
pub fn section_target(file: &Path, sections: &[MachSection], r: &MachRel, addend: u64) -> (RelocTarget, i64) {
    match r.idx().checked_sub(1).and_then(|i| Some((i, sections.get(i as usize)?))) {
        Some((i, hdr)) => (RelocTarget::Section(i), addend.wrapping_sub(hdr.addr) as i64),
        None => crate::fatal!("{}: no such section: {}", file.display(), r.idx()),
    }
}
