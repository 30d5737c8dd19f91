//! Stands in for macho.rs: the records of the file format, as RULES 2.10 lays them out.

pub use crate::macho_consts::*;

/// A relocation record.
#[derive(Clone, Copy)]
pub struct MachRel {
    pub offset: u32,
    pub bits: u32,
}

impl MachRel {
    pub fn idx(&self) -> u32 {
        self.bits & 0x00ff_ffff
    }

    pub fn is_pcrel(&self) -> bool {
        self.bits >> 24 & 1 != 0
    }

    pub fn p2size(&self) -> u32 {
        self.bits >> 25 & 3
    }

    pub fn is_extern(&self) -> bool {
        self.bits >> 27 & 1 != 0
    }

    pub fn ty(&self) -> u8 {
        (self.bits >> 28) as u8
    }
}

/// A section header: its address, and its type in the flags.
#[derive(Clone, Debug, Default)]
pub struct MachSection {
    pub addr: u64,
    pub flags: u32,
}

impl MachSection {
    pub fn segname(&self) -> &'static [u8] {
        b"__TEXT"
    }

    pub fn sectname(&self) -> &'static [u8] {
        b"__text"
    }

    pub fn section_type(&self) -> u32 {
        self.flags & SECTION_TYPE
    }
}

/// A symbol table record; the oracle's objects have none.
pub struct MachSym {
    pub n_type: u8,
    pub sect: u8,
    pub desc: u16,
    pub value: u64,
}

impl MachSym {
    pub fn is_stab(&self) -> bool {
        self.n_type & N_STAB != 0
    }

    pub fn ty(&self) -> u8 {
        self.n_type & N_TYPE
    }

    pub fn is_extern(&self) -> bool {
        self.n_type & N_EXT != 0
    }
}
