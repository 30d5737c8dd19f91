//! A section with relocation records of all arm64 types, and the resolved targets of its entries.

use hauklivo::{MachRel, Record, Reloc, Resolved, flag, ty};

use crate::rng::Rng;

pub const BASE: u64 = 0x1_0000_0000;
pub const TLS_BEGIN: u64 = 0x1_0800_0000;
pub const IMAGE_BASE: u64 = 0x1_0000_0000;
pub const SECTIONS: u32 = 40;

/// What a reader is lent.
pub struct Table {
    pub contents: Vec<u8>,
    pub records: Vec<MachRel>,
    pub sections: Vec<u64>,
}

const ADRP: u32 = 0x9000_0000;
const ADD: u32 = 0x9100_0000;
const LDR: u32 = 0xf940_0000;

impl Table {
    /// `n` arm64 records, in the mix that `group` makes.
    pub fn new(n: usize) -> Self {
        Self::of_groups(n, "records", Self::group)
    }

    /// `n` records by groups, each of which is told how many are left.
    pub fn of_groups(n: usize, seed: &str, group: fn(&mut Self, &mut Rng, usize)) -> Self {
        let mut rng = Rng::new(seed, n as u64);
        let sections = (0..SECTIONS).map(|i| 0x1000 * u64::from(i)).collect();
        let mut table = Self { contents: Vec::new(), records: Vec::new(), sections };
        while table.records.len() < n {
            let left = n - table.records.len();
            group(&mut table, &mut rng, left);
        }
        table
    }

    /// One to four records that belong together; a branch where fewer are left.
    fn group(&mut self, rng: &mut Rng, left: usize) {
        match rng.below(100) {
            0..32 => self.word(0x9400_0000, ty::BRANCH26, true, rng),
            32..56 if left >= 2 => {
                self.word(ADRP, ty::PAGE21, true, rng);
                self.word(rng.pick(&[ADD, ADD, LDR]), ty::PAGEOFF12, false, rng);
            }
            56..70 if left >= 2 => {
                self.word(ADRP, ty::GOT_LOAD_PAGE21, true, rng);
                self.word(LDR, ty::GOT_LOAD_PAGEOFF12, false, rng);
            }
            70..72 if left >= 2 => {
                self.word(ADRP, ty::TLVP_LOAD_PAGE21, true, rng);
                self.word(LDR, ty::TLVP_LOAD_PAGEOFF12, false, rng);
            }
            72..75 if left >= 4 => {
                self.addend(16 * rng.below(64) as u32);
                self.word(ADRP, ty::PAGE21, true, rng);
                self.addend(16 * rng.below(64) as u32);
                self.word(ADD, ty::PAGEOFF12, false, rng);
            }
            75..80 if left >= 2 => {
                let p2size = rng.pick(&[2, 3]);
                let at = self.room(1 << p2size);
                self.push(at, symbol(rng), false, p2size, true, ty::SUBTRACTOR);
                self.push(at, symbol(rng), false, p2size, true, ty::UNSIGNED);
            }
            80..90 => {
                let at = self.room(8);
                self.push(at, symbol(rng), false, 3, true, ty::UNSIGNED);
            }
            90..98 => {
                let ordinal = 1 + rng.below(u64::from(SECTIONS)) as u32;
                let at = self.room(8);
                self.contents[at as usize..].copy_from_slice(&(0x1000 * u64::from(ordinal)).to_le_bytes());
                self.push(at, ordinal, false, 3, false, ty::UNSIGNED);
            }
            98 => self.word(0, ty::POINTER_TO_GOT, true, rng),
            _ => self.word(0x1400_0000, ty::BRANCH26, true, rng),
        }
    }

    /// The offset of so many new bytes at the section's end.
    pub fn room(&mut self, bytes: usize) -> u32 {
        let at = self.contents.len().next_multiple_of(bytes);
        self.contents.resize(at + bytes, 0);
        at as u32
    }

    pub fn push(&mut self, at: u32, idx: u32, is_pcrel: bool, p2size: u8, is_extern: bool, ty: u8) {
        self.records.push(MachRel::new(at, idx, is_pcrel, p2size, is_extern, ty));
    }

    /// An instruction with its record.
    fn word(&mut self, word: u32, ty: u8, is_pcrel: bool, rng: &mut Rng) {
        let at = self.room(4);
        self.contents[at as usize..].copy_from_slice(&word.to_le_bytes());
        self.push(at, symbol(rng), is_pcrel, 2, true, ty);
    }

    /// The ADDEND record of the next instruction.
    fn addend(&mut self, value: u32) {
        let at = self.contents.len().next_multiple_of(4) as u32;
        self.push(at, value, false, 2, false, ty::ADDEND);
    }
}

pub fn symbol(rng: &mut Rng) -> u32 {
    rng.below(10_000) as u32
}

/// The entries of a table, and a target for each: all in reach, none that is reported.
pub fn entries(table: &Table) -> (Vec<Reloc>, Vec<Resolved>) {
    let mut entries = vec![Reloc::default(); table.records.len()];
    let n = hauklivo::read_relocs(
        &table.contents,
        MachRel::bytes(&table.records),
        &table.sections,
        Reloc::bytes_mut(&mut entries),
    );
    entries.truncate(n.expect("records that read"));
    let mut rng = Rng::new("targets", entries.len() as u64);
    let targets = entries.iter().map(|e| target(&mut rng, e.ty)).collect();
    (entries, targets)
}

fn target(rng: &mut Rng, ty: u8) -> Resolved {
    let address = BASE + 16 * rng.below(1 << 22);
    let mut flags = flag::HAS_ADDRESS;
    match ty {
        ty::UNSIGNED if rng.one_in(5) => flags |= flag::IMPORTED,
        ty::UNSIGNED if rng.one_in(20) => flags |= flag::THREAD_LOCAL,
        ty::GOT_LOAD_PAGE21..=ty::GOT_LOAD_PAGEOFF12 if rng.one_in(2) => flags |= flag::RELAXES_GOT,
        ty::TLVP_LOAD_PAGE21..=ty::TLVP_LOAD_PAGEOFF12 => flags |= flag::RELAXES_GOT,
        _ => {}
    }
    let got = BASE + 0x400_0000 + 8 * rng.below(1 << 14);
    Resolved { address, got, branch: address, flags, ..Resolved::default() }
}
