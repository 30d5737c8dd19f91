//! An image of instruction sequences with a hint for each.

use hauklivo::{HintInsn, HintRecord, Reloc, kind, ty};

use crate::rng::Rng;

const BASE: u64 = 0x1_0000_0000;
/// The bytes of one hint's words, and of a part: a function of sixteen such sequences.
const STRIDE: usize = 16;
const PART: usize = 16 * STRIDE;

/// Which object each hint is of.
#[derive(Clone, Copy)]
pub enum Objects {
    One,
    /// A hundred hints each, by rising number.
    Many,
    /// Each hint of its own object, by falling number: the order that costs most.
    Falling,
}

impl Objects {
    fn of(self, i: usize, n: usize) -> u32 {
        match self {
            Self::One => 0,
            Self::Many => i as u32 / 100,
            Self::Falling => (n - i) as u32,
        }
    }
}

/// What a hint run is lent.
pub struct Sequences {
    pub image: Vec<u8>,
    pub hints: Vec<HintRecord>,
    pub entries: Vec<Reloc>,
}

impl Sequences {
    pub fn new(n: usize, objects: Objects) -> Self {
        let mut rng = Rng::new("hints", n as u64);
        let mut image = vec![0; (n * STRIDE).next_multiple_of(PART)];
        let mut entries = Vec::new();
        let mut hints = Vec::new();
        for i in 0..n {
            // Of twenty hints two name two ADRPs, ten a pair, eight a pair and a load or store through it.
            let kind = rng.pick(&[1, 1, 2, 2, 2, 3, 3, 3, 4, 4, 5, 5, 6, 7, 7, 7, 7, 7, 8, 8]);
            let at = i * STRIDE;
            let words = words(&mut rng, kind);
            for (k, word) in words.into_iter().enumerate() {
                image[at + 4 * k..][..4].copy_from_slice(&word.to_le_bytes());
            }
            let first = entries.len() as u32;
            let types = types(kind);
            for (k, ty) in types.into_iter().enumerate() {
                let offset = (at + 4 * k) as u32;
                entries.push(Reloc { offset, ty, size: 4, target: i as u32, ..Reloc::default() });
            }
            hints.push(hint(kind, objects.of(i, n), at, first));
        }
        Self { image, hints, entries }
    }
}

/// Whether a kind has a third word, a load or store through the address.
fn has_access(kind: u8) -> bool {
    (kind::ADRP_ADD_LDR..=kind::ADRP_LDR_GOT_STR).contains(&kind)
}

/// The types of a hint's first two entries.
fn types(kind: u8) -> [u8; 2] {
    match kind {
        1 => [ty::PAGE21, ty::PAGE21],
        4 | 6 | 8 => [ty::GOT_LOAD_PAGE21, ty::GOT_LOAD_PAGEOFF12],
        _ => [ty::PAGE21, ty::PAGEOFF12],
    }
}

/// A sequence as a fix-up leaves it; half of them reach within 1 MiB. Of these, ADRP, ADD and an access without a literal
/// form have an offset in the access: without one the port folds where the Rust has ADR (docs/DIFFERENCES.md).
fn words(rng: &mut Rng, kind: u8) -> [u32; 3] {
    let page = rng.below(29) as u32;
    let made = rng.below(29) as u32;
    let reaches = rng.one_in(2);
    let pages = if reaches { rng.below(200) } else { 0x1000 + rng.below(0x1000) } as u32;
    let adrp = 0x9000_0000 | (pages & 3) << 29 | (pages >> 2) << 5 | page;
    let imm = rng.below(256) as u32;
    let add = 0x9100_0000 | ((imm * 16) << 10) | page << 5 | made;
    let slot = 0xf940_0000 | imm << 10 | page << 5 | made;
    let loads = [0xf940_0000, 0xf940_0000, 0xb940_0000, 0x3dc0_0000, 0x3940_0000];
    let stores = [0xf900_0000, 0xf900_0000, 0xb900_0000, 0x3d80_0000, 0x3900_0000];
    let offset = rng.pick(&[0, 0, 0, 1, 2]) << 10;
    let own = if reaches { offset.max(1 << 10) } else { offset };
    match kind {
        1 => [adrp, adrp, 0],
        2 => [adrp, rng.pick(&loads) | imm << 10 | page << 5 | made, 0],
        3 => match rng.pick(&loads) {
            byte @ 0x3940_0000 => [adrp, add, byte | own | made << 5 | 9],
            load => [adrp, add, load | offset | made << 5 | 9],
        },
        4 => [adrp, rng.pick(&[add, slot]), rng.pick(&loads) | offset | made << 5 | 9],
        5 => [adrp, add, rng.pick(&stores) | own | made << 5 | 9],
        6 => [adrp, rng.pick(&[add, slot]), rng.pick(&stores) | offset | made << 5 | 9],
        7 => [adrp, add, 0],
        _ => [adrp, rng.pick(&[add, slot]), 0],
    }
}

/// The hint whose words stand at `at` of the image; its part is the function around it.
fn hint(kind: u8, object: u32, at: usize, first: u32) -> HintRecord {
    let start = at - at % PART;
    let place = |k: usize, entry: u32| {
        let place = at + 4 * k;
        HintInsn { offset: (place - start) as u32, entry, address: BASE + place as u64 }
    };
    let places = [place(0, first), place(1, first + 1), place(2, HintInsn::WITHOUT_ENTRY)];
    let words = if has_access(kind) { 3 } else { 2 };
    HintRecord { kind, words, object, start: start as u32, length: PART as u32, places, ..HintRecord::default() }
}
