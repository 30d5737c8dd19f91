//! Words of a hint, made so that its rule rewrites them, and changed from there.

use hauklivo::{HintInsn, HintRecord, Record, Reloc};

use crate::hint_ways::{Named, access, as_taken};
use crate::hints::{Case, word_count};

pub const NOP: u32 = 0xd503_201f;
const ADRP: u32 = 0x9000_0000;
const ADD: u32 = 0x9100_0000;

/// Bits 31..22 of loads and stores.
pub const LDR_X: u32 = 0x3e5;
pub const STR_X: u32 = 0x3e4;
pub const LDRSW: u32 = 0x2e6;

/// Loads, and stores, of 1, 2, 4, 8 and 16 bytes.
pub const LOADS: [u32; 5] = [0x0e5, 0x1e5, 0x2e5, LDR_X, 0x0f7];
pub const STORES: [u32; 5] = [0x0e4, 0x1e4, 0x2e4, STR_X, 0x0f6];

pub const BASE: u64 = 0x1_0000_4000;

/// What the words of a hint say.
#[derive(Clone)]
pub struct Shape {
    pub kind: u8,
    /// The second word of a GOT kind is ADD, not a load.
    pub is_relaxed: bool,
    /// The page that the ADRP makes, if it reaches it.
    pub page: u64,
    pub addresses: [u64; 3],
    /// Destination of the ADRP; source and destination of the second word; base and register of the third.
    pub adrp: u32,
    pub second: [u32; 2],
    pub third: [u32; 2],
    /// Bits 31..22 of the load or store.
    pub class: u32,
    /// The immediates of the second and the third word.
    pub immediates: [u32; 2],
    pub entries: [Option<Reloc>; 3],
}

pub fn entry(ty: u8) -> Option<Reloc> {
    Some(Reloc { ty, size: 4, target: 5, ..Reloc::default() })
}

impl Shape {
    /// Words that the rule of a kind rewrites.
    pub fn new(kind: u8) -> Self {
        let entries = match kind {
            1 => [entry(3), entry(3), None],
            4 | 6 | 8 => [entry(5), entry(6), None],
            _ => [entry(3), entry(4), None],
        };
        Self {
            kind,
            is_relaxed: false,
            page: BASE + 0x4000,
            addresses: [BASE, BASE + 4, BASE + 8],
            adrp: 1,
            second: [1, 2],
            third: [2, 3],
            class: if [5, 6].contains(&kind) { STR_X } else { LDR_X },
            immediates: [0x10, 0],
            entries,
        }
    }

    pub fn words(&self) -> Vec<u32> {
        let access = |immediate: u32, [base, register]: [u32; 2]| {
            self.class << 22 | (immediate & 0xfff) << 10 | base << 5 | register
        };
        let [source, destination] = self.second;
        let immediate = (self.immediates[0] & 0xfff) << 10;
        let second = match self.kind {
            1 => adrp(self.page, self.addresses[1], source),
            2 => access(self.immediates[0], self.second),
            4 | 6 | 8 if !self.is_relaxed => LDR_X << 22 | immediate | source << 5 | destination,
            _ => ADD | immediate | source << 5 | destination,
        };
        let all = [adrp(self.page, self.addresses[0], self.adrp), second, access(self.immediates[1], self.third)];
        all[..word_count(self.kind).max(2)].to_vec()
    }

    pub fn named(&self) -> Vec<Named> {
        let one = |(i, word)| Named { word, address: self.addresses[i], entry: self.entries[i] };
        self.words().into_iter().enumerate().map(one).collect()
    }

    /// The bytes of an access, as the Rust takes it.
    pub fn size(&self) -> u64 {
        access(as_taken(self.class << 22)).map_or(1, |a| a.0)
    }

    pub fn case(&self) -> Case {
        single(self.kind, &self.named())
    }
}

/// ADRP of a page, from an address.
fn adrp(page: u64, from: u64, register: u32) -> u32 {
    let pages = (page >> 12).wrapping_sub(from >> 12) as u32;
    ADRP | (pages & 3) << 29 | (pages >> 2 & 0x7_ffff) << 5 | register
}

/// The places of words that stand one after another, with their entries at the end of a list.
pub fn places(named: &[Named], entries: &mut Vec<Reloc>) -> [HintInsn; 3] {
    let mut places = [HintInsn { offset: u32::MAX, entry: 0x55, address: 0x77 }; 3];
    for (i, (place, n)) in places.iter_mut().zip(named).enumerate() {
        let number = n.entry.map_or(HintInsn::WITHOUT_ENTRY, |_| entries.len() as u32);
        entries.extend(n.entry);
        *place = HintInsn { offset: 4 * i as u32, entry: number, address: n.address };
    }
    places
}

pub fn bytes(words: &[u32]) -> Vec<u8> {
    words.iter().flat_map(|w| w.to_le_bytes()).collect()
}

/// One hint, whose part is its words, between two words more.
pub fn single(kind: u8, named: &[Named]) -> Case {
    let mut entries = Vec::new();
    let places = places(named, &mut entries);
    let mut words = vec![NOP];
    words.extend(named.iter().map(|n| n.word));
    words.push(NOP);
    let length = 4 * named.len() as u32;
    let hint = HintRecord { kind, words: word_count(kind) as u8, ignored: 0xa5a5, object: 3, start: 4, length, places };
    Case::new(bytes(&words), &[hint], &entries)
}

/// A hint over a whole image, with its words laid there.
pub fn laid(case: &mut Case, shape: &Shape, offsets: [u32; 3]) -> HintRecord {
    let mut entries = Reloc::list(&case.entries).expect("whole entries");
    let mut places = places(&shape.named(), &mut entries);
    case.entries = Reloc::bytes(&entries).to_vec();
    for ((place, offset), word) in places.iter_mut().zip(offsets).zip(shape.words()) {
        place.offset = offset;
        case.image[offset as usize..][..4].copy_from_slice(&word.to_le_bytes());
    }
    let (words, length) = (word_count(shape.kind) as u8, case.image.len() as u32);
    HintRecord { kind: shape.kind, words, length, places, ..HintRecord::default() }
}
