//! The class of a load or store: the port's entry against what the Rust's parse_ldst says of the word.

use hauklivo::{load_store_class, raw};

use crate::answers::{CLASS, record};
use crate::rng::{Digits, Rng};
use crate::rows::Rows;
use crate::run::{Group, Verdict};
use crate::table::Table;
use crate::{Access, Difference, World};

/// How many words each value of bits 31 to 22 is asked with: low bits all 0, all 1, and random ones.
const WORDS: u64 = 8;

pub fn groups() -> Vec<Group> {
    vec![Group::new("class/words", 1024 * WORDS, 1024 * WORDS, words)]
}

/// Bits 31..22 of the words of a vector register that the manual leaves unallocated and parse_ldst takes for loads.
pub const UNALLOCATED: [u32; 3] = [0x1f6, 0x1f7, 0x2f6];

/// Of the accesses beside them: of the other register file, of 1 or 16 bytes, or with another opc.
pub const NEIGHBOURS: [u32; 11] = [0x1e6, 0x1e7, 0x2e6, 0x0f4, 0x0f5, 0x0f6, 0x0f7, 0x1f4, 0x1f5, 0x2f4, 0x2f5];

/// The unallocated ones, then those beside them.
pub fn with_neighbours() -> Vec<u32> {
    [UNALLOCATED.as_slice(), &NEIGHBOURS].concat()
}

pub fn is_unallocated(word: u32) -> bool {
    UNALLOCATED.contains(&(word >> 22))
}

/// What parse_ldst takes such a word for. It sets `is_ldrsw` by size and opc alone; to_literal, which alone reads that,
/// asks for the register first.
pub fn taken_for(word: u32) -> Access {
    let is_ldrsw = word >> 22 == 0x2f6;
    Access { bytes: 1 << (word >> 30), is_store: false, is_vector: true, is_ldrsw }
}

#[derive(Clone)]
pub struct Case {
    pub word: u32,
}

/// What a word is; None where it is no load or store.
pub type Answer = Option<Access>;

pub fn rust(case: &Case, world: &World) -> Answer {
    (world.oracle.parse_ldst)(case.word)
}

/// The entry of an access. It may be one that has no place in a byte, of a changed Rust.
fn entry(answer: &Answer) -> u64 {
    let Some(a) = answer else { return 0 };
    8 * a.bytes + 4 * u64::from(a.is_store) + 2 * u64::from(a.is_vector) + u64::from(a.is_ldrsw)
}

/// Holds the port to the expected answer on a case: the entry, and what the Rust crate makes of it.
fn check(case: &Case, world: &World, table: &mut Table) -> Verdict {
    let due = world.differences.class(case, world)?;
    let number = raw::hauklivo_load_store_class(case.word);
    let told = load_store_class(case.word).map(|c| {
        let bytes = c.bytes.into();
        Access { bytes, is_store: c.is_store, is_vector: c.is_vector, is_ldrsw: c.is_ldrsw }
    });
    if u64::from(number) != entry(&due) || told != due {
        return Err(Difference {
            input: format!("word {:08x}", case.word),
            port: format!("{number}, {told:?}"),
            expected: format!("{}, {due:?}", entry(&due)),
        });
    }
    let row = match &due {
        None => 6 * usize::from(is_unallocated(case.word)),
        Some(a) if a.is_ldrsw => 3,
        Some(a) => 1 + usize::from(!a.is_store) + 3 * usize::from(a.is_vector),
    };
    table.hit(Rows::ClassKind as usize, row);
    table.note(|| record(CLASS, number, &[], &[&case.word.to_le_bytes()]));
    Ok(())
}

fn words(index: u64, world: &World, table: &mut Table) -> Verdict {
    let mut d = Digits(index);
    let (high, way) = (d.next(1024), d.next(WORDS as usize));
    let low = match way {
        0 => 0,
        1 => (1 << 22) - 1,
        _ => Rng::new("class/words", index).word() >> 10,
    };
    check(&Case { word: (high as u32) << 22 | low }, world, table)?;
    table.hit(Rows::ClassBits as usize, way.min(2) * 1024 + high);
    Ok(())
}
