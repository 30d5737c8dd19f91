//! Hints with unallocated words and with the accesses beside them: their rows of the table, and their cases.

use hauklivo::HintRecord;

use crate::World;
use crate::class::{NEIGHBOURS, UNALLOCATED, with_neighbours};
use crate::hint_groups::{OBJECTS, in_order, place_at};
use crate::hint_shape::{BASE, LOADS, NOP, Shape, bytes, laid};
use crate::hint_ways::{RUST_ENDS, RustEnd, Way, access, base, has_literal_form};
use crate::hints::{Case, REWRITTEN, check};
use crate::rng::Digits;
use crate::run::{Group, Verdict};
use crate::table::Table;

/// The rows of the table of such hints: the word's bits 31..22, and the end.
pub fn unallocated_ends() -> Vec<String> {
    UNALLOCATED.iter().flat_map(|class| RUST_ENDS.map(|(_, end)| format!("{class:03x}, {end}"))).collect()
}

/// Its columns: kinds, and the place of the word.
#[rustfmt::skip]
const HOLDERS: [(u8, usize); 20] = [
    (1, 0), (1, 1), (2, 0), (2, 1), (3, 0), (3, 1), (3, 2), (4, 0), (4, 1), (4, 2),
    (5, 0), (5, 1), (5, 2), (6, 0), (6, 1), (6, 2), (7, 0), (7, 1), (8, 0), (8, 1),
];

pub fn holders() -> [String; 20] {
    HOLDERS.map(|(kind, place)| format!("{kind}: w{place}"))
}

/// Whether the table has a row in a column.
pub fn can_hold(row: usize, column: usize) -> bool {
    use RustEnd::*;
    let is_4_bytes = row / RUST_ENDS.len() == 2;
    let ends: &[RustEnd] = match HOLDERS[column] {
        (2, 1) => &[FirstSum],
        (3, 2) => &[Adr, Fold, SecondSum],
        (4, 2) => &[Adr, Fold, SlotLiteral, FirstSum, SecondSum],
        _ => &[],
    };
    match RUST_ENDS[row % RUST_ENDS.len()].0 {
        Declined => true,
        Literal => is_4_bytes && !ends.is_empty(),
        end => ends.contains(&end),
    }
}

/// Row and column of a hint's word, if it is unallocated.
pub fn unallocated(kind: u8, place: usize, word: u32, rust: Way) -> Option<(usize, usize)> {
    let class = UNALLOCATED.iter().position(|&class| class == word >> 22)?;
    let column = HOLDERS.iter().position(|&held| held == (kind, place))?;
    let row = RUST_ENDS.iter().position(|row| row.0 == RustEnd::of(rust))?;
    Some((class * RUST_ENDS.len() + row, column))
}

/// Whether a hint of kind 2 + column can be rewritten with the access of a row as its last word.
pub fn can_be_neighbour(row: usize, column: usize) -> bool {
    let word = NEIGHBOURS[row] << 22;
    let is_store = access(word).is_some_and(|(_, is_store)| is_store);
    match column {
        0 => has_literal_form(word),
        1 | 2 => true,
        _ => is_store,
    }
}

/// Row and column of the last word of a hint that is rewritten.
pub fn neighbour(kind: u8, place: usize, word: u32, way: Way) -> Option<(usize, usize)> {
    let row = NEIGHBOURS.iter().position(|&class| class == word >> 22)?;
    let is_last = (kind, place) == (2, 1) || (3..7).contains(&kind) && place == 2;
    (is_last && way.outcome() == REWRITTEN).then(|| (row, kind as usize - 2))
}

pub fn groups() -> Vec<Group> {
    vec![
        Group::new("hints/unallocated", 14 * 7 * 4 * 3 * 4, 4_704, last_words),
        Group::new("hints/turns", 3 * 2 * 5 * 7 * 2 * 3 * 4, 5_040, turns),
    ]
}

/// The kinds whose last word is an access, and whether the second word of a GOT kind is ADD.
const ACCESSED: [(u8, bool); 7] = [(2, false), (3, false), (4, false), (4, true), (5, false), (6, false), (6, true)];

/// A hint's target in reach of the load, of the ADRP alone, or of neither; or in the last page of all, where an offset
/// passes the end.
pub fn place(shape: &mut Shape, offsets: [u32; 3], away: usize) {
    let base = if away == 3 { LAST } else { BASE };
    (shape.page, shape.addresses) = (base + 0x4000, offsets.map(|offset| base + u64::from(offset)));
    place_at(shape, away % 3);
}

/// As `BASE`, at the end of the address space.
const LAST: u64 = u64::MAX - 0x4fff;

/// Unallocated words and the accesses beside them as the last word.
fn last_words(index: u64, world: &World, table: &mut Table) -> Verdict {
    let mut d = Digits(index);
    let class = d.pick(&with_neighbours());
    let (kind, is_relaxed) = d.pick(&ACCESSED);
    let (immediate, offset) = (d.pick(&[0x10, 0x12, 0x13, 0xfff]), d.pick(&[0, 1, 0xfff]));
    let mut shape = Shape { class, is_relaxed, ..Shape::new(kind) };
    shape.immediates = if kind == 2 { [immediate | offset, 0] } else { [immediate, offset] };
    place(&mut shape, [0, 4, 8], d.next(4));
    check(&shape.case(), world, table).map(|_| ())
}

/// What a first hint makes of the word at 0.
#[derive(Clone, Copy, PartialEq)]
pub enum Made {
    Adr,
    Literal,
    Nop,
}

/// A hint that rewrites the word at 0, and one whose last word is three bytes of that and the byte after. Where the
/// first makes an ADR of an ADRP, the last word of the second is unallocated before that and an access after it; where
/// it makes a literal load of a load of 16 bytes, a store before and unallocated after it; where it makes a NOP of an
/// ADRP, unallocated before and after it, and after it through x25.
fn turns(index: u64, world: &World, table: &mut Table) -> Verdict {
    let mut d = Digits(index);
    let made = d.pick(&[Made::Adr, Made::Literal, Made::Nop]);
    let last_byte = d.pick(&[0x7d, 0xbd]);
    // Bit 1 of an ADR's distance tells a store from a load in the last word.
    let distances = match made {
        Made::Adr => [0x400, 0x401, 0x402, 0x403, 0x2402],
        _ => [0x400, 0x410, 0x7f0, 0x2400, 0x4400],
    };
    let distance = d.pick(&distances);
    let (kind, is_relaxed) = d.pick(&ACCESSED);
    let (order, objects, away) = (d.next(2), d.pick(&OBJECTS), d.next(4));
    // The base of the last word: bits 14..10 of the distance, or 25.
    let link = if made == Made::Nop { base(NOP >> 8) } else { distance >> 10 & 31 };
    let mut second = Shape { is_relaxed, ..Shape::new(kind) };
    (second.adrp, second.second) = if kind == 2 { (link, [link, 3]) } else { (1, [1, link]) };
    let offsets = if kind == 2 { [12, 1, 0] } else { [12, 16, 1] };
    place(&mut second, offsets, away);
    let mut case = Case::new(bytes(&[NOP; 6]), &[], &[]);
    let second = laid(&mut case, &second, offsets);
    let first = first(&mut case, made, distance, away == 3);
    case.image[4] = last_byte;
    in_order(&mut case, [first, second], order, objects);
    check(&case, world, table).map(|_| ())
}

/// A hint whose target is that far away: ADRP_ADD with its ADRP at 0, or ADRP_LDR with its load, of 16 bytes, or its ADRP
/// there.
pub fn first(case: &mut Case, made: Made, distance: u32, is_last: bool) -> HintRecord {
    let base = if is_last { LAST } else { BASE };
    let target = base + u64::from(distance);
    let (kind, unit, offsets) = match made {
        Made::Adr => (7, 1, [0, 8, 0]),
        Made::Literal => (2, 16, [8, 0, 0]),
        Made::Nop => (2, 16, [0, 8, 0]),
    };
    let mut shape = Shape { page: target & !0xfff, class: LOADS[4], ..Shape::new(kind) };
    shape.immediates[0] = (target & 0xfff) as u32 / unit;
    shape.addresses = offsets.map(|offset| base + u64::from(offset));
    laid(case, &shape, offsets)
}
