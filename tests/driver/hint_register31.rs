//! Hints that decline for number 31, and hints in which it is no reason to: their rows of the table, and their cases.

use hauklivo::HintRecord;

use crate::World;
use crate::class::UNALLOCATED;
use crate::hint_groups::{CLASSED, OBJECTS, SECONDS, in_order, with_second};
use crate::hint_shape::{BASE, LDR_X, NOP, STORES, STR_X, Shape, bytes, laid, single};
use crate::hint_unallocated::{Made, first, place};
use crate::hint_ways::{
    RUST_ENDS, RustEnd, Way, access, destination, goes_by_31, has_number_31, is_add, is_add_to_31, is_adrp,
    is_linked_by_31, words_of,
};
use crate::hints::{Answer, Case, DECLINED, REWRITTEN, SKIPPED, TURNED_DOWN, check, named, starts};
use crate::rng::Digits;
use crate::rows::{HintList, Rows};
use crate::run::{Group, Verdict};
use crate::table::Table;

/// What makes the number 31 that a hint declines for.
#[derive(Clone, Copy, PartialEq)]
enum Reason {
    Adrp,
    Add,
    AdrpAndAdd,
    GotLoad,
    AdrpAndGotLoad,
    Other,
}

const REASONS: [(Reason, &str); 6] = [
    (Reason::Adrp, "ADRP"),
    (Reason::Add, "ADD"),
    (Reason::AdrpAndAdd, "ADRP and ADD"),
    (Reason::GotLoad, "GOT load"),
    (Reason::AdrpAndGotLoad, "ADRP and GOT load"),
    (Reason::Other, "other words"),
];

/// Why a hint declines for number 31; None where it does not.
fn reason(kind: u8, words: &[u32]) -> Option<Reason> {
    let is_by_31 = |i: usize| words.get(i + 1).is_some_and(|&next| is_linked_by_31(words[i], next));
    has_number_31(kind, words).then(|| {
        let (adrp, load) = (is_adrp(words[0]) && is_by_31(0), words[1] >> 22 == LDR_X && is_by_31(1));
        match (adrp, is_add_to_31(words[1]), load) {
            (true, false, false) => Reason::Adrp,
            (false, true, _) => Reason::Add,
            (true, true, _) => Reason::AdrpAndAdd,
            (false, false, true) => Reason::GotLoad,
            (true, false, true) => Reason::AdrpAndGotLoad,
            (false, false, false) => Reason::Other,
        }
    })
}

/// Whether the Rust can end a hint of a kind so, that declines for a reason.
fn can_be(reason: Reason, end: RustEnd, kind: u8) -> bool {
    use RustEnd::*;
    let by_add: &[RustEnd] = match kind {
        3 | 4 => &[Literal, Adr, Fold, SecondSum],
        5 => &[Adr, Fold, SecondSum],
        6 => &[Adr, Fold],
        7 | 8 => &[Adr],
        _ => &[],
    };
    let by_load: &[RustEnd] = match kind {
        2 => &[Literal, FirstSum],
        4 | 6 => &[SlotLiteral, FirstSum, SecondSum],
        8 => &[SlotLiteral, FirstSum],
        _ => &[],
    };
    let links_three = [Reason::GotLoad, Reason::AdrpAndGotLoad].contains(&reason);
    match reason {
        _ if links_three && ![3, 4, 5, 6].contains(&kind) => false,
        _ if end == Declined => true,
        Reason::Adrp => by_add.contains(&end) || by_load.contains(&end),
        Reason::Add | Reason::AdrpAndAdd => by_add.contains(&end),
        Reason::GotLoad | Reason::AdrpAndGotLoad => by_load.contains(&end),
        Reason::Other => false,
    }
}

/// The rows of the table of such hints, those that some kind has.
fn rows() -> impl Iterator<Item = (Reason, RustEnd)> {
    let all = REASONS.iter().flat_map(|&(reason, _)| RUST_ENDS.map(|(end, _)| (reason, end)));
    all.filter(|&(reason, end)| (2..9).any(|kind| can_be(reason, end, kind)))
}

pub fn reasons() -> impl Iterator<Item = String> {
    rows().map(|(reason, end)| format!("{}: {}", REASONS[reason as usize].1, RUST_ENDS[end as usize].1))
}

/// Whether the table has a row in the column of kind 2 + column.
pub fn can_decline(row: usize, column: usize) -> bool {
    rows().nth(row).is_some_and(|(reason, end)| can_be(reason, end, column as u8 + 2))
}

/// Row and column of a hint that declines for number 31.
pub fn declined(kind: u8, words: &[u32], rust: Way) -> Option<(usize, usize)> {
    let of_hint = (reason(kind, words)?, RustEnd::of(rust));
    rows().position(|row| row == of_hint).map(|row| (row, kind as usize - 2))
}

/// Words with number 31 that are no reason to decline, and which kinds with them are rewritten, which decline all the same,
/// and which are turned down by 9.
struct Stay {
    name: &'static str,
    holds: fn(&[u32]) -> bool,
    kinds: [&'static [u8]; 3],
}

const ALL: &[u8] = &[1, 2, 3, 4, 5, 6, 7, 8];
const BUT_1: &[u8] = &[2, 3, 4, 5, 6, 7, 8];
const THREE: &[u8] = &[3, 4, 5, 6];

const STAYS: [Stay; 11] = [
    Stay { name: "ADRP to 31", holds: |w| is_adrp(w[0]) && destination(w[0]) == 31, kinds: [&[1], ALL, &[]] },
    Stay {
        name: "ADRP to another, then by 31",
        holds: |w| is_adrp(w[0]) && destination(w[0]) != 31 && goes_by_31(w[1]),
        kinds: [&[], BUT_1, &[]],
    },
    Stay {
        name: "last word a load into 31",
        holds: |w| is_last(w, false, false),
        kinds: [&[2, 3, 4, 8], BUT_1, &[2, 3, 4, 8]],
    },
    Stay {
        name: "last word a store of 31",
        holds: |w| is_last(w, false, true),
        kinds: [THREE, BUT_1, &[2, 3, 4, 5, 6]],
    },
    Stay {
        name: "last word a load into vector 31",
        holds: |w| is_last(w, true, false),
        kinds: [&[2, 3, 4], BUT_1, &[2, 3, 4]],
    },
    Stay {
        name: "last word a store of vector 31",
        holds: |w| is_last(w, true, true),
        kinds: [THREE, BUT_1, &[2, 3, 4, 5, 6]],
    },
    Stay {
        name: "GOT load into 31, then by another",
        holds: |w| w.len() > 2 && w[1] >> 22 == LDR_X && destination(w[1]) == 31 && access(w[2]).is_some(),
        kinds: [&[], THREE, &[4, 6]],
    },
    Stay {
        name: "GOT load into another, then by 31",
        holds: |w| w.len() > 2 && w[1] >> 22 == LDR_X && destination(w[1]) != 31 && goes_by_31(w[2]),
        kinds: [&[], THREE, &[4, 6]],
    },
    Stay {
        name: "load into vector 31, then by 31",
        holds: |w| w.len() > 2 && is_access_of_31(w[1], true, false) && goes_by_31(w[2]),
        kinds: [&[], THREE, &[]],
    },
    Stay {
        name: "store of 31, then by 31",
        holds: |w| w.len() > 2 && is_access_of_31(w[1], false, true) && goes_by_31(w[2]),
        kinds: [&[], THREE, &[]],
    },
    Stay {
        name: "ADD to 31 of 32 bits or shifted",
        holds: |w| w[1] & 0x7f80_001f == 0x1100_001f && !is_add(w[1]),
        kinds: [&[], BUT_1, &[]],
    },
];

/// Whether a word is a load, or a store, of register 31, a vector register or a general one.
fn is_access_of_31(word: u32, is_vector: bool, is_store: bool) -> bool {
    let is_such = access(word).is_some_and(|(_, stores)| stores == is_store);
    is_such && destination(word) == 31 && (word >> 26 & 1 == 1) == is_vector
}

fn is_last(words: &[u32], is_vector: bool, is_store: bool) -> bool {
    words.last().is_some_and(|&word| is_access_of_31(word, is_vector, is_store))
}

/// The rows of the table of what stays: the words by their number, the outcome, and the kinds.
fn stays_and_outcomes() -> impl Iterator<Item = (usize, usize, &'static [u8])> {
    let outcomes = [REWRITTEN, DECLINED, TURNED_DOWN];
    let of = move |(i, stay): (usize, &Stay)| {
        let kinds = stay.kinds;
        outcomes.into_iter().zip(kinds).map(move |(outcome, kinds)| (i, outcome, kinds))
    };
    STAYS.iter().enumerate().flat_map(of).filter(|row| !row.2.is_empty())
}

pub fn stays() -> impl Iterator<Item = String> {
    let ends = ["rewritten", "skipped", "declined", "by 9"];
    stays_and_outcomes().map(move |(i, outcome, _)| format!("{}: {}", STAYS[i].name, ends[outcome]))
}

/// Whether the table has a row in the column of kind 1 + column.
pub fn can_stay(row: usize, column: usize) -> bool {
    stays_and_outcomes().nth(row).is_some_and(|row| row.2.contains(&(column as u8 + 1)))
}

/// Rows and column of a hint that does not decline for number 31.
pub fn stayed(kind: u8, words: &[u32], outcome: usize) -> Vec<(usize, usize)> {
    if has_number_31(kind, words) {
        return Vec::new();
    }
    let holds = |row: &(usize, (usize, usize, _))| row.1.1 == outcome && (STAYS[row.1.0].holds)(words);
    stays_and_outcomes().enumerate().filter(holds).map(|row| (row.0, kind as usize - 1)).collect()
}

/// Hints that decline by a row of docs/DIFFERENCES.md for number 31, and what other hints make of the words.
pub fn record_number_31(case: &Case, list: &[HintRecord], answer: &Answer, hit: &mut impl FnMut(HintList)) {
    for (i, hint) in list.iter().enumerate() {
        let lent = words_of(&named(&case.image, &case.entries, hint));
        let was_reason = has_number_31(hint.kind, &lent);
        match answer.outcomes[i] {
            REWRITTEN if was_reason => hit(HintList::No31Rewritten),
            TURNED_DOWN if was_reason => hit(HintList::No31Nine),
            _ => {}
        }
        let words = answer.ended_by_row(i, DECLINED);
        let Some(reason) = words.and_then(|words| reason(hint.kind, words)) else { continue };
        match reason {
            _ if was_reason => {}
            Reason::Adrp => hit(HintList::Made31Adrp),
            Reason::Add => hit(HintList::Made31Add),
            Reason::GotLoad => hit(HintList::Made31GotLoad),
            _ => {}
        }
        if answer.tally[TURNED_DOWN] > 0 {
            hit(HintList::By31AndNine);
        }
        let adrp = starts(hint)[0];
        for j in (0..list.len()).filter(|&j| j != i && starts(&list[j]).contains(&adrp)) {
            match answer.outcomes[j] {
                REWRITTEN if list[j].kind == 1 => hit(HintList::By31Dropped),
                REWRITTEN => hit(HintList::By31SharedAdrp),
                _ => {}
            }
        }
    }
}

pub fn groups() -> Vec<Group> {
    let (words, shared, seconds) = (WORDS.len() as u64, SHARED.len() as u64, SECONDS.len() as u64);
    vec![
        Group::new("hints/31", 11 * 5 * 32 * 8, 14_080, fields),
        Group::new("hints/31-words", words * 24 * 4 * 2, 6_528, other_words),
        Group::new("hints/31-turns", 2 * shared * 4 * 4 * 2 * 3 * 2, 6_144, turns),
        Group::new("hints/31-one-adrp", 10 * 4 * seconds * 2 * 3, 2_880, one_adrp),
        Group::new("hints/31-skipped", 10 * 4 * 6, 240, skipped),
    ]
}

/// The kinds, and whether the second word of a GOT kind is ADD.
#[rustfmt::skip]
const KINDS: [(u8, bool); 11] = [
    (1, false), (2, false), (3, false), (4, false), (4, true), (5, false), (6, false), (6, true), (7, false), (8, false),
    (8, true),
];

/// Loads and stores of general and vector registers, and an unallocated word.
const CLASSES: [u32; 5] = [LDR_X, STR_X, 0x0f7, 0x2f4, UNALLOCATED[2]];

/// Where a target is, as `place` takes it, and the immediates of the second and third word.
#[rustfmt::skip]
const PLACED: [(usize, [u32; 2]); 8] = [
    (0, [0x10, 0]), (0, [0x12, 1]), (1, [0x10, 0]), (2, [0x10, 0]), (2, [0x12, 1]), (3, [0x10, 0]), (3, [0xfff, 0]),
    (3, [0x10, 0xfff]),
];

/// 31 in every choice of the register fields.
fn fields(index: u64, world: &World, table: &mut Table) -> Verdict {
    let mut d = Digits(index);
    let (kind, is_relaxed) = d.pick(&KINDS);
    let mut shape = Shape { is_relaxed, class: d.pick(&CLASSES), ..Shape::new(kind) };
    let mut or_31 = |number| d.pick(&[number, 31]);
    (shape.adrp, shape.second, shape.third) = (or_31(1), [or_31(1), or_31(2)], [or_31(2), or_31(3)]);
    let away;
    (away, shape.immediates) = d.pick(&PLACED);
    place(&mut shape, [0, 4, 8], away);
    check(&shape.case(), world, table).map(|_| ())
}

/// Words without their registers: ADR and ADRP; ADD, shifted, of 32 bits, with flags, and SUB; literal loads and a
/// prefetch; loads, stores and a prefetch by a base, of general registers; such of vector registers; unallocated ones; NOP.
#[rustfmt::skip]
const WORDS: [u32; 34] = [
    0x1000_0000, 0x9000_0000,
    0x9100_4000, 0x9140_4000, 0x1100_4000, 0xb100_4000, 0xd100_4000,
    0x1800_0000, 0x5800_0000, 0x9800_0000, 0xd800_0000, 0x1c00_0000, 0x5c00_0000, 0x9c00_0000,
    0x3940_4000, 0x3980_4000, 0x39c0_4000, 0x7940_4000, 0xb940_4000, 0xb980_4000, 0xf940_4000,
    0x3900_4000, 0x7900_4000, 0xb900_4000, 0xf900_4000, 0xf980_4000,
    0x3d40_4000, 0xbd40_4000, 0xfd40_4000, 0x3dc0_4000, 0x3d80_4000,
    0x7d80_4000, 0xbd80_4000,
    NOP & !0x3ff,
];

/// Each of these as each word of each kind, the words beside it by its registers or by others.
fn other_words(index: u64, world: &World, table: &mut Table) -> Verdict {
    let mut d = Digits(index);
    let (word, (kind, i, is_relaxed)) = (d.pick(&WORDS), d.pick(&CLASSED));
    let (register, base, other) = (d.next(2), d.next(2), d.next(2));
    let beside = [[31, 2][register ^ other], [31, 1][base ^ other]];
    let (register, base) = ([31, 2][register], [31, 1][base]);
    let mut shape = Shape { is_relaxed, ..Shape::new(kind) };
    match i {
        0 => shape.second[0] = beside[0],
        1 => (shape.third[0], shape.adrp) = (beside[0], beside[1]),
        _ => shape.second[1] = beside[1],
    }
    let mut named = shape.named();
    named[i].word = word | base << 5 | register;
    check(&single(kind, &named), world, table).map(|_| ())
}

/// A word of a hint that shares three bytes with a word of another hint: the kind, whether the second word of a GOT kind is
/// ADD, the word's place, and its last byte.
#[rustfmt::skip]
const SHARED: [(u8, bool, usize, u8); 16] = [
    (2, false, 1, 0xf9), (4, false, 1, 0xf9), (6, false, 1, 0xf9), (8, false, 1, 0xf9),
    (3, false, 1, 0x91), (4, true, 1, 0x91), (5, false, 1, 0x91), (6, true, 1, 0x91), (7, false, 1, 0x91),
    (8, true, 1, 0x91),
    (3, false, 2, 0xf9), (4, false, 2, 0xf9), (4, true, 2, 0xf9), (5, false, 2, 0xf9), (6, false, 2, 0xf9),
    (6, true, 2, 0xf9),
];

/// A hint that rewrites the word at 0, and one with a word that is three bytes of that and the byte after. Where the first
/// makes an ADR of an ADRP, that word becomes an ADD, a load or a store, and the distance holds its registers; where it
/// takes away the offset of a store, which held its registers, that word goes on with others.
fn turns(index: u64, world: &World, table: &mut Table) -> Verdict {
    let mut d = Digits(index);
    let makes_adr = d.next(2) == 0;
    let (kind, is_relaxed, i, last_byte) = d.pick(&SHARED);
    let is_load = last_byte == 0xf9 && (i == 1 || kind < 5);
    let (register, base) = (d.pick(&[31, 3]), d.pick(&[31, 1]));
    let after = if makes_adr { [register, base] } else { [3, 0] };
    // The words beside it go by its registers after the first hint, or by 31.
    let beside = after.map(|number| d.pick(&[number, 31]));
    let (order, objects, away) = (d.next(2), d.pick(&OBJECTS), d.pick(&[0, 3]));
    let mut second = Shape { is_relaxed, ..Shape::new(kind) };
    match i {
        1 => (second.third[0], second.adrp) = (beside[0], beside[1]),
        _ => second.second[1] = beside[1],
    }
    let offsets = if i == 1 { [12, 1, 16] } else { [12, 16, 1] };
    place(&mut second, offsets, away);
    let mut case = Case::new(bytes(&[NOP; 6]), &[], &[]);
    let second = laid(&mut case, &second, offsets);
    let first = match makes_adr {
        true => first(&mut case, Made::Adr, base << 10 | register << 5 | u32::from(is_load) << 1, false),
        false => store_at_0(&mut case, STORES[usize::from(is_load)], base << 3 | register >> 2),
    };
    case.image[4] = last_byte;
    in_order(&mut case, [first, second], order, objects);
    check(&case, world, table).map(|_| ())
}

/// ADRP_ADD_STR with its store, of 1 or 2 bytes, at 0; an ADR takes its offset in.
fn store_at_0(case: &mut Case, class: u32, offset: u32) -> HintRecord {
    let offsets = [8, 20, 0];
    let mut shape = Shape { class, second: [1, 24], third: [24, 3], ..Shape::new(5) };
    shape.immediates[1] = offset;
    shape.addresses = offsets.map(|offset| BASE + u64::from(offset));
    laid(case, &shape, offsets)
}

/// A hint by a link from the ADRP and one from the second word, each of them 31 or another.
fn by_links(d: &mut Digits) -> Shape {
    let (kind, is_relaxed) = d.pick(&KINDS[1..]);
    let (link, made) = (d.pick(&[1, 31]), d.pick(&[2, 31]));
    Shape { is_relaxed, adrp: link, second: [link, made], third: [made, 3], ..Shape::new(kind) }
}

/// Such a hint, and a second one that names its ADRP.
fn one_adrp(index: u64, world: &World, table: &mut Table) -> Verdict {
    let mut d = Digits(index);
    let first = by_links(&mut d);
    let link = first.adrp;
    let (mut case, list) = with_second(first, 0, d.pick(&SECONDS), link);
    in_order(&mut case, list, d.next(2), d.pick(&OBJECTS));
    check(&case, world, table).map(|_| ())
}

/// Such a hint with a word count, mostly another than its kind's.
fn skipped(index: u64, world: &World, table: &mut Table) -> Verdict {
    let mut d = Digits(index);
    let shape = by_links(&mut d);
    let mut case = shape.case();
    let mut list = case.list();
    list[0].words = d.pick(&[0, 1, 2, 3, 4, 255]);
    case.set_list(&list);
    let answer = check(&case, world, table)?;
    let is_met = has_number_31(shape.kind, &shape.words()) && answer.outcomes[0] == SKIPPED;
    table.hit_if(is_met, Rows::HintList as usize, HintList::By31Skipped as usize);
    Ok(())
}
