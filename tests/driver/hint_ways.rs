//! How a hint ends, told from its words, addresses and entries: for the rows of the table, and for what hint_steps.rs says
//! of the Rust's rules.

use hauklivo::Reloc;

use crate::class::is_unallocated;
use crate::hints::{DECLINED, REWRITTEN, TURNED_DOWN};

/// How a single hint ends. The first ones are rewrites, then come the sums of 9, then the reasons to decline.
#[derive(Clone, Copy, Debug, PartialEq)]
#[rustfmt::skip]
pub enum Way {
    SecondAdrp, Literal, Adr, AdrSmall, AdrStore, AdrUnaligned, AdrLoadFar, Fold, FoldStore, FoldNear, FoldNearStore,
    SlotLiteral,
    FirstSum, SecondSum,
    Number31,
    FirstEntry, SecondEntry, Targets, Addends, ThirdEntry,
    NoAdrp, NoSecond, NoAccess, NoStore, NoGotLoad, FirstLink, SecondLink, Pages,
    NoLiteralForm, Unaligned, Far, FarSlot, FarEnd, FoldUnaligned, FoldOffset,
}

pub const HINT_WAYS: [&str; 35] = [
    "rewritten: the second ADRP is NOP",
    "rewritten: a literal load",
    "rewritten: ADR",
    "rewritten: ADR, a load of 1 or 2 bytes",
    "rewritten: ADR, a store",
    "rewritten: ADR, no multiple of 4",
    "rewritten: ADR, out of the load's reach",
    "rewritten: ADD folded, out of ADR's reach",
    "rewritten: ADD folded into a store, out of ADR's reach",
    "rewritten: ADD folded, in ADR's reach",
    "rewritten: ADD folded into a store, in ADR's reach",
    "rewritten: a literal load of the slot",
    "9: page and offset",
    "9: address and the access's offset",
    "declined: number 31 links two words, or ADD makes it",
    "declined: first entry no page",
    "declined: second entry no page offset",
    "declined: entries of other targets",
    "declined: entries of other addends",
    "declined: third word with an entry",
    "declined: first word no ADRP",
    "declined: second word of another class",
    "declined: third word no load or store",
    "declined: a load where a store is needed",
    "declined: no load of a GOT slot",
    "declined: first two words by other registers",
    "declined: last two words by other registers",
    "declined: other pages",
    "declined: no literal form",
    "declined: no multiple of 4",
    "declined: out of reach",
    "declined: slot out of reach",
    "declined: slot plus offset out of reach",
    "declined: fold of an unaligned address",
    "declined: fold of an offset",
];

impl Way {
    pub fn outcome(self) -> usize {
        match self as usize {
            0..12 => REWRITTEN,
            12 | 13 => TURNED_DOWN,
            _ => DECLINED,
        }
    }

    /// Whether the Rust has ADR in place of this fold.
    pub fn is_fold_near(self) -> bool {
        [Way::FoldNear, Way::FoldNearStore].contains(&self)
    }
}

/// How the Rust ends a hint of another kind than ADRP_ADRP.
#[derive(Clone, Copy, PartialEq)]
pub enum RustEnd {
    Literal,
    Adr,
    Fold,
    SlotLiteral,
    FirstSum,
    SecondSum,
    Declined,
}

pub const RUST_ENDS: [(RustEnd, &str); 7] = [
    (RustEnd::Literal, "literal load"),
    (RustEnd::Adr, "ADR"),
    (RustEnd::Fold, "ADD folded"),
    (RustEnd::SlotLiteral, "literal load of the slot"),
    (RustEnd::FirstSum, "9: page and offset"),
    (RustEnd::SecondSum, "9: address and the access's offset"),
    (RustEnd::Declined, "declined"),
];

impl RustEnd {
    /// Of the way that `rust_way` tells.
    pub fn of(way: Way) -> Self {
        match way {
            _ if way.outcome() == DECLINED => Self::Declined,
            Way::Literal => Self::Literal,
            Way::Fold | Way::FoldStore => Self::Fold,
            Way::SlotLiteral => Self::SlotLiteral,
            Way::FirstSum => Self::FirstSum,
            Way::SecondSum => Self::SecondSum,
            _ => Self::Adr,
        }
    }
}

/// Whether a hint of a kind can end in a way.
#[rustfmt::skip]
pub fn can_end(way: usize, kind: usize) -> bool {
    use Way::*;
    let ways: &[Way] = match kind {
        1 => &[SecondAdrp, Pages],
        2 => &[Literal, FirstSum, NoLiteralForm, Far],
        3 => &[
            Literal, AdrSmall, AdrStore, AdrUnaligned, AdrLoadFar, Fold, FoldStore, FoldNear, FoldNearStore,
            FoldUnaligned, FoldOffset,
        ],
        4 => &[
            Literal, AdrSmall, AdrStore, AdrUnaligned, AdrLoadFar, Fold, FoldStore, FoldUnaligned, FoldOffset,
            SlotLiteral, FirstSum, Unaligned, FarSlot, FarEnd, NoGotLoad,
        ],
        5 => &[Adr, Fold, FoldNear, NoStore, FoldUnaligned, FoldOffset],
        6 => &[
            Adr, Fold, NoStore, FoldUnaligned, FoldOffset, SlotLiteral, FirstSum, Unaligned, FarSlot, FarEnd, NoGotLoad,
        ],
        7 => &[Adr, Far],
        _ => &[SlotLiteral, Adr, FirstSum, NoGotLoad, Far, FarSlot],
    };
    let all = [FirstEntry, SecondEntry, NoAdrp, NoSecond, FirstLink];
    let but_adrp_adrp = [Number31, Targets, Addends];
    let threes = [ThirdEntry, NoAccess, SecondLink, SecondSum];
    let holds = |list: &[Way]| list.iter().any(|&w| w as usize == way);
    holds(ways) || holds(&all) || kind != 1 && holds(&but_adrp_adrp) || (3..=6).contains(&kind) && holds(&threes)
}

/// A word that a hint names, with its address and its entry.
#[derive(Clone, Copy, Default)]
pub struct Named {
    pub word: u32,
    pub address: u64,
    pub entry: Option<Reloc>,
}

pub fn is_adrp(word: u32) -> bool {
    word >> 31 == 1 && word >> 24 & 31 == 16
}

/// The page that an ADRP at an address makes.
pub fn page_of(n: &Named) -> u64 {
    let pages = (n.word >> 5 & 0x7_ffff) << 2 | n.word >> 29 & 3;
    let signed = (pages << 11) as i32 >> 11;
    (n.address & !0xfff).wrapping_add_signed(i64::from(signed) << 12)
}

pub fn is_add(word: u32) -> bool {
    word >> 22 == 0x244
}

pub fn destination(word: u32) -> u32 {
    word & 31
}

pub fn base(word: u32) -> u32 {
    word >> 5 & 31
}

pub fn immediate(word: u32) -> u64 {
    u64::from(word >> 10 & 0xfff)
}

/// A load or store, as the manual has it: its size in bytes, and whether it stores. None for other words.
pub fn access(word: u32) -> Option<(u64, bool)> {
    if word >> 27 & 7 != 7 || word >> 24 & 3 != 1 {
        return None;
    }
    let vector = word >> 26 & 1 == 1;
    match (word >> 30, word >> 22 & 3) {
        (0, opc @ 2..) if vector => Some((16, opc == 2)),
        (_, 2..) if vector => None,
        (2, 3) | (3, 2..) => None,
        (size, opc) => Some((1 << size, opc == 0)),
    }
}

/// The word that the manual has in the class where the Rust has this one: of an unallocated word the load of its size,
/// with opc 01.
pub fn as_taken(word: u32) -> u32 {
    if is_unallocated(word) { word & !(3 << 22) | 1 << 22 } else { word }
}

/// Whether a word is a load of 4 bytes or more.
pub fn has_literal_form(word: u32) -> bool {
    access(word).is_some_and(|(size, is_store)| size >= 4 && !is_store)
}

/// Whether a word makes general register 31: ADR, ADRP, ADD, or a load, by base or literal.
fn makes_31(word: u32) -> bool {
    let is_address = word >> 24 & 31 == 16;
    let is_load = access(word).is_some_and(|(_, is_store)| !is_store);
    // Where opc is 11, a literal one is a prefetch.
    let is_literal = word >> 27 & 7 == 3 && word >> 24 & 3 == 0 && word >> 30 != 3;
    let is_general = word >> 26 & 1 == 0;
    destination(word) == 31 && (is_address || is_add(word) || is_general && (is_load || is_literal))
}

/// Whether a word is a load or store with base 31, or an ADD with source 31.
pub fn goes_by_31(word: u32) -> bool {
    base(word) == 31 && (access(word).is_some() || is_add(word))
}

/// Whether number 31 links a word to the next.
pub fn is_linked_by_31(word: u32, next: u32) -> bool {
    makes_31(word) && goes_by_31(next)
}

pub fn is_add_to_31(word: u32) -> bool {
    is_add(word) && destination(word) == 31
}

/// Whether a hint of a kind declines for number 31: it links two words, or an ADD makes it.
pub fn has_number_31(kind: u8, words: &[u32]) -> bool {
    let is_linked = words.windows(2).any(|w| is_linked_by_31(w[0], w[1]));
    kind != 1 && (is_linked || words.iter().any(|&word| is_add_to_31(word)))
}

/// Whether a type is a page's, of a GOT slot's alone if `got`.
fn is_page(entry: Option<Reloc>, got: bool) -> bool {
    entry.is_some_and(|e| [5, 8].contains(&e.ty) || e.ty == 3 && !got)
}

fn is_page_offset(entry: Option<Reloc>, got: bool) -> bool {
    entry.is_some_and(|e| [6, 9].contains(&e.ty) || e.ty == 4 && !got)
}

/// Why the entries are no page and page offset of one reference.
pub fn unpaired(n: &[Named], got: bool) -> Option<Way> {
    let (a, b) = (n[0].entry, n[1].entry);
    if !is_page(a, got) {
        return Some(Way::FirstEntry);
    }
    if !is_page_offset(b, got) {
        return Some(Way::SecondEntry);
    }
    if a.map(|e| e.target) != b.map(|e| e.target) {
        return Some(Way::Targets);
    }
    if a.map(|e| e.addend) != b.map(|e| e.addend) {
        return Some(Way::Addends);
    }
    (n.len() > 2 && n[2].entry.is_some()).then_some(Way::ThirdEntry)
}

pub fn is_near(from: u64, to: u64) -> bool {
    (to.wrapping_sub(from) as i64).unsigned_abs() < 1 << 20
}

fn when<T>(holds: bool, value: T) -> Result<(), T> {
    if holds { Err(value) } else { Ok(()) }
}

/// The words alone.
pub fn words_of(n: &[Named]) -> Vec<u32> {
    n.iter().map(|n| n.word).collect()
}

/// How the hint of a kind with its own count of words ends.
pub fn way(kind: u8, n: &[Named]) -> Way {
    if has_number_31(kind, &words_of(n)) { Way::Number31 } else { way_by_numbers(kind, n) }
}

/// How it ends where 31 is a number like any other.
fn way_by_numbers(kind: u8, n: &[Named]) -> Way {
    let ended = match kind {
        1 => adrp_adrp(n),
        2 => adrp_ldr(n),
        3 | 5 => adrp_add_access(n, kind == 5),
        7 => adrp_add(n),
        _ => got(n, kind),
    };
    ended.unwrap_or_else(|way| way)
}

/// How it ends in the Rust, but that a fold in ADR's reach is an ADR there.
pub fn rust_way(kind: u8, n: &[Named]) -> Way {
    let taken: Vec<_> = n.iter().map(|n| Named { word: as_taken(n.word), ..*n }).collect();
    way_by_numbers(kind, &taken)
}

type Ended = Result<Way, Way>;

fn adrp_adrp(n: &[Named]) -> Ended {
    when(!is_page(n[0].entry, false), Way::FirstEntry)?;
    when(!is_page(n[1].entry, false), Way::SecondEntry)?;
    when(!is_adrp(n[0].word), Way::NoAdrp)?;
    when(!is_adrp(n[1].word), Way::NoSecond)?;
    when(destination(n[0].word) != destination(n[1].word), Way::FirstLink)?;
    when(page_of(&n[0]) != page_of(&n[1]), Way::Pages)?;
    Ok(Way::SecondAdrp)
}

/// The pair, the ADRP, and its register as the base of the second word.
fn linked(n: &[Named], got: bool) -> Result<(), Way> {
    unpaired(n, got).map_or(Ok(()), Err)?;
    when(!is_adrp(n[0].word), Way::NoAdrp)?;
    when(base(n[1].word) != destination(n[0].word), Way::FirstLink)
}

fn adrp_ldr(n: &[Named]) -> Ended {
    let (size, is_store) = access(n[1].word).ok_or(Way::NoSecond)?;
    linked(n, false)?;
    let target = page_of(&n[0]).checked_add(immediate(n[1].word) * size).ok_or(Way::FirstSum)?;
    when(is_store || size < 4, Way::NoLiteralForm)?;
    // A page plus a multiple of 4: the Rust's test of that holds.
    when(!is_near(n[1].address, target), Way::Far)?;
    Ok(Way::Literal)
}

fn adrp_add(n: &[Named]) -> Ended {
    when(!is_add(n[1].word), Way::NoSecond)?;
    linked(n, false)?;
    let target = page_of(&n[0]) + immediate(n[1].word);
    when(!is_near(n[0].address, target), Way::Far)?;
    Ok(Way::Adr)
}

fn adrp_add_access(n: &[Named], stores: bool) -> Ended {
    when(!is_add(n[1].word), Way::NoSecond)?;
    let (size, is_store) = access(n[2].word).ok_or(Way::NoAccess)?;
    linked(n, false)?;
    when(base(n[2].word) != destination(n[1].word), Way::SecondLink)?;
    when(stores && !is_store, Way::NoStore)?;
    let address = page_of(&n[0]) + immediate(n[1].word);
    let offset = immediate(n[2].word) * size;
    let target = address.checked_add(offset).ok_or(Way::SecondSum)?;
    let is_aligned = target.is_multiple_of(4);
    when(has_literal_form(n[2].word) && is_aligned && is_near(n[2].address, target), Way::Literal)?;
    let reaches = is_near(n[0].address, target);
    let folds = address.is_multiple_of(size) && offset == 0;
    when(reaches && !folds, adr(n, is_aligned, stores))?;
    when(!address.is_multiple_of(size), Way::FoldUnaligned)?;
    when(offset != 0, Way::FoldOffset)?;
    Ok(match (reaches, is_store && !stores) {
        (false, false) => Way::Fold,
        (false, true) => Way::FoldStore,
        (true, false) => Way::FoldNear,
        (true, true) => Way::FoldNearStore,
    })
}

/// An ADR, by why it is no literal load.
fn adr(n: &[Named], is_aligned: bool, stores: bool) -> Way {
    let is_store = access(n[2].word).is_some_and(|(_, is_store)| is_store);
    match (stores, is_store, has_literal_form(n[2].word)) {
        (true, ..) => Way::Adr,
        (_, true, _) => Way::AdrStore,
        (_, _, false) => Way::AdrSmall,
        _ if !is_aligned => Way::AdrUnaligned,
        _ => Way::AdrLoadFar,
    }
}

fn got(n: &[Named], kind: u8) -> Ended {
    if kind != 8 {
        let (_, is_store) = access(n[2].word).ok_or(Way::NoAccess)?;
        when(kind == 6 && !is_store, Way::NoStore)?;
    }
    unpaired(n, true).map_or(Ok(()), Err)?;
    when(!is_adrp(n[0].word), Way::NoAdrp)?;
    let word = n[1].word;
    when(access(word).is_none() && !is_add(word), Way::NoSecond)?;
    when(access(word).is_some() && word >> 22 != 0x3e5, Way::NoGotLoad)?;
    when(base(word) != destination(n[0].word), Way::FirstLink)?;
    if is_add(word) {
        return relaxed(n, kind, page_of(&n[0]) + immediate(word));
    }
    slot(n, kind)
}

fn slot(n: &[Named], kind: u8) -> Ended {
    let slot = page_of(&n[0]).checked_add(immediate(n[1].word) * 8).ok_or(Way::FirstSum)?;
    if kind != 8 {
        let (size, _) = access(n[2].word).ok_or(Way::NoAccess)?;
        let end = slot.checked_add(immediate(n[2].word) * size).ok_or(Way::SecondSum)?;
        when(base(n[2].word) != destination(n[1].word), Way::SecondLink)?;
        when(end % 4 != 0, Way::Unaligned)?;
        when(!is_near(n[1].address, end), Way::FarEnd)?;
    }
    when(!is_near(n[1].address, slot), Way::FarSlot)?;
    Ok(Way::SlotLiteral)
}

fn relaxed(n: &[Named], kind: u8, target: u64) -> Ended {
    if kind == 8 {
        when(!is_near(n[0].address, target), Way::Far)?;
        return Ok(Way::Adr);
    }
    when(base(n[2].word) != destination(n[1].word), Way::SecondLink)?;
    let (size, is_store) = access(n[2].word).ok_or(Way::NoAccess)?;
    let offset = immediate(n[2].word) * size;
    let stores = kind == 6;
    let is_aligned = target.is_multiple_of(4);
    if has_literal_form(n[2].word) && is_aligned {
        let end = target.checked_add(offset).ok_or(Way::SecondSum)?;
        when(is_near(n[2].address, end), Way::Literal)?;
    }
    when(is_near(n[0].address, target), adr(n, is_aligned, stores))?;
    when(!target.is_multiple_of(size), Way::FoldUnaligned)?;
    when(if stores { offset != 0 } else { immediate(n[1].word) + offset >= 4096 }, Way::FoldOffset)?;
    Ok(if is_store && !stores { Way::FoldStore } else { Way::Fold })
}

/// The rows and columns of the table of ADRP_ADD_LDR and ADRP_ADD_STR in reach of an ADR, where it is no literal load.
pub const IN_REACH: [&str; 3] = ["ADRP_ADD_LDR, a load", "ADRP_ADD_LDR, a store", "ADRP_ADD_STR"];
pub const FOLD_OR_ADR: [&str; 7] = ["1", "2", "4", "8", "16", "offset", "unaligned"];

/// Row and column of a hint of these kinds that ends in a fold, of so many bytes, or in an ADR: of an access with an offset
/// of its own, or of an address that is no multiple of the bytes moved.
pub fn in_reach(kind: u8, n: &[Named], way: Way) -> Option<(usize, usize)> {
    let (size, is_store) = access(n.get(2)?.word)?;
    let row = if kind == 5 { 2 } else { usize::from(is_store) };
    let is_adr = [Way::Adr, Way::AdrSmall, Way::AdrStore, Way::AdrUnaligned, Way::AdrLoadFar].contains(&way);
    match (kind, way) {
        (3 | 5, way) if way.is_fold_near() => Some((row, size.ilog2() as usize)),
        (3 | 5, _) if is_adr => Some((row, if immediate(n[2].word) != 0 { 5 } else { 6 })),
        _ => None,
    }
}
