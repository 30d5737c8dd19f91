//! The cases of the fix-up.

use hauklivo::{Record, Reloc, Report, Resolved, Target, flag};

use crate::class::UNALLOCATED;
use crate::fixup::{Case, check, of_lengths};
use crate::reader_lists::flip;
use crate::rng::{Digits, Rng};
use crate::rows::{ON_UNALLOCATED_FIXED, Rows};
use crate::run::{Group, Verdict};
use crate::table::Table;
use crate::{Difference, World};

const NOP: u32 = 0xd503_201f;
const ADD_X: u32 = 0x9100_0000;
const LDR_X: u32 = 0xf940_0000;
const LDR_W: u32 = 0xb940_0000;
const ADRP: u32 = 0x9000_0000;
const BL: u32 = 0x9400_0000;
const B: u32 = 0x1400_0000;

pub const BASE: u64 = 0x1_0000_4000;
pub const SECTION: u32 = Target::SECTION;

pub fn groups() -> Vec<Group> {
    vec![
        Group::new("fixup/words", 5 * 1024 * 3 * 16, 30_000, words),
        Group::new("fixup/unallocated", 3 * 5 * 3 * 16, 720, unallocated),
        Group::new("fixup/alignment", 6 * 4096 * 2 * 2, 30_000, alignment),
        Group::new("fixup/branches", 65 * 8 * 5 * 4 * 4, 10_000, branches),
        Group::new("fixup/pages", 5 * 19 * 4 * 2 * 4 * 4 * 3, 10_000, pages),
        Group::new("fixup/flags", 512 * 11 * 2 * 3, 33_792, flags),
        Group::new("fixup/flawed", 64 * 13 * 2, 1_664, flawed),
        Group::new("fixup/bounds", 14 * 20 * 18 * 4 * 2 * 4, 24_000, bounds),
        Group::new("fixup/differences", 256 * 14 * 5 * 3, 10_000, differences),
        Group::new("fixup/runs", 5 * 7u64.pow(5), 8_000, runs),
        Group::new("fixup/overflow", 20 * 21 * 13 * 2, 4_000, overflow),
        Group::new("fixup/lengths", 76 * 151 * 6, 6_000, lengths),
        Group::new("fixup/lists", 900_000, 30_000, lists),
        Group::new("fixup/damaged", 900_000, 30_000, damaged),
    ]
}

pub fn entry(offset: u32, ty: u8, size: u8) -> Reloc {
    Reloc { offset, ty, size, target: 5, ..Reloc::default() }
}

pub fn at(address: u64) -> Resolved {
    Resolved { address, flags: flag::HAS_ADDRESS, ..Resolved::default() }
}

fn bytes(words: &[u32]) -> Vec<u8> {
    words.iter().flat_map(|w| w.to_le_bytes()).collect()
}

/// Page offsets of five kinds: PAGEOFF12; GOT and TLVP, of the slot and relaxed.
fn page_offset(kind: usize, value: u64) -> (Reloc, Resolved) {
    let other = 0x7777_7777_7777;
    let (ty, relaxed) = [(4, true), (6, false), (6, true), (9, false), (9, true)][kind];
    let (address, got) = if relaxed { (value, other) } else { (other, value) };
    let relaxes = if relaxed && kind != 0 { flag::RELAXES_GOT } else { 0 };
    (entry(0, ty, 4), Resolved { got, flags: flag::HAS_ADDRESS | relaxes, ..at(address) })
}

/// Every class of word under each kind of page offset, with each alignment to 16.
fn words(index: u64, world: &World, table: &mut Table) -> Verdict {
    let mut d = Digits(index);
    let (class, kind, low, aligned) = (d.next(1024), d.next(5), d.next(3), d.next(16));
    let mut rng = Rng::new("fixup/words", index);
    let low = [0, u32::MAX, rng.word()][low] & 0x3f_ffff;
    let value = rng.next() & !15 | aligned as u64;
    let section = bytes(&[(class as u32) << 22 | low]);
    check(&Case::new(section, BASE, &[page_offset(kind, value)]), world, table)?;
    table.hit(Rows::FixupClass as usize, kind * 1024 + class);
    Ok(())
}

/// Unallocated words under each kind of page offset, with each alignment to 16: they have the scale of their size.
fn unallocated(index: u64, world: &World, table: &mut Table) -> Verdict {
    let mut d = Digits(index);
    let (class, kind, low, aligned) = (d.next(3), d.next(5), d.next(3), d.next(16));
    let mut rng = Rng::new("fixup/unallocated", index);
    let low = [0, u32::MAX, rng.word()][low] & 0x3f_ffff;
    let value = rng.next() & !15 | aligned as u64;
    let section = bytes(&[UNALLOCATED[class] << 22 | low]);
    let answer = check(&Case::new(section, BASE, &[page_offset(kind, value)]), world, table)?;
    let report = Report::list(&answer.reports).expect("whole reports").first().map_or(0, |r| r.kind);
    let row = ON_UNALLOCATED_FIXED.iter().position(|row| (row.0, row.1) == (kind, report));
    table.hit_cell(Rows::FixupUnallocated as usize, row.expect("a row of the table"), class);
    Ok(())
}

/// Every page offset under an access of each size, and under ADD.
fn alignment(index: u64, world: &World, table: &mut Table) -> Verdict {
    let mut d = Digits(index);
    let (low, size, kind, store) = (d.next(4096), d.next(6), d.next(2), d.next(2));
    let load = [0x3940_0000, 0x7940_0000, LDR_W, LDR_X, 0x3dc0_0000, ADD_X][size];
    let word = if store == 1 && size < 5 { load ^ 0x0040_0000 } else { load };
    let value = Rng::new("fixup/alignment", index).next() & !0xfff | low as u64;
    let section = bytes(&[word | 0x0015_57e3]);
    check(&Case::new(section, BASE, &[page_offset(kind, value)]), world, table)?;
    table.hit(Rows::FixupAlignment as usize, size * 4096 + low);
    Ok(())
}

/// Branches around the limits of reach, with thunks around theirs.
fn branches(index: u64, world: &World, table: &mut Table) -> Verdict {
    let mut d = Digits(index);
    let i = d.next(65);
    let far = [1 << 31, -(1 << 31), 1 << 32, -(1 << 32), 1 << 62, -(1 << 62), i64::MAX, i64::MIN];
    let distance = match i {
        0..57 => [-(1i64 << 27), 0, 1 << 27][i / 19] + (i % 19) as i64 - 9,
        _ => far[i - 57],
    };
    let way = d.next(8);
    let addend = d.pick(&[0, 4, -4, 1, i64::MIN]);
    let word = d.pick(&[B, BL, NOP, 0xffff_ffff]);
    let base = d.pick(&[BASE, 0, 1 << 63, u64::MAX - 0xff]);
    let target = base.wrapping_add_signed(distance);
    let from_thunk = [0, 0, 1 << 32, (1 << 32) - 0x1000, -(1i64 << 32), -(1i64 << 32) - 0x1000, 0, 0];
    let branch = target.wrapping_add_signed(addend.wrapping_neg());
    let is_section = way > 5;
    let mut t = Resolved {
        branch: if is_section { 0x55 } else { branch },
        thunk: target.wrapping_sub(from_thunk[way] as u64),
        ..at(if is_section { branch } else { 0x66 })
    };
    if (1..7).contains(&way) {
        t.flags |= flag::HAS_THUNK;
    }
    let e = Reloc { addend, target: if is_section { SECTION } else { 5 }, ..entry(0, 2, 4) };
    check(&Case::new(bytes(&[word]), base, &[(e, t)]), world, table)?;
    if i < 57 {
        table.hit(Rows::FixupBranchLimit as usize, i);
    }
    Ok(())
}

/// Pages around the limits of ADRP's reach.
fn pages(index: u64, world: &World, table: &mut Table) -> Verdict {
    let mut d = Digits(index);
    let (i, kind) = (d.next(19), d.next(5));
    let pages = match i {
        0..15 => [-(1i64 << 20), 0, 1 << 20][i / 5] + (i % 5) as i64 - 2,
        _ => [1 << 50, -(1 << 50), (1 << 51) - 1, -(1 << 51)][i - 15],
    };
    let low = d.pick(&[0, 1, 0xff8, 0xfff]);
    let offset = d.pick(&[0, 0xffc]);
    let addend = d.pick(&[0, 1, -1, 0x7fff_ffff_ffff_f000]);
    let random = Rng::new("fixup/pages", index).word();
    let word = d.pick(&[ADRP, 0xf0ff_ffe3, NOP, random]);
    let base = d.pick(&[BASE, 0, u64::MAX - 0x1fff]);
    let place = base + offset;
    let value = (place & !0xfff).wrapping_add_signed(pages << 12) | low;
    let value = value.wrapping_add_signed(i64::wrapping_neg(addend));
    let (mut e, t) = page_offset(kind, value);
    e = Reloc { ty: [3, 5, 5, 8, 8][kind], offset: offset as u32, addend, ..e };
    let mut section = vec![0; offset as usize];
    section.extend(bytes(&[word]));
    check(&Case::new(section, base, &[(e, t)]), world, table)?;
    if i < 15 {
        table.hit(Rows::FixupAdrpLimit as usize, kind * 15 + i);
    }
    Ok(())
}

/// A target with five addresses that tell which one was used: near, far, or misaligned.
fn five(place: usize, flags: u32) -> Resolved {
    let (step, low) = [(0x1_0000, 0), (0x7_0000_0000, 0), (0x1_0000, 3)][place];
    let address = |i: u64| BASE + i * step + low;
    Resolved {
        address: address(1),
        got: address(2),
        branch: address(3),
        thunk: address(4),
        helper: address(5),
        flags,
        zero: 0,
    }
}

/// The case with an image base from which an authenticated pointer reaches what is near the section.
fn near(case: Case) -> Case {
    let image_base = BASE.wrapping_sub(case.image_base >> 33);
    Case { image_base, ..case }
}

/// Every combination of the nine flags, for each type, of a symbol and of a section.
fn flags(index: u64, world: &World, table: &mut Table) -> Verdict {
    let mut d = Digits(index);
    let (flags, row, kind, place) = (d.next(512), d.next(11), d.next(2), d.next(3));
    let ty = [0, 1, 2, 3, 4, 5, 6, 7, 8, 9, 11][row];
    let e = Reloc { target: [5, SECTION + 5][kind], ..entry(0, ty, 8) };
    let next = (entry(0, 0, 8), at(0x1357_9bdf));
    let pairs = [(e, five(place, flags as u32)), next];
    let pairs = &pairs[..if ty == 1 { 2 } else { 1 }];
    check(&near(Case::new(bytes(&[LDR_X | 0x21, NOP]), BASE, pairs)), world, table)?;
    table.hit(Rows::FixupFlags as usize, (kind * 11 + row) * 512 + flags);
    Ok(())
}

/// Flags that no target has, and last bytes that are not zero, for each type.
fn flawed(index: u64, world: &World, table: &mut Table) -> Verdict {
    let mut d = Digits(index);
    let (flaw, ty, kind) = (d.next(64), d.next(13), d.next(2));
    let mut t = five(0, flag::HAS_ADDRESS);
    match flaw {
        0..32 => t.flags |= 1 << flaw,
        _ => t.zero = 1 << (flaw - 32),
    }
    if flaw == 0 {
        t.flags |= flag::PROBE | flag::IS_ENABLED;
    }
    let e = Reloc { target: [5, SECTION + 5][kind], ..entry(0, ty as u8, 8) };
    let pairs = [(e, t), (entry(0, 0, 8), at(0x1357_9bdf))];
    check(&Case::new(bytes(&[LDR_X, NOP]), BASE, &pairs), world, table).map(|_| ())
}

/// Every type at each offset of sections of each small length.
fn bounds(index: u64, world: &World, table: &mut Table) -> Verdict {
    let mut d = Digits(index);
    let (ty, offset, len) = (d.pick(&[0, 1, 2, 3, 4, 5, 6, 7, 8, 9, 10, 11, 12, 255]), d.next(20), d.next(18));
    let size = d.pick(&[4, 8, 0, 255]);
    let target = d.pick(&[5, SECTION]);
    let flags = d.pick(&[flag::HAS_ADDRESS, 0, flag::IMPORTED | flag::HAS_ADDRESS, flag::HAS_HELPER]);
    let e = Reloc { target, ..entry(offset as u32, ty, size) };
    let pairs = [(e, five(0, flags)), (entry(0, 0, 8), at(0x1357_9bdf))];
    let pairs = &pairs[..if ty == 1 { 2 } else { 1 }];
    check(&near(Case::new(vec![0xee; len], BASE, pairs)), world, table).map(|_| ())
}

/// SUBTRACTOR with each size field, before each type, good or bad in what is not looked at.
fn differences(index: u64, world: &World, table: &mut Table) -> Verdict {
    let mut d = Digits(index);
    let (size, next, state, len) = (d.next(256), d.next(14), d.next(5), d.pick(&[8, 7, 4]));
    let mut rng = Rng::new("fixup/differences", index);
    let addend = rng.next() as i64;
    let own = (Reloc { addend, ..entry(0, 1, size as u8) }, at(rng.next()));
    let ty = if next == 13 { 255 } else { next as u8 };
    let mut taken = (Reloc { addend: rng.next() as i64, ..entry(0, ty, 8) }, at(rng.next()));
    match state {
        0 => {}
        1 => taken.0.offset = u32::MAX,
        2 => taken.1.flags = u32::MAX,
        3 => taken.0.target = SECTION,
        _ => {
            let alone = Case::new(vec![0xee; len], BASE, &[own]);
            return check(&alone, world, table).map(|_| ());
        }
    }
    check(&Case::new(vec![0xee; len], BASE, &[own, taken]), world, table).map(|_| ())
}

/// Every run of one to five entries of seven kinds, SUBTRACTOR among them, on the same bytes.
fn runs(index: u64, world: &World, table: &mut Table) -> Verdict {
    let mut d = Digits(index);
    let n = 1 + d.next(5);
    let pairs: Vec<_> = (0..n)
        .map(|i| {
            let kind = d.next(7);
            let ty = [0, 1, 2, 4, 1, 10, 11][kind];
            let size = if kind == 4 { 4 } else { 8 };
            (entry(4 * (i as u32 % 2), ty, size), five(i % 3, flag::HAS_ADDRESS))
        })
        .collect();
    check(&near(Case::new(bytes(&[LDR_X, BL, NOP]), BASE, &pairs)), world, table).map(|_| ())
}

/// Places around the end of the address space.
fn overflow(index: u64, world: &World, table: &mut Table) -> Verdict {
    let mut d = Digits(index);
    let (under, offset, ty, target) = (d.next(20), d.next(21), d.next(13), d.pick(&[5, SECTION]));
    let base = u64::MAX - under as u64;
    let e = Reloc { target, ..entry(offset as u32, ty as u8, 8) };
    let pairs = [(e, five(0, flag::HAS_ADDRESS)), (entry(0, 0, 8), at(0x1357_9bdf))];
    let pairs = &pairs[..if ty == 1 { 2 } else { 1 }];
    check(&Case::new(vec![0xee; 24], base, pairs), world, table).map(|_| ())
}

/// Every short length of entries and targets, with slots around what is needed.
fn lengths(index: u64, world: &World, table: &mut Table) -> Verdict {
    let mut d = Digits(index);
    let (entries, targets, slots) = (d.next(76), d.next(151), d.next(6));
    let mut case = Case::new(bytes(&[LDR_X, NOP]), BASE, &[(entry(0, 0, 8), at(0x55)); 4]);
    case.entries.truncate(entries);
    case.targets.truncate(targets);
    case.slots = (24 * (entries / 24) + [0, 1, 24, 0, 0, 0][slots]).saturating_sub([0, 0, 0, 1, 23, 24][slots]);
    check(&case, world, table).map(|_| ())
}

/// An address near the place, around a limit of reach, or anywhere, of some alignment.
fn some_address(rng: &mut Rng, place: u64) -> u64 {
    let around = |rng: &mut Rng, middle: i64, most: u64| {
        place.wrapping_add_signed(middle + rng.below(2 * most) as i64 - most as i64)
    };
    let address = match rng.below(8) {
        0..3 => around(rng, 0, 1 << 20),
        3 => {
            let middle = rng.pick(&[1 << 27, -(1 << 27)]);
            around(rng, middle, 16)
        }
        4 => {
            let middle = rng.pick(&[1 << 32, -(1 << 32)]);
            around(rng, middle, 0x3000)
        }
        5 => rng.pick(&[0, 1, u64::MAX, 1 << 63, (1 << 63) - 1]),
        6 => rng.next(),
        _ => around(rng, 0, 1 << 33),
    };
    address & !rng.pick(&[0, 1, 3, 7, 15, 15])
}

fn some_word(rng: &mut Rng) -> u32 {
    match rng.below(4) {
        0 => rng.word(),
        1 => rng.pick(&[ADRP, B, BL, NOP, ADD_X]) | rng.word() & 0x1f,
        2 => rng.pick(&[LDR_X, LDR_W, ADD_X]) | rng.word() & 0x3f_ffff,
        _ => 0x3900_0000 | rng.word() & 0xc4ff_ffff,
    }
}

fn some_flags(rng: &mut Rng) -> u32 {
    let mut flags = rng.word() & rng.word() & 0x1ff | (rng.word() & flag::HAS_ADDRESS);
    if rng.one_in(2) {
        flags |= flag::HAS_ADDRESS;
    }
    if flags & flag::PROBE != 0 {
        flags &= !flag::IS_ENABLED;
    }
    if !rng.one_in(4) {
        flags &= !(flag::PROBE | flag::IS_ENABLED);
    }
    flags
}

/// An entry in a section of `len` bytes at `base`, with its target, that is mostly fixed up.
fn good_pair(rng: &mut Rng, base: u64, len: u64) -> (Reloc, Resolved) {
    let offset = rng.below(len - 7) & !rng.pick(&[3, 3, 3, 0]);
    let ty = rng.pick(&[0, 1, 2, 3, 4, 5, 6, 7, 8, 9, 11, 11]);
    let place = base.wrapping_add(offset);
    let flags = some_flags(rng);
    let needs_symbol = ty >= 5 && !(ty == 5 && flags & flag::HAS_HELPER != 0);
    let is_section = !needs_symbol && rng.one_in(3);
    let addend = match rng.below(4) {
        0 | 1 => 0,
        2 => rng.below(1 << 13) as i64 - (1 << 12),
        _ => rng.next() as i64,
    };
    let size = rng.pick(&[4, 4, 8, 8, 1, 2, 16, 0]);
    let target = rng.word() & !SECTION | if is_section { SECTION } else { 0 };
    let e = Reloc { offset: offset as u32, ty, size, target, addend, ..some_rest(rng) };
    let near = |rng: &mut Rng| some_address(rng, place).wrapping_add_signed(i64::wrapping_neg(addend));
    let t = Resolved {
        address: near(rng),
        got: near(rng),
        branch: near(rng),
        thunk: some_address(rng, place),
        helper: some_address(rng, place),
        flags,
        zero: 0,
    };
    (e, t)
}

/// A list of entries that is mostly fixed up.
fn good_list(rng: &mut Rng) -> Case {
    let n = rng.pick(&[0, 1, 1, 1, 2, 3, 4, 6]);
    let words: Vec<_> = (0..2 + rng.below(8)).map(|_| some_word(rng)).collect();
    let base = match rng.below(8) {
        0 => u64::MAX - 0xff,
        1 => rng.next() >> 1,
        2 => 0,
        _ => BASE + 4 * rng.below(1 << 12),
    };
    let pairs: Vec<_> = (0..n).map(|_| good_pair(rng, base, 4 * words.len() as u64)).collect();
    let mut case = Case::new(bytes(&words), base, &pairs);
    case.tls_begin = rng.next();
    case.image_base = match rng.below(8) {
        0 => rng.next(),
        1 => base.wrapping_add(rng.below(1 << 33)),
        _ => base.wrapping_sub(rng.below(1 << 32)),
    };
    case
}

/// The fields of an entry that a fix-up does not look at, unless it is an authenticated pointer's.
pub fn some_rest(rng: &mut Rng) -> Reloc {
    let [is_pcrel, is_subtracted, address_diversity, key] = rng.word().to_le_bytes();
    let diversity = rng.next() as u16;
    Reloc { is_pcrel, is_subtracted, diversity, address_diversity, key, ..Reloc::default() }
}

fn lists(index: u64, world: &World, table: &mut Table) -> Verdict {
    let mut rng = Rng::new("fixup/lists", index);
    let mut case = good_list(&mut rng);
    case.slots += rng.pick(&[0, 0, 0, 1, 23, 24, 48]);
    check(&case, world, table).map(|_| ())
}

/// A good list with one to three spots damaged.
fn damaged(index: u64, world: &World, table: &mut Table) -> Verdict {
    let mut rng = Rng::new("fixup/damaged", index);
    let mut case = good_list(&mut rng);
    for _ in 0..1 + rng.below(3) {
        damage(&mut rng, &mut case);
    }
    check(&case, world, table).map(|_| ())
}

fn damage(rng: &mut Rng, case: &mut Case) {
    match rng.below(10) {
        0..3 => flip(rng, &mut case.entries),
        3 | 4 => flip(rng, &mut case.targets),
        5 => flip(rng, &mut case.section),
        6 => {
            let len = case.section.len();
            case.section.truncate(len - rng.below(len.min(12) as u64 + 1) as usize);
        }
        7 => {
            // One entry fewer, with or without its target.
            let len = case.entries.len();
            case.entries.truncate(len.saturating_sub(rng.pick(&[24, 24, 24, 1])));
            if !rng.one_in(4) {
                case.targets.truncate(case.entries.len() / 24 * 48);
            }
        }
        8 => case.slots = (case.slots + 3).saturating_sub(rng.below(30) as usize),
        _ => case.base = u64::MAX - rng.below(40),
    }
}

/// Lists of as many entries as are allowed and one more, in memory that is reserved but not there.
pub fn long_lists(reserved: &[u8]) -> Result<u64, Difference> {
    let most = u32::MAX as usize;
    for n in [most, most + 1] {
        let (entries, targets) = (n * Reloc::SIZE, n * Resolved::SIZE);
        let expected = of_lengths(entries, targets, 0).unwrap_or(0);
        let (mut section, mut slots, mut count) = ([0u8; 0], [0u8; 0], 7);
        // SAFETY: the reserved bytes are as many as the lists have.
        let number = unsafe {
            hauklivo::raw::hauklivo_apply_reloc_alloc(
                section.as_mut_ptr(),
                0,
                0,
                0,
                0,
                reserved.as_ptr(),
                entries,
                reserved.as_ptr(),
                targets,
                slots.as_mut_ptr(),
                0,
                &mut count,
            )
        };
        if number != expected || count != 7 {
            return Err(Difference {
                input: format!("apply_reloc_alloc: {n} entries and targets, no slots"),
                port: format!("{number}, count {count}"),
                expected: format!("{expected}, count 7"),
            });
        }
    }
    Ok(2)
}
