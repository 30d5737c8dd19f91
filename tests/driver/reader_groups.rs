//! The cases of the arm64 reader.

use hauklivo::MachRel;

use crate::class::{UNALLOCATED, with_neighbours};
use crate::reader::{self, check, supported};
use crate::reader_arm64::Arm64;
use crate::reader_authenticated::{put64, some_pointer};
use crate::reader_lists::{SECTIONS, check_damaged, check_good, record, short_lists, some_address, some_index};
use crate::rng::{Digits, Rng};
use crate::rows::{OnUnallocated, Rows};
use crate::run::{Group, Verdict};
use crate::table::Table;
use crate::{Difference, World};

type Case = reader::Case<Arm64>;

const NOP: u32 = 0xd503_201f;
const LDR_X: u32 = 0xf940_0000;
const LDR_W: u32 = 0xb940_0000;
const LDR_B: u32 = 0x3940_0000;
const LDR_D: u32 = 0xfd40_0000;
const LDR_Q: u32 = 0x3dc0_0000;
const ADD_X: u32 = 0x9100_0000;
const ADD_W: u32 = 0x1100_0000;

pub fn groups() -> Vec<Group> {
    vec![
        Group::new("reader/forms", 256 * 5 * 6 * 4 * 2, 16_000, forms),
        Group::new("reader/words", 1024 * 2 * 5 * 4, 10_000, words),
        Group::new("reader/unallocated", 14 * 4 * 6 * 5 * 2 * 3 * 2, 20_160, unallocated),
        Group::new("reader/bounds", 16 * 13 * 15 * 3, 9_360, bounds),
        Group::new("reader/lengths", 41 * 131 * 2, 2_000, lengths),
        Group::new("reader/addends", 12 * 8192, 4_000, addends),
        Group::new("reader/lists", 900_000, 30_000, lists),
        Group::new("reader/damaged", 900_000, 30_000, damaged),
    ]
}

fn put(bytes: &mut [u8], at: usize, word: u32) {
    if let Some(place) = bytes.get_mut(at..at + 4) {
        place.copy_from_slice(&word.to_le_bytes());
    }
}

/// Every type and form, after each kind of record, with indices around the section count.
fn forms(index: u64, world: &World, table: &mut Table) -> Verdict {
    let mut d = Digits(index);
    let (form, ty) = (d.next(16), d.next(16));
    let addend = record(0, 10, 4, 0xff_fffe);
    let subtractor = record(0, 1, 12, 9);
    let before: [&[MachRel]; 5] = [&[], &[subtractor], &[addend], &[record(0, 0, 14, 9)], &[subtractor, addend]];
    let before = d.pick(&before);
    let idx = d.pick(&[0, 1, 2, 3, 4, 0xff_ffff]);
    let word = d.pick(&[NOP, LDR_X, LDR_W, ADD_X]);
    let offset = d.pick(&[0, 5]);
    let mut contents = vec![0xee; 16];
    put(&mut contents, if before.is_empty() { offset } else { 0 }, word);
    put(&mut contents, offset, word);
    let records = [before, &[record(offset as u32, ty, form, idx)]].concat();
    let answer = check(&Case::new(Arm64, contents, &records, &SECTIONS), world, table)?;
    if answer == Err(5) {
        table.hit_cell(Rows::ReaderUnsupported as usize, ty, form);
    }
    Ok(())
}

/// Every class of word under the two page offsets that look at it.
fn words(index: u64, world: &World, table: &mut Table) -> Verdict {
    let mut d = Digits(index);
    let (class, kind, low, offset) = (d.next(1024), d.next(2), d.next(5), d.next(4));
    let random = Rng::new("words", index).word();
    let low = [0, u32::MAX, 0x1555_5555, 0x2aaa_aaaa, random][low] & 0x3f_ffff;
    let mut contents = vec![0; 8];
    put(&mut contents, offset, (class as u32) << 22 | low);
    let records = [record(offset as u32, [6, 9][kind], 12, 1)];
    let answer = check(&Case::new(Arm64, contents, &records, &[]), world, table)?;
    table.hit(Rows::ReaderClass as usize, kind * 1024 + class);
    table.hit(Rows::ReaderWord as usize, 2 * kind + usize::from(answer.is_err()));
    Ok(())
}

/// TLVP and GOT page offsets on unallocated words and on the accesses beside them, of a symbol and, which is no form of
/// theirs, of a section; between records that are read, some of them from bytes of the same word, or refused.
fn unallocated(index: u64, world: &World, table: &mut Table) -> Verdict {
    let mut d = Digits(index);
    let (class, offset, before, after) = (d.next(14), 4 + d.next(4), d.next(6), d.next(5));
    let (ty, (form, idx)) = (d.pick(&[9, 6]), d.pick(&[(12, 1), (4, 1), (4, 9)]));
    let low = d.pick(&[0, Rng::new("reader/unallocated", index).word() & 0x3f_ffff]);
    let mut contents = vec![0; 16];
    put(&mut contents, offset, with_neighbours()[class] << 22 | low);
    let some = |offset: usize, ty, form, idx| Some(record(offset as u32, ty, form, idx));
    let (pointer, of_no_section) = (|at| some(at, 0, 14, 1), some(0, 0, 6, 9));
    let past = 17;
    let before_it =
        [None, some(offset, 10, 4, 7), pointer(offset - 4), some(past, 3, 13, 1), some(0, 3, 12, 1), of_no_section];
    let own = some(if before == 1 { past } else { offset }, ty, form, idx);
    let after_it = [None, some(0, 2, 13, 1), pointer(offset), of_no_section, some(0, 10, 4, 1)];
    let records: Vec<_> = [before_it[before], own, after_it[after]].into_iter().flatten().collect();
    let case = Case::new(Arm64, contents, &records, &SECTIONS);
    let row = match (check(&case, world, table)?, before, after) {
        (Err(5), 0, 0) if form == 4 => OnUnallocated::OfSection,
        (Err(6), 0, 0) if offset == 4 => OnUnallocated::Alone,
        (Err(6), 0, 0) => OnUnallocated::Unaligned,
        (Err(6), 1, _) => OnUnallocated::AfterAddend,
        (Err(6), 2, 0) | (Err(6), 0, 2) => OnUnallocated::SharedBytes,
        (Err(6), 0, 3..) => OnUnallocated::BeforeRefused,
        (Err(3 | 5 | 7), 3.., _) => OnUnallocated::AfterRefused,
        _ => return Ok(()),
    };
    if ty == 9 && class < UNALLOCATED.len() {
        table.hit_cell(Rows::ReaderUnallocated as usize, row as usize, class);
        if matches!(row, OnUnallocated::Alone | OnUnallocated::Unaligned) {
            return read_by_rust(&case, world);
        }
    }
    Ok(())
}

/// The Rust must read a record that is refused for its unallocated word: it takes the word for a load.
fn read_by_rust(case: &Case, world: &World) -> Verdict {
    let Err(number) = reader::rust(case, world)? else { return Ok(()) };
    let expected = format!("that the Rust reads the record; it answers {number}");
    Err(Difference { input: case.show(), port: "not asked".into(), expected })
}

/// Every supported record at each offset of contents of each small length.
fn bounds(index: u64, world: &World, table: &mut Table) -> Verdict {
    let mut d = Digits(index);
    let pairs: Vec<_> = supported::<Arm64>().collect();
    let (ty, form) = d.pick(&pairs);
    let (len, offset) = (d.next(13), d.next(15));
    let mut contents = vec![0; len];
    put(&mut contents, offset, LDR_X);
    if ty == 11 {
        put64(&mut contents, offset, 1 << 63);
    }
    let own = record(offset as u32, ty, form, 1);
    let records = match d.next(3) {
        0 => vec![own],
        1 => vec![record(offset as u32, 10, 0, 1), record(0, ty, form, 1)],
        _ => vec![record(0, 1, 12, 1), own],
    };
    let alone = records.len() == 1;
    let answer = check(&Case::new(Arm64, contents, &records, &SECTIONS), world, table)?;
    let width = match ty {
        6 | 9 => 4,
        0 | 11 => 4 * (form & 2),
        _ => 0,
    };
    let row = match (offset as i64 - len as i64, offset + width) {
        (1, _) if alone && ty != 10 && answer == Err(3) => Some(0),
        (0, _) if alone && width == 0 && answer.is_ok() => Some(1),
        (_, end) if width == 4 && end == len + 1 && answer == Err(3) => Some(2),
        (_, end) if width == 4 && end == len && answer.is_ok() => Some(3),
        (_, end) if width == 8 && end == len + 1 && answer == Err(3) => Some(4),
        (_, end) if width == 8 && end == len && answer.is_ok() => Some(5),
        _ if !alone && ty == 0 && form & 2 == 0 && offset + 4 == len + 1 && answer == Err(3) => Some(6),
        _ => None,
    };
    if let Some(row) = row {
        table.hit(Rows::ReaderBounds as usize, row);
    }
    Ok(())
}

/// Every short length of records and slots.
fn lengths(index: u64, world: &World, table: &mut Table) -> Verdict {
    short_lists(index, Arm64, record(0, 3, 13, 5), world, table)
}

/// Addends over the whole 24 bits, in front of each type.
fn addends(index: u64, world: &World, table: &mut Table) -> Verdict {
    let mut d = Digits(index);
    let (ty, i) = (d.next(12), d.next(8192));
    let form = supported::<Arm64>().filter(|p| p.0 == ty).last().expect("a form").1;
    let near = [0, 1, 0x7f_ffff, 0x80_0000, 0x80_0001, 0xff_ffff];
    let idx = near.get(i).copied().unwrap_or((i as u32).wrapping_mul(2047) & 0xff_ffff);
    let mut contents = vec![0; 16];
    put(&mut contents, 4, LDR_X);
    if ty == 11 {
        put64(&mut contents, 4, 1 << 63 | u64::from(idx) << 8);
    }
    let records = [record(4, 10, i % 16, idx), record(i as u32, ty, form, 1)];
    check(&Case::new(Arm64, contents, &records, &SECTIONS), world, table).map(|_| ())
}

/// A list of records that mostly reads.
fn good_list(rng: &mut Rng) -> Case {
    let len = 8 + rng.len(40);
    let mut contents = rng.bytes(len);
    let sections: Vec<u64> = (0..rng.below(4)).map(|_| some_address(rng)).collect();
    let mut records = Vec::new();
    let pairs: Vec<_> = supported::<Arm64>().collect();
    for _ in 0..rng.below(7) {
        let (ty, form) = rng.pick(&pairs);
        let (offset, shown) = some_place(rng, &mut contents, ty, form);
        let idx = some_index(rng, form, sections.len());
        let addend_first = ty == 10 || rng.one_in(4);
        if ty == 0 && form & 2 == 0 {
            records.push(record(shown, 1, 12, rng.word() & 0xff_ffff));
        } else if addend_first {
            records.push(record(offset, 10, rng.below(16) as usize, rng.word() & 0xff_ffff));
        }
        records.push(record(if addend_first { shown } else { offset }, ty, form, idx));
    }
    Case::new(Arm64, contents, &records, &sections)
}

/// An offset at which a record's bytes fit, with a word there that mostly fits, and an offset to show in a
/// record whose own offset does not count.
fn some_place(rng: &mut Rng, contents: &mut [u8], ty: usize, form: usize) -> (u32, u32) {
    let width = match ty {
        0 | 11 => 4 + 4 * (form / 2 % 2),
        6 | 9 => 4,
        _ => 0,
    };
    let at = rng.len(contents.len() - width + 1);
    if ty == 11 {
        let wrong = if rng.one_in(16) { 1 << (51 + rng.below(13)) } else { 0 };
        put64(contents, at, some_pointer(rng) ^ wrong);
    }
    let fit: &[u32] = match ty {
        6 => &[LDR_X, LDR_D, ADD_X, ADD_W],
        9 => &[LDR_X, LDR_W, LDR_B, LDR_Q, LDR_D],
        _ => &[],
    };
    if !fit.is_empty() {
        let word = if rng.one_in(16) { rng.pick(&UNALLOCATED) << 22 } else { rng.pick(fit) };
        put(contents, at, word | rng.word() & 0x3f_ffff);
    }
    let shown = if rng.one_in(3) { rng.word() } else { rng.below(contents.len() as u64 + 1) as u32 };
    let shown = if ty == 0 && form & 2 == 0 { shown.min(contents.len() as u32) } else { shown };
    (at as u32, shown)
}

fn lists(index: u64, world: &World, table: &mut Table) -> Verdict {
    let mut rng = Rng::new("reader/lists", index);
    let case = good_list(&mut rng);
    check_good(&mut rng, case, world, table)
}

fn damaged(index: u64, world: &World, table: &mut Table) -> Verdict {
    let mut rng = Rng::new("reader/damaged", index);
    let case = good_list(&mut rng);
    check_damaged(&mut rng, case, world, table)
}
