//! Authenticated pointers in the arm64 reader. The Rust turns them down: what one is, is the driver's own rule, and
//! the Rust is asked for the records around it.

use hauklivo::{MachRel, Record, Reloc};

use crate::reader::{self, Answer, check};
use crate::reader_arm64::{Arm64, Turn, turns};
use crate::reader_lists::{SECTIONS, record};
use crate::rng::{Digits, Rng};
use crate::rows::{AFTER, BEFORE, POINTER_BESIDE, Pointer, Rows};
use crate::run::{Group, Verdict};
use crate::table::Table;
use crate::{Difference, World};

type Case = reader::Case<Arm64>;

pub const TYPE: u8 = 11;
pub const FORM: usize = 14;

/// What is expected of the Rust on a case with an authenticated pointer, and did not come.
pub fn not_turned_down(input: String, due: u8, number: u8) -> Difference {
    let expected = format!("that the Rust answers {due}; the Rust: {number}");
    Difference { input, port: "not asked".into(), expected }
}

/// What a stored pointer says.
struct Stored {
    addend: i32,
    diversity: u16,
    address_diversity: u8,
    key: u8,
}

/// The pointer at an offset, or a number.
fn stored(contents: &[u8], offset: usize) -> Result<Stored, u8> {
    let bytes = contents.get(offset..).and_then(|rest| rest.first_chunk()).ok_or(3)?;
    let &[a, b, c, d, e, f, marks, last]: &[u8; 8] = bytes;
    if marks >= 8 || last != 0x80 {
        return Err(15);
    }
    Ok(Stored {
        addend: i32::from_le_bytes([a, b, c, d]),
        diversity: u16::from_le_bytes([e, f]),
        address_diversity: marks % 2,
        key: marks / 2,
    })
}

impl Case {
    /// The turns of authenticated pointers, of their form, each with its entry's number.
    pub fn authenticated(&self) -> Vec<(usize, Turn)> {
        let list = self.list();
        let is_pointer = |turn: &(usize, Turn)| list[turn.1.own].bits >> 24 == u32::from(TYPE) << 4 | FORM as u32;
        turns(&list).into_iter().enumerate().filter(is_pointer).collect()
    }

    /// Holds the Rust to its turning the first of them down: by 3 where it is past the contents, else by 5, unless it
    /// refuses what is before.
    pub fn check_turned_down(&self, answer: &Answer, world: &World) -> Verdict {
        let (_, turn) = self.authenticated().swap_remove(0);
        let mut before = self.clone();
        before.records.truncate(MachRel::SIZE * turn.first());
        let by_type = if turn.offset > self.contents.len() { 3 } else { 5 };
        let due = reader::rust(&before, world)?.err().unwrap_or(by_type);
        match answer {
            Err(number) if *number == due => Ok(()),
            _ => Err(not_turned_down(self.show(), due, answer.as_ref().err().copied().unwrap_or(0))),
        }
    }

    /// Makes UNSIGNED records of them, which have the same size, place and symbol; the first that is refused ends the
    /// list.
    pub fn as_unsigned(&mut self) {
        let mut list = self.list();
        for (_, turn) in self.authenticated() {
            if stored(&self.contents, turn.offset).is_err() {
                list.truncate(turn.first());
                break;
            }
            list[turn.own].bits &= !(15 << 28);
        }
        self.records = MachRel::bytes(&list).to_vec();
    }

    /// Their type, addend and signing in the Rust's entries, or the number of the first that is refused.
    pub fn authenticate(&self, answer: &mut Answer) {
        let Ok(bytes) = answer else { return };
        let mut entries = Reloc::list(bytes).expect("whole entries");
        for (i, turn) in self.authenticated() {
            match stored(&self.contents, turn.offset) {
                Err(number) => return *answer = Err(number),
                Ok(Stored { addend, diversity, address_diversity, key }) => {
                    let addend = addend.into();
                    entries[i] = Reloc { ty: TYPE, addend, diversity, address_diversity, key, ..entries[i] };
                }
            }
        }
        *bytes = Reloc::bytes(&entries).to_vec();
    }
}

pub fn groups() -> Vec<Group> {
    vec![
        Group::new("reader/pointers", 65 * 5 * 12 * 4 * 3, 15_600, pointers),
        Group::new("reader/pointer-order", 4 * 5 * 6 * 2 * 2 * 3, 1_440, order),
    ]
}

pub fn put64(bytes: &mut [u8], at: usize, word: u64) {
    if let Some(place) = bytes.get_mut(at..at + 8) {
        place.copy_from_slice(&word.to_le_bytes());
    }
}

/// A stored word of some fields, with the bits that each has.
pub fn some_pointer(rng: &mut Rng) -> u64 {
    1 << 63 | rng.next() & ((1 << 51) - 1)
}

/// Stored words with each bit turned, after each kind of record, at each alignment to 4.
fn pointers(index: u64, world: &World, table: &mut Table) -> Verdict {
    let mut d = Digits(index);
    let (bit, before, word) = (d.next(65), d.next(5), d.next(12));
    let mut rng = Rng::new("reader/pointers", index);
    let few = [0, 7, 0x7fff_ffff, 0x8000_0000, 0xffff_fffd, 0x2a_0000_0000, 0xffff_ffff_fffd, 0x1_0000_0000_0000];
    let more = [0x6_0000_0000_0007, 0x7_ffff_ffff_ffff];
    let word = few.into_iter().chain(more).nth(word).map_or_else(|| some_pointer(&mut rng), |low| 1 << 63 | low);
    let word = if bit < 64 { word ^ 1 << bit } else { word };
    let (offset, rest) = (4 + d.next(4), d.pick(&[0, 1, 9]));
    let mut contents = rng.bytes(offset + 8 + rest);
    put64(&mut contents, offset, word);
    let (at, idx) = (offset as u32, rng.word() & 0xff_ffff);
    let own = |offset| record(offset, TYPE.into(), FORM, idx);
    let records = match before {
        0 => vec![own(at)],
        1 => vec![record(at, 10, 4, 0x80_0001), own(rng.word())],
        2 => vec![record(0, 1, 14, 3), own(at)],
        3 => vec![record(0, 0, 6, 2), own(at), record(0, 3, 13, 1)],
        _ => vec![own(at), record(at, 0, 12, 1)],
    };
    let case = Case::new(Arm64, contents, &records, &SECTIONS);
    let answer = check(&case, world, table)?;
    match answer {
        Ok(entries) => record_read(&Reloc::list(&entries).expect("whole entries"), before, rest, table),
        Err(15) if (51..64).contains(&bit) && before < 3 => {
            table.hit_cell(Rows::ReaderNotAuthenticated as usize, bit - 51, before);
        }
        Err(_) => {}
    }
    Ok(())
}

/// Notes the rows of a pointer that was read.
fn record_read(entries: &[Reloc], before: usize, rest: usize, table: &mut Table) {
    let e = entries.iter().find(|e| e.ty == TYPE).expect("its entry");
    table.hit_cell(Rows::ReaderSigning as usize, e.address_diversity.into(), e.key.into());
    let mut hit = |is_met, row: Pointer| table.hit_if(is_met, Rows::ReaderPointer as usize, row as usize);
    hit(e.addend == 0, Pointer::Zero);
    hit(e.addend > 0, Pointer::Positive);
    hit(e.addend < 0, Pointer::Negative);
    hit(e.addend == i32::MAX.into(), Pointer::Largest);
    hit(e.addend == i32::MIN.into(), Pointer::Least);
    hit(e.diversity == 0, Pointer::NoDiversity);
    hit(e.diversity == 0xffff, Pointer::LargestDiversity);
    hit(before == 1, Pointer::AfterAddend);
    hit(before == 2 && e.is_subtracted == 1, Pointer::AfterSubtractor);
    hit(rest == 0, Pointer::JustFits);
}

/// A pointer that is read or refused, between records that are read or refused.
fn order(index: u64, world: &World, table: &mut Table) -> Verdict {
    let mut d = Digits(index);
    let (end, before, after, is_after_addend) = (d.next(4), d.next(5), d.next(6), d.next(2) == 1);
    let mut contents = Rng::new("reader/pointer-order", index).bytes(24);
    let offset = [8, 8, 17, 25][end];
    let low = d.pick(&[0x7_ffff_ffff_ffff, 0]);
    let wrong = d.pick(&[1 << 63, 1 << 62, 1 << 51]);
    put64(&mut contents, offset, 1 << 63 ^ low ^ if end == 1 { wrong } else { 0 });
    put64(&mut contents, 0, 0xd503_201f);
    let refused = |number| match number {
        3 => Some(record(25, 3, 13, 1)),
        4 => Some(record(0, 10, 4, 1)),
        5 => Some(record(0, 0, 12, 1)),
        6 => Some(record(0, 6, 12, 1)),
        7 => Some(record(8, 0, 6, 9)),
        _ => None,
    };
    let [first, last] = [[0, 3, 5, 6, 7][before], [0, 3, 4, 5, 6, 7][after]];
    let addend = is_after_addend.then(|| record(offset as u32, 10, 4, 5));
    let own = record(if is_after_addend { 0 } else { offset as u32 }, TYPE.into(), FORM, 3);
    let records: Vec<_> = [refused(first), addend, Some(own), refused(last)].into_iter().flatten().collect();
    let answer = check(&Case::new(Arm64, contents, &records, &SECTIONS), world, table)?;
    let by_pointer = [0, 15, 3, 3][end];
    let due = [first, by_pointer, last].into_iter().find(|&n| n != 0);
    assert_eq!(answer.err(), due, "the first number of the list");
    let beside = if first == 0 { (BEFORE, last) } else { (AFTER, first) };
    if let Some(row) = POINTER_BESIDE.iter().position(|&b| b == beside) {
        table.hit_cell(Rows::ReaderPointerOrder as usize, row, end);
    }
    Ok(())
}
