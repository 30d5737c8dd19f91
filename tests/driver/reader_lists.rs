//! Lists of records for the cases of both readers.

use hauklivo::{MachRel, Record};

use crate::reader::{Case, Lists, Machine, check, of_lengths};
use crate::rng::{Digits, Rng};
use crate::run::Verdict;
use crate::table::Table;
use crate::{Difference, World};

pub const SECTIONS: [u64; 3] = [0x4000, 0xffff_ffff_ffff_0000, 7];

pub fn record(offset: u32, ty: usize, form: usize, idx: u32) -> MachRel {
    MachRel { offset, bits: (ty as u32) << 28 | (form as u32) << 24 | idx }
}

/// Every short length of records and slots, over one record again and again.
pub fn short_lists<M: Machine>(index: u64, machine: M, record: MachRel, world: &World, table: &mut Table) -> Verdict {
    let mut d = Digits(index);
    let (records, slots, sections) = (d.next(41), d.next(131), d.next(2));
    let mut bytes = record.to_bytes().repeat(6);
    bytes.truncate(records);
    let case = Case { machine, contents: vec![0; 4], records: bytes, sections: vec![1; sections], slots };
    check(&case, world, table).map(|_| ())
}

/// An index for a record of a form: mostly a section that there is, where the form names one.
pub fn some_index(rng: &mut Rng, form: usize, sections: usize) -> u32 {
    if form & 8 == 0 && sections > 0 && !rng.one_in(16) {
        return 1 + rng.below(sections as u64) as u32;
    }
    rng.word() & 0xff_ffff
}

pub fn some_address(rng: &mut Rng) -> u64 {
    match rng.below(4) {
        0 => rng.next(),
        1 => rng.below(1 << 32),
        2 => rng.pick(&[0, 1, u64::MAX, 1 << 63, (1 << 63) - 1]),
        _ => rng.below(1 << 16) << 12,
    }
}

/// Checks a good list, mostly with just as many slots as it needs.
pub fn check_good<M: Machine>(rng: &mut Rng, mut case: Case<M>, world: &World, table: &mut Table) -> Verdict {
    case.slots += rng.pick(&[0, 0, 0, 1, 23, 24, 48]);
    check(&case, world, table).map(|_| ())
}

/// Checks a good list with one to three spots damaged.
pub fn check_damaged<M: Machine>(rng: &mut Rng, mut case: Case<M>, world: &World, table: &mut Table) -> Verdict {
    for _ in 0..1 + rng.below(3) {
        damage(rng, &mut case);
    }
    check(&case, world, table).map(|_| ())
}

fn damage<M>(rng: &mut Rng, case: &mut Case<M>) {
    let records = case.records.len();
    match rng.below(8) {
        0..=2 => flip(rng, &mut case.records),
        3 => flip(rng, &mut case.contents),
        4 => {
            let len = case.contents.len();
            case.contents.truncate(len.saturating_sub(rng.len(12)));
        }
        5 => {
            // One record fewer, or a record that is not whole.
            let less = rng.pick(&[8, 8, 8, 1, 7, 9]);
            case.records.truncate(records.saturating_sub(less));
        }
        6 => case.slots = (case.slots + 3).saturating_sub(rng.len(30)),
        _ => {
            case.sections.pop();
        }
    }
}

/// Flips a bit.
pub fn flip(rng: &mut Rng, bytes: &mut [u8]) {
    if !bytes.is_empty() {
        let i = rng.len(bytes.len());
        bytes[i] ^= 1 << rng.below(8);
    }
}

/// Lists of as many records as are allowed and one more, in memory that is reserved but not there:
/// the lengths alone decide.
pub fn long_lists<M: Machine>(machine: &M, reserved: &[u8]) -> Result<u64, Difference> {
    let most = u32::MAX as usize;
    let mut cases = 0;
    for (records, sections) in [(most, 0), (most + 1, 0), (0, most), (0, most + 1), (most, most)] {
        let expected = of_lengths(8 * records, sections, 0).unwrap_or(0);
        let mut count = 7;
        // SAFETY: the reserved bytes are as many as the list has, aligned to a page, and any bytes are a number.
        let (before, numbers, _) = unsafe { reserved[..8 * sections].align_to::<u64>() };
        assert!(before.is_empty());
        let lists = Lists { contents: &[], records: &reserved[..8 * records], sections: numbers };
        let number = machine.port(&lists, &mut [], &mut count);
        if number != expected || count != if expected == 0 { 0 } else { 7 } {
            return Err(Difference {
                input: format!("{}: {records} records, {sections} sections, no slots", M::CALL),
                port: format!("{number}, count {count}"),
                expected: format!("{expected}"),
            });
        }
        cases += 1;
    }
    Ok(cases)
}
