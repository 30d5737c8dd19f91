//! The cases of the x86_64 reader.

use hauklivo::{MachRel, Record};

use crate::reader::{Lists, Machine, check, supported};
use crate::reader_lists::{self, SECTIONS, check_damaged, check_good, record, short_lists, some_address, some_index};
use crate::reader_x86_64::{Case, SIGNED, SUBTRACTOR, X86_64, width_row};
use crate::rng::{Digits, Rng};
use crate::rows::Rows;
use crate::run::{Group, Verdict};
use crate::table::Table;
use crate::{Difference, World};

pub fn groups() -> Vec<Group> {
    vec![
        Group::new("x86_64/forms", 256 * 4 * 6 * 2 * 3, 9_216, forms),
        Group::new("x86_64/bounds", 20 * 19 * 21 * 2 * 2, 6_384, bounds),
        Group::new("x86_64/stored", 20 * 640 * 2 * 3, 6_400, stored),
        Group::new("x86_64/addresses", 10 * 22 * 6 * 10 * 8, 10_560, addresses),
        Group::new("x86_64/lengths", 41 * 131 * 2, 2_000, lengths),
        Group::new("x86_64/order", 7 * 7 * 7 * 3 * 2, 2_058, order),
        Group::new("x86_64/lists", 540_000, 10_000, lists),
        Group::new("x86_64/damaged", 540_000, 10_000, damaged),
    ]
}

/// An own address that is none of the sections'.
const OWN: X86_64 = X86_64 { address: 0x1_2345 };

fn put(contents: &mut [u8], at: usize, bytes: &[u8]) {
    contents[at..at + bytes.len()].copy_from_slice(bytes);
}

/// How many bytes a form has.
fn width(form: usize) -> usize {
    1 << (form >> 1 & 3)
}

/// Every type and form, after each kind of record, with indices around the section count.
fn forms(index: u64, world: &World, table: &mut Table) -> Verdict {
    let mut d = Digits(index);
    let (form, ty) = (d.next(16), d.next(16));
    let before: [&[MachRel]; 4] =
        [&[], &[record(0, SUBTRACTOR, 14, 9)], &[record(0, SIGNED, 13, 9)], &[record(0, 0, 14, 9)]];
    let before = d.pick(&before);
    let idx = d.pick(&[0, 1, 2, 3, 4, 0xff_ffff]);
    let (offset, byte) = (d.pick(&[0, 5]), d.pick(&[0x11, 0x7f, 0xee]));
    let records = [before, &[record(offset, ty, form, idx)]].concat();
    let answer = check(&Case::new(OWN, vec![byte; 16], &records, &SECTIONS), world, table)?;
    if answer == Err(5) {
        table.hit_cell(Rows::X86Unsupported as usize, ty, form);
    }
    Ok(())
}

/// Every supported record at each offset of contents of each small length, of a section that is there or not.
fn bounds(index: u64, world: &World, table: &mut Table) -> Verdict {
    let mut d = Digits(index);
    let pairs: Vec<_> = supported::<X86_64>().collect();
    let (ty, form) = d.pick(&pairs);
    let (len, offset) = (d.next(19), d.next(21));
    let own = record(offset as u32, ty, form, d.pick(&[1, 9]));
    let records = [vec![own], vec![record(0, 2, 9, 1), own]][d.next(2)].clone();
    let contents = (0..len as u8).map(|i| i.wrapping_mul(0x5b)).collect();
    let answer = check(&Case::new(OWN, contents, &records, &SECTIONS), world, table)?;
    if records.len() > 1 {
        return Ok(());
    }
    let row = width_row(form >> 1 & 3);
    let end = offset + width(form);
    let met = [offset > len, offset == len, end == len + 1];
    for column in (0..3).filter(|&column| met[column] && answer == Err(3)) {
        table.hit_cell(Rows::X86Bounds as usize, row, column);
    }
    if end == len && answer.is_ok() {
        table.hit_cell(Rows::X86Bounds as usize, row, 3);
    }
    Ok(())
}

/// Numbers around each power of 2 and below 0, then eight times each byte.
fn some_stored(i: usize) -> u64 {
    let power = 1_u64 << (i / 6 % 64);
    let near = [power - 1, power, power.wrapping_add(1)][i % 3];
    match i {
        384.. => u64::from_le_bytes([(i - 384) as u8; 8]),
        _ if i % 6 < 3 => near,
        _ => near.wrapping_neg(),
    }
}

/// Stored numbers of each width, between bytes that are no part of them.
fn stored(index: u64, world: &World, table: &mut Table) -> Verdict {
    let mut d = Digits(index);
    let pairs: Vec<_> = supported::<X86_64>().collect();
    let (ty, form) = d.pick(&pairs);
    let number = some_stored(d.next(640));
    let mut contents = vec![d.pick(&[0, 0xff]); 14];
    put(&mut contents, 3, &number.to_le_bytes()[..width(form)]);
    let records = [record(3, ty, form, 1 + d.next(3) as u32)];
    check(&Case::new(OWN, contents, &records, &SECTIONS), world, table).map(|_| ())
}

/// Addresses around the limits of sums.
const ADDRESSES: [u64; 22] = [
    0,
    1,
    4,
    5,
    0x7fff_fff8,
    0x7fff_ffff,
    0x8000_0000,
    0x8000_0005,
    0xffff_fff9,
    0xffff_ffff,
    0x1_0000_0000,
    (1 << 63) - 9,
    (1 << 63) - 5,
    (1 << 63) - 1,
    1 << 63,
    (1 << 63) + 4,
    u64::MAX - 0xffff_ffff,
    u64::MAX - 11,
    u64::MAX - 8,
    u64::MAX - 4,
    u64::MAX - 3,
    u64::MAX,
];

/// The types of a section's records, and of three of a symbol's, at own addresses and with stored numbers and sections'
/// addresses around the limits.
fn addresses(index: u64, world: &World, table: &mut Table) -> Verdict {
    let mut d = Digits(index);
    let pairs = [(0, 4), (0, 6), (1, 5), (2, 5), (6, 5), (7, 5), (8, 5), (2, 9), (8, 13), (0, 14)];
    let (ty, form) = d.pick(&pairs);
    let address = d.pick(&ADDRESSES);
    let offset = d.pick(&[0, 1, 3, 4, 7, 8]);
    let number: i64 = d.pick(&[0, 1, -1, -2, -4, -5, 0x7fff_ffff, -0x8000_0000, i64::MAX, i64::MIN]);
    let of_section = d.pick(&[0, 1, 0x7fff_ffff, 0x8000_0000, (1 << 63) - 1, 1 << 63, u64::MAX, address]);
    let mut contents = vec![0xa5; 16];
    put(&mut contents, offset, &number.to_le_bytes()[..width(form)]);
    let records = [record(offset as u32, ty, form, 2)];
    let case = Case::new(X86_64 { address }, contents, &records, &[address ^ 0x55, of_section]);
    check(&case, world, table).map(|_| ())
}

/// Every short length of records and slots.
fn lengths(index: u64, world: &World, table: &mut Table) -> Verdict {
    short_lists(index, OWN, record(0, SIGNED, 13, 5), world, table)
}

/// The number of each row of `Rows::X86Order` that two records are about: of the first and of the second.
const TWO: [(u8, u8); 6] = [(5, 3), (5, 7), (3, 5), (3, 7), (7, 3), (7, 5)];

/// Three records, each of which is fine or has one or two faults, in lists that are whole or not.
fn order(index: u64, world: &World, table: &mut Table) -> Verdict {
    let mut d = Digits(index);
    let (past, no_section) = (99, 9);
    let kinds = [
        (record(0, 0, 14, 1), 0),
        (record(0, 10, 4, 1), 5),
        (record(past, 0, 14, 1), 3),
        (record(0, SIGNED, 5, no_section), 7),
        (record(past, 15, 0, 1), 5),
        (record(0, 3, 5, no_section), 5),
        (record(past, SIGNED, 5, no_section), 3),
    ];
    let picked = [d.next(7), d.next(7), d.next(7)];
    let (records, due) = (picked.map(|i| kinds[i].0), picked.map(|i| kinds[i].1));
    let mut case = Case::new(OWN, vec![0; 8], &records, &SECTIONS);
    case.slots = d.pick(&[72, 71, 0]);
    case.records.truncate(d.pick(&[24, 23]));
    let is_refused = due.iter().any(|&number| number > 0);
    let answer = check(&case, world, table)?;
    let row = match answer {
        Err(1) if case.slots < 72 && is_refused => Some(9),
        Err(2) if is_refused => Some(10),
        Err(3 | 5 | 7) if picked[0] > 3 => Some(picked[0] - 4),
        Err(number) if number == due[0] => TWO.iter().position(|&two| two == (due[0], due[1])).map(|i| 3 + i),
        _ => None,
    };
    if let Some(row) = row {
        table.hit(Rows::X86Order as usize, row);
    }
    Ok(())
}

/// A list of records that mostly reads: some stored numbers at limits, some SUBTRACTORs before an UNSIGNED at the same
/// place.
fn good_list(rng: &mut Rng) -> Case {
    let len = 8 + rng.len(40);
    let mut contents = rng.bytes(len);
    let sections: Vec<u64> = (0..rng.below(4)).map(|_| some_address(rng)).collect();
    let address = if rng.one_in(8) { u64::MAX - rng.below(64) } else { some_address(rng) };
    let mut records = Vec::new();
    let pairs: Vec<_> = supported::<X86_64>().collect();
    for _ in 0..1 + rng.below(6) {
        let (ty, form) = rng.pick(&pairs);
        let at = rng.len(len - width(form) + 1);
        if rng.one_in(4) {
            let number = some_stored(rng.len(640));
            put(&mut contents, at, &number.to_le_bytes()[..width(form)]);
        }
        if ty == 0 && rng.one_in(2) {
            records.push(record(at as u32, SUBTRACTOR, form | 8, rng.word() & 0xff_ffff));
        }
        records.push(record(at as u32, ty, form, some_index(rng, form, sections.len())));
    }
    Case::new(X86_64 { address }, contents, &records, &sections)
}

fn lists(index: u64, world: &World, table: &mut Table) -> Verdict {
    let mut rng = Rng::new("x86_64/lists", index);
    let case = good_list(&mut rng);
    check_good(&mut rng, case, world, table)
}

fn damaged(index: u64, world: &World, table: &mut Table) -> Verdict {
    let mut rng = Rng::new("x86_64/damaged", index);
    let mut case = good_list(&mut rng);
    if rng.one_in(4) {
        case.machine.address ^= 1 << rng.below(64);
    }
    check_damaged(&mut rng, case, world, table)
}

/// Lists whose lengths decide, and records at offsets up to the last, in memory that is reserved: its bytes are 0.
pub fn long_lists(reserved: &[u8], world: &World) -> Result<u64, Difference> {
    let mut cases = reader_lists::long_lists(&OWN, reserved)?;
    for (ty, form) in supported::<X86_64>() {
        for offset in [0xffff, 0x1_0000, 0x7fff_ffff, 0x8000_0000, u32::MAX] {
            for (short, address) in [(0, 0), (0, 0x8765_4321), (0, u64::MAX - (1 << 33)), (1, 0)] {
                let records = record(offset, ty, form, 1).to_bytes();
                let contents = &reserved[..offset as usize + width(form) - short];
                far(&X86_64 { address }, Lists { contents, records: &records, sections: &[0x1000] }, world)?;
                cases += 1;
            }
        }
    }
    Ok(cases)
}

/// One record far into its contents.
fn far(machine: &X86_64, lists: Lists, world: &World) -> Verdict {
    let expected = machine.rust(&lists, world.oracle).map_err(|stop| stop.number);
    let (mut slots, mut count) = ([0; 24], 0);
    let answer = match machine.port(&lists, &mut slots, &mut count) {
        0 => Ok(slots[..24 * count].to_vec()),
        number => Err(Some(number)),
    };
    if answer == expected {
        return Ok(());
    }
    let (contents, records) = (lists.contents.len(), lists.records);
    let input = format!("{}: {contents} zeros at {:x}, records {records:x?}", X86_64::CALL, machine.address);
    Err(Difference { input, port: format!("{answer:x?}"), expected: format!("{expected:x?}") })
}
