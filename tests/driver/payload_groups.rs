//! Cases of the reader and the writer of payloads.

use crate::payload_reader::{self, of_lengths};
use crate::payload_writer;
use crate::reader_lists::flip;
use crate::rng::{Digits, Rng};
use crate::rows::Rows;
use crate::run::{Group, Verdict};
use crate::table::Table;
use crate::{Difference, World};

/// How many values a case of `values` has, and how many cases have those below 2^16 and those around powers
/// of 2.
const VALUES: u64 = 64;
const SMALL: u64 = (1 << 16) / VALUES;
const AROUND: u64 = 65;

/// Bytes of which `bytes` makes payloads, and the most that one has.
const BYTES: [u8; 9] = [0, 1, 2, 3, 0x7f, 0x80, 0x81, 0x82, 0xff];
const MOST: u32 = 5;

pub fn groups() -> Vec<Group> {
    let all = 2 * (SMALL + AROUND);
    let short_payloads = (0..=MOST).map(|n| 9_u64.pow(n)).sum();
    vec![
        Group::new("payload/values", all, all, values),
        Group::new("payload/two bytes", 1 << 16, 2_000, two_bytes),
        Group::new("payload/bytes", short_payloads, 2_000, bytes),
        Group::new("payload/spellings", 400_000, 4_000, spellings),
        Group::new("payload/damaged", 600_000, 8_000, damaged),
        Group::new("payload/rows", 300_000, 4_000, rows),
    ]
}

/// Every value below 2^16, and those around each power of 2 up to 2^64, as the addresses of a hint, and as
/// its kind: written, and read from the Rust's spellings.
fn values(index: u64, world: &World, table: &mut Table) -> Verdict {
    let mut d = Digits(index);
    let (is_read, run) = (d.next(2) == 1, d.0);
    let addresses: Vec<u64> = match run.checked_sub(SMALL) {
        None => (VALUES * run..).take(VALUES as usize).collect(),
        Some(k) => (0..7).map(|i| ((1_u128 << k) as u64).wrapping_add(i).wrapping_sub(3)).collect(),
    };
    let kind = addresses[addresses.len() / 2].max(1);
    let row = [&[kind, addresses.len() as u64], &addresses[..]].concat();
    if is_read {
        payload_reader::check(&payload_reader::Case::new(spell_all(world, &row)), world, table)?;
    } else {
        payload_writer::check(&payload_writer::Case::new(row), world, table)?;
    }
    if let Some(k) = run.checked_sub(SMALL) {
        table.hit(Rows::PayloadAround as usize, 2 * k as usize + usize::from(is_read));
    }
    Ok(())
}

/// Every payload of two bytes.
fn two_bytes(index: u64, world: &World, table: &mut Table) -> Verdict {
    payload_reader::check(&payload_reader::Case::new((index as u16).to_le_bytes().into()), world, table)
}

/// Every payload of up to five bytes of some.
fn bytes(index: u64, world: &World, table: &mut Table) -> Verdict {
    let (mut rest, mut len) = (index, 0);
    while rest >= 9_u64.pow(len) {
        rest -= 9_u64.pow(len);
        len += 1;
    }
    let mut d = Digits(rest);
    let payload = (0..len).map(|_| d.pick(&BYTES)).collect();
    payload_reader::check(&payload_reader::Case::new(payload), world, table)
}

/// A spelling of a value that is some bytes longer than the Rust's.
fn spell(world: &World, value: u64, longer: usize) -> Vec<u8> {
    let mut bytes = Vec::new();
    (world.oracle.encode_uleb)(&mut bytes, value);
    let last = bytes.len() - 1;
    if longer > 0 {
        bytes[last] |= 0x80;
        bytes.resize(last + longer, 0x80);
        bytes.push(0);
    }
    bytes
}

fn spell_all(world: &World, row: &[u64]) -> Vec<u8> {
    row.iter().flat_map(|&n| spell(world, n, 0)).collect()
}

/// A value of any size.
fn some_value(rng: &mut Rng) -> u64 {
    match rng.below(8) {
        0 => rng.below(4),
        1 => rng.below(1 << 14),
        2 => rng.pick(&[0, 0x7f, 0x80, 0x3fff, 0x4000, (1 << 63) - 1, 1 << 63, u64::MAX]),
        3 => (1 << rng.below(64)) - 1,
        _ => rng.next() >> rng.below(64),
    }
}

fn some_kind(rng: &mut Rng) -> u64 {
    match rng.below(8) {
        0..5 => 1 + rng.below(8),
        5 => rng.pick(&[9, 127, 128, 255, 256, 257]),
        _ => some_value(rng).max(1),
    }
}

/// A row of a few hints; now and then one of many addresses.
fn some_row(rng: &mut Rng) -> Vec<u64> {
    let mut row = Vec::new();
    for _ in 0..rng.below(5) {
        let count = if rng.one_in(40) { rng.below(300) } else { rng.below(5) };
        row.extend([some_kind(rng), count]);
        row.extend((0..count).map(|_| some_value(rng)));
    }
    row
}

/// The payload of such a row, in spellings of any length, closed in some way.
fn some_payload(rng: &mut Rng, world: &World) -> Vec<u8> {
    let mut payload = Vec::new();
    for value in some_row(rng) {
        let longer = rng.pick(&[0, 0, 0, 0, 1, 2, 7, 10, 40]);
        payload.extend(spell(world, value, longer));
    }
    if rng.one_in(2) {
        let longer = rng.pick(&[0, 0, 0, 1, 9]);
        payload.extend(spell(world, 0, longer));
        payload.resize(payload.len() + rng.len(8), 0);
    }
    payload
}

fn spellings(index: u64, world: &World, table: &mut Table) -> Verdict {
    let mut rng = Rng::new("payload/spellings", index);
    let mut case = payload_reader::Case::new(some_payload(&mut rng, world));
    case.slots += rng.pick(&[0, 0, 0, 1, 9]);
    payload_reader::check(&case, world, table)
}

/// A payload with one to three spots damaged.
fn damaged(index: u64, world: &World, table: &mut Table) -> Verdict {
    let mut rng = Rng::new("payload/damaged", index);
    let mut payload = some_payload(&mut rng, world);
    for _ in 0..1 + rng.below(3) {
        damage(&mut rng, &mut payload, world);
    }
    let mut case = payload_reader::Case::new(payload);
    if rng.one_in(8) {
        case.slots = case.slots.saturating_sub(rng.pick(&[1, 1, 2, 10]));
    }
    payload_reader::check(&case, world, table)
}

fn damage(rng: &mut Rng, payload: &mut Vec<u8>, world: &World) {
    let at = rng.len(payload.len() + 1);
    match rng.below(8) {
        0 | 1 => flip(rng, payload),
        2 => payload.truncate(at),
        3 => payload.insert(at, rng.next() as u8),
        4 | 5 => {
            let large = too_large(rng);
            payload.splice(at..at, large);
        }
        6 => {
            // Something after the close.
            payload.extend([0, 0]);
            let value = some_value(rng).max(1);
            let large = too_large(rng);
            payload.extend(rng.pick(&[&[0x80][..], &[1], &spell(world, value, 0), &large]));
        }
        _ => {
            // A hint with a value of 2^64 or more, or without one, after the others.
            let hint = [some_kind(rng), 2, some_value(rng), some_value(rng)];
            let part = rng.len(4);
            payload.extend(spell_all(world, &hint[..part]));
            if rng.one_in(2) {
                payload.extend(too_large(rng));
            }
        }
    }
}

/// A spelling of a value of 2^64 or more.
fn too_large(rng: &mut Rng) -> Vec<u8> {
    let mut bytes: Vec<u8> = (0..9 + rng.len(4)).map(|_| rng.next() as u8 | 0x80).collect();
    bytes.push(if bytes.len() == 9 { 2 + rng.below(126) } else { 1 + rng.below(127) } as u8);
    bytes
}

/// Rows, half of them with a spot damaged, and bytes about as many as they need.
fn rows(index: u64, world: &World, table: &mut Table) -> Verdict {
    let mut rng = Rng::new("payload/rows", index);
    let mut row = some_row(&mut rng);
    if rng.one_in(2) {
        let at = rng.len(row.len() + 1);
        match rng.below(4) {
            0 => row.truncate(at),
            1 => row.insert(at, rng.pick(&[0, 0, 1, u64::MAX])),
            2 => row.extend([some_kind(&mut rng), some_value(&mut rng)]),
            _ => row.push(rng.pick(&[0, 1, 2])),
        }
    }
    let mut case = payload_writer::Case::new(row);
    let less = rng.pick(&[0, 0, 0, 1, 2, 10]);
    case.out = (case.out + rng.pick(&[0, 0, 0, 1, 20])).saturating_sub(less);
    payload_writer::check(&case, world, table)
}

/// Lists of as many bytes or values as are allowed and one more, in memory that is reserved but not there, with no
/// room for an answer. The row is one hint, so that its length alone decides.
pub fn long_lists(reserved: &mut [u8]) -> Result<u64, Difference> {
    let most = u32::MAX as usize;
    reserved[..8].copy_from_slice(&1u64.to_le_bytes());
    reserved[8..16].copy_from_slice(&(most as u64 - 1).to_le_bytes());
    let none = std::ptr::NonNull::<u64>::dangling().as_ptr();
    let mut count = 7;
    // SAFETY: the reserved bytes are as many as the lists have, and aligned to a page; nothing is lent to be written.
    let numbers = unsafe {
        [most, most + 1].map(|len| hauklivo::raw::hauklivo_read_hints(reserved.as_ptr(), len, none, 0, &mut count))
    };
    let expected = [most, most + 1].map(|len| of_lengths(len, 0).unwrap_or(0));
    // SAFETY: the same.
    let written =
        unsafe { hauklivo::raw::hauklivo_write_hints(reserved.as_ptr().cast(), most + 1, none.cast(), 0, &mut count) };
    if (numbers, written, count) != (expected, 1, 7) {
        return Err(Difference {
            input: format!("read_hints: {most} bytes and one more, no slots; write_hints: {most} values and one more"),
            port: format!("{numbers:?}, {written}, count {count}"),
            expected: format!("{expected:?}, 1, count 7"),
        });
    }
    Ok(3)
}
