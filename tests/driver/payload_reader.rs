//! The reader of payloads: one case, and what the Rust makes of its values.
//!
//! The Rust has `read_uleb`, but no walk over a payload: that is written here.

use hauklivo::raw;

use crate::answers::{READ_HINTS, record};
use crate::hints::word_count;
use crate::lent::{Lent, filled, hex, pattern};
use crate::rows::{PAYLOAD_NUMBERS, Payloads, Rows};
use crate::table::Table;
use crate::{Difference, World};

#[derive(Clone)]
pub struct Case {
    pub payload: Vec<u8>,
    /// How many values there is room for.
    pub slots: usize,
}

impl Case {
    /// A case with just the slots that its payload needs.
    pub fn new(payload: Vec<u8>) -> Self {
        let slots = payload.len();
        Self { payload, slots }
    }

    /// Where the first value of 2^64 or more starts, if there is one before the close.
    pub fn too_large(&self) -> Option<usize> {
        let scan = scan(&self.payload);
        scan.fault.and_then(|(_, why)| (why == Why::TooLarge).then_some(scan.at))
    }

    fn show(&self) -> String {
        format!("read_hints: payload {}, {} slots", hex(&self.payload), self.slots)
    }
}

/// The row, or a number.
pub type Answer = Result<Vec<u64>, u8>;

/// What a value of a hint is.
#[derive(Clone, Copy, PartialEq)]
pub enum Part {
    Kind,
    Count,
    Address,
}

/// The row of a payload, with `read` to take a value off the front: kind, count and so many addresses, up to
/// kind 0 or the payload's end. A byte after kind 0 that is not zero is 14.
fn walk<E>(mut bytes: &[u8], mut read: impl FnMut(Part, &mut &[u8]) -> Result<u64, E>) -> Result<Answer, E> {
    let mut row = Vec::new();
    while !bytes.is_empty() {
        let kind = read(Part::Kind, &mut bytes)?;
        if kind == 0 {
            let is_closed = bytes.iter().all(|&b| b == 0);
            return Ok(if is_closed { Ok(row) } else { Err(14) });
        }
        let count = read(Part::Count, &mut bytes)?;
        row.extend([kind, count]);
        for _ in 0..count {
            row.push(read(Part::Address, &mut bytes)?);
        }
    }
    Ok(Ok(row))
}

/// Why there is no value: no byte is left, every byte that is left has bit 7 set, or it is 2^64 or more.
#[derive(Clone, Copy, PartialEq)]
enum Why {
    Missing,
    CutOff,
    TooLarge,
}

/// The value that the front of some bytes spells, taken off.
fn spelt(bytes: &mut &[u8]) -> Result<u64, Why> {
    let Some(last) = bytes.iter().position(|b| b & 0x80 == 0) else {
        return Err(if bytes.is_empty() { Why::Missing } else { Why::CutOff });
    };
    let (spelling, rest) = bytes.split_at(last + 1);
    *bytes = rest;
    let add = |n: u64, b: &u8| (n >> 57 == 0).then_some(n << 7 | u64::from(b & 0x7f));
    spelling.iter().rev().try_fold(0, add).ok_or(Why::TooLarge)
}

/// What the walk meets without the Rust.
struct Scan {
    /// Each value below 2^64, with what it is and how many bytes spell it.
    values: Vec<(Part, u64, usize)>,
    /// What was to come where the walk met no value, and why.
    fault: Option<(Part, Why)>,
    /// The place after the values.
    at: usize,
}

fn scan(payload: &[u8]) -> Scan {
    let (mut values, mut at) = (Vec::new(), 0);
    let read = |part, bytes: &mut &[u8]| {
        let value = spelt(bytes).map_err(|why| (part, why))?;
        let end = payload.len() - bytes.len();
        values.push((part, value, end - at));
        at = end;
        Ok(value)
    };
    let fault = walk(payload, read).err();
    Scan { values, fault, at }
}

/// Numbers 1 and 2, of the lengths of lists.
pub fn of_lengths(payload: usize, slots: usize) -> Option<u8> {
    if payload > u32::MAX as usize {
        return Some(1);
    }
    (slots < payload).then_some(2)
}

/// The row of the Rust's values, or 13 where it stops.
pub fn rust(case: &Case, world: &World) -> Result<Answer, Difference> {
    let stop = match walk(&case.payload, |_, bytes| (world.oracle.read_uleb)(bytes)) {
        Ok(answer) => return Ok(answer),
        Err(stop) => stop,
    };
    stop.number.map(Err).ok_or_else(|| Difference {
        input: case.show(),
        port: "not asked".into(),
        expected: format!("a stop with a number; the Rust: {}", stop.text),
    })
}

/// The count before a call.
const COUNT: usize = 0x5eed;

/// Holds the port to the expected answer on a case.
pub fn check(case: &Case, world: &World, table: &mut Table) -> Result<(), Difference> {
    let answer = match of_lengths(case.payload.len(), case.slots) {
        Some(number) => Err(number),
        None => world.differences.payload_reader(case, world)?,
    };
    let payload = case.payload.clone();
    let mut slots = Lent::slots(case.slots);
    let mut count = COUNT;
    let values = slots.values().as_mut_ptr();
    // SAFETY: slices of this function, none lent twice.
    let number = unsafe { raw::hauklivo_read_hints(payload.as_ptr(), payload.len(), values, case.slots, &mut count) };
    let (number_due, count_due, slots_due) = match &answer {
        Ok(row) => (0, row.len(), filled(row, case.slots)),
        Err(number) => (*number, COUNT, pattern(case.slots)),
    };
    let kept = payload == case.payload && slots.is_guarded();
    if number != number_due || count != count_due || slots.values() != slots_due || !kept {
        return Err(Difference {
            input: case.show(),
            port: format!("{number}, count {count}, slots {:x?}, the rest kept: {kept}", slots.values()),
            expected: format!("{number_due}, count {count_due}, slots {slots_due:x?}"),
        });
    }
    record_answer(case, number, world, table);
    table.note(|| noted(case, &answer));
    Ok(())
}

fn noted(case: &Case, answer: &Answer) -> Vec<u8> {
    let row = answer.as_deref().unwrap_or(&[]);
    let values: Vec<_> = row.iter().flat_map(|n| n.to_le_bytes()).collect();
    let number = answer.as_ref().err().copied().unwrap_or(0);
    record(READ_HINTS, number, &[case.payload.len(), case.slots, row.len()], &[&case.payload, &values])
}

fn record_answer(case: &Case, number: u8, world: &World, table: &mut Table) {
    let row = PAYLOAD_NUMBERS.iter().position(|&n| n == number).expect("a number of the reader");
    table.hit(Rows::PayloadNumber as usize, row);
    let scan = scan(&case.payload);
    let after = &case.payload[scan.at..];
    let mut hit = |row: Payloads, is_met| table.hit_if(is_met, Rows::Payload as usize, row as usize);
    match (number, scan.fault) {
        (2, fault) => {
            hit(Payloads::SlotFewer, case.slots + 1 == after.len() + scan.at);
            hit(Payloads::SlotsBeforeFault, fault.is_some());
        }
        (14, _) => {
            let zeros = after.iter().take_while(|&&b| b == 0).count();
            let why = spelt(&mut &after[zeros..]).err();
            hit(Payloads::ValueAfterClose, why.is_none());
            hit(Payloads::CutOffAfterClose, why == Some(Why::CutOff));
            hit(Payloads::TooLargeAfterClose, why == Some(Why::TooLarge));
        }
        (_, Some((part, why))) => table.hit_cell(Rows::PayloadFault as usize, why as usize, part as usize),
        (_, None) => {
            let closing = scan.values.last().filter(|n| n.0 == Part::Kind).map(|n| n.2);
            hit(Payloads::Empty, case.payload.is_empty());
            hit(Payloads::AtEnd, closing.is_none() && !scan.values.is_empty());
            hit(Payloads::ByKind0, closing == Some(1));
            hit(Payloads::ByLongerKind0, closing > Some(1));
            hit(Payloads::Zeros, !after.is_empty());
            hit(Payloads::JustSlots, case.slots == case.payload.len());
            record_values(&scan.values, world, table);
        }
    }
}

/// The rows of the values of a payload that is read.
fn record_values(values: &[(Part, u64, usize)], world: &World, table: &mut Table) {
    let mut kind = 0;
    for &(part, value, bytes) in values {
        let mut hit = |row: Payloads, is_met| table.hit_if(is_met, Rows::Payload as usize, row as usize);
        match part {
            Part::Kind => {
                kind = value;
                hit(Payloads::KindAbove8, (9..256).contains(&value));
                hit(Payloads::KindAbove255, value > 255);
            }
            Part::Count => {
                let words = u8::try_from(kind).map_or(0, word_count);
                hit(Payloads::Count0, value == 0);
                hit(Payloads::OtherCount, words > 0 && value != words as u64);
            }
            Part::Address => {
                hit(Payloads::Address0, value == 0);
                hit(Payloads::Largest, value == u64::MAX);
            }
        }
        let least = (world.oracle.uleb_size)(value);
        let longer = [1, 2, 10].iter().filter(|&&n| bytes >= least + n).count();
        table.hit_cell(Rows::PayloadSpelling as usize, least - 1, longer);
    }
}
