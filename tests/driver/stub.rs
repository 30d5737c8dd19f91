//! Stub and thunk entries.

use hauklivo::raw;

use crate::answers::{STUB, THUNK, record};
use crate::lent::{Lent, hex, pattern};
use crate::rng::{Digits, Rng};
use crate::rows::Rows;
use crate::run::{Group, Verdict};
use crate::table::Table;
use crate::{Difference, World};

pub fn groups() -> Vec<Group> {
    vec![
        Group::new("stub/limits", 16 * 15 * 4 * 4 * 2, 7_680, limits),
        Group::new("stub/random", 500_000, 20_000, random),
    ]
}

#[derive(Clone, Copy, PartialEq, Debug)]
pub enum Kind {
    Stub,
    Thunk,
}

/// An entry of `len` bytes at `address` that goes through, or to, `target`.
#[derive(Clone)]
pub struct Case {
    kind: Kind,
    len: usize,
    address: u64,
    target: u64,
}

/// What a call leaves: the number, the bytes, and whether ADRP reaches, which a thunk's always does.
#[derive(Clone, PartialEq)]
pub struct Answer {
    number: u8,
    bytes: Vec<u8>,
    reaches: bool,
}

/// The Rust's answer. It has no lent bytes that are too short: that is number 3.
pub fn rust(case: &Case, world: &World) -> Answer {
    let (words, reaches) = match case.kind {
        Kind::Stub => (world.oracle.stub)(case.address, case.target),
        Kind::Thunk => ((world.oracle.thunk)(case.address, case.target), true),
    };
    let mut answer = Answer { number: 3, bytes: pattern(case.len), reaches };
    if let Some(place) = answer.bytes.get_mut(..12) {
        place.copy_from_slice(&words);
        answer.number = 0;
    }
    answer
}

/// What the place for "ADRP reaches" holds before a call.
const BEFORE: u8 = 77;

/// Holds the port to the expected answer on a case.
fn check(case: &Case, world: &World, table: &mut Table) -> Verdict {
    let due = world.differences.stub(case, world)?;
    let &Case { kind, len, address, target } = case;
    let told_due = if kind == Kind::Stub && due.number == 0 { u8::from(due.reaches) } else { BEFORE };
    let mut lent = Lent::slots(len);
    let mut told = BEFORE;
    let bytes = lent.bytes().as_mut_ptr();
    // SAFETY: slices of this function, none lent twice.
    let number = unsafe {
        match kind {
            Kind::Stub => raw::hauklivo_write_stub(bytes, len, address, target, &mut told),
            Kind::Thunk => raw::hauklivo_write_thunk(bytes, len, address, target),
        }
    };
    let kept = lent.is_guarded();
    if number != due.number || told != told_due || lent.bytes() != due.bytes || !kept {
        return Err(Difference {
            input: format!("{kind:?} of {len} bytes at {address:#x}, target {target:#x}"),
            port: format!("{number}, reaches {told}, bytes {}, the rest kept: {kept}", hex(lent.bytes())),
            expected: format!("{}, reaches {told_due}, bytes {}", due.number, hex(&due.bytes)),
        });
    }
    record_answer(case, &due, table);
    table.note(|| {
        let places = [address, target].map(u64::to_le_bytes).concat();
        let what = if kind == Kind::Stub { STUB } else { THUNK };
        record(what, due.number, &[len, usize::from(due.reaches)], &[&places, &due.bytes])
    });
    Ok(())
}

fn record_answer(case: &Case, answer: &Answer, table: &mut Table) {
    let mut hit = |row| table.hit(Rows::StubAndThunk as usize, row);
    let pages = (case.target >> 12) as i64 - (case.address >> 12) as i64;
    let wrapped = pages.unsigned_abs() > 1 << 51;
    match (case.kind, answer.number) {
        (Kind::Stub, 3) => hit(2),
        (Kind::Thunk, 3) => hit(6),
        (Kind::Stub, _) => {
            hit(usize::from(!answer.reaches));
            if [1 << 20, (1 << 20) - 1, -(1 << 20), -(1 << 20) - 1].contains(&pages) {
                hit(3);
            }
            if wrapped {
                hit(4);
            }
        }
        (Kind::Thunk, _) => {
            hit(5);
            if wrapped {
                hit(7);
            }
        }
    }
}

/// Lengths around 12 bytes, pages around the limits of reach.
fn limits(index: u64, world: &World, table: &mut Table) -> Verdict {
    let mut d = Digits(index);
    let (len, i) = (d.next(16), d.next(15));
    let pages = [-(1i64 << 20), 0, 1 << 20][i / 5] + (i % 5) as i64 - 2;
    let address = d.pick(&[0, 0x1_0000_0ffc, 1 << 63, u64::MAX - 11]);
    let low = d.pick(&[0, 8, 0xff8, 0xfff]);
    let target = (address & !0xfff).wrapping_add_signed(pages << 12) | low;
    let kind = d.pick(&[Kind::Stub, Kind::Thunk]);
    check(&Case { kind, len, address, target }, world, table)
}

fn random(index: u64, world: &World, table: &mut Table) -> Verdict {
    let mut rng = Rng::new("stub/random", index);
    let kind = rng.pick(&[Kind::Stub, Kind::Thunk]);
    let len = if rng.one_in(8) { rng.below(12) } else { 12 + rng.below(8) } as usize;
    let address = rng.next() >> rng.below(64);
    let delta = rng.next() >> rng.below(64);
    let target = if rng.one_in(2) { address.wrapping_add(delta) } else { address.wrapping_sub(delta) };
    check(&Case { kind, len, address, target }, world, table)
}
