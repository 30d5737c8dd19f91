//! The listed hint run: its slots and its rule records, by what is expected of the plain run on the same case.

use std::ptr::NonNull;

use hauklivo::raw::hauklivo_apply_hints_listed;
use hauklivo::{HintRecord, Record, Reloc, rule};

use crate::answers::{LISTED, record};
use crate::hint_calls::hold;
use crate::hint_shape::{BASE, NOP, Shape, bytes, laid};
use crate::hint_steps::order_of_work;
use crate::hints::{Answer, Case, expected, is_skipped, lengths, named, noted};
use crate::rng::Digits;
use crate::rows::{ACTS, LISTED_NUMBERS, Listed, ListedSlots, Rows};
use crate::run::{Group, Verdict};
use crate::table::Table;
use crate::{Acted, Difference, World};

/// The bytes of a rule record.
const RECORD: usize = 16;

/// The bytes of slots that a case needs.
fn needed(case: &Case) -> usize {
    case.hints.len() / HintRecord::SIZE * RECORD
}

/// What a listed run answers with so many bytes of slots, and its rule records. Number 2 comes after 1 and before all
/// others; but for that the answer is the plain run's.
fn due(case: &Case, plain: &Answer, slots: usize) -> (Answer, Vec<u8>) {
    match plain.number != 1 && slots < needed(case) {
        true => (case.refused(2), Vec::new()),
        false => (plain.clone(), rule_records(case, plain)),
    }
}

/// The rule records of a run, none where it is refused: position in the list, object, rule, words changed, six zeros.
pub fn rule_records(case: &Case, run: &Answer) -> Vec<u8> {
    let list = if run.number == 0 { case.list() } else { Vec::new() };
    let one = |i: usize| {
        let Acted { rule, changed } = run.acted[i];
        let last = u32::from_le_bytes([rule, changed, 0, 0]);
        [i as u32, list[i].object, last, 0].map(u32::to_le_bytes).concat()
    };
    order_of_work(&list).into_iter().flat_map(one).collect()
}

/// Holds the port's listed run to what is due, where the plain run answers `plain`: with just the slots that it needs, with
/// more, with a byte fewer, and with none.
pub fn check(case: &Case, plain: &Answer, table: &mut Table) -> Verdict {
    let needed = needed(case);
    check_with(case, plain, needed, table)?;
    table.note(|| answer(case, plain, needed));
    check_with(case, plain, needed + 21, table)?;
    if needed > 0 {
        check_with(case, plain, needed - 1, table)?;
        check_with(case, plain, 0, table)?;
    }
    if plain.number == 0 {
        record_acted(case, plain, table);
    }
    Ok(())
}

/// The same with so many bytes of slots.
fn check_with(case: &Case, plain: &Answer, slots: usize, table: &mut Table) -> Verdict {
    let (due, records) = due(case, plain, slots);
    hold(case, Some(slots), &due, &records)?;
    let row = LISTED_NUMBERS.iter().position(|&n| n == due.number);
    table.hit(Rows::ListedNumber as usize, row.expect("a number of the listed run"));
    record_slots(slots, needed(case), plain.number, due.number, table);
    Ok(())
}

/// An answer for the list of every case.
fn answer(case: &Case, plain: &Answer, slots: usize) -> Vec<u8> {
    let (due, records) = due(case, plain, slots);
    let [image, hints, entries] = lengths(case);
    let values = [image, hints, entries, slots, records.len() / RECORD];
    record(LISTED, due.number, &values, &[&noted(case, &due), &records])
}

/// How many bytes of slots there are, and what number comes of them; `plain` is that of the plain run.
fn record_slots(slots: usize, needed: usize, plain: u8, number: u8, table: &mut Table) {
    use ListedSlots::*;
    let mut hit = |is_met, row: ListedSlots| table.hit_if(is_met, Rows::ListedSlots as usize, row as usize);
    match number {
        0 => {
            hit(needed > 0 && slots == needed, Just);
            hit(slots > needed && slots.is_multiple_of(RECORD), More);
            hit(slots > needed && !slots.is_multiple_of(RECORD), NotWhole);
            hit(slots == 0, NoneForNone);
        }
        1 => hit(slots < needed, FewerBy1),
        2 => {
            hit(slots + 1 == needed, ByteFewer);
            hit(slots == 0, NoneForSome);
            hit(plain == 3, FewerBefore3);
            hit(plain == 12, FewerBefore12);
        }
        _ => {}
    }
}

/// What was done with each hint, and where its record stands.
fn record_acted(case: &Case, plain: &Answer, table: &mut Table) {
    let list = case.list();
    for (hint, acted) in list.iter().zip(&plain.acted) {
        let column = ACTS.iter().position(|act| (act.0, act.1) == (acted.rule, acted.changed));
        table.hit_cell(Rows::HintActed as usize, hint.kind.min(9) as usize, column.expect("a rule and its words"));
    }
    let mut hit = |is_met, row: Listed| table.hit_if(is_met, Rows::Listed as usize, row as usize);
    let order = order_of_work(&list);
    hit(list.iter().any(|hint| hint.object == u32::MAX), Listed::LastObject);
    hit(order.iter().enumerate().any(|(at, &i)| at != i), Listed::Elsewhere);
    let comes_later = |w: &[usize]| {
        let (before, hint) = (&list[w[0]], &list[w[1]]);
        w[0] > w[1] && before.object == hint.object && hint.kind == 1 && is_skipped(hint)
    };
    hit(order.windows(2).any(comes_later), Listed::SkippedLater);
    if let [hint] = list[..] {
        let words = |image: &[u8]| named(image, &case.entries, &hint);
        let differing = words(&case.image).iter().zip(words(&plain.image)).filter(|(a, b)| a.word != b.word).count();
        let Acted { rule, changed } = plain.acted[0];
        hit(rule == rule::ADR && differing < changed.into(), Listed::SameWordAdr);
        hit(rule == rule::FOLD && differing < changed.into(), Listed::SameWordFold);
    }
}

pub fn groups() -> Vec<Group> {
    let orders = (3 * LINED_UP.len() as u64).pow(3);
    vec![Group::new("hints/slots", 72 * 4 * 5, 72 * 4 * 5, slots), Group::new("hints/order", orders, orders, order)]
}

/// Slots of each length, for lists of up to three hints: fine, not whole, or the last hint refused.
fn slots(index: u64, world: &World, table: &mut Table) -> Verdict {
    let mut d = Digits(index);
    let (slots, hints, fault) = (d.next(72), d.next(4), d.next(5));
    let mut case = Shape::new(7).case();
    let mut list = vec![case.list()[0]; hints];
    for (i, hint) in list.iter_mut().enumerate() {
        hint.object = 9 - i as u32;
    }
    if let Some(hint) = list.last_mut() {
        match fault {
            1 => hint.places[1].offset += 1,
            2 => hint.places[1].entry = 2,
            _ => {}
        }
    }
    case.set_list(&list);
    match fault {
        3 => case.hints.push(7),
        4 => case.entries.push(7),
        _ => {}
    }
    let plain = expected(&case, world)?;
    check_with(&case, &plain, slots, table)?;
    table.note(|| answer(&case, &plain, slots));
    Ok(())
}

/// Kinds with a word count: ADRP_ADRP and another kind, each of them worked and skipped, and no kind.
const LINED_UP: [(u8, u8); 5] = [(1, 2), (1, 3), (7, 2), (7, 3), (200, 2)];

/// Three of these in every order, of three objects.
fn order(index: u64, world: &World, table: &mut Table) -> Verdict {
    let mut d = Digits(index);
    let mut case = Case::new(bytes(&[NOP; 6]), &[], &[]);
    let list = [0, 8, 16].map(|at| {
        let ((kind, words), object) = (d.pick(&LINED_UP), d.pick(&[0, 1, u32::MAX]));
        let mut shape = Shape::new(kind.min(7));
        shape.addresses = [0, 4, 8].map(|k| BASE + u64::from(at + k));
        HintRecord { kind, words, object, ..laid(&mut case, &shape, [at, at + 4, 0]) }
    });
    case.set_list(&list);
    let plain = expected(&case, world)?;
    check(&case, &plain, table)
}

/// Lists of as many records as are allowed and one more, as of the plain run, with just the slots that they need and with a
/// byte fewer, in memory that is reserved but not there.
pub fn long_lists(reserved: &mut [u8], slots: &mut [u8]) -> Result<u64, Difference> {
    let most = u32::MAX as usize;
    reserved[..2].copy_from_slice(&[2, 2]);
    let mut asked = 0;
    for (hints, entries, first) in [(most, 0, 3), (most + 1, 0, 1), (0, most, 0), (0, most + 1, 1), (1, most, 3)] {
        let (hints_len, entries_len, needed) = (HintRecord::SIZE * hints, Reloc::SIZE * entries, RECORD * hints);
        let fewer = (needed > 0).then(|| (needed - 1, if first == 1 { 1 } else { 2 }));
        for (slots_len, due) in [(needed, first)].into_iter().chain(fewer) {
            let (mut tally, bytes) = ([7; 4], reserved.as_ptr());
            let image = NonNull::<u8>::dangling().as_ptr();
            let (records, told) = (slots.as_mut_ptr(), tally.as_mut_ptr().cast());
            // SAFETY: the reserved bytes are as many as the lists and the slots have; the image is empty.
            let number = unsafe {
                hauklivo_apply_hints_listed(image, 0, bytes, hints_len, bytes, entries_len, records, slots_len, told)
            };
            let tally_due = if due == 0 { [0; 4] } else { [7; 4] };
            if (number, tally) != (due, tally_due) {
                return Err(Difference {
                    input: format!("apply_hints_listed: {hints} hints, {entries} entries, {slots_len} bytes of slots"),
                    port: format!("{number}, tally {tally:?}"),
                    expected: format!("{due}, tally {tally_due:?}"),
                });
            }
            asked += 1;
        }
    }
    reserved[..2].copy_from_slice(&[0, 0]);
    Ok(asked)
}
