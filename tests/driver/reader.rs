//! The readers of relocation records: one case of a machine's, and what the Rust makes of it.

use hauklivo::{MachRel, Record};

use crate::answers::record;
use crate::lent::{Lent, filled, hex, pattern};
use crate::table::Table;
use crate::{Difference, Oracle, Stop, World};

/// A machine, with what its reader is lent beside the lists.
pub trait Machine: Clone + 'static {
    /// The name of the port's call, and its number in a list of answers.
    const CALL: &str;
    const LISTED: u8;

    /// Whether the reader takes a form (pc-relative + 2 * log2 of the size + 8 * extern) of a type.
    fn takes(ty: usize, form: usize) -> bool;

    /// The section's own address, where the reader is lent one.
    fn address(&self) -> Option<u64>;

    /// The port's call.
    fn port(&self, lists: &Lists, slots: &mut [u8], count: &mut usize) -> u8;

    /// The Rust's call.
    fn rust(&self, lists: &Lists, oracle: &Oracle) -> Result<Vec<u8>, Stop>;

    /// What is expected of a case whose lists have lengths that fit.
    fn expected(case: &Case<Self>, world: &World) -> Result<Answer, Difference>;

    /// Notes which rows a case reached.
    fn record_answer(case: &Case<Self>, answer: &Answer, table: &mut Table);
}

/// The types, each with the forms that a machine takes of it.
pub fn supported<M: Machine>() -> impl Iterator<Item = (usize, usize)> {
    (0..256).map(|i| (i / 16, i % 16)).filter(|&(ty, form)| M::takes(ty, form))
}

/// The lists that every reader is lent.
pub struct Lists<'a> {
    pub contents: &'a [u8],
    pub records: &'a [u8],
    pub sections: &'a [u64],
}

#[derive(Clone)]
pub struct Case<M> {
    pub machine: M,
    pub contents: Vec<u8>,
    pub records: Vec<u8>,
    pub sections: Vec<u64>,
    /// Bytes of slots.
    pub slots: usize,
}

impl<M: Machine> Case<M> {
    /// A case with just the slots that its records need.
    pub fn new(machine: M, contents: Vec<u8>, records: &[MachRel], sections: &[u64]) -> Self {
        let slots = 24 * records.len();
        let (records, sections) = (MachRel::bytes(records).to_vec(), sections.to_vec());
        Self { machine, contents, records, sections, slots }
    }

    /// The records of a whole list.
    pub fn list(&self) -> Vec<MachRel> {
        MachRel::list(&self.records).expect("whole records")
    }

    pub fn lists(&self) -> Lists<'_> {
        Lists { contents: &self.contents, records: &self.records, sections: &self.sections }
    }

    pub fn show(&self) -> String {
        let Self { machine, contents, records, sections, slots } = self;
        let address = machine.address().map_or(String::new(), |address| format!("\n    at {address:x}"));
        format!(
            "{}: contents {}{address}\n    records {}\n    sections {sections:x?}\n    {slots} bytes of slots",
            M::CALL,
            hex(contents),
            hex(records)
        )
    }
}

/// The entries' bytes, or a number.
pub type Answer = Result<Vec<u8>, u8>;

/// Numbers 1 and 2, of the lengths of lists.
pub fn of_lengths(records: usize, sections: usize, slots: usize) -> Option<u8> {
    let most = u32::MAX as usize;
    if !records.is_multiple_of(8) || records / 8 > most || sections > most {
        return Some(1);
    }
    (slots < 24 * (records / 8)).then_some(2)
}

/// The Rust's answer.
pub fn rust<M: Machine>(case: &Case<M>, world: &World) -> Result<Answer, Difference> {
    match case.machine.rust(&case.lists(), world.oracle) {
        Ok(entries) => Ok(Ok(entries)),
        Err(stop) => stop.number.map(Err).ok_or_else(|| Difference {
            input: case.show(),
            port: "not asked".into(),
            expected: format!("a stop with a number; the Rust: {}", stop.text),
        }),
    }
}

fn expected<M: Machine>(case: &Case<M>, world: &World) -> Result<Answer, Difference> {
    match of_lengths(case.records.len(), case.sections.len(), case.slots) {
        Some(number) => Ok(Err(number)),
        None => M::expected(case, world),
    }
}

/// The count before a call.
const COUNT: usize = 0x5eed;

/// Holds the port to the expected answer on a case.
pub fn check<M: Machine>(case: &Case<M>, world: &World, table: &mut Table) -> Result<Answer, Difference> {
    let answer = expected(case, world)?;
    let lent = case.clone();
    let mut slots = Lent::slots(case.slots);
    let mut count = COUNT;
    let number = lent.machine.port(&lent.lists(), slots.bytes(), &mut count);
    let (number_due, count_due, slots_due) = match &answer {
        Ok(entries) => (0, entries.len() / 24, filled(entries, case.slots)),
        Err(number) => (*number, COUNT, pattern(case.slots)),
    };
    let same = number == number_due && count == count_due && slots.bytes() == slots_due;
    let kept = lent.contents == case.contents
        && lent.records == case.records
        && lent.sections == case.sections
        && slots.is_guarded();
    if !same || !kept {
        return Err(Difference {
            input: case.show(),
            port: format!("{number}, count {count}, slots {}, the rest kept: {kept}", hex(slots.bytes())),
            expected: format!("{number_due}, count {count_due}, slots {}", hex(&slots_due)),
        });
    }
    M::record_answer(case, &answer, table);
    table.note(|| noted(case, &answer));
    Ok(answer)
}

fn noted<M: Machine>(case: &Case<M>, answer: &Answer) -> Vec<u8> {
    let numbers = case.sections.iter().copied().chain(case.machine.address());
    let numbers = numbers.flat_map(u64::to_le_bytes).collect::<Vec<_>>();
    let entries = answer.as_ref().map_or(&[][..], |e| e);
    let values = [case.contents.len(), case.records.len(), case.sections.len(), case.slots, entries.len() / 24];
    record(
        M::LISTED,
        answer.as_ref().err().copied().unwrap_or(0),
        &values,
        &[&case.contents, &case.records, &numbers, entries],
    )
}
