//! A call's refusal as a fault, with the record that it is for.

use std::iter;

use hauklivo::{HintRecord, MachRel, Record, Refusal, Reloc, Resolved, Target, position_of_refusal, ty};

use crate::Fault;
use crate::labels::with_addend;
use crate::link::LinkedSection;
use crate::object::{Machine, Object, Section};
use crate::targets::Laid;

/// The reader's, of a section's records, with the addresses of all sections.
pub fn reading(object: &Object, section: &Section, addresses: &[u64], refusal: Refusal) -> Fault {
    let find = match object.machine {
        Machine::Arm64 => position_of_refusal::in_records,
        Machine::X86_64 => position_of_refusal::in_records_x86_64,
    };
    let at = find(refusal, section.contents, MachRel::bytes(&section.records), addresses);
    let words = |number| {
        let stored = match refusal {
            Refusal::NotAuthenticated => stored(object, section, number)?,
            _ => String::new(),
        };
        Some(record(section, number)? + &stored)
    };
    let what = format!("the relocation records of section {}", section.name);
    Fault::refused(&what, refusal, at.and_then(words))
}

/// The fix-up's, of a section's entries.
pub fn fixing(laid: Laid, linked: &LinkedSection, refusal: Refusal) -> Fault {
    let section = &laid.object.sections[linked.section];
    let (entries, targets) = (Reloc::bytes(&linked.entries), Resolved::bytes(&linked.targets));
    let (base, image_base) = (linked.address, laid.layout.image_base);
    let at = position_of_refusal::in_entries(refusal, section.contents, base, image_base, entries, targets);
    let words = |entry| {
        let (_, own) = pairs(&section.records).nth(entry)?;
        let far = match refusal {
            Refusal::FarFromImage => far(laid, linked, entry)?,
            _ => String::new(),
        };
        Some(format!("entry {entry}, {}{far}", record(section, own)?))
    };
    Fault::refused(&format!("the fix-up of section {}", section.name), refusal, at.and_then(words))
}

/// The hint run's, of hints with these numbers in the object.
pub fn working(image: &[u8], hints: &[HintRecord], numbers: &[usize], entries: &[Reloc], refusal: Refusal) -> Fault {
    let at = position_of_refusal::in_hints(refusal, image, HintRecord::bytes(hints), Reloc::bytes(entries));
    Fault::refused("the hints", refusal, at.map(|at| format!("hint {}", numbers[at])))
}

/// A record as a fault names it.
fn record(section: &Section, number: usize) -> Option<String> {
    let MachRel { offset, bits } = section.records.get(number)?;
    Some(format!("record {number}, offset {offset:#x}, bits {bits:#010x}"))
}

/// What is stored for the authenticated pointer of a record.
fn stored(object: &Object, section: &Section, number: usize) -> Option<String> {
    let (first, own) = pairs(&section.records).find(|&(_, own)| own == number)?;
    let word = section.contents.get(section.records[first].offset as usize..)?.first_chunk()?;
    let symbol = object.name(Target::Symbol(section.records[own].idx())).unwrap_or("no symbol");
    Some(format!("; {:016x} is stored for the pointer to {symbol}", u64::from_le_bytes(*word)))
}

/// Where the authenticated pointer of an entry is, and what it points to.
fn far(laid: Laid, linked: &LinkedSection, number: usize) -> Option<String> {
    let (entry, target) = (linked.entries.get(number)?, linked.targets.get(number)?);
    let place = linked.address.wrapping_add(entry.offset.into());
    let reference = with_addend(laid.object.name(entry.target())?, entry.addend);
    let address = target.address.wrapping_add_signed(entry.addend);
    let base = laid.layout.image_base;
    Some(format!("; the pointer at {place:x} is to {reference} at {address:x}, and the image base is {base:x}"))
}

/// Of each entry the record that has its place and its own one, by number: two where the first is ADDEND.
fn pairs(records: &[MachRel]) -> impl Iterator<Item = (usize, usize)> {
    let mut next = 0;
    iter::from_fn(move || {
        let first = next;
        let is_pair = records.get(first)?.ty() == ty::ADDEND && first + 1 < records.len();
        let own = first + usize::from(is_pair);
        next = own + 1;
        Some((first, own))
    })
}
