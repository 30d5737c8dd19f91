//! The hints of an object, lent to a run, and what the run did.

use std::collections::HashMap;

use hauklivo::{HintInsn, HintRecord, Reloc, RuleRecord, Tally, rule};

use crate::Fault;
use crate::calls::Calls;
use crate::link::LinkedSection;
use crate::object::{Object, ObjectHint};
use crate::refused;
use crate::words::word_at;

/// Kinds with a rule, from 1: name, count of words.
const KINDS: [(&str, usize); 8] = [
    ("ADRP_ADRP", 2),
    ("ADRP_LDR", 2),
    ("ADRP_ADD_LDR", 3),
    ("ADRP_LDR_GOT_LDR", 3),
    ("ADRP_ADD_STR", 3),
    ("ADRP_LDR_GOT_STR", 3),
    ("ADRP_ADD", 2),
    ("ADRP_LDR_GOT", 2),
];

fn row(kind: u64) -> Option<(&'static str, usize)> {
    KINDS.get(usize::try_from(kind).ok()?.checked_sub(1)?).copied()
}

/// The name of a kind that has a rule.
pub fn kind_name(kind: u64) -> Option<&'static str> {
    row(kind).map(|(name, _)| name)
}

/// What a rule wrote.
#[derive(Clone, Copy, Debug, PartialEq, Eq, PartialOrd, Ord)]
pub enum Rewrite {
    /// NOP for the second ADRP, which makes the same page again.
    AdrpDropped,
    /// A literal load, and NOP before it.
    Literal,
    /// ADR for ADRP and ADD.
    Adr,
    /// The ADD's immediate in the load or store.
    Fold,
    /// A literal load of the GOT slot.
    GotSlotLiteral,
}

/// What became of a hint.
#[derive(Clone, Copy, Debug, PartialEq, Eq, PartialOrd, Ord)]
pub enum Outcome {
    /// Its words are rewritten.
    Rewritten(Rewrite),
    /// It is of an unknown kind, or has a wrong count of words.
    Skipped,
    /// Its words are not fit for rewriting.
    Declined,
    /// A sum passes 2^64 - 1.
    TurnedDown,
    /// Its words are not in one section of the image, so that it was not run.
    Dropped,
}

impl Outcome {
    /// What a run's record says.
    fn of(record: &RuleRecord) -> Result<Self, Fault> {
        Ok(match record.rule {
            rule::SKIPPED => Self::Skipped,
            rule::DECLINED => Self::Declined,
            rule::SECOND_ADRP => Self::Rewritten(Rewrite::AdrpDropped),
            rule::LITERAL => Self::Rewritten(Rewrite::Literal),
            rule::ADR => Self::Rewritten(Rewrite::Adr),
            rule::FOLD => Self::Rewritten(Rewrite::Fold),
            rule::GOT_SLOT => Self::Rewritten(Rewrite::GotSlotLiteral),
            rule::TURNED_DOWN => Self::TurnedDown,
            other => return Err(Fault::new(format!("the hints: there is no rule {other}"))),
        })
    }
}

/// A word of a hint.
#[derive(Clone, Copy, Debug, PartialEq, Eq)]
pub struct HintWord {
    /// Its address.
    pub address: u64,
    /// Before all hints.
    pub before: u32,
    /// After all hints.
    pub after: u32,
    /// Whether this hint wrote bytes of it, also the same ones.
    pub is_written: bool,
}

impl HintWord {
    /// Whether another hint alone changed it.
    pub fn is_of_another(&self) -> bool {
        self.before != self.after && !self.is_written
    }
}

/// A hint and what became of it.
#[derive(Clone, Debug, PartialEq, Eq)]
pub struct LinkedHint {
    /// Its number in the object, counted from 0.
    pub number: usize,
    /// Its kind.
    pub kind: u64,
    /// What became of it.
    pub outcome: Outcome,
    /// How many of its words were written, also where a new word is the old one.
    pub changed: u8,
    /// Its words; none where it was skipped or dropped.
    pub words: Vec<HintWord>,
}

/// What became of the hints of an object.
#[derive(Clone, Debug, Default, PartialEq, Eq)]
pub struct HintRun {
    /// In the order of work: ADRP_ADRP after all others. Those that were not run come last.
    pub hints: Vec<LinkedHint>,
    /// The hints as they were lent; a hint's part of the image is its section.
    pub lent: Vec<HintRecord>,
    /// Entries of all sections, one list after another, which the hints name by number.
    pub entries: Vec<Reloc>,
    /// What the run says of each lent hint, in the order of work.
    pub records: Vec<RuleRecord>,
    /// The counts of the run.
    pub tally: Tally,
}

/// Runs the hints on `image`, which is the fixed-up one.
pub fn run(
    object: &Object,
    sections: &[LinkedSection],
    calls: &Calls,
    fixed: &[u8],
    image: &mut [u8],
) -> Result<HintRun, Fault> {
    let finder = Finder::new(object, sections);
    let entries = sections.iter().flat_map(|s| &s.entries).copied().collect();
    let mut run = HintRun { entries, ..HintRun::default() };
    let (mut numbers, mut dropped) = (Vec::new(), Vec::new());
    for (number, hint) in object.hints.iter().enumerate() {
        let record = finder.record(hint);
        run.lent.extend(record);
        if record.is_some() { &mut numbers } else { &mut dropped }.push(number);
    }
    run.records = vec![RuleRecord::default(); run.lent.len()];
    run.tally = (calls.apply_hints_listed)(image, &run.lent, &run.entries, &mut run.records)
        .map_err(|r| refused::working(fixed, &run.lent, &numbers, &run.entries, r))?;
    let kind = |number: usize| object.hints[number].kind;
    for record in &run.records {
        let at = record.position as usize;
        let (number, outcome) = (numbers[at], Outcome::of(record)?);
        let words = words(fixed, image, &run.lent[at], record);
        run.hints.push(LinkedHint { number, kind: kind(number), outcome, changed: record.changed, words });
    }
    let not_run = |number| {
        let (outcome, words) = (Outcome::Dropped, Vec::new());
        LinkedHint { number, kind: kind(number), outcome, changed: 0, words }
    };
    run.hints.extend(dropped.into_iter().map(not_run));
    Ok(run)
}

/// The words that a lent hint names, before all hints and after all.
fn words(fixed: &[u8], image: &[u8], hint: &HintRecord, record: &RuleRecord) -> Vec<HintWord> {
    let places = &hint.places[..usize::from(hint.words).min(3)];
    let written = |offset: u32| {
        let mut own = places.iter().enumerate().filter(|&(place, _)| writes(record, place));
        own.any(|(_, p)| p.offset.abs_diff(offset) < 4)
    };
    let word = |p: &HintInsn| {
        let at = hint.start as usize + p.offset as usize;
        let (before, after) = (word_at(fixed, at)?, word_at(image, at)?);
        Some(HintWord { address: p.address, before, after, is_written: written(p.offset) })
    };
    places.iter().filter(|_| hint.length > 0).filter_map(word).collect()
}

/// Whether the rule of a record writes the word at a place, counted from 0.
fn writes(record: &RuleRecord, place: usize) -> bool {
    match record.rule {
        rule::SECOND_ADRP | rule::FOLD => place > 0,
        _ => place < record.changed.into(),
    }
}

/// Finds the sections and entries of words.
struct Finder<'a> {
    /// Sections with bytes, by rising address in the object: that address, the size, the section.
    sections: Vec<(u64, u64, &'a LinkedSection)>,
    /// The first entry at an offset of a section.
    entries: HashMap<(usize, u32), u32>,
}

impl<'a> Finder<'a> {
    fn new(object: &Object, linked: &'a [LinkedSection]) -> Self {
        let mut sections = Vec::new();
        let mut entries = HashMap::new();
        let mut number = 0;
        for section in linked {
            let of = &object.sections[section.section];
            if !of.contents.is_empty() {
                sections.push((of.address, of.size, section));
            }
            for entry in &section.entries {
                entries.entry((section.section, entry.offset)).or_insert(number);
                number += 1;
            }
        }
        sections.sort_by_key(|&(address, ..)| address);
        Self { sections, entries }
    }

    /// A hint as it is lent; None where its words are not in one section.
    fn record(&self, hint: &ObjectHint) -> Option<HintRecord> {
        let kind = u8::try_from(hint.kind).unwrap_or(u8::MAX);
        let words = u8::try_from(hint.words.len()).unwrap_or(u8::MAX);
        let mut record = HintRecord { kind, words, ..HintRecord::default() };
        if row(hint.kind).map(|(_, words)| words) != Some(hint.words.len()) {
            return Some(record);
        }
        let after = self.sections.partition_point(|&(address, ..)| address <= hint.words[0]);
        let &(address, size, section) = self.sections.get(after.checked_sub(1)?)?;
        record.start = u32::try_from(section.start).ok()?;
        record.length = u32::try_from(size).ok()?;
        for (place, word) in record.places.iter_mut().zip(&hint.words) {
            let offset = word.checked_sub(address).filter(|&o| o < size && size - o >= 4)?;
            place.offset = offset as u32;
            place.address = section.address + offset;
            place.entry = *self.entries.get(&(section.section, place.offset)).unwrap_or(&HintInsn::WITHOUT_ENTRY);
        }
        Some(record)
    }
}
