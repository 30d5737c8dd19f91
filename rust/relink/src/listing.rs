//! A listing of what was done, for a person to read.

use std::collections::BTreeMap;
use std::fmt::Write;

use hauklivo::{Reloc, flag, ty};

use crate::Fault;
use crate::hints::{HintRun, LinkedHint, Outcome, Rewrite, kind_name};
use crate::labels::Labels;
use crate::layout::{Holds, Part};
use crate::link::{Linked, LinkedSection};
use crate::object::{Object, Section};
use crate::reports::reports;
use crate::signing::signing;
use crate::types::type_name;
use crate::words::{text, word_at};

/// The listing of a linked object.
pub fn listing(object: &Object, linked: &Linked) -> String {
    let mut out = String::new();
    layout(&mut out, object, linked);
    for section in linked.sections.iter().filter(|s| !s.entries.is_empty()) {
        entries(&mut out, object, linked, section);
    }
    told(&mut out, &reports(object, linked));
    hints(&mut out, &linked.hints);
    out
}

/// Adds a line.
macro_rules! line {
    ($out:expr, $($word:tt)*) => {
        writeln!($out, $($word)*).expect("a string takes every line")
    };
}

/// Adds rows of columns, each as wide as its longest word.
fn table(out: &mut String, rows: &[impl AsRef<[String]>]) {
    let mut widths = Vec::new();
    for row in rows.iter().map(AsRef::as_ref) {
        widths.resize(row.len(), 0);
        for (width, word) in widths.iter_mut().zip(row) {
            *width = word.chars().count().max(*width);
        }
    }
    for row in rows.iter().map(AsRef::as_ref) {
        let columns: Vec<_> = row.iter().zip(&widths).map(|(word, &width)| format!("{word:width$}")).collect();
        line!(out, "  {}", columns.join("  ").trim_end());
    }
}

fn layout(out: &mut String, object: &Object, linked: &Linked) {
    line!(out, "Layout");
    let head = ["address", "size", "in OUT", "part"].map(String::from);
    let row = |part: &Part| {
        let from = match part.bytes.is_empty() {
            true => "-".into(),
            false => format!("{:x}", part.bytes.start),
        };
        let (address, size) = (format!("{:x}", part.address), format!("{:x}", part.size));
        [address, size, from, part_name(object, linked, part.holds)]
    };
    let rows: Vec<_> = [head].into_iter().chain(linked.layout.parts.iter().map(row)).collect();
    table(out, &rows);
    for (section, address) in object.sections.iter().zip(&linked.layout.sections) {
        if address.is_none() {
            line!(out, "  left out: {}, which is not for the image", section.name);
        }
    }
    if linked.layout.tls_begin != 0 {
        line!(out, "  thread-local storage starts at {:x}", linked.layout.tls_begin);
    }
    if linked.sections.iter().flat_map(|s| &s.entries).any(|entry| entry.ty == ty::AUTHENTICATED_POINTER) {
        line!(out, "  the image base, from which authenticated pointers count, is {:x}", linked.layout.image_base);
    }
    line!(out, "");
}

/// How many symbols of a table are named.
const MOST_NAMES: usize = 6;

fn part_name(object: &Object, linked: &Linked, holds: Holds) -> String {
    let name = |number: &u32| &object.symbols[*number as usize].name[..];
    let names = |what: &str, symbols: Vec<&u32>| {
        let names: Vec<_> = symbols.iter().copied().take(MOST_NAMES).map(name).collect();
        let more = if symbols.len() > MOST_NAMES { " ..." } else { "" };
        format!("{what}, {}: {}{more}", symbols.len(), names.join(" "))
    };
    match holds {
        Holds::Section(number) => object.sections[number].name.clone(),
        Holds::Stubs => names("stubs", linked.layout.stubs.keys().collect()),
        Holds::Thunks(table) => names("thunk entries", linked.layout.thunks[table].keys().collect()),
        Holds::Got => names("GOT", linked.layout.got.keys().collect()),
        Holds::Commons => names("common symbols", linked.layout.commons.keys().collect()),
    }
}

/// Adds the entries of a section, each with its offset, by rising offset.
fn entry_table<const N: usize>(
    out: &mut String,
    section: &Section,
    head: [&str; N],
    mut rows: Vec<(u32, [String; N])>,
) {
    line!(out, "Entries of {}", section.name);
    rows.sort_by_key(|&(offset, _)| offset);
    let rows: Vec<_> = [head.map(String::from)].into_iter().chain(rows.into_iter().map(|(_, row)| row)).collect();
    table(out, &rows);
    line!(out, "");
}

/// The listing of the entries of each section of an object, as they were read.
///
/// # Errors
///
/// A sentence for an entry of no symbol.
pub fn entry_listing(object: &Object, lists: &[Vec<Reloc>]) -> Result<String, Fault> {
    let mut out = String::new();
    let head = ["no", "address", "type", "size", "pc-relative", "subtracted", "target", "addend"];
    for (section, list) in object.sections.iter().zip(lists).filter(|(_, list)| !list.is_empty()) {
        let row = |(number, entry): (usize, &Reloc)| Ok((entry.offset, entry_row(object, section, number, entry)?));
        let rows: Result<_, Fault> = list.iter().enumerate().map(row).collect();
        entry_table(&mut out, section, head, rows?);
    }
    let records: usize = object.sections.iter().map(|section| section.records.len()).sum();
    let entries: usize = lists.iter().map(Vec::len).sum();
    line!(out, "{}: {entries} entries of {records} relocation records.", object.machine.name());
    Ok(out)
}

fn entry_row(object: &Object, section: &Section, number: usize, entry: &Reloc) -> Result<[String; 8], Fault> {
    let mark = |field: u8| if field == 0 { "-" } else { "yes" }.into();
    let sign = if entry.addend < 0 { "-" } else { "" };
    let name = object.name(entry.target()).ok_or_else(|| Fault::no_symbol(object, section, entry))?;
    Ok([
        number.to_string(),
        format!("{:x}", section.address.wrapping_add(entry.offset.into())),
        type_name(object.machine, entry.ty).into(),
        entry.size.to_string(),
        mark(entry.is_pcrel),
        mark(entry.is_subtracted),
        format!("{name}{}", signing(entry)),
        format!("{sign}{:#x}", entry.addend.unsigned_abs()),
    ])
}

fn entries(out: &mut String, object: &Object, linked: &Linked, section: &LinkedSection) {
    let bytes = section.start..section.start + object.sections[section.section].contents.len();
    let labels = Labels::new(object, linked, section);
    let mut rows = Vec::new();
    for (number, (entry, target)) in section.entries.iter().zip(&section.targets).enumerate() {
        let [before, after] = [&linked.before, &linked.fixed].map(|i| shown(&i[bytes.clone()], section.address, entry));
        let (before, after) = match entry.ty {
            _ if labels.is_taken(number) => (String::new(), "taken by the SUBTRACTOR before it".into()),
            ty::UNSIGNED | ty::AUTHENTICATED_POINTER if target.flags & flag::IMPORTED != 0 => {
                (before, "left for dyld to bind".into())
            }
            ty::PAGE21 | ty::PAGEOFF12 if labels.lacks_address(number) => {
                (before, "left, the target has no address".into())
            }
            _ => (before, after),
        };
        let (label, place) = (labels.label(number), format!("{:x}", labels.place(number)));
        let ty = type_name(object.machine, entry.ty).into();
        rows.push((entry.offset, [number.to_string(), place, ty, label, before, after]));
    }
    let head = ["no", "address", "type", "target", "before", "after"];
    entry_table(out, &object.sections[section.section], head, rows);
}

/// The bytes of an entry's place as a pointer, or as a word with its text; those that the section has.
fn shown(section: &[u8], base: u64, entry: &Reloc) -> String {
    let at = entry.offset as usize;
    let Some(word) = word_at(section, at) else { return String::new() };
    match (entry.ty, entry.size) {
        (ty::UNSIGNED | ty::AUTHENTICATED_POINTER, _) | (ty::SUBTRACTOR, 8) => match word_at(section, at + 4) {
            Some(high) => format!("{high:08x}{word:08x}"),
            None => format!("{word:08x}"),
        },
        (ty::SUBTRACTOR | ty::POINTER_TO_GOT, _) => format!("{word:08x}"),
        _ => word_text(word, base.wrapping_add(entry.offset.into())),
    }
}

fn told(out: &mut String, reports: &[String]) {
    match reports.len() {
        0 => line!(out, "No reports."),
        _ => line!(out, "Reports\n  {}", reports.join("\n  ")),
    }
    line!(out, "");
}

impl Outcome {
    /// What became of a hint, in words.
    pub fn words(self) -> &'static str {
        match self {
            Self::Rewritten(Rewrite::AdrpDropped) => "rewritten: second ADRP dropped",
            Self::Rewritten(Rewrite::Literal) => "rewritten: literal load",
            Self::Rewritten(Rewrite::Adr) => "rewritten: ADR",
            Self::Rewritten(Rewrite::Fold) => "rewritten: ADD folded into the access",
            Self::Rewritten(Rewrite::GotSlotLiteral) => "rewritten: literal load of the GOT slot",
            Self::Skipped => "skipped: no such kind, or another count of words",
            Self::Declined => "declined",
            Self::TurnedDown => "turned down by 9: a sum passes 2^64 - 1",
            Self::Dropped => "not run: its words are not in one section of the image",
        }
    }

    /// The same in short: the rule that rewrote it, or why none did.
    fn name(self) -> &'static str {
        let words = self.words();
        match words.split_once(": ") {
            Some(("rewritten", rule)) => rule,
            Some((why, _)) => why,
            None => words,
        }
    }
}

fn hints(out: &mut String, run: &HintRun) {
    if run.hints.is_empty() {
        line!(out, "No hints.");
        return;
    }
    line!(out, "Hints, in the order of work");
    line!(out, "  Each word is shown before all hints and after all, marked where another hint alone changed it.");
    line!(out, "  A word that is written may be the same.");
    let words = run.hints.iter().flat_map(|hint| &hint.words);
    let width = words.map(|w| word_text(w.before, w.address).len()).max().unwrap_or(0);
    for hint in &run.hints {
        line!(out, "  {:3}  {}, {}{}", hint.number, hint_name(hint), hint.outcome.words(), count_words(hint.changed));
        for word in &hint.words {
            let [before, after] = [word.before, word.after].map(|w| word_text(w, word.address));
            let after = match word {
                _ if word.before == word.after => "the same".into(),
                _ if word.is_of_another() => format!("{after}, by another hint"),
                _ => after,
            };
            line!(out, "         {:x}  {before:width$}  {after}", word.address);
        }
    }
    line!(out, "\nHints by rule and kind");
    table(out, &hint_counts(&run.hints));
    let tally = &run.tally;
    let not_run = run.hints.len() - run.lent.len();
    line!(out, "");
    line!(
        out,
        "Tally: {} rewritten, {} skipped, {} declined, {} turned down by 9; {not_run} not run.",
        tally.rewritten,
        tally.skipped,
        tally.declined,
        tally.turned_down
    );
}

/// How many words of a hint were written, if any.
fn count_words(count: u8) -> String {
    match count {
        0 => String::new(),
        1 => ", 1 word written".into(),
        _ => format!(", {count} words written"),
    }
}

/// How many hints came to what: a row for each outcome, a column for each kind, as far as there are any. Kinds without a
/// rule have one column.
fn hint_counts(hints: &[LinkedHint]) -> Vec<Vec<String>> {
    let mut columns = BTreeMap::new();
    let mut counts: BTreeMap<Outcome, BTreeMap<u64, usize>> = BTreeMap::new();
    for hint in hints {
        let (column, name) = kind_name(hint.kind).map_or((u64::MAX, "other"), |name| (hint.kind, name));
        columns.insert(column, name);
        *counts.entry(hint.outcome).or_default().entry(column).or_default() += 1;
    }
    let head = ["rule"].into_iter().chain(columns.values().copied()).map(String::from).collect();
    let row = |(outcome, counts): (&Outcome, &BTreeMap<u64, usize>)| {
        let count = |column| counts.get(column).map_or("-".into(), usize::to_string);
        [outcome.name().into()].into_iter().chain(columns.keys().map(count)).collect()
    };
    [head].into_iter().chain(counts.iter().map(row)).collect()
}

fn hint_name(hint: &LinkedHint) -> String {
    match kind_name(hint.kind) {
        Some(name) => name.into(),
        None => format!("kind {}", hint.kind),
    }
}

/// A word and its text.
fn word_text(word: u32, address: u64) -> String {
    format!("{word:08x} {}", text(word, address))
}
