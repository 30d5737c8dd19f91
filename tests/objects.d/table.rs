//! What the objects held and what became of it.

use std::collections::{BTreeMap, BTreeSet};

use relink::hauklivo::{ReportKind, kind, ty};
use relink::{Linked, Machine, Object, Outcome, Rewrite, kind_name, type_name};

use crate::linking::{LAYOUTS, NamedLayout};

#[derive(Default)]
pub struct Table {
    entries: BTreeMap<u8, usize>,
    /// By kind, outcome and layout.
    hints: BTreeMap<(u64, Outcome), BTreeMap<&'static str, usize>>,
    reports: BTreeMap<(&'static str, &'static str), usize>,
    /// Kinds and outcomes of which words were shown.
    pub shown: BTreeSet<(u64, Outcome)>,
}

impl Table {
    /// Counts a linked object; its entries once, whatever the layouts.
    pub fn count(&mut self, object: &Object, linked: &Linked, layout: &NamedLayout) {
        if layout.name == LAYOUTS[0].name {
            for entry in linked.sections.iter().flat_map(|s| &s.entries) {
                *self.entries.entry(entry.ty).or_default() += 1;
            }
        }
        assert_eq!(linked.hints.hints.len(), object.hints.len());
        for hint in &linked.hints.hints {
            let row = self.hints.entry((hint.kind, hint.outcome)).or_default();
            *row.entry(layout.name).or_default() += 1;
        }
        for report in linked.sections.iter().flat_map(|s| &s.reports) {
            let kind = match report.kind() {
                Some(ReportKind::AdrpReach) => "ADRP does not reach",
                Some(ReportKind::BranchReach) => "a branch does not reach",
                Some(ReportKind::Alignment(_)) => "an address is not aligned",
                Some(ReportKind::NonLdr) => "a word is no LDR",
                None => "an unknown kind",
            };
            *self.reports.entry((kind, layout.name)).or_default() += 1;
        }
    }

    /// The hint kinds that no object has; and of the kinds that fold before ADR, both of these where the data are near.
    pub fn missing(&self) -> Vec<String> {
        let found: BTreeSet<_> = self.hints.keys().map(|row| row.0).collect();
        let kinds = (1..).map_while(|kind| Some((kind, kind_name(kind)?)));
        let mut missing: Vec<String> =
            kinds.filter(|(kind, _)| !found.contains(kind)).map(|(_, name)| name.into()).collect();
        let near = LAYOUTS[0].name;
        for kind in [kind::ADRP_ADD_LDR, kind::ADRP_ADD_STR].map(u64::from) {
            for outcome in [Rewrite::Fold, Rewrite::Adr].map(Outcome::Rewritten) {
                if self.hints.get(&(kind, outcome)).is_none_or(|row| !row.contains_key(near)) {
                    missing.push(format!("{}, {}, data {near}", kind_name(kind).unwrap_or("unknown"), outcome.words()));
                }
            }
        }
        missing
    }

    pub fn print(&self) {
        println!("\nentries of all arm64 objects");
        for number in (0..=ty::AUTHENTICATED_POINTER).filter(|&number| number != ty::ADDEND) {
            println!("  {:21} {:6}", type_name(Machine::Arm64, number), self.entries.get(&number).unwrap_or(&0));
        }
        print!("\n{:64}", "hints, by where the data are");
        LAYOUTS.iter().for_each(|layout| print!(" {:>10}", layout.name));
        println!();
        for ((kind, outcome), row) in &self.hints {
            print!("  {:17} {:44}", kind_name(*kind).unwrap_or("unknown"), outcome.words());
            LAYOUTS.iter().for_each(|layout| print!(" {:10}", row.get(layout.name).unwrap_or(&0)));
            println!();
        }
        println!("\nreports");
        for ((kind, layout), count) in &self.reports {
            println!("  {kind}, data {layout}: {count}");
        }
        println!();
    }
}
