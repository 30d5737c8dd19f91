//! What makes a link a broken one: what the calls report, and what the linker itself sees.

use hauklivo::{Report, ReportKind, Target, ty};

use crate::labels::{Labels, Way};
use crate::link::Linked;
use crate::object::{Object, SymbolPlace};
use crate::types::type_name;

/// What is wrong with a linked object, in sentences; none where the link is good.
pub fn reports(object: &Object, linked: &Linked) -> Vec<String> {
    let far = |number: &u32| {
        let name = &object.symbols[*number as usize].name;
        format!("The stub of {name} does not reach its pointer by ADRP; it is written all the same.")
    };
    let mut sentences: Vec<String> = linked.far_stubs.iter().map(far).collect();
    for section in &linked.sections {
        let labels = Labels::new(object, linked, section);
        let name = &object.sections[section.section].name;
        let mut reports = section.reports.iter().peekable();
        for (number, entry) in section.entries.iter().enumerate() {
            let report = reports.next_if(|report| report.entry as usize == number);
            let called = report.map(|report| said(&labels, report));
            let faults = [left_out(object, linked, entry.target()), called.or_else(|| seen(&labels, number))];
            sentences.extend(faults.into_iter().flatten().map(|fault| {
                let (ty, reference) = (type_name(object.machine, entry.ty), labels.reference(number));
                format!("Entry {number} of {name}, {ty} of {reference}: {fault}.")
            }));
        }
    }
    sentences
}

/// What a fix-up's report says.
fn said(labels: &Labels, report: &Report) -> String {
    match report.kind() {
        Some(ReportKind::AdrpReach) => {
            format!("ADRP does not reach {:x}; the word is written all the same", report.target)
        }
        Some(ReportKind::BranchReach) => {
            let to = match labels.way(report.entry as usize) {
                Some(Way::Elsewhere(to)) => format!(", and goes to {to:x}"),
                _ => String::new(),
            };
            format!("the branch does not reach {:x}; the word is written all the same{to}", report.target)
        }
        Some(ReportKind::Alignment(size)) => {
            format!("the address is no multiple of the {size} bytes that the word moves; the word is left")
        }
        Some(ReportKind::NonLdr) => "the word is no LDR, so it cannot be relaxed; it is left".into(),
        None => format!("a report of the unknown kind {}", report.kind),
    }
}

/// What is wrong with an entry that the fix-up does not report.
fn seen(labels: &Labels, number: usize) -> Option<String> {
    if labels.is_taken(number) {
        return None;
    }
    let entry = &labels.section.entries[number];
    let name = labels.name(number);
    match (entry.ty, labels.way(number)) {
        (ty::PAGE21 | ty::PAGEOFF12, _) if labels.lacks_address(number) => {
            Some(format!("{name} has no address; the word is left"))
        }
        (ty::SUBTRACTOR, _) => {
            let both = [number, number + 1].into_iter().filter(|&n| labels.lacks_address(n));
            let mut names: Vec<_> = both.map(|n| labels.name(n)).collect();
            names.dedup();
            match names[..] {
                [one] => Some(format!("{one} has no address; 0 is taken for it in the difference")),
                [one, other] => {
                    Some(format!("{one} and {other} have no address; 0 is taken for each in the difference"))
                }
                _ => None,
            }
        }
        (_, Some(Way::Stub)) if entry.addend != 0 => {
            Some("a stub is no target with an addend; the word goes into the stub".into())
        }
        (_, Some(Way::Elsewhere(to))) => Some(format!("the word goes to {to:x}")),
        (_, Some(Way::NoBranch)) => Some("the word is no branch".into()),
        _ => None,
    }
}

/// What is wrong with a reference into a section that is not laid out.
fn left_out(object: &Object, linked: &Linked, target: Target) -> Option<String> {
    let number = match target {
        Target::Section(number) => number as usize,
        Target::Symbol(number) => match object.symbols[number as usize].place {
            SymbolPlace::Defined { section, .. } => section,
            _ => return None,
        },
    };
    let is_left_out = linked.layout.sections[number].is_none();
    is_left_out
        .then(|| format!("{} is not in the image; the object's own address is taken", object.sections[number].name))
}
