//! Expected differences from the Rust: rows that docs/DIFFERENCES.md has in a table, each with the
//! name of a predicate on cases and the name of what is expected there.
//!
//! Rows apply in the order of the table. Where a row's predicate holds of what the Rust is asked, its
//! expectation changes what the Rust is asked, or what it answered, or both. Rows about one hint, those of
//! hint_steps.rs, apply after these, at the hint's turn. A row that no case reaches, or that changes no
//! answer, fails the run, and so does a row about one hint that leaves the answer as it was.

use std::sync::atomic::{AtomicU64, Ordering};

use hauklivo::{MachRel, Record, Reloc, Resolved, Target, flag};

use crate::fixup::{self, is_section, steps};
use crate::reader_arm64::Arm64;
use crate::run::Verdict;
use crate::{Difference, World, class, hint_steps, hints, payload_reader, payload_writer, reader, reader_x86_64, stub};

/// How a row changes what is expected of a case.
enum Change<C: Call> {
    /// The Rust is asked something else.
    Asked(fn(&mut C)),
    /// The Rust's answer is changed.
    Answered(fn(&C, &mut C::Answer)),
    /// The Rust is asked something else, and its answer to that is changed.
    Both(fn(&mut C), fn(&C, &mut C::Answer)),
    /// The Rust must turn the case down for what it does not take. It is asked for all around that, and the driver's
    /// own rule for it, of the case as it was, changes the answer.
    Around(fn(&C, &C::Answer, &World) -> Verdict, fn(&mut C), fn(&C, &mut C::Answer)),
}

/// The cases of a call, with the names that the table has for it.
trait Call: Clone + 'static {
    type Answer: Clone + PartialEq + 'static;
    const PREDICATES: &[(&str, fn(&Self) -> bool)];
    const CHANGES: &[(&str, Change<Self>)];

    fn rust(&self, world: &World) -> Result<Self::Answer, Difference>;
}

impl Call for reader::Case<Arm64> {
    type Answer = reader::Answer;
    const PREDICATES: &[(&str, fn(&Self) -> bool)] = &[
        ("tlvp_on_unallocated", |c| !c.tlvp_on_unallocated().is_empty()),
        ("authenticated_record", |c| !c.authenticated().is_empty()),
    ];
    const CHANGES: &[(&str, Change<Self>)] = &[
        ("as_got_page_offset", Change::Asked(as_got_page_offset)),
        ("as_unsigned_record", Change::Around(Self::check_turned_down, Self::as_unsigned, Self::authenticate)),
    ];

    fn rust(&self, world: &World) -> Result<Self::Answer, Difference> {
        reader::rust(self, world)
    }
}

impl Call for reader_x86_64::Case {
    type Answer = reader::Answer;
    const PREDICATES: &[(&str, fn(&Self) -> bool)] = &[("field_end_wraps", |c| c.field_end_wraps())];
    const CHANGES: &[(&str, Change<Self>)] = &[("as_lower_address", Change::Both(Self::lower, Self::raise))];

    /// Where the sum overflows, the Rust's stop has no number.
    fn rust(&self, world: &World) -> Result<Self::Answer, Difference> {
        match reader::rust(self, world) {
            Err(_) if self.field_end_wraps() => Ok(Err(reader_x86_64::NO_NUMBER)),
            answer => answer,
        }
    }
}

impl Call for fixup::Case {
    type Answer = fixup::Answer;
    const PREDICATES: &[(&str, fn(&Self) -> bool)] = &[
        ("section_without_address", |c| !without_address(c, true).is_empty()),
        ("authenticated_entry", |c| !c.authenticated().is_empty()),
        ("symbol_without_address", |c| !without_address(c, false).is_empty()),
    ];
    const CHANGES: &[(&str, Change<Self>)] = &[
        ("as_symbol_without_address", Change::Asked(as_symbols)),
        ("as_unsigned_entry", Change::Around(Self::check_turned_down, Self::as_unsigned, Self::refuse)),
        ("no_error_without_kind", Change::Answered(no_error)),
    ];

    fn rust(&self, world: &World) -> Result<Self::Answer, Difference> {
        fixup::rust(self, world)
    }
}

impl Call for stub::Case {
    type Answer = stub::Answer;
    const PREDICATES: &[(&str, fn(&Self) -> bool)] = &[];
    const CHANGES: &[(&str, Change<Self>)] = &[];

    fn rust(&self, world: &World) -> Result<Self::Answer, Difference> {
        Ok(stub::rust(self, world))
    }
}

impl Call for hints::Case {
    type Answer = hints::Answer;
    const PREDICATES: &[(&str, fn(&Self) -> bool)] = &[("word_past_part", |c| c.list().iter().any(hints::ends_past))];
    const CHANGES: &[(&str, Change<Self>)] = &[("as_part_past_image", Change::Asked(as_past_image))];

    fn rust(&self, world: &World) -> Result<Self::Answer, Difference> {
        hints::rust(self, world)
    }
}

impl Call for class::Case {
    type Answer = class::Answer;
    const PREDICATES: &[(&str, fn(&Self) -> bool)] = &[("unallocated_word", |c| class::is_unallocated(c.word))];
    const CHANGES: &[(&str, Change<Self>)] = &[("no_access", Change::Answered(no_access))];

    fn rust(&self, world: &World) -> Result<Self::Answer, Difference> {
        Ok(class::rust(self, world))
    }
}

impl Call for payload_reader::Case {
    type Answer = payload_reader::Answer;
    const PREDICATES: &[(&str, fn(&Self) -> bool)] = &[("value_too_large", |c| c.too_large().is_some())];
    const CHANGES: &[(&str, Change<Self>)] = &[("as_cut_off", Change::Asked(as_cut_off))];

    fn rust(&self, world: &World) -> Result<Self::Answer, Difference> {
        payload_reader::rust(self, world)
    }
}

impl Call for payload_writer::Case {
    type Answer = payload_writer::Answer;
    const PREDICATES: &[(&str, fn(&Self) -> bool)] = &[];
    const CHANGES: &[(&str, Change<Self>)] = &[];

    fn rust(&self, world: &World) -> Result<Self::Answer, Difference> {
        payload_writer::rust(self, world)
    }
}

/// A TLVP page offset on an unallocated word is refused like a GOT page offset there. Both take the same form, and no
/// other record looks at which of the two it is.
fn as_got_page_offset(case: &mut reader::Case<Arm64>) {
    let mut list = case.list();
    for i in case.tlvp_on_unallocated() {
        list[i].bits = list[i].bits & !(15 << 28) | 6 << 28;
    }
    case.records = MachRel::bytes(&list).to_vec();
}

/// The entries of types PAGE21 and PAGEOFF12 whose target, a section or a symbol, has no address.
fn without_address(case: &fixup::Case, sections: bool) -> Vec<u32> {
    let pairs = case.pairs();
    let lacks = |(e, t): &(Reloc, Resolved)| {
        matches!(e.ty, 3 | 4) && is_section(e) == sections && t.flags & flag::HAS_ADDRESS == 0
    };
    steps(&pairs).into_iter().filter(|&i| lacks(&pairs[i])).map(|i| i as u32).collect()
}

/// A section without an address is left like a symbol without one.
fn as_symbols(case: &mut fixup::Case) {
    for i in without_address(case, true) {
        let at = 24 * i as usize;
        let mut entry = Reloc::from_bytes(&case.entries[at..at + 24]).expect("an entry");
        entry.target &= !Target::SECTION;
        case.entries[at..at + 24].copy_from_slice(&entry.to_bytes());
    }
}

/// The Rust's error on just these entries has no kind of report.
fn no_error(case: &fixup::Case, answer: &mut fixup::Answer) {
    if answer.number == 0 && answer.without_address == without_address(case, false) {
        answer.without_address.clear();
    }
}

/// A hint with a word past its part is refused like one whose part ends past the image.
fn as_past_image(case: &mut hints::Case) {
    let mut list = case.list();
    for hint in list.iter_mut().filter(|h| hints::ends_past(h)) {
        hint.start = u32::MAX;
    }
    case.set_list(&list);
}

/// The load that the Rust takes an unallocated word for, just that, is none.
fn no_access(case: &class::Case, answer: &mut class::Answer) {
    if *answer == Some(class::taken_for(case.word)) {
        *answer = None;
    }
}

/// A value of 2^64 or more is refused like one that ends after its first byte.
fn as_cut_off(case: &mut payload_reader::Case) {
    if let Some(at) = case.too_large() {
        case.payload.truncate(at + 1);
    }
}

/// What a row holds of.
#[derive(Clone, Copy, PartialEq)]
pub enum Of {
    Cases,
    Hints,
}

/// A row's name, what it holds of, whether its answers are modelled by the driver, of how many it held, and how many of
/// them it changed.
pub struct Count<'a> {
    pub name: &'a str,
    pub of: Of,
    pub is_modelled: bool,
    pub reached: u64,
    pub changed: u64,
}

impl Count<'_> {
    /// Whether the row did what it must: of cases it changes some, of hints all.
    fn is_met(&self) -> bool {
        self.changed > 0 && (self.of == Of::Cases || self.changed == self.reached)
    }
}

/// How often a row was met so far.
pub struct Met {
    name: String,
    of: Of,
    is_modelled: bool,
    reached: AtomicU64,
    changed: AtomicU64,
}

impl Met {
    pub fn new(name: &str, of: Of) -> Self {
        let (reached, changed) = (AtomicU64::new(0), AtomicU64::new(0));
        Self { name: name.into(), of, is_modelled: false, reached, changed }
    }

    pub fn add(&self, is_changed: bool) {
        self.reached.fetch_add(1, Ordering::Relaxed);
        self.changed.fetch_add(u64::from(is_changed), Ordering::Relaxed);
    }

    fn count(&self) -> Count<'_> {
        let (reached, changed) = (self.reached.load(Ordering::Relaxed), self.changed.load(Ordering::Relaxed));
        Count { name: &self.name, of: self.of, is_modelled: self.is_modelled, reached, changed }
    }
}

struct Row<C: Call> {
    met: Met,
    holds: fn(&C) -> bool,
    change: &'static Change<C>,
}

impl<C: Call> Row<C> {
    /// The row of these names, None where the call does not have them.
    fn named([name, predicate, change]: [&str; 3]) -> Option<Self> {
        let holds = C::PREDICATES.iter().find(|n| n.0 == predicate)?.1;
        let change = &C::CHANGES.iter().find(|n| n.0 == change)?.1;
        let is_modelled = matches!(change, Change::Around(..));
        Some(Self { met: Met { is_modelled, ..Met::new(name, Of::Cases) }, holds, change })
    }
}

/// What is expected of a case whose lists agree; `asked` becomes what the Rust is asked in the end.
fn expected<C: Call>(rows: &[Row<C>], asked: &mut C, world: &World) -> Result<C::Answer, Difference> {
    let mut answer = asked.rust(world)?;
    for row in rows {
        if !(row.holds)(asked) {
            continue;
        }
        let before = answer.clone();
        match row.change {
            Change::Asked(change) => {
                change(asked);
                answer = asked.rust(world)?;
            }
            Change::Answered(change) => change(asked, &mut answer),
            Change::Both(change_asked, change_answer) => {
                change_asked(asked);
                answer = asked.rust(world)?;
                change_answer(asked, &mut answer);
            }
            Change::Around(check_turned_down, change_asked, change_answer) => {
                let case = asked.clone();
                check_turned_down(&case, &answer, world)?;
                change_asked(asked);
                answer = asked.rust(world)?;
                change_answer(&case, &mut answer);
            }
        }
        row.met.add(answer != before);
    }
    Ok(answer)
}

/// The rows, by call.
#[derive(Default)]
pub struct Differences {
    reader: Vec<Row<reader::Case<Arm64>>>,
    reader_x86_64: Vec<Row<reader_x86_64::Case>>,
    fixup: Vec<Row<fixup::Case>>,
    stub: Vec<Row<stub::Case>>,
    hints: Vec<Row<hints::Case>>,
    hint_steps: Vec<hint_steps::Row>,
    class: Vec<Row<class::Case>>,
    payload_reader: Vec<Row<payload_reader::Case>>,
    payload_writer: Vec<Row<payload_writer::Case>>,
}

/// Adds the row of some names to a call's rows, if the call has them.
fn add<R>(rows: &mut Vec<R>, row: Option<R>) -> bool {
    let is_there = row.is_some();
    rows.extend(row);
    is_there
}

const BEGIN: &str = "<!-- rows of the differential run -->";

impl Differences {
    /// The rows of the table after the mark.
    pub fn read(document: &str) -> Result<Self, String> {
        let (_, rest) = document.split_once(BEGIN).ok_or(format!("no mark {BEGIN}"))?;
        let table = rest.trim_start().lines().take_while(|l| l.starts_with('|')).skip(2);
        let mut rows = Self::default();
        for line in table {
            let cells: Vec<_> = line.trim_matches('|').split('|').map(|c| c.trim().trim_matches('`')).collect();
            let [name, predicate, change, _] = cells[..] else {
                return Err(format!("a row has four cells: {line}"));
            };
            let names = [name, predicate, change];
            let is_there = add(&mut rows.reader, Row::named(names))
                || add(&mut rows.reader_x86_64, Row::named(names))
                || add(&mut rows.fixup, Row::named(names))
                || add(&mut rows.stub, Row::named(names))
                || add(&mut rows.hints, Row::named(names))
                || add(&mut rows.hint_steps, hint_steps::Row::named(names))
                || add(&mut rows.class, Row::named(names))
                || add(&mut rows.payload_reader, Row::named(names))
                || add(&mut rows.payload_writer, Row::named(names));
            if !is_there {
                return Err(format!("no call has both names of the row: {predicate}, {change}"));
            }
        }
        Ok(rows)
    }

    pub fn reader(&self, case: &reader::Case<Arm64>, world: &World) -> Result<reader::Answer, Difference> {
        expected(&self.reader, &mut case.clone(), world)
    }

    pub fn reader_x86_64(&self, case: &reader_x86_64::Case, world: &World) -> Result<reader::Answer, Difference> {
        expected(&self.reader_x86_64, &mut case.clone(), world)
    }

    pub fn fixup(&self, case: &fixup::Case, world: &World) -> Result<fixup::Answer, Difference> {
        expected(&self.fixup, &mut case.clone(), world)
    }

    pub fn stub(&self, case: &stub::Case, world: &World) -> Result<stub::Answer, Difference> {
        expected(&self.stub, &mut case.clone(), world)
    }

    pub fn hints(&self, case: &hints::Case, world: &World) -> Result<hints::Answer, Difference> {
        let mut asked = case.clone();
        let answer = expected(&self.hints, &mut asked, world)?;
        match answer.number {
            0 => hint_steps::expected(&self.hint_steps, &asked, answer, world),
            _ => Ok(answer),
        }
    }

    pub fn class(&self, case: &class::Case, world: &World) -> Result<class::Answer, Difference> {
        expected(&self.class, &mut case.clone(), world)
    }

    pub fn payload_reader(
        &self,
        case: &payload_reader::Case,
        world: &World,
    ) -> Result<payload_reader::Answer, Difference> {
        expected(&self.payload_reader, &mut case.clone(), world)
    }

    pub fn payload_writer(
        &self,
        case: &payload_writer::Case,
        world: &World,
    ) -> Result<payload_writer::Answer, Difference> {
        expected(&self.payload_writer, &mut case.clone(), world)
    }

    /// The rows' counts so far.
    pub fn counts(&self) -> Vec<Count<'_>> {
        fn met<C: Call>(rows: &[Row<C>]) -> impl Iterator<Item = &Met> {
            rows.iter().map(|row| &row.met)
        }
        let readers = met(&self.reader).chain(met(&self.reader_x86_64));
        let first = readers.chain(met(&self.fixup)).chain(met(&self.stub)).chain(met(&self.hints));
        let then = self.hint_steps.iter().map(|row| &row.met).chain(met(&self.class));
        first.chain(then).chain(met(&self.payload_reader)).chain(met(&self.payload_writer)).map(Met::count).collect()
    }

    /// A line for each row, and the names of those that changed too little.
    pub fn show(&self) -> (String, Vec<String>) {
        let mut text = String::from("Expected differences\n");
        let mut idle = Vec::new();
        for row in self.counts() {
            let Count { name, of, reached, changed, .. } = row;
            let of = if of == Of::Cases { "cases" } else { "hints" };
            text += &format!("  {name}: holds in {reached} {of}, changes {changed} of them\n");
            if !row.is_met() {
                idle.push(format!("expected difference {name}"));
            }
        }
        (text, idle)
    }
}
