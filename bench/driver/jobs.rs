//! The work that is timed: each call of the port, the Rust's own, and a plain copy.

use hauklivo::{HintRecord, MachRel, Record, Refusal, Reloc, Report, Resolved, RuleRecord};
use oracle::{Arm64, Entries, FixingUp, Given, Linked, Reading, X86_64};

use crate::hints::Sequences;
use crate::payload::Payload;
use crate::records::{BASE, IMAGE_BASE, TLS_BEGIN, Table};
use crate::records_x86_64::ADDRESS;

/// One side of a comparison.
pub trait Job {
    /// Puts back what a run changes; not timed.
    fn reset(&mut self) {}
    fn run(&mut self);
    /// The bytes that a run leaves, for the comparison of the sides; none for a copy.
    fn result(&self) -> Vec<u8> {
        Vec::new()
    }
}

/// A plain copy of as many bytes as a call is lent.
pub struct Copy {
    from: Vec<u8>,
    to: Vec<u8>,
}

impl Copy {
    pub fn new(bytes: usize) -> Self {
        Self { from: vec![1; bytes], to: vec![2; bytes] }
    }
}

impl Job for Copy {
    fn run(&mut self) {
        self.to.copy_from_slice(&self.from);
        std::hint::black_box(&mut self.to);
    }
}

/// The reading of a table by the port, into slots.
pub struct PortRead<'a, F> {
    table: &'a Table,
    slots: Vec<Reloc>,
    count: usize,
    call: F,
}

impl<F: FnMut(&Table, &[u8], &mut [u8]) -> Result<usize, Refusal>> Job for PortRead<'_, F> {
    fn run(&mut self) {
        let records = MachRel::bytes(&self.table.records);
        self.count = (self.call)(self.table, records, Reloc::bytes_mut(&mut self.slots)).unwrap();
    }

    fn result(&self) -> Vec<u8> {
        Reloc::bytes(&self.slots[..self.count]).to_vec()
    }
}

fn by_port<'a>(
    table: &'a Table,
    call: impl FnMut(&Table, &[u8], &mut [u8]) -> Result<usize, Refusal> + 'a,
) -> Box<dyn Job + 'a> {
    Box::new(PortRead { table, slots: vec![Reloc::default(); table.records.len()], count: 0, call })
}

pub fn port_read(table: &Table) -> Box<dyn Job + '_> {
    by_port(table, |table, records, slots| hauklivo::read_relocs(&table.contents, records, &table.sections, slots))
}

pub fn port_read_x86_64(table: &Table) -> Box<dyn Job + '_> {
    by_port(table, |table, records, slots| {
        hauklivo::read_relocs_x86_64(&table.contents, records, &table.sections, ADDRESS, slots)
    })
}

/// The reading of a table by the Rust, into entries that it allocates.
pub struct RustRead<'a, F> {
    table: &'a Table,
    entries: Option<Entries>,
    call: F,
}

impl<F: FnMut(&[u8]) -> Entries> Job for RustRead<'_, F> {
    fn reset(&mut self) {
        self.entries = None;
    }

    fn run(&mut self) {
        self.entries = Some((self.call)(&self.table.contents));
    }

    fn result(&self) -> Vec<u8> {
        self.entries.as_ref().unwrap().bytes()
    }
}

fn by_rust<'a>(table: &'a Table, call: impl FnMut(&[u8]) -> Entries + 'a) -> Box<dyn Job + 'a> {
    Box::new(RustRead { table, entries: None, call })
}

pub fn rust_read(table: &Table) -> Box<dyn Job + '_> {
    let reading = Reading::<Arm64>::new(MachRel::bytes(&table.records), &table.sections, 0);
    by_rust(table, move |contents| reading.run(contents))
}

pub fn rust_read_x86_64(table: &Table) -> Box<dyn Job + '_> {
    let reading = Reading::<X86_64>::new(MachRel::bytes(&table.records), &table.sections, ADDRESS);
    by_rust(table, move |contents| reading.run(contents))
}

pub struct PortFix<'a> {
    contents: &'a [u8],
    entries: &'a [Reloc],
    targets: &'a [Resolved],
    section: Vec<u8>,
    reports: Vec<Report>,
}

impl<'a> PortFix<'a> {
    pub fn new(contents: &'a [u8], entries: &'a [Reloc], targets: &'a [Resolved]) -> Self {
        let reports = vec![Report::default(); entries.len()];
        Self { contents, entries, targets, section: contents.to_vec(), reports }
    }
}

impl Job for PortFix<'_> {
    fn reset(&mut self) {
        self.section.copy_from_slice(self.contents);
    }

    fn run(&mut self) {
        let reports = hauklivo::apply_reloc_alloc(
            &mut self.section,
            BASE,
            TLS_BEGIN,
            IMAGE_BASE,
            Reloc::bytes(self.entries),
            Resolved::bytes(self.targets),
            Report::bytes_mut(&mut self.reports),
        );
        assert_eq!(reports, Ok(0));
    }

    fn result(&self) -> Vec<u8> {
        self.section.clone()
    }
}

pub struct RustFix<'a> {
    contents: &'a [u8],
    fixing: FixingUp,
    section: Vec<u8>,
}

impl<'a> RustFix<'a> {
    pub fn new(contents: &'a [u8], entries: &'a [Reloc], targets: &'a [Resolved]) -> Self {
        let fixing = FixingUp::new(TLS_BEGIN, Reloc::bytes(entries), Resolved::bytes(targets));
        Self { contents, fixing, section: contents.to_vec() }
    }
}

impl Job for RustFix<'_> {
    fn reset(&mut self) {
        self.section.copy_from_slice(self.contents);
    }

    fn run(&mut self) {
        self.fixing.run(&mut self.section, BASE);
    }

    fn result(&self) -> Vec<u8> {
        self.section.clone()
    }
}

/// What a linker does for the port and not for the Rust: a resolved target for each entry, from a table of symbols.
pub struct Fill<'a> {
    entries: &'a [Reloc],
    symbols: &'a [Resolved],
    targets: Vec<Resolved>,
}

impl<'a> Fill<'a> {
    pub fn new(entries: &'a [Reloc], symbols: &'a [Resolved]) -> Self {
        Self { entries, symbols, targets: vec![Resolved::default(); entries.len()] }
    }
}

impl Job for Fill<'_> {
    fn run(&mut self) {
        for (target, e) in self.targets.iter_mut().zip(self.entries) {
            *target = self.symbols[e.target as usize % self.symbols.len()];
        }
        std::hint::black_box(&mut self.targets);
    }
}

/// A hint run on its own copy of the image.
pub struct Hints<'a, F> {
    from: &'a Sequences,
    image: Vec<u8>,
    call: F,
}

impl<F: FnMut(&mut [u8])> Job for Hints<'_, F> {
    fn reset(&mut self) {
        self.image.copy_from_slice(&self.from.image);
    }

    fn run(&mut self) {
        (self.call)(&mut self.image);
    }

    fn result(&self) -> Vec<u8> {
        self.image.clone()
    }
}

fn hints<'a>(from: &'a Sequences, call: impl FnMut(&mut [u8]) + 'a) -> Box<dyn Job + 'a> {
    Box::new(Hints { from, image: from.image.clone(), call })
}

pub fn port_hints(from: &Sequences) -> Box<dyn Job + '_> {
    let (hints_of, entries) = (HintRecord::bytes(&from.hints), Reloc::bytes(&from.entries));
    hints(from, move |image| {
        let tally = hauklivo::apply_hints(image, hints_of, entries).unwrap();
        assert_eq!((tally.skipped, tally.turned_down), (0, 0));
    })
}

/// The listed run, into slots for its rule records.
pub fn port_listed(from: &Sequences) -> Box<dyn Job + '_> {
    let (hints_of, entries) = (HintRecord::bytes(&from.hints), Reloc::bytes(&from.entries));
    let mut records = vec![RuleRecord::default(); from.hints.len()];
    hints(from, move |image| {
        let slots = RuleRecord::bytes_mut(&mut records);
        let tally = hauklivo::apply_hints_listed(image, hints_of, entries, slots).unwrap();
        assert_eq!((tally.skipped, tally.turned_down), (0, 0));
    })
}

/// The Rust's rules over given places.
pub fn rust_rules(from: &Sequences) -> Box<dyn Job + '_> {
    let given = Given::new(HintRecord::bytes(&from.hints), Reloc::bytes(&from.entries));
    hints(from, move |image| given.run(image))
}

/// The Rust's own apply_hints, which finds the places.
pub fn rust_run(from: &Sequences) -> Box<dyn Job + '_> {
    let (hints_of, entries) = (HintRecord::bytes(&from.hints), Reloc::bytes(&from.entries));
    let linked = Linked::new(from.image.len(), hints_of, entries).expect("places that go with offsets");
    hints(from, move |image| linked.run(image))
}

/// The reading of a payload into slots.
pub struct ReadHints<'a, F> {
    payload: &'a Payload,
    slots: Vec<u64>,
    call: F,
}

impl<F: FnMut(&Payload, &mut [u64])> Job for ReadHints<'_, F> {
    fn reset(&mut self) {
        self.slots.fill(0);
    }

    fn run(&mut self) {
        (self.call)(self.payload, &mut self.slots);
    }

    fn result(&self) -> Vec<u8> {
        self.slots[..self.payload.row.len()].iter().flat_map(|n| n.to_le_bytes()).collect()
    }
}

fn read_hints<'a>(payload: &'a Payload, call: impl FnMut(&Payload, &mut [u64]) + 'a) -> Box<dyn Job + 'a> {
    Box::new(ReadHints { payload, slots: vec![0; payload.bytes.len()], call })
}

pub fn port_read_hints(payload: &Payload) -> Box<dyn Job + '_> {
    read_hints(payload, |payload, slots| {
        let count = hauklivo::read_hints(&payload.bytes, slots).unwrap();
        assert_eq!(count, payload.row.len());
    })
}

/// The Rust's read_uleb, value by value, without a look at kinds and counts.
pub fn rust_read_ulebs(payload: &Payload) -> Box<dyn Job + '_> {
    read_hints(payload, |payload, slots| oracle::read_ulebs(&payload.bytes, &mut slots[..payload.row.len()]))
}

/// The writing of a row as a payload.
pub struct WriteHints<'a, F> {
    payload: &'a Payload,
    out: Vec<u8>,
    call: F,
}

impl<F: FnMut(&Payload, &mut Vec<u8>)> Job for WriteHints<'_, F> {
    fn run(&mut self) {
        (self.call)(self.payload, &mut self.out);
    }

    fn result(&self) -> Vec<u8> {
        self.out[..self.payload.bytes.len()].to_vec()
    }
}

fn write_hints<'a>(payload: &'a Payload, call: impl FnMut(&Payload, &mut Vec<u8>) + 'a) -> Box<dyn Job + 'a> {
    Box::new(WriteHints { payload, out: vec![0; hauklivo::SPELLING * payload.row.len()], call })
}

pub fn port_write_hints(payload: &Payload) -> Box<dyn Job + '_> {
    write_hints(payload, |payload, out| {
        let count = hauklivo::write_hints(&payload.row, out).unwrap();
        assert_eq!(count, payload.bytes.len());
    })
}

/// The Rust's encode_uleb, value by value.
pub fn rust_encode_ulebs(payload: &Payload) -> Box<dyn Job + '_> {
    write_hints(payload, |payload, out| {
        out.clear();
        oracle::encode_ulebs(&payload.row, out);
    })
}
