//! The oracle's calls for reading, fix-up, stubs and thunks.

use std::marker::PhantomData;
use std::path::Path;

use crate::arch::{Arm64, Target, X86_64};
use crate::chunks::ChunkHeader;
use crate::context::Context;
use crate::error::take_errors;
use crate::input_files::{MappedFile, ObjectFile};
use crate::input_sections::{InputSection, InputSections, Reloc, RelocTarget};
use crate::lent;
use crate::macho::{MachRel, MachSection, S_THREAD_LOCAL_REGULAR};
use crate::stop::{Stop, caught};
use crate::symbol::{Symbol, Symbols, THREAD_LOCAL};

/// A reading with its lists in the Rust's own types, so that the Rust can be timed alone.
pub struct Reading<T> {
    sections: Vec<MachSection>,
    hdr: MachSection,
    records: Vec<MachRel>,
    machine: PhantomData<T>,
}

impl<T: Target> Reading<T> {
    /// `address` is the section's own, which the reader for arm64 does not ask for.
    pub fn new(records: &[u8], sections: &[u64], address: u64) -> Self {
        let header = |addr| MachSection { addr, flags: 0 };
        let sections = sections.iter().copied().map(header).collect();
        Self { sections, hdr: header(address), records: lent::records(records), machine: PhantomData }
    }

    /// The Rust's own call.
    pub fn run(&self, contents: &[u8]) -> Entries {
        let path = Path::new("object");
        Entries(T::read_relocs(path, &self.sections, &self.hdr, contents, &self.records))
    }
}

/// What a reader of the Rust's returns.
pub struct Entries(Vec<Reloc>);

impl Entries {
    /// 24 bytes each.
    pub fn bytes(&self) -> Vec<u8> {
        self.0.iter().flat_map(lent::entry_bytes).collect()
    }
}

fn read<T: Target>(contents: &[u8], records: &[u8], sections: &[u64], address: u64) -> Result<Vec<u8>, Stop> {
    let reading = Reading::<T>::new(records, sections, address);
    Ok(caught(|| reading.run(contents))?.bytes())
}

/// The entries that the Rust reads from `records`, 24 bytes each.
pub fn read_relocs(contents: &[u8], records: &[u8], sections: &[u64]) -> Result<Vec<u8>, Stop> {
    read::<Arm64>(contents, records, sections, 0)
}

/// The same of x86_64 records; `address` is that of the section that has them.
pub fn read_relocs_x86_64(contents: &[u8], records: &[u8], sections: &[u64], address: u64) -> Result<Vec<u8>, Stop> {
    read::<X86_64>(contents, records, sections, address)
}

/// What a fix-up leaves beside the section's bytes.
#[derive(Clone, Debug, PartialEq, Eq)]
pub struct FixedUp {
    /// Reports (RULES 2.20), 24 bytes each.
    pub reports: Vec<u8>,
    /// Entries for which the Rust says that the target has no address: no kind of report.
    pub without_address: Vec<u32>,
}

/// A fix-up with its lists in the Rust's own types, so that the Rust can be timed alone.
///
/// Entry i refers to symbol i or subsection i, which hold the facts of resolved target i; the
/// entry's own target number plays no part in a fix-up beyond bit 31.
pub struct FixingUp {
    ctx: Context<Arm64>,
    entries: Vec<Reloc>,
    own: usize,
}

impl FixingUp {
    pub fn new(tls_begin: u64, entries: &[u8], targets: &[u8]) -> Self {
        let mut entries = lent::entries(entries);
        let targets = lent::targets(targets);
        assert!(entries.len() == targets.len(), "one target for each entry");

        let mut headers = Vec::with_capacity(targets.len());
        let mut isecs = Vec::with_capacity(targets.len() + 1);
        for (entry, target) in entries.iter_mut().zip(&targets) {
            entry.target = match entry.target() {
                RelocTarget::Sym(_) => RelocTarget::Sym(target.entry).pack(),
                RelocTarget::Section(_) => RelocTarget::Section(target.entry).pack(),
            };
            let shndx = u32::from(target.flags & THREAD_LOCAL != 0);
            let mut isec = InputSection::new(0, shndx, 0, 0, &[]);
            isec.output_section = target.entry;
            isecs.push(isec);
            headers.push(ChunkHeader { addr: target.address, ..Default::default() });
        }
        let own = isecs.len();
        isecs.push(InputSection::new(0, 0, 0, 0, &[]));
        let object = ObjectFile {
            mf: MappedFile { name: "object".into() },
            symbols: (0..targets.len() as u32).collect(),
            sect_hdrs: vec![MachSection::default(), MachSection { addr: 0, flags: S_THREAD_LOCAL_REGULAR }],
            ..Default::default()
        };
        let ctx = Context::<Arm64> {
            objs: vec![object],
            isecs: InputSections(isecs),
            symbols: Symbols(targets),
            headers,
            tls_begin,
            ..Default::default()
        };
        Self { ctx, entries, own }
    }

    /// The Rust's own call.
    pub fn run(&self, section: &mut [u8], base: u64) {
        Arm64::apply_reloc_alloc(&self.ctx, &self.entries, self.own, base, section)
    }
}

/// Fixes up `section`. On a stop its bytes are as the Rust left them.
pub fn apply_reloc_alloc(
    section: &mut [u8],
    base: u64,
    tls_begin: u64,
    entries: &[u8],
    targets: &[u8],
) -> Result<FixedUp, Stop> {
    let fixing = FixingUp::new(tls_begin, entries, targets);
    take_errors();
    let done = caught(|| fixing.run(section, base));
    let errors = take_errors();
    done?;
    let mut fixed = FixedUp { reports: Vec::new(), without_address: Vec::new() };
    for (entry, message) in errors {
        match lent::report_bytes(entry, &message) {
            Some(report) => fixed.reports.extend(report),
            None => fixed.without_address.push(entry),
        }
    }
    Ok(fixed)
}

/// A context with one symbol.
fn one_symbol(symbol: Symbol) -> Context<Arm64> {
    Context { symbols: Symbols(vec![symbol]), ..Default::default() }
}

/// The stub at `addr` that jumps through `pointer`, and whether its ADRP reaches.
pub fn stub(addr: u64, pointer: u64) -> ([u8; 12], bool) {
    let mut ctx = one_symbol(Symbol { got: pointer, ..Default::default() });
    ctx.stubs.symbols = vec![0];
    let mut buf = [0; 12];
    take_errors();
    Arm64::write_stubs(&ctx, addr, &mut buf);
    (buf, take_errors().is_empty())
}

/// The thunk entry at `addr` that jumps to `target`.
pub fn thunk(addr: u64, target: u64) -> [u8; 12] {
    let ctx = one_symbol(Symbol { branch_target: target, ..Default::default() });
    let mut buf = [0; 12];
    Arm64::write_thunk(&ctx, addr, &[0], &mut buf);
    buf
}
