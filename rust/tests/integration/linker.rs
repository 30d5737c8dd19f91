//! Small stand-ins for mold-macho's types, with the names and signatures that the sketches use.

use std::cell::RefCell;
use std::fmt;
use std::marker::PhantomData;
use std::path::PathBuf;

use hauklivo::{Report, ty};

use crate::Reloc;

/// Ends the link; here, the test.
macro_rules! fatal {
    ($($word:tt)*) => { panic!($($word)*) };
}
pub(crate) use fatal;

/// Tells of an error and goes on.
macro_rules! error {
    ($($word:tt)*) => { eprintln!($($word)*) };
}
pub(crate) use error;

pub struct Arm64;
pub type SymbolId = usize;

#[derive(Default)]
pub struct Context<E> {
    pub objs: Vec<ObjectFile>,
    pub isecs: Vec<InputSection>,
    pub symbols: Vec<Symbol>,
    pub stubs: Stubs,
    pub tls_begin: u64,
    pub image_base: u64,
    /// What was noted and reported.
    pub told: RefCell<Vec<String>>,
    pub machine: PhantomData<E>,
}

#[derive(Default)]
pub struct Stubs {
    pub symbols: Vec<SymbolId>,
}

#[derive(Default)]
pub struct MachSection {
    pub addr: u64,
    pub name: Vec<u8>,
}

impl MachSection {
    pub fn sectname(&self) -> &[u8] {
        &self.name
    }
}

#[derive(Default)]
pub struct MappedFile {
    pub name: PathBuf,
}

#[derive(Default)]
pub struct ObjectFile {
    pub mf: MappedFile,
    pub is_reachable: bool,
    pub symbols: Vec<SymbolId>,
    pub loh: Vec<(u8, Vec<u64>)>,
    pub rels: Vec<Reloc>,
}

impl ObjectFile {
    /// The subsection that holds the words of a hint.
    pub fn hint_subsec(&self, isecs: &[InputSection], addrs: &[u64]) -> Option<usize> {
        let holds = |s: &InputSection, a| a >= u64::from(s.input_addr) && a < u64::from(s.input_addr + s.size);
        isecs.iter().position(|s| addrs.iter().all(|&a| holds(s, a)))
    }
}

/// The output section of every subsection here.
pub struct ChunkHeader {
    pub addr: u64,
    pub fileoff: u64,
}

impl<E> Context<E> {
    pub fn chunk_header(&self, _chunk: usize) -> ChunkHeader {
        ChunkHeader { addr: 0x1000, fileoff: 0 }
    }
}

#[derive(Default)]
pub struct InputSection {
    pub file: u32,
    pub input_addr: u32,
    pub offset: u32,
    pub size: u32,
}

impl InputSection {
    pub fn rels<'a>(&self, file: &'a ObjectFile) -> &'a [Reloc] {
        &file.rels
    }

    pub fn is_emitted(&self) -> bool {
        true
    }

    pub fn output_section(&self) -> Option<usize> {
        Some(0)
    }

    pub fn check_text_reloc<E>(&self, ctx: &Context<E>, _isec_id: usize, _rels: &[Reloc], i: usize, addr: u64) {
        ctx.told.borrow_mut().push(format!("pointer {i} at {addr:x}"));
    }

    pub fn target_has_address<E>(&self, ctx: &Context<E>, r: &Reloc) -> bool {
        let file = &ctx.objs[self.file as usize];
        let has = r.sym(file).is_none_or(|id| !ctx.symbols[id].is_imported);
        if !has {
            ctx.told.borrow_mut().push(format!("no address for {:x}", r.offset));
        }
        has
    }
}

#[derive(Clone, Copy, PartialEq, Eq)]
pub enum SiteKind {
    Probe,
    IsEnabled,
}

#[derive(Default)]
pub struct Symbol {
    pub addr: u64,
    pub got: u64,
    pub is_imported: bool,
    pub thunk: Option<u64>,
    pub site: Option<SiteKind>,
}

impl fmt::Display for Symbol {
    fn fmt(&self, f: &mut fmt::Formatter) -> fmt::Result {
        write!(f, "symbol at {:x}", self.addr)
    }
}

impl Symbol {
    pub fn binds_as_import<E>(&self, _ctx: &Context<E>) -> bool {
        self.is_imported
    }

    pub fn can_relax_got<E>(&self, _ctx: &Context<E>) -> bool {
        !self.is_imported
    }

    pub fn got_addr<E>(&self, _ctx: &Context<E>) -> u64 {
        self.got
    }

    pub fn branch_target_addr<E>(&self, _ctx: &Context<E>) -> u64 {
        self.addr
    }

    pub fn thunk_addr<E>(&self, _ctx: &Context<E>, _p: u64) -> Option<u64> {
        self.thunk
    }

    pub fn stub_ptr_addr<E>(&self, _ctx: &Context<E>, _stub: usize) -> u64 {
        self.got
    }
}

impl Reloc {
    pub fn sym(&self, file: &ObjectFile) -> Option<SymbolId> {
        (self.target >> 31 == 0).then(|| file.symbols[self.target as usize])
    }

    pub fn addr<E>(&self, ctx: &Context<E>, file: &ObjectFile) -> u64 {
        match self.sym(file) {
            Some(id) => ctx.symbols[id].addr,
            None => 0x1000 + u64::from(ctx.isecs[(self.target & !(1 << 31)) as usize].offset),
        }
    }

    pub fn refers_to_tls<E>(&self, _ctx: &Context<E>, _file: &ObjectFile) -> bool {
        false
    }
}

pub mod dtrace {
    use super::{Context, SiteKind, SymbolId};

    pub fn site_kind<E>(ctx: &Context<E>, sym: SymbolId) -> Option<SiteKind> {
        ctx.symbols[sym].site
    }
}

pub mod lazy_helpers {
    use super::Context;
    use crate::Reloc;

    pub fn load_helper<E>(_ctx: &Context<E>, _isec_id: usize, _r: &Reloc) -> Option<(u64, bool)> {
        None
    }
}

pub mod delay_init {
    pub use super::lazy_helpers::load_helper;
}

pub mod stubs {
    // the machine that mold-macho names
    #[allow(clippy::extra_unused_type_parameters)]
    pub fn entry_offset<E>(i: u32) -> u64 {
        12 * u64::from(i)
    }
}

/// Prints a report.
pub fn tell<E>(ctx: &Context<E>, _isec: &InputSection, r: &Reloc, report: &Report) {
    assert!(r.ty != ty::ADDEND);
    ctx.told.borrow_mut().push(format!("report {} of entry {}", report.kind, report.entry));
}
