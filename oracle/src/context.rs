//! Stands in for context.rs: the link's state, empty but for what a call fills in.

use std::marker::PhantomData;
use std::ops::Range;
use std::sync::Mutex;

use crate::arch::Target;
use crate::chunks::{ChunkHeader, ChunkId, delay_init, lazy_helpers, objc_stubs};
use crate::input_files::ObjectFile;
use crate::input_sections::{CieRecord, FdeRecord, InputSections};
use crate::symbol::{SymbolId, Symbols};

#[derive(Default)]
pub struct Args {
    pub pie: bool,
    pub output_type: u32,
    pub ignore_optimization_hints: bool,
    pub objc_stubs_small: bool,
    pub static_link: bool,
    pub kexts_use_stubs: bool,
}

impl Args {
    pub fn is_kext(&self) -> bool {
        crate::left_out()
    }
}

#[derive(Default)]
pub struct Stubs {
    pub symbols: Vec<SymbolId>,
    pub lazy: Vec<u32>,
}

#[derive(Default)]
pub struct StubHelper {
    pub dyld_private_isec: u32,
    pub dyld_stub_binder: Option<SymbolId>,
    pub binding_helper: Option<SymbolId>,
}

#[derive(Default)]
pub struct LazyBindInfo {
    pub offsets: Vec<u32>,
}

#[derive(Default)]
pub struct MachHeader {
    pub hdr: ChunkHeader,
}

/// A table of address slots; only left-out code asks for one.
#[derive(Default)]
pub struct Slots;

impl Slots {
    pub fn slot_addr(&self, _i: usize) -> u64 {
        crate::left_out()
    }
}

#[derive(Default)]
pub struct Context<E: Target> {
    pub args: Args,
    pub objs: Vec<ObjectFile>,
    pub isecs: InputSections,
    pub symbols: Symbols,
    pub tls_begin: u64,
    pub stubs: Stubs,
    /// Stays empty, so that check_text_reloc does nothing.
    pub text_reloc_ranges: Vec<Range<u64>>,
    pub text_relocs: Mutex<Vec<(u32, u32)>>,
    /// The shim's own: the chunks by id.
    pub headers: Vec<ChunkHeader>,
    // What only left-out code reads.
    pub stub_helper: StubHelper,
    pub lazy_bind_info: LazyBindInfo,
    pub objc_stubs: objc_stubs::ObjcStubs,
    pub lazy_helpers: lazy_helpers::LazyHelpers,
    pub mach_header: MachHeader,
    pub lazy_load_got: Slots,
    pub delay_init: delay_init::DelayInit,
    pub got: Slots,
    pub lazy_ptrs: Slots,
    pub pointers32: Mutex<Vec<(u32, u32)>>,
    pub cies: Vec<CieRecord>,
    pub fdes: Vec<FdeRecord>,
    pub target: PhantomData<E>,
}

impl<E: Target> Context<E> {
    /// A section's address is asked for here: notes the entry, as Symbol::addr does.
    pub fn chunk_header(&self, id: ChunkId) -> &ChunkHeader {
        crate::error::note_entry(id.0);
        &self.headers[id.0 as usize]
    }

    pub fn objc_msgsend_got_addr(&self) -> u64 {
        crate::left_out()
    }
}
