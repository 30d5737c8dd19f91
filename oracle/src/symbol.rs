//! Stands in for symbol.rs: a symbol's facts are those of a resolved target (RULES 2.17, 2.18).

use std::fmt;

use crate::arch::Target;
use crate::context::Context;
use crate::dtrace::SiteKind;

pub type SymbolId = u32;

pub const NEEDS_GOT: u8 = 1;
pub const NEEDS_STUB: u8 = 2;

const IMPORTED: u32 = 1 << 0;
pub const THREAD_LOCAL: u32 = 1 << 1;
const HAS_ADDRESS: u32 = 1 << 2;
const RELAXES_GOT: u32 = 1 << 3;
const HAS_THUNK: u32 = 1 << 4;
const HAS_HELPER: u32 = 1 << 5;
const OWN_HELPER: u32 = 1 << 6;
const PROBE: u32 = 1 << 7;
const IS_ENABLED: u32 = 1 << 8;

/// A resolved target, one for each entry, and the number of that entry.
#[derive(Clone, Copy, Default)]
pub struct Symbol {
    pub entry: u32,
    pub address: u64,
    pub got: u64,
    pub branch_target: u64,
    pub thunk: u64,
    pub helper: u64,
    pub flags: u32,
}

impl Symbol {
    fn has(&self, flag: u32) -> bool {
        self.flags & flag != 0
    }

    /// The load helper and whether it is the site's own.
    pub fn load_helper(&self) -> Option<(u64, bool)> {
        self.has(HAS_HELPER).then(|| (self.helper, self.has(OWN_HELPER)))
    }

    /// What a branch to the symbol is to DTrace.
    pub fn site_kind(&self) -> Option<SiteKind> {
        if self.has(PROBE) { Some(SiteKind::Probe) } else { self.has(IS_ENABLED).then_some(SiteKind::IsEnabled) }
    }

    pub fn name(&self) -> &'static [u8] {
        b"target"
    }

    /// Each entry's target address is asked for first: notes the entry for the errors that follow.
    pub fn addr<E: Target>(&self, _ctx: &Context<E>) -> u64 {
        crate::error::note_entry(self.entry);
        self.address
    }

    /// The subsection with the entry's number, thread-local where the symbol is.
    pub fn input_section(&self) -> Option<u32> {
        Some(self.entry)
    }

    /// `target_has_address` asks this one: no address is what makes it turn away.
    pub fn is_imported(&self) -> bool {
        !self.has(HAS_ADDRESS)
    }

    /// UNSIGNED asks this one.
    pub fn binds_as_import<E: Target>(&self, _ctx: &Context<E>) -> bool {
        self.has(IMPORTED)
    }

    pub fn branch_target_addr<E: Target>(&self, _ctx: &Context<E>) -> u64 {
        self.branch_target
    }

    pub fn thunk_addr<E: Target>(&self, _ctx: &Context<E>, _p: u64) -> Option<u64> {
        self.has(HAS_THUNK).then_some(self.thunk)
    }

    pub fn can_relax_got<E: Target>(&self, _ctx: &Context<E>) -> bool {
        self.has(RELAXES_GOT)
    }

    pub fn got_addr<E: Target>(&self, _ctx: &Context<E>) -> u64 {
        self.got
    }

    /// A stub jumps through the GOT slot.
    pub fn stub_ptr_addr<E: Target>(&self, _ctx: &Context<E>, _i: usize) -> u64 {
        self.got
    }
}

/// What only left-out code asks (symbol scanning, text relocations, helper code, the fix-up for x86_64).
impl Symbol {
    pub fn stub_addr<E: Target>(&self, _ctx: &Context<E>) -> u64 {
        crate::left_out()
    }

    pub fn is_lazy_import<E: Target>(&self, _ctx: &Context<E>) -> bool {
        crate::left_out()
    }

    pub fn is_delay_import<E: Target>(&self, _ctx: &Context<E>) -> bool {
        crate::left_out()
    }

    pub fn is_tlv<E: Target>(&self, _ctx: &Context<E>) -> bool {
        crate::left_out()
    }

    pub fn binds_weak_lookup<E: Target>(&self, _ctx: &Context<E>) -> bool {
        crate::left_out()
    }

    pub fn binds_at_runtime<E: Target>(&self, _ctx: &Context<E>) -> bool {
        crate::left_out()
    }

    pub fn binds_to_self<E: Target>(&self, _ctx: &Context<E>) -> bool {
        crate::left_out()
    }

    pub fn is_absolute<E: Target>(&self, _ctx: &Context<E>) -> bool {
        crate::left_out()
    }

    pub fn has_stub(&self, _symbols: &Symbols) -> bool {
        crate::left_out()
    }

    pub fn binds_pointer<E: Target>(&self, _ctx: &Context<E>) -> bool {
        crate::left_out()
    }

    pub fn add_flags(&self, _flags: u8) {
        crate::left_out()
    }
}

impl fmt::Display for Symbol {
    fn fmt(&self, f: &mut fmt::Formatter) -> fmt::Result {
        f.write_str("target")
    }
}

/// The symbol arena.
#[derive(Default)]
pub struct Symbols(pub Vec<Symbol>);

impl std::ops::Index<u32> for Symbols {
    type Output = Symbol;
    fn index(&self, id: u32) -> &Symbol {
        &self.0[id as usize]
    }
}
