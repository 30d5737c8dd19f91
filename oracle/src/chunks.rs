//! Stands in for chunks: headers and ids, and the helper facts that fix-up asks for.

#[derive(Clone, Copy, Default)]
pub struct ChunkHeader {
    pub addr: u64,
    pub fileoff: u64,
    pub sect_idx: u8,
}

/// A chunk's number.
#[derive(Clone, Copy)]
pub struct ChunkId(pub u32);

impl ChunkId {
    pub fn pack(self) -> u32 {
        self.0
    }

    pub fn unpack(packed: u32) -> Self {
        Self(packed)
    }
}

/// Stands in for stubs.rs: one entry after another.
pub mod stubs {
    pub fn entry_offset<E: crate::arch::Target>(i: u32) -> u64 {
        i as u64 * E::STUB_SIZE
    }
}

/// Stands in for stub_helper.rs, left out.
pub mod stub_helper {
    pub fn entry_offset<E: crate::arch::Target>(_ctx: &crate::context::Context<E>, _i: u32) -> u64 {
        crate::left_out()
    }
}

/// Stands in for objc_stubs.rs, left out.
pub mod objc_stubs {
    use crate::arch::Target;
    use crate::context::Context;
    use crate::symbol::SymbolId;

    #[derive(Default)]
    pub struct ObjcStubs {
        pub msgsend_sym: Option<SymbolId>,
        pub symbols: Vec<SymbolId>,
    }

    impl ObjcStubs {
        pub fn selref_addr<E: Target>(&self, _ctx: &Context<E>, _i: usize) -> u64 {
            crate::left_out()
        }
    }

    pub fn entry_offset<E: Target>(_ctx: &Context<E>, _i: u32) -> u64 {
        crate::left_out()
    }
}

/// Stands in for lazy_helpers.rs: all load helpers (RULES 5.16) come from here.
pub mod lazy_helpers {
    use crate::arch::Target;
    use crate::context::Context;
    use crate::input_sections::{Reloc, RelocTarget};
    use crate::symbol::SymbolId;

    #[derive(Clone, Copy, PartialEq)]
    pub enum LazyUse {
        Call,
        Load { reg: u8, site: Option<(u32, u32)> },
        Cmp,
    }

    pub enum LazyTarget {
        Flag,
        Header,
        LazyLoad,
        Slot,
        Site,
    }

    pub struct LazyHelper {
        pub offset: u32,
        pub flag: u32,
        pub slot: usize,
        pub kind: LazyUse,
    }

    #[derive(Default)]
    pub struct LazyHelpers {
        pub dyld_lazy_load: Option<SymbolId>,
        pub helpers: Vec<LazyHelper>,
    }

    /// The helper of entry `r`'s target, a symbol or a section of the entry's own number.
    pub fn load_helper<E: Target>(ctx: &Context<E>, _isec: usize, r: &Reloc) -> Option<(u64, bool)> {
        let (RelocTarget::Sym(i) | RelocTarget::Section(i)) = r.target();
        ctx.symbols[i].load_helper()
    }
}

/// Stands in for delay_init.rs: it has no load helper, lazy_helpers has them all.
pub mod delay_init {
    use crate::arch::Target;
    use crate::context::Context;
    use crate::input_sections::Reloc;
    use crate::symbol::SymbolId;

    #[derive(Clone, Copy, PartialEq)]
    pub enum DelayUse {
        Load { reg: u8, site: Option<(u32, u32)> },
        Cmp,
    }

    pub enum DelayCode {
        Stub,
        Helper(DelayUse),
        Dlopen,
    }

    pub enum DelayTarget {
        Flag,
        DlopenHelper,
        Slot,
        Site,
        Name,
        Dlopen,
    }

    pub struct DelayStub {
        pub dlopen: u32,
        pub got: u32,
    }

    pub struct DelayHelper {
        pub offset: u32,
        pub kind: DelayUse,
        pub dlopen: u32,
        pub sym: SymbolId,
    }

    pub struct Dlopen {
        pub offset: u32,
        pub flag: u32,
        pub string: u32,
    }

    #[derive(Default)]
    pub struct DelayInit {
        pub stubs: Vec<DelayStub>,
        pub helpers: Vec<DelayHelper>,
        pub dlopens: Vec<Dlopen>,
        pub dlopen_sym: Option<SymbolId>,
    }

    impl DelayInit {
        pub fn dlopen_helper_addr(&self, _i: usize) -> u64 {
            crate::left_out()
        }
    }

    pub fn stub_offset<E: Target>(_i: u32) -> u64 {
        crate::left_out()
    }

    pub fn load_helper<E: Target>(_ctx: &Context<E>, _isec: usize, _r: &Reloc) -> Option<(u64, bool)> {
        None
    }
}
