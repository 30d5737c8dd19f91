//! Stands in for dtrace.rs: the kind of a probe site comes from the target's flags.

use crate::arch::Target;
use crate::context::Context;
use crate::symbol::SymbolId;

pub enum SiteKind {
    Probe,
    IsEnabled,
}

pub fn site_kind<E: Target>(ctx: &Context<E>, sym: SymbolId) -> Option<SiteKind> {
    ctx.symbols[sym].site_kind()
}
