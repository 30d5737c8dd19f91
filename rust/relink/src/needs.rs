//! What the entries of an object ask the layout for.

use std::collections::BTreeSet;

use hauklivo::{Reloc, Target, ty};

use crate::object::{Object, Symbol, SymbolPlace};

/// Symbols, by number, that need a GOT slot, a stub, a thunk entry with the text or with the data.
#[derive(Clone, Debug, Default, PartialEq, Eq)]
pub struct Needs {
    pub got: BTreeSet<u32>,
    pub stubs: BTreeSet<u32>,
    pub thunks: [BTreeSet<u32>; 2],
}

impl Symbol {
    /// Whether a load of its GOT slot can be its address instead: nothing else may define it.
    pub(crate) fn relaxes_got(&self) -> bool {
        self.place != SymbolPlace::Undefined && !self.is_weak
    }

    /// A DTrace probe site calls it.
    pub(crate) fn is_probe(&self) -> bool {
        self.place == SymbolPlace::Undefined && self.name.starts_with("___dtrace_probe$")
    }

    /// A DTrace is-enabled site calls it.
    pub(crate) fn is_enabled_test(&self) -> bool {
        self.place == SymbolPlace::Undefined && self.name.starts_with("___dtrace_isenabled$")
    }
}

impl Needs {
    /// What `entries` ask for, but for thunks, which depend on the layout.
    pub fn of<'a>(object: &Object, entries: impl Iterator<Item = &'a Reloc>) -> Self {
        let mut needs = Self::default();
        for entry in entries {
            let Target::Symbol(number) = entry.target() else { continue };
            let Some(symbol) = object.symbols.get(number as usize) else { continue };
            match entry.ty {
                ty::BRANCH26 if symbol.is_probe() || symbol.is_enabled_test() => {}
                ty::BRANCH26 if symbol.place == SymbolPlace::Undefined => {
                    needs.stubs.insert(number);
                    needs.got.insert(number);
                }
                ty::POINTER_TO_GOT => {
                    needs.got.insert(number);
                }
                ty::GOT_LOAD_PAGE21..=ty::TLVP_LOAD_PAGEOFF12 if !symbol.relaxes_got() => {
                    needs.got.insert(number);
                }
                _ => {}
            }
        }
        needs
    }
}
