//! What the linker knows of the targets of entries.

use hauklivo::{Reloc, Resolved, Target, flag, ty};

use crate::layout::Layout;
use crate::object::{Object, SymbolPlace};

/// An object with its layout.
#[derive(Clone, Copy)]
pub struct Laid<'a> {
    pub object: &'a Object<'a>,
    pub layout: &'a Layout,
}

/// Whether B or BL at `place` reaches `target`.
pub fn branch_reaches(place: u64, target: u64) -> bool {
    (-(1 << 27)..1 << 27).contains(&(target.wrapping_sub(place) as i64))
}

impl Laid<'_> {
    /// A section's address. One that is not laid out keeps the object's.
    fn section_address(self, number: usize) -> u64 {
        self.layout.sections[number].unwrap_or(self.object.sections[number].address)
    }

    /// A symbol's address, None for a library's.
    pub fn symbol_address(self, number: u32) -> Option<u64> {
        match self.object.symbols[number as usize].place {
            SymbolPlace::Undefined => None,
            SymbolPlace::Common { .. } => self.layout.commons.get(&number).copied(),
            SymbolPlace::Absolute(address) => Some(address),
            SymbolPlace::Defined { section, value } => {
                let offset = value.wrapping_sub(self.object.sections[section].address);
                Some(self.section_address(section).wrapping_add(offset))
            }
        }
    }

    /// Where a branch to a symbol goes: its address, or its stub's.
    pub fn branch_target(self, number: u32) -> u64 {
        let stub = self.layout.stubs.get(&number).copied();
        self.symbol_address(number).or(stub).unwrap_or(0)
    }

    /// The target of an entry at `place`; None where its symbol is not there.
    pub fn resolve(self, entry: &Reloc, place: u64) -> Option<Resolved> {
        match entry.target() {
            Target::Section(number) => Some(self.resolve_section(number as usize)),
            Target::Symbol(number) => {
                let is_there = (number as usize) < self.object.symbols.len();
                is_there.then(|| self.resolve_symbol(number, place))
            }
        }
    }

    fn resolve_section(self, number: usize) -> Resolved {
        let is_thread_local = self.object.sections[number].is_thread_local();
        let address = self.section_address(number);
        let flags = flag::HAS_ADDRESS | if is_thread_local { flag::THREAD_LOCAL } else { 0 };
        Resolved { address, branch: address, flags, ..Resolved::default() }
    }

    fn resolve_symbol(self, number: u32, place: u64) -> Resolved {
        let symbol = &self.object.symbols[number as usize];
        let address = self.symbol_address(number);
        let is_thread_local = match symbol.place {
            SymbolPlace::Defined { section, .. } => self.object.sections[section].is_thread_local(),
            _ => false,
        };
        let mut thunks = self.layout.thunks.iter().filter_map(|table| table.get(&number).copied());
        let thunk = thunks.find(|&thunk| branch_reaches(place, thunk));
        let facts = [
            (flag::IMPORTED, address.is_none()),
            (flag::THREAD_LOCAL, is_thread_local),
            (flag::HAS_ADDRESS, address.is_some()),
            (flag::RELAXES_GOT, symbol.relaxes_got()),
            (flag::HAS_THUNK, thunk.is_some()),
            (flag::PROBE, symbol.is_probe()),
            (flag::IS_ENABLED, symbol.is_enabled_test()),
        ];
        Resolved {
            address: address.unwrap_or(0),
            got: self.layout.got.get(&number).copied().unwrap_or(0),
            branch: self.branch_target(number),
            thunk: thunk.unwrap_or(0),
            flags: facts.iter().filter(|(_, holds)| *holds).map(|(flag, _)| flag).sum(),
            ..Resolved::default()
        }
    }

    /// The symbol that a branch at `place` needs a thunk entry for, if it does not reach.
    pub fn needs_thunk(self, entry: &Reloc, place: u64) -> Option<u32> {
        let Target::Symbol(number) = entry.target() else { return None };
        let symbol = self.object.symbols.get(number as usize)?;
        let is_site = symbol.is_probe() || symbol.is_enabled_test();
        let is_far = !is_site && !branch_reaches(place, self.branch_target(number));
        (entry.ty == ty::BRANCH26 && entry.addend == 0 && is_far).then_some(number)
    }
}
