//! What entries refer to, in words; of a branch, where the word that was written goes.

use hauklivo::{Reloc, Resolved, Target, flag, ty};

use crate::link::{Linked, LinkedSection};
use crate::object::Object;
use crate::signing::signing;
use crate::words::{branch_target, word_at};

/// Where the word of a BRANCH26 entry goes.
#[derive(Clone, Copy, Debug, PartialEq, Eq)]
pub enum Way {
    /// To what the entry refers to.
    Straight,
    /// To the symbol's stub, or with an addend to that much behind it.
    Stub,
    /// To the symbol's thunk entry.
    Thunk,
    /// To another address.
    Elsewhere(u64),
    /// Nowhere: it is what a DTrace site has in the place of a branch.
    Site,
    /// Nowhere: it is no branch.
    NoBranch,
}

/// Where the word of a BRANCH26 entry at `place` goes.
fn way(entry: &Reloc, target: &Resolved, place: u64, word: u32) -> Way {
    let has = |flags: u32| target.flags & flags != 0;
    let Some(to) = branch_target(word, place) else {
        return if has(flag::PROBE | flag::IS_ENABLED) { Way::Site } else { Way::NoBranch };
    };
    let start = match entry.target() {
        Target::Symbol(_) => target.branch,
        Target::Section(_) => target.address,
    };
    if to == start.wrapping_add_signed(entry.addend) {
        if has(flag::HAS_ADDRESS) { Way::Straight } else { Way::Stub }
    } else if has(flag::HAS_THUNK) && to == target.thunk {
        Way::Thunk
    } else {
        Way::Elsewhere(to)
    }
}

/// A text and an addend.
pub fn with_addend(text: &str, addend: i64) -> String {
    match addend {
        0 => text.into(),
        addend if addend < 0 => format!("{text} - {:#x}", addend.unsigned_abs()),
        addend => format!("{text} + {addend:#x}"),
    }
}

/// The entries of a section by number, with what was written for them.
pub struct Labels<'a> {
    object: &'a Object<'a>,
    linked: &'a Linked,
    pub section: &'a LinkedSection,
    taken: Vec<bool>,
}

impl<'a> Labels<'a> {
    /// Those of a section.
    pub fn new(object: &'a Object, linked: &'a Linked, section: &'a LinkedSection) -> Self {
        let mut is_taken = false;
        let taken = section.entries.iter().map(|entry| {
            let was_taken = is_taken;
            is_taken = !was_taken && entry.ty == ty::SUBTRACTOR;
            was_taken
        });
        Self { object, linked, section, taken: taken.collect() }
    }

    /// Whether the SUBTRACTOR before it takes an entry.
    pub fn is_taken(&self, number: usize) -> bool {
        self.taken[number]
    }

    /// Whether an entry's symbol has no address in the image.
    pub fn lacks_address(&self, number: usize) -> bool {
        self.section.targets[number].flags & flag::HAS_ADDRESS == 0
    }

    /// The address of an entry's place.
    pub fn place(&self, number: usize) -> u64 {
        self.section.address.wrapping_add(self.section.entries[number].offset.into())
    }

    /// Where the word of an entry goes; None where the entry is no BRANCH26 of its own.
    pub fn way(&self, number: usize) -> Option<Way> {
        let entry = &self.section.entries[number];
        let word = word_at(&self.linked.fixed, self.section.start + entry.offset as usize)?;
        let is_branch = entry.ty == ty::BRANCH26 && !self.is_taken(number);
        is_branch.then(|| way(entry, &self.section.targets[number], self.place(number), word))
    }

    /// The symbol or section of an entry.
    pub fn name(&self, number: usize) -> &'a str {
        self.object.name(self.section.entries[number].target()).expect("the target is resolved")
    }

    /// What an entry refers to: a symbol or section, and its addend.
    pub fn reference(&self, number: usize) -> String {
        with_addend(self.name(number), self.section.entries[number].addend)
    }

    /// What an entry refers to, and by way of what; of a branch, what the word goes to; of an authenticated pointer, how
    /// it is signed.
    pub fn label(&self, number: usize) -> String {
        let (entry, target) = (&self.section.entries[number], &self.section.targets[number]);
        let (name, reference) = (self.name(number), self.reference(number));
        let is_relaxed = target.flags & flag::RELAXES_GOT != 0;
        match (entry.ty, self.way(number)) {
            _ if self.is_taken(number) => reference,
            (_, Some(Way::Stub)) if entry.addend == 0 => format!("stub of {name}"),
            (_, Some(Way::Stub)) => with_addend(&format!("(stub of {name})"), entry.addend),
            (_, Some(Way::Thunk)) => format!("thunk entry of {name}"),
            (_, Some(Way::Elsewhere(to))) => format!("{to:x}, not {reference}"),
            (_, Some(Way::Site)) => format!("DTrace site {reference}"),
            (_, Some(Way::NoBranch)) => format!("{reference}, no branch"),
            (ty::POINTER_TO_GOT, _) => format!("GOT slot of {reference}"),
            (ty::GOT_LOAD_PAGE21..=ty::TLVP_LOAD_PAGEOFF12, _) if !is_relaxed => format!("GOT slot of {reference}"),
            _ => reference + &signing(entry),
        }
    }
}
