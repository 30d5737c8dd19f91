//! Addresses for the sections of an object and for what the linker adds: GOT, stubs, thunks.

use std::collections::{BTreeMap, BTreeSet};
use std::ops::Range;

use crate::Fault;
use crate::needs::Needs;
use crate::object::{Object, Section, SymbolPlace};

/// Where things go.
#[derive(Clone, Copy, Debug)]
pub struct Options {
    /// Address of the first section of the segment __TEXT.
    pub text: u64,
    /// Address of the first other section. Without it, the next page after the text.
    pub data: Option<u64>,
    /// Whether sections for the debugger or the linker are laid out too, with the data.
    pub debug: bool,
}

impl Default for Options {
    fn default() -> Self {
        Self { text: 0x1_0000_4000, data: None, debug: false }
    }
}

/// What a part of the layout holds.
#[derive(Clone, Copy, Debug, PartialEq, Eq)]
pub enum Holds {
    /// A section, counted from 0.
    Section(usize),
    /// Stubs, in the order of [`Layout::stubs`].
    Stubs,
    /// Thunk entries: 0 those with the text, 1 those with the data.
    Thunks(usize),
    /// GOT slots.
    Got,
    /// Common symbols.
    Commons,
}

/// A stretch of the address space.
#[derive(Clone, Debug, PartialEq, Eq)]
pub struct Part {
    /// What is there.
    pub holds: Holds,
    /// Its address.
    pub address: u64,
    /// Its size.
    pub size: u64,
    /// Its bytes in the image; none where they are all zero.
    pub bytes: Range<usize>,
}

/// A whole layout. Symbols are by number.
#[derive(Clone, Debug, Default, PartialEq, Eq)]
pub struct Layout {
    /// In the order of the addresses; text, then data.
    pub parts: Vec<Part>,
    /// The address of each section that is laid out.
    pub sections: Vec<Option<u64>>,
    /// Addresses of GOT slots.
    pub got: BTreeMap<u32, u64>,
    /// Addresses of stubs.
    pub stubs: BTreeMap<u32, u64>,
    /// Addresses of thunk entries, with the text and with the data.
    pub thunks: [BTreeMap<u32, u64>; 2],
    /// Addresses of common symbols.
    pub commons: BTreeMap<u32, u64>,
    /// Start of thread-local storage; 0 where there is none.
    pub tls_begin: u64,
    /// Address of the mach header, which is not made: the page before that of the text, if there is one.
    pub image_base: u64,
    /// Bytes of the image.
    pub image_size: usize,
    next: u64,
}

/// The page size of the platform; data start on a page of their own, and the mach header has one.
const PAGE: u64 = 0x4000;

/// Bytes of a GOT slot, and of a stub or thunk entry.
const SLOT: u64 = 8;
const JUMP: u64 = 12;

impl Layout {
    /// Lays out `object` with what its entries need.
    pub(crate) fn new(object: &Object, options: &Options, needs: &Needs) -> Result<Self, Fault> {
        let image_base = (options.text & !(PAGE - 1)).saturating_sub(PAGE);
        let mut layout = Self { next: options.text, image_base, ..Self::default() };
        layout.sections = vec![None; object.sections.len()];
        layout.place_sections(object, options, |s| s.is_text())?;
        layout.stubs = layout.place_table(Holds::Stubs, &needs.stubs, JUMP, 2)?;
        layout.thunks[0] = layout.place_table(Holds::Thunks(0), &needs.thunks[0], JUMP, 2)?;
        let text_end = layout.next;

        let data = options.data.or(text_end.checked_next_multiple_of(PAGE)).ok_or_else(no_room)?;
        layout.next = data;
        let plain = |s: &Section| !s.is_text() && !s.is_zerofill() && !s.is_thread_local();
        layout.place_sections(object, options, plain)?;
        layout.thunks[1] = layout.place_table(Holds::Thunks(1), &needs.thunks[1], JUMP, 2)?;
        let tls = |s: &Section| !s.is_text() && s.is_thread_local();
        layout.place_sections(object, options, |s| tls(s) && !s.is_zerofill())?;
        layout.place_sections(object, options, |s| tls(s) && s.is_zerofill())?;
        layout.got = layout.place_table(Holds::Got, &needs.got, SLOT, 3)?;
        let zero = |s: &Section| !s.is_text() && s.is_zerofill() && !s.is_thread_local();
        layout.place_sections(object, options, zero)?;
        layout.place_commons(object)?;

        let data_end = layout.next;
        let empty = options.text == text_end || data == data_end;
        if !empty && options.text < data_end && data < text_end {
            return Err(Fault::new(format!(
                "text ({:x} to {text_end:x}) and data ({data:x} to {data_end:x}) overlap",
                options.text
            )));
        }
        let tls = object.sections.iter().zip(&layout.sections).filter(|(s, _)| s.is_thread_local());
        layout.tls_begin = tls.filter_map(|(_, &address)| address).min().unwrap_or(0);
        Ok(layout)
    }

    /// Adds a part of `size` bytes, `held` of them in the image, at the next address that `align`,
    /// a log2, divides.
    fn place(&mut self, holds: Holds, align: u32, size: u64, held: usize) -> Result<u64, Fault> {
        let address = self.next.checked_next_multiple_of(1 << align).ok_or_else(no_room)?;
        self.next = address.checked_add(size).ok_or_else(no_room)?;
        let bytes = self.image_size..self.image_size + held;
        self.image_size = bytes.end;
        self.parts.push(Part { holds, address, size, bytes });
        Ok(address)
    }

    fn place_sections(
        &mut self,
        object: &Object,
        options: &Options,
        choice: impl Fn(&Section) -> bool,
    ) -> Result<(), Fault> {
        for (number, section) in object.sections.iter().enumerate() {
            if choice(section) && (options.debug || !section.is_debug()) {
                let (align, size, held) = (section.align, section.size, section.contents.len());
                let address = self.place(Holds::Section(number), align, size, held)?;
                self.sections[number] = Some(address);
            }
        }
        Ok(())
    }

    /// Adds a table of one item for each symbol.
    fn place_table(
        &mut self,
        holds: Holds,
        symbols: &BTreeSet<u32>,
        item: u64,
        align: u32,
    ) -> Result<BTreeMap<u32, u64>, Fault> {
        if symbols.is_empty() {
            return Ok(BTreeMap::new());
        }
        let size = item * symbols.len() as u64;
        let address = self.place(holds, align, size, size as usize)?;
        Ok(symbols.iter().zip(0..).map(|(&symbol, i)| (symbol, address + item * i)).collect())
    }

    fn place_commons(&mut self, object: &Object) -> Result<(), Fault> {
        let first = self.parts.len();
        for (number, symbol) in (0..).zip(&object.symbols) {
            if let SymbolPlace::Common { size, align } = symbol.place {
                let address = self.place(Holds::Commons, align, size, 0)?;
                self.commons.insert(number, address);
            }
        }
        // One part for all of them.
        let end = self.next;
        if let Some(part) = self.parts.get_mut(first) {
            part.size = end - part.address;
        }
        self.parts.truncate(first + 1);
        Ok(())
    }
}

fn no_room() -> Fault {
    Fault::new("the layout passes the end of the address space")
}
