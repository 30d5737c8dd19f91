//! A Mach-O object file taken apart. Every offset and count of the file is checked before use.

mod bytes;
mod commands;
mod hints;
mod symbols;

use hauklivo::{MachRel, Target};

use crate::Fault;
use bytes::File;

/// Section types of <mach-o/loader.h>, the low byte of a section's flags.
mod kind {
    pub const ZEROFILL: u32 = 0x1;
    pub const GB_ZEROFILL: u32 = 0xc;
    pub const THREAD_LOCAL_REGULAR: u32 = 0x11;
    pub const THREAD_LOCAL_ZEROFILL: u32 = 0x12;
}

/// The attribute of sections that are for the debugger or the linker, not for the image.
const S_ATTR_DEBUG: u32 = 0x0200_0000;

/// The most relocation records, symbols or hints that are taken: each can cost a kilobyte or two until it is listed.
const MOST: usize = 1 << 18;

/// A fault for more than [`MOST`] of something.
fn too_many(what: &str) -> Fault {
    Fault::new(format!("there are more than {MOST} {what}"))
}

/// The machine that an object is for.
#[derive(Clone, Copy, Debug, PartialEq, Eq)]
pub enum Machine {
    /// Its objects are laid out.
    Arm64,
    /// Of its objects the entries are read, and no more.
    X86_64,
}

impl Machine {
    /// Its name.
    pub fn name(self) -> &'static str {
        match self {
            Self::Arm64 => "arm64",
            Self::X86_64 => "x86_64",
        }
    }
}

/// An object file.
#[derive(Clone, Debug)]
pub struct Object<'a> {
    /// What its header says.
    pub machine: Machine,
    /// By ordinal less 1.
    pub sections: Vec<Section<'a>>,
    /// By number.
    pub symbols: Vec<Symbol>,
    /// In the order of the file.
    pub hints: Vec<ObjectHint>,
}

/// A section of an object file.
#[derive(Clone, Debug)]
pub struct Section<'a> {
    /// Segment and section name, as "__TEXT,__text".
    pub name: String,
    /// Its address in the object.
    pub address: u64,
    /// Its size in bytes.
    pub size: u64,
    /// Log2 of its alignment.
    pub align: u32,
    flags: u32,
    /// Its bytes; none where it is all zero and takes no place in the file.
    pub contents: &'a [u8],
    /// Its relocation records.
    pub records: Vec<MachRel>,
}

impl Section<'_> {
    /// Whether it goes with the code.
    pub fn is_text(&self) -> bool {
        self.name.starts_with("__TEXT,")
    }

    /// Whether its bytes are all zero and not in the file.
    pub fn is_zerofill(&self) -> bool {
        let kinds = [kind::ZEROFILL, kind::GB_ZEROFILL, kind::THREAD_LOCAL_ZEROFILL];
        kinds.contains(&(self.flags & 0xff))
    }

    /// Whether it is a part of what each thread's storage starts as.
    pub fn is_thread_local(&self) -> bool {
        let kinds = [kind::THREAD_LOCAL_REGULAR, kind::THREAD_LOCAL_ZEROFILL];
        kinds.contains(&(self.flags & 0xff))
    }

    /// Whether it is for the debugger or the linker, not for the image.
    pub fn is_debug(&self) -> bool {
        self.flags & S_ATTR_DEBUG != 0
    }
}

/// A symbol of an object file.
#[derive(Clone, Debug)]
pub struct Symbol {
    /// Its name; a very long one is cut.
    pub name: String,
    /// What it stands for.
    pub place: SymbolPlace,
    /// Whether another image's definition of the name may take its place.
    pub is_weak: bool,
}

/// What a symbol stands for.
#[derive(Clone, Copy, Debug, PartialEq, Eq)]
pub enum SymbolPlace {
    /// Nothing in this object: a library's.
    Undefined,
    /// So many bytes that the linker finds room for.
    Common {
        /// Its size in bytes.
        size: u64,
        /// Log2 of its alignment.
        align: u32,
    },
    /// A fixed address.
    Absolute(u64),
    /// An address of the object.
    Defined {
        /// Its section, counted from 0.
        section: usize,
        /// Its address in the object.
        value: u64,
    },
}

/// A linker optimization hint.
#[derive(Clone, Debug, PartialEq, Eq)]
pub struct ObjectHint {
    /// Its kind, 1 to 8 for those that have a rule.
    pub kind: u64,
    /// Addresses of its words in the object.
    pub words: Vec<u64>,
}

impl<'a> Object<'a> {
    /// Takes a file apart.
    ///
    /// # Errors
    ///
    /// A sentence for a file that is no Mach-O object of a [`Machine`], a damaged one, or one with too much in it.
    pub fn parse(bytes: &'a [u8]) -> Result<Self, Fault> {
        let file = File(bytes);
        let (machine, parts) = commands::read(file)?;
        let sections = parts.sections(file)?;
        let symbols = match parts.symbols {
            Some(table) => symbols::read(file, &table, sections.len())?,
            None => Vec::new(),
        };
        let hints = match parts.hints {
            Some((offset, size)) => hints::read(file.range(offset, size, "the list of hints")?)?,
            None => Vec::new(),
        };
        Ok(Self { machine, sections, symbols, hints })
    }

    /// The name of a symbol or section; None where there is none of that number.
    pub fn name(&self, target: Target) -> Option<&str> {
        match target {
            Target::Symbol(number) => self.symbols.get(number as usize).map(|symbol| &*symbol.name),
            Target::Section(number) => self.sections.get(number as usize).map(|section| &*section.name),
        }
    }
}
