//! The records that lists are made of: relocation records of an object file, entries, resolved
//! targets, reports, hints, rule records; and the tally of a hint run.

use std::slice;

/// A record of fixed size, whose bytes in memory are its bytes in a list.
///
/// ```
/// use hauklivo::{MachRel, Record};
///
/// let r = MachRel { offset: 4, bits: 0x3d000005 };
/// assert_eq!(r.to_bytes(), [4, 0, 0, 0, 5, 0, 0, 0x3d]);
/// assert_eq!(MachRel::from_bytes(&r.to_bytes()), Some(r));
/// assert_eq!(MachRel::from_bytes(&[0; 7]), None);
/// assert_eq!(MachRel::bytes(&[r, r]).len(), 16);
/// ```
///
/// A linker may give it to a type of its own with the fields of a record here, and lend slices of
/// that without a copy:
///
/// ```
/// use hauklivo::{Record, Reloc};
///
/// #[repr(C)]
/// #[derive(Clone, Copy, Default)]
/// struct Entry {
///     offset: u32,
///     form: [u8; 4],
///     target: u32,
///     signing: [u8; 4],
///     addend: i64,
/// }
///
/// // SAFETY: repr(C) without padding, and every field is of integers.
/// unsafe impl Record for Entry {}
///
/// assert_eq!(Entry::SIZE, Reloc::SIZE);
/// assert_eq!(Entry::bytes(&[Entry { addend: -1, ..Entry::default() }])[16..], [0xff; 8]);
/// ```
///
/// # Safety
///
/// The type has no padding, so that each of its bytes can be read; every pattern of bits is a value
/// of it, so that each can be written (no `bool`, no enum, no reference); it holds no `Cell`. A type
/// whose fields are not where the library has them is safe to lend, but is taken for another record.
pub unsafe trait Record: Copy + Default {
    /// Bytes of one record.
    const SIZE: usize = size_of::<Self>();

    /// A list of records as bytes.
    fn bytes(list: &[Self]) -> &[u8] {
        // SAFETY: no padding, so every byte is set, and no cell; u8 needs no alignment.
        unsafe { slice::from_raw_parts(list.as_ptr().cast(), size_of_val(list)) }
    }

    /// A list of records as bytes to write.
    fn bytes_mut(list: &mut [Self]) -> &mut [u8] {
        // SAFETY: as above; every pattern of bits is a record.
        unsafe { slice::from_raw_parts_mut(list.as_mut_ptr().cast(), size_of_val(list)) }
    }

    /// This record's bytes.
    fn to_bytes(self) -> Vec<u8> {
        Self::bytes(&[self]).to_vec()
    }

    /// The record of just so many bytes.
    fn from_bytes(bytes: &[u8]) -> Option<Self> {
        let mut list = [Self::default()];
        let into = Self::bytes_mut(&mut list);
        if into.len() != bytes.len() {
            return None;
        }
        into.copy_from_slice(bytes);
        Some(list[0])
    }

    /// The records of a list, None where it is not whole.
    fn list(bytes: &[u8]) -> Option<Vec<Self>> {
        bytes.chunks(Self::SIZE).map(Self::from_bytes).collect()
    }
}

macro_rules! records {
    ($($name:ident: $size:literal,)*) => {$(
        const _: () = assert!(size_of::<$name>() == $size);
        // SAFETY: repr(C) without padding, and every field is of integers.
        unsafe impl Record for $name {}

        impl From<[u8; $size]> for $name {
            fn from(bytes: [u8; $size]) -> Self {
                Self::from_bytes(&bytes).expect("the size of a record")
            }
        }

        impl From<$name> for [u8; $size] {
            fn from(record: $name) -> Self {
                record.to_bytes().try_into().expect("the size of a record")
            }
        }
    )*};
}

records! {
    MachRel: 8, Reloc: 24, Resolved: 48, Report: 24, HintInsn: 16, HintRecord: 64, Tally: 16, RuleRecord: 16,
}

/// Relocation types of an arm64 object, those of Apple's `<mach-o/arm64/reloc.h>`.
#[allow(missing_docs)]
pub mod ty {
    pub const UNSIGNED: u8 = 0;
    pub const SUBTRACTOR: u8 = 1;
    pub const BRANCH26: u8 = 2;
    pub const PAGE21: u8 = 3;
    pub const PAGEOFF12: u8 = 4;
    pub const GOT_LOAD_PAGE21: u8 = 5;
    pub const GOT_LOAD_PAGEOFF12: u8 = 6;
    pub const POINTER_TO_GOT: u8 = 7;
    pub const TLVP_LOAD_PAGE21: u8 = 8;
    pub const TLVP_LOAD_PAGEOFF12: u8 = 9;
    pub const ADDEND: u8 = 10;
    pub const AUTHENTICATED_POINTER: u8 = 11;
}

/// Relocation types of an x86_64 object, those of Apple's `<mach-o/x86_64/reloc.h>`.
#[allow(missing_docs)]
pub mod ty_x86_64 {
    pub const UNSIGNED: u8 = 0;
    pub const SIGNED: u8 = 1;
    pub const BRANCH: u8 = 2;
    pub const GOT_LOAD: u8 = 3;
    pub const GOT: u8 = 4;
    pub const SUBTRACTOR: u8 = 5;
    pub const SIGNED_1: u8 = 6;
    pub const SIGNED_2: u8 = 7;
    pub const SIGNED_4: u8 = 8;
    pub const TLV: u8 = 9;
}

/// A relocation record of an object file: Apple's `relocation_info`.
#[repr(C)]
#[derive(Clone, Copy, Debug, Default, PartialEq, Eq, Hash)]
pub struct MachRel {
    /// Offset of the place in the section.
    pub offset: u32,
    /// From bit 0: index (24 bits), pc-relative (1), log2 of the size (2), extern (1), type (4).
    pub bits: u32,
}

impl MachRel {
    /// A record of its fields. Bits that a field has no room for are dropped.
    ///
    /// ```
    /// use hauklivo::{MachRel, ty};
    ///
    /// let r = MachRel::new(0, 5, true, 2, true, ty::PAGE21);
    /// assert_eq!(r.bits, 0x3d000005);
    /// assert_eq!((r.idx(), r.is_pcrel(), r.p2size(), r.is_extern(), r.ty()), (5, true, 2, true, 3));
    /// ```
    pub fn new(offset: u32, idx: u32, is_pcrel: bool, p2size: u8, is_extern: bool, ty: u8) -> Self {
        let bits = idx & 0xff_ffff
            | u32::from(is_pcrel) << 24
            | u32::from(p2size & 3) << 25
            | u32::from(is_extern) << 27
            | u32::from(ty & 15) << 28;
        Self { offset, bits }
    }

    /// A symbol's number, or a section's ordinal, counted from 1.
    pub fn idx(self) -> u32 {
        self.bits & 0xff_ffff
    }

    /// Whether it is pc-relative.
    pub fn is_pcrel(self) -> bool {
        self.bits >> 24 & 1 == 1
    }

    /// Log2 of the size in bytes.
    pub fn p2size(self) -> u8 {
        (self.bits >> 25 & 3) as u8
    }

    /// Whether the index is a symbol's.
    pub fn is_extern(self) -> bool {
        self.bits >> 27 & 1 == 1
    }

    /// Its type, one of [`ty`], or of [`ty_x86_64`] in an x86_64 object.
    pub fn ty(self) -> u8 {
        (self.bits >> 28) as u8
    }
}

/// What an entry refers to.
#[derive(Clone, Copy, Debug, PartialEq, Eq, Hash)]
pub enum Target {
    /// A symbol, by its number in the object.
    Symbol(u32),
    /// A section, counted from 0.
    Section(u32),
}

impl Target {
    /// The bit of an entry's target field that names a section.
    pub const SECTION: u32 = 1 << 31;

    /// The target field of an entry. Bit 31 of a number is dropped.
    pub fn pack(self) -> u32 {
        match self {
            Self::Symbol(n) => n & !Self::SECTION,
            Self::Section(n) => n | Self::SECTION,
        }
    }
}

/// An entry: what a record, in an arm64 object with the ADDEND record before it, comes to.
#[repr(C)]
#[derive(Clone, Copy, Debug, Default, PartialEq, Eq, Hash)]
pub struct Reloc {
    /// Offset of the place in the section.
    pub offset: u32,
    /// Its type, one of [`ty`], or of [`ty_x86_64`] from
    /// [`read_relocs_x86_64`](crate::read_relocs_x86_64). Nothing in an entry says of which: whoever lends
    /// entries to a fix-up or to a hint run says that they are arm64's.
    pub ty: u8,
    /// 1, 2, 4 or 8 bytes.
    pub size: u8,
    /// 1 where the record is pc-relative, else 0.
    pub is_pcrel: u8,
    /// 1 where the record directly before it is SUBTRACTOR, else 0.
    pub is_subtracted: u8,
    /// See [`Reloc::target`].
    pub target: u32,
    /// How an AUTHENTICATED_POINTER is signed: the number that goes into its signature. This and
    /// the next two are zero from a reader for every other type. The fix-up looks at them for
    /// AUTHENTICATED_POINTER only, the hint run never.
    pub diversity: u16,
    /// 1 where the pointer's own address goes into its signature, too, else 0. The fix-up takes the
    /// low bit.
    pub address_diversity: u8,
    /// The key: IA, IB, DA and DB are 0, 1, 2 and 3. The fix-up takes the low two bits.
    pub key: u8,
    /// The addend.
    pub addend: i64,
}

impl Reloc {
    /// What it refers to.
    ///
    /// ```
    /// use hauklivo::{Reloc, Target};
    ///
    /// let r = Reloc { target: Target::Section(2).pack(), ..Reloc::default() };
    /// assert_eq!((r.target, r.target()), (0x80000002, Target::Section(2)));
    /// ```
    pub fn target(self) -> Target {
        match self.target & Target::SECTION {
            0 => Target::Symbol(self.target),
            _ => Target::Section(self.target & !Target::SECTION),
        }
    }
}

/// Flags of a resolved target.
pub mod flag {
    /// A library's symbol that dyld binds. Looked at for symbols only.
    pub const IMPORTED: u32 = 1 << 0;
    /// In thread-local storage: an UNSIGNED pointer to it gets the distance from `tls_begin`.
    pub const THREAD_LOCAL: u32 = 1 << 1;
    /// Set for every section, and for each symbol that has an address in the image.
    pub const HAS_ADDRESS: u32 = 1 << 2;
    /// A load of its GOT slot can be relaxed to its address.
    pub const RELAXES_GOT: u32 = 1 << 3;
    /// It has a thunk entry in reach of the place, for a branch that does not reach by itself. Looked
    /// at for symbols only.
    pub const HAS_THUNK: u32 = 1 << 4;
    /// A GOT load of it calls a helper.
    pub const HAS_HELPER: u32 = 1 << 5;
    /// The helper is the site's own: reached by B, not BL.
    pub const HELPER_OWN: u32 = 1 << 6;
    /// A DTrace probe site: the branch becomes NOP. Looked at for symbols only.
    pub const PROBE: u32 = 1 << 7;
    /// A DTrace is-enabled site: the branch becomes MOVZ X0, #0. Looked at for symbols only.
    pub const IS_ENABLED: u32 = 1 << 8;
}

/// What the linker knows of an entry's target; one for each entry.
#[repr(C)]
#[derive(Clone, Copy, Debug, Default, PartialEq, Eq, Hash)]
pub struct Resolved {
    /// Its address.
    pub address: u64,
    /// Address of its GOT slot.
    pub got: u64,
    /// Where a branch to it goes: its address or its stub's.
    pub branch: u64,
    /// Address of a thunk entry in reach of the place.
    pub thunk: u64,
    /// Address of its load helper.
    pub helper: u64,
    /// Those of [`flag`].
    pub flags: u32,
    /// Zero.
    pub zero: u32,
}

/// A report of a fix-up.
#[repr(C)]
#[derive(Clone, Copy, Debug, Default, PartialEq, Eq, Hash)]
pub struct Report {
    /// Number of the entry, counted from 0.
    pub entry: u32,
    /// See [`Report::kind`].
    pub kind: u8,
    /// The access size (kind 3), else 0.
    pub size: u8,
    /// Zero.
    pub zero: u16,
    /// Address of the place (kinds 1 and 2), else 0.
    pub place: u64,
    /// The target (kinds 1 and 2), else 0.
    pub target: u64,
}

/// What a report is about.
#[derive(Clone, Copy, Debug, PartialEq, Eq, Hash)]
pub enum ReportKind {
    /// ADRP does not reach the target's page. The word is written all the same.
    AdrpReach,
    /// B or BL does not reach the target. The word is written all the same.
    BranchReach,
    /// The access size of a load or store, given here, does not divide its target. The word is
    /// left.
    Alignment(u8),
    /// A relaxed page offset stands on a word other than LDR (for GOT also ADD). It is left.
    NonLdr,
}

impl Report {
    /// What it is about; None for a kind that no fix-up gives.
    pub fn kind(self) -> Option<ReportKind> {
        match self.kind {
            1 => Some(ReportKind::AdrpReach),
            2 => Some(ReportKind::BranchReach),
            3 => Some(ReportKind::Alignment(self.size)),
            4 => Some(ReportKind::NonLdr),
            _ => None,
        }
    }
}

/// Kinds of a linker optimization hint, those of LLVM's `MCLinkerOptimizationHint.h`.
#[allow(missing_docs)]
pub mod kind {
    pub const ADRP_ADRP: u8 = 1;
    pub const ADRP_LDR: u8 = 2;
    pub const ADRP_ADD_LDR: u8 = 3;
    pub const ADRP_LDR_GOT_LDR: u8 = 4;
    pub const ADRP_ADD_STR: u8 = 5;
    pub const ADRP_LDR_GOT_STR: u8 = 6;
    pub const ADRP_ADD: u8 = 7;
    pub const ADRP_LDR_GOT: u8 = 8;
}

/// Where one word of a hint stands. The default has no entry.
///
/// ```
/// use hauklivo::{HintRecord, HintInsn};
///
/// let place = HintInsn { offset: 8, address: 0x1008, ..HintInsn::default() };
/// assert_eq!(place.entry, HintInsn::WITHOUT_ENTRY);
/// assert_eq!(HintRecord::default().places, [HintInsn::default(); 3]);
/// ```
#[repr(C)]
#[derive(Clone, Copy, Debug, PartialEq, Eq, Hash)]
pub struct HintInsn {
    /// Offset of the word in the hint's part of the image.
    pub offset: u32,
    /// Number of the word's entry, counted from 0, or [`HintInsn::WITHOUT_ENTRY`].
    pub entry: u32,
    /// The word's own address.
    pub address: u64,
}

impl HintInsn {
    /// The entry number of a word that has none.
    pub const WITHOUT_ENTRY: u32 = u32::MAX;
}

impl Default for HintInsn {
    fn default() -> Self {
        Self { offset: 0, entry: Self::WITHOUT_ENTRY, address: 0 }
    }
}

/// A hint. One of another kind than those of [`kind`], or with another word count than its kind has,
/// is skipped.
#[repr(C)]
#[derive(Clone, Copy, Debug, Default, PartialEq, Eq, Hash)]
pub struct HintRecord {
    /// One of [`kind`].
    pub kind: u8,
    /// 2 words, or 3 for the kinds 3 to 6.
    pub words: u8,
    /// Not looked at.
    pub ignored: u16,
    /// Number of the object that it comes from.
    pub object: u32,
    /// Where its part of the image starts.
    pub start: u32,
    /// The bytes of its part.
    pub length: u32,
    /// Its words; the third is not looked at where there are 2.
    pub places: [HintInsn; 3],
}

/// What became of the hints of a run.
#[repr(C)]
#[derive(Clone, Copy, Debug, Default, PartialEq, Eq, Hash)]
pub struct Tally {
    /// Rewritten.
    pub rewritten: u32,
    /// Skipped: of another kind, or with another word count.
    pub skipped: u32,
    /// Left as they were: a rule did not fit, or register 31 links two of the words or is an ADD's
    /// destination.
    pub declined: u32,
    /// Left as they were, for an address sum passed 2^64 - 1 ([`Overflow`](crate::Refusal::Overflow),
    /// which no run returns).
    pub turned_down: u32,
}

/// What a listed hint run did with a hint.
pub mod rule {
    /// Of another kind, or with another word count: no word was written.
    pub const SKIPPED: u8 = 0;
    /// No rewrite fits, or register 31 links two of the words or is an ADD's destination: none.
    pub const DECLINED: u8 = 1;
    /// The second ADRP became NOP: 1 word.
    pub const SECOND_ADRP: u8 = 2;
    /// The load became a literal load, and each word before it NOP: 2 words in kind 2, also where that is a
    /// load of a GOT slot, 3 in the kinds 3 and 4.
    pub const LITERAL: u8 = 3;
    /// The ADRP became ADR, and the ADD NOP: 2 words; in the kinds 3 and 5 the load or store got the
    /// offset 0: 3 words.
    pub const ADR: u8 = 4;
    /// The ADD became NOP, and its immediate went into the load or store: 2 words.
    pub const FOLD: u8 = 5;
    /// The ADRP became NOP, and the second word, in the kinds 4, 6 and 8 the load of a GOT slot, a literal
    /// load of it: 2 words.
    pub const GOT_SLOT: u8 = 6;
    /// An address sum passed 2^64 - 1 ([`Overflow`](crate::Refusal::Overflow), which no run returns):
    /// none.
    pub const TURNED_DOWN: u8 = 7;
}

/// What a listed hint run says of a hint.
#[repr(C)]
#[derive(Clone, Copy, Debug, Default, PartialEq, Eq, Hash)]
pub struct RuleRecord {
    /// The hint's position in the list, counted from 0.
    pub position: u32,
    /// Number of the object that it comes from.
    pub object: u32,
    /// One of [`rule`].
    pub rule: u8,
    /// Words changed: how many of its places were written, also where a new word is the old one.
    pub changed: u8,
    /// Zero.
    pub zero: [u8; 6],
}
