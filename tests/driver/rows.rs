//! The blocks of the table, and what each row is.

use crate::class::{NEIGHBOURS, UNALLOCATED};
use crate::hint_groups::{CLASSED, LIMITED};
use crate::hint_register31::{can_decline, can_stay, reasons, stays};
use crate::hint_unallocated::{can_be_neighbour, can_hold, holders, unallocated_ends};
use crate::hint_ways::{FOLD_OR_ADR, HINT_WAYS, IN_REACH, can_end};
use crate::reader::Machine;
use crate::reader_arm64::Arm64;
use crate::reader_x86_64::X86_64;
use crate::table::Block;

/// The blocks, in the order in which they are shown.
#[derive(Clone, Copy)]
pub enum Rows {
    ReaderNumber,
    ReaderRead,
    ReaderUnsupported,
    ReaderAfterAddend,
    ReaderKind,
    ReaderWord,
    ReaderClass,
    ReaderUnallocated,
    ReaderBounds,
    ReaderPointer,
    ReaderSigning,
    ReaderNotAuthenticated,
    ReaderPointerOrder,
    X86Number,
    X86Read,
    X86Unsupported,
    X86Before,
    X86Stored,
    X86Bias,
    X86Sums,
    X86Bounds,
    X86Order,
    FixupNumber,
    FixupType,
    FixupWay,
    FixupReport,
    FixupConsumed,
    FixupClass,
    FixupUnallocated,
    FixupAlignment,
    FixupBranchLimit,
    FixupAdrpLimit,
    FixupFlags,
    FixupPointerOrder,
    FixupDistance,
    FixupConsumedDistance,
    FixupSigning,
    StubAndThunk,
    HintNumber,
    HintKind,
    HintWay,
    HintInReach,
    HintUnallocated,
    HintNeighbour,
    HintBy31,
    HintNotBy31,
    HintBound,
    HintList,
    HintClass,
    HintCount,
    HintLimit,
    HintFold,
    HintEntry,
    HintActed,
    ListedNumber,
    ListedSlots,
    Listed,
    ClassKind,
    ClassBits,
    PayloadNumber,
    Payload,
    PayloadFault,
    PayloadSpelling,
    PayloadAround,
    Written,
    WrittenSize,
    WrittenSmall,
    Count,
}

pub const TYPES: [&str; 16] = [
    "UNSIGNED",
    "SUBTRACTOR",
    "BRANCH26",
    "PAGE21",
    "PAGEOFF12",
    "GOT_LOAD_PAGE21",
    "GOT_LOAD_PAGEOFF12",
    "POINTER_TO_GOT",
    "TLVP_LOAD_PAGE21",
    "TLVP_LOAD_PAGEOFF12",
    "ADDEND",
    "AUTHENTICATED_POINTER",
    "type 12",
    "type 13",
    "type 14",
    "type 15",
];

pub const READER_NUMBERS: [u8; 9] = [0, 1, 2, 3, 4, 5, 6, 7, 15];

/// An entry of 4 bytes that is no term of a difference is unsupported, too.
fn can_be_unsupported(ty: usize, form: usize) -> bool {
    !Arm64::takes(ty, form) || ty == 0 && form & 6 == 4
}

pub const READER_KINDS: [&str; 8] = [
    "target a symbol",
    "target a section",
    "directly after SUBTRACTOR",
    "stored addend of 4 bytes, positive",
    "stored addend of 4 bytes, negative",
    "stored addend of 8 bytes",
    "ADDEND record of a negative addend",
    "empty list",
];

pub const READER_WORDS: [&str; 4] =
    ["GOT page offset, fit", "GOT page offset, unfit", "TLVP page offset, fit", "TLVP page offset, unfit"];

/// How a TLVP page offset stands on an unallocated word.
#[derive(Clone, Copy)]
pub enum OnUnallocated {
    OfSection,
    Alone,
    Unaligned,
    AfterAddend,
    SharedBytes,
    AfterRefused,
    BeforeRefused,
}

const ON_UNALLOCATED: [&str; 7] = [
    "of a section: 5",
    "alone: 6",
    "alone, at an unaligned offset: 6",
    "after ADDEND: 6",
    "a word of which another record reads bytes: 6",
    "after a record that is refused: its number",
    "before a record that is refused: 6",
];

pub const READER_BOUNDS: [&str; 7] = [
    "offset 1 above the length: 3",
    "offset equal to the length, nothing read: fine",
    "word 1 byte short: 3",
    "word that just fits: fine",
    "pointer 1 byte short: 3",
    "pointer that just fits: fine",
    "4 bytes of a difference 1 byte short: 3",
];

/// An authenticated pointer that is read.
#[derive(Clone, Copy)]
#[rustfmt::skip]
pub enum Pointer {
    Zero, Positive, Negative, Largest, Least, NoDiversity, LargestDiversity, AfterAddend, AfterSubtractor, JustFits,
}

const POINTERS: [&str; 10] = [
    "addend of 0",
    "positive addend",
    "negative addend",
    "addend of 2^31 - 1",
    "addend of -2^31",
    "diversity 0",
    "diversity ffff",
    "after ADDEND: its own addend, the ADDEND's offset",
    "after SUBTRACTOR",
    "at the end of the contents",
];

/// The record before an authenticated pointer.
const BEFORE_POINTER: [&str; 3] = ["none", "ADDEND", "SUBTRACTOR"];

/// Where an authenticated pointer stands beside a record that is refused, and that record's number.
pub const POINTER_BESIDE: [(&str, u8); 9] =
    [(AFTER, 3), (AFTER, 5), (AFTER, 6), (AFTER, 7), (BEFORE, 3), (BEFORE, 4), (BEFORE, 5), (BEFORE, 6), (BEFORE, 7)];
pub const AFTER: &str = "after";
pub const BEFORE: &str = "before";

/// How an authenticated pointer by itself ends.
const POINTER_ENDS: [&str; 4] = ["read", "15", "short: 3", "past: 3"];

const X86_TYPES: [&str; 16] = [
    "UNSIGNED",
    "SIGNED",
    "BRANCH",
    "GOT_LOAD",
    "GOT",
    "SUBTRACTOR",
    "SIGNED_1",
    "SIGNED_2",
    "SIGNED_4",
    "TLV",
    "type 10",
    "type 11",
    "type 12",
    "type 13",
    "type 14",
    "type 15",
];

pub const X86_NUMBERS: [u8; 6] = [0, 1, 2, 3, 5, 7];

const X86_BEFORE: [&str; 4] = ["none", "SUBTRACTOR", "SIGNED", "another"];

const X86_WIDTHS: [&str; 3] = ["1 byte", "4 bytes", "8 bytes"];

/// A stored number of an x86_64 record.
#[derive(Clone, Copy)]
pub enum Stored {
    Zero,
    Positive,
    Negative,
    Largest,
    Least,
}

const STORED: [&str; 5] = ["0", "positive", "negative", "largest", "least"];

/// SIGNED has no bias by which a sum could pass 2^31 - 1.
const X86_BIASED: [&str; 4] = ["SIGNED", "SIGNED_1", "SIGNED_2", "SIGNED_4"];
const BIASED: [&str; 5] = ["symbol", "section", "negative", "sum of 0", "over 2^31-1"];

/// The target of an x86_64 record, and the sums that make its addend.
#[derive(Clone, Copy)]
#[rustfmt::skip]
pub enum Sums {
    Symbol, SymbolPastEnd, Section, PcrelSection, FirstSection, LastSection, EndFits, EndAt, EndPast, HeldPast,
    HeldBelow, PcrelSectionBelow, SectionBelow, Least, Largest, EmptyList,
}

const SUMS: [&str; 16] = [
    "target a symbol",
    "target a symbol, pc-relative, its field past 2^64: no address is added",
    "target a section, not pc-relative",
    "target a section, pc-relative",
    "target the first section",
    "target the last section",
    "own address + offset + 4 is 2^64 - 1",
    "own address + offset + 4 is 2^64: wraps",
    "own address + offset + 4 is above 2^64: wraps",
    "stored number added up past 2^64: wraps",
    "stored number, negative, added up below 0: wraps",
    "section's address taken off, pc-relative, below 0: wraps",
    "section's address taken off, not pc-relative, below 0: wraps",
    "addend of -2^63",
    "addend of 2^63 - 1",
    "empty list",
];

const X86_BOUNDS: [&str; 4] = ["above end: 3", "at end: 3", "1 short: 3", "fits: fine"];

/// Which of two numbers comes, by what was wrong.
pub const X86_ORDER: [&str; 11] = [
    "unsupported, past the contents: 5",
    "unsupported, of no section: 5",
    "past the contents, of no section: 3",
    "5 before 3 of the next record",
    "5 before 7 of the next record",
    "3 before 5 of the next record",
    "3 before 7 of the next record",
    "7 before 3 of the next record",
    "7 before 5 of the next record",
    "list not whole, too few slots, a record refused: 1",
    "too few slots, a record refused: 2",
];

pub const FIXUP_NUMBERS: [u8; 10] = [0, 1, 2, 3, 5, 8, 9, 10, 11, 16];
pub const FIXUP_TYPE_NUMBERS: [u8; 8] = [0, 3, 5, 8, 9, 10, 11, 16];

/// The row of an entry's type; the last stands for all types from 12 on.
pub fn type_row(ty: u8) -> usize {
    ty.min(12) as usize
}

/// Which numbers an entry of a type can get.
fn fixup_type_number(ty: usize, column: usize) -> bool {
    let is_worked = ty < 10 || ty == 11;
    match FIXUP_TYPE_NUMBERS[column] {
        0 => is_worked,
        5 => !is_worked,
        8 => ty == 1,
        10 => (5..10).contains(&ty) || ty == 11,
        16 => ty == 11,
        _ => true,
    }
}

/// How a single entry ends.
#[derive(Clone, Copy)]
#[rustfmt::skip]
pub enum Way {
    UnsignedImported, UnsignedTls, UnsignedAddress, UnsignedImportedSection,
    Subtractor4, Subtractor8,
    BranchProbe, BranchEnabled, BranchSymbol, BranchSection, BranchTracedSection, BranchThunk,
    BranchThunkAddend, BranchThunkFar, BranchNoThunk, BranchSectionFar,
    PageSymbol, PageSection, PageFar, PageNoAddress,
    OffsetUnscaled, Offset1, Offset2, Offset4, Offset8, Offset16, OffsetMisaligned, OffsetNoAddress,
    GotHelper, GotHelperOwn, GotHelperSection, GotPageRelaxed, GotPageSlot, GotPageRelaxedFar, GotPageSlotFar,
    GotLdrW, GotLdrX, GotAdd, GotNonLdr, GotSlot, GotSlotMisaligned,
    PointerToGot,
    TlvpPageRelaxed, TlvpPageSlot, TlvpPageRelaxedFar, TlvpPageSlotFar,
    TlvpLdrW, TlvpLdrX, TlvpAddNonLdr, TlvpNonLdr, TlvpSlot, TlvpSlotMisaligned,
    PointerImported, PointerTls, PointerNoAddress, PointerAddress,
}

pub const WAYS: [&str; 56] = [
    "UNSIGNED of an imported symbol: left",
    "UNSIGNED of a thread-local: less the start",
    "UNSIGNED of an address",
    "UNSIGNED of a section, imported flag set: written",
    "SUBTRACTOR, 4 bytes",
    "SUBTRACTOR, 8 bytes",
    "BRANCH26 of a probe: NOP",
    "BRANCH26 of an is-enabled test: MOVZ",
    "BRANCH26 of a symbol in reach",
    "BRANCH26 of a section in reach",
    "BRANCH26 of a section, probe flag set: a branch",
    "BRANCH26 by a thunk",
    "BRANCH26, thunk but an addend: report 2",
    "BRANCH26, thunk that does not reach: report 2",
    "BRANCH26 out of reach, no thunk: report 2",
    "BRANCH26 of a section out of reach: report 2",
    "PAGE21 of a symbol",
    "PAGE21 of a section",
    "PAGE21 out of reach: report 1, written",
    "PAGE21 without an address: left",
    "PAGEOFF12 on a word without a scale",
    "PAGEOFF12, 1-byte access",
    "PAGEOFF12, 2-byte access",
    "PAGEOFF12, 4-byte access",
    "PAGEOFF12, 8-byte access",
    "PAGEOFF12, 16-byte access",
    "PAGEOFF12, misaligned: report 3, left",
    "PAGEOFF12 without an address: left",
    "GOT_LOAD_PAGE21, helper: BL",
    "GOT_LOAD_PAGE21, own helper: B",
    "GOT_LOAD_PAGE21 of a section, helper",
    "GOT_LOAD_PAGE21 relaxed",
    "GOT_LOAD_PAGE21 of the slot",
    "GOT_LOAD_PAGE21 relaxed, out of reach: report 1",
    "GOT_LOAD_PAGE21 of the slot, out of reach: report 1",
    "GOT_LOAD_PAGEOFF12 relaxed, LDR W",
    "GOT_LOAD_PAGEOFF12 relaxed, LDR X",
    "GOT_LOAD_PAGEOFF12 relaxed, ADD",
    "GOT_LOAD_PAGEOFF12 relaxed, other word: report 4",
    "GOT_LOAD_PAGEOFF12 of the slot",
    "GOT_LOAD_PAGEOFF12 of the slot, misaligned: report 3",
    "POINTER_TO_GOT",
    "TLVP_LOAD_PAGE21 relaxed",
    "TLVP_LOAD_PAGE21 of the slot",
    "TLVP_LOAD_PAGE21 relaxed, out of reach: report 1",
    "TLVP_LOAD_PAGE21 of the slot, out of reach: report 1",
    "TLVP_LOAD_PAGEOFF12 relaxed, LDR W",
    "TLVP_LOAD_PAGEOFF12 relaxed, LDR X",
    "TLVP_LOAD_PAGEOFF12 relaxed, ADD: report 4",
    "TLVP_LOAD_PAGEOFF12 relaxed, other word: report 4",
    "TLVP_LOAD_PAGEOFF12 of the slot",
    "TLVP_LOAD_PAGEOFF12 of the slot, misaligned: report 3",
    "AUTHENTICATED_POINTER of an imported symbol: left",
    "AUTHENTICATED_POINTER of a thread-local: less the image base",
    "AUTHENTICATED_POINTER, has-address flag clear: written",
    "AUTHENTICATED_POINTER of an address",
];

/// What is wrong with an entry that is an authenticated pointer, in the order of their numbers.
const POINTER_FAULTS: [&str; 6] = ["offset past: 3", "flawed: 11", "P: 9", "section: 10", "far: 16", "short: 3"];

/// S + A less the image base.
pub const DISTANCES: [(u64, &str); 10] = [
    (0, "0"),
    (1, "1"),
    (0x8000_0000, "2^31"),
    (0xffff_ffff, "2^32 - 1"),
    (0x1_0000_0000, "2^32: far"),
    (0x1_0000_0001, "2^32 + 1: far"),
    (1 << 63, "2^63: far"),
    (0xffff_ffff_0000_0000, "-2^32: far"),
    (0xffff_ffff_8000_0000, "-2^31: far"),
    (u64::MAX, "-1, the base one above: far"),
];

/// How the sums of such an entry come about, and what it is.
pub const SUMMED: [&str; 6] = ["plain", "S + A wraps", "high base", "imported", "at end", "imp. at end"];

/// Kinds of report: 1, 2, 3 by size, 4.
pub const REPORTS: [&str; 7] =
    ["1 ADRP reach", "2 branch reach", "3 size 2", "3 size 4", "3 size 8", "3 size 16", "4 non-LDR"];

fn report_of_type(kind: usize, ty: usize) -> bool {
    match kind {
        0 => [3, 5, 8].contains(&ty),
        1 => ty == 2,
        2..=5 => [4, 6, 9].contains(&ty),
        _ => [6, 9].contains(&ty),
    }
}

/// Page offsets of five kinds on an unallocated word: the kind's number, that of the report, 0 where there is none, and what
/// both are.
pub const ON_UNALLOCATED_FIXED: [(usize, u8, &str); 8] = [
    (0, 0, "PAGEOFF12"),
    (0, 3, "PAGEOFF12, misaligned: report 3"),
    (1, 0, "GOT page offset, of the slot"),
    (1, 3, "GOT page offset, of the slot, misaligned: report 3"),
    (2, 4, "GOT page offset, relaxed: report 4"),
    (3, 0, "TLVP page offset, of the slot"),
    (3, 3, "TLVP page offset, of the slot, misaligned: report 3"),
    (4, 4, "TLVP page offset, relaxed: report 4"),
];

pub const STUB_AND_THUNK: [&str; 8] = [
    "stub, ADRP reaches",
    "stub, ADRP does not reach",
    "stub refused by 3",
    "stub at a limit of reach",
    "stub across the end of the address space",
    "thunk",
    "thunk refused by 3",
    "thunk across the end of the address space",
];

pub const HINT_NUMBERS: [u8; 4] = [0, 1, 3, 12];

/// The kinds of hint; the last row stands for all from 9 on.
pub const HINT_KINDS: [&str; 10] = [
    "kind 0",
    "ADRP_ADRP",
    "ADRP_LDR",
    "ADRP_ADD_LDR",
    "ADRP_LDR_GOT_LDR",
    "ADRP_ADD_STR",
    "ADRP_LDR_GOT_STR",
    "ADRP_ADD",
    "ADRP_LDR_GOT",
    "kinds from 9 on",
];

/// Whether hints of a kind can be rewritten, skipped, declined, turned down by 9.
fn hint_outcome(kind: usize, outcome: usize) -> bool {
    match outcome {
        1 => true,
        3 => ![0, 1, 7, 9].contains(&kind),
        _ => ![0, 9].contains(&kind),
    }
}

/// What a list of hints is.
#[derive(Clone, Copy)]
#[rustfmt::skip]
pub enum HintList {
    Empty, OwnWalk, Objects, Falling, Mixed, AdrpAdrpFirst, SameWord, Overlap, SharedWord, SharedBytes,
    FoldOverlap, FoldSharedWord, FoldSharedBytes, FoldsOfOneAdrp, FoldThenDropped, FoldThenDeclined,
    FoldAndNine,
    UnallocatedNoMore, Made1f6, Made1f7, Made2f6, UnallocatedAndNine, UnallocatedSharedAdrp,
    Made31Adrp, Made31Add, Made31GotLoad, No31Rewritten, No31Nine, By31AndNine, By31SharedAdrp, By31Dropped,
    By31Skipped,
}

const HINT_LISTS: [&str; 32] = [
    "empty list",
    "walked by the Rust's own apply_hints",
    "several objects",
    "object numbers that fall",
    "hints of an object apart from each other",
    "ADRP_ADRP before another hint of its object",
    "a hint that names a word twice",
    "a hint whose words overlap",
    "hints that share a word",
    "hints whose words overlap",
    "a fold in ADR's reach, its words overlap",
    "a fold in ADR's reach, a word shared with another hint",
    "a fold in ADR's reach, bytes shared with another hint",
    "two folds in ADR's reach, of one ADRP",
    "a fold in ADR's reach, then ADRP_ADRP of its ADRP: rewritten",
    "a fold in ADR's reach, then ADRP_ADRP of its ADRP: declined",
    "a fold in ADR's reach, and a hint turned down by 9",
    "an unallocated word that an earlier hint made an access of: rewritten",
    "a word of which an earlier hint made 1f6, unallocated: declined",
    "a word of which an earlier hint made 1f7, unallocated: declined",
    "a word of which an earlier hint made 2f6, unallocated: declined",
    "an unallocated word, and a hint turned down by 9",
    "an unallocated word, and another hint of its ADRP: rewritten",
    "ADRP to 31, then by it, once an earlier hint has made a word: declined",
    "ADD to 31, which an earlier hint has made: declined",
    "GOT load into 31, then by it, once an earlier hint has made a word: declined",
    "number 31 linked words, or ADD made it, before an earlier hint: rewritten",
    "number 31 linked words, or ADD made it, before an earlier hint: by 9",
    "declined for number 31, and a hint turned down by 9",
    "declined for number 31, and another hint of its ADRP: rewritten",
    "declined for number 31, and ADRP_ADRP of its ADRP: rewritten",
    "skipped, with words that else decline for number 31",
];

pub const HINT_BOUNDS: [&str; 10] = [
    "part 1 byte past the image: 3",
    "part that just fits: fine",
    "word 1 byte past its part: 3",
    "word that just fits: fine",
    "skipped, part and words past: fine",
    "entry 1 past the last: 12",
    "last entry: fine",
    "word past its part and an absent entry: 3",
    "12 of an earlier hint before 3",
    "3 of an earlier hint before 12",
];

/// What is done with a hint: the rule, and the words that it changes.
pub const ACTS: [(u8, u8); 10] = [(0, 0), (1, 0), (2, 1), (3, 2), (3, 3), (4, 2), (4, 3), (5, 2), (6, 2), (7, 0)];

/// Whether that can be done with hints of a kind.
fn can_act(kind: usize, act: usize) -> bool {
    let rewritten: &[(u8, u8)] = match kind {
        1 => &[(2, 1)],
        2 => &[(3, 2)],
        3 => &[(3, 3), (4, 3), (5, 2)],
        4 => &[(3, 3), (4, 2), (5, 2), (6, 2)],
        5 => &[(4, 3), (5, 2)],
        6 => &[(4, 2), (5, 2), (6, 2)],
        7 => &[(4, 2)],
        8 => &[(4, 2), (6, 2)],
        _ => &[],
    };
    match ACTS[act] {
        (0, _) => hint_outcome(kind, 1),
        (1, _) => hint_outcome(kind, 2),
        (7, _) => hint_outcome(kind, 3),
        act => rewritten.contains(&act),
    }
}

pub const LISTED_NUMBERS: [u8; 5] = [0, 1, 2, 3, 12];

/// The slots of a listed run.
#[derive(Clone, Copy)]
#[rustfmt::skip]
pub enum ListedSlots {
    Just, More, NotWhole, NoneForNone, ByteFewer, NoneForSome, FewerBy1, FewerBefore3, FewerBefore12,
}

const LISTED_SLOTS: [&str; 9] = [
    "just 16 bytes for each hint: fine",
    "more, whole records: fine",
    "more, no whole records: fine",
    "none, for no hint: fine",
    "1 byte fewer: 2",
    "none, for some hints: 2",
    "fewer, and lists that are not whole: 1",
    "fewer, and a hint refused by 3: 2",
    "fewer, and a hint refused by 12: 2",
];

/// What rule records tell that a hint's position, and its words before and after, do not.
#[derive(Clone, Copy)]
pub enum Listed {
    Elsewhere,
    SkippedLater,
    LastObject,
    SameWordAdr,
    SameWordFold,
}

const LISTED: [&str; 5] = [
    "a record at another place than its hint's position",
    "ADRP_ADRP that is skipped, after a later hint of its object",
    "a hint of the last object of all, 2^32 - 1",
    "ADR, a place written with the word that it had",
    "fold, a place written with the word that it had",
];

const CLASSES: [&str; 7] = [
    "no load or store",
    "store of a general register",
    "load into a general register, but LDRSW",
    "LDRSW",
    "store of a vector register",
    "load into a vector register",
    "unallocated, of a vector register, a load in the Rust",
];

pub const PAYLOAD_NUMBERS: [u8; 4] = [0, 2, 13, 14];

/// What a payload is.
#[derive(Clone, Copy)]
#[rustfmt::skip]
pub enum Payloads {
    Empty, AtEnd, ByKind0, ByLongerKind0, Zeros, Count0, Address0, Largest, KindAbove8, KindAbove255, OtherCount,
    JustSlots, SlotFewer, SlotsBeforeFault, ValueAfterClose, CutOffAfterClose, TooLargeAfterClose,
}

const PAYLOADS: [&str; 17] = [
    "empty payload",
    "closed by its end",
    "closed by kind 0",
    "closed by kind 0 in a longer spelling",
    "zeros after the close",
    "count of 0",
    "address of 0",
    "address of 2^64 - 1",
    "kind above 8",
    "kind above 255",
    "count that is not the kind's number of words",
    "just as many slots as bytes: fine",
    "1 slot fewer: 2",
    "fewer slots, and no value: 2",
    "value after the close: 14",
    "value cut off after the close: 14",
    "value of 2^64 or more after the close: 14",
];

/// Why there is no value before the close; a payload that ends where a kind comes next is closed.
const FAULTS: [&str; 3] = ["the payload ends before it", "the payload ends within it", "2^64 or more"];

/// How many bytes a spelling has beside those of the shortest.
const LONGER: [&str; 4] = ["shortest", "1 more", "2 to 9 more", "10 or more"];

/// What a row is that is to be written.
#[derive(Clone, Copy)]
pub enum WrittenRows {
    Empty,
    JustBytes,
    MoreBytes,
    ByteFewer,
    Kind0,
    NoCount,
    NoAddress,
    RowBeforeBytes,
}

const WRITTEN: [&str; 8] = [
    "empty row",
    "just ten bytes for each value: fine",
    "more bytes: fine",
    "1 byte fewer: 2",
    "kind 0: 1",
    "row that ends after a kind: 1",
    "row that ends before an address: 1",
    "no whole row, and fewer bytes: 1",
];

/// Words by bits 31..22.
fn named<const N: usize>(classes: [u32; N]) -> [String; N] {
    classes.map(|class| format!("{class:03x}"))
}

fn all(_: usize, _: usize) -> bool {
    true
}

fn reader_blocks() -> Vec<Block> {
    vec![
        Block::list("Reader, calls by number", READER_NUMBERS),
        Block::grid("Reader, entries read by type and form", TYPES, 0..16, Arm64::takes),
        Block::grid("Reader, refused by 5, by type and form", TYPES, 0..16, can_be_unsupported),
        Block::list("Reader, entries after an ADDEND record", &TYPES[..12]),
        Block::list("Reader, entries", READER_KINDS),
        Block::list("Reader, words", READER_WORDS),
        Block::condensed("Reader, classes of bits 31..22 under GOT and TLVP page offsets", 2 * 1024),
        Block::grid("Reader, TLVP page offsets on unallocated words", ON_UNALLOCATED, named(UNALLOCATED), all),
        Block::list("Reader, bounds", READER_BOUNDS),
        Block::list("Reader, authenticated pointers", POINTERS),
        Block::grid("Reader, authenticated pointers by address diversity and key", 0..2, 0..4, all),
        Block::grid(
            "Reader, refused by 15, by the one bit that is wrong and the record before",
            51..64,
            BEFORE_POINTER,
            all,
        ),
        Block::grid(
            "Reader, authenticated pointers beside a record that is refused",
            POINTER_BESIDE.map(|(place, number)| format!("{place} one refused by {number}")),
            POINTER_ENDS,
            all,
        ),
    ]
}

fn x86_blocks() -> Vec<Block> {
    let is_unsupported = |ty: usize, form: usize| !X86_64::takes(ty, form);
    let types = &X86_TYPES[..10];
    vec![
        Block::list("Reader of x86_64, calls by number", X86_NUMBERS),
        Block::grid("Reader of x86_64, entries read by type and form", X86_TYPES, 0..16, X86_64::takes),
        Block::grid("Reader of x86_64, refused by 5, by type and form", X86_TYPES, 0..16, is_unsupported),
        Block::grid("Reader of x86_64, entries by type and the record before", types, X86_BEFORE, all),
        Block::grid("Reader of x86_64, stored numbers", X86_WIDTHS, STORED, all),
        Block::grid("Reader of x86_64, stored numbers and the bias", X86_BIASED, BIASED, |ty, sum| ty > 0 || sum < 4),
        Block::list("Reader of x86_64, targets and sums", SUMS),
        Block::grid("Reader of x86_64, bounds of a field by its bytes", X86_WIDTHS, X86_BOUNDS, all),
        Block::list("Reader of x86_64, order of numbers", X86_ORDER),
    ]
}

fn fixup_blocks() -> Vec<Block> {
    let with_rest = || TYPES[..12].iter().copied().chain(["types from 12 on"]);
    let on_unallocated = ON_UNALLOCATED_FIXED.map(|row| row.2);
    let distances = DISTANCES.map(|row| row.1);
    vec![
        Block::list("Fix-up, calls by number", FIXUP_NUMBERS),
        Block::grid("Fix-up, single entries by type and number", with_rest(), FIXUP_TYPE_NUMBERS, fixup_type_number),
        Block::list("Fix-up, single entries", WAYS),
        Block::grid("Fix-up, reports by kind and type", REPORTS, 0..10, report_of_type),
        Block::grid("Fix-up, entries that SUBTRACTOR takes, by type", with_rest(), [""], all),
        Block::condensed("Fix-up, classes of bits 31..22 under five kinds of page offset", 5 * 1024),
        Block::grid("Fix-up, page offsets on unallocated words", on_unallocated, named(UNALLOCATED), all),
        Block::condensed("Fix-up, page offsets under an access of 1, 2, 4, 8, 16 bytes and ADD", 6 * 4096),
        Block::condensed("Fix-up, branch displacements around -2^27, 0 and 2^27", 57),
        Block::condensed("Fix-up, page differences around -2^32, 0 and 2^32, five kinds of page", 5 * 15),
        Block::condensed("Fix-up, flags by type, of symbols and sections", 2 * 11 * 512),
        Block::grid(
            "Fix-up, authenticated pointers: which of two numbers comes",
            &POINTER_FAULTS[..5],
            POINTER_FAULTS,
            |first, second| first < second,
        ),
        Block::grid("Fix-up, authenticated pointers: S + A less the image base", distances, SUMMED, all),
        Block::list("Fix-up, authenticated pointers that SUBTRACTOR takes, by S + A less the image base", distances),
        Block::condensed("Fix-up, authenticated pointers: bytes of the address diversity and of the key", 2 * 256),
        Block::list("Stub and thunk entries", STUB_AND_THUNK),
    ]
}

fn single_hint_blocks() -> Vec<Block> {
    let outcomes = ["rewritten", "skipped", "declined", "by 9"];
    vec![
        Block::list("Hints, calls by number", HINT_NUMBERS),
        Block::grid("Hints, by kind and outcome", HINT_KINDS, outcomes, hint_outcome),
        Block::grid("Hints, single hints by kind", HINT_WAYS, 1..9, |way, i| can_end(way, i + 1)),
        Block::grid(
            "Hints, single hints in reach of an ADR: a fold by its bytes, or ADR by why no fold",
            IN_REACH,
            FOLD_OR_ADR,
            all,
        ),
        Block::grid(
            "Hints, single hints with an unallocated word: the Rust's end, by kind and place",
            unallocated_ends(),
            holders(),
            can_hold,
        ),
        Block::grid(
            "Hints, single hints rewritten, their last word an access beside the unallocated ones, by kind",
            named(NEIGHBOURS),
            2..7,
            can_be_neighbour,
        ),
        Block::grid(
            "Hints, single hints declined for number 31: what makes it, and the Rust's end, by kind",
            reasons(),
            2..9,
            can_decline,
        ),
        Block::grid("Hints, single hints with number 31, not declined for it, by kind", stays(), 1..9, can_stay),
    ]
}

fn hint_blocks() -> Vec<Block> {
    vec![
        Block::list("Hints, bounds", HINT_BOUNDS),
        Block::list("Hints, lists", HINT_LISTS),
        Block::condensed("Hints, classes of bits 31..22 as each word of each kind", CLASSED.len() * 1024),
        Block::condensed("Hints, each kind and each word count", 2 * 256),
        Block::condensed(
            "Hints, displacements around -2^20, 0 and 2^20, of each rewrite with a reach",
            LIMITED.len() * 39,
        ),
        Block::condensed("Hints, ADD immediates under folds into 1, 2, 4, 8 and 16 bytes", 5 * 4096),
        Block::condensed("Hints, types of the entries of each kind", 8 * 13 * 13),
    ]
}

fn listed_blocks() -> Vec<Block> {
    let acts = ACTS.map(|(rule, changed)| format!("{rule}/{changed}"));
    let blocks = [
        Block::grid("Hints, by kind, and by rule and words changed", HINT_KINDS, acts, can_act),
        Block::list("Hints listed, calls by number", LISTED_NUMBERS),
        Block::list("Hints listed, slots", LISTED_SLOTS),
        Block::list("Hints listed, lists", LISTED),
    ];
    blocks.map(Block::not_replayed).into()
}

fn class_and_payload_blocks() -> Vec<Block> {
    vec![
        Block::list("Load and store classes", CLASSES),
        Block::condensed("Load and store classes, bits 31..22 over low bits all 0, all 1 and random", 3 * 1024),
        Block::list("Payloads read, calls by number", PAYLOAD_NUMBERS),
        Block::list("Payloads read", PAYLOADS),
        Block::grid("Payloads refused by 13", FAULTS, ["kind", "count", "address"], |why, part| why + part > 0),
        Block::grid("Payloads read, values by bytes of the shortest spelling", 1..11, LONGER, all),
        Block::condensed("Payloads, seven values around each power of 2 up to 2^64, written and read", 2 * 65),
        Block::list("Payloads written", WRITTEN),
        Block::list("Payloads written, values by bytes", 1..11),
        Block::condensed("Payloads written, values below 2^16", 1 << 16),
    ]
}

pub fn blocks() -> Vec<Block> {
    let readers = [reader_blocks(), x86_blocks()];
    let hints = [single_hint_blocks(), hint_blocks(), listed_blocks()];
    let calls = readers.into_iter().chain([fixup_blocks()]).chain(hints);
    let blocks: Vec<_> = calls.chain([class_and_payload_blocks()]).flatten().collect();
    assert!(blocks.len() == Rows::Count as usize);
    blocks
}
