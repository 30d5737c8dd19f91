//! The last step of a Mach-O linker for arm64: relocation records into entries, entries into a
//! section's bytes, single stub and thunk entries, linker optimization hints and their payloads, a
//! listing of a section's words, and the class of a load or store; of x86_64 the first of these,
//! relocation records into entries. Each function calls one function of the static library
//! `libhauklivo.a`, which is proved to do what the project's definitions say, to touch nothing outside
//! what it is lent, and to return.
//!
//! Lists are lent in records of one fixed size ([`records`]): as slices of them to the functions of
//! [`typed`], or as bytes to those here. [`Record::bytes`] and [`Record::bytes_mut`] see a slice of
//! records, also of a linker's own type, as such bytes without copying. The payload of hints is lent as
//! the bytes of a file, and what it spells as a row of 64-bit values, which [`hints`] takes apart.
//!
//! A [`Refusal`] is an error with a number. A refused call has changed nothing that it was lent.
//! [`position_of_refusal`] finds the record that it was refused for; of a payload nothing does.
//!
//! The crate builds for Linux and macOS, on x86-64 and on Arm. `tools/library TARGET` of the repository
//! makes the archive, for `x86_64-linux`, `aarch64-linux`, `arm64-macos` or `x86_64-macos`; the build
//! script takes that of the target that cargo builds for, or the one in the folder `HAUKLIVO_LIB_DIR`.
//!
//! ```
//! use hauklivo::{MachRel, Reloc, Report, Resolved, Target, flag, ty, typed};
//!
//! // A call of symbol 5, at offset 4 of a section of two words.
//! let mut section = [0xd503201f_u32, 0x94000000].map(u32::to_le_bytes).concat();
//! let records = [MachRel::new(4, 5, true, 2, true, ty::BRANCH26)];
//!
//! // Records into entries.
//! let mut entries = [Reloc::default(); 1];
//! assert_eq!(typed::read_relocs(&section, &records, &[], &mut entries)?, 1);
//! assert_eq!(entries[0].target(), Target::Symbol(5));
//!
//! // The linker says where symbol 5 is; the section itself goes to 0x1000.
//! let targets = [Resolved { address: 0x2000, branch: 0x2000, flags: flag::HAS_ADDRESS, ..Resolved::default() }];
//! let mut reports = [Report::default(); 1];
//! assert_eq!(typed::apply_reloc_alloc(&mut section, 0x1000, 0, 0, &entries, &targets, &mut reports)?, 0);
//! assert_eq!(section[4..], 0x940003ff_u32.to_le_bytes()); // bl 0x2000
//! # Ok::<(), hauklivo::Refusal>(())
//! ```

#![warn(missing_docs)]

#[cfg(not(all(
    any(target_arch = "x86_64", target_arch = "aarch64"),
    any(target_os = "linux", target_os = "macos"),
    target_endian = "little",
    target_pointer_width = "64"
)))]
compile_error!("libhauklivo.a is made for Linux and macOS, on x86-64 and Arm with 64 bits");

/// The example in the README.
#[cfg(doctest)]
#[doc = include_str!("../../README.md")]
struct Readme;

mod calls;
mod class;
pub mod position_of_refusal;
pub mod raw;
pub mod records;
mod refusal;
mod row;
pub mod typed;
mod version;

pub use calls::{
    LINE, SPELLING, apply_hints, apply_hints_listed, apply_reloc_alloc, list, load_store_class, read_hints,
    read_relocs, read_relocs_x86_64, version, write_hints, write_stub, write_thunk,
};
pub use class::LoadStoreClass;
pub use records::{
    HintInsn, HintRecord, MachRel, Record, Reloc, Report, ReportKind, Resolved, RuleRecord, Tally, Target, flag, kind,
    rule, ty, ty_x86_64,
};
pub use refusal::Refusal;
pub use row::hints;
pub use version::VERSION;
