//! Lays out one arm64 Mach-O object, runs reader, fix-up and hints on it through the calls of
//! [`hauklivo`], and lists what became of every word. Of an x86_64 object, too, it lists the entries.
//!
//! [`Object::parse`] takes a file apart, [`link()`] does the work by a table of [`Calls`],
//! [`reports()`] says what is wrong, and [`listing()`] writes it out; [`entries()`] only reads, and
//! [`entry_listing`] writes that out. The calls are a table so that other code can stand behind them.

#![warn(missing_docs)]

mod calls;
mod entries;
mod fault;
mod hints;
mod labels;
mod layout;
mod link;
mod listing;
mod needs;
mod object;
mod refused;
mod reports;
pub mod signing;
mod targets;
mod types;
pub mod words;

pub use hauklivo;

pub use calls::{ApplyHintsListed, ApplyRelocAlloc, Calls, PORT, ReadRelocs, ReadRelocsX86_64};
pub use entries::entries;
pub use fault::Fault;
pub use hints::{HintRun, HintWord, LinkedHint, Outcome, Rewrite, kind_name};
pub use layout::{Holds, Layout, Options, Part};
pub use link::{Linked, LinkedSection, link};
pub use listing::{entry_listing, listing};
pub use object::{Machine, Object, ObjectHint, Section, Symbol, SymbolPlace};
pub use reports::reports;
pub use types::type_name;
