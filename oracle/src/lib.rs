//! The oracle: the linker's own files, compiled unchanged, behind calls on the lent records
//! of RULES 2. The modules marked "supplied" come from the source folder; all others are
//! shims for what is not supplied, or the oracle's calls. README.md has the list.

// The names of the registry's crates, all of which registry.rs stands in for.
extern crate self as getrandom;
extern crate self as memchr;
extern crate self as rayon;
extern crate self as sha1;
extern crate self as sha2;
#[doc(hidden)]
pub use registry::{Digest, Sha1, Sha256, fill, memchr, prelude};

mod arch; // supplied: mod.rs, arm64.rs and x86_64.rs
mod chunks;
mod context;
mod dtrace;
#[doc(hidden)]
pub mod error;
mod input_files;
mod input_sections; // supplied
mod macho;
mod macho_consts; // supplied
mod registry;
#[path = "util/mod.rs"]
mod supplied; // util/mod.rs
mod symbol;
#[path = "noted.rs"]
mod util;

mod acted;
mod calls;
mod hints;
pub mod lent;
mod stop;
mod values;
pub mod words;

pub use acted::{Acted, Rule};
pub use arch::{Arm64, X86_64};
pub use calls::{Entries, FixedUp, FixingUp, Reading, apply_reloc_alloc, read_relocs, read_relocs_x86_64, stub, thunk};
pub use hints::{Given, HintRun, Linked, Outcome, apply_hints, apply_hints_linked};
pub use stop::Stop;
pub use values::{encode_uleb, encode_ulebs, read_uleb, read_ulebs, uleb_size, write_uleb};
pub use words::{AccessWord, AddWord, Forms, Words};

/// For what the compiled files name but none of the oracle's calls reaches.
fn left_out() -> ! {
    panic!("left out of the oracle")
}
