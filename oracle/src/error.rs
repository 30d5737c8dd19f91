//! Stands in for error.rs: errors are kept in a list, and a fatal one unwinds to the oracle's call.

use std::cell::{Cell, RefCell};
use std::fmt;
use std::path::Path;

thread_local! {
    static ENTRY: Cell<u32> = const { Cell::new(0) };
    static ERRORS: RefCell<Vec<(u32, String)>> = const { RefCell::new(Vec::new()) };
}

/// What a fatal error unwinds with.
pub struct Fatal(pub String);

pub fn fatal(msg: fmt::Arguments) -> ! {
    std::panic::resume_unwind(Box::new(Fatal(msg.to_string())))
}

pub fn error(msg: fmt::Arguments) {
    ERRORS.with_borrow_mut(|errors| errors.push((ENTRY.get(), msg.to_string())));
}

/// Notes the entry that errors from here on belong to; not where the functions are timed, of which it is no part.
pub fn note_entry(entry: u32) {
    if !cfg!(timed) {
        ENTRY.set(entry);
    }
}

/// The errors since the last call, each with the entry noted before it.
pub fn take_errors() -> Vec<(u32, String)> {
    ERRORS.take()
}

pub type Message = Vec<u8>;

pub fn render(msg: fmt::Arguments) -> Message {
    msg.to_string().into_bytes()
}

/// A name printed as it is; the oracle's names are all ASCII.
pub struct Raw<'a>(&'a [u8]);

pub fn raw(bytes: &[u8]) -> Raw<'_> {
    Raw(bytes)
}

impl fmt::Display for Raw<'_> {
    fn fmt(&self, f: &mut fmt::Formatter) -> fmt::Result {
        f.write_str(&String::from_utf8_lossy(self.0))
    }
}

pub trait RawPath {
    fn raw(&self) -> Raw<'_>;
}

impl RawPath for Path {
    fn raw(&self) -> Raw<'_> {
        raw(self.as_os_str().as_encoded_bytes())
    }
}

/// The first rule matches one place of arm64.rs and one of x86_64.rs, the end of apply_reloc_alloc. It adds a module
/// there, with the file below `inside` that has the path of the file around it: a module sees what is private around
/// it, and the supplied file stays as it is.
#[macro_export]
macro_rules! fatal {
    ("unsupported relocation type: {}", $ty:expr) => {{
        mod inside {
            use super::*;
            include!(concat!("../inside/", file!()));
        }
        $crate::error::fatal(format_args!("unsupported relocation type: {}", $ty))
    }};
    ($($arg:tt)*) => {
        $crate::error::fatal(format_args!($($arg)*))
    };
}

#[macro_export]
macro_rules! error {
    ($($arg:tt)*) => {
        $crate::error::error(format_args!($($arg)*))
    };
}
