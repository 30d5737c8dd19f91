//! How the Rust stops: each kind of stop caught and told apart.

use std::any::Any;
use std::cell::Cell;
use std::panic::{self, AssertUnwindSafe};
use std::sync::Once;

use crate::error::Fatal;

/// Why the Rust did not return, with its own words.
#[derive(Clone, Debug, PartialEq, Eq)]
pub enum Stop {
    /// `fatal!`.
    Fatal(String),
    /// An element past the end of a list.
    Index(String),
    /// A range past the end of a slice.
    Slice(String),
    /// An unwrapped sum that overflows.
    Overflow(String),
    /// `unwrap` on a None.
    NoneUnwrap(String),
    /// A LEB128 value whose bytes end.
    CutOff(String),
    /// Anything else: a fault of the oracle.
    Other(String),
}

impl Stop {
    fn new(payload: Box<dyn Any + Send>) -> Self {
        let text = match payload.downcast::<Fatal>() {
            Ok(fatal) => return Self::Fatal(fatal.0),
            Err(payload) => match payload.downcast::<String>() {
                Ok(text) => *text,
                Err(payload) => payload.downcast::<&str>().map_or("?".into(), |s| s.to_string()),
            },
        };
        if text.starts_with("index out of bounds") {
            Self::Index(text)
        } else if text.starts_with("range ") && text.contains(" out of range for slice") {
            Self::Slice(text)
        } else if text.starts_with("attempt to ") && text.ends_with(" with overflow") {
            Self::Overflow(text)
        } else if text.contains("on a `None` value") {
            Self::NoneUnwrap(text)
        } else if text == "truncated LEB128" {
            Self::CutOff(text)
        } else {
            Self::Other(text)
        }
    }

    /// The number of RULES 3.1 for a stop of the arm64 reader.
    pub fn reader_number(&self) -> Option<u8> {
        match self {
            Self::Slice(_) => Some(3),
            Self::Index(_) => Some(4),
            Self::Fatal(text) if text.contains("unsupported relocation at ") => Some(5),
            Self::Fatal(text) if text.contains("on an invalid instruction at ") => Some(6),
            Self::Fatal(text) if text.contains("no such section") => Some(7),
            _ => None,
        }
    }

    /// The number of RULES 3.1 for a stop of the x86_64 reader, which reads a single byte by its index. There is none
    /// where the sum of the section's own address and an offset overflows.
    pub fn reader_x86_64_number(&self) -> Option<u8> {
        match self {
            Self::Slice(_) | Self::Index(_) => Some(3),
            Self::Fatal(text) if text.contains("unsupported relocation at ") => Some(5),
            Self::Fatal(text) if text.contains("no such section") => Some(7),
            _ => None,
        }
    }

    /// The number of RULES 3.1 for a stop of the fix-up.
    pub fn fixup_number(&self) -> Option<u8> {
        match self {
            Self::Slice(_) => Some(3),
            Self::Fatal(_) => Some(5),
            Self::Index(_) => Some(8),
            Self::Overflow(_) => Some(9),
            Self::NoneUnwrap(_) => Some(10),
            Self::CutOff(_) | Self::Other(_) => None,
        }
    }

    /// The number of RULES 3.1 for a stop of a hint run; an overflow is no stop there.
    pub fn hints_number(&self) -> Option<u8> {
        match self {
            Self::Slice(_) => Some(3),
            Self::Index(_) => Some(12),
            _ => None,
        }
    }

    /// The number of RULES 3.1 for a stop within a payload.
    pub fn payload_number(&self) -> Option<u8> {
        matches!(self, Self::CutOff(_)).then_some(13)
    }
}

thread_local! {
    static QUIET: Cell<bool> = const { Cell::new(false) };
}

/// Runs `f` and catches its stop. Panics elsewhere are still printed.
pub(crate) fn caught<T>(f: impl FnOnce() -> T) -> Result<T, Stop> {
    static HOOK: Once = Once::new();
    HOOK.call_once(|| {
        let default = panic::take_hook();
        panic::set_hook(Box::new(move |info| {
            if !QUIET.get() {
                default(info);
            }
        }));
    });
    let before = QUIET.replace(true);
    let result = panic::catch_unwind(AssertUnwindSafe(f));
    QUIET.set(before);
    result.map_err(Stop::new)
}
