//! The Rust's own unsigned LEB128 values, one by one and all of a list.

use crate::stop::{Stop, caught};
use crate::util;

pub use crate::util::{encode_uleb, uleb_size, write_uleb};

/// Takes a value off the front of `bytes`.
pub fn read_uleb(bytes: &mut &[u8]) -> Result<u64, Stop> {
    caught(|| util::read_uleb(bytes))
}

/// Fills `values` with what `bytes` spell, without catching a stop, so that the Rust can be timed alone.
pub fn read_ulebs(mut bytes: &[u8], values: &mut [u64]) {
    for value in values {
        *value = util::read_uleb(&mut bytes);
    }
}

/// Appends each value, for the same reason.
pub fn encode_ulebs(values: &[u64], out: &mut Vec<u8>) {
    for &value in values {
        encode_uleb(out, value);
    }
}
