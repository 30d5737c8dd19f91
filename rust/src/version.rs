//! The version of the calls that this crate is written for. The build script takes this file, too.

/// The version of the calls that this crate is written for. It rises by one where a call, a record or
/// a number that was there changes, and where a call answers otherwise or leaves other bytes; the build
/// script refuses an archive of another version. A call that is added leaves it, also where it gives a
/// number that is added with it: a program that makes the call does not link with an archive from
/// before it.
pub const VERSION: u32 = 5;
