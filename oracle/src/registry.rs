//! Stands in for the registry's crates: rayon, memchr, getrandom, sha2 and sha1.

pub mod prelude {
    /// rayon's `par_iter`, one element after another.
    pub trait InOrder<T> {
        fn par_iter(&self) -> std::slice::Iter<'_, T>;
    }

    impl<T> InOrder<T> for [T] {
        fn par_iter(&self) -> std::slice::Iter<'_, T> {
            self.iter()
        }
    }
}

/// memchr's search for a byte.
pub fn memchr(byte: u8, bytes: &[u8]) -> Option<usize> {
    bytes.iter().position(|&b| b == byte)
}

/// getrandom's `fill`; nothing compared here calls it.
pub fn fill(_buf: &mut [u8]) -> Result<(), &'static str> {
    Err("left out")
}

/// The hashes of sha2 and sha1; nothing compared here calls them.
pub trait Digest<const N: usize> {
    fn digest(_data: &[u8]) -> [u8; N] {
        crate::left_out()
    }
}

pub struct Sha256;
impl Digest<32> for Sha256 {}

pub struct Sha1;
impl Digest<20> for Sha1 {}
