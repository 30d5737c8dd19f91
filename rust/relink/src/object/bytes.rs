//! Checked reading of a file's bytes.

use crate::Fault;

/// A file's bytes.
#[derive(Clone, Copy)]
pub struct File<'a>(pub &'a [u8]);

impl<'a> File<'a> {
    /// The `size` bytes from `offset` on, which hold `what`.
    pub fn range(self, offset: u64, size: u64, what: &str) -> Result<&'a [u8], Fault> {
        let found = match (usize::try_from(offset), usize::try_from(size)) {
            (Ok(offset), Ok(size)) => self.0.get(offset..).and_then(|rest| rest.get(..size)),
            _ => None,
        };
        found.ok_or_else(|| Fault::new(format!("{what} reaches past the end of the file")))
    }
}

/// The number of four bytes at `at`, which the caller has made sure of.
pub fn u32_at(bytes: &[u8], at: usize) -> u32 {
    u32::from_le_bytes(bytes[at..at + 4].try_into().expect("four bytes"))
}

/// The number of eight bytes at `at`, which the caller has made sure of.
pub fn u64_at(bytes: &[u8], at: usize) -> u64 {
    u64::from_le_bytes(bytes[at..at + 8].try_into().expect("eight bytes"))
}

/// The longest name that is shown, in bytes.
const LONGEST_NAME: usize = 200;

/// The name that starts here and ends before a zero byte; a long one is cut.
pub fn name(bytes: &[u8]) -> String {
    let most = &bytes[..bytes.len().min(LONGEST_NAME)];
    let end = most.iter().position(|&b| b == 0).unwrap_or(most.len());
    let name = String::from_utf8_lossy(&most[..end]);
    name.chars().map(|c| if c.is_control() { '?' } else { c }).collect()
}
