//! Why a call turns its input down.

use std::error::Error;
use std::fmt;

/// Why a call turned its input down. It changed nothing that it was lent. Calls that are added may have
/// further numbers, so that a `match` needs an arm for any other.
///
/// ```
/// use hauklivo::Refusal;
///
/// assert_eq!(Refusal::Bounds.number(), 3);
/// assert_eq!(Refusal::try_from(3), Ok(Refusal::Bounds));
/// assert_eq!(Refusal::try_from(200), Err(200));
/// assert_eq!(Refusal::Unfit.to_string(), "6: a word is unfit for its relocation");
/// ```
#[derive(Clone, Copy, Debug, PartialEq, Eq, Hash, PartialOrd, Ord)]
#[non_exhaustive]
pub enum Refusal {
    /// 1: a list's length is not whole records, a list has more than 2^32 - 1 records, or targets are
    /// not one for each entry; a payload has more than 2^32 - 1 bytes; a row has more than 2^32 - 1
    /// values, ends within a hint, or has a kind 0.
    Lengths,
    /// 2: the slots have fewer than 24 bytes for each input record; of a listed hint run, fewer than 16
    /// bytes of room for each hint; of a listing, more than 16,384 bytes of words, or fewer than 27 bytes
    /// of room for each word; of a payload, fewer slots than bytes; of a row, fewer than 10 bytes of room
    /// for each value.
    Slots,
    /// 3: a place is past the bytes that it reads or writes, a hint's word is past its part, a hint's part is past
    /// the image, or fewer than 12 bytes are lent for a stub or thunk entry.
    Bounds,
    /// 4: an ADDEND record is the last record.
    LoneAddend,
    /// 5: a type, or a record's form, is not supported.
    Unsupported,
    /// 6: a word is unfit for its record.
    Unfit,
    /// 7: a record names a section that is not there.
    NoSection,
    /// 8: a SUBTRACTOR entry is the last entry.
    LoneSubtractor,
    /// 9: base plus offset passes 2^64 - 1.
    Overflow,
    /// 10: a section stands where a symbol is needed.
    NeedsSymbol,
    /// 11: a target has a flag of bit 9 or above, is both probe and is-enabled, or its last four bytes
    /// are not zero.
    Flags,
    /// 12: a hint names an entry that is not there.
    NoEntry,
    /// 13: a payload ends within a value or within a hint, or a value of it is 2^64 or more.
    Malformed,
    /// 14: a byte after the kind 0 that closes the list of a payload is not zero.
    Trailing,
    /// 15: in the 8 bytes stored for an AUTHENTICATED_POINTER record bits 51 to 62 are not zero, or bit
    /// 63 is clear.
    NotAuthenticated,
    /// 16: for an AUTHENTICATED_POINTER entry the target's address plus the addend less the image base,
    /// modulo 2^64, is above 2^32 - 1.
    FarFromImage,
    /// A number that this crate has no name for.
    #[non_exhaustive]
    Unknown(u8),
}

impl Refusal {
    /// All that have a name, by rising number, from 1.
    pub const ALL: &[Self] = &[
        Self::Lengths,
        Self::Slots,
        Self::Bounds,
        Self::LoneAddend,
        Self::Unsupported,
        Self::Unfit,
        Self::NoSection,
        Self::LoneSubtractor,
        Self::Overflow,
        Self::NeedsSymbol,
        Self::Flags,
        Self::NoEntry,
        Self::Malformed,
        Self::Trailing,
        Self::NotAuthenticated,
        Self::FarFromImage,
    ];

    /// Its number.
    pub fn number(self) -> u8 {
        match self {
            Self::Lengths => 1,
            Self::Slots => 2,
            Self::Bounds => 3,
            Self::LoneAddend => 4,
            Self::Unsupported => 5,
            Self::Unfit => 6,
            Self::NoSection => 7,
            Self::LoneSubtractor => 8,
            Self::Overflow => 9,
            Self::NeedsSymbol => 10,
            Self::Flags => 11,
            Self::NoEntry => 12,
            Self::Malformed => 13,
            Self::Trailing => 14,
            Self::NotAuthenticated => 15,
            Self::FarFromImage => 16,
            Self::Unknown(number) => number,
        }
    }

    /// What a call that returns `number` says; None for 0.
    pub(crate) fn of(number: u8) -> Option<Self> {
        match number {
            0 => None,
            _ => Some(Self::try_from(number).unwrap_or(Self::Unknown(number))),
        }
    }

    fn meaning(self) -> &'static str {
        match self {
            Self::Lengths => "a list is not whole records or hints, has kind 0, is too long, or disagrees with another",
            Self::Slots => "there is too little room for the answer, or too much to list",
            Self::Bounds => "a place is past its bytes, a word past its part, or a part past the image",
            Self::LoneAddend => "an ADDEND record is the last record",
            Self::Unsupported => "a relocation's type or form is not supported",
            Self::Unfit => "a word is unfit for its relocation",
            Self::NoSection => "a record names a section that is not there",
            Self::LoneSubtractor => "a SUBTRACTOR entry is the last entry",
            Self::Overflow => "base plus offset passes 2^64 - 1",
            Self::NeedsSymbol => "a section stands where a symbol is needed",
            Self::Flags => "a target's flags or last bytes are not in order",
            Self::NoEntry => "a hint names an entry that is not there",
            Self::Malformed => "a value or a hint of a payload is cut off, or a value is 2^64 or more",
            Self::Trailing => "a byte after a payload's closing kind 0 is not zero",
            Self::NotAuthenticated => "an authenticated pointer's stored word has a bit of 51 to 62 set, or 63 clear",
            Self::FarFromImage => {
                "an authenticated pointer's target plus addend less the image base, modulo 2^64, is above 2^32 - 1"
            }
            Self::Unknown(_) => "a number that the crate hauklivo has no name for",
        }
    }
}

impl TryFrom<u8> for Refusal {
    type Error = u8;

    /// The refusal of a number; a number without one comes back.
    fn try_from(number: u8) -> Result<Self, u8> {
        Self::ALL.iter().copied().find(|r| r.number() == number).ok_or(number)
    }
}

impl fmt::Display for Refusal {
    fn fmt(&self, f: &mut fmt::Formatter) -> fmt::Result {
        write!(f, "{}: {}", self.number(), self.meaning())
    }
}

impl Error for Refusal {}

#[cfg(test)]
mod tests {
    use super::Refusal;

    #[test]
    fn every_number() {
        assert_eq!(Refusal::of(0), None);
        for number in 1..=u8::MAX {
            let refusal = Refusal::of(number).unwrap();
            assert_eq!(refusal.number(), number);
            assert_eq!(Refusal::ALL.contains(&refusal), number <= 16);
            assert_eq!(Refusal::try_from(number), if number <= 16 { Ok(refusal) } else { Err(number) });
        }
        let later = Refusal::of(17).unwrap();
        assert_eq!(later.to_string(), "17: a number that the crate hauklivo has no name for");
        assert!(Refusal::ALL.is_sorted() && Refusal::FarFromImage < later);
        assert_eq!(Refusal::of(13), Some(Refusal::Malformed));
        assert_eq!(Refusal::Trailing.to_string(), "14: a byte after a payload's closing kind 0 is not zero");
        assert_eq!([15, 16].map(Refusal::try_from), [Ok(Refusal::NotAuthenticated), Ok(Refusal::FarFromImage)]);
    }
}
