//! A hint's rule at work: which one acted, and how many places it wrote, told from the words that it wrote.

use crate::arch::Arm64;
use crate::macho::*;
use crate::stop::{Stop, caught};
use crate::util::written;
use crate::words::{Place, Rules, Words};

/// By their numbers (RULES 16.3).
#[derive(Clone, Copy, Debug, PartialEq, Eq)]
pub enum Rule {
    Skipped,
    Declined,
    SecondAdrp,
    Literal,
    Adr,
    Fold,
    GotSlot,
    /// By 9: a sum that the rule reaches overflows.
    TurnedDown,
}

/// What was done with a hint.
#[derive(Clone, Copy, Debug, PartialEq, Eq)]
pub struct Acted {
    pub rule: Rule,
    /// Places written, also with the word that was there.
    pub changed: u8,
}

impl Acted {
    pub(crate) const SKIPPED: Self = Self::nothing(Rule::Skipped);

    /// Of a hint for which nothing was written.
    const fn nothing(rule: Rule) -> Self {
        Self { rule, changed: 0 }
    }
}

/// Runs the rule of `kind`, one that there is, on the bytes of its part. Beside what was done: the words written, in their
/// order, each with its offset in the part.
///
/// Each word that the rule writes is noted as it is written (noted.rs), so that a place with the word it had counts, too.
/// That no byte becomes another but by a noted word is asserted. Declined is a rule that wrote nothing, turned down one whose
/// sum overflowed.
pub(crate) fn run(kind: u8, part: &mut [u8], places: &[Place]) -> Result<(Acted, Vec<(usize, u32)>), Stop> {
    let before = part.to_vec();
    let (done, words) = written(part, |part| caught(|| Arm64::run_rule(kind, part, places)));
    assert!(stored(&before, &words) == part, "a rule wrote what is not noted");
    let acted = match done {
        Ok(()) if words.is_empty() => Acted::nothing(Rule::Declined),
        Ok(()) => {
            let new = by_place(kind, &before, places, &words);
            Acted { rule: rule_of(kind, new), changed: new.iter().flatten().count() as u8 }
        }
        Err(Stop::Overflow(_)) => {
            assert!(words.is_empty(), "a rule wrote before its sum overflowed");
            Acted::nothing(Rule::TurnedDown)
        }
        Err(stop) => return Err(stop),
    };
    Ok((acted, words))
}

/// Bytes with words stored at their offsets, in their order.
fn stored(bytes: &[u8], words: &[(usize, u32)]) -> Vec<u8> {
    let mut bytes = bytes.to_vec();
    for &(at, word) in words {
        bytes[at..at + 4].copy_from_slice(&word.to_le_bytes());
    }
    bytes
}

/// The words that a rule wrote, by their places. Places can share bytes, and two can be one, so that an offset does not
/// always tell the place: the rule is run once more on the same words moved apart, with the addresses and entries that they
/// had. It reads the words of its places alone, and none after it has written one, so it must write the same words in the
/// same order, which is asserted.
fn by_place(kind: u8, before: &[u8], places: &[Place], words: &[(usize, u32)]) -> [Option<u32>; 3] {
    let mut part = [0; 12];
    let mut apart = places.to_vec();
    for (i, place) in apart.iter_mut().enumerate() {
        part[4 * i..][..4].copy_from_slice(&before[place.0..][..4]);
        place.0 = 4 * i;
    }
    let ((), again) = written(&mut part, |part| Arm64::run_rule(kind, part, &apart));
    let back: Vec<_> = again.iter().map(|&(at, word)| (places[at / 4].0, word)).collect();
    assert!(back == words, "a rule does otherwise with its words moved apart");
    let mut new = [None; 3];
    for (at, word) in again {
        assert!(new[at / 4].replace(word).is_none(), "a rule wrote a place twice");
    }
    new
}

/// What a written word is.
#[derive(Clone, Copy, PartialEq)]
enum Form {
    Nop,
    Adr,
    Literal,
    Access,
    Other,
}

fn form(word: u32) -> Form {
    match word {
        0xd503_201f => Form::Nop,
        _ if word & 0x9f00_0000 == 0x1000_0000 => Form::Adr,
        _ if word & 0x3b00_0000 == 0x1800_0000 => Form::Literal,
        _ if Arm64::parse_ldst(word).is_some() => Form::Access,
        _ => Form::Other,
    }
}

/// The rule that wrote these words at their places. A literal load as the second word of a GOT kind is that of the slot.
fn rule_of(kind: u8, new: [Option<u32>; 3]) -> Rule {
    use Form::*;
    match (kind, new.map(|word| word.map(form))) {
        (LOH_ARM64_ADRP_ADRP, [None, Some(Nop), None]) => Rule::SecondAdrp,
        (
            LOH_ARM64_ADRP_LDR_GOT_LDR | LOH_ARM64_ADRP_LDR_GOT_STR | LOH_ARM64_ADRP_LDR_GOT,
            [Some(Nop), Some(Literal), None],
        ) => Rule::GotSlot,
        (_, [Some(Nop), Some(Literal), None] | [Some(Nop), Some(Nop), Some(Literal)]) => Rule::Literal,
        (_, [Some(Adr), Some(Nop), None | Some(Access)]) => Rule::Adr,
        (_, [None, Some(Nop), Some(Access)]) => Rule::Fold,
        _ => panic!("words of no rule for kind {kind}: {new:x?}"),
    }
}
