//! Where a refusal is: the position in its list of the record that a call was refused for.
//!
//! A [`Refusal`] says why, not where. These functions find the position by halving: they make the call
//! again on prefixes of the list, about log2 of its length times, with copies of what the call writes,
//! so that nothing lent changes.
//!
//! [`Lengths`](Refusal::Lengths) and [`Slots`](Refusal::Slots) are of whole lists and have no position.
//! [`LoneAddend`](Refusal::LoneAddend) and [`LoneSubtractor`](Refusal::LoneSubtractor) are of the last
//! record. For any other number let record k be the one that the list is refused for. Of the records of
//! an x86_64 object none asks whether another follows, and no prefix without record k is refused. Elsewhere:
//!
//! - What a call says of a record depends on no record after it, save that ADDEND and SUBTRACTOR ask
//!   whether one follows. So a prefix without record k is accepted, or ends in an ADDEND or SUBTRACTOR
//!   that is refused by 4 or 8.
//! - A prefix with record k and more is refused as the whole list is.
//! - So is the prefix that ends with record k, with one exception. A SUBTRACTOR entry for whose bytes
//!   the section is too short ([`Bounds`](Refusal::Bounds)) is refused by 8 first as long as no entry
//!   follows, and by 3 with the entry that it takes.
//!
//! So from some length n on prefixes are refused as the whole list is, and no shorter one is: n can be
//! found by halving, and k is n - 1. In the exception it is n - 2; that is the case where the prefix of
//! n - 1 is refused by 8: its last entry is then a SUBTRACTOR, which takes the last entry of the prefix
//! of n, and no number is looked for in a taken entry, so that the refusal is the SUBTRACTOR's own.
//!
//! ```
//! use hauklivo::{MachRel, Record, Refusal, Reloc, position_of_refusal, ty, typed};
//!
//! // A branch, and a record whose type there is none of.
//! let records = [MachRel::new(0, 5, true, 2, true, ty::BRANCH26), MachRel::new(4, 5, true, 2, true, 15)];
//! let refused = typed::read_relocs(&[0; 8], &records, &[], &mut [Reloc::default(); 2]);
//! assert_eq!(refused, Err(Refusal::Unsupported));
//! let position = position_of_refusal::in_records(Refusal::Unsupported, &[0; 8], MachRel::bytes(&records), &[]);
//! assert_eq!(position, Some(1));
//! ```

use crate::{
    HintRecord, MachRel, Record, Refusal, Reloc, Report, Resolved, apply_hints, apply_reloc_alloc, read_relocs,
    read_relocs_x86_64,
};

/// The position, counted from 0, of the record for which [`read_relocs`] gives `refusal`. Of an ADDEND
/// record and the one after it, it is the first for an offset past the contents, else the second.
///
/// None for a refusal that is of whole lists, or that these lists are not refused with.
pub fn in_records(refusal: Refusal, contents: &[u8], records: &[u8], sections: &[u64]) -> Option<usize> {
    in_table(refusal, records, |records, slots| read_relocs(contents, records, sections, slots))
}

/// The position, counted from 0, of the record for which [`read_relocs_x86_64`] gives `refusal`; no number
/// depends on `address`.
///
/// None for a refusal that is of whole lists, or that these lists are not refused with.
pub fn in_records_x86_64(refusal: Refusal, contents: &[u8], records: &[u8], sections: &[u64]) -> Option<usize> {
    in_table(refusal, records, |records, slots| read_relocs_x86_64(contents, records, sections, 0, slots))
}

/// The position of the record for which a reader, given records and slots, gives `refusal`.
fn in_table(
    refusal: Refusal,
    records: &[u8],
    read: impl Fn(&[u8], &mut [u8]) -> Result<usize, Refusal>,
) -> Option<usize> {
    let count = records.len() / MachRel::SIZE;
    let mut slots = vec![0; Reloc::SIZE * count];
    position(refusal, count, |n| read(prefix::<MachRel>(records, n, count), &mut slots).err())
}

/// The position, counted from 0, of the entry for which [`apply_reloc_alloc`] gives `refusal`; no number
/// depends on `tls_begin`. The `image_base` is that of the refused call, whatever the refusal: by another one
/// [`FarFromImage`](Refusal::FarFromImage) may come first.
///
/// None for a refusal that is of whole lists, or that these lists are not refused with.
pub fn in_entries(
    refusal: Refusal,
    section: &[u8],
    base: u64,
    image_base: u64,
    entries: &[u8],
    targets: &[u8],
) -> Option<usize> {
    let count = entries.len() / Reloc::SIZE;
    // The numbers depend on the section's length alone, so that a prefix may find it changed by another.
    let mut section = section.to_vec();
    let mut slots = vec![0; Report::SIZE * count];
    position(refusal, count, |n| {
        let (entries, targets) = (prefix::<Reloc>(entries, n, count), prefix::<Resolved>(targets, n, count));
        apply_reloc_alloc(&mut section, base, 0, image_base, entries, targets, &mut slots).err()
    })
}

/// The position, counted from 0, of the hint for which [`apply_hints`] or
/// [`apply_hints_listed`](crate::apply_hints_listed) gives `refusal`.
///
/// None for a refusal that is of whole lists, or that these lists are not refused with.
pub fn in_hints(refusal: Refusal, image: &[u8], hints: &[u8], entries: &[u8]) -> Option<usize> {
    // No number depends on an object's, and hints of one object are worked in linear time.
    let of_one = |hint| HintRecord { object: 0, ..hint };
    let hints: Vec<HintRecord> = HintRecord::list(hints)?.into_iter().map(of_one).collect();
    // As above, of the image.
    let mut image = image.to_vec();
    position(refusal, hints.len(), |n| apply_hints(&mut image, HintRecord::bytes(&hints[..n]), entries).err())
}

/// The first n of `count` records; for all of them the whole list, whatever its length.
fn prefix<R: Record>(list: &[u8], n: usize, count: usize) -> &[u8] {
    if n == count { list } else { &list[..R::SIZE * n] }
}

/// The position in a list of `count` records, of whose first n a call says `call(n)`.
fn position(refusal: Refusal, count: usize, mut call: impl FnMut(usize) -> Option<Refusal>) -> Option<usize> {
    match refusal {
        Refusal::Lengths | Refusal::Slots | Refusal::Unknown(_) => None,
        _ if call(count) != Some(refusal) => None,
        Refusal::LoneAddend | Refusal::LoneSubtractor => Some(count - 1),
        _ => {
            // Prefixes of `before` records are not refused so, those of `from` are.
            let (mut before, mut from) = (0, count);
            while from - before > 1 {
                let middle = before + (from - before) / 2;
                let half = if call(middle) == Some(refusal) { &mut from } else { &mut before };
                *half = middle;
            }
            let is_taken = call(before) == Some(Refusal::LoneSubtractor);
            Some(if is_taken { before - 1 } else { before })
        }
    }
}
