//! The port's two hint runs, plain and listed, and what they leave.

use hauklivo::raw::{hauklivo_apply_hints, hauklivo_apply_hints_listed};

use crate::Difference;
use crate::hints::{Answer, Case, TALLY};
use crate::lent::{Lent, filled, hex};
use crate::run::Verdict;

/// What a run leaves: the number, the image's bytes, the tally and the slots, and whether all else stayed.
#[derive(PartialEq)]
struct Left {
    number: u8,
    image: Vec<u8>,
    tally: [u32; 4],
    slots: Vec<u8>,
    is_kept: bool,
}

impl Left {
    fn show(&self) -> String {
        let Self { number, image, tally, slots, is_kept } = self;
        format!("{number}, image {}, tally {tally:x?}, slots {}, the rest kept: {is_kept}", hex(image), hex(slots))
    }
}

const AROUND: u32 = 0x9a9a_9a9a;

/// Asks the port: for a listed run, if bytes of slots are given.
fn asked(case: &Case, slots: Option<usize>) -> Left {
    let lent = case.clone();
    let (mut image, mut records) = (Lent::new(&case.image), Lent::slots(slots.unwrap_or(0)));
    let mut tally = [AROUND; 8];
    tally[2..6].copy_from_slice(&TALLY);
    let (bytes, len, told) = (image.bytes().as_mut_ptr(), case.image.len(), tally[2..6].as_mut_ptr().cast());
    let (hints, hints_len) = (lent.hints.as_ptr(), lent.hints.len());
    let (entries, entries_len) = (lent.entries.as_ptr(), lent.entries.len());
    // SAFETY: slices of this function, none lent twice.
    let number = unsafe {
        match slots {
            None => hauklivo_apply_hints(bytes, len, hints, hints_len, entries, entries_len, told),
            Some(slots) => {
                let records = records.bytes().as_mut_ptr();
                hauklivo_apply_hints_listed(bytes, len, hints, hints_len, entries, entries_len, records, slots, told)
            }
        }
    };
    let is_around = tally[..2].iter().chain(&tally[6..]).all(|&n| n == AROUND);
    let is_kept = lent.hints == case.hints && lent.entries == case.entries && is_around;
    let is_kept = is_kept && image.is_guarded() && records.is_guarded();
    let tally = tally[2..6].try_into().expect("four counts");
    Left { number, image: image.bytes().to_vec(), tally, slots: records.bytes().to_vec(), is_kept }
}

/// Holds the port's run, a listed one if bytes of slots are given, to what is due: an answer, and the slots that it fills.
pub fn hold(case: &Case, slots: Option<usize>, due: &Answer, filling: &[u8]) -> Verdict {
    let left = asked(case, slots);
    let Answer { number, tally, .. } = *due;
    let slots_due = filled(filling, slots.unwrap_or(0));
    let due = Left { number, image: due.image.clone(), tally, slots: slots_due, is_kept: true };
    if left == due {
        return Ok(());
    }
    let listed = slots.map_or(String::new(), |slots| format!("listed, {slots} bytes of slots: "));
    Err(Difference { input: listed + &case.show(), port: left.show(), expected: due.show() })
}
