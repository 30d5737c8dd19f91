//! The hints of an object's payload, LC_LINKER_OPTIMIZATION_HINT.

use super::{MOST, ObjectHint, too_many};
use crate::Fault;

pub fn read(payload: &[u8]) -> Result<Vec<ObjectHint>, Fault> {
    let mut row = vec![0; payload.len()];
    let count = hauklivo::read_hints(payload, &mut row)
        .map_err(|refusal| Fault::refused("the list of hints", refusal, None))?;
    let hints = || hauklivo::hints(&row[..count]);
    if hints().nth(MOST).is_some() {
        return Err(too_many("hints"));
    }
    Ok(hints().map(|(kind, words)| ObjectHint { kind, words: words.to_vec() }).collect())
}

#[cfg(test)]
mod tests {
    use super::*;

    #[test]
    fn lists() {
        let hint = |kind, words: &[u64]| ObjectHint { kind, words: words.to_vec() };
        assert_eq!(read(&[]), Ok(vec![]));
        assert_eq!(read(&[7, 2, 0, 4, 0, 0]), Ok(vec![hint(7, &[0, 4])]));
        assert_eq!(read(&[0x87, 2, 0]), Ok(vec![hint(0x107, &[])]));
        assert_eq!(read(&[9, 0, 7, 2, 0x85, 1, 4]), Ok(vec![hint(9, &[]), hint(7, &[0x85, 4])]));
        assert_eq!(read(&[9, 0].repeat(MOST)).map(|list| list.len()), Ok(MOST));
        assert_eq!(read(&[9, 0].repeat(MOST + 1)), Err(too_many("hints")));
    }

    #[test]
    fn refused_lists() {
        let told = |payload: &[u8]| read(payload).unwrap_err().to_string();
        for cut in [&[7][..], &[7, 2, 0], &[7, 0xff, 0xff, 0xff, 0xff, 0x7f, 1], &[0x85]] {
            assert!(told(cut).starts_with("the list of hints: number 13: a value or a hint of a payload is cut off"));
        }
        assert!(told(&[7, 2, 0, 4, 0, 9]).starts_with("the list of hints: number 14: a byte after"));
    }
}
