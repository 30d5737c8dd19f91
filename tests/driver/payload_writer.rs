//! The writer of payloads: one case, and how the Rust spells its values.

use hauklivo::raw;

use crate::answers::{WRITE_HINTS, record};
use crate::lent::{Lent, filled, hex, pattern};
use crate::rows::{Rows, WrittenRows};
use crate::table::Table;
use crate::{Difference, World};

#[derive(Clone)]
pub struct Case {
    pub row: Vec<u64>,
    /// Bytes lent.
    pub out: usize,
}

impl Case {
    /// A case with just the bytes that its row needs.
    pub fn new(row: Vec<u64>) -> Self {
        let out = 10 * row.len();
        Self { row, out }
    }

    fn show(&self) -> String {
        format!("write_hints: row {:x?}, {} bytes", self.row, self.out)
    }
}

/// The bytes, or a number.
pub type Answer = Result<Vec<u8>, u8>;

/// Why a row is none of whole hints.
#[derive(Clone, Copy, PartialEq)]
enum Why {
    Kind0,
    NoCount,
    NoAddress,
}

fn why_not_whole(row: &[u64]) -> Option<Why> {
    match row {
        [] => None,
        [0, ..] => Some(Why::Kind0),
        [_] => Some(Why::NoCount),
        [_, count, rest @ ..] => match usize::try_from(*count).ok().and_then(|n| rest.get(n..)) {
            Some(rest) => why_not_whole(rest),
            None => Some(Why::NoAddress),
        },
    }
}

/// Numbers 1 and 2: the row, and how many bytes are lent.
fn of_row(case: &Case) -> Option<u8> {
    if why_not_whole(&case.row).is_some() {
        return Some(1);
    }
    (case.out < 10 * case.row.len()).then_some(2)
}

/// The Rust's spellings of the values, one after another; all three of its functions must agree on each.
pub fn rust(case: &Case, world: &World) -> Result<Answer, Difference> {
    let mut bytes = Vec::new();
    for &value in &case.row {
        let start = bytes.len();
        (world.oracle.encode_uleb)(&mut bytes, value);
        let mut lent = [0; 10];
        let len = (world.oracle.write_uleb)(&mut lent, value);
        let size = (world.oracle.uleb_size)(value);
        if bytes[start..] != lent[..len] || size != len {
            return Err(Difference {
                input: format!("{value:x}"),
                port: "not asked".into(),
                expected: format!(
                    "that the Rust agrees with itself; it appends {}, stores {}, says {size} bytes",
                    hex(&bytes[start..]),
                    hex(&lent[..len])
                ),
            });
        }
    }
    Ok(Ok(bytes))
}

/// The count before a call.
const COUNT: usize = 0x5eed;

/// Holds the port to the expected answer on a case.
pub fn check(case: &Case, world: &World, table: &mut Table) -> Result<(), Difference> {
    let answer = match of_row(case) {
        Some(number) => Err(number),
        None => world.differences.payload_writer(case, world)?,
    };
    let row = case.row.clone();
    let mut out = Lent::slots(case.out);
    let mut count = COUNT;
    let bytes = out.bytes().as_mut_ptr();
    // SAFETY: slices of this function, none lent twice.
    let number = unsafe { raw::hauklivo_write_hints(row.as_ptr(), row.len(), bytes, case.out, &mut count) };
    let (number_due, count_due, out_due) = match &answer {
        Ok(bytes) => (0, bytes.len(), filled(bytes, case.out)),
        Err(number) => (*number, COUNT, pattern(case.out)),
    };
    let kept = row == case.row && out.is_guarded();
    if number != number_due || count != count_due || out.bytes() != out_due || !kept {
        return Err(Difference {
            input: case.show(),
            port: format!("{number}, count {count}, bytes {}, the rest kept: {kept}", hex(out.bytes())),
            expected: format!("{number_due}, count {count_due}, bytes {}", hex(&out_due)),
        });
    }
    record_answer(case, number, world, table);
    table.note(|| noted(case, &answer));
    Ok(())
}

fn noted(case: &Case, answer: &Answer) -> Vec<u8> {
    let bytes = answer.as_deref().unwrap_or(&[]);
    let row: Vec<_> = case.row.iter().flat_map(|n| n.to_le_bytes()).collect();
    let number = answer.as_ref().err().copied().unwrap_or(0);
    record(WRITE_HINTS, number, &[case.row.len(), case.out, bytes.len()], &[&row, bytes])
}

fn record_answer(case: &Case, number: u8, world: &World, table: &mut Table) {
    let mut hit = |row: WrittenRows, is_met| table.hit_if(is_met, Rows::Written as usize, row as usize);
    let needed = 10 * case.row.len();
    match (number, why_not_whole(&case.row)) {
        (1, why) => {
            hit(WrittenRows::Kind0, why == Some(Why::Kind0));
            hit(WrittenRows::NoCount, why == Some(Why::NoCount));
            hit(WrittenRows::NoAddress, why == Some(Why::NoAddress));
            hit(WrittenRows::RowBeforeBytes, case.out < needed);
        }
        (2, _) => hit(WrittenRows::ByteFewer, case.out + 1 == needed),
        _ => {
            hit(WrittenRows::Empty, case.row.is_empty());
            hit(WrittenRows::JustBytes, !case.row.is_empty() && case.out == needed);
            hit(WrittenRows::MoreBytes, case.out > needed);
            for &n in &case.row {
                table.hit(Rows::WrittenSize as usize, (world.oracle.uleb_size)(n) - 1);
                table.hit_if(n < 1 << 16, Rows::WrittenSmall as usize, n as usize);
            }
        }
    }
}
