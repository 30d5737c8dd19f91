//! The reader and the writer of hint payloads, with each refusal and what is lent unchanged after it.

use hauklivo::{Refusal, SPELLING, hints, raw};

const FILL: u64 = 0xa5a5_a5a5_a5a5_a5a5;
const BYTE: u8 = 0xa5;

/// The row of a payload, in so many slots. Slots that are not filled must stay.
fn read_in(payload: &[u8], slots: usize) -> Result<Vec<u64>, Refusal> {
    let mut slots = vec![FILL; slots];
    let done = hauklivo::read_hints(payload, &mut slots);
    assert!(slots[done.unwrap_or(0)..].iter().all(|&slot| slot == FILL));
    done.map(|n| slots[..n].to_vec())
}

fn read(payload: &[u8]) -> Result<Vec<u64>, Refusal> {
    let answer = read_in(payload, payload.len());
    assert_eq!(read_in(payload, payload.len() + 3), answer);
    answer
}

/// The payload of a row, in so many bytes. Bytes that are not written must stay.
fn written_in(row: &[u64], room: usize) -> Result<Vec<u8>, Refusal> {
    let mut out = vec![BYTE; room];
    let done = hauklivo::write_hints(row, &mut out);
    assert!(out[done.unwrap_or(0)..].iter().all(|&byte| byte == BYTE));
    done.map(|n| out[..n].to_vec())
}

fn written(row: &[u64]) -> Result<Vec<u8>, Refusal> {
    let answer = written_in(row, SPELLING * row.len());
    assert_eq!(written_in(row, SPELLING * row.len() + 3), answer);
    answer
}

/// A value in so many bytes, the last of which may be zero.
fn spelled(value: u64, bytes: usize) -> Vec<u8> {
    let seven = |i: usize| value.checked_shr(7 * i as u32).unwrap_or(0) as u8 & 0x7f;
    (0..bytes).map(|i| seven(i) | if i + 1 < bytes { 0x80 } else { 0 }).collect()
}

/// How many bytes the shortest spelling has.
fn shortest(value: u64) -> usize {
    (64 - value.leading_zeros()).div_ceil(7).max(1) as usize
}

/// An ADRP_ADD of one address: enough to hold any value.
fn of(spelling: &[u8]) -> Vec<u8> {
    [&[7, 1], spelling].concat()
}

#[test]
fn reader_reads() {
    assert_eq!(read(&[]), Ok(vec![]));
    assert_eq!(read(&[7, 2, 0, 4]), Ok(vec![7, 2, 0, 4]));
    assert_eq!(read(&[8, 2, 4, 8, 7, 3, 0x80, 1, 0, 0x7f]), Ok(vec![8, 2, 4, 8, 7, 3, 0x80, 0, 0x7f]));
    // Kinds and counts that there are none of.
    assert_eq!(read(&[9, 0, 0xac, 2, 1, 5]), Ok(vec![9, 0, 300, 1, 5]));
    assert_eq!(read(&of(&[[0xff; 9].as_slice(), &[1]].concat())), Ok(vec![7, 1, u64::MAX]));
    let most = [[0xff; 9].as_slice(), &[1, 0]].concat();
    assert_eq!(read(&most), Ok(vec![u64::MAX, 0]));
}

#[test]
fn what_closes() {
    let row = Ok(vec![7, 2, 0, 4]);
    for close in [&[0][..], &[0; 9], &[0x80, 0], &[0x80, 0x80, 0, 0]] {
        assert_eq!(read(close), Ok(vec![]));
        assert_eq!(read(&[&[7, 2, 0, 4], close].concat()), row);
    }
    // Not a count of 0, nor an address of 0.
    assert_eq!(read(&[7, 0, 7, 0]), Ok(vec![7, 0, 7, 0]));
    assert_eq!(read(&[7, 0x80, 0, 7, 0, 0]), Ok(vec![7, 0, 7, 0]));
    assert_eq!(read(&[7, 2, 0, 0, 8, 1, 0, 0]), Ok(vec![7, 2, 0, 0, 8, 1, 0]));
}

/// A spelling of any length is read.
#[test]
fn long_spellings() {
    assert_eq!(read(&[0x87, 0, 0x82, 0x80, 0, 0x80, 0, 0x84, 0]), Ok(vec![7, 2, 0, 4]));
    for value in [0, 1, 127, 128, 300, 1 << 63, u64::MAX] {
        for bytes in shortest(value)..50 {
            assert_eq!(read(&of(&spelled(value, bytes))), Ok(vec![7, 1, value]), "{value}, {bytes}");
        }
    }
    for bytes in [11, 40, 41, 1000] {
        assert_eq!(read(&spelled(0, bytes)), Ok(vec![]));
    }
}

#[test]
fn reader_refuses() {
    for cut in [&[0x80][..], &[7], &[7, 2], &[7, 2, 0], &[7, 2, 0, 0x84], &[7, 0x80], &[7, 2, 0, 4, 0x80], &[0x80; 40]]
    {
        assert_eq!(read(cut), Err(Refusal::Malformed), "{cut:x?}");
    }
    // 2^64 and more: in ten bytes, and by a bit far behind zeros.
    for last in 2..0x80 {
        assert_eq!(read(&of(&[[0xff; 9].as_slice(), &[last]].concat())), Err(Refusal::Malformed));
        assert_eq!(read(&of(&[[0x80; 9].as_slice(), &[last]].concat())), Err(Refusal::Malformed));
    }
    for zeros in 10..50 {
        assert_eq!(read(&of(&[vec![0x80; zeros], vec![1]].concat())), Err(Refusal::Malformed));
        assert_eq!(read(&[vec![0x80; zeros], vec![1]].concat()), Err(Refusal::Malformed));
    }
    // Counts that reach past the payload.
    for count in [3, 1 << 32, 1 << 63, u64::MAX] {
        assert_eq!(read(&[&[7][..], &spelled(count, 10), &[0, 4]].concat()), Err(Refusal::Malformed));
    }
    for trailing in [&[0, 0x80][..], &[0, 7, 0], &[0x80, 0, 1], &[0, 0, 0, 0xff], &[7, 2, 0, 4, 0, 0, 1]] {
        assert_eq!(read(trailing), Err(Refusal::Trailing), "{trailing:x?}");
    }
    // A slot for each byte, before anything else.
    for payload in [&[7, 2, 0, 4][..], &[7, 2, 0], &[0, 0x80], &[0]] {
        assert_eq!(read_in(payload, payload.len() - 1), Err(Refusal::Slots));
        assert_eq!(read_in(payload, 0), Err(Refusal::Slots));
    }
}

#[test]
fn writer_writes() {
    assert_eq!(written(&[]), Ok(vec![]));
    assert_eq!(written(&[7, 2, 0, 4]), Ok(vec![7, 2, 0, 4]));
    assert_eq!(written(&[7, 0, 300, 0]), Ok(vec![7, 0, 0xac, 2, 0]));
    for (value, spelling) in [
        (0, &[0][..]),
        (127, &[0x7f]),
        (128, &[0x80, 1]),
        (16383, &[0xff, 0x7f]),
        (16384, &[0x80, 0x80, 1]),
        (1 << 63, &[0x80, 0x80, 0x80, 0x80, 0x80, 0x80, 0x80, 0x80, 0x80, 1]),
        (u64::MAX, &[0xff, 0xff, 0xff, 0xff, 0xff, 0xff, 0xff, 0xff, 0xff, 1]),
    ] {
        assert_eq!(written(&[7, 1, value]), Ok(of(spelling)), "{value}");
    }
}

#[test]
fn writer_refuses() {
    for row in [&[7][..], &[7, 2], &[7, 2, 0], &[7, 0, 7], &[7, 3, 0, 4], &[7, u64::MAX, 0], &[7, 1 << 32, 0]] {
        assert_eq!(written(row), Err(Refusal::Lengths), "{row:?}");
        assert_eq!(written_in(row, 0), Err(Refusal::Lengths)); // before Slots
    }
    for row in [&[0][..], &[0, 0], &[7, 2, 0, 4, 0], &[7, 0, 0, 0], &[0, 7, 0]] {
        assert_eq!(written(row), Err(Refusal::Lengths), "{row:?}");
        assert_eq!(written_in(row, 0), Err(Refusal::Lengths));
    }
    // Ten bytes for each value, however few it takes.
    for row in [&[7, 2, 0, 4][..], &[9, 0]] {
        for room in 0..SPELLING * row.len() {
            assert_eq!(written_in(row, room), Err(Refusal::Slots));
        }
    }
}

/// Each value around a power of two, in every place where a row may have it and in spellings of many
/// lengths.
#[test]
fn round_trips() {
    let edges = (0..64).flat_map(|bit| [(1_u64 << bit) - 1, 1 << bit, (1 << bit) + 1]).chain([u64::MAX]);
    for value in edges {
        let row = [value.max(1), 0, 7, 3, value, 0, value, value.max(1), 1, 4];
        let payload = written(&row).unwrap();
        assert_eq!(payload, row.iter().flat_map(|&v| spelled(v, shortest(v))).collect::<Vec<_>>());
        assert_eq!(read(&payload).as_deref(), Ok(&row[..]));
        for more in 0..12 {
            let longer = |(i, &v): (usize, &u64)| spelled(v, shortest(v) + (i + more) % 12);
            let spellings: Vec<u8> = row.iter().enumerate().flat_map(longer).collect();
            assert_eq!(read(&spellings).as_deref(), Ok(&row[..]));
            assert_eq!(read(&[&spellings[..], &[0; 3]].concat()).as_deref(), Ok(&row[..]));
        }
    }
}

/// Every payload of one to six of some bytes. Of one that is read the row is whole, and what is written of
/// it is no longer and reads the same.
#[test]
fn small_payloads() {
    let bytes = [0, 1, 2, 7, 0x80, 0x82];
    let (mut payloads, mut answers) = (vec![vec![]], [0; 3]);
    for _ in 0..6 {
        payloads = payloads.iter().flat_map(|p: &Vec<u8>| bytes.map(|byte| [&p[..], &[byte]].concat())).collect();
        for payload in &payloads {
            match read(payload) {
                Ok(row) => {
                    let again = written(&row).unwrap();
                    assert!(again.len() <= payload.len());
                    assert_eq!(read(&again), Ok(row));
                    answers[0] += 1;
                }
                Err(Refusal::Malformed) => answers[1] += 1,
                Err(Refusal::Trailing) => answers[2] += 1,
                Err(refusal) => panic!("{payload:x?}: {refusal}"),
            }
        }
    }
    assert!(answers.iter().all(|&n| n > 1000), "{answers:?}");
}

#[test]
fn hints_of_rows() {
    let taken = |row: &'static [u64]| hints(row).collect::<Vec<_>>();
    assert_eq!(taken(&[]), []);
    assert_eq!(taken(&[7, 2, 0, 4, 9, 0, 1, 1, 8]), [(7, &[0, 4][..]), (9, &[]), (1, &[8])]);
    // Rows that end within a hint.
    for row in [&[9, 0, 7][..], &[9, 0, 7, 2], &[9, 0, 7, 2, 0], &[9, 0, 7, u64::MAX, 0, 4]] {
        let mut hints = hints(row);
        assert_eq!(hints.next(), Some((9, &[][..])));
        assert_eq!((hints.next(), hints.next()), (None, None));
    }
}

#[test]
fn refused_calls_leave_counts() {
    let (mut count, mut slots, mut out) = (77, [FILL; 4], [BYTE; 40]);
    // SAFETY: slices of this function, none lent twice.
    unsafe {
        let (s, o) = (slots.as_mut_ptr(), out.as_mut_ptr());
        assert_eq!(raw::hauklivo_read_hints([7, 2, 0, 4].as_ptr(), 4, s, 3, &mut count), 2);
        assert_eq!(raw::hauklivo_read_hints([7, 2, 0].as_ptr(), 3, s, 4, &mut count), 13);
        assert_eq!(raw::hauklivo_read_hints([0, 7].as_ptr(), 2, s, 4, &mut count), 14);
        assert_eq!(raw::hauklivo_write_hints([7, 2, 0].as_ptr(), 3, o, 40, &mut count), 1);
        assert_eq!(raw::hauklivo_write_hints([7, 2, 0, 4].as_ptr(), 4, o, 39, &mut count), 2);
        assert_eq!((count, slots, out), (77, [FILL; 4], [BYTE; 40]));
        assert_eq!((raw::hauklivo_read_hints([7, 2, 0, 4].as_ptr(), 4, s, 4, &mut count), count), (0, 4));
        assert_eq!((raw::hauklivo_write_hints([9, 0].as_ptr(), 2, o, 40, &mut count), count), (0, 2));
    }
    assert_eq!((slots, &out[..3]), ([7, 2, 0, 4], &[9, 0, BYTE][..]));
}
