//! The example with other hints than its own: what is listed of each, and in which order.

use relink::hauklivo::{RuleRecord, SPELLING, Tally, rule, write_hints};
use relink::{Linked, Object, Options, Outcome, PORT, Rewrite, link, listing};

const EXAMPLE: &[u8] = include_bytes!("../example/thermo.o");

const LC_LINKER_OPTIMIZATION_HINT: u32 = 0x2e;

fn number(bytes: &[u8], at: usize) -> usize {
    u32::from_le_bytes(bytes[at..at + 4].try_into().unwrap()) as usize
}

/// The example with these hints, each a kind and addresses, over its own.
fn example(hints: &[(u64, &[u64])]) -> Vec<u8> {
    let row: Vec<u64> = hints.iter().flat_map(|(kind, at)| [&[*kind, at.len() as u64], *at].concat()).collect();
    let mut payload = vec![0; SPELLING * row.len()];
    let written = write_hints(&row, &mut payload).unwrap();
    let mut bytes = EXAMPLE.to_vec();
    let mut command = 32;
    while number(&bytes, command) != LC_LINKER_OPTIMIZATION_HINT as usize {
        command += number(&bytes, command + 4);
    }
    let (from, size) = (number(&bytes, command + 8), number(&bytes, command + 12));
    assert!(written <= size);
    bytes[from..from + size].fill(0);
    bytes[from..from + written].copy_from_slice(&payload[..written]);
    bytes
}

/// The example, linked with these hints, and what is listed of them.
fn linked(hints: &[(u64, &[u64])]) -> (Linked, String) {
    let bytes = example(hints);
    let object = Object::parse(&bytes).unwrap();
    let linked = link(&object, &Options::default(), &PORT).unwrap();
    let text = listing(&object, &linked);
    let from = text.find("Hints, in the order of work\n").unwrap();
    (linked, text[from..].into())
}

/// Hints that share a word, one that has too many words, one of no kind, one whose words are in two sections and one whose
/// words are in none.
const ODD: [(u64, &[u64]); 7] = [
    (1, &[0x40, 0x48, 0x4c]),
    (7, &[0x14, 0x200]),
    (1, &[0x30, 0x40]),
    (300, &[0x40, 0x44]),
    (2, &[0x40, 0x44]),
    (1, &[0x40, 0x30]),
    (2, &[0x9999, 0x9999]),
];

#[test]
fn listed() {
    let (_, text) = linked(&ODD);
    assert_eq!(
        text,
        "\
Hints, in the order of work
  Each word is shown before all hints and after all, marked where another hint alone changed it.
  A word that is written may be the same.
    3  kind 300, skipped: no such kind, or another count of words
    4  ADRP_LDR, rewritten: literal load, 2 words written
         100004040  90000028 adrp x8, 0x100008000  d503201f nop
         100004044  b9400508 ldr w8, [x8, #0x4]    1801fe08 ldr w8, 0x100008004
    0  ADRP_ADRP, skipped: no such kind, or another count of words
    2  ADRP_ADRP, declined
         100004030  90000028 adrp x8, 0x100008000  the same
         100004040  90000028 adrp x8, 0x100008000  d503201f nop, by another hint
    5  ADRP_ADRP, declined
         100004040  90000028 adrp x8, 0x100008000  d503201f nop, by another hint
         100004030  90000028 adrp x8, 0x100008000  the same
    1  ADRP_ADD, not run: its words are not in one section of the image
    6  ADRP_LDR, not run: its words are not in one section of the image

Hints by rule and kind
  rule          ADRP_ADRP  ADRP_LDR  ADRP_ADD  other
  literal load  -          1         -         -
  skipped       1          -         -         1
  declined      2          -         -         -
  not run       -          1         1         -

Tally: 1 rewritten, 2 skipped, 2 declined, 0 turned down by 9; 2 not run.
"
    );
}

/// What the run says of each hint, by its position among those that are run.
#[test]
fn records() {
    let (linked, _) = linked(&ODD);
    let run = &linked.hints;
    let record = |position, rule, changed| RuleRecord { position, rule, changed, ..RuleRecord::default() };
    let (skipped, declined) = (rule::SKIPPED, rule::DECLINED);
    let due = [(2, skipped, 0), (3, rule::LITERAL, 2), (0, skipped, 0), (1, declined, 0), (4, declined, 0)];
    assert_eq!(run.records, due.map(|(position, rule, changed)| record(position, rule, changed)));
    assert_eq!(run.tally, Tally { rewritten: 1, skipped: 2, declined: 2, turned_down: 0 });
    let hints: Vec<_> = run.hints.iter().map(|hint| (hint.number, hint.outcome, hint.changed)).collect();
    use Outcome::*;
    assert_eq!(
        hints,
        [
            (3, Skipped, 0),
            (4, Rewritten(Rewrite::Literal), 2),
            (0, Skipped, 0),
            (2, Declined, 0),
            (5, Declined, 0),
            (1, Dropped, 0),
            (6, Dropped, 0)
        ]
    );
}

/// One ADRP under two names: the fold keeps it, and the hint after it drops it.
#[test]
fn kept_and_dropped() {
    let (_, text) = linked(&[(1, &[0x58, 0x68]), (5, &[0x68, 0x6c, 0x70])]);
    assert!(text.contains(
        "
    1  ADRP_ADD_STR, rewritten: ADD folded into the access, 2 words written
         100004068  90000028 adrp x8, 0x100008000  d503201f nop, by another hint
         10000406c  91004108 add x8, x8, #0x10     d503201f nop
         100004070  b9000100 str w0, [x8]          b9001100 str w0, [x8, #0x10]
    0  ADRP_ADRP, rewritten: second ADRP dropped, 1 word written
         100004058  90000028 adrp x8, 0x100008000  the same
         100004068  90000028 adrp x8, 0x100008000  d503201f nop

Hints by rule and kind
  rule                        ADRP_ADRP  ADRP_ADD_STR
  second ADRP dropped         1          -
  ADD folded into the access  -          1
"
    ));
}

/// Without hints nothing is counted.
#[test]
fn none() {
    let bytes = example(&[]);
    let object = Object::parse(&bytes).unwrap();
    let text = listing(&object, &link(&object, &Options::default(), &PORT).unwrap());
    assert!(text.ends_with("\nNo hints.\n"));
}
