//! Rows of docs/DIFFERENCES.md about one hint at its turn, and the run of a list, hint by hint, in which they hold.

use hauklivo::{HintRecord, Record, rule};

use crate::class::is_unallocated;
use crate::differences::{Met, Of};
use crate::hint_shape::{LDR_X, LDRSW, NOP};
use crate::hint_ways::{
    Named, Way, access, as_taken, base, destination, goes_by_31, has_literal_form, immediate, is_add, is_add_to_31,
    is_adrp, is_near, page_of, rust_way, unpaired, words_of,
};
use crate::hints::{Answer, Case, DECLINED, REWRITTEN, SKIPPED, TURNED_DOWN, is_skipped, looked_at, named};
use crate::lent::hex;
use crate::{Acted, Difference, Stop, World};

/// The new word of each place that gets one.
type Words = [Option<u32>; 3];

/// What becomes of a hint: the rule that acts on it, and its words.
#[derive(Clone, Copy)]
struct Step {
    rule: u8,
    words: Words,
}

impl Step {
    /// One that leaves its words.
    fn left(rule: u8) -> Self {
        Self { rule, words: [None; 3] }
    }

    fn end(self, image: &[u8], hint: &HintRecord) -> End {
        let outcome = match self.rule {
            rule::SKIPPED => SKIPPED,
            rule::DECLINED => DECLINED,
            rule::TURNED_DOWN => TURNED_DOWN,
            _ => REWRITTEN,
        };
        let acted = Acted { rule: self.rule, changed: self.words.iter().flatten().count() as u8 };
        End { outcome, acted, image: worked(image, hint, self.words) }
    }
}

/// How a hint ends, and the image after it.
#[derive(PartialEq)]
struct End {
    outcome: usize,
    acted: Acted,
    image: Vec<u8>,
}

/// By name, of a hint's kind and its words as they stand at its turn. The rows of number 31 stand before those of folds and
/// of unallocated words, which hold of some of the same hints.
const PREDICATES: &[(&str, fn(u8, &[Named]) -> bool)] = &[
    ("adrp_to_31", adrp_to_31),
    ("add_to_31", add_to_31),
    ("got_load_into_31", got_load_into_31),
    ("add_ldr_folds_near_adrp", |kind, n| kind == 3 && folds_near_adrp(n) && !is_literal(n)),
    ("add_str_folds_near_adrp", |kind, n| kind == 5 && folds_near_adrp(n) && is_store(n)),
    ("unallocated_in_hint", unallocated_in_hint),
];

/// By name, of the same words: what is expected.
const EXPECTED: &[(&str, fn(&[Named]) -> Step)] =
    &[("as_fold", |n| Step { rule: rule::FOLD, words: as_fold(n) }), ("as_declined", |_| Step::left(rule::DECLINED))];

/// Whether an ADRP makes number 31, the next word goes by it, and the Rust does not decline. So of no ADRP_ADRP, which
/// declines unless that word is an ADRP.
fn adrp_to_31(kind: u8, n: &[Named]) -> bool {
    let is_made = is_adrp(n[0].word) && destination(n[0].word) == 31;
    is_made && goes_by_31(n[1].word) && is_worked(kind, n)
}

/// Whether the second word is an ADD to number 31, and the Rust does not decline.
fn add_to_31(kind: u8, n: &[Named]) -> bool {
    is_add_to_31(n[1].word) && is_worked(kind, n)
}

/// Whether the second word loads a GOT slot into number 31, the third goes by it, and the Rust does not decline.
fn got_load_into_31(kind: u8, n: &[Named]) -> bool {
    let is_made = n[1].word >> 22 == LDR_X && destination(n[1].word) == 31;
    is_made && n.get(2).is_some_and(|n| goes_by_31(n.word)) && is_worked(kind, n)
}

/// Whether a word is unallocated and the Rust does not decline.
fn unallocated_in_hint(kind: u8, n: &[Named]) -> bool {
    n.iter().any(|n| is_unallocated(n.word)) && is_worked(kind, n)
}

/// Whether the Rust does not decline.
fn is_worked(kind: u8, n: &[Named]) -> bool {
    rust_way(kind, n).outcome() != DECLINED
}

/// What the Rust's rule makes of a hint.
fn by_rust(hint: &HintRecord, n: &[Named]) -> Step {
    use Way::*;
    if is_skipped(hint) {
        return Step::left(rule::SKIPPED);
    }
    let (rule, words) = match rust_way(hint.kind, n) {
        SecondAdrp => (rule::SECOND_ADRP, [None, Some(NOP), None]),
        Literal => (rule::LITERAL, as_literal(n)),
        SlotLiteral => (rule::GOT_SLOT, as_slot_literal(n)),
        Fold | FoldStore => (rule::FOLD, as_fold(n)),
        Adr | AdrSmall | AdrStore | AdrUnaligned | AdrLoadFar | FoldNear | FoldNearStore => {
            (rule::ADR, as_adr(hint.kind, n))
        }
        FirstSum | SecondSum => return Step::left(rule::TURNED_DOWN),
        _ => return Step::left(rule::DECLINED),
    };
    Step { rule, words }
}

/// The address that ADRP and, if it is the second word, ADD make.
fn address(n: &[Named]) -> u64 {
    page_of(&n[0]) + if is_add(n[1].word) { immediate(n[1].word) } else { 0 }
}

/// The bytes that an access moves, and its offset, as the Rust takes it.
fn size_and_offset(word: u32) -> (u64, u64) {
    let (size, _) = access(as_taken(word)).expect("an access");
    (size, immediate(word) * size)
}

fn is_store(n: &[Named]) -> bool {
    access(n[2].word).is_some_and(|(_, is_store)| is_store)
}

/// Whether a load without an offset of its own becomes a literal load.
fn is_literal(n: &[Named]) -> bool {
    has_literal_form(n[2].word) && is_near(n[2].address, address(n))
}

/// Whether the words are an ADRP, an ADD and an access through it that can take the ADD's immediate in: it has no offset
/// of its own, and the address is a multiple of the bytes moved. And whether ADR could make that address, as well.
fn folds_near_adrp(n: &[Named]) -> bool {
    let [adrp, add, third] = [n[0].word, n[1].word, n[2].word];
    let Some((size, _)) = access(third) else { return false };
    let linked = base(add) == destination(adrp) && base(third) == destination(add);
    unpaired(n, false).is_none()
        && is_adrp(adrp)
        && is_add(add)
        && linked
        && immediate(third) == 0
        && address(n).is_multiple_of(size)
        && is_near(n[0].address, address(n))
}

/// The ADRP is kept, and the access goes through its register with the ADD's immediate and its own offset.
fn as_fold(n: &[Named]) -> Words {
    let (size, offset) = size_and_offset(n[2].word);
    let units = ((immediate(n[1].word) + offset) / size) as u32;
    [None, Some(NOP), Some(n[2].word & 0xffc0_001f | units << 10 | base(n[1].word) << 5)]
}

/// An ADR makes an address in the ADD's register: in kinds 3 and 5 the one that is accessed, and the access has no offset;
/// else that of the ADD.
fn as_adr(kind: u8, n: &[Named]) -> Words {
    let is_accessed = [3, 5].contains(&kind);
    let offset = if is_accessed { size_and_offset(n[2].word).1 } else { 0 };
    let distance = (address(n) + offset).wrapping_sub(n[0].address) as u32;
    let adr = 0x1000_0000 | (distance & 3) << 29 | (distance >> 2 & 0x7_ffff) << 5 | destination(n[1].word);
    [Some(adr), Some(NOP), is_accessed.then(|| n[2].word & !(0xfff << 10))]
}

/// A load as a literal load of a target.
fn literal(load: &Named, target: u64) -> u32 {
    let opcode = match (size_and_offset(load.word).0, load.word >> 26 & 1) {
        (4, 0) if load.word >> 22 == LDRSW => 0x9800_0000,
        (4, 0) => 0x1800_0000,
        (4, _) => 0x1c00_0000,
        (8, 0) => 0x5800_0000,
        (8, _) => 0x5c00_0000,
        _ => 0x9c00_0000,
    };
    let distance = target.wrapping_sub(load.address) as u32;
    opcode | (distance >> 2 & 0x7_ffff) << 5 | destination(load.word)
}

/// The last word is a literal load, the words before it are NOP.
fn as_literal(n: &[Named]) -> Words {
    let last = n.len() - 1;
    let mut words = [None; 3];
    words[..last].fill(Some(NOP));
    words[last] = Some(literal(&n[last], address(n) + size_and_offset(n[last].word).1));
    words
}

/// The load of the GOT slot is literal, and an access through it is kept.
fn as_slot_literal(n: &[Named]) -> Words {
    let slot = page_of(&n[0]) + size_and_offset(n[1].word).1;
    [Some(NOP), Some(literal(&n[1], slot)), None]
}

/// A row about one hint.
pub struct Row {
    pub met: Met,
    holds: fn(u8, &[Named]) -> bool,
    expected: fn(&[Named]) -> Step,
}

impl Row {
    /// The row of these names, None where they are not names of this file.
    pub fn named([name, predicate, expected]: [&str; 3]) -> Option<Self> {
        let holds = PREDICATES.iter().find(|n| n.0 == predicate)?.1;
        let expected = EXPECTED.iter().find(|n| n.0 == expected)?.1;
        Some(Self { met: Met::new(name, Of::Hints), holds, expected })
    }
}

/// The first row that holds of a hint with these words.
fn row_of<'a>(rows: &'a [Row], hint: &HintRecord, words: &[Named]) -> Option<&'a Row> {
    rows.iter().find(|row| !is_skipped(hint) && (row.holds)(hint.kind, words))
}

/// What is expected of a case that the Rust ran to its end: the Rust's answer, or, where a row holds of a hint at its turn,
/// what the hints come to one after another.
pub fn expected(rows: &[Row], case: &Case, rust: Answer, world: &World) -> Result<Answer, Difference> {
    let walked = walk(rows, case, &case.list(), world)?;
    if walked.is_by_row() {
        return Ok(Answer { by_own_walk: rust.by_own_walk, ..walked });
    }
    let same = walked.image == rust.image
        && walked.outcomes == rust.outcomes
        && walked.acted == rust.acted
        && walked.tally == rust.tally;
    same.then_some(rust).ok_or_else(|| Difference {
        input: case.show(),
        port: "not asked".into(),
        expected: "that the Rust's run is its rules hint by hint, in the order of work".into(),
    })
}

/// The positions of hints in the order of work: objects by rising number, in each the hints of kind 1 last.
pub fn order_of_work(list: &[HintRecord]) -> Vec<usize> {
    let mut order: Vec<_> = (0..list.len()).collect();
    order.sort_by_key(|&i| (list[i].object, list[i].kind == 1));
    order
}

/// The hints in the order of work, each by the row that holds of it at its turn or else by the Rust's rule, which must do
/// what `by_rust` says of it.
fn walk(rows: &[Row], case: &Case, list: &[HintRecord], world: &World) -> Result<Answer, Difference> {
    let mut image = case.image.clone();
    let mut acted = vec![Acted { rule: rule::SKIPPED, changed: 0 }; list.len()];
    let (mut tally, mut outcomes, mut by_row) = ([0; 4], vec![0; list.len()], vec![None; list.len()]);
    for i in order_of_work(list) {
        let hint = &list[i];
        let words = named(&image, &case.entries, hint);
        let (done, rust) = (by_rule(&image, case, hint, world)?, by_rust(hint, &words).end(&image, hint));
        if done != rust {
            return Err(other_step(case, i, &done, &rust));
        }
        let mut due = done;
        if let Some(row) = row_of(rows, hint, &words) {
            due = (row.expected)(&words).end(&image, hint);
            row.met.add(due != rust);
            by_row[i] = Some(words_of(&words));
        }
        (outcomes[i], acted[i], image) = (due.outcome, due.acted, due.image);
        tally[outcomes[i]] += 1;
    }
    Ok(Answer { number: 0, image, tally, outcomes, acted, by_row, by_own_walk: false })
}

/// How one hint ends by the Rust's rule.
fn by_rule(image: &[u8], case: &Case, hint: &HintRecord, world: &World) -> Result<End, Difference> {
    let mut image = image.to_vec();
    let done = (world.oracle.apply_hints)(&mut image, HintRecord::bytes(&[*hint]), &case.entries);
    let stopped = |stop: Stop| Difference {
        input: case.show(),
        port: "not asked".into(),
        expected: format!("no stop at a single hint; the Rust: {}", stop.text),
    };
    done.map(|run| End { outcome: run.outcomes[0], acted: run.acted[0], image }).map_err(stopped)
}

/// A hint with which the Rust's rule does not do what `by_rust` says.
fn other_step(case: &Case, i: usize, done: &End, due: &End) -> Difference {
    let shown = |end: &End| {
        let Acted { rule, changed } = end.acted;
        format!("outcome {}, rule {rule}, {changed} places written, image {}", end.outcome, hex(&end.image))
    };
    Difference {
        input: case.show(),
        port: format!("not asked; the Rust at hint {i}: {}", shown(done)),
        expected: format!("that the Rust comes to {}", shown(due)),
    }
}

/// An image with words stored at a hint's places, in their order.
fn worked(image: &[u8], hint: &HintRecord, words: Words) -> Vec<u8> {
    let mut image = image.to_vec();
    for (place, word) in looked_at(hint).iter().zip(words) {
        let at = hint.start as usize + place.offset as usize;
        if let Some(word) = word {
            image[at..at + 4].copy_from_slice(&word.to_le_bytes());
        }
    }
    image
}
