//! The hint run: one case, and what the Rust makes of it.

use std::collections::{BTreeMap, BTreeSet};

use hauklivo::{HintInsn, HintRecord, Record, Reloc};

use crate::answers::{HINTS, record};
use crate::class::is_unallocated;
use crate::hint_calls::hold;
use crate::hint_listed;
use crate::hint_register31::{declined, record_number_31, stayed};
use crate::hint_unallocated::{neighbour, unallocated};
use crate::hint_ways::{Named, has_number_31, in_reach, rust_way, way, words_of};
use crate::lent::hex;
use crate::rows::{HINT_NUMBERS, HintList, Rows};
use crate::table::Table;
use crate::{Acted, Difference, World, Written};

/// How many words a hint of a kind has, 0 for a kind that there is not.
pub fn word_count(kind: u8) -> usize {
    [0, 2, 2, 3, 3, 3, 3, 2, 2].get(kind as usize).copied().unwrap_or(0)
}

/// Whether a hint is skipped: there is no such kind, or its word count is not the kind's.
pub fn is_skipped(hint: &HintRecord) -> bool {
    let n = word_count(hint.kind);
    n == 0 || n != hint.words as usize
}

/// The places of a hint that are looked at.
pub fn looked_at(hint: &HintRecord) -> &[HintInsn] {
    if is_skipped(hint) { &[] } else { &hint.places[..hint.words as usize] }
}

/// Whether a word of a hint ends past its part.
pub fn ends_past(hint: &HintRecord) -> bool {
    looked_at(hint).iter().any(|p| u64::from(p.offset) + 4 > u64::from(hint.length))
}

#[derive(Clone)]
pub struct Case {
    pub image: Vec<u8>,
    pub hints: Vec<u8>,
    pub entries: Vec<u8>,
}

/// Outcomes of a hint.
pub const REWRITTEN: usize = 0;
pub const SKIPPED: usize = 1;
pub const DECLINED: usize = 2;
pub const TURNED_DOWN: usize = 3;

/// What a run leaves: the number, the image's bytes, the tally, how each hint of the list ended and what was done with it.
#[derive(Clone, PartialEq)]
pub struct Answer {
    pub number: u8,
    pub image: Vec<u8>,
    pub tally: [u32; 4],
    pub outcomes: Vec<usize>,
    pub acted: Vec<Acted>,
    /// The words, at its turn, of each hint of which a row of docs/DIFFERENCES.md says how it ends; empty where of none.
    pub by_row: Vec<Option<Vec<u32>>>,
    /// Whether the Rust's own walk came to the same as its rules hint by hint.
    pub by_own_walk: bool,
}

impl Answer {
    /// Whether a row of docs/DIFFERENCES.md says of some hint how it ends.
    pub fn is_by_row(&self) -> bool {
        self.by_row.iter().any(Option::is_some)
    }

    /// The words, at its turn, of a hint of the list that ends so because a row of docs/DIFFERENCES.md says it.
    pub fn ended_by_row(&self, i: usize, outcome: usize) -> Option<&[u32]> {
        self.by_row.get(i)?.as_deref().filter(|_| self.outcomes[i] == outcome)
    }
}

/// The tally before a call.
pub const TALLY: [u32; 4] = [0x5eed_0001, 0x5eed_0002, 0x5eed_0003, 0x5eed_0004];

impl Case {
    pub fn new(image: Vec<u8>, hints: &[HintRecord], entries: &[Reloc]) -> Self {
        Self { image, hints: HintRecord::bytes(hints).to_vec(), entries: Reloc::bytes(entries).to_vec() }
    }

    /// The hints of a whole list.
    pub fn list(&self) -> Vec<HintRecord> {
        HintRecord::list(&self.hints).expect("whole hints")
    }

    pub fn set_list(&mut self, list: &[HintRecord]) {
        self.hints = HintRecord::bytes(list).to_vec();
    }

    pub fn refused(&self, number: u8) -> Answer {
        let (image, outcomes, acted, by_row) = (self.image.clone(), Vec::new(), Vec::new(), Vec::new());
        Answer { number, image, tally: TALLY, outcomes, acted, by_row, by_own_walk: false }
    }

    pub fn show(&self) -> String {
        let Self { image, hints, entries } = self;
        let hints: String = hints.chunks(HintRecord::SIZE).map(|h| format!("\n    hint {}", hex(h))).collect();
        format!("apply_hints: image {}{hints}\n    entries {}", hex(image), hex(entries))
    }
}

/// Number 1, of the lengths of lists.
pub fn of_lengths(hints: usize, entries: usize) -> Option<u8> {
    let most = u32::MAX as usize;
    let is_list = |len: usize, size: usize| len.is_multiple_of(size) && len / size <= most;
    (!is_list(hints, HintRecord::SIZE) || !is_list(entries, Reloc::SIZE)).then_some(1)
}

/// The Rust's answer. It finds a refusal only at a hint's turn: the first one by list position is found by
/// asking for each hint by itself.
pub fn rust(case: &Case, world: &World) -> Result<Answer, Difference> {
    let run = |hints: &[u8]| {
        let mut image = case.image.clone();
        let done = (world.oracle.apply_hints)(&mut image, hints, &case.entries);
        done.map(|run| {
            let answer = Answer {
                number: 0,
                image,
                tally: run.tally,
                outcomes: run.outcomes,
                acted: run.acted,
                by_row: Vec::new(),
                by_own_walk: false,
            };
            (answer, run.words)
        })
    };
    let stop = match run(&case.hints) {
        Ok((answer, words)) => return linked(case, answer, &words, world),
        Err(stop) => stop,
    };
    let alone = case.hints.chunks(HintRecord::SIZE).find_map(|h| run(h).err());
    let stop = alone.unwrap_or(stop);
    match stop.number {
        Some(number) => Ok(case.refused(number)),
        None => Err(Difference {
            input: case.show(),
            port: "not asked".into(),
            expected: format!("a stop with a number; the Rust: {}", stop.text),
        }),
    }
}

/// The answer, if the Rust's own walk over objects and hints writes the same words in the same order and comes to the same
/// image, where it can say the case and no hint is turned down by 9, which ends it.
fn linked(case: &Case, answer: Answer, words: &[Written], world: &World) -> Result<Answer, Difference> {
    let mut image = case.image.clone();
    let done = (world.oracle.apply_hints_linked)(&mut image, &case.hints, &case.entries);
    let Some(done) = done.filter(|_| answer.tally[TURNED_DOWN] == 0) else { return Ok(answer) };
    if done.as_ref().is_ok_and(|own| own == words) && image == answer.image {
        return Ok(Answer { by_own_walk: true, ..answer });
    }
    let shown = |image: &[u8], words: &[Written]| format!("image {}, words {words:x?}", hex(image));
    let ended = done.map_or_else(|stop| stop.text, |own| shown(&image, &own));
    let expected = format!("{}, hint by hint", shown(&answer.image, words));
    Err(Difference { input: case.show(), port: format!("not asked; the Rust's own walk: {ended}"), expected })
}

/// What is expected of a plain run.
pub fn expected(case: &Case, world: &World) -> Result<Answer, Difference> {
    match of_lengths(case.hints.len(), case.entries.len()) {
        Some(number) => Ok(case.refused(number)),
        None => world.differences.hints(case, world),
    }
}

/// Holds the port to the expected answer on a case, plain and listed.
pub fn check(case: &Case, world: &World, table: &mut Table) -> Result<Answer, Difference> {
    let due = expected(case, world)?;
    hold(case, None, &due, &[])?;
    record_answer(case, &due, table);
    table.note(|| record(HINTS, due.number, &lengths(case), &[&noted(case, &due)]));
    hint_listed::check(case, &due, table)?;
    Ok(due)
}

/// The bytes of the image, of hints and of entries.
pub fn lengths(case: &Case) -> [usize; 3] {
    [&case.image, &case.hints, &case.entries].map(Vec::len)
}

/// The body of an answer in a list of answers.
pub fn noted(case: &Case, answer: &Answer) -> Vec<u8> {
    let tally = if answer.number == 0 { answer.tally } else { [0; 4] };
    let tally = tally.map(u32::to_le_bytes).concat();
    [&tally, &case.image, &case.hints, &case.entries, &answer.image].map(Vec::as_slice).concat()
}

fn record_answer(case: &Case, answer: &Answer, table: &mut Table) {
    let row = HINT_NUMBERS.iter().position(|&n| n == answer.number);
    table.hit(Rows::HintNumber as usize, row.expect("a number of the hint run"));
    if answer.number != 0 {
        return;
    }
    let list = case.list();
    for (hint, &outcome) in list.iter().zip(&answer.outcomes) {
        table.hit_cell(Rows::HintKind as usize, hint.kind.min(9) as usize, outcome);
    }
    let mut hit = |row: HintList| table.hit(Rows::HintList as usize, row as usize);
    if list.is_empty() {
        hit(HintList::Empty);
    }
    if answer.by_own_walk {
        hit(HintList::OwnWalk);
    }
    record_order(&list, &mut hit);
    record_sharing(&list, &mut hit);
    record_folds(&list, answer, &mut hit);
    record_unallocated(case, &list, answer, &mut hit);
    record_number_31(case, &list, answer, &mut hit);
    if let [hint] = list[..]
        && !is_skipped(&hint)
    {
        record_single(case, &hint, answer, table);
    }
}

/// How a hint that stands alone ends.
fn record_single(case: &Case, hint: &HintRecord, answer: &Answer, table: &mut Table) {
    let words = named(&case.image, &case.entries, hint);
    let (way, rust) = (way(hint.kind, &words), rust_way(hint.kind, &words));
    let is_by_row = way.is_fold_near() || rust.outcome() != way.outcome();
    let is_due = way.outcome() == answer.outcomes[0] && is_by_row == answer.is_by_row();
    assert!(is_due, "the table's row {way:?} of {}", case.show());
    table.hit_cell(Rows::HintWay as usize, way as usize, hint.kind as usize - 1);
    if let Some((row, column)) = in_reach(hint.kind, &words, way) {
        table.hit_cell(Rows::HintInReach as usize, row, column);
    }
    for (place, n) in words.iter().enumerate() {
        if let Some((row, column)) = unallocated(hint.kind, place, n.word, rust) {
            table.hit_cell(Rows::HintUnallocated as usize, row, column);
        }
        if let Some((row, column)) = neighbour(hint.kind, place, n.word, way) {
            table.hit_cell(Rows::HintNeighbour as usize, row, column);
        }
    }
    let words = words_of(&words);
    if let Some((row, column)) = declined(hint.kind, &words, rust) {
        table.hit_cell(Rows::HintBy31 as usize, row, column);
    }
    for (row, column) in stayed(hint.kind, &words, way.outcome()) {
        table.hit_cell(Rows::HintNotBy31 as usize, row, column);
    }
}

/// The words of a hint as they stand in an image.
pub fn named(image: &[u8], entries: &[u8], hint: &HintRecord) -> Vec<Named> {
    let one = |p: &HintInsn| {
        let at = hint.start as usize + p.offset as usize;
        let word = u32::from_le_bytes(image[at..at + 4].try_into().expect("4 bytes"));
        let entry = (p.entry != HintInsn::WITHOUT_ENTRY).then(|| {
            let at = 24 * p.entry as usize;
            Reloc::from_bytes(&entries[at..at + 24]).expect("an entry")
        });
        Named { word, address: p.address, entry }
    };
    looked_at(hint).iter().map(one).collect()
}

/// Several objects, and the order of their hints.
fn record_order(list: &[HintRecord], hit: &mut impl FnMut(HintList)) {
    let objects: BTreeSet<_> = list.iter().map(|h| h.object).collect();
    if objects.len() > 1 {
        hit(HintList::Objects);
    }
    if list.windows(2).any(|w| w[0].object > w[1].object) {
        hit(HintList::Falling);
    }
    let mut runs: Vec<_> = list.iter().map(|h| h.object).collect();
    runs.dedup();
    if runs.len() > objects.len() {
        hit(HintList::Mixed);
    }
    let comes_early = |(i, h): (usize, &HintRecord)| {
        h.kind == 1 && list[i + 1..].iter().any(|later| later.object == h.object && (2..9).contains(&later.kind))
    };
    if list.iter().enumerate().any(comes_early) {
        hit(HintList::AdrpAdrpFirst);
    }
}

/// Words that are named twice, and words that overlap, of one hint and of several.
fn record_sharing(list: &[HintRecord], hit: &mut impl FnMut(HintList)) {
    let mut before: BTreeMap<u64, usize> = BTreeMap::new();
    for (i, hint) in list.iter().enumerate() {
        for at in starts(hint) {
            for (&other, &of) in before.range(at.saturating_sub(3)..at + 4) {
                hit(match (other == at, of == i) {
                    (true, true) => HintList::SameWord,
                    (false, true) => HintList::Overlap,
                    (true, false) => HintList::SharedWord,
                    (false, false) => HintList::SharedBytes,
                });
            }
            before.insert(at, i);
        }
    }
}

/// Where the words that a hint looks at stand in the image.
pub fn starts(hint: &HintRecord) -> Vec<u64> {
    looked_at(hint).iter().map(|p| u64::from(hint.start) + u64::from(p.offset)).collect()
}

fn distances(some: &[u64], others: &[u64]) -> impl Iterator<Item = u64> {
    some.iter().flat_map(|a| others.iter().map(|b| a.abs_diff(*b)))
}

/// Folds that a row of docs/DIFFERENCES.md has in place of the Rust's ADR, and hints that share words with them.
fn record_folds(list: &[HintRecord], answer: &Answer, hit: &mut impl FnMut(HintList)) {
    let is_fold = |i: usize| answer.ended_by_row(i, REWRITTEN).is_some();
    let folds: Vec<_> = (0..list.len()).filter(|&i| is_fold(i)).collect();
    if !folds.is_empty() && answer.tally[TURNED_DOWN] > 0 {
        hit(HintList::FoldAndNine);
    }
    for i in folds {
        let own = starts(&list[i]);
        if distances(&own, &own).any(|d| (1..4).contains(&d)) {
            hit(HintList::FoldOverlap);
        }
        for j in (0..list.len()).filter(|&j| j != i) {
            let others = starts(&list[j]);
            if distances(&own, &others).any(|d| d == 0) {
                hit(HintList::FoldSharedWord);
            }
            if distances(&own, &others).any(|d| (1..4).contains(&d)) {
                hit(HintList::FoldSharedBytes);
            }
            let is_later = list[j].kind == 1 && list[j].object >= list[i].object;
            match answer.outcomes[j] {
                _ if !others.contains(&own[0]) => {}
                REWRITTEN if is_later => hit(HintList::FoldThenDropped),
                DECLINED if is_later => hit(HintList::FoldThenDeclined),
                _ if is_fold(j) && others[0] == own[0] => hit(HintList::FoldsOfOneAdrp),
                _ => {}
            }
        }
    }
}

/// Hints that decline by a row of docs/DIFFERENCES.md, since a word is unallocated at their turn, and not for number 31;
/// and what other hints make of the words.
fn record_unallocated(case: &Case, list: &[HintRecord], answer: &Answer, hit: &mut impl FnMut(HintList)) {
    for (i, hint) in list.iter().enumerate() {
        let lent = named(&case.image, &case.entries, hint);
        if answer.outcomes[i] == REWRITTEN && lent.iter().any(|n| is_unallocated(n.word)) {
            hit(HintList::UnallocatedNoMore);
        }
        let words = answer.ended_by_row(i, DECLINED);
        let Some(words) = words.filter(|words| !has_number_31(hint.kind, words)) else { continue };
        for (lent, word) in lent.iter().zip(words) {
            match word >> 22 {
                class if class == lent.word >> 22 => {}
                0x1f6 => hit(HintList::Made1f6),
                0x1f7 => hit(HintList::Made1f7),
                0x2f6 => hit(HintList::Made2f6),
                _ => {}
            }
        }
        if answer.tally[TURNED_DOWN] > 0 {
            hit(HintList::UnallocatedAndNine);
        }
        let adrp = starts(hint)[0];
        for j in (0..list.len()).filter(|&j| j != i && starts(&list[j]).contains(&adrp)) {
            if answer.outcomes[j] == REWRITTEN {
                hit(HintList::UnallocatedSharedAdrp);
            }
        }
    }
}
