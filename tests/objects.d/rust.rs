//! The calls of the unchanged Rust, and its hint run with the rows of docs/DIFFERENCES.md. It has no authenticated
//! pointers: those of a list are left out for it, and put in by authenticated.rs.

use std::fs;
use std::sync::LazyLock;

use driver::Expected;
use oracle::Stop;
use relink::Calls;
use relink::hauklivo::{
    HintInsn, HintRecord, MachRel, Record, Refusal, Reloc, Report, Resolved, RuleRecord, Tally, flag, kind, rule, ty,
};
use relink::words::word_at;

use crate::authenticated;
use crate::binding::ORACLE;

pub const RUST: Calls = Calls {
    read_relocs,
    read_relocs_x86_64,
    apply_reloc_alloc,
    write_stub: |bytes, address, pointer| {
        let (stub, reaches) = oracle::stub(address, pointer);
        bytes[..12].copy_from_slice(&stub);
        Ok(reaches)
    },
    write_thunk: |bytes, address, target| {
        bytes[..12].copy_from_slice(&oracle::thunk(address, target));
        Ok(())
    },
    apply_hints_listed,
};

/// The refusal that a stop of the Rust stands for.
fn refusal(stop: &Stop, number: Option<u8>) -> Refusal {
    let refusal = number.and_then(|number| Refusal::try_from(number).ok());
    refusal.unwrap_or_else(|| panic!("a stop without a number: {stop:?}"))
}

/// Puts records into the first slots; how many.
fn fill<R: Record>(slots: &mut [R], bytes: &[u8]) -> usize {
    let list = R::list(bytes).expect("whole records");
    slots[..list.len()].copy_from_slice(&list);
    list.len()
}

fn read_relocs(contents: &[u8], records: &[MachRel], sections: &[u64], slots: &mut [Reloc]) -> Result<usize, Refusal> {
    let is_authenticated = |record: &&MachRel| record.ty() == ty::AUTHENTICATED_POINTER;
    let others: Vec<_> = records.iter().filter(|record| !is_authenticated(record)).copied().collect();
    let read = match oracle::read_relocs(contents, MachRel::bytes(&others), sections) {
        Ok(entries) => Reloc::list(&entries).expect("whole records"),
        Err(stop) => return Err(refusal(&stop, stop.reader_number())),
    };
    let mut read = read.into_iter();
    let mut count = 0;
    for (i, record) in records.iter().enumerate().filter(|(_, record)| record.ty() != ty::ADDEND) {
        slots[count] = match is_authenticated(&record) {
            true => authenticated_entry(contents, records, i)?,
            false => read.next().expect("an entry for each record that is no ADDEND"),
        };
        count += 1;
    }
    Ok(count)
}

/// The entry of an AUTHENTICATED_POINTER record, before which a compiler has neither ADDEND nor SUBTRACTOR.
fn authenticated_entry(contents: &[u8], records: &[MachRel], number: usize) -> Result<Reloc, Refusal> {
    let is_led = number > 0 && matches!(records[number - 1].ty(), ty::ADDEND | ty::SUBTRACTOR);
    let record = records[number];
    assert!(!is_led && record.bits >> 24 == 0xbe, "no compiler's record");
    let plain = Reloc { offset: record.offset, ty: record.ty(), size: 8, target: record.idx(), ..Reloc::default() };
    authenticated::entry(plain, contents)
}

fn read_relocs_x86_64(
    contents: &[u8],
    records: &[MachRel],
    sections: &[u64],
    address: u64,
    slots: &mut [Reloc],
) -> Result<usize, Refusal> {
    match oracle::read_relocs_x86_64(contents, MachRel::bytes(records), sections, address) {
        Ok(entries) => Ok(fill(slots, &entries)),
        Err(stop) => Err(refusal(&stop, stop.reader_x86_64_number())),
    }
}

fn apply_reloc_alloc(
    section: &mut [u8],
    base: u64,
    tls_begin: u64,
    image_base: u64,
    entries: &[Reloc],
    targets: &[Resolved],
    slots: &mut [Report],
) -> Result<usize, Refusal> {
    let (mut plain, mut known) = (entries.to_vec(), targets.to_vec());
    let mut words = Vec::new();
    for (entry, target) in plain.iter_mut().zip(&mut known).filter(|(e, _)| e.ty == ty::AUTHENTICATED_POINTER) {
        let word = authenticated::word(entry, target, image_base)?;
        words.extend(word.map(|word| (entry.offset as usize, word.to_le_bytes())));
        // in its place a pointer that the Rust leaves for dyld, so that the entries keep their numbers
        (entry.ty, target.flags) = (ty::UNSIGNED, target.flags | flag::IMPORTED);
    }
    let (plain, known) = (Reloc::bytes(&plain), Resolved::bytes(&known));
    match oracle::apply_reloc_alloc(section, base, tls_begin, plain, known) {
        Ok(fixed) => {
            words.iter().for_each(|(at, word)| section[*at..at + 8].copy_from_slice(word));
            Ok(fill(slots, &fixed.reports))
        }
        Err(stop) => Err(refusal(&stop, stop.fixup_number())),
    }
}

static EXPECTED: LazyLock<Expected> = LazyLock::new(|| {
    let document = fs::read_to_string("docs/DIFFERENCES.md").expect("the page of differences");
    Expected::new(&ORACLE, &document).expect("the table of differences")
});

/// The Rust's run, but for the rows of docs/DIFFERENCES.md. Its own walk over the hints must come to what its rules come to
/// hint by hint.
pub fn apply_hints(image: &mut [u8], hints: &[HintRecord], entries: &[Reloc]) -> Result<Tally, Refusal> {
    let run = EXPECTED.apply_hints(image, HintRecord::bytes(hints), Reloc::bytes(entries));
    let run = run.unwrap_or_else(|words| panic!("the hints of an object: {words}"));
    assert_eq!(run.number, 0, "the hints of an object are refused");
    assert!(run.by_own_walk, "the Rust's own walk cannot say the hints of an object");
    let [rewritten, skipped, declined, turned_down] = run.tally;
    Ok(Tally { rewritten, skipped, declined, turned_down })
}

/// The same run, with what the hints do one by one in the order of work: together that must be what the run does.
fn apply_hints_listed(
    image: &mut [u8],
    hints: &[HintRecord],
    entries: &[Reloc],
    records: &mut [RuleRecord],
) -> Result<Tally, Refusal> {
    let mut whole = image.to_vec();
    let tally = apply_hints(&mut whole, hints, entries)?;
    let mut order: Vec<_> = (0..hints.len()).collect();
    order.sort_by_key(|&i| (hints[i].object, hints[i].kind == kind::ADRP_ADRP));
    for (record, i) in records.iter_mut().zip(order) {
        let hint = hints[i];
        let before = words(image, &hint);
        let alone = apply_hints(image, &[hint], entries)?;
        let (rule, changed) = rule_of(hint.kind, alone, &before, &words(image, &hint));
        *record = RuleRecord { position: i as u32, object: hint.object, rule, changed, zero: [0; 6] };
    }
    assert!(image == whole, "the hints one by one do other than the hints together");
    Ok(tally)
}

/// The words of a hint.
fn words(image: &[u8], hint: &HintRecord) -> Vec<u32> {
    let places = hint.places.iter().take(hint.words.into());
    let word = |p: &HintInsn| word_at(image, hint.start as usize + p.offset as usize).expect("a word of the image");
    places.filter(|_| hint.length > 0).map(word).collect()
}

/// Which rule left these words of a hint alone, and how many it wrote.
fn rule_of(kind: u8, tally: Tally, before: &[u32], after: &[u32]) -> (u8, u8) {
    const NOP: u32 = 0xd503_201f;
    match (tally, kind) {
        (Tally { skipped: 1, .. }, _) => (rule::SKIPPED, 0),
        (Tally { declined: 1, .. }, _) => (rule::DECLINED, 0),
        (Tally { turned_down: 1, .. }, _) => (rule::TURNED_DOWN, 0),
        (_, kind::ADRP_ADRP) => (rule::SECOND_ADRP, 1),
        _ if after[0] == before[0] => (rule::FOLD, 2),
        (_, kind::ADRP_ADD_LDR | kind::ADRP_ADD_STR) if after[0] != NOP => (rule::ADR, 3),
        _ if after[0] != NOP => (rule::ADR, 2),
        (_, kind::ADRP_LDR) => (rule::LITERAL, 2),
        _ if after[1] == NOP => (rule::LITERAL, 3),
        _ => (rule::GOT_SLOT, 2),
    }
}
