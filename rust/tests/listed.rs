//! The listed hint run: every rule by every kind that has it, the order of work, and each refusal with the lent bytes
//! unchanged after it.

use hauklivo::{
    HintInsn, HintRecord, Record, Refusal, Reloc, RuleRecord, Tally, kind, position_of_refusal, rule, ty, typed,
};

const FILL: u8 = 0xa5;
const NOP: u32 = 0xd503201f;

/// The address of the last page.
const LAST_PAGE: u64 = 0xfffffffffffff000;

/// A hint of an object on words of its own, the first at an address; then the rule, how many words it writes, and the
/// words after it.
struct Row {
    kind: u8,
    object: u32,
    address: u64,
    words: &'static [u32],
    rule: u8,
    changed: u8,
    after: &'static [u32],
}

/// A row whose words are rewritten.
const fn row(
    (kind, object): (u8, u32),
    address: u64,
    words: &'static [u32],
    rule: u8,
    changed: u8,
    after: &'static [u32],
) -> Row {
    Row { kind, object, address, words, rule, changed, after }
}

/// A row whose words stay.
const fn left((kind, object): (u8, u32), address: u64, words: &'static [u32], rule: u8) -> Row {
    Row { kind, object, address, words, rule, changed: 0, after: words }
}

/// Each rewrite of each kind, and what leaves the words. The objects fall; in 900 and 7 a hint of kind 1 is not the last.
const ROWS: [Row; 22] = [
    // adrp x0; adrp x0, of one page
    row((1, 900), 1 << 32, &[0x90000000, 0x90000000], rule::SECOND_ADRP, 1, &[0x90000000, NOP]),
    // adrp x0; ldr x1, [x0, #8]
    row((2, 900), 0x1000, &[0x90000000, 0xf9400401], rule::LITERAL, 2, &[NOP, 0x58000021]),
    // adrp x1; add x1, x1, #0; ldr q5, [x1, #0x7000]
    row((3, 900), 0x33db2ef9865cfeb4, &[0x90000001, 0x91000021, 0x3ddc0025], rule::LITERAL, 3, &[NOP, NOP, 0x9c030a25]),
    // adrp x0; add x1, x0, #16; ldr b2, [x1, #1]
    row((3, 900), LAST_PAGE, &[0xf0fff800, 0x91004001, 0x3d400422], rule::ADR, 3, &[0x30818081, NOP, 0x3d400022]),
    // adrp x1; add x2, x1, #8; ldrb w5, [x2]
    row((3, 70), 1 << 32, &[0x90000241, 0x91002022, 0x39400045], rule::FOLD, 2, &[0x90000241, NOP, 0x39402025]),
    // adrp x0; ldr x2, [x0, #8]; ldrsb w2, [x2]
    row((4, 70), 1 << 32, &[0xd0000180, 0xf9400402, 0x39c00042], rule::GOT_SLOT, 2, &[NOP, 0x58190022, 0x39c00042]),
    // adrp x1; add x1, x1, #4; ldr d0, [x1, #16]
    row((4, 70), 1 << 32, &[0xf00001c1, 0x91001021, 0xfd400820], rule::LITERAL, 3, &[NOP, NOP, 0x5c1d8060]),
    // adrp x1; add x0, x1, #16; ldrsh x1, [x0]
    row((4, 70), LAST_PAGE, &[0xb0fffa01, 0x91004020, 0x79800001], rule::ADR, 2, &[0x10a08080, NOP, 0x79800001]),
    // adrp x0; add x0, x0, #16; ldr q0, [x0, #32]
    row((4, 70), 0x1000, &[0x90008000, 0x91004000, 0x3dc00800], rule::FOLD, 2, &[0x90008000, NOP, 0x3dc00c00]),
    // adrp x1; add x2, x1, #4; str x5, [x2]: the store is written with the offset that it has
    row((5, 7), 1 << 32, &[0x90000241, 0x91001022, 0xf9000045], rule::ADR, 3, &[0x10240022, NOP, 0xf9000045]),
    // adrp xzr; adrp xzr, of one page
    row((1, 7), 0x1000, &[0x9000001f, 0x9000001f], rule::SECOND_ADRP, 1, &[0x9000001f, NOP]),
    // three words, where the kind has two
    left((1, 7), 0x1000, &[0x90000000, 0x90000000, NOP], rule::SKIPPED),
    // adrp x0; add x0, x0, #16; str x1, [x0]
    row((5, 7), 0x1000, &[0x90001000, 0x91004000, 0xf9000001], rule::FOLD, 2, &[0x90001000, NOP, 0xf9000801]),
    // adrp x0; ldr x1, [x0]; str xzr, [x1, #0x7bf8]
    row(
        (6, 7),
        0x3c530a3734f415e4,
        &[0xb0000000, 0xf9400001, 0xf93dfc3f],
        rule::GOT_SLOT,
        2,
        &[NOP, 0x580050c1, 0xf93dfc3f],
    ),
    // no such kind
    left((9, 7), 0x1000, &[0x90000000, 0x91000c00], rule::SKIPPED),
    // adrp x0; add x0, x0, #16; str d2, [x0, #16]
    row((6, 3), 0x1000, &[0xb0000080, 0x91004000, 0xfd000802], rule::ADR, 2, &[0x10088080, NOP, 0xfd000802]),
    // adrp x1; add x2, x1, #0; str b2, [x2]
    row((6, 3), 0x1000, &[0xb0530841, 0x91000022, 0x3d000042], rule::FOLD, 2, &[0xb0530841, NOP, 0x3d000022]),
    // adrp x0; add x0, x0, #3
    row((7, 3), 0x1000, &[0x90000000, 0x91000c00], rule::ADR, 2, &[0x70000000, NOP]),
    // adrp x0; add x0, x0, #0, out of reach
    left((7, 3), 0x1000, &[0x90008000, 0x91000000], rule::DECLINED),
    // adrp x1; str s5, [x1, #0x29d0], in the last page
    left((2, 0), LAST_PAGE, &[0x90000001, 0xbd29d025], rule::TURNED_DOWN),
    // adrp x1; ldr xzr, [x1, #8]
    row((8, 0), 0x2a448a819049084c, &[0xd0000721, 0xf940043f], rule::GOT_SLOT, 2, &[NOP, 0x5872bddf]),
    // adrp x0; add x0, x0, #0xc91
    row((8, 0), 0x1000, &[0x90ffffc0, 0x91324400], rule::ADR, 2, &[0x30fc6480, NOP]),
];

fn bytes(words: &[u32]) -> Vec<u8> {
    words.iter().flat_map(|w| w.to_le_bytes()).collect()
}

/// The halves of a reference to symbol 5, and those of one to its GOT slot.
fn entries() -> [Reloc; 4] {
    let half = |ty| Reloc { ty, size: 4, target: 5, ..Reloc::default() };
    [ty::PAGE21, ty::PAGEOFF12, ty::GOT_LOAD_PAGE21, ty::GOT_LOAD_PAGEOFF12].map(half)
}

/// A hint on words that stand one after another from `start`, the first at `address`, with the entries of its kind.
fn hint(kind: u8, object: u32, words: usize, start: usize, address: u64) -> HintRecord {
    let [first, second] = match kind {
        kind::ADRP_ADRP => [0, 0],
        kind::ADRP_LDR_GOT_LDR | kind::ADRP_LDR_GOT_STR | kind::ADRP_LDR_GOT => [2, 3],
        _ => [0, 1],
    };
    let place = |i: u32, entry| HintInsn { offset: 4 * i, entry, address: address.wrapping_add(4 * u64::from(i)) };
    let places = [place(0, first), place(1, second), place(2, HintInsn::WITHOUT_ENTRY)];
    let (start, length) = (start as u32, 4 * words as u32);
    HintRecord { kind, words: words as u8, object, start, length, places, ..HintRecord::default() }
}

/// The hints of the rows, each on the words behind those of the row before it; the image before and after.
fn lent() -> (Vec<HintRecord>, Vec<u8>, Vec<u8>) {
    let (mut hints, mut before, mut after) = (Vec::new(), Vec::new(), Vec::new());
    for row in &ROWS {
        hints.push(hint(row.kind, row.object, row.words.len(), before.len(), row.address));
        before.extend(bytes(row.words));
        after.extend(bytes(row.after));
    }
    (hints, before, after)
}

/// The record that is due of the hint at a position.
fn due(position: usize) -> RuleRecord {
    let Row { object, rule, changed, .. } = ROWS[position];
    RuleRecord { position: position as u32, object, rule, changed, zero: [0; 6] }
}

/// The tally of records.
fn total(records: &[RuleRecord]) -> Tally {
    let mut tally = Tally::default();
    for record in records {
        let count = match record.rule {
            rule::SKIPPED => &mut tally.skipped,
            rule::DECLINED => &mut tally.declined,
            rule::TURNED_DOWN => &mut tally.turned_down,
            _ => &mut tally.rewritten,
        };
        *count += 1;
    }
    tally
}

/// What a listed run with so many bytes of room leaves: the image, the records, the tally. It must be what the plain run
/// leaves; where it is refused everything stays, and bytes after the records do in any case.
fn work(image: &[u8], hints: &[u8], entries: &[u8], room: usize) -> Result<(Vec<u8>, Vec<RuleRecord>, Tally), Refusal> {
    let (mut after, mut slots) = (image.to_vec(), vec![FILL; room]);
    let done = hauklivo::apply_hints_listed(&mut after, hints, entries, &mut slots);
    let kept = if done.is_ok() { RuleRecord::SIZE * (hints.len() / HintRecord::SIZE) } else { 0 };
    assert!(slots[kept..].iter().all(|&b| b == FILL));
    let mut plain = image.to_vec();
    let by_plain = hauklivo::apply_hints(&mut plain, hints, entries);
    match done {
        Ok(_) => assert_eq!((done, &after), (by_plain, &plain)),
        Err(Refusal::Slots) => assert_eq!(after, image),
        Err(_) => assert_eq!((done, &after[..]), (by_plain, image)),
    }
    done.map(|tally| (after, RuleRecord::list(&slots[..kept]).unwrap(), tally))
}

/// Every rule, and the order of work: by object, in an object kind 1 last, else by position.
#[test]
fn each_rule() {
    let (hints, before, after) = lent();
    let mut order: Vec<usize> = (0..ROWS.len()).collect();
    order.sort_by_key(|&i| (ROWS[i].object, ROWS[i].kind == kind::ADRP_ADRP));
    let records: Vec<_> = order.into_iter().map(due).collect();
    let tally = Tally { rewritten: 18, skipped: 2, declined: 1, turned_down: 1 };
    assert_eq!(total(&records), tally);
    assert!((0..8).all(|rule| records.iter().any(|record| record.rule == rule)));
    for room in [0, 5, 16, 4096].map(|more| RuleRecord::SIZE * ROWS.len() + more) {
        let done = work(&before, HintRecord::bytes(&hints), Reloc::bytes(&entries()), room);
        assert_eq!(done, Ok((after.clone(), records.clone(), tally)));
    }
    // Records over records.
    let fill = RuleRecord::from([FILL; 16]);
    let (mut image, mut slots) = (before, vec![fill; ROWS.len() + 1]);
    assert_eq!(typed::apply_hints_listed(&mut image, &hints, &entries(), &mut slots[1..]), Ok(tally));
    assert_eq!((image, slots[0], &slots[1..]), (after, fill, &records[..]));
}

/// Each row alone.
#[test]
fn alone() {
    let (hints, ..) = lent();
    for (position, row) in ROWS.iter().enumerate() {
        let hint = HintRecord { start: 0, ..hints[position] };
        let due = RuleRecord { position: 0, ..due(position) };
        let done = work(&bytes(row.words), &hint.to_bytes(), Reloc::bytes(&entries()), 16);
        assert_eq!(done, Ok((bytes(row.after), vec![due], total(&[due]))), "{position}");
    }
    assert_eq!(work(&[], &[], &[], 3), Ok((vec![], vec![], Tally::default())));
}

/// A record has what a hint came to at its turn: where hints share words, that is by the order of work.
#[test]
fn shared_words() {
    // adrp x0; adrp x0; add x0, x0, #3: the second ADRP is dropped, or becomes ADR, whichever comes first.
    let words = bytes(&[0x90000000, 0x90000000, 0x91000c00]);
    let add = |object| hint(kind::ADRP_ADD, object, 2, 4, 0x1004);
    let adrp = |object| hint(kind::ADRP_ADRP, object, 2, 0, 0x1000);
    let said = |hints: &[HintRecord]| {
        let (image, records, _) =
            work(&words, HintRecord::bytes(hints), Reloc::bytes(&entries()), 16 * hints.len()).unwrap();
        (image, records.iter().map(|r| (r.position, r.rule, r.changed)).collect::<Vec<_>>())
    };
    let adr = bytes(&[0x90000000, 0x70ffffe0, NOP]);
    assert_eq!(said(&[adrp(1), add(1)]), (adr.clone(), vec![(1, rule::ADR, 2), (0, rule::DECLINED, 0)]));
    assert_eq!(said(&[adrp(2), add(1)]), (adr, vec![(1, rule::ADR, 2), (0, rule::DECLINED, 0)]));
    let dropped = bytes(&[0x90000000, NOP, 0x91000c00]);
    assert_eq!(said(&[add(2), adrp(1)]), (dropped, vec![(1, rule::SECOND_ADRP, 1), (0, rule::DECLINED, 0)]));
}

/// 1 comes before 2, and 2 before what is said of a hint.
#[test]
fn lists_are_refused() {
    let (hints, before, _) = lent();
    let list = HintRecord::bytes(&hints);
    let pairs = Reloc::bytes(&entries()).to_vec();
    let refused = |hints: &[u8], entries: &[u8], room| work(&before, hints, entries, room).unwrap_err();
    for room in [0, 16, 16 * ROWS.len(), 4096] {
        assert_eq!(refused(&list[..63], &pairs, room), Refusal::Lengths);
        assert_eq!(refused(&[0; 7], &pairs, room), Refusal::Lengths);
        assert_eq!(refused(list, &pairs[..23], room), Refusal::Lengths);
    }
    // Entries are missing, too: 12 where there is room.
    for entries in [&pairs[..], &pairs[..24], &[]] {
        for room in [0, 1, 16, 16 * ROWS.len() - 1] {
            assert_eq!(refused(list, entries, room), Refusal::Slots);
        }
    }
    assert_eq!(refused(list, &pairs[..24], 16 * ROWS.len()), Refusal::NoEntry);
    assert_eq!(refused(&HintRecord { start: 1 << 20, ..hints[0] }.to_bytes(), &pairs, 15), Refusal::Slots);
}

/// A hint that is refused, after good ones of which nothing is kept; and where it is.
#[test]
fn hints_are_refused() {
    let (good, before, _) = lent();
    let pairs = Reloc::bytes(&entries()).to_vec();
    let refused = |bad: HintRecord| {
        let hints = [&good[..], &[bad], &good[..1]].concat();
        let refusal = work(&before, HintRecord::bytes(&hints), &pairs, 16 * hints.len()).unwrap_err();
        let position = position_of_refusal::in_hints(refusal, &before, HintRecord::bytes(&hints), &pairs);
        assert_eq!(position, Some(good.len()));
        refusal
    };
    let mut absent = good[1];
    absent.places[1].entry = 4;
    assert_eq!(refused(absent), Refusal::NoEntry);
    let past = HintRecord { start: before.len() as u32 - 7, ..good[1] };
    assert_eq!(refused(past), Refusal::Bounds);
    assert_eq!(refused(HintRecord { length: 7, ..absent }), Refusal::Bounds); // not NoEntry
    // One that is skipped is not looked at.
    let skipped = HintRecord { kind: 0, start: 1 << 20, ..absent };
    let done = work(&before, &skipped.to_bytes(), &[], 16).map(|(_, records, _)| records);
    assert_eq!(done, Ok(vec![RuleRecord { object: 900, ..RuleRecord::default() }]));
}

#[test]
fn refused_calls_leave_the_tally() {
    use hauklivo::raw::hauklivo_apply_hints_listed;
    let old = Tally { rewritten: 1, skipped: 2, declined: 3, turned_down: 4 };
    let (mut tally, mut slots) = (old, [FILL; 16]);
    let (none, p) = ([0u8; 0], slots.as_mut_ptr());
    let skipped = HintRecord::default().to_bytes();
    // SAFETY: slices of this function, none lent twice.
    unsafe {
        let mut image = none;
        let (b, s) = (image.as_mut_ptr(), none.as_ptr());
        assert_eq!(hauklivo_apply_hints_listed(b, 0, [0; 7].as_ptr(), 7, s, 0, p, 16, &mut tally), 1);
        assert_eq!(hauklivo_apply_hints_listed(b, 0, skipped.as_ptr(), 64, s, 0, p, 15, &mut tally), 2);
        assert_eq!(tally, old);
        assert_eq!(hauklivo_apply_hints_listed(b, 0, s, 0, s, 0, p, 16, &mut tally), 0);
        assert_eq!(tally, Tally::default());
    }
    assert_eq!(slots, [FILL; 16]);
}

#[test]
fn records_convert() {
    let list: Vec<u8> = (0..16).collect();
    let record = RuleRecord::from_bytes(&list).unwrap();
    assert_eq!((record.position, record.object, record.rule, record.changed), (0x03020100, 0x07060504, 8, 9));
    assert_eq!((record.zero, record.to_bytes()), ([10, 11, 12, 13, 14, 15], list));
}
