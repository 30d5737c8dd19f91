//! Positions of refusals, found by halving, against a plain scan of small generated lists.

use std::collections::BTreeSet;

use hauklivo::{
    HintInsn, HintRecord, MachRel, Record, Refusal, Reloc, Report, Resolved, Target, flag, kind, position_of_refusal,
    ty, typed,
};

const NOP: u32 = 0xd503201f;
const LDR_X: u32 = 0xf9400000;

/// Numbers that are the same in every run.
struct Numbers(u64);

impl Numbers {
    fn below(&mut self, limit: usize) -> usize {
        self.0 ^= self.0 << 13;
        self.0 ^= self.0 >> 7;
        self.0 ^= self.0 << 17;
        (self.0 % limit as u64) as usize
    }

    fn one<T: Copy>(&mut self, of: &[T]) -> T {
        of[self.below(of.len())]
    }
}

/// Lists of up to 9 items. Of one half all are drawn from `good` and `bad`; of the other one item is of `bad` and the
/// others of `good`, so that each position is met with each bad one.
fn lists<T: Copy>(good: &[T], bad: &[T], mut each: impl FnMut(&[T])) {
    let mut numbers = Numbers(0x9e37_79b9_7f4a_7c15);
    let all = [good, bad].concat();
    for length in 0..10 {
        for _ in 0..4_000 {
            let list: Vec<T> = (0..length).map(|_| numbers.one(&all)).collect();
            each(&list);
        }
        for at in 0..length {
            for &odd in bad {
                for _ in 0..40 {
                    let mut list: Vec<T> = (0..length).map(|_| numbers.one(good)).collect();
                    list[at] = odd;
                    each(&list);
                }
            }
        }
    }
}

/// The lengths, positions and numbers that were met.
#[derive(Default)]
struct Met(BTreeSet<(usize, usize, u8)>);

impl Met {
    fn note(&mut self, length: usize, found: Option<(usize, Refusal)>) {
        self.0.extend(found.map(|(at, refusal)| (length, at, refusal.number())));
    }

    /// Every length and position was met with each of `numbers`, those of the last record aside.
    fn everywhere(&self, numbers: &[u8]) {
        for length in 1..10 {
            for at in 0..length {
                for &number in numbers {
                    let is_met = self.0.contains(&(length, at, number));
                    let is_due = at + 1 == length || ![4, 8].contains(&number);
                    assert_eq!(is_met, is_due, "number {number} at {at} of {length}");
                }
            }
        }
    }
}

const SECTIONS: [u64; 2] = [0x4000, 0x8000];

/// The first refusal among records, by docs/RULES.md, chapter 4.
fn scan_records(contents: &[u8], records: &[MachRel]) -> Option<(usize, Refusal)> {
    let forms = [4, 6, 0xc, 0xe, 0x1c, 0x1e, 0x2d, 0x3d, 0x4c, 0x5d, 0x6c, 0x7d, 0x8d, 0x9c, 0xa4, 0xbe];
    let mut i = 0;
    while i < records.len() {
        let Some(place) = contents.get(records[i].offset as usize..) else { return Some((i, Refusal::Bounds)) };
        if records[i].ty() == ty::ADDEND {
            i += 1;
        }
        let Some(own) = records.get(i) else { return Some((i - 1, Refusal::LoneAddend)) };
        let is_subtracted = i > 0 && records[i - 1].ty() == ty::SUBTRACTOR;
        let bytes = match own.ty() {
            ty::UNSIGNED | ty::AUTHENTICATED_POINTER => 1 << own.p2size(),
            ty::GOT_LOAD_PAGEOFF12 | ty::TLVP_LOAD_PAGEOFF12 => 4,
            _ => 0,
        };
        let word = place.first_chunk().map(|&w| u32::from_le_bytes(w));
        if !forms.contains(&(own.bits >> 24)) || own.ty() == ty::UNSIGNED && bytes == 4 && !is_subtracted {
            return Some((i, Refusal::Unsupported));
        } else if place.len() < bytes {
            return Some((i, Refusal::Bounds));
        } else if bytes == 4 && own.ty() != ty::UNSIGNED && word != Some(LDR_X) {
            return Some((i, Refusal::Unfit));
        } else if own.ty() == ty::AUTHENTICATED_POINTER && (place[6] & 0xf8, place[7]) != (0, 0x80) {
            return Some((i, Refusal::NotAuthenticated));
        } else if !own.is_extern() && !(1..=SECTIONS.len() as u32).contains(&own.idx()) {
            return Some((i, Refusal::NoSection));
        }
        i += 1;
    }
    None
}

/// Tables of records of `good` and `bad`: `read` refuses what `scan` finds, and `find` finds where.
fn tables(
    [good, bad]: [&[MachRel]; 2],
    scan: impl Fn(&[MachRel]) -> Option<(usize, Refusal)>,
    read: impl Fn(&[MachRel], &mut [Reloc]) -> Result<usize, Refusal>,
    find: impl Fn(Refusal, &[u8]) -> Option<usize>,
) -> Met {
    let mut met = Met::default();
    lists(good, bad, |list| {
        let due = scan(list);
        let done = read(list, &mut vec![Reloc::default(); list.len()]);
        assert_eq!(done.err(), due.map(|(_, refusal)| refusal), "{list:x?}");
        for refusal in Refusal::ALL {
            let found = find(*refusal, MachRel::bytes(list));
            assert_eq!(found, due.filter(|due| due.1 == *refusal).map(|due| due.0), "{refusal}: {list:x?}");
        }
        met.note(list.len(), due);
    });
    met
}

#[test]
fn records() {
    let contents = [LDR_X, NOP, 0, 1 << 31].map(u32::to_le_bytes).concat();
    let record = |offset, bits| MachRel { offset, bits };
    let good = [
        record(0, 0x2d000005),
        record(8, 0xbe000005),
        record(8, 0x06000002),
        record(16, 0x1c000005), // SUBTRACTOR
        record(0, 0x6c000005),
        record(0, 0x3d000005),
        record(16, 0x4c000005),
    ];
    let bad = [
        record(4, 0xa4000001),  // ADDEND, which reads as a pair, or is last
        record(17, 0xa4000001), // one past the contents
        record(17, 0x2d000005),
        record(0, 0xb4000001),
        record(0, 0x2c000005),
        record(12, 0x0c000005), // a pointer of 4 bytes
        record(14, 0x9c000005), // past the contents with its word
        record(4, 0x9c000005),
        record(12, 0x0e000005), // past the contents with its bytes
        record(4, 0xbe000005),  // no authenticated pointer's bytes
        record(9, 0xbe000005),
        record(0, 0x06000000),
        record(0, 0x06000003),
    ];
    let met = tables(
        [&good, &bad],
        |list| scan_records(&contents, list),
        |list, slots| typed::read_relocs(&contents, list, &SECTIONS, slots),
        |refusal, list| position_of_refusal::in_records(refusal, &contents, list, &SECTIONS),
    );
    met.everywhere(&[3, 4, 5, 6, 7, 15]);
}

/// The first refusal among records of an x86_64 object, in a section of 16 bytes.
fn scan_records_x86_64(records: &[MachRel]) -> Option<(usize, Refusal)> {
    let forms = [4, 6, 0xc, 0xe, 0x15, 0x1d, 0x25, 0x29, 0x2d, 0x3d, 0x4d, 0x5c, 0x5e, 0x9d];
    records.iter().enumerate().find_map(|(i, record)| {
        // the three SIGNED_n have SIGNED's forms
        let form = record.bits >> 24;
        let is_supported = forms.contains(&form) || (6..9).contains(&record.ty()) && [5, 0xd].contains(&(form & 15));
        if !is_supported {
            Some((i, Refusal::Unsupported))
        } else if record.offset > 16 - (1 << record.p2size()) {
            Some((i, Refusal::Bounds))
        } else if !record.is_extern() && !(1..=SECTIONS.len() as u32).contains(&record.idx()) {
            Some((i, Refusal::NoSection))
        } else {
            None
        }
    })
}

#[test]
fn records_x86_64() {
    let contents = [0x5a; 16];
    let record = |offset, bits| MachRel { offset, bits };
    let good = [
        record(12, 0x1d000005),
        record(8, 0x06000002),
        record(15, 0x29000005),
        record(12, 0x5c000005), // SUBTRACTOR, which no record need follow
        record(12, 0x85000001),
        record(0, 0x04000001),
    ];
    let bad = [
        record(17, 0xa4000001), // no type of x86_64
        record(0, 0x21000001),  // a short jump to a section
        record(0, 0x36000003),
        record(17, 0x29000005),
        record(16, 0x29000005),
        record(13, 0x15000003),
        record(9, 0x0e000005),
        record(0, 0x04000000),
        record(12, 0x85000003),
    ];
    let met = tables(
        [&good, &bad],
        scan_records_x86_64,
        |list, slots| typed::read_relocs_x86_64(&contents, list, &SECTIONS, 0x6000, slots),
        |refusal, list| position_of_refusal::in_records_x86_64(refusal, &contents, list, &SECTIONS),
    );
    met.everywhere(&[3, 5, 7]);
}

/// The image base of all fix-ups here.
const IMAGE: u64 = 0x1800;

/// The first refusal among entries of a section of 16 bytes, by docs/RULES.md, 5.6.
fn scan_entries(base: u64, list: &[(Reloc, Resolved)]) -> Option<(usize, Refusal)> {
    let mut i = 0;
    while i < list.len() {
        let (entry, target) = list[i];
        if let Some(refusal) = scan_entry(base, entry, target, i + 1 == list.len()) {
            return Some((i, refusal));
        }
        i += if entry.ty == ty::SUBTRACTOR { 2 } else { 1 };
    }
    None
}

/// The first refusal of an entry.
fn scan_entry(base: u64, entry: Reloc, target: Resolved, is_last: bool) -> Option<Refusal> {
    let is = |flag: u32| target.flags & flag != 0;
    let is_section = matches!(entry.target(), Target::Section(_));
    let width = match entry.ty {
        ty::UNSIGNED | ty::AUTHENTICATED_POINTER if !is_section && is(flag::IMPORTED) => 0,
        ty::UNSIGNED | ty::AUTHENTICATED_POINTER => 8,
        ty::SUBTRACTOR if entry.size != 4 => 8,
        ty::PAGE21 | ty::PAGEOFF12 if !is(flag::HAS_ADDRESS) => 0,
        _ => 4,
    };
    let needs_symbol = match entry.ty {
        ty::GOT_LOAD_PAGE21 => !is(flag::HAS_HELPER),
        ty::AUTHENTICATED_POINTER => true,
        other => (ty::GOT_LOAD_PAGEOFF12..=ty::TLVP_LOAD_PAGEOFF12).contains(&other),
    };
    let distance = target.address.wrapping_add_signed(entry.addend).wrapping_sub(IMAGE);
    let numbers = [
        (Refusal::Bounds, entry.offset > 16),
        (Refusal::Flags, target.flags > 0x1ff || is(flag::PROBE) && is(flag::IS_ENABLED) || target.zero != 0),
        (Refusal::Overflow, base.checked_add(entry.offset.into()).is_none()),
        (Refusal::Unsupported, entry.ty >= ty::ADDEND && entry.ty != ty::AUTHENTICATED_POINTER),
        (Refusal::LoneSubtractor, entry.ty == ty::SUBTRACTOR && is_last),
        (Refusal::NeedsSymbol, is_section && needs_symbol),
        (Refusal::FarFromImage, entry.ty == ty::AUTHENTICATED_POINTER && width == 8 && distance >> 32 != 0),
        (Refusal::Bounds, entry.offset + width > 16),
    ];
    numbers.into_iter().find(|(_, applies)| *applies).map(|(refusal, _)| refusal)
}

/// An entry of a symbol, with its target.
fn entry(offset: u32, ty: u8, size: u8) -> (Reloc, Resolved) {
    let target = Resolved { address: 0x2000, branch: 0x2000, flags: flag::HAS_ADDRESS, ..Resolved::default() };
    (Reloc { offset, ty, size, ..Reloc::default() }, target)
}

/// An authenticated pointer, with its target.
fn signed(offset: u32, address: u64, flags: u32) -> (Reloc, Resolved) {
    let (entry, target) = entry(offset, ty::AUTHENTICATED_POINTER, 8);
    (entry, Resolved { address, flags, ..target })
}

/// Entries with their targets: those that are fixed up, and those that are refused in some list.
fn good_and_bad_entries() -> [Vec<(Reloc, Resolved)>; 2] {
    let plain = entry(0, ty::UNSIGNED, 8).1;
    let section = |offset, ty| (Reloc { offset, ty, target: Target::SECTION, ..Reloc::default() }, plain);
    let with = |flags, zero| (entry(0, ty::UNSIGNED, 8).0, Resolved { flags, zero, ..plain });
    let good = [
        entry(0, ty::BRANCH26, 4),
        entry(8, ty::UNSIGNED, 8),
        entry(4, ty::POINTER_TO_GOT, 4),
        entry(12, ty::PAGEOFF12, 4),
        section(0, ty::UNSIGNED),
        (entry(13, ty::UNSIGNED, 8).0, Resolved { flags: flag::IMPORTED, ..plain }),
        signed(8, IMAGE + 0xffff_ffff, 0),
        signed(13, 0, flag::IMPORTED),
    ];
    let bad = [
        entry(8, ty::SUBTRACTOR, 8), // takes the entry after it, or is last
        entry(12, ty::SUBTRACTOR, 4),
        entry(12, ty::SUBTRACTOR, 8), // past the section with its bytes
        entry(17, ty::SUBTRACTOR, 8),
        (entry(0, ty::SUBTRACTOR, 8).0, Resolved { flags: 0x200, ..plain }),
        entry(9, ty::SUBTRACTOR, 8), // too high for the higher base
        entry(17, ty::BRANCH26, 4),
        entry(13, ty::BRANCH26, 4),
        entry(13, ty::PAGE21, 4),
        with(0x200, 0),
        with(flag::PROBE | flag::IS_ENABLED, 0),
        with(0, 1),
        entry(0, ty::ADDEND, 4),
        entry(0, 200, 4),
        section(0, ty::POINTER_TO_GOT),
        section(0, ty::GOT_LOAD_PAGE21),
        section(13, ty::AUTHENTICATED_POINTER),
        signed(0, IMAGE + (1 << 32), 0),
        signed(13, IMAGE - 1, 0), // past the section with its bytes, too
        signed(13, IMAGE, 0),
    ];
    [good.to_vec(), bad.to_vec()]
}

#[test]
fn entries() {
    let [good, bad] = good_and_bad_entries();
    let mut met = Met::default();
    for base in [0x1000, u64::MAX - 12] {
        lists(&good, &bad, |list| {
            let due = scan_entries(base, list);
            let (entries, targets): (Vec<_>, Vec<_>) = list.iter().copied().unzip();
            let (mut bytes, mut slots) = ([0; 16], vec![Report::default(); list.len()]);
            let done = typed::apply_reloc_alloc(&mut bytes, base, 0, IMAGE, &entries, &targets, &mut slots);
            assert_eq!(done.err(), due.map(|(_, refusal)| refusal), "{list:x?}");
            let (entries, targets) = (Reloc::bytes(&entries), Resolved::bytes(&targets));
            for refusal in Refusal::ALL {
                let found = position_of_refusal::in_entries(*refusal, &[0; 16], base, IMAGE, entries, targets);
                assert_eq!(found, due.filter(|due| due.1 == *refusal).map(|due| due.0), "{refusal}: {list:x?}");
            }
            met.note(list.len(), due);
        });
    }
    met.everywhere(&[3, 5, 8, 9, 10, 11, 16]);
}

/// The first refusal among hints of an image of 16 bytes with 2 entries, by docs/RULES.md, 3.6.
fn scan_hints(hints: &[HintRecord]) -> Option<(usize, Refusal)> {
    hints.iter().enumerate().find_map(|(i, hint)| {
        let words = match hint.kind {
            kind::ADRP_ADRP | kind::ADRP_LDR | kind::ADRP_ADD | kind::ADRP_LDR_GOT => 2,
            kind::ADRP_ADD_LDR..=kind::ADRP_LDR_GOT_STR => 3,
            _ => return None,
        };
        if hint.words != words {
            return None;
        }
        let places = &hint.places[..usize::from(words)];
        if hint.start + hint.length > 16 || places.iter().any(|p| p.offset + 4 > hint.length) {
            Some((i, Refusal::Bounds))
        } else if places.iter().any(|p| p.entry != HintInsn::WITHOUT_ENTRY && p.entry > 1) {
            Some((i, Refusal::NoEntry))
        } else {
            None
        }
    })
}

#[test]
fn hints() {
    let image = [0x90000000_u32, 0x91000c00, 0x90000001, 0xf9400021].map(u32::to_le_bytes).concat();
    let entries = [ty::PAGE21, ty::PAGEOFF12].map(|ty| Reloc { ty, size: 4, ..Reloc::default() });
    let place = |offset, entry| HintInsn { offset, entry, address: 0x1000 + u64::from(offset) };
    let hint = |kind, object, places| {
        let words = if (3..7).contains(&kind) { 3 } else { 2 };
        HintRecord { kind, words, object, length: 16, places, ..HintRecord::default() }
    };
    let [first, second] = [place(0, 0), place(4, 1)];
    let good = [
        hint(kind::ADRP_ADD, 3, [first, second, place(20, 7)]),
        hint(kind::ADRP_LDR, 1, [place(8, 0), place(12, 1), first]),
        hint(kind::ADRP_ADRP, 2, [first, place(8, HintInsn::WITHOUT_ENTRY), first]),
        hint(kind::ADRP_ADD_LDR, 0, [first, second, place(12, HintInsn::WITHOUT_ENTRY)]),
        HintRecord { start: 90, ..hint(9, 5, [first; 3]) },
        HintRecord { words: 3, start: 90, ..hint(kind::ADRP_ADD, 0, [first; 3]) },
    ];
    let bad = [
        HintRecord { start: 1, ..good[0] },
        HintRecord { length: 7, ..good[0] },
        HintRecord { length: 3, ..good[0] },
        hint(kind::ADRP_ADD, 0, [place(13, 0), second, first]),
        hint(kind::ADRP_ADD, 0, [first, place(4, 2), first]),
        hint(kind::ADRP_ADD_STR, 4, [first, second, place(12, 2)]),
        hint(kind::ADRP_ADD_STR, 0, [first, second, place(20, 0)]),
    ];
    let mut met = Met::default();
    lists(&good, &bad, |list| {
        let due = scan_hints(list);
        let done = typed::apply_hints(&mut image.clone(), list, &entries);
        assert_eq!(done.err(), due.map(|(_, refusal)| refusal), "{list:x?}");
        for refusal in Refusal::ALL {
            let found =
                position_of_refusal::in_hints(*refusal, &image, HintRecord::bytes(list), Reloc::bytes(&entries));
            assert_eq!(found, due.filter(|due| due.1 == *refusal).map(|due| due.0), "{refusal}: {list:x?}");
        }
        met.note(list.len(), due);
    });
    met.everywhere(&[3, 12]);
}

/// A refusal of whole lists has no position, whatever else is wrong.
#[test]
fn whole_lists() {
    let bad = [0xff; 64];
    assert_eq!(position_of_refusal::in_records(Refusal::Lengths, &[], &bad[..7], &[]), None);
    assert_eq!(position_of_refusal::in_records(Refusal::Slots, &[], &bad[..8], &[]), None);
    assert_eq!(position_of_refusal::in_records(Refusal::Bounds, &[], &bad[..7], &[]), None);
    assert_eq!(position_of_refusal::in_records(Refusal::Bounds, &[], &bad[..8], &[]), Some(0));
    assert_eq!(position_of_refusal::in_records_x86_64(Refusal::Lengths, &[], &bad[..7], &[]), None);
    assert_eq!(position_of_refusal::in_records_x86_64(Refusal::Unsupported, &[], &bad[..7], &[]), None);
    assert_eq!(position_of_refusal::in_records_x86_64(Refusal::Unsupported, &[], &bad[..8], &[]), Some(0));
    assert_eq!(position_of_refusal::in_entries(Refusal::Bounds, &[], 0, 0, &bad[..48], &bad[..48]), None);
    assert_eq!(position_of_refusal::in_entries(Refusal::Bounds, &[], 0, 0, &bad[..24], &bad[..48]), Some(0));
    assert_eq!(position_of_refusal::in_entries(Refusal::Bounds, &[], 0, 0, &bad[..25], &bad[..48]), None);
    assert_eq!(position_of_refusal::in_hints(Refusal::Bounds, &[], &bad[..63], &[]), None);
}

/// In a long list, too.
#[test]
fn a_long_list() {
    let mut records = vec![MachRel::new(0, 5, true, 2, true, ty::BRANCH26); 10_000];
    for at in [0, 1, 4_999, 5_000, 9_998, 9_999] {
        let good = std::mem::replace(&mut records[at], MachRel::new(0, 5, true, 2, true, 15));
        let found = position_of_refusal::in_records(Refusal::Unsupported, &[0; 4], MachRel::bytes(&records), &[]);
        assert_eq!(found, Some(at));
        records[at] = good;
    }
}

/// Hints in falling order of their objects, which a run would take seconds for, are no slower than others.
#[test]
fn falling_hints() {
    let places = [0, 4, 8].map(|offset| HintInsn { offset, ..HintInsn::default() });
    let hint =
        |object| HintRecord { kind: kind::ADRP_ADD, words: 2, object, length: 8, places, ..HintRecord::default() };
    let mut hints: Vec<HintRecord> = (0..40_000).rev().map(hint).collect();
    hints[39_990].length = 7;
    assert_eq!(position_of_refusal::in_hints(Refusal::Bounds, &[0; 8], HintRecord::bytes(&hints), &[]), Some(39_990));
}
