//! The oracle's self-test: the twelve examples (RULES 11), the examples of turned-down
//! input, one of each stop, each kind of report, records of x86_64, some LEB128 values, words of
//! hints that are written and stay, and the oracle's own hint walk against the Rust's on generated runs.

use std::collections::BTreeMap;

use oracle::{Acted, Arm64, Forms, Outcome, Rule, Stop, Words, X86_64};

const NOP: u32 = 0xd503_201f;
const NO_ENTRY: u32 = 0xffff_ffff;
const SECTION: u32 = 1 << 31;

/// Flags of a resolved target.
const IMPORTED: u32 = 1;
const THREAD_LOCAL: u32 = 2;
const ADDRESS: u32 = 4;
const RELAXES: u32 = 8;
const THUNK: u32 = 16;
const HELPER: u32 = 32;
const OWN: u32 = 64;
const PROBE: u32 = 128;
const IS_ENABLED: u32 = 256;

fn words(list: &[u32]) -> Vec<u8> {
    list.iter().flat_map(|w| w.to_le_bytes()).collect()
}

fn record(offset: u32, bits: u32) -> Vec<u8> {
    words(&[offset, bits])
}

fn entry(offset: u32, ty: u8, size: u8, target: u32, addend: i64) -> Vec<u8> {
    let mut e = words(&[offset, u32::from_le_bytes([ty, size, 0, 0]), target, 0]);
    e.extend(addend.to_le_bytes());
    e
}

#[derive(Clone, Copy, Default)]
struct Facts {
    address: u64,
    got: u64,
    branch: u64,
    thunk: u64,
    helper: u64,
    flags: u32,
}

fn target(f: Facts) -> Vec<u8> {
    let mut t: Vec<u8> = [f.address, f.got, f.branch, f.thunk, f.helper].iter().flat_map(|a| a.to_le_bytes()).collect();
    t.extend(words(&[f.flags, 0]));
    t
}

/// A hint's bytes: `part` is start and length, a place offset, entry, address.
fn hint(kind: u8, object: u32, part: (u32, u32), places: &[(u32, u32, u64)]) -> Vec<u8> {
    let mut h = vec![kind, places.len() as u8, 0, 0];
    h.extend(words(&[object, part.0, part.1]));
    for i in 0..3 {
        let (offset, entry, address) = places.get(i).copied().unwrap_or((0, NO_ENTRY, 0));
        h.extend(words(&[offset, entry]));
        h.extend(address.to_le_bytes());
    }
    h
}

fn report(entry: u32, kind: u8, size: u8, place: u64, target: u64) -> Vec<u8> {
    let mut r = words(&[entry, u32::from_le_bytes([kind, size, 0, 0])]);
    r.extend(place.to_le_bytes());
    r.extend(target.to_le_bytes());
    r
}

/// One entry on one word, fixed up: the section afterwards and the reports, or the number.
fn fix_one(word: u32, base: u64, e: &[u8], f: Facts) -> Result<(u32, Vec<u8>), u8> {
    let mut section = words(&[word]);
    match oracle::apply_reloc_alloc(&mut section, base, 0, e, &target(f)) {
        Ok(fixed) => Ok((u32::from_le_bytes(section[..4].try_into().unwrap()), fixed.reports)),
        Err(stop) => Err(stop.fixup_number().unwrap_or_else(|| panic!("{stop:?}"))),
    }
}

/// A sequence at 0x1000 with a page pair on its first two words, after one hint, and what was done with that.
fn acted(kind: u8, list: &[u32]) -> (Vec<u32>, Acted) {
    let mut image = words(list);
    let page = if [4, 6, 8].contains(&kind) { 5 } else { 3 };
    let entries = [entry(0, page, 4, 5, 0), entry(4, page + 1, 4, 5, 0)].concat();
    let places: Vec<_> =
        (0..list.len() as u32).map(|i| (4 * i, if i < 2 { i } else { NO_ENTRY }, 0x1000 + 4 * i as u64)).collect();
    let hints = hint(kind, 0, (0, image.len() as u32), &places);
    let mut linked = image.clone();
    let run = oracle::apply_hints(&mut image, &hints, &entries).unwrap();
    assert_eq!(run.tally, [1, 0, 0, 0]);
    assert_eq!(oracle::apply_hints_linked(&mut linked, &hints, &entries), Some(Ok(run.words)));
    assert_eq!(image, linked);
    (image.chunks_exact(4).map(|w| u32::from_le_bytes(w.try_into().unwrap())).collect(), run.acted[0])
}

fn sequence(kind: u8, list: &[u32]) -> Vec<u32> {
    acted(kind, list).0
}

/// Rules and places written, also with the word that was there, and of a place that is named twice.
fn rules() {
    let told = |kind, list: &[u32], rule, changed, after: &[u32]| {
        assert_eq!(acted(kind, list), (after.to_vec(), Acted { rule, changed }));
    };
    told(2, &[0x9000_0000, 0xf940_0401], Rule::Literal, 2, &[NOP, 0x5800_0021]);
    told(7, &[0x9000_0000, 0x9100_0c00], Rule::Adr, 2, &[0x7000_0000, NOP]);
    told(8, &[0x9000_0000, 0xf940_0401], Rule::GotSlot, 2, &[NOP, 0x5800_0021]);
    // The store keeps its word, and so does the load: an offset of 0, and an ADD of 0 to its own register.
    let store = 0xf900_0001;
    told(5, &[0x9000_0000, 0x9100_0c00, store], Rule::Adr, 3, &[0x7000_0000, NOP, store]);
    let load = 0x3940_0001;
    told(3, &[0x9000_1000, 0x9100_0000, load], Rule::Fold, 2, &[0x9000_1000, NOP, load]);
    // The third place is the second.
    let mut image = words(&[0x9000_0000, 0xf940_0400]);
    let entries = [entry(0, 5, 4, 5, 0), entry(4, 6, 4, 5, 0)].concat();
    let hints = hint(4, 0, (0, 8), &[(0, 0, 0x1000), (4, 1, 0x1004), (4, NO_ENTRY, 0x1004)]);
    let run = oracle::apply_hints(&mut image, &hints, &entries).unwrap();
    assert_eq!((image, run.acted), (words(&[NOP, 0x5800_0020]), vec![Acted { rule: Rule::GotSlot, changed: 2 }]));
}

fn twelve_examples() {
    assert_eq!(Arm64::adr(0, 0x1008, 0x1000), 0x1000_0040);
    assert_eq!(Arm64::adr(1, 0xfff, 0x1000), 0x70ff_ffe1);
    assert_eq!(Arm64::to_literal(0xf940_0001, 0x1010, 0x1004), Some(0x5800_0061));
    assert_eq!(Arm64::adrp_page(0xb000_0000, 0x1234), 0x2000);
    assert_eq!(Arm64::adrp_page(0xf0ff_ffe0, 0x1234), 0);
    assert_eq!(sequence(2, &[0x9000_0000, 0xf940_0401]), [NOP, 0x5800_0021]);
    assert_eq!(sequence(7, &[0x9000_0000, 0x9100_0c00]), [0x7000_0000, NOP]);
    assert_eq!(sequence(5, &[0x9000_1000, 0x9100_4000, 0xf900_0001]), [0x9000_1000, NOP, 0xf900_0801]);
    let at = |address| Facts { address, flags: ADDRESS, ..Default::default() };
    let pageoff = entry(0, 4, 4, 5, 0);
    assert_eq!(Arm64::write_add_ldst(0xf940_0000, 0x1238), Ok(0xf941_1c00));
    assert_eq!(Arm64::write_add_ldst(0xf940_0000, 0x1234), Err(8));
    assert_eq!(fix_one(0xf940_0000, 0x1000, &pageoff, at(0x1238)), Ok((0xf941_1c00, vec![])));
    assert_eq!(fix_one(0xf940_0000, 0x1000, &pageoff, at(0x1234)), Ok((0xf940_0000, report(0, 3, 8, 0, 0))));
    let branch = Facts { branch: 0xffc, ..Default::default() };
    assert_eq!(fix_one(0x9400_0000, 0x1000, &entry(0, 2, 4, 5, 0), branch), Ok((0x97ff_ffff, vec![])));
    let relaxed = Facts { address: 0x1234, flags: RELAXES, ..Default::default() };
    assert_eq!(fix_one(0xf940_0000, 0x1000, &entry(0, 6, 4, 5, 0), relaxed), Ok((0x9108_d000, vec![])));
    let mut page = entry(0, 3, 4, 5, -1);
    page[6] = 1;
    let records = [record(0, 0xa4ff_ffff), record(0, 0x3d00_0005)].concat();
    assert_eq!(oracle::read_relocs(&words(&[0x9000_0000]), &records, &[]), Ok(page));
}

fn stops() {
    let read = |contents: &[u8], records: &[u8]| oracle::read_relocs(contents, records, &[0x100]);
    let stop = read(&[0; 8], &record(0, 0x0c00_0000)).unwrap_err();
    assert!(matches!(&stop, Stop::Fatal(t) if t.contains("type=0, p2size=2, pcrel=0, extern=1")));
    assert_eq!(stop.reader_number(), Some(5));
    let stop = read(&[0; 8], &record(9, 0x0e00_0001)).unwrap_err();
    assert!(matches!(stop, Stop::Slice(_)));
    assert_eq!(stop.reader_number(), Some(3));
    let stop = read(&[0; 8], &record(4, 0x0e00_0001)).unwrap_err();
    assert!(matches!(stop, Stop::Slice(_)));
    let stop = read(&[0; 8], &record(0, 0xa400_0000)).unwrap_err();
    assert!(matches!(stop, Stop::Index(_)));
    assert_eq!(stop.reader_number(), Some(4));
    let stop = read(&words(&[NOP, NOP]), &record(0, 0x9c00_0000)).unwrap_err();
    assert!(matches!(stop, Stop::Fatal(_)));
    assert_eq!(stop.reader_number(), Some(6));
    for ordinal in [0, 2, 0xff_ffff] {
        let stop = read(&[0; 8], &record(0, 0x0600_0000 | ordinal)).unwrap_err();
        assert!(matches!(stop, Stop::Fatal(_)));
        assert_eq!(stop.reader_number(), Some(7));
    }
    assert_eq!(read(&[0; 8], &record(0, 0x0600_0001)), Ok(entry(0, 0, 8, SECTION, -0x100)));

    let fix = |len: usize, base: u64, e: &[u8]| {
        oracle::apply_reloc_alloc(&mut vec![0; len], base, 0, e, &target(Facts::default())).unwrap_err()
    };
    assert!(matches!(fix(8, u64::MAX, &entry(1, 2, 4, 0, 0)), Stop::Overflow(_)));
    assert!(matches!(fix(8, 0, &entry(0, 7, 4, SECTION, 0)), Stop::NoneUnwrap(_)));
    assert!(matches!(fix(8, 0, &entry(0, 1, 8, 0, 0)), Stop::Index(_)));
    assert!(matches!(fix(8, 0, &entry(0, 10, 4, 0, 0)), Stop::Fatal(_)));
    assert!(matches!(fix(8, 0, &entry(4, 0, 8, 0, 0)), Stop::Slice(_)));
    assert!(matches!(fix(8, 0, &entry(9, 0, 8, 0, 0)), Stop::Slice(_)));

    // A sum above 2^64 - 1: ADRP to the last page, a load past its end.
    let entries = [entry(0, 3, 4, 5, 0), entry(4, 4, 4, 5, 0)].concat();
    let list = [0xf0ff_ffe0, 0xf960_0001];
    let mut image = words(&list);
    let hints = hint(2, 0, (0, 8), &[(0, 0, 0), (4, 1, 4)]);
    let run = oracle::apply_hints(&mut image, &hints, &entries).unwrap();
    assert_eq!((run.outcomes, run.tally), (vec![Outcome::TurnedDown], [0, 0, 0, 1]));
    assert_eq!(image, words(&list));
    let linked = oracle::apply_hints_linked(&mut image, &hints, &entries);
    assert!(matches!(linked, Some(Err(Stop::Overflow(_)))));
    let hints = hint(2, 0, (0, 7), &[(0, 0, 0), (4, 1, 4)]);
    let stop = oracle::apply_hints(&mut image, &hints, &entries).unwrap_err();
    assert!(matches!(stop, Stop::Slice(_)));
    let hints = hint(2, 0, (0, 8), &[(0, 0, 0), (4, 2, 4)]);
    let stop = oracle::apply_hints(&mut image, &hints, &entries).unwrap_err();
    assert!(matches!(stop, Stop::Index(_)));
    let hints = [hint(9, 0, (0, 99), &[(0, 9, 0)]), hint(2, 0, (0, 8), &[(0, 9, 0)])].concat();
    let run = oracle::apply_hints(&mut image, &hints, &entries).unwrap();
    assert_eq!(run.tally, [0, 2, 0, 0]);
}

/// A section with x86_64 records, and the addresses of the sections that they may name.
const CONTENTS: [u8; 9] = [0xf0, 0xff, 0xff, 0xff, 0xff, 0xff, 0xff, 0xff, 0x80];
const SECTIONS: [u64; 2] = [0x100, u64::MAX];

/// Records of x86_64: each width, bias and kind of target.
fn records_x86_64() {
    let read = |records: &[u8]| oracle::read_relocs_x86_64(&CONTENTS, records, &SECTIONS, 0x2000);
    let pcrel = |mut e: Vec<u8>| {
        e[6] = 1;
        e
    };
    assert_eq!(read(&record(8, 0x2900_0005)), Ok(pcrel(entry(8, 2, 1, 5, -128))));
    assert_eq!(read(&record(1, 0x0c00_0005)), Ok(entry(1, 0, 4, 5, -1)));
    assert_eq!(read(&record(0, 0x0e00_0005)), Ok(entry(0, 0, 8, 5, -16)));
    assert_eq!(read(&record(0, 0x0600_0002)), Ok(entry(0, 0, 8, SECTION | 1, -15)));
    for (bits, ty, bias) in [(0x1d00_0005, 1, 0), (0x6d00_0005, 6, 1), (0x7d00_0005, 7, 2), (0x8d00_0005, 8, 4)] {
        assert_eq!(read(&record(0, bits)), Ok(pcrel(entry(0, ty, 4, 5, -16 + bias))));
        let of_section = (bits & 0xf700_0000) + 1;
        let addend = 0x2000 + 4 - 16 + bias - 0x100;
        assert_eq!(read(&record(0, of_section)), Ok(pcrel(entry(0, ty, 4, SECTION, addend))));
    }
    let mut minuend = entry(0, 0, 8, SECTION, -16 - 0x100);
    minuend[7] = 1;
    let pair = [record(4, 0x5c00_0005), record(0, 0x0600_0001)].concat();
    assert_eq!(read(&pair), Ok([entry(4, 5, 4, 5, -1), minuend].concat()));
}

/// One of each stop of the x86_64 reader, and its forms.
fn stops_x86_64() {
    let stop = |contents: &[u8], records: &[u8], address| {
        oracle::read_relocs_x86_64(contents, records, &SECTIONS, address).unwrap_err()
    };
    let number = |offset, bits| stop(&CONTENTS, &record(offset, bits), 0).reader_x86_64_number();
    assert!(matches!(stop(&[], &record(0, 0x2900_0000), 0), Stop::Index(_)));
    let past = [(9, 0x2900_0000), (10, 0x2900_0000), (6, 0x0c00_0000), (2, 0x0e00_0000)];
    assert!(past.iter().all(|&(offset, bits)| number(offset, bits) == Some(3)));
    assert!([0, 3, 0xff_ffff].iter().all(|ordinal| number(0, 0x1500_0000 | ordinal) == Some(7)));
    for form in 0..256 {
        let is_read = oracle::read_relocs_x86_64(&CONTENTS, &record(0, form << 24 | 1), &SECTIONS, 0).is_ok();
        assert!(is_read == X86_64::is_supported(form << 24), "{form:02x}");
        assert!(is_read || number(99, form << 24) == Some(5), "{form:02x}");
    }
    assert_eq!((0..256).filter(|form| X86_64::is_supported(form << 24)).count(), 20);
    let overflow = stop(&CONTENTS, &record(1, 0x1500_0001), u64::MAX - 4);
    assert!(matches!(overflow, Stop::Overflow(_)) && overflow.reader_x86_64_number().is_none());
}

/// Every fact of a resolved target, by a case that depends on it.
fn facts() {
    let far = 1 << 33;
    let page = |f| fix_one(0x9000_0000, 0x1000, &entry(0, 3, 4, 0, 0), f);
    let at = Facts { address: 0x2000, flags: ADDRESS, ..Default::default() };
    assert_eq!(page(at), Ok((0xb000_0000, vec![])));
    assert_eq!(page(Facts { flags: 0, ..at }), Ok((0x9000_0000, vec![])));
    assert_eq!(page(Facts { address: far, ..at }).unwrap().1, report(0, 1, 0, 0x1000, far));
    let mut section = words(&[0x9000_0000]);
    let none = target(Facts { flags: 0, ..at });
    let fixed = oracle::apply_reloc_alloc(&mut section, 0, 0, &entry(0, 3, 4, 0, 0), &none).unwrap();
    assert_eq!(fixed.without_address, [0]);

    let branch = |sym, a, f| fix_one(0x1400_0000, 0x1000, &entry(0, 2, 4, sym, a), f);
    let out = Facts { branch: far, thunk: 0x1010, flags: THUNK, ..Default::default() };
    // The ADRP of the thunk does not reach.
    assert_eq!(branch(0, 0, out).unwrap().1, report(0, 2, 0, 0x1000, far));
    let near = Facts { branch: 1 << 31, ..out };
    assert_eq!(branch(0, 0, near), Ok((0x1400_0004, vec![])));
    assert_eq!(branch(0, 4, near).unwrap().1.len(), 24);
    assert_eq!(branch(0, 0, Facts { flags: 0, ..near }).unwrap().1.len(), 24);
    assert_eq!(branch(0, 0, Facts { flags: PROBE, ..out }), Ok((NOP, vec![])));
    assert_eq!(branch(0, 0, Facts { flags: IS_ENABLED, ..out }), Ok((0xd280_0000, vec![])));
    let section = Facts { address: 0x1008, ..out };
    assert_eq!(branch(SECTION, 0, Facts { flags: PROBE | THUNK, ..section }), Ok((0x1400_0002, vec![])));

    let got = |ty, sym, f| fix_one(0xf940_0000, 0x1000, &entry(0, ty, 4, sym, 0), f);
    let slot = Facts { address: 0x5678, got: 0x3210, helper: 0x1040, ..Default::default() };
    assert_eq!(got(6, 0, slot), Ok((0xf941_0800, vec![])));
    assert_eq!(got(9, 0, Facts { flags: RELAXES, ..slot }), Ok((0x9119_e000, vec![])));
    assert_eq!(got(7, 0, slot), Ok((0x2210, vec![])));
    assert_eq!(got(5, SECTION, Facts { flags: HELPER, ..slot }), Ok((0x9400_0010, vec![])));
    assert_eq!(got(5, 0, Facts { flags: HELPER | OWN, ..slot }), Ok((0x1400_0010, vec![])));
    assert_eq!(got(5, SECTION, slot), Err(10));
    let relaxed = entry(0, 9, 4, 0, 0);
    let facts = Facts { flags: RELAXES, ..slot };
    assert_eq!(fix_one(NOP, 0, &relaxed, facts), Ok((NOP, report(0, 4, 0, 0, 0))));

    let unsigned = |sym, tls, flags| {
        let mut section = [0; 8];
        let facts = target(Facts { address: 0x1000, flags, ..Default::default() });
        oracle::apply_reloc_alloc(&mut section, 0, tls, &entry(0, 0, 8, sym, 1), &facts).unwrap();
        u64::from_le_bytes(section)
    };
    assert_eq!(unsigned(0, 0x10, 0), 0x1001);
    assert_eq!(unsigned(0, 0x10, IMPORTED), 0);
    assert_eq!(unsigned(SECTION, 0x10, IMPORTED), 0x1001);
    assert_eq!(unsigned(0, 0x10, THREAD_LOCAL), 0xff1);
    assert_eq!(unsigned(SECTION, 0x10, THREAD_LOCAL), 0xff1);

    // Reports name their own entry: the consumed one is passed over.
    let mut section = words(&[0, 0, 0x9000_0000, NOP, 0xf940_0000]);
    let entries = [
        entry(0, 1, 8, 0, 0),
        entry(0, 0, 8, SECTION, 0),
        entry(8, 3, 4, SECTION, 0),
        entry(12, 6, 4, 0, 0),
        entry(16, 4, 4, 0, 0),
    ];
    let list = [
        Facts { address: 0x10, ..Default::default() },
        Facts { address: 0x30, ..Default::default() },
        Facts { address: far, ..Default::default() },
        Facts { flags: RELAXES, ..Default::default() },
        Facts { address: 4, flags: ADDRESS, ..Default::default() },
    ];
    let fixed = oracle::apply_reloc_alloc(&mut section, 0, 0, &entries.concat(), &list.map(target).concat()).unwrap();
    let expected = [report(2, 1, 0, 8, far), report(3, 4, 0, 0, 0), report(4, 3, 8, 0, 0)];
    assert_eq!(fixed.reports, expected.concat());
    assert_eq!(section[..8], [0x20, 0, 0, 0, 0, 0, 0, 0]);

    assert_eq!(
        oracle::stub(0x1000, 0x2018),
        (words(&[0xb000_0010, 0xf940_0e10, 0xd61f_0200]).try_into().unwrap(), true)
    );
    assert!(!oracle::stub(0, far).1);
    assert!(oracle::stub(0, (1 << 32) - 1).1);
    assert_eq!(oracle::thunk(0x1000, 0x2019), *words(&[0xb000_0010, 0x9100_6610, 0xd61f_0200]));
}

/// A small generator of numbers.
struct Random(u64);

impl Random {
    fn next(&mut self) -> u64 {
        self.0 ^= self.0 << 13;
        self.0 ^= self.0 >> 7;
        self.0 ^= self.0 << 17;
        self.0.wrapping_mul(0x2545_f491_4f6c_dd1d) >> 16
    }

    fn below(&mut self, n: u64) -> u64 {
        self.next() % n
    }

    fn pick<T: Copy>(&mut self, list: &[T]) -> T {
        list[self.below(list.len() as u64) as usize]
    }
}

/// Three words of a sequence for hints of `kind`, with a spot of damage now and then.
fn sequence_words(r: &mut Random, kind: u8) -> [u32; 3] {
    let imm = |r: &mut Random| {
        let any = r.below(0x1000) as u32;
        r.pick(&[0, 0, 0, 1, 2, 8, 0x10, 0x3ff, 0xfff, any]) << 10
    };
    let adrp = |r: &mut Random, rd: u32| {
        let pages = r.pick(&[0, 0x20, 0xff_ffe0, 0x4000, 0x80_0000]) | r.pick(&[0, 0, 3]) << 29;
        0x9000_0000 | pages | rd
    };
    let access = |r: &mut Random, base: u32, stores: bool| {
        let list: &[u32] = if stores {
            &[0xf900, 0xb900, 0x3d80, 0xbd00, 0xfd00, 0x3900, 0x7900]
        } else {
            &[0xf940, 0xb940, 0xb980, 0x3dc0, 0xbd40, 0xfd40, 0x3940, 0x3980, 0x7940]
        };
        r.pick(list) << 16 | imm(r) | base << 5 | r.pick(&[0, 1, 2, 17, 31])
    };
    let page_reg = r.pick(&[0, 1, 31]);
    let made_reg = if r.below(2) == 0 { page_reg } else { r.pick(&[0, 1, 2, 31]) };
    let add = 0x9100_0000 | imm(r) | page_reg << 5 | made_reg;
    let slot = 0xf940_0000 | imm(r) | page_reg << 5 | made_reg;
    let second = match kind {
        1 => adrp(r, page_reg),
        2 => access(r, page_reg, false),
        4 | 6 | 8 => r.pick(&[add, slot]),
        _ => add,
    };
    let stores = if r.below(8) == 0 { r.below(2) == 0 } else { [5, 6].contains(&kind) };
    let mut list = [adrp(r, page_reg), second, access(r, made_reg, stores)];
    if kind == 1 && r.below(2) == 0 {
        list[1] = list[0];
    }
    if r.below(10) == 0 {
        list[r.below(3) as usize] ^= 1 << r.below(32);
    }
    list
}

/// The oracle's walk against the Rust's own, and how often each rule acted on each kind.
fn hint_runs() {
    let mut r = Random(0x9e37_79b9_7f4a_7c15);
    let mut seen = BTreeMap::new();
    let (mut compared, mut overflowed, mut others) = (0, 0, 0);
    for _ in 0..100_000 {
        let n_hints = 1 + r.below(4) as usize;
        let n_words = 3 * n_hints;
        let kinds: Vec<u8> = (0..n_hints).map(|_| r.below(10) as u8).collect();
        let mut list = vec![NOP];
        let mut entries = Vec::new();
        for &kind in &kinds {
            list.extend(sequence_words(&mut r, kind));
            let page = if [4, 6, 8].contains(&kind) { r.pick(&[5, 8]) } else { r.pick(&[3, 3, 5, 8]) };
            for ty in [page, if kind == 1 { page } else { page + 1 }, 2] {
                let ty = if r.below(40) == 0 { r.below(11) as u8 } else { ty };
                let (target, addend) = if r.below(40) == 0 { (6, 1) } else { (5, 0) };
                entries.extend(entry(4 * list.len() as u32, ty, 4, target, addend));
            }
        }
        list.push(NOP);
        let image = words(&list);
        let base = r.pick(&[0, 0x1000, 0x10_0000, 0x1_2345_6000, 0xffff_ffff_ffff_0000]);
        let start = r.pick(&[0, 4]);
        let mut hints = Vec::new();
        for (h, &kind) in kinds.iter().enumerate() {
            let count = match kind {
                _ if r.below(30) == 0 => r.below(4) as usize,
                3..=6 => 3,
                _ => 2,
            };
            let places: Vec<_> = (0..count)
                .map(|i| {
                    let elsewhere = r.below(40) == 0;
                    let w = if elsewhere { r.below(n_words as u64) as usize } else { 3 * h + i };
                    let has_entry = if i == 2 { r.below(20) == 0 } else { r.below(40) != 0 };
                    // Now and then a word that overlaps another.
                    let shift = if r.below(60) == 0 { r.below(4) as u32 } else { 0 };
                    let at = 4 * (w as u32 + 1) + shift;
                    (at - start, if has_entry { w as u32 } else { NO_ENTRY }, base + at as u64)
                })
                .collect();
            let part = (start, image.len() as u32 - start);
            hints.extend(hint(kind, r.below(3) as u32, part, &places));
        }
        let (mut walked, mut linked) = (image.clone(), image.clone());
        let run = oracle::apply_hints(&mut walked, &hints, &entries).unwrap();
        for (i, acted) in run.acted.iter().enumerate() {
            *seen.entry((hints[64 * i], acted.rule as u8, acted.changed)).or_insert(0) += 1;
        }
        assert_eq!(run.tally.iter().sum::<u32>() as usize, n_hints);
        match oracle::apply_hints_linked(&mut linked, &hints, &entries) {
            None => others += 1,
            Some(Err(Stop::Overflow(_))) => {
                assert!(run.tally[3] > 0);
                overflowed += 1;
            }
            Some(done) => {
                assert_eq!((done, run.tally[3]), (Ok(run.words), 0));
                assert_eq!(walked, linked);
                compared += 1;
            }
        }
    }
    check_rules(&seen);
    println!("{compared} runs equal to the Rust's own, {overflowed} overflow in both");
    println!("{others} runs that the Rust's own cannot say");
    assert!(compared > 10_000 && overflowed > 100);
}

/// Each kind with each rule that acts on it and the places that this writes, and none else.
fn check_rules(seen: &BTreeMap<(u8, u8, u8), u32>) {
    println!("kind  rule  places  hints");
    for ((kind, rule, changed), count) in seen {
        println!("{kind:4} {rule:5} {changed:7} {count:6}");
    }
    let mut due = Vec::new();
    for kind in 0..10 {
        let written: &[(Rule, u8)] = match kind {
            1 => &[(Rule::SecondAdrp, 1)],
            2 => &[(Rule::Literal, 2)],
            3 => &[(Rule::Literal, 3), (Rule::Adr, 3), (Rule::Fold, 2)],
            4 => &[(Rule::Literal, 3), (Rule::Adr, 2), (Rule::Fold, 2), (Rule::GotSlot, 2)],
            5 => &[(Rule::Adr, 3), (Rule::Fold, 2)],
            6 => &[(Rule::Adr, 2), (Rule::Fold, 2), (Rule::GotSlot, 2)],
            7 => &[(Rule::Adr, 2)],
            8 => &[(Rule::Adr, 2), (Rule::GotSlot, 2)],
            _ => &[],
        };
        due.push((kind, 0, 0));
        due.extend((1..9).contains(&kind).then_some((kind, 1, 0)));
        due.extend(written.iter().map(|&(rule, changed)| (kind, rule as u8, changed)));
        due.extend([2, 3, 4, 5, 6, 8].contains(&kind).then_some((kind, 7, 0)));
    }
    assert!(seen.keys().eq(&due));
}

/// Values: each end of a width, a spelling that is longer than it need be, bits that are dropped, and bytes that end.
fn values() {
    let read = |mut bytes: &[u8]| oracle::read_uleb(&mut bytes).map(|n| (n, bytes.len()));
    for (value, spelling) in [(0, &[0][..]), (127, &[0x7f]), (128, &[0x80, 1]), (0x4fc4, &[0xc4, 0x9f, 1])] {
        let mut encoded = Vec::new();
        oracle::encode_uleb(&mut encoded, value);
        assert_eq!((&encoded[..], oracle::uleb_size(value)), (spelling, spelling.len()));
        assert_eq!(read(&[spelling, &[9]].concat()), Ok((value, 1)));
    }
    let nine = [0xff; 9];
    assert_eq!(read(&[&nine[..], &[1]].concat()), Ok((u64::MAX, 0)));
    assert_eq!(read(&[&nine[..], &[3]].concat()), Ok((u64::MAX, 0)));
    assert_eq!(read(&[0x80, 0x80, 0]), Ok((0, 0)));
    for cut_off in [&[][..], &[0x80], &nine] {
        let stop = read(cut_off).unwrap_err();
        assert!(matches!(stop, Stop::CutOff(_)) && stop.payload_number() == Some(13), "{stop:?}");
    }
}

fn main() {
    twelve_examples();
    stops();
    records_x86_64();
    stops_x86_64();
    facts();
    values();
    rules();
    hint_runs();
    println!("self-test passed");
}
