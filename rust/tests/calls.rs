//! Every call, with each refusal that it can give and the lent bytes unchanged after it.

use std::mem::MaybeUninit;

use hauklivo::{
    HintInsn, HintRecord, LoadStoreClass, MachRel, Record, Refusal, Reloc, Report, ReportKind, Resolved, Tally, Target,
    flag, kind, load_store_class, ty, ty_x86_64, typed,
};

const FILL: u8 = 0xa5;
const NOP: u32 = 0xd503201f;
const LDR_X: u32 = 0xf9400000;

fn bytes(words: &[u32]) -> Vec<u8> {
    words.iter().flat_map(|w| w.to_le_bytes()).collect()
}

fn record(offset: u32, bits: u32) -> MachRel {
    MachRel { offset, bits }
}

/// The entries that a reader fills in so many bytes of slots. Those that are not filled must keep their
/// bytes.
fn filled(slots: usize, reader: impl Fn(&mut [u8]) -> Result<usize, Refusal>) -> Result<Vec<Reloc>, Refusal> {
    let mut slots = vec![FILL; slots];
    let done = reader(&mut slots);
    let kept = 24 * done.unwrap_or(0);
    assert!(slots[kept..].iter().all(|&b| b == FILL));
    done.map(|_| Reloc::list(&slots[..kept]).unwrap())
}

const SECTIONS: [u64; 2] = [0x4000, 0x8000];

/// What the reader makes of `records` in 16 bytes whose words are NOP.
fn read(records: &[u8], slots: usize) -> Result<Vec<Reloc>, Refusal> {
    filled(slots, |slots| hauklivo::read_relocs(&bytes(&[NOP; 4]), records, &SECTIONS, slots))
}

fn read_all(records: &[MachRel]) -> Result<Vec<Reloc>, Refusal> {
    read(MachRel::bytes(records), 24 * records.len() + 5)
}

#[test]
fn reader_reads() {
    assert_eq!(read_all(&[]), Ok(vec![]));
    // ADDEND -1 and PAGE21 of symbol 5: the offset is the ADDEND record's.
    let entry = Reloc { offset: 4, ty: ty::PAGE21, size: 4, is_pcrel: 1, target: 5, addend: -1, ..Reloc::default() };
    assert_eq!(read_all(&[record(4, 0xa4ffffff), record(8, 0x3d000005)]), Ok(vec![entry]));
    // A difference: SUBTRACTOR, then the UNSIGNED of 4 bytes that it takes, stored as NOP.
    let pair = [record(0, 0x1c000001), record(0, 0x0c000002)];
    let first = Reloc { ty: ty::SUBTRACTOR, size: 4, target: 1, ..Reloc::default() };
    let addend = i64::from(NOP as i32);
    let second = Reloc { size: 4, is_subtracted: 1, target: 2, addend, ..Reloc::default() };
    assert_eq!(read_all(&pair), Ok(vec![first, second]));
    // A pointer into section 2, less its address.
    let read = read_all(&[record(0, 0x06000002)]).unwrap();
    assert_eq!(read[0].target(), Target::Section(1));
    assert_eq!(read[0].addend, 0xd503201f_d503201f_u64.wrapping_sub(0x8000) as i64);
}

#[test]
fn reader_refuses() {
    let one = record(0, 0x3d000005).to_bytes();
    assert_eq!(read(&one[..7], 24), Err(Refusal::Lengths));
    assert_eq!(read(&one, 23), Err(Refusal::Slots));
    assert_eq!(read_all(&[record(17, 0x3d000005)]), Err(Refusal::Bounds));
    assert_eq!(read_all(&[record(13, 0x9c000000)]), Err(Refusal::Bounds));
    assert_eq!(read_all(&[record(9, 0x0e000000)]), Err(Refusal::Bounds));
    assert_eq!(read_all(&[record(0, 0xa4000000)]), Err(Refusal::LoneAddend));
    assert_eq!(read_all(&[record(0, 0x0c000000)]), Err(Refusal::Unsupported));
    assert_eq!(read_all(&[record(0, 0x9c000000)]), Err(Refusal::Unfit));
    assert_eq!(read_all(&[record(0, 0x06000000)]), Err(Refusal::NoSection));
    assert_eq!(read_all(&[record(0, 0x06000003)]), Err(Refusal::NoSection));
    // A good record before a bad one is not kept.
    assert_eq!(read_all(&[record(0, 0x3d000005), record(0, 0xf0000000)]), Err(Refusal::Unsupported));
}

/// The address of the section whose x86_64 records are read.
const OWN: u64 = 0x6000;

/// What the reader of x86_64 records makes of them in a section at OWN, with words -2, 0x4010, 0x2004, -1.
fn read_x86_64(records: &[u8], slots: usize) -> Result<Vec<Reloc>, Refusal> {
    let contents = bytes(&[-2_i32 as u32, 0x4010, 0x2004, u32::MAX]);
    filled(slots, |slots| hauklivo::read_relocs_x86_64(&contents, records, &SECTIONS, OWN, slots))
}

fn read_all_x86_64(records: &[MachRel]) -> Result<Vec<Reloc>, Refusal> {
    read_x86_64(MachRel::bytes(records), 24 * records.len() + 5)
}

/// The first eight of those bytes as a number.
const STORED: i64 = 0x4010_ffff_fffe;

/// Records of every type, every width and every kind of target: offset, type, log2 of the size, pc-relative, the
/// section where it is not of symbol 5; then, of the entry, subtracted and addend.
const TABLE: [(u32, u8, u8, u8, Option<u32>, u8, i64); 26] = [
    (0, ty_x86_64::BRANCH, 0, 1, None, 0, -2),
    (3, ty_x86_64::BRANCH, 0, 1, None, 0, -1), // a byte of all ones
    (0, ty_x86_64::BRANCH, 2, 1, None, 0, -2),
    (0, ty_x86_64::SIGNED, 2, 1, None, 0, -2),
    (0, ty_x86_64::SIGNED_1, 2, 1, None, 0, -1),
    (0, ty_x86_64::SIGNED_2, 2, 1, None, 0, 0),
    (0, ty_x86_64::SIGNED_4, 2, 1, None, 0, 2),
    (0, ty_x86_64::GOT_LOAD, 2, 1, None, 0, -2),
    (0, ty_x86_64::GOT, 2, 1, None, 0, -2),
    (0, ty_x86_64::TLV, 2, 1, None, 0, -2),
    // Differences, of 4 and of 8 bytes; a SUBTRACTOR reads what is stored, too.
    (4, ty_x86_64::SUBTRACTOR, 2, 0, None, 0, 0x4010),
    (4, ty_x86_64::UNSIGNED, 2, 0, None, 1, 0x4010),
    (0, ty_x86_64::SUBTRACTOR, 3, 0, None, 0, STORED),
    (0, ty_x86_64::UNSIGNED, 3, 0, None, 1, STORED),
    // Whatever follows a SUBTRACTOR is subtracted, and only what follows it directly.
    (0, ty_x86_64::SUBTRACTOR, 2, 0, None, 0, -2),
    (0, ty_x86_64::SUBTRACTOR, 2, 0, None, 1, -2),
    (0, ty_x86_64::SIGNED_4, 2, 1, None, 1, 2),
    (0, ty_x86_64::UNSIGNED, 2, 0, None, 0, -2), // a pointer of 4 bytes alone
    // Pointers into sections, less the section's address.
    (4, ty_x86_64::UNSIGNED, 2, 0, Some(0), 0, 0x10),
    (0, ty_x86_64::UNSIGNED, 3, 0, Some(1), 0, STORED - 0x8000),
    // From the end of the four bytes, 0x600c, 0x2004 and what the type adds, to 0x8000.
    (8, ty_x86_64::SIGNED, 2, 1, Some(1), 0, 0x10),
    (8, ty_x86_64::SIGNED_1, 2, 1, Some(1), 0, 0x11),
    (8, ty_x86_64::SIGNED_2, 2, 1, Some(1), 0, 0x12),
    (8, ty_x86_64::SIGNED_4, 2, 1, Some(1), 0, 0x14),
    (8, ty_x86_64::BRANCH, 2, 1, Some(1), 0, 0x10),
    (12, ty_x86_64::SIGNED, 2, 1, Some(0), 0, 0x200f),
];

#[test]
fn x86_64_reader_reads() {
    assert_eq!(read_all_x86_64(&[]), Ok(vec![]));
    let (mut records, mut entries) = (Vec::new(), Vec::new());
    for (offset, ty, p2size, is_pcrel, section, is_subtracted, addend) in TABLE {
        let (idx, target) = section.map_or((5, 5), |n| (n + 1, Target::Section(n).pack()));
        records.push(MachRel::new(offset, idx, is_pcrel == 1, p2size, section.is_none(), ty));
        entries.push(Reloc {
            offset,
            ty,
            size: 1 << p2size,
            is_pcrel,
            is_subtracted,
            target,
            addend,
            ..Reloc::default()
        });
    }
    assert_eq!(read_all_x86_64(&records), Ok(entries));
    assert!((0..10).all(|ty| TABLE.iter().any(|row| row.1 == ty)));
}

/// Sums of addresses and addends are modulo 2^64.
#[test]
fn x86_64_sums_wrap() {
    let read = |contents: &[u8], bits, sections: &[u64], address| {
        let one = |slots: &mut [u8]| {
            hauklivo::read_relocs_x86_64(contents, &record(8, bits).to_bytes(), sections, address, slots)
        };
        filled(24, one).map(|entries| entries[0].addend)
    };
    let stored = |number: i64| [[FILL; 8], number.to_le_bytes()].concat();
    // SIGNED_4 of a section at 0x10: the own address, 8, 4, 4 and what is stored, less 0x10.
    for (address, number, addend) in
        [(u64::MAX - 15, 0, -0x10), (u64::MAX, 0x7fff_ffff, 0x7fff_fffe), (i64::MAX as u64, 1, i64::MIN), (5, -9, -4)]
    {
        assert_eq!(read(&stored(number), 0x85000001, &[0x10], address), Ok(addend), "{address:x}");
    }
    assert_eq!(read(&stored(i64::MIN), 0x06000001, &[1], 0), Ok(i64::MAX));
    assert_eq!(read(&stored(i64::MAX), 0x06000001, &[u64::MAX], 0), Ok(i64::MIN));
    assert_eq!(read(&stored(0x10), 0x06000001, &[1 << 63], 7), Ok(i64::MIN + 0x10));
}

/// Of the 256 forms that a record can have, 20 are read, each with all the bytes of its place.
#[test]
fn x86_64_forms() {
    let supported = [
        0x04, 0x06, 0x0c, 0x0e, 0x15, 0x1d, 0x25, 0x29, 0x2d, 0x3d, 0x4d, 0x5c, 0x5e, 0x65, 0x6d, 0x75, 0x7d, 0x85,
        0x8d, 0x9d,
    ];
    for form in 0..256 {
        let done = read_all_x86_64(&[record(0, form << 24 | 1)]);
        if !supported.contains(&form) {
            assert_eq!(done, Err(Refusal::Unsupported), "{form:x}");
            continue;
        }
        assert_eq!(done.map(|entries| entries.len()), Ok(1), "{form:x}");
        let last = 16 - (1 << (form >> 1 & 3));
        assert!(read_all_x86_64(&[record(last, form << 24 | 1)]).is_ok(), "{form:x}");
        for offset in [last + 1, 16, 17, u32::MAX] {
            assert_eq!(read_all_x86_64(&[record(offset, form << 24 | 1)]), Err(Refusal::Bounds), "{form:x} {offset}");
        }
    }
}

#[test]
fn x86_64_reader_refuses() {
    let one = record(0, 0x1d000005).to_bytes();
    assert_eq!(read_x86_64(&one[..7], 24), Err(Refusal::Lengths));
    assert_eq!(read_x86_64(&one, 23), Err(Refusal::Slots));
    for section in [0, 3, 0xffffff] {
        for form in [0x04, 0x06, 0x15, 0x25, 0x65, 0x75, 0x85] {
            assert_eq!(read_all_x86_64(&[record(0, form << 24 | section)]), Err(Refusal::NoSection));
        }
    }
    // A good record before a bad one is not kept.
    assert_eq!(
        read_all_x86_64(&[record(0, 0x1d000005), record(0, 0x29000005), record(0, 0xad000005)]),
        Err(Refusal::Unsupported)
    );
}

/// Where two numbers apply, the first of the documented order comes back; of two records, the first one's.
#[test]
fn x86_64_numbers_in_order() {
    let read = |records: &[(u32, u32)]| {
        let records: Vec<_> = records.iter().map(|&(offset, bits)| record(offset, bits)).collect();
        read_all_x86_64(&records).unwrap_err()
    };
    let [unsupported, past, absent] = [(0, 0xad000005), (13, 0x1d000005), (0, 0x15000003)];
    assert_eq!(read_x86_64(&[0xff; 7], 0), Err(Refusal::Lengths)); // not Slots
    assert_eq!(read_x86_64(&[0xff; 8], 23), Err(Refusal::Slots)); // not Unsupported
    assert_eq!(read(&[(17, 0xad000005)]), Refusal::Unsupported); // not Bounds
    assert_eq!(read(&[(13, 0x35000005)]), Refusal::Unsupported); // not Bounds, not NoSection
    assert_eq!(read(&[(13, 0x15000003)]), Refusal::Bounds); // not NoSection
    for (first, due) in [(unsupported, Refusal::Unsupported), (past, Refusal::Bounds), (absent, Refusal::NoSection)] {
        for second in [unsupported, past, absent] {
            assert_eq!(read(&[first, second]), due);
        }
    }
}

/// A section after a fix-up with thread-local storage from 0x100, and the reports. What is not to be
/// written must keep its bytes.
fn fix_bytes(
    section: &[u8],
    base: u64,
    entries: &[u8],
    targets: &[u8],
    slots: usize,
) -> Result<(Vec<u8>, Vec<Report>), Refusal> {
    let mut after = section.to_vec();
    let mut slots = vec![FILL; slots];
    let done = hauklivo::apply_reloc_alloc(&mut after, base, 0x100, 0, entries, targets, &mut slots);
    let kept = 24 * done.unwrap_or(0);
    assert!(slots[kept..].iter().all(|&b| b == FILL));
    assert!(done.is_ok() || after == section);
    done.map(|_| (after, Report::list(&slots[..kept]).unwrap()))
}

fn fix(words: &[u32], pairs: &[(Reloc, Resolved)]) -> Result<(Vec<u8>, Vec<Report>), Refusal> {
    let (entries, targets): (Vec<_>, Vec<_>) = pairs.iter().copied().unzip();
    let slots = 24 * pairs.len() + 5;
    fix_bytes(&bytes(words), 0x1000, Reloc::bytes(&entries), Resolved::bytes(&targets), slots)
}

fn entry(offset: u32, ty: u8, size: u8) -> Reloc {
    Reloc { offset, ty, size, ..Reloc::default() }
}

fn at(address: u64) -> Resolved {
    Resolved { address, flags: flag::HAS_ADDRESS, ..Resolved::default() }
}

#[test]
fn fixup_fixes() {
    assert_eq!(fix(&[], &[]), Ok((vec![], vec![])));
    let branch = Resolved { branch: 0xffc, ..Resolved::default() };
    assert_eq!(fix(&[0x94000000], &[(entry(0, ty::BRANCH26, 4), branch)]), Ok((bytes(&[0x97ffffff]), vec![])));
    let tls = Resolved { flags: flag::HAS_ADDRESS | flag::THREAD_LOCAL, ..at(0x180) };
    assert_eq!(fix(&[7, 8], &[(entry(0, ty::UNSIGNED, 8), tls)]), Ok((bytes(&[0x80, 0]), vec![])));
    let pair = [(entry(4, ty::SUBTRACTOR, 4), at(0x3000)), (entry(4, ty::UNSIGNED, 4), at(0x2ff0))];
    assert_eq!(fix(&[7, 8], &pair), Ok((bytes(&[7, 0xfffffff0]), vec![])));
    let relaxed = Resolved { flags: flag::RELAXES_GOT, ..at(0x1234) };
    let got = entry(0, ty::GOT_LOAD_PAGEOFF12, 4);
    assert_eq!(fix(&[LDR_X], &[(got, relaxed)]), Ok((bytes(&[0x9108d000]), vec![])));
}

#[test]
fn fixup_reports() {
    let told = |words: &[u32], e: Reloc, t: Resolved| {
        let (after, reports) = fix(words, &[(e, t)]).unwrap();
        assert_eq!(reports.len(), 1);
        (after != bytes(words), reports[0].kind().unwrap(), reports[0].place, reports[0].target)
    };
    let far = 0x1_0000_2000;
    let adrp = told(&[0x90000000], entry(0, ty::PAGE21, 4), at(far));
    assert_eq!(adrp, (true, ReportKind::AdrpReach, 0x1000, far));
    let bl = told(&[0x94000000], entry(0, ty::BRANCH26, 4), Resolved { branch: far, ..at(0) });
    assert_eq!(bl, (true, ReportKind::BranchReach, 0x1000, far));
    let load = told(&[LDR_X], entry(0, ty::PAGEOFF12, 4), at(0x1234));
    assert_eq!(load, (false, ReportKind::Alignment(8), 0, 0));
    let relaxed = Resolved { flags: flag::RELAXES_GOT, ..at(0x1234) };
    let other = told(&[NOP], entry(0, ty::TLVP_LOAD_PAGEOFF12, 4), relaxed);
    assert_eq!(other, (false, ReportKind::NonLdr, 0, 0));
}

/// A branch reaches from -2^27 to 2^27 - 1. At 2^27 it goes by the thunk, or there is a report.
#[test]
fn reach_of_branches() {
    let bl = |displacement: i64, thunk: Option<u64>| {
        let flags = if thunk.is_some() { flag::HAS_THUNK } else { 0 };
        let branch = 0x1000_u64.wrapping_add_signed(displacement);
        let target = Resolved { branch, thunk: thunk.unwrap_or(0), flags, ..Resolved::default() };
        let (after, reports) = fix(&[0x94000000], &[(entry(0, ty::BRANCH26, 4), target)]).unwrap();
        (after, reports.first().map(|report| report.kind().unwrap()))
    };
    for thunk in [None, Some(0x1010)] {
        assert_eq!(bl((1 << 27) - 4, thunk), (bytes(&[0x95ffffff]), None));
        assert_eq!(bl(-1 << 27, thunk), (bytes(&[0x96000000]), None));
    }
    for far in [1 << 27, (-1 << 27) - 4] {
        assert_eq!(bl(far, None).1, Some(ReportKind::BranchReach));
        assert_eq!(bl(far, Some(0x1010)), (bytes(&[0x94000004]), None));
    }
}

#[test]
fn fixup_refuses() {
    let pointer = entry(0, ty::UNSIGNED, 8).to_bytes();
    let target = at(0x2000).to_bytes();
    let lists =
        |entries: &[u8], targets: &[u8], slots| fix_bytes(&[FILL; 8], 0x1000, entries, targets, slots).unwrap_err();
    assert_eq!(lists(&pointer[..23], &target, 24), Refusal::Lengths);
    assert_eq!(lists(&pointer, &target[..47], 24), Refusal::Lengths);
    assert_eq!(lists(&pointer, &[], 24), Refusal::Lengths);
    assert_eq!(lists(&pointer, &target, 23), Refusal::Slots);
    let overflow = fix_bytes(&[FILL; 8], u64::MAX, &entry(1, 0, 8).to_bytes(), &target, 24);
    assert_eq!(overflow, Err(Refusal::Overflow));

    let one = |e: Reloc, t: Resolved| fix(&[NOP, NOP], &[(e, t)]).unwrap_err();
    assert_eq!(one(entry(9, ty::UNSIGNED, 8), at(0)), Refusal::Bounds);
    assert_eq!(one(entry(4, ty::UNSIGNED, 8), at(0)), Refusal::Bounds);
    assert_eq!(one(entry(0, ty::ADDEND, 4), at(0)), Refusal::Unsupported);
    assert_eq!(one(entry(0, ty::SUBTRACTOR, 8), at(0)), Refusal::LoneSubtractor);
    let section = Reloc { target: Target::Section(0).pack(), ..entry(0, ty::POINTER_TO_GOT, 4) };
    assert_eq!(one(section, at(0)), Refusal::NeedsSymbol);
    assert_eq!(one(entry(0, ty::UNSIGNED, 8), Resolved { flags: 0x200, ..at(0) }), Refusal::Flags);
    let both = flag::PROBE | flag::IS_ENABLED;
    assert_eq!(one(entry(0, ty::UNSIGNED, 8), Resolved { flags: both, ..at(0) }), Refusal::Flags);
    assert_eq!(one(entry(0, ty::UNSIGNED, 8), Resolved { zero: 1, ..at(0) }), Refusal::Flags);
    // A good entry before a bad one is not applied: fix_bytes looks.
    let late = [(entry(0, ty::UNSIGNED, 8), at(0)), (entry(0, 200, 8), at(0))];
    assert_eq!(fix(&[NOP, NOP], &late), Err(Refusal::Unsupported));
}

/// Where two numbers apply, the first of the documented order comes back.
#[test]
fn numbers_in_order() {
    let read = |offset, bits| read_all(&[record(offset, bits)]).unwrap_err();
    assert_eq!(read(17, 0xa4000000), Refusal::Bounds); // not LoneAddend
    assert_eq!(read(17, 0x9d000000), Refusal::Bounds); // not Unsupported
    assert_eq!(read(13, 0x9d000000), Refusal::Unsupported); // not Bounds
    assert_eq!(read(13, 0x9c000000), Refusal::Bounds); // not Unfit
    assert_eq!(read(9, 0x06000003), Refusal::Bounds); // not NoSection

    let fix = |e: Reloc, t: Resolved| fix(&[NOP, NOP], &[(e, t)]).unwrap_err();
    let odd = Resolved { flags: 0x200, ..at(0) };
    assert_eq!(fix(entry(9, ty::UNSIGNED, 8), odd), Refusal::Bounds); // not Flags
    assert_eq!(fix(entry(4, ty::UNSIGNED, 8), odd), Refusal::Flags); // not Bounds
    assert_eq!(fix(entry(6, 200, 8), odd), Refusal::Flags); // not Unsupported
    assert_eq!(fix(entry(6, ty::SUBTRACTOR, 8), at(0)), Refusal::LoneSubtractor); // not Bounds
    let section = Reloc { target: Target::SECTION, ..entry(6, ty::POINTER_TO_GOT, 4) };
    assert_eq!(fix(section, at(0)), Refusal::NeedsSymbol); // not Bounds
    let high = fix_bytes(&[FILL; 8], u64::MAX, Reloc::bytes(&[entry(1, 200, 8)]), &at(0).to_bytes(), 24);
    assert_eq!(high, Err(Refusal::Overflow)); // not Unsupported
}

#[test]
fn stub_and_thunk() {
    let mut short = [FILL; 11];
    assert_eq!(hauklivo::write_stub(&mut short, 0x1000, 0x2010), Err(Refusal::Bounds));
    assert_eq!(hauklivo::write_thunk(&mut short, 0x1000, 0x2014), Err(Refusal::Bounds));
    assert_eq!(short, [FILL; 11]);

    let mut buf = [FILL; 13];
    assert_eq!(hauklivo::write_stub(&mut buf, 0x1000, 0x2010), Ok(true));
    assert_eq!(buf[..12], bytes(&[0xb0000010, 0xf9400a10, 0xd61f0200]));
    assert_eq!(hauklivo::write_stub(&mut buf, 0, 1 << 32), Ok(false));
    assert_eq!(hauklivo::write_thunk(&mut buf, 0x1000, 0x2014), Ok(()));
    assert_eq!(buf[..12], bytes(&[0xb0000010, 0x91005210, 0xd61f0200]));
    assert_eq!(buf[12], FILL);
}

/// The halves of one reference, to symbol 5.
fn halves() -> [Reloc; 2] {
    let page = Reloc { ty: ty::PAGE21, size: 4, is_pcrel: 1, target: 5, ..Reloc::default() };
    [page, Reloc { ty: ty::PAGEOFF12, ..page }]
}

/// A hint whose words stand one after another from `start`, the first at `address`, with the entries
/// 0 and 1 on the first two.
fn hint(kind: u8, words: u8, object: u32, start: u32, address: u64) -> HintRecord {
    let place = |i: u32, entry| HintInsn { offset: 4 * i, entry, address: address.wrapping_add(4 * u64::from(i)) };
    let places = [place(0, 0), place(1, 1), place(2, HintInsn::WITHOUT_ENTRY)];
    HintRecord { kind, words, object, start, length: 4 * u32::from(words), places, ..HintRecord::default() }
}

/// An image after a run. One that is turned down must keep its bytes.
fn work_bytes(image: &[u8], hints: &[u8], entries: &[u8]) -> Result<(Vec<u8>, Tally), Refusal> {
    let mut after = image.to_vec();
    let done = hauklivo::apply_hints(&mut after, hints, entries);
    assert!(done.is_ok() || after == image);
    done.map(|tally| (after, tally))
}

fn work(words: &[u32], hints: &[HintRecord]) -> Result<(Vec<u8>, Tally), Refusal> {
    work_bytes(&bytes(words), HintRecord::bytes(hints), Reloc::bytes(&halves()))
}

#[test]
fn hints_work() {
    assert_eq!(work_bytes(&[], &[], &[]), Ok((vec![], Tally::default())));
    let one = Tally { rewritten: 1, ..Tally::default() };
    for (kind, before, after) in [
        (kind::ADRP_LDR, vec![0x90000000, 0xf9400401], [NOP, 0x58000021].to_vec()),
        (kind::ADRP_ADD, vec![0x90000000, 0x91000c00], [0x70000000, NOP].to_vec()),
        (kind::ADRP_ADD_STR, vec![0x90001000, 0x91004000, 0xf9000001], vec![0x90001000, NOP, 0xf9000801]),
    ] {
        let hints = [hint(kind, before.len() as u8, 0, 0, 0x1000)];
        assert_eq!(work(&before, &hints), Ok((bytes(&after), one)));
    }
    // One of each count.
    let hints = [
        hint(kind::ADRP_LDR, 2, 2, 0, 0x1000),
        hint(9, 2, 1, 0, 0x1000),
        hint(kind::ADRP_ADD, 2, 1, 8, 0x1000),
        hint(kind::ADRP_LDR, 2, 1, 16, 0xfffffffffffff000),
    ];
    let mut words = [0x90000000, 0xf9400401, 0x90008000, 0x91000000, 0x90000001, 0xbd29d025];
    let answer = work(&words, &hints);
    words[..2].copy_from_slice(&[NOP, 0x58000021]);
    let each = Tally { rewritten: 1, skipped: 1, declined: 1, turned_down: 1 };
    assert_eq!(answer, Ok((bytes(&words), each)));
}

#[test]
fn hints_refuse() {
    let image = bytes(&[0x90000000, 0x91000c00]);
    let good = hint(kind::ADRP_ADD, 2, 0, 0, 0x1000);
    let pair = Reloc::bytes(&halves()).to_vec();
    let lists = |hints: &[u8], entries: &[u8]| work_bytes(&image, hints, entries).unwrap_err();
    assert_eq!(lists(&[0; 7], &pair), Refusal::Lengths);
    assert_eq!(lists(&good.to_bytes(), &pair[..23]), Refusal::Lengths);
    assert_eq!(lists(&good.to_bytes(), &pair[..24]), Refusal::NoEntry);

    // After a good hint, so that nothing of it is kept.
    let one = |bad: HintRecord| lists(HintRecord::bytes(&[good, bad]), &pair);
    assert_eq!(one(HintRecord { start: 1, ..good }), Refusal::Bounds);
    assert_eq!(one(HintRecord { length: 7, ..good }), Refusal::Bounds);
    let mut absent = good;
    absent.places[1].entry = 2;
    assert_eq!(one(absent), Refusal::NoEntry);
    // Bounds go first, and a skipped hint is not looked at.
    assert_eq!(one(HintRecord { length: 7, ..absent }), Refusal::Bounds);
    assert_eq!(
        Refusal::Bounds.to_string(),
        "3: a place is past its bytes, a word past its part, or a part past the image"
    );
    // A place that nothing is said of names no entry.
    let unsaid = HintRecord { places: [HintInsn::default(); 3], ..good };
    assert_eq!(work_bytes(&image, &unsaid.to_bytes(), &[]).map(|(_, tally)| tally.declined), Ok(1));
    let skipped = HintRecord { words: 3, start: 1, ..absent };
    let tally = Tally { rewritten: 1, skipped: 1, ..Tally::default() };
    let done = work_bytes(&image, HintRecord::bytes(&[good, skipped]), &pair);
    assert_eq!(done, Ok((bytes(&[0x70000000, NOP]), tally)));
}

/// The x86_64 reader over records answers as that over bytes, and leaves what that leaves.
#[test]
fn typed_x86_64() {
    let contents = bytes(&[NOP, NOP, 0x4010, 0]);
    let records = [record(8, 0x15000001), record(0, 0x0c000005)];
    let fill = Reloc::from([FILL; 24]);
    let mut slots = [fill; 3];
    let mut read = |sections: &[u64], room: usize| {
        let done = typed::read_relocs_x86_64(&contents, &records, sections, OWN, &mut slots[..room]);
        (done, slots)
    };
    assert_eq!(read(&SECTIONS, 1), (Err(Refusal::Slots), [fill; 3]));
    assert_eq!(read(&[], 3), (Err(Refusal::NoSection), [fill; 3]));
    let (done, entries) = read(&SECTIONS, 3);
    let mut as_bytes = [FILL; 72];
    assert_eq!(hauklivo::read_relocs_x86_64(&contents, MachRel::bytes(&records), &SECTIONS, OWN, &mut as_bytes), done);
    assert_eq!((done, entries[0].addend, Reloc::bytes(&entries)), (Ok(2), 0x601c, &as_bytes[..]));
}

/// The functions over records answer as those over bytes, and leave what those leave.
#[test]
fn typed_calls() {
    let contents = bytes(&[0x94000000, NOP, 0x4010, 0]);
    let records = [record(0, 0x2d000005), record(8, 0x06000001)];
    let (fill, filler) = (Reloc::from([FILL; 24]), Report::from([FILL; 24]));
    let mut entries = [fill; 3];
    assert_eq!(typed::read_relocs(&contents, &records, &[0x4000], &mut entries[..1]), Err(Refusal::Slots));
    assert_eq!(typed::read_relocs(&contents, &records, &[], &mut entries), Err(Refusal::NoSection));
    assert_eq!(entries, [fill; 3]);
    assert_eq!(typed::read_relocs(&contents, &records, &[0x4000], &mut entries), Ok(2));
    let mut as_bytes = [FILL; 72];
    assert_eq!(hauklivo::read_relocs(&contents, MachRel::bytes(&records), &[0x4000], &mut as_bytes), Ok(2));
    assert_eq!(Reloc::bytes(&entries), as_bytes);

    let targets = [Resolved { branch: 0x1_0000_2000, ..at(0) }, at(0x2000)];
    let (mut section, mut reports) = (contents.clone(), [filler; 3]);
    let mut fix = |targets: &[Resolved], room: usize| {
        let slots = &mut reports[..room];
        let done = typed::apply_reloc_alloc(&mut section, 0x1000, 0, 0, &entries[..2], targets, slots);
        (done, section.clone(), reports)
    };
    assert_eq!(fix(&targets[..1], 3), (Err(Refusal::Lengths), contents.clone(), [filler; 3]));
    assert_eq!(fix(&targets, 1), (Err(Refusal::Slots), contents.clone(), [filler; 3]));
    let (done, after, reports) = fix(&targets, 3);
    assert_eq!(done, Ok(1));
    assert_eq!((reports[0].entry, reports[0].kind()), (0, Some(ReportKind::BranchReach)));
    assert_eq!(reports[1..], [filler; 2]);
    assert_eq!(after[8..], bytes(&[0x2010, 0]));
    let (entries, targets) = (Reloc::bytes(&entries[..2]), Resolved::bytes(&targets));
    assert_eq!(fix_bytes(&contents, 0x1000, entries, targets, 48), Ok((after, reports[..1].to_vec())));

    let hints = [hint(kind::ADRP_ADD, 2, 0, 0, 0x1000)];
    let mut image = bytes(&[0x90000000, 0x91000c00]);
    assert_eq!(typed::apply_hints(&mut image, &hints, &halves()[..1]), Err(Refusal::NoEntry));
    assert_eq!(image, bytes(&[0x90000000, 0x91000c00]));
    let tally = Tally { rewritten: 1, ..Tally::default() };
    assert_eq!(typed::apply_hints(&mut image, &hints, &halves()), Ok(tally));
    assert_eq!(image, bytes(&[0x70000000, NOP]));
}

/// The text of words in `room` bytes. What is not to be written must keep its bytes.
fn listed(words: &[u8], room: usize) -> Result<String, Refusal> {
    let mut out = vec![FILL; room];
    let done = hauklivo::list(words, &mut out);
    assert!(out[done.unwrap_or(0)..].iter().all(|&b| b == FILL));
    done.map(|n| String::from_utf8(out[..n].to_vec()).unwrap())
}

#[test]
fn lister_lists() {
    assert_eq!(listed(&[], 0), Ok(String::new()));
    let words = bytes(&[0x90000000, 0x91000400, 0xf9400001, 0x3d800000, NOP]);
    let text = "00000000 90000000 adrp\n00000004 91000400 add\n00000008 f9400001 load 8\n\
                0000000c 3d800000 store 16\n00000010 d503201f other\n";
    assert_eq!(listed(&words, 5 * hauklivo::LINE), Ok(text.to_owned()));
    assert_eq!(listed(&words, 200).as_deref(), Ok(text));
    let most = listed(&[0; 16384], 4096 * hauklivo::LINE).unwrap();
    assert_eq!(most.lines().count(), 4096);
    assert_eq!(most.lines().last(), Some("00003ffc 00000000 other"));
}

#[test]
fn lister_refuses() {
    assert_eq!(listed(&[0; 7], 100), Err(Refusal::Lengths));
    assert_eq!(listed(&[0; 8], 2 * hauklivo::LINE - 1), Err(Refusal::Slots));
    assert_eq!(listed(&[0; 16388], 5000 * hauklivo::LINE), Err(Refusal::Slots));
    // 2 goes first.
    assert_eq!(listed(&[0; 16385], 5000 * hauklivo::LINE), Err(Refusal::Slots));
    assert_eq!(listed(&[0; 9], 0), Err(Refusal::Slots));
}

/// The class of these bytes moved; `bits` has 4 for a store, 2 for a vector register, 1 for LDRSW.
fn class(bytes: u8, bits: u8) -> Option<LoadStoreClass> {
    let [is_store, is_vector, is_ldrsw] = [4, 2, 1].map(|bit| bits & bit != 0);
    Some(LoadStoreClass { bytes, is_store, is_vector, is_ldrsw })
}

#[test]
fn classes() {
    for (word, due) in [
        (0x39000000, class(1, 4)),  // strb
        (0x39c00000, class(1, 0)),  // ldrsb w
        (0x3d400000, class(1, 2)),  // ldr b
        (0x3d800000, class(16, 6)), // str q
        (0x3dc00000, class(16, 2)), // ldr q
        (0x79800000, class(2, 0)),  // ldrsh x
        (0xb9000000, class(4, 4)),  // str w
        (0xb9800000, class(4, 1)),  // ldrsw
        (LDR_X, class(8, 0)),
        (0xfd000000, class(8, 6)), // str d
        (0x7d400000, class(2, 2)), // ldr h
        (0xbd400000, class(4, 2)), // ldr s
        (0xbdc00000, None),        // unallocated
        (0xf9800000, None),        // prfm
        (0xb8404400, None),        // ldr w0, [x0], #4, without a scaled offset
        (NOP, None),
    ] {
        assert_eq!(load_store_class(word), due, "{word:08x}");
    }
}

/// Words of vector registers that the manual leaves unallocated are no loads, and a hint that holds one declines before
/// any sum. A page offset is scaled by their size.
#[test]
fn unallocated_words() {
    let declined = Tally { declined: 1, ..Tally::default() };
    for (word, size) in [(0x7d800000, 2), (0x7dc00000, 2), (0xbd800000, 4)] {
        assert_eq!(load_store_class(word), None);
        assert_eq!(listed(&bytes(&[word]), hauklivo::LINE), Ok(format!("00000000 {word:08x} other\n")));
        let record = record(0, 0x9c000005);
        assert_eq!(hauklivo::read_relocs(&bytes(&[word]), &record.to_bytes(), &[], &mut [0; 24]), Err(Refusal::Unfit));
        // From x2, which ADRP and ADD make; then from x1 with the greatest offset, in the last page.
        for (kind, address, words) in [
            (kind::ADRP_ADD_LDR, 0x1000, vec![0x90000001, 0x91004022, word | 0x43]),
            (kind::ADRP_LDR, 0xfffffffffffff000, vec![0x90000001, word | 0x3ffc20]),
        ] {
            let hint = hint(kind, words.len() as u8, 0, 0, address);
            assert_eq!(work(&words, &[hint]), Ok((bytes(&words), declined)));
        }
        let (after, reports) = fix(&[word], &[(entry(0, ty::PAGEOFF12, 4), at(0x1001))]).unwrap();
        assert_eq!((after, reports[0].kind()), (bytes(&[word]), Some(ReportKind::Alignment(size))));
    }
}

/// A hint in which number 31 is the zero register in one word and the stack pointer in the next declines before any sum,
/// and so does one with an ADD to the stack pointer.
#[test]
fn register_31() {
    let declined = Tally { declined: 1, ..Tally::default() };
    for (kind, address, words) in [
        // adrp xzr; add x0, sp, #16, and adrp x0; add sp, x0, #16
        (kind::ADRP_ADD, 0x1000, vec![0x9000001f, 0x910043e0]),
        (kind::ADRP_ADD, 0x1000, vec![0x90000000, 0x9100401f]),
        // adrp xzr; ldr x1, [sp, #32760], in the last page
        (kind::ADRP_LDR, 0xfffffffffffff000, vec![0x9000001f, 0xf97fffe1]),
    ] {
        let hint = hint(kind, words.len() as u8, 0, 0, address);
        assert_eq!(work(&words, &[hint]), Ok((bytes(&words), declined)));
    }
}

/// Bits 31 to 22 decide: 23 of their values are a load or store, one of them LDRSW.
#[test]
fn low_bits_do_not_matter() {
    let (mut count, mut ldrsw) = (0, 0);
    for high in (0..1024).map(|i: u32| i << 22) {
        let due = load_store_class(high);
        for low in [1, 0x1f, 0x3e0, 0x15_5555, 0x20_0000, 0x3f_ffff] {
            assert_eq!(load_store_class(high | low), due, "{high:08x}, {low:x}");
        }
        count += u32::from(due.is_some());
        ldrsw += u32::from(due.is_some_and(|c| c.is_ldrsw));
    }
    assert_eq!((count, ldrsw), (23, 1));
}

#[test]
fn entries_of_classes() {
    assert_eq!(LoadStoreClass::from_entry(0), None);
    assert_eq!(LoadStoreClass::from_entry(7), None); // no byte is moved
    assert_eq!(LoadStoreClass::from_entry(12), class(1, 4));
    assert_eq!(LoadStoreClass::from_entry(33), class(4, 1));
    assert_eq!(LoadStoreClass::from_entry(134), class(16, 6));
    assert_eq!(hauklivo::raw::hauklivo_load_store_class(0xb9800000), 33);
}

#[test]
fn refused_calls_leave_numbers() {
    use hauklivo::raw;
    let (mut count, mut reaches, mut slots) = (77, 77, [FILL; 24]);
    let (none, sections, p) = ([0u8; 0], [0u64; 0], slots.as_mut_ptr());
    // SAFETY: slices of this function, none lent twice.
    unsafe {
        let s = none.as_ptr();
        let number = raw::hauklivo_read_relocs(s, 0, [0; 7].as_ptr(), 7, sections.as_ptr(), 0, p, 24, &mut count);
        assert_eq!((number, count), (1, 77));
        let number =
            raw::hauklivo_read_relocs_x86_64(s, 0, [0xff; 8].as_ptr(), 8, sections.as_ptr(), 0, 0, p, 24, &mut count);
        assert_eq!((number, count), (5, 77));
        let mut b = none;
        let b = b.as_mut_ptr();
        let number = raw::hauklivo_apply_reloc_alloc(b, 0, 0, 0, 0, [0; 7].as_ptr(), 7, s, 0, p, 24, &mut count);
        assert_eq!((number, count), (1, 77));
        assert_eq!((raw::hauklivo_write_stub(b, 0, 0, 0, &mut reaches), reaches), (3, 77));
        assert_eq!(raw::hauklivo_write_thunk(b, 0, 0, 0), 3);
        assert_eq!(raw::hauklivo_list([0; 7].as_ptr(), 7, p, 24, &mut count), 2);
        assert_eq!(raw::hauklivo_list([0; 3].as_ptr(), 3, p, 24, &mut count), 1);
        assert_eq!(count, 77);
        let old = Tally { rewritten: 1, skipped: 2, declined: 3, turned_down: 4 };
        let mut tally = old;
        assert_eq!(raw::hauklivo_apply_hints(b, 0, [0; 7].as_ptr(), 7, s, 0, &mut tally), 1);
        assert_eq!(tally, old);
        assert_eq!(raw::hauklivo_apply_hints(b, 0, s, 0, s, 0, &mut tally), 0);
        assert_eq!(tally, Tally::default());
        // What is lent for the answer may be uninitialised, a tally even after a refusal.
        let (mut fresh, mut number) = (MaybeUninit::<Tally>::uninit(), MaybeUninit::uninit());
        assert_eq!(raw::hauklivo_apply_hints(b, 0, [0; 7].as_ptr(), 7, s, 0, fresh.as_mut_ptr()), 1);
        assert_eq!(raw::hauklivo_apply_hints(b, 0, s, 0, s, 0, fresh.as_mut_ptr()), 0);
        assert_eq!(fresh.assume_init(), Tally::default());
        assert_eq!(raw::hauklivo_list(s, 0, p, 24, number.as_mut_ptr()), 0);
        assert_eq!(number.assume_init(), 0);
    }
    assert_eq!(slots, [FILL; 24]);
}

#[test]
fn records_convert() {
    let r = MachRel::new(9, 0xabcdef, false, 3, true, ty::UNSIGNED);
    assert_eq!(<[u8; 8]>::from(r), [9, 0, 0, 0, 0xef, 0xcd, 0xab, 0x0e]);
    assert_eq!(MachRel::from([9, 0, 0, 0, 0xef, 0xcd, 0xab, 0x0e]), r);
    let list: Vec<u8> = (0..48).collect();
    let entries = Reloc::list(&list).unwrap();
    assert_eq!(entries.len(), 2);
    assert_eq!(entries[0].offset, 0x03020100);
    assert_eq!((entries[1].ty, entries[1].addend), (28, 0x2f2e2d2c2b2a2928));
    assert_eq!(Reloc::bytes(&entries), list);
    assert_eq!(Reloc::list(&list[1..]), None);
    let t = Resolved::from_bytes(&list).unwrap();
    assert_eq!((t.helper, t.flags, t.zero), (0x2726252423222120, 0x2b2a2928, 0x2f2e2d2c));
    assert_eq!(t.to_bytes(), list);
    let report = Report::from_bytes(&list[..24]).unwrap();
    assert_eq!((report.kind, report.size, report.kind()), (4, 5, Some(ReportKind::NonLdr)));
    assert_eq!((report.place, report.target), (0x0f0e0d0c0b0a0908, 0x1716151413121110));
    let list: Vec<u8> = (0..64).collect();
    let h = HintRecord::from_bytes(&list).unwrap();
    assert_eq!((h.kind, h.words, h.object, h.start, h.length), (0, 1, 0x07060504, 0x0b0a0908, 0x0f0e0d0c));
    assert_eq!((h.places[1].offset, h.places[1].entry), (0x23222120, 0x27262524));
    assert_eq!((h.places[0].address, h.places[2].address), (0x1f1e1d1c1b1a1918, 0x3f3e3d3c3b3a3938));
    for target in [Target::Symbol(7), Target::Section(7)] {
        assert_eq!(Reloc { target: target.pack(), ..Reloc::default() }.target(), target);
    }
}
