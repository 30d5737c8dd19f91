//! AUTHENTICATED_POINTER: what a stored word is read as, what the fix-up writes, and each number on the way.

use hauklivo::{
    HintInsn, HintRecord, MachRel, Refusal, Reloc, Report, Resolved, Target, flag, kind, read_relocs_x86_64, ty, typed,
};

const FILL: u8 = 0xa5;

/// The bits of its record, of symbol 2.
const POINTER: u32 = 0xbe000002;

/// A stored word of which all fields are zero.
const ZEROS: u64 = 1 << 63;

/// The entries of records, offset and bits, in a section of these words. What is not filled must keep its bytes.
fn read(words: &[u64], records: &[(u32, u32)]) -> Result<Vec<Reloc>, Refusal> {
    let contents: Vec<u8> = words.iter().flat_map(|word| word.to_le_bytes()).collect();
    let records: Vec<_> = records.iter().map(|&(offset, bits)| MachRel { offset, bits }).collect();
    let fill = Reloc::from([FILL; 24]);
    let mut slots = vec![fill; records.len() + 1];
    let done = typed::read_relocs(&contents, &records, &[0x4000], &mut slots);
    assert!(slots[done.unwrap_or(0)..].iter().all(|&slot| slot == fill));
    done.map(|n| slots[..n].to_vec())
}

/// An entry of symbol 2 at offset 0.
fn entry(addend: i64, diversity: u16, address_diversity: u8, key: u8) -> Reloc {
    let entry = Reloc { ty: ty::AUTHENTICATED_POINTER, size: 8, target: 2, ..Reloc::default() };
    Reloc { diversity, address_diversity, key, addend, ..entry }
}

#[test]
fn stored_words() {
    for (word, due) in [
        (0x8001002a00000000, entry(0, 42, 1, 0)),     // _g@AUTH(ia,42,addr)
        (0x8006000000000007, entry(7, 0, 0, 3)),      // (_g + 7)@AUTH(db,0)
        (0x8004fffffffffffd, entry(-3, 65535, 0, 2)), // (_g - 3)@AUTH(da,65535)
        (0x8002000100000000, entry(0, 1, 0, 1)),      // _g@AUTH(ib,1)
        (0x800712347fffffff, entry(0x7fff_ffff, 0x1234, 1, 3)),
        (0x8000800080000000, entry(-0x8000_0000, 0x8000, 0, 0)),
        (ZEROS, entry(0, 0, 0, 0)),
    ] {
        assert_eq!(read(&[word], &[(0, POINTER)]), Ok(vec![due]), "{word:x}");
    }
    // Bits 51 to 62 are zero, and bit 63 is set.
    for bit in 51..64 {
        assert_eq!(read(&[ZEROS ^ 1 << bit], &[(0, POINTER)]), Err(Refusal::NotAuthenticated), "{bit}");
    }
    for word in [0, u64::MAX, 0x0001002a00000000] {
        assert_eq!(read(&[word], &[(0, POINTER)]), Err(Refusal::NotAuthenticated), "{word:x}");
    }
}

/// The bytes of the entry that its three fields are.
#[test]
fn bytes_of_an_entry() {
    let bytes = <[u8; 24]>::from(entry(0, 0xd9bf, 1, 2));
    assert_eq!(bytes[12..16], [0xbf, 0xd9, 1, 2]);
}

/// Of its 16 forms one is read, and none in an x86_64 object.
#[test]
fn forms() {
    for form in 0xb0..0xc0 {
        let record = (0, form << 24 | 1);
        let due = if form == 0xbe { Ok(1) } else { Err(Refusal::Unsupported) };
        assert_eq!(read(&[ZEROS], &[record]).map(|entries| entries.len()), due, "{form:x}");
        let x86_64 = MachRel { offset: 0, bits: form << 24 | 1 };
        let done = typed::read_relocs_x86_64(&ZEROS.to_le_bytes(), &[x86_64], &[0], 0, &mut [Reloc::default()]);
        assert_eq!(done, Err(Refusal::Unsupported), "{form:x}");
    }
    assert_eq!(
        read_relocs_x86_64(&[0; 8], &[0, 0, 0, 0, 2, 0, 0, 0xbe], &[], 0, &mut [0; 24]),
        Err(Refusal::Unsupported)
    );
}

/// An ADDEND record gives the place, and its number goes; a SUBTRACTOR is noted; other types have no signature.
#[test]
fn records_around_it() {
    let words = [0x8001002a00000007, 0];
    assert_eq!(read(&words, &[(0, 0xa4000005), (8, POINTER)]), Ok(vec![entry(7, 42, 1, 0)]));
    assert_eq!(read(&words, &[(8, 0xa4000005), (0, POINTER)]), Err(Refusal::NotAuthenticated));
    let read = read(&words, &[(0, 0x1e000001), (0, POINTER), (0, 0x0e000002)]).unwrap();
    assert_eq!(read[1], Reloc { is_subtracted: 1, ..entry(7, 42, 1, 0) });
    assert_eq!(read[2], Reloc { size: 8, target: 2, addend: words[0] as i64, ..Reloc::default() });
}

/// Where two numbers apply, the first of the order comes back: 3, 4, 5, 3, 6, 3, 15, 7.
#[test]
fn reading_in_order() {
    let one = |offset, bits| read(&[0, 0], &[(offset, bits)]).unwrap_err();
    assert_eq!(one(17, 0xbf000002), Refusal::Bounds); // not Unsupported
    assert_eq!(one(12, 0xbf000002), Refusal::Unsupported); // not Bounds
    assert_eq!(one(0, 0xb6000002), Refusal::Unsupported); // not NotAuthenticated, not NoSection
    assert_eq!(one(9, POINTER), Refusal::Bounds); // not NotAuthenticated
    assert_eq!(one(8, POINTER), Refusal::NotAuthenticated);
    let [not_authenticated, absent] = [(0, POINTER), (0, 0x06000002)];
    assert_eq!(read(&[0], &[not_authenticated, absent]), Err(Refusal::NotAuthenticated));
    assert_eq!(read(&[0], &[absent, not_authenticated]), Err(Refusal::NoSection));
    assert_eq!(read(&[ZEROS], &[(0, POINTER), absent]), Err(Refusal::NoSection));
}

/// The image base of most fix-ups here, and an address above it.
const IMAGE: u64 = 0x1_0000_0000;
const NEAR: u64 = 0x1_0000_8010;

/// A resolved target; that it has an address is not looked at.
fn at(address: u64) -> Resolved {
    Resolved { address, ..Resolved::default() }
}

/// What a fix-up of these entries leaves in 8 bytes at `base`, with thread-local storage from 0x100 on. There are no
/// reports, and a refused call leaves the bytes.
fn fix_at(base: u64, image_base: u64, pairs: &[(Reloc, Resolved)]) -> Result<u64, Refusal> {
    let (entries, targets): (Vec<_>, Vec<_>) = pairs.iter().copied().unzip();
    let mut slots = vec![Report::default(); pairs.len()];
    let mut section = [FILL; 8];
    let done = typed::apply_reloc_alloc(&mut section, base, 0x100, image_base, &entries, &targets, &mut slots);
    assert!(done == Ok(0) || done.is_err() && section == [FILL; 8]);
    done.map(|_| u64::from_le_bytes(section))
}

fn fix(image_base: u64, entry: Reloc, target: Resolved) -> Result<u64, Refusal> {
    fix_at(0x1000, image_base, &[(entry, target)])
}

#[test]
fn finished_words() {
    let due = 0x8005d9bf00008010;
    let pointer = entry(0, 0xd9bf, 1, 2);
    assert_eq!(fix(IMAGE, pointer, at(NEAR)), Ok(due));
    assert_eq!(fix(IMAGE, entry(0x10, 0xd9bf, 1, 2), at(NEAR - 0x10)), Ok(due));
    assert_eq!(fix(IMAGE, entry(-0x10, 0xd9bf, 1, 2), at(NEAR + 0x10)), Ok(due));
    assert_eq!(fix(0, entry(0, 1, 0, 1), at(0)), Ok(0x8002000100000000));
    // The size, the thread-local flag and what the linker knows beside the address are not looked at.
    for size in [0, 4, 255] {
        assert_eq!(fix(IMAGE, Reloc { size, is_pcrel: 1, is_subtracted: 1, ..pointer }, at(NEAR)), Ok(due));
    }
    let flags = 0xff & !flag::IMPORTED;
    let all = Resolved { got: 1, branch: 2, thunk: 3, helper: 4, flags, ..at(NEAR) };
    assert_eq!(fix(IMAGE, pointer, all), Ok(due));
    // Of the two bytes the low bit and the low two count.
    for (address_diversity, key, due) in [
        (0xfe, 0xfc, 0x8000d9bf00008010),
        (0xff, 0xfc, 0x8001d9bf00008010),
        (2, 5, 0x8002d9bf00008010),
        (0x80, 0xff, 0x8006d9bf00008010),
    ] {
        assert_eq!(fix(IMAGE, Reloc { address_diversity, key, ..pointer }, at(NEAR)), Ok(due));
    }
}

/// What the compiler stored stays but for the distance, which counts from the image base.
#[test]
fn read_and_fixed() {
    for word in [0x8001002a00000000, 0x8006000000000007, 0x8004fffffffffffd_u64] {
        let entry = read(&[word], &[(0, POINTER)]).unwrap()[0];
        let finished = fix(IMAGE, entry, at(NEAR)).unwrap();
        assert_eq!(finished >> 32, word >> 32);
        assert_eq!(IMAGE + (finished & 0xffff_ffff), NEAR.wrapping_add_signed((word as i32).into()));
    }
}

/// The distance is at most 2^32 - 1; sum and difference are modulo 2^64.
#[test]
fn reach_from_the_image() {
    let fix = |image_base, address, addend| fix(image_base, entry(addend, 0, 0, 0), at(address));
    for (image_base, address, addend, due) in [
        (IMAGE, IMAGE, 0, 0),
        (IMAGE, IMAGE + 0xffff_ffff, 0, 0xffff_ffff),
        (IMAGE, IMAGE + 0x1_0000_0000, -1, 0xffff_ffff),
        (0, 0xffff_fffe, 1, 0xffff_ffff),
        (u64::MAX, 5, -6, 0),
        (u64::MAX - 5, 3, 0, 9),
        (u64::MAX, 0xffff_fffe, 0, 0xffff_ffff),
    ] {
        assert_eq!(fix(image_base, address, addend), Ok(ZEROS | due), "{image_base:x} {address:x} {addend}");
    }
    for (image_base, address, addend) in [
        (IMAGE, IMAGE + 0x1_0000_0000, 0),
        (IMAGE, IMAGE + 0xffff_ffff, 1),
        (IMAGE, IMAGE - 1, 0),
        (IMAGE, IMAGE, -1),
        (NEAR + 1, NEAR, 0),
        (0, 1 << 63, 0),
        (0, 0, -1),
        (u64::MAX, 0xffff_ffff, 0),
    ] {
        let done = fix(image_base, address, addend);
        assert_eq!(done, Err(Refusal::FarFromImage), "{image_base:x} {address:x} {addend}");
    }
}

const KEPT: Result<u64, Refusal> = Ok(u64::from_le_bytes([FILL; 8]));

/// For an imported symbol nothing is written, however far it is and however short the section.
#[test]
fn imported_symbols() {
    let imported = |address| Resolved { flags: flag::IMPORTED, ..at(address) };
    for (offset, address) in [(0, NEAR), (0, 0), (1, 0), (8, u64::MAX)] {
        let pointer = Reloc { offset, ..entry(0, 0xd9bf, 1, 2) };
        assert_eq!(fix(IMAGE, pointer, imported(address)), KEPT, "{offset} {address:x}");
    }
    // The numbers before 16 are looked for.
    assert_eq!(fix(IMAGE, Reloc { offset: 9, ..entry(0, 0, 0, 0) }, imported(0)), Err(Refusal::Bounds));
    let odd = Resolved { zero: 1, ..imported(0) };
    assert_eq!(fix(IMAGE, entry(0, 0, 0, 0), odd), Err(Refusal::Flags));
    let section = Reloc { target: Target::SECTION, ..entry(0, 0, 0, 0) };
    assert_eq!(fix(IMAGE, section, imported(NEAR)), Err(Refusal::NeedsSymbol));
}

/// Where two numbers apply, the first of the order comes back: 3, 11, 9, 5, 8, 10, 16, 3.
#[test]
fn fixing_in_order() {
    let far = |offset, ty| Reloc { offset, ty, ..entry(0, 0, 0, 0) };
    let own = ty::AUTHENTICATED_POINTER;
    let odd = Resolved { flags: 0x200, ..at(0) };
    let refused = |entry, target| fix(IMAGE, entry, target).unwrap_err();
    assert_eq!(refused(far(9, own), odd), Refusal::Bounds); // not Flags
    assert_eq!(refused(far(0, own), odd), Refusal::Flags); // not FarFromImage
    assert_eq!(fix_at(u64::MAX, IMAGE, &[(far(1, own), at(0))]), Err(Refusal::Overflow)); // not FarFromImage
    for ty in [ty::ADDEND, 12, 200, 255] {
        assert_eq!(refused(far(0, ty), at(NEAR)), Refusal::Unsupported, "{ty}");
    }
    for (address, flags) in [(NEAR, 0), (0, 0), (0, flag::HAS_HELPER)] {
        let section = Reloc { target: Target::Section(0).pack(), ..far(4, own) };
        assert_eq!(refused(section, Resolved { flags, ..at(address) }), Refusal::NeedsSymbol); // not 16, not Bounds
    }
    assert_eq!(refused(far(4, own), at(0)), Refusal::FarFromImage); // not Bounds
    assert_eq!(refused(far(1, own), at(NEAR)), Refusal::Bounds);
    // An entry that is refused keeps those before it from being applied.
    let pair = [(far(0, own), at(NEAR)), (far(0, own), at(0))];
    assert_eq!(fix_at(0x1000, IMAGE, &pair), Err(Refusal::FarFromImage));
}

/// Taken by a SUBTRACTOR it is an address and an addend, and no number is looked for.
#[test]
fn taken_by_a_subtractor() {
    let first = Reloc { ty: ty::SUBTRACTOR, size: 8, ..Reloc::default() };
    let taken = Reloc { offset: 99, target: Target::SECTION, ..entry(4, 0xffff, 0xff, 0xff) };
    let due = 0x20_u64.wrapping_sub(0x3000) + 4;
    assert_eq!(fix_at(0x1000, IMAGE, &[(first, at(0x3000)), (taken, at(0x20))]), Ok(due));
    assert_eq!(fix_at(0x1000, IMAGE, &[(entry(0, 0, 0, 0), at(NEAR)), (first, at(0))]), Err(Refusal::LoneSubtractor));
}

/// No other type looks at the image base or at how a pointer is signed.
#[test]
fn other_types() {
    let target = Resolved { got: 0x2008, branch: 0x2000, flags: flag::HAS_ADDRESS, ..at(0x2000) };
    for ty in (0..ty::ADDEND).filter(|&ty| ty != ty::SUBTRACTOR) {
        let plain = Reloc { ty, size: 8, target: 2, ..Reloc::default() };
        let signed = Reloc { diversity: 0xd9bf, address_diversity: 0xff, key: 0xff, ..plain };
        let due = fix(0, plain, target);
        assert!(due.is_ok(), "type {ty}");
        for image_base in [0, IMAGE, 0x2001, u64::MAX] {
            assert_eq!(fix(image_base, signed, target), due, "type {ty}, {image_base:x}");
        }
    }
}

/// The hint run does not look at how a pointer is signed.
#[test]
fn hints_do_not_look() {
    let page = Reloc { ty: ty::PAGE21, size: 4, is_pcrel: 1, target: 5, ..Reloc::default() };
    let offset = Reloc { offset: 4, ty: ty::PAGEOFF12, ..page };
    let place = |at: u32| HintInsn { offset: 4 * at, entry: at, address: 0x1000 + u64::from(4 * at) };
    let places = [place(0), place(1), HintInsn::default()];
    let hint = HintRecord { kind: kind::ADRP_ADD, words: 2, length: 8, places, ..HintRecord::default() };
    let run = |entries: [Reloc; 2]| {
        let mut image = [0x90000000_u32, 0x91000c00].map(u32::to_le_bytes).concat();
        (typed::apply_hints(&mut image, &[hint], &entries), image)
    };
    let plain = run([page, offset]);
    assert_eq!(plain.0.map(|tally| tally.rewritten), Ok(1));
    let signed = |entry| Reloc { diversity: 7, address_diversity: 1, key: 3, ..entry };
    assert_eq!(run([page, signed(offset)]), plain);
    assert_eq!(run([signed(page), offset]), plain);
}
