//! Small objects that are made here: what a refusal names, what a branch goes to, what becomes of authenticated pointers,
//! what makes a link a broken one, and the entries of x86_64 records.

use std::fs;
use std::process::Command;

use relink::hauklivo::{MachRel, Record, ty, ty_x86_64};
use relink::words::word_at;
use relink::{Object, Options, PORT, entries, entry_listing, link, listing};

/// A symbol's place: a section, counted from 0, and an offset in it.
type Place = Option<(usize, u64)>;

/// A section: segment, name, words, records.
type Part<'a> = (&'a str, &'a str, &'a [u32], &'a [MachRel]);

/// An arm64 object of sections and symbols.
fn object(sections: &[Part], symbols: &[(&str, Place)]) -> Vec<u8> {
    let commands = 72 + 80 * sections.len() as u32 + 24;
    let mut tail = Vec::new();
    let mut put = |bytes: &[u8]| {
        let at = 32 + commands + tail.len() as u32;
        tail.extend_from_slice(bytes);
        at
    };
    let (mut headers, mut starts) = (Vec::new(), Vec::new());
    let mut address = 0;
    for (segment, name, words, records) in sections {
        let bytes: Vec<u8> = words.iter().flat_map(|w| w.to_le_bytes()).collect();
        let (contents, list) = (put(&bytes), put(MachRel::bytes(records)));
        headers.extend([name, segment].map(|n| [n.as_bytes(), &vec![0; 16 - n.len()]].concat()).concat());
        headers.extend([address, bytes.len() as u64].map(u64::to_le_bytes).concat());
        let flags = if *segment == "__DWARF" { 0x0200_0000 } else { 0 }; // for the debugger, not for the image
        headers.extend([contents, 2, list, records.len() as u32, flags, 0, 0, 0].map(u32::to_le_bytes).concat());
        starts.push(address);
        address += bytes.len() as u64;
    }
    let (mut table, mut names) = (Vec::new(), vec![0]);
    for (name, place) in symbols {
        let (ty, ordinal, value) = match place {
            Some((section, offset)) => (0x0f, *section as u8 + 1, starts[*section] + offset),
            None => (0x01, 0, 0),
        };
        table.extend([&(names.len() as u32).to_le_bytes()[..], &[ty, ordinal, 0, 0], &value.to_le_bytes()].concat());
        names.extend([name.as_bytes(), b"\0"].concat());
    }
    let (at, names_at) = (put(&table), put(&names));
    let mut head = vec![0xfeed_facf, 0x0100_000c, 0, 1, 2, commands, 0, 0, 0x19, commands - 24];
    head.extend([0; 14]);
    head.extend([sections.len() as u32, 0]);
    let symtab = [2, 24, at, symbols.len() as u32, names_at, names.len() as u32];
    let words = |words: &[u32]| words.iter().flat_map(|w| w.to_le_bytes()).collect::<Vec<_>>();
    [words(&head), headers, words(&symtab), tail].concat()
}

/// A record of a symbol.
fn of(symbol: u32, offset: u32, ty: u8) -> MachRel {
    let is_pcrel = matches!(ty, ty::BRANCH26 | ty::PAGE21 | ty::GOT_LOAD_PAGE21 | ty::POINTER_TO_GOT);
    let p2size = if matches!(ty, ty::UNSIGNED | ty::SUBTRACTOR | ty::AUTHENTICATED_POINTER) { 3 } else { 2 };
    MachRel::new(offset, symbol, is_pcrel, p2size, true, ty)
}

/// The ADDEND record of a number.
fn addend(offset: u32, number: u32) -> MachRel {
    MachRel::new(offset, number, false, 2, false, ty::ADDEND)
}

const BL: u32 = 0x94000000;
const NOP: u32 = 0xd503201f;

/// A refusal is shown with section, record number, offset and bits.
#[test]
fn refusals_name_the_record() {
    let fault = |records: &[MachRel]| {
        let text = ("__TEXT", "__text", &[BL, BL, NOP][..], records);
        let bytes = object(&[text], &[("_a", Some((0, 0)))]);
        link(&Object::parse(&bytes).unwrap(), &Options::default(), &PORT).unwrap_err().to_string()
    };
    let branch = of(0, 0, ty::BRANCH26);
    let reading = "the relocation records of section __TEXT,__text: number";
    for (records, expected) in [
        (
            &[branch, of(0, 4, ty::BRANCH26), of(0, 8, 15), branch][..],
            "5: a relocation's type or form is not supported: record 2, offset 0x8, bits 0xfc000000",
        ),
        (
            &[branch, addend(4, 1), of(0, 4, ty::PAGE21), of(0, 8, ty::TLVP_LOAD_PAGEOFF12)],
            "6: a word is unfit for its relocation: record 3, offset 0x8, bits 0x9c000000",
        ),
        (
            &[branch, addend(4, 1), of(0, 8, 12)],
            "5: a relocation's type or form is not supported: record 2, offset 0x8, bits 0xcc000000",
        ),
        (
            &[branch, addend(4, 1), branch, addend(13, 0xffffff)],
            "3: a place is past its bytes, a word past its part, or a part past the image: record 3, offset 0xd, bits 0xa4ffffff",
        ),
        (&[addend(4, 1)], "4: an ADDEND record is the last record: record 0, offset 0x4, bits 0xa4000001"),
        (
            &[MachRel::new(0, 2, false, 3, false, ty::UNSIGNED)],
            "7: a record names a section that is not there: record 0, offset 0x0, bits 0x06000002",
        ),
    ] {
        assert_eq!(fault(records), format!("{reading} {expected}"));
    }
    let fixing = "the fix-up of section __TEXT,__text: number";
    let bounds = "3: a place is past its bytes, a word past its part, or a part past the image";
    for (records, expected) in [
        (
            &[addend(0, 1), branch, of(0, 12, ty::BRANCH26), branch][..],
            format!("{bounds}: entry 1, record 2, offset 0xc, bits 0x2d000000"),
        ),
        (
            &[addend(0, 1), branch, of(0, 8, ty::SUBTRACTOR), branch],
            format!("{bounds}: entry 1, record 2, offset 0x8, bits 0x1e000000"),
        ),
        (
            &[branch, addend(0, 1), addend(4, 1), branch],
            "5: a relocation's type or form is not supported: entry 1, record 2, offset 0x4, bits 0xa4000001".into(),
        ),
        (
            &[branch, of(0, 0, ty::SUBTRACTOR)],
            "8: a SUBTRACTOR entry is the last entry: entry 1, record 1, offset 0x0, bits 0x1e000000".into(),
        ),
    ] {
        assert_eq!(fault(records), format!("{fixing} {expected}"));
    }
}

/// Text at 0x100000000 whose words are BL with these records, and data of two words so far behind; `_a` is the first word
/// of the text, `_b` that of the data. The labels of the entries by number, each with the word after the fix-up.
fn branches(far: u64, records: &[MachRel]) -> Vec<(String, u32)> {
    let words = [BL, BL, BL, BL, BL, NOP];
    let sections = [("__TEXT", "__text", &words[..], records), ("__DATA", "__code", &[NOP, NOP][..], &[])];
    let symbols = [("_a", Some((0, 0))), ("_b", Some((1, 0))), ("_lib", None), ("___dtrace_probe$p", None)];
    let bytes = object(&sections, &symbols);
    let object = Object::parse(&bytes).unwrap();
    let options = Options { text: TEXT, data: Some(TEXT + far), debug: false };
    let linked = link(&object, &options, &PORT).unwrap();
    let listing = listing(&object, &linked);
    let label = |number: usize| {
        let mut lines = listing.lines().skip_while(|line| !line.starts_with("Entries of"));
        let row = lines.find(|line| line.starts_with(&format!("  {number} "))).unwrap();
        let columns: Vec<_> = row.split("  ").filter(|column| !column.is_empty()).collect();
        columns[3].trim().to_string()
    };
    let entries = &linked.sections[0].entries;
    let word = |number: usize| word_at(&linked.fixed, entries[number].offset as usize).unwrap();
    (0..entries.len()).map(|number| (label(number), word(number))).collect()
}

const TEXT: u64 = 0x1_0000_0000;

/// A branch's label says where the word that was written goes.
#[test]
fn labels_of_branches() {
    let branch = |symbol, offset| of(symbol, offset, ty::BRANCH26);
    let label = |text: &str, word: u32| (text.to_string(), word);
    // In reach. A displacement loses its two low bits.
    let near = [
        branch(1, 0),
        addend(4, 4),
        branch(1, 4),
        addend(8, 2),
        branch(1, 8),
        branch(2, 12),
        addend(16, 4),
        branch(2, 16),
        branch(3, 4),
        branch(0, 20),
    ];
    assert_eq!(
        branches(0x1000, &near),
        [
            label("_b", 0x94000400),
            label("_b + 0x4, no branch", NOP), // entry 5 has written over it
            label("100001000, not _b + 0x2", 0x940003fe),
            label("stub of _lib", 0x94000003),
            label("(stub of _lib) + 0x4", 0x94000003),
            label("DTrace site ___dtrace_probe$p", NOP),
            label("_a, no branch", 0xd7fffffb),
        ]
    );
    // 0x20000000 away: the thunk entry, which stands behind the text, is for branches without an addend.
    let far = [branch(1, 0), addend(4, 4), branch(1, 4), addend(8, 0xffffff), branch(1, 8)];
    assert_eq!(
        branches(0x2000_0000, &far),
        [
            label("thunk entry of _b", 0x94000006),
            label("100000004, not _b + 0x4", 0x94000000),
            label("fffffffc, not _b - 0x1", 0x97fffffd),
        ]
    );
    // 8 GiB away: ADRP does not reach from the thunk entry either.
    assert_eq!(
        branches(1 << 33, &[branch(1, 0), branch(1, 8)]),
        [label("100000000, not _b", 0x94000000), label("100000000, not _b", 0x97fffffe)]
    );
}

/// The stored or finished word of an authenticated pointer: addend or distance, and how it is signed.
fn signed(low: u32, diversity: u16, address_diversity: u64, key: u64) -> u64 {
    1 << 63 | key << 49 | address_diversity << 48 | u64::from(diversity) << 32 | u64::from(low)
}

/// An object whose data are these 8-byte words, with records; `_a` is the first word of the text, `_b` the second of the
/// data.
fn pointers(words: &[u64], records: &[MachRel]) -> Vec<u8> {
    let words: Vec<u32> = words.iter().flat_map(|&word| [word as u32, (word >> 32) as u32]).collect();
    let sections = [("__TEXT", "__text", &[NOP][..], &[][..]), ("__DATA", "__data", &words[..], records)];
    object(&sections, &[("_a", Some((0, 0))), ("_b", Some((1, 8))), ("_lib", None)])
}

/// Every key, with and without address diversity, addends and diversities of either end: a finished word is the stored
/// one, but for the distance from the image base in the addend's place.
#[test]
fn authenticated_pointers() {
    let (mut stored, mut due) = (Vec::new(), Vec::new());
    for (key, address_diversity) in (0..8).map(|i| (i / 2, i % 2)) {
        for (addend, diversity) in [(0, 0), (-0x4000, 42), (7, 65535), (0x7fff_0000, 0x8000)] {
            stored.push(signed(addend as u32, diversity, address_diversity, key));
            due.push(signed((0x8008 + addend) as u32, diversity, address_diversity, key));
        }
    }
    let records: Vec<_> = (0..32).map(|i| of(1, 8 * i, ty::AUTHENTICATED_POINTER)).collect();
    let bytes = pointers(&stored, &records);
    let object = Object::parse(&bytes).unwrap();
    let linked = link(&object, &Options::default(), &PORT).unwrap();
    let data = &linked.sections[1];
    assert_eq!((linked.layout.image_base, data.address), (0x1_0000_0000, 0x1_0000_8000));
    let finished = |at: usize| u64::from_le_bytes(linked.image[data.start + 8 * at..][..8].try_into().unwrap());
    assert_eq!((0..32).map(finished).collect::<Vec<_>>(), due);
}

/// What an ADDEND record, a SUBTRACTOR and an imported symbol make of it.
#[test]
fn rows_of_authenticated_pointers() {
    let pointer = |symbol, offset| of(symbol, offset, ty::AUTHENTICATED_POINTER);
    let stored = [signed(0, 0, 0, 0), signed(5, 42, 1, 0), signed(0, 7, 0, 3), signed(4, 0, 0, 2)];
    let records = [addend(8, 9), pointer(0, 0), pointer(2, 16), of(0, 24, ty::SUBTRACTOR), pointer(1, 24)];
    let bytes = pointers(&stored, &records);
    let object = Object::parse(&bytes).unwrap();
    let listing = listing(&object, &link(&object, &Options::default(), &PORT).unwrap());
    let rows = "
  0   100008008  AUTHENTICATED_POINTER  _a + 0x5 (key ia, diversity 42, address diversity)  8001002a00000005  8001002a00004005
  1   100008010  AUTHENTICATED_POINTER  _lib (key db, diversity 7)                          8006000700000000  left for dyld to bind
  2   100008018  SUBTRACTOR             _a                                                  8004000000000004  000000000000400c
  3   100008018  AUTHENTICATED_POINTER  _b + 0x4                                                              taken by the SUBTRACTOR before it
";
    assert!(listing.contains(rows), "{listing}");
}

/// A refusal for an authenticated pointer is shown with what is stored, or with where the pointer is and what it is to.
#[test]
fn refused_authenticated_pointers() {
    let pointer = |symbol, offset| of(symbol, offset, ty::AUTHENTICATED_POINTER);
    let fault = |words: &[u64], records: &[MachRel]| {
        let bytes = pointers(words, records);
        let options = Options { data: Some(0x2_0000_0000), ..Options::default() };
        link(&Object::parse(&bytes).unwrap(), &options, &PORT).unwrap_err().to_string()
    };
    let good = signed(0, 0, 0, 0);
    let reading = "the relocation records of section __DATA,__data: number 15: an authenticated pointer's stored word has \
                   a bit of 51 to 62 set, or 63 clear: record";
    for (records, expected) in [
        (
            &[pointer(0, 0), pointer(2, 8)][..],
            "1, offset 0x8, bits 0xbe000002; 0000000000000007 is stored for the pointer to _lib",
        ),
        (
            &[pointer(0, 0), addend(8, 1), pointer(9, 0)],
            "2, offset 0x0, bits 0xbe000009; 0000000000000007 is stored for the pointer to no symbol",
        ),
    ] {
        assert_eq!(fault(&[good, 7], records), format!("{reading} {expected}"));
    }
    let fixing = "the fix-up of section __DATA,__data: number 16: an authenticated pointer's target plus addend less \
                  the image base, modulo 2^64, is above 2^32 - 1: entry";
    for (records, expected) in [
        (
            &[addend(0, 1), pointer(0, 8), pointer(1, 8)][..],
            "1, record 2, offset 0x8, bits 0xbe000001; the pointer at 200000008 is to _b + 0x10 at 200000018, and the image \
             base is 100000000",
        ),
        (
            &[pointer(2, 0), addend(8, 1), pointer(1, 0)],
            "1, record 2, offset 0x0, bits 0xbe000001; the pointer at 200000008 is to _b + 0x10 at 200000018, and the image \
             base is 100000000",
        ),
    ] {
        assert_eq!(fault(&[good, good | 0x10], records), format!("{fixing} {expected}"));
    }
}

/// What the program says of an object: its status, the reports of its listing, and its error.
fn program(name: &str, bytes: &[u8], options: &[&str]) -> (Option<i32>, Vec<String>, String) {
    let file = format!("{}/{name}.o", env!("CARGO_TARGET_TMPDIR"));
    fs::write(&file, bytes).unwrap();
    let done = Command::new(env!("CARGO_BIN_EXE_relink")).arg(&file).args(options).output().unwrap();
    let [listing, error] = [done.stdout, done.stderr].map(|bytes| String::from_utf8(bytes).unwrap());
    let mut reports = listing.lines().skip_while(|line| *line != "Reports").skip(1);
    let reports = reports.by_ref().take_while(|line| !line.is_empty()).map(|line| line.trim().into()).collect();
    (done.status.code(), reports, error.replace(&file, "FILE"))
}

/// What the calls report, and what the linker sees beside that, is in Reports, and the status is 3.
#[test]
fn broken_links() {
    let words = [BL, 0x90000008, 0xf9400108, BL, 0, 0, 0, 0];
    let symbols =
        [("_a", Some((0, 0))), ("_lib", None), ("_b", Some((1, 4))), ("_dwarf", Some((2, 0))), ("_sys", None)];
    let made = |records: &[MachRel]| {
        let text = ("__TEXT", "__text", &words[..], records);
        object(&[text, ("__DATA", "__data", &[0, 0], &[]), ("__DWARF", "__debug", &[0], &[])], &symbols)
    };
    let sub = |symbol, offset| of(symbol, offset, ty::SUBTRACTOR);
    let pointer = |symbol, offset| of(symbol, offset, ty::UNSIGNED);
    // Stubs, GOT slots, pointers that dyld binds and differences of what is in the image.
    let good = [
        of(1, 0, ty::BRANCH26),
        of(1, 4, ty::GOT_LOAD_PAGE21),
        of(1, 8, ty::GOT_LOAD_PAGEOFF12),
        sub(0, 16),
        pointer(2, 16),
        pointer(1, 24),
    ];
    assert_eq!(program("good", &made(&good), &[]), (Some(0), vec![], "".into()));
    for (records, faults) in [
        (&[of(1, 4, ty::PAGE21)][..], &["0: PAGE21 of _lib: _lib has no address; the word is left"][..]),
        (
            &[addend(8, 4), of(1, 8, ty::PAGEOFF12), of(1, 0, ty::BRANCH26)],
            &["0: PAGEOFF12 of _lib + 0x4: _lib has no address; the word is left"],
        ),
        (
            &[sub(1, 16), pointer(0, 16), sub(0, 24), pointer(1, 24)],
            &[
                "0: SUBTRACTOR of _lib: _lib has no address; 0 is taken for it in the difference",
                "2: SUBTRACTOR of _a: _lib has no address; 0 is taken for it in the difference",
            ],
        ),
        (
            &[sub(1, 16), of(4, 4, ty::PAGE21), sub(1, 24), pointer(1, 24)],
            &[
                "0: SUBTRACTOR of _lib: _lib and _sys have no address; 0 is taken for each in the difference",
                "2: SUBTRACTOR of _lib: _lib has no address; 0 is taken for it in the difference",
            ],
        ),
        (
            &[of(2, 8, ty::PAGEOFF12)],
            &["0: PAGEOFF12 of _b: the address is no multiple of the 8 bytes that the word moves; the word is left"],
        ),
        (&[addend(0, 2), of(0, 0, ty::BRANCH26)], &["0: BRANCH26 of _a + 0x2: the word goes to 100004000"]),
        (
            &[addend(0, 4), of(1, 0, ty::BRANCH26)],
            &["0: BRANCH26 of _lib + 0x4: a stub is no target with an addend; the word goes into the stub"],
        ),
        (&[of(0, 4, ty::BRANCH26)], &["0: BRANCH26 of _a: the word is no branch"]),
        (
            &[pointer(3, 16)],
            &["0: UNSIGNED of _dwarf: __DWARF,__debug is not in the image; the object's own address is taken"],
        ),
    ] {
        let (status, reports, error) = program("broken", &made(records), &[]);
        let due: Vec<_> = faults.iter().map(|fault| fault.split_once(": ").unwrap()).collect();
        let due: Vec<_> = due.iter().map(|(n, fault)| format!("Entry {n} of __TEXT,__text, {fault}.")).collect();
        assert_eq!((status, &reports), (Some(3), &due));
        assert_eq!(error, format!("relink: FILE: the link is broken: {} in Reports\n", due.len()));
    }
    // Out of reach: what the calls report.
    let far = [of(2, 0, ty::BRANCH26), addend(12, 4), of(2, 12, ty::BRANCH26)];
    let (status, reports, _) = program("far", &made(&far), &["--data", "0x120004000"]);
    let due = "Entry 1 of __TEXT,__text, BRANCH26 of _b + 0x4: the branch does not reach 120004008; \
               the word is written all the same, and goes to 100004008.";
    assert_eq!((status, reports), (Some(3), vec![due.into()]));
}

/// An x86_64 object of sections and symbols.
fn object_x86_64(sections: &[Part], symbols: &[(&str, Place)]) -> Vec<u8> {
    let mut bytes = object(sections, symbols);
    bytes[4] = 7; // CPU_TYPE_X86_64
    bytes
}

const X86_64_SYMBOLS: [(&str, Place); 2] = [("_a", Some((0, 4))), ("_b", Some((1, 0)))];

/// What `--entries` lists of an x86_64 object with these records in its second section, which is at 16.
fn listed_x86_64(records: &[MachRel]) -> Result<String, String> {
    let first = ("__TEXT", "__text", &[NOP; 4][..], &[][..]);
    let second = ("__DATA", "__data", &[-8_i32 as u32, 0xffff_ffff, 0x20, 0][..], records);
    let bytes = object_x86_64(&[first, second], &X86_64_SYMBOLS);
    let object = Object::parse(&bytes).unwrap();
    let listed = entries(&object, &PORT).and_then(|lists| entry_listing(&object, &lists));
    listed.map_err(|fault| fault.to_string())
}

/// Every field of an entry is listed, the rows by rising offset; entries of one offset are in the order of their records.
#[test]
fn entries_of_x86_64() {
    use ty_x86_64::*;
    let record = MachRel::new;
    let records = [
        record(8, 0, false, 3, true, SUBTRACTOR),
        record(8, 1, false, 3, true, UNSIGNED),
        record(8, 1, false, 2, false, UNSIGNED), // the first section, at 0
        record(0, 1, true, 2, true, SIGNED_4),
        record(0, 2, true, 2, false, SIGNED_1), // 16 + 0 + 4 - 8 + 1 - 16
        record(0, 0, true, 0, true, BRANCH),
        record(4, 0, true, 2, true, TLV),
    ];
    let due = "\
Entries of __DATA,__data
  no  address  type        size  pc-relative  subtracted  target         addend
  3   10       SIGNED_4    4     yes          -           _b             -0x4
  4   10       SIGNED_1    4     yes          -           __DATA,__data  -0x3
  5   10       BRANCH      1     yes          -           _a             -0x8
  6   14       TLV         4     yes          -           _a             -0x1
  0   18       SUBTRACTOR  8     -            -           _a             0x20
  1   18       UNSIGNED    8     -            yes         _b             0x20
  2   18       UNSIGNED    4     -            -           __TEXT,__text  0x20

x86_64: 7 entries of 7 relocation records.
";
    assert_eq!(listed_x86_64(&records).as_deref(), Ok(due));
    assert_eq!(listed_x86_64(&[]).as_deref(), Ok("x86_64: 0 entries of 0 relocation records.\n"));
}

#[test]
fn refusals_of_x86_64() {
    let good = MachRel::new(0, 0, true, 2, true, ty_x86_64::BRANCH);
    let reading = "the relocation records of section __DATA,__data: number";
    for (bad, expected) in [
        (
            MachRel::new(99, 0, true, 2, true, 10),
            "5: a relocation's type or form is not supported: record 2, offset 0x63, bits 0xad000000",
        ),
        (
            MachRel::new(13, 9, true, 2, false, ty_x86_64::SIGNED),
            "3: a place is past its bytes, a word past its part, or a part past the image: record 2, offset 0xd, bits 0x15000009",
        ),
        (
            MachRel::new(12, 3, true, 2, false, ty_x86_64::SIGNED),
            "7: a record names a section that is not there: record 2, offset 0xc, bits 0x15000003",
        ),
    ] {
        assert_eq!(listed_x86_64(&[good, good, bad, good]), Err(format!("{reading} {expected}")));
    }
    let absent = MachRel::new(4, 2, true, 2, true, ty_x86_64::GOT);
    let due = "section __DATA,__data: the entry at offset 4 names symbol 2, and there are 2";
    assert_eq!(listed_x86_64(&[good, absent]), Err(due.into()));
}
