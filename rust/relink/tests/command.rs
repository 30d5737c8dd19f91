//! The program's arguments, answers and output file.

use std::ffi::OsStr;
use std::fs;
use std::os::unix::ffi::OsStrExt;
use std::path::PathBuf;
use std::process::{Command, Output};

use relink::hauklivo::Record;
use relink::{Object, Options, PORT, link};

const EXAMPLE: &[u8] = include_bytes!("../example/thermo.o");
const X86_64: &[u8] = include_bytes!("../example/thermo-x86_64.o");
const ARM64E: &[u8] = include_bytes!("../example/pointers.o");

fn relink(words: &[&str]) -> Output {
    Command::new(env!("CARGO_BIN_EXE_relink")).args(words).output().unwrap()
}

/// The error of a run that ends with `status`.
fn error(words: &[&str], status: i32) -> String {
    let done = relink(words);
    assert_eq!((done.status.code(), done.stdout.len()), (Some(status), 0));
    String::from_utf8(done.stderr).unwrap()
}

fn written(name: &str, bytes: &[u8]) -> String {
    let file = PathBuf::from(env!("CARGO_TARGET_TMPDIR")).join(name);
    fs::write(&file, bytes).unwrap();
    file.to_str().unwrap().into()
}

#[test]
fn usage() {
    for word in ["--help", "-h"] {
        let done = relink(&[word]);
        assert!(done.status.success() && done.stderr.is_empty());
        assert_eq!(String::from_utf8(done.stdout).unwrap(), include_str!("../src/usage.txt"));
    }
    for (words, expected) in [
        (&["--text"][..], "--text needs a value"),
        (&["--text", "here"], "here is no address"),
        (&["--odd"], "no such option: --odd"),
        (&["a.o", "b.o"], "only one file can be given"),
        (&["--entries", "a.o", "-o", "b"], "with --entries nothing is laid out"),
        (&["--text", "0x100004000", "--entries"], "with --entries nothing is laid out"),
        (&["--data", "1", "a.o", "--entries"], "with --entries nothing is laid out"),
    ] {
        assert!(error(words, 2).contains(expected), "{words:?}");
    }
}

/// Arguments that are not UTF-8 are taken as they are.
#[test]
fn odd_arguments() {
    let odd = |bytes| OsStr::from_bytes(bytes);
    let run = |words: &[&OsStr]| {
        let done = Command::new(env!("CARGO_BIN_EXE_relink")).args(words).output().unwrap();
        (done.status.code(), String::from_utf8(done.stderr).unwrap())
    };
    for (words, status, expected) in [
        (&[odd(b"no/such/\xff.o")][..], 1, "it cannot be read: "),
        (&[odd(b"-\xff")], 2, "no such option: -"),
        (&[odd(b"--text"), odd(b"\xff")], 2, " is no address"),
        (&[odd(b"-o"), odd(b"/no/such/\xff")], 1, " cannot be written: "),
    ] {
        let (code, text) = run(words);
        assert!(code == Some(status) && text.contains(expected), "{code:?} {text}");
    }
}

#[test]
fn example_and_output() {
    let out = written("out", b"");
    let done = relink(&["--text", "0x10000", "--data", "0x400000", "-o", &out]);
    assert!(done.status.success() && done.stderr.is_empty());
    let options = Options { text: 0x10000, data: Some(0x40_0000), debug: false };
    let object = Object::parse(EXAMPLE).unwrap();
    let linked = link(&object, &options, &PORT).unwrap();
    assert_eq!(fs::read(&out).unwrap(), linked.image);
    assert_ne!(linked.before, linked.fixed);
}

#[test]
fn example_listing() {
    let done = relink(&[]);
    assert!(done.status.success() && done.stderr.is_empty());
    let near = String::from_utf8(done.stdout).unwrap();
    assert!(near.contains("\nNo reports.\n"));
    assert!(near.contains("  6  ADRP_ADD_LDR, rewritten: literal load, 3 words written\n"));
    // Within reach of an ADR: the ADRP is kept.
    assert!(near.contains(
        "\n    7  ADRP_ADD_STR, rewritten: ADD folded into the access, 2 words written
         100004068  90000028 adrp x8, 0x100008000  the same
         10000406c  91004108 add x8, x8, #0x10     d503201f nop
         100004070  b9000100 str w0, [x8]          b9001100 str w0, [x8, #0x10]\n"
    ));
    assert!(near.ends_with(
        "
Hints by rule and kind
  rule                          ADRP_ADRP  ADRP_LDR  ADRP_ADD_LDR  ADRP_LDR_GOT_LDR  ADRP_ADD_STR  ADRP_LDR_GOT_STR  ADRP_ADD  ADRP_LDR_GOT
  literal load                  -          6         2             1                 -             -                 -         -
  ADR                           -          -         -             -                 -             -                 1         -
  ADD folded into the access    -          -         -             -                 1             -                 -         -
  literal load of the GOT slot  -          -         -             -                 -             1                 -         1
  declined                      1          1         -             -                 -             -                 -         -

Tally: 13 rewritten, 0 skipped, 2 declined, 0 turned down by 9; 0 not run.\n"
    ));

    let far = String::from_utf8(relink(&["--data", "0x101000000"]).stdout).unwrap();
    assert!(far.contains("  6  ADRP_ADD_LDR, rewritten: ADD folded into the access, 2 words written\n"));
    assert!(far.contains("  5  ADRP_ADRP, rewritten: second ADRP dropped, 1 word written\n"));

    let done = relink(&["--data", "0x300000000"]);
    assert_eq!(done.status.code(), Some(3));
    let error = String::from_utf8(done.stderr).unwrap();
    assert!(error.ends_with("thermo.o: the link is broken: 14 in Reports\n"), "{error}");
    let beyond = String::from_utf8(done.stdout).unwrap();
    assert!(beyond.contains("The stub of _ring does not reach its pointer by ADRP; it is written all the same.\n"));
    assert!(beyond.contains(", PAGE21 of _newest: ADRP does not reach 300000010; the word is written all the same.\n"));
}

/// What `--entries` lists of a file.
fn listed(words: &[&str]) -> String {
    let done = relink(&[&["--entries"], words].concat());
    assert!(done.status.success() && done.stderr.is_empty());
    String::from_utf8(done.stdout).unwrap()
}

#[test]
fn example_entries() {
    let arm = listed(&[]);
    assert!(arm.starts_with("the example, rust/relink/example/thermo.o\n\nEntries of __TEXT,__text\n"));
    assert!(arm.contains(
        "
  9   b4       GOT_LOAD_PAGEOFF12   4     -            -           _alarms  0x0
  8   c4       PAGE21               4     yes          -           _newest  0x4\n"
    ));
    assert!(arm.ends_with("\narm64: 36 entries of 38 relocation records.\n"));

    let file = written("x86_64", X86_64);
    let x86_64 = listed(&[&file]);
    assert!(x86_64.starts_with(&format!(
        "{file}

Entries of __TEXT,__text
  no  address  type      size  pc-relative  subtracted  target              addend
  15  8        SIGNED    4     yes          -           __TEXT,__literal16  0x0
  14  1a       SIGNED    4     yes          -           _type_k             0x0
  13  27       SIGNED    4     yes          -           _ice                0x0
  12  36       SIGNED_1  4     yes          -           _count              0x0\n"
    )));
    assert!(x86_64.contains(
        "
Entries of __DATA,__const
  no  address  type      size  pc-relative  subtracted  target            addend
  1   150      UNSIGNED  8     -            -           __TEXT,__cstring  0x0
  0   158      UNSIGNED  8     -            -           __TEXT,__cstring  0x7\n"
    ));
    assert!(x86_64.ends_with("\nx86_64: 20 entries of 20 relocation records.\n"));
}

/// The example for arm64e: how each pointer is signed, and what stands there before and after.
#[test]
fn authenticated_pointers() {
    let file = written("arm64e", ARM64E);
    let done = relink(&[&file]);
    assert!(done.status.success() && done.stderr.is_empty());
    let listing = String::from_utf8(done.stdout).unwrap();
    assert!(listing.contains("\n  the image base, from which authenticated pointers count, is 100000000\n"));
    assert!(listing.contains(
        "
Entries of __DATA,__data
  no  address    type                   target                                                            before            after
  3   100008020  AUTHENTICATED_POINTER  _type_j (key ib, diversity 42)                                    8002002a00000000  8002002a00004010
  2   100008028  AUTHENTICATED_POINTER  _type_k (key ia, diversity 55743, address diversity)              8001d9bf00000000  8001d9bf00004000
  1   100008030  AUTHENTICATED_POINTER  _coefficients + 0x8 (key da, diversity 65535, address diversity)  8005ffff00000008  8005ffff00008008
  0   100008038  AUTHENTICATED_POINTER  _coefficients - 0x8 (key db, diversity 0)                         80060000fffffff8  8006000000007ff8

Entries of __DATA,__const
  no  address    type                   target                         before            after
  2   100008040  AUTHENTICATED_POINTER  _type_k (key ia, diversity 0)  8000000000000000  8000000000004000
  1   100008048  AUTHENTICATED_POINTER  _type_j (key ia, diversity 0)  8000000000000000  8000000000004010
  0   100008050  AUTHENTICATED_POINTER  _custom (key ia, diversity 0)  8000000000000000  left for dyld to bind

No reports.
"
    ));
    assert!(listing.ends_with("\nTally: 5 rewritten, 0 skipped, 0 declined, 0 turned down by 9; 0 not run.\n"));

    let entries = listed(&[&file]);
    assert!(entries.contains(
        "
  1   c8       AUTHENTICATED_POINTER  8     -            -           _coefficients (key da, diversity 65535, address diversity)  0x8
  0   d0       AUTHENTICATED_POINTER  8     -            -           _coefficients (key db, diversity 0)                         -0x8\n"
    ));
    assert!(entries.ends_with("\narm64: 17 entries of 21 relocation records.\n"));
}

/// An authenticated pointer that cannot be: a stored word that has bit 62 set, and data too far from the image base.
#[test]
fn refused_pointers() {
    let stored = 0x80060000fffffff8_u64;
    let at = ARM64E.windows(8).position(|bytes| bytes == stored.to_le_bytes()).unwrap();
    let mut odd = ARM64E.to_vec();
    odd[at + 7] |= 0x40;
    let file = written("odd-pointer", &odd);
    for words in [&[&*file][..], &["--entries", &file]] {
        assert_eq!(
            error(words, 1).replace(&file, "FILE"),
            "relink: FILE: the relocation records of section __DATA,__data: number 15: an authenticated pointer's stored \
             word has a bit of 51 to 62 set, or 63 clear: record 0, offset 0x38, bits 0xbe000006; c0060000fffffff8 is \
             stored for the pointer to _coefficients\n"
        );
    }
    let file = written("far-pointer", ARM64E);
    for (data, expected) in [
        (
            "0x1fffffff8",
            "entry 1, record 1, offset 0x30, bits 0xbe000006; the pointer at 200000028 is to _coefficients + 0x8 at 200000000",
        ),
        (
            "0x100000000",
            "entry 0, record 0, offset 0x38, bits 0xbe000006; the pointer at 100000038 is to _coefficients - 0x8 at fffffff8",
        ),
    ] {
        assert_eq!(
            error(&[&file, "--data", data], 1).replace(&file, "FILE"),
            format!(
                "relink: FILE: the fix-up of section __DATA,__data: number 16: an authenticated pointer's target plus \
                 addend less the image base, modulo 2^64, is above 2^32 - 1: {expected}, and the image base is 100000000\n"
            )
        );
    }
}

/// Authenticated pointers at both limits of their distance: the largest that data at multiples of 8 have, and 0.
#[test]
fn pointers_at_the_limits() {
    let file = written("limit-pointer", ARM64E);
    for (data, word) in [
        ("0x1fffffff0", "8005ffff00000008  8005fffffffffff8\n"),
        ("0x100000008", "80060000fffffff8  8006000000000000\n"),
    ] {
        let done = relink(&[&file, "--data", data]);
        assert_eq!(done.status.code(), Some(0));
        assert!(String::from_utf8(done.stdout).unwrap().contains(word));
    }
}

/// The lines that the README shows are the program's.
#[test]
fn readme_listing() {
    let readme = include_str!("../../../README.md");
    let mut blocks = readme.split("```text\n").skip(1).map(|rest| rest.split("```").next().unwrap());
    let [arm64e, x86_64] = [("readme-arm64e", ARM64E), ("readme", X86_64)].map(|(name, bytes)| written(name, bytes));
    let listings = [&[][..], &[&*arm64e], &["--entries", &x86_64]].map(|words| relink(words).stdout);
    for listing in listings {
        let shown = blocks.next().expect("a listing in the README");
        let listing = String::from_utf8(listing).unwrap();
        let mut lines = listing.lines();
        for line in shown.lines() {
            assert!(lines.any(|l| l == line), "{line}");
        }
    }
}

/// Which arm64 an object is for, by the cpu subtype in its header, changes nothing.
#[test]
fn subtypes() {
    for example in [EXAMPLE, ARM64E] {
        let listings = [0_u32, 1, 2, 0x8000_0002, u32::MAX].map(|subtype| {
            let mut other = example.to_vec();
            other[8..12].copy_from_slice(&subtype.to_le_bytes());
            relink(&[&written("subtype", &other)])
        });
        assert!(listings.iter().all(|done| done.status.success() && done.stdout == listings[0].stdout));
    }
}

#[test]
fn refusals() {
    assert!(error(&["/no/such.o"], 1).contains("it cannot be read: "));
    assert!(error(&["/"], 1).contains("it cannot be read: "));
    assert!(error(&["--data", "0x100004000"], 1).contains(" overlap"));
    assert!(error(&["--text", "0xfffffffffffff000"], 1).contains("the layout passes the end of the address space"));
    assert!(error(&[&written("elf", b"\x7fELF")], 1).contains("this is no 64-bit Mach-O file"));

    assert!(error(&[&written("large", &vec![0; (16 << 20) + 1])], 1).contains("it is larger than 16 MiB"));

    // 32-bit ARM and x86, and PowerPC with 64 bits.
    for (cpu, high) in [(12, 0), (7, 0), (18, 1)] {
        let mut other = EXAMPLE.to_vec();
        (other[4], other[7]) = (cpu, high);
        let file = written(&format!("other{cpu}"), &other);
        for words in [&[&*file][..], &["--entries", &file]] {
            assert!(error(words, 1).contains("another processor than arm64 or x86_64 (cpu type "));
        }
    }
    let due = "this is an x86_64 object, and only arm64 objects are laid out; --entries lists its entries\n";
    assert!(error(&[&written("not-laid-out", X86_64)], 1).ends_with(due));

    // A record of the file made one of a type that there is none of.
    let object = Object::parse(EXAMPLE).unwrap();
    let third = object.sections[0].records[2];
    let at = EXAMPLE.windows(8).position(|w| w == third.to_bytes()).unwrap();
    let mut odd = EXAMPLE.to_vec();
    odd[at + 7] |= 0xf0;
    let words = error(&[&written("odd", &odd)], 1);
    let expected = format!(
        "the relocation records of section __TEXT,__text: number 5: a relocation's type or form is not supported: \
         record 2, offset {:#x}, bits {:#010x}\n",
        third.offset,
        third.bits | 0xf000_0000
    );
    assert!(words.ends_with(&expected), "{words}");
}
