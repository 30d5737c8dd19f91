//! The archive that is linked is of the crate's version, and the build script turns any other down.

use std::path::PathBuf;
use std::process::Command;
use std::{env, fs, str};

use hauklivo::{VERSION, raw};

#[test]
fn the_linked_archive() {
    assert_eq!(hauklivo::version(), VERSION);
    assert_eq!(raw::hauklivo_version_5(), VERSION);
}

/// An archive that has nothing but a table of symbols, in fields of `width` bytes.
fn archive(width: usize, symbols: &[&str]) -> Vec<u8> {
    let member = if width == 4 { "/" } else { "/SYM64/" };
    let count = &symbols.len().to_be_bytes()[8 - width..];
    let mut table = [count, &vec![0; width * symbols.len()]].concat();
    for symbol in symbols {
        table.extend([symbol.as_bytes(), b"\0"].concat());
    }
    let head = format!("!<arch>\n{member:<16}{:<32}{:<10}`\n", "0", table.len());
    [head.as_bytes(), &table].concat()
}

/// An archive as a Mac has it: a table of symbols and an object.
fn mac_archive(symbols: &[&str], object: &[u8]) -> Vec<u8> {
    let mut names = Vec::new();
    let mut pairs = Vec::new();
    for symbol in symbols {
        pairs.extend([names.len() as u32, 0].map(u32::to_le_bytes).concat());
        names.extend([b"_", symbol.as_bytes(), b"\0"].concat());
    }
    let sizes = [pairs.len(), names.len()].map(|n| (n as u32).to_le_bytes());
    let table = [&b"__.SYMDEF\0\0\0"[..], &sizes[0], &pairs, &sizes[1], &names].concat();
    let member = |bytes: &[u8]| {
        let end = &b"\n"[..bytes.len() % 2];
        [format!("{:<16}{:<32}{:<10}`\n", "#1/12", "0", bytes.len()).as_bytes(), bytes, end].concat()
    };
    [&b"!<arch>\n"[..], &member(&table), &member(&[b"hauklivo.o\0\0", object].concat())].concat()
}

/// What cargo says of the crate with an archive of these bytes, and whether it goes on.
fn checked(name: &str, bytes: Option<&[u8]>) -> (bool, String) {
    checked_for(&[], name, bytes)
}

/// The same, by more words of the command.
fn checked_for(words: &[&str], name: &str, bytes: Option<&[u8]>) -> (bool, String) {
    let folder = PathBuf::from(env!("CARGO_TARGET_TMPDIR")).join(name);
    fs::create_dir_all(&folder).unwrap();
    if let Some(bytes) = bytes {
        fs::write(folder.join("libhauklivo.a"), bytes).unwrap();
    }
    let done = Command::new(env!("CARGO"))
        .args(["check", "--offline", "--manifest-path", concat!(env!("CARGO_MANIFEST_DIR"), "/Cargo.toml")])
        .arg("--target-dir")
        .arg(concat!(env!("CARGO_TARGET_TMPDIR"), "/checked"))
        .args(words)
        .env("HAUKLIVO_LIB_DIR", &folder)
        .output()
        .unwrap();
    (done.status.success(), str::from_utf8(&done.stderr).unwrap().into())
}

#[test]
fn the_build_script() {
    let calls = ["hauklivo_read_relocs", "hauklivo_list", "hauklivo_version"];
    let with = |more: &[&str]| archive(4, &[&calls[..], more].concat());
    let this = format!("hauklivo_version_{VERSION}");
    let after = format!("hauklivo_version_{}", VERSION + 1);
    let both = format!("is of version {VERSION} and {}; this crate is for version {VERSION}: make it by", VERSION + 1);
    let cut = with(&[&this]);
    for (name, bytes, expected) in [
        ("without", with(&[]), "has no symbol hauklivo_version_N, so it is older than any version"),
        ("other", with(&[&after]), &*format!("libhauklivo.a is of version {}; this crate is for", VERSION + 1)),
        ("longer", with(&[&format!("{this}0")]), &*format!("is of version {VERSION}0; this crate")),
        ("odd", with(&["hauklivo_version_x"]), "is of version x; this crate"),
        ("both", with(&[&this, &after]), &*both),
        ("wide", archive(8, &[&after]), &*format!("is of version {};", VERSION + 1)),
        ("short", cut[..cut.len() - 1].to_vec(), "is no archive with a table of symbols"),
        ("empty", vec![], "is no archive with a table of symbols"),
        ("object", b"\x7fELF".to_vec(), "is no archive with a table of symbols"),
    ] {
        let (goes_on, text) = checked(name, Some(&bytes));
        assert!(!goes_on && text.contains("error: hauklivo@") && text.contains(expected), "{name}: {text}");
        assert!(text.contains("`tools/library ") && text.contains("HAUKLIVO_LIB_DIR"), "{name}: {text}");
    }
    // What does not link goes on without an archive.
    let (goes_on, text) = checked("none", None);
    assert!(
        goes_on && text.contains("warning: hauklivo@") && text.contains("libhauklivo.a is not there: make it by"),
        "{text}"
    );
    for (name, bytes) in [("good", with(&[&this])), ("good wide", archive(8, &[&this]))] {
        let (goes_on, text) = checked(name, Some(&bytes));
        assert!(goes_on && !text.contains("libhauklivo.a"), "{name}: {text}");
    }
}

/// The first bytes of an object for each target, beside cargo's name for that and the repository's. Those of macOS have one
/// command, which says so: of arm64 LC_BUILD_VERSION, of x86-64 the older LC_VERSION_MIN_MACOSX.
const OBJECTS: [(&str, &str, &[u8]); 4] = [
    ("x86_64-unknown-linux-gnu", "x86_64-linux", b"\x7fELF\x02\x01\x01\0\0\0\0\0\0\0\0\0\x01\0\x3e\0"),
    ("aarch64-unknown-linux-gnu", "aarch64-linux", b"\x7fELF\x02\x01\x01\0\0\0\0\0\0\0\0\0\x01\0\xb7\0"),
    (
        "aarch64-apple-darwin",
        "arm64-macos",
        b"\xcf\xfa\xed\xfe\x0c\0\0\x01\0\0\0\0\x01\0\0\0\x01\0\0\0\x18\0\0\0\0\0\0\0\0\0\0\0\x32\0\0\0\x18\0\0\0\x01\0\0\0",
    ),
    (
        "x86_64-apple-darwin",
        "x86_64-macos",
        b"\xcf\xfa\xed\xfe\x07\0\0\x01\x03\0\0\0\x01\0\0\0\x01\0\0\0\x10\0\0\0\0\0\0\0\0\0\0\0\x24\0\0\0\x10\0\0\0\0\x0c\x0a\0",
    ),
];

/// Here only what the build script says of made-up archives: tests/targets has it look at the real ones, and compiles the
/// crate for the targets whose library of Rust's is installed.
#[test]
fn the_targets() {
    let this = format!("hauklivo_version_{VERSION}");
    for (k, (target, own, object)) in OBJECTS.iter().enumerate() {
        let words = ["--target", target];
        let (_, other, foreign) = OBJECTS[(k + 1) % 4];
        let command = format!(": make it by `tools/library {own}`");
        let (_, text) = checked_for(&words, &format!("no {own}"), None);
        assert!(text.contains("libhauklivo.a is not there") && text.contains(&command), "{target}: {text}");
        assert!(text.contains("where rt runs (Linux)"), "{target}: {text}");
        let (goes_on, text) = checked_for(&words, &format!("foreign {own}"), Some(&mac_archive(&[&this], foreign)));
        assert!(
            !goes_on && text.contains(&format!("libhauklivo.a is for {other}, not for {own}{command}")),
            "{target}: {text}"
        );
        let (_, text) = checked_for(&words, &format!("own {own}"), Some(&mac_archive(&[&this], object)));
        assert!(!text.contains("libhauklivo.a"), "{target}: {text}");
    }
    let universal = [&[0xca, 0xfe, 0xba, 0xbe][..], &mac_archive(&[&this], OBJECTS[2].2)].concat();
    let (goes_on, text) = checked("universal", Some(&universal));
    assert!(!goes_on && text.contains("libhauklivo.a is universal, where cargo needs"), "{text}");
    let after = format!("hauklivo_version_{}", VERSION + 1);
    let (goes_on, text) = checked("later", Some(&mac_archive(&[&after], OBJECTS[0].2)));
    assert!(!goes_on && text.contains(&format!("is of version {}; this crate is for version", VERSION + 1)), "{text}");
}

/// An object for iOS is for the machine of a Mac, but not for macOS; nor is one that does not say what it is for.
#[test]
fn other_systems() {
    let symbols = [&*format!("hauklivo_version_{VERSION}")];
    let (target, _, object) = OBJECTS[2];
    // the platform, the kind of command, the number of commands, all of it with a size that leads nowhere
    for (at, bytes) in [(40, &[2][..]), (32, &[0x25]), (16, &[0]), (32, &[0; 8]), (32, &[0xff; 8]), (16, &[0xff; 28])] {
        let mut other = object.to_vec();
        other[at..at + bytes.len()].copy_from_slice(bytes);
        let name = format!("system {at} {}", bytes[0]);
        let (goes_on, text) = checked_for(&["--target", target], &name, Some(&mac_archive(&symbols, &other)));
        assert!(!goes_on && text.contains("is for another system of Apple's, not for arm64-macos"), "{name}: {text}");
    }
}

/// No count or place in an archive ends the build script by a panic.
#[test]
fn damaged_archives() {
    let whole = mac_archive(&[&format!("hauklivo_version_{VERSION}")], OBJECTS[0].2);
    for (at, bytes) in [(80, [0xff; 4]), (84, [0xff; 4]), (80, [0xf8, 0xff, 0xff, 0x7f]), (8, *b"#1/9")] {
        let mut damaged = whole.clone();
        damaged[at..at + 4].copy_from_slice(&bytes);
        let (goes_on, text) = checked(&format!("damaged {at} {}", bytes[0]), Some(&damaged));
        assert!(!goes_on && text.contains("error: hauklivo@") && !text.contains("panicked"), "{at}: {text}");
    }
}
