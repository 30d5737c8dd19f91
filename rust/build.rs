//! Links libhauklivo.a for the target that cargo builds for, if it is of the version that the crate is written for: from the
//! folder that HAUKLIVO_LIB_DIR names, or else from where tools/library leaves it. Where HAUKLIVO_LIB_DIR is empty no archive
//! is looked for: for what does not link.
//!
//! The version is a part of a name, hauklivo_version_N: names can be read from the archive's table of symbols, on any
//! machine and without running what is in the archive. A value could not.

use std::io::ErrorKind;
use std::path::{Path, PathBuf};
use std::{env, fs, iter};

#[path = "src/version.rs"]
mod version;
use version::VERSION;

/// The targets of tools/library: cargo's machine and system, the name, and the folder below ../target.
const TARGETS: [(&str, &str, &str, &str); 4] = [
    ("x86_64", "linux", "x86_64-linux", "staticlib"),
    ("aarch64", "linux", "aarch64-linux", "library/aarch64-linux"),
    ("aarch64", "macos", "arm64-macos", "library/arm64-macos"),
    ("x86_64", "macos", "x86_64-macos", "library/x86_64-macos"),
];

fn main() {
    println!("cargo::rerun-if-env-changed=HAUKLIVO_LIB_DIR");
    let [machine, system] = ["ARCH", "OS"].map(|name| env::var(format!("CARGO_CFG_TARGET_{name}")).unwrap());
    // for any other the crate itself says that there is none
    let Some((.., target, own)) = TARGETS.iter().find(|t| t.0 == machine && t.1 == system) else { return };
    let folder = match env::var_os("HAUKLIVO_LIB_DIR") {
        Some(folder) if folder.is_empty() => return,
        Some(folder) => PathBuf::from(folder),
        None => PathBuf::from(env::var_os("CARGO_MANIFEST_DIR").unwrap()).join("../target").join(own),
    };
    let library = folder.join("libhauklivo.a");
    println!("cargo::rerun-if-changed={}", library.display());
    println!("cargo::rustc-link-search=native={}", folder.display());
    println!("cargo::rustc-link-lib=static=hauklivo");
    check(&library, target);
}

/// Tells of an archive that cannot be linked: by a warning where there is none yet, since what does not link needs none,
/// else by an error.
fn check(library: &Path, target: &str) {
    let (level, found) = match fs::read(library) {
        Err(error) if error.kind() == ErrorKind::NotFound => ("warning", "is not there".into()),
        Err(error) => ("error", format!("cannot be read ({error})")),
        Ok(bytes) => match fault(&bytes, target) {
            None => return,
            Some(found) => ("error", found),
        },
    };
    println!(
        "cargo::{level}={} {found}: make it by `tools/library {target}` in the repository that this crate is of, where rt \
         runs (Linux), and carry it over, or let HAUKLIVO_LIB_DIR name the folder of one",
        library.display()
    );
}

/// Why an archive cannot be linked for a target, if so.
fn fault(archive: &[u8], target: &str) -> Option<String> {
    let other = |found: &str| Some(format!("{found}; this crate is for version {VERSION}"));
    if archive.starts_with(&[0xca, 0xfe, 0xba, 0xbe]) {
        return Some("is universal, where cargo needs the archive of one machine".into());
    }
    let members = members(archive).unwrap_or_default();
    let table = members.first().and_then(|&(name, table)| symbols(name, table));
    match table.map(versions).as_deref() {
        None => return Some("is no archive with a table of symbols".into()),
        Some([]) => return other("has no symbol hauklivo_version_N, so it is older than any version"),
        Some([found]) if *found == VERSION.to_string() => {}
        Some(found) => return other(&format!("is of version {}", found.join(" and "))),
    }
    let objects = members.iter().skip(1).filter(|member| member.0 != b"//"); // that one has long names
    let own = objects.map(|member| made_for(member.1)).find(|&own| own != target)?;
    Some(format!("is for {own}, not for {target}"))
}

/// The versions that symbols name. On a Mac each name has one more `_`.
fn versions(symbols: Vec<&[u8]>) -> Vec<String> {
    let plain = |name: &[u8]| name.strip_prefix(b"_").unwrap_or(name).strip_prefix(b"hauklivo_version_").map(Vec::from);
    symbols.iter().filter_map(|&name| plain(name)).map(|number| number.escape_ascii().to_string()).collect()
}

/// The target that an object is for, by the first bytes of an ELF or Mach-O file and a Mach-O file's commands.
fn made_for(object: &[u8]) -> &'static str {
    match object.get(..20).unwrap_or_default() {
        [0x7f, b'E', b'L', b'F', .., 62, 0] => "x86_64-linux",
        [0x7f, b'E', b'L', b'F', .., 183, 0] => "aarch64-linux",
        [0xcf, 0xfa, 0xed, 0xfe, ..] if !for_macos(object) => "another system of Apple's",
        [0xcf, 0xfa, 0xed, 0xfe, 12, 0, 0, 1, ..] => "arm64-macos",
        [0xcf, 0xfa, 0xed, 0xfe, 7, 0, 0, 1, ..] => "x86_64-macos",
        _ => "another machine",
    }
}

/// Whether a Mach-O file says that it is for macOS: by LC_VERSION_MIN_MACOSX (0x24), or LC_BUILD_VERSION (0x32) with
/// platform 1. A command has its kind, its size and what it says; their number stands at 16, the first at 32.
fn for_macos(object: &[u8]) -> bool {
    let field = |bytes: &[u8], at: usize| Some(u32::from_le_bytes(bytes.get(at..at + 4)?.try_into().ok()?));
    let count = field(object, 16).unwrap_or(0) as usize;
    let commands = iter::successors(object.get(32..), |&command| command.get(field(command, 4)?.max(8) as usize..));
    let mut said = commands.take(count).map_while(|command| Some((field(command, 0)?, field(command, 8)?)));
    said.any(|command| matches!(command, (0x24, _) | (0x32, 1)))
}

/// The members of an archive with their names. A name `#1/N` stands in the first N bytes of the member itself.
fn members(archive: &[u8]) -> Option<Vec<(&[u8], &[u8])>> {
    let number = |field: &[u8]| str::from_utf8(field).ok()?.trim_end().parse::<usize>().ok();
    let mut rest = archive.strip_prefix(b"!<arch>\n")?;
    let mut members = Vec::new();
    while !rest.is_empty() {
        let (head, after) = rest.split_at_checked(60)?;
        let size = number(&head[48..58])?;
        let (bytes, next) = after.split_at_checked(size)?;
        let name = head[..16].trim_ascii_end();
        members.push(match name.strip_prefix(b"#1/") {
            Some(length) => bytes.split_at_checked(number(length)?)?,
            None => (name, bytes),
        });
        rest = next.get(size % 2..).unwrap_or_default();
    }
    Some(members)
}

/// The names in a table of symbols, the first member of an archive. On Linux: how many there are and a place in the file for
/// each, in 4 bytes, or 8 in a member /SYM64/, the highest first; then the names, each with a 0 at its end. On a Mac: the
/// bytes of all pairs of a name's place and a member's, the pairs, the bytes of all names, the names.
fn symbols<'a>(name: &[u8], table: &'a [u8]) -> Option<Vec<&'a [u8]>> {
    let first = |bytes: &'a [u8]| bytes.split(|&byte| byte == 0).next();
    let field = |at: usize| Some(u32::from_le_bytes(table.get(at..at.checked_add(4)?)?.try_into().ok()?) as usize);
    let width = match name {
        b"/" => 4,
        b"/SYM64/" => 8,
        name if name.starts_with(b"__.SYMDEF") && !name.starts_with(b"__.SYMDEF_64") => {
            let pairs = field(0)?;
            let names = table.get(pairs.checked_add(8)?..)?;
            return (0..pairs / 8).map(|i| names.get(field(4 + 8 * i)?..).and_then(first)).collect();
        }
        _ => return None,
    };
    let (count, rest) = table.split_at_checked(width)?;
    let count = count.iter().fold(0_usize, |n, &byte| n << 8 | usize::from(byte));
    let names = rest.get(count.checked_mul(width)?..)?;
    Some(names.split(|&byte| byte == 0).take(count).collect())
}
