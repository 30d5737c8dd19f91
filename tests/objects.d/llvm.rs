//! What the LLVM tools say of an object.

use std::fs;
use std::path::Path;
use std::process::Command;

/// What a tool prints of a file.
fn printed(tool: &str, options: &[&str], file: &Path) -> String {
    let done = Command::new(tool).args(options).arg(file).output().expect("the tool runs");
    assert!(done.status.success(), "{tool}: {}", String::from_utf8_lossy(&done.stderr));
    String::from_utf8(done.stdout).expect("plain text")
}

/// A number, hexadecimal after 0x.
fn number(word: &str) -> u64 {
    let read = match word.strip_prefix("0x") {
        Some(digits) => u64::from_str_radix(digits, 16),
        None => word.parse(),
    };
    read.unwrap_or_else(|_| panic!("{word} is no number"))
}

/// The name and the number of "name (number)".
fn named(words: &str) -> (&str, u64) {
    let (name, rest) = words.rsplit_once(" (").expect("a name and a number");
    (name, number(rest.trim_end_matches(')')))
}

/// A relocation record.
#[derive(Default)]
pub struct Row {
    pub offset: u32,
    pub is_pcrel: bool,
    pub length: u8,
    pub ty: u8,
    pub type_name: String,
    /// Whether it names a symbol, not a section or a number.
    pub is_symbol: bool,
    pub index: u32,
    pub name: String,
}

/// The relocation records of each section that has some.
pub fn relocations(file: &Path) -> Vec<Vec<Row>> {
    let mut sections: Vec<Vec<Row>> = Vec::new();
    for line in printed("llvm-readobj", &["--relocs", "--expand-relocs"], file).lines().map(str::trim) {
        if line.starts_with("Section ") {
            sections.push(Vec::new());
            continue;
        }
        let Some(rows) = sections.last_mut() else { continue };
        if line == "Relocation {" {
            rows.push(Row::default());
            continue;
        }
        let (Some(row), Some((field, value))) = (rows.last_mut(), line.split_once(": ")) else { continue };
        match field {
            "Offset" => row.offset = number(value) as u32,
            "PCRel" => row.is_pcrel = value == "1",
            "Length" => row.length = number(value) as u8,
            "Type" => {
                let (name, number) = named(value);
                (row.type_name, row.ty) = (name.into(), number as u8);
            }
            "Symbol" | "Section" => {
                let (name, index) = named(value);
                (row.is_symbol, row.name, row.index) = (field == "Symbol", name.into(), index as u32);
            }
            _ => panic!("{line}: an unknown field of llvm-readobj"),
        }
    }
    sections
}

/// Kind and words of each hint.
pub fn hints(file: &Path) -> Vec<(u64, Vec<u64>)> {
    let mut hints: Vec<(u64, Vec<u64>)> = Vec::new();
    for line in printed("llvm-objdump", &["--macho", "--link-opt-hints"], file).lines() {
        let mut words = line.split_whitespace();
        match (words.next(), words.next()) {
            (Some("identifier"), Some("0")) => break,
            (Some("identifier"), Some(kind)) => hints.push((number(kind), Vec::new())),
            (Some("value"), Some(word)) => hints.last_mut().expect("a hint").1.push(number(word)),
            _ => {}
        }
    }
    hints
}

/// A section header with its bytes.
#[derive(Debug, Default, PartialEq, Eq)]
pub struct Section {
    pub name: String,
    pub address: u64,
    pub size: u64,
    pub align: u32,
    pub bytes: Vec<u8>,
}

/// The sections. One without a place in the file has no bytes, whatever is printed.
pub fn sections(file: &Path) -> Vec<Section> {
    let mut sections: Vec<Section> = Vec::new();
    let (mut in_bytes, mut in_file) = (false, false);
    for line in printed("llvm-readobj", &["--sections", "--section-data"], file).lines().map(str::trim) {
        if line == "Section {" {
            sections.push(Section::default());
        }
        let Some(section) = sections.last_mut() else { continue };
        if in_bytes && line != ")" {
            if !in_file {
                continue;
            }
            let (_, words) = line.split_once(": ").expect("an offset");
            let digits: String = words.split("  |").next().unwrap().split_whitespace().collect();
            let byte = |at| u8::from_str_radix(&digits[at..at + 2], 16).expect("a byte");
            section.bytes.extend((0..digits.len()).step_by(2).map(byte));
            continue;
        }
        in_bytes = line == "SectionData (";
        match line.split_once(": ") {
            Some(("Name", value)) => section.name = value.split(' ').next().unwrap().into(),
            Some(("Segment", value)) => {
                section.name = format!("{},{}", value.split(' ').next().unwrap(), section.name);
            }
            Some(("Address", value)) => section.address = number(value),
            Some(("Size", value)) => section.size = number(value),
            Some(("Offset", value)) => in_file = value != "0",
            Some(("Alignment", value)) => section.align = number(value) as u32,
            _ => {}
        }
    }
    sections
}

/// Words, each with its address, as llvm-objdump has them. `scratch` is overwritten.
pub fn disassembly(words: &[(u64, u32)], scratch: &Path) -> Vec<String> {
    fs::write(scratch, section_for_each(words)).expect("a scratch file");
    let text = printed("llvm-objdump", &["-d", "--no-show-raw-insn"], scratch);
    let row = |line: &str| {
        let (place, words) = line.split_once(':')?;
        u64::from_str_radix(place.trim(), 16).ok()?;
        Some(words.split(" <").next()?.split_whitespace().collect::<Vec<_>>().join(" "))
    };
    let rows: Vec<String> = text.lines().filter_map(row).collect();
    assert_eq!(rows.len(), words.len(), "a row of llvm-objdump for each word");
    rows
}

/// A Mach-O object in which each word is a section of its own.
fn section_for_each(words: &[(u64, u32)]) -> Vec<u8> {
    let count = words.len() as u32;
    let commands = 72 + 80 * count;
    let numbers = |list: &[u32]| list.iter().flat_map(|n| n.to_le_bytes()).collect::<Vec<u8>>();
    let mut file = numbers(&[0xfeed_facf, 0x0100_000c, 0, 1, 1, commands, 0, 0]);
    file.extend(numbers(&[0x19, commands, 0, 0, 0, 0, 0, 0, 0, 0, 32 + commands, 0, 4 * count, 0, 7, 7, count, 0]));
    for ((address, _), number) in words.iter().zip(0..) {
        file.extend(b"__text\0\0\0\0\0\0\0\0\0\0__TEXT\0\0\0\0\0\0\0\0\0\0");
        file.extend(address.to_le_bytes());
        file.extend(numbers(&[4, 0, 32 + commands + 4 * number, 2, 0, 0, 0x8000_0400, 0, 0, 0]));
    }
    file.extend(words.iter().flat_map(|(_, word)| word.to_le_bytes()));
    file
}
