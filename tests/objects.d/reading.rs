//! An object as the Mach-O module and the reader see it, against the lists of the LLVM tools.

use std::path::Path;

use relink::hauklivo::{Reloc, Target, ty};
use relink::{Machine, Object, PORT, Section, type_name};

use crate::authenticated;
use crate::llvm::{self, Row};
use crate::rust::RUST;

/// What differs, in sentences.
pub fn differences(object: &Object, file: &Path) -> Vec<String> {
    let mut found = Vec::new();
    let sections: Vec<_> = object.sections.iter().map(section).collect();
    if sections != llvm::sections(file) {
        found.push("the sections are not those of llvm-readobj".into());
    }
    let hints: Vec<_> = object.hints.iter().map(|h| (h.kind, h.words.clone())).collect();
    if hints != llvm::hints(file) {
        found.push("the hints are not those of llvm-objdump".into());
    }

    let addresses: Vec<u64> = object.sections.iter().map(|s| s.address).collect();
    let mut lists = llvm::relocations(file).into_iter();
    for section in object.sections.iter().filter(|s| !s.records.is_empty()) {
        let rows = lists.next().unwrap_or_default();
        found.extend(in_entries(object, section, &rows, &addresses));
    }
    if lists.next().is_some() {
        found.push("llvm-readobj has more relocations".into());
    }
    found
}

/// What differs in the entries of a section, of whose records llvm-readobj has these rows.
fn in_entries(object: &Object, section: &Section, rows: &[Row], addresses: &[u64]) -> Vec<String> {
    let machine = object.machine;
    let expected = match machine {
        Machine::Arm64 => expected(rows, section.contents, addresses),
        Machine::X86_64 => expected_x86_64(rows, section, addresses),
    };
    let own: Vec<_> = rows.iter().filter(|row| row.type_name != "ARM64_RELOC_ADDEND").collect();
    let is_named =
        own.len() == expected.len() && own.iter().zip(&expected).all(|(row, entry)| named(object, row, entry));
    let port = PORT.entries(machine, section, addresses);
    let name = &section.name;
    let facts = [
        (port.as_ref() == Ok(&expected), format!("the entries of {name} are not those of llvm-readobj")),
        (port == RUST.entries(machine, section, addresses), format!("the entries of {name} are not the Rust's")),
        (is_named, format!("types, symbols or sections of {name} have other names in llvm-readobj")),
    ];
    facts.into_iter().filter(|(holds, _)| !holds).map(|(_, words)| words).collect()
}

/// Whether an entry's type, and its symbol or section, have the names of its row.
fn named(object: &Object, row: &Row, entry: &Reloc) -> bool {
    let prefix = match object.machine {
        Machine::Arm64 => "ARM64_RELOC_",
        Machine::X86_64 => "X86_64_RELOC_",
    };
    // LLVM 14 has no name for AUTHENTICATED_POINTER.
    let is_unknown =
        row.type_name == "Unknown" && (object.machine, entry.ty) == (Machine::Arm64, ty::AUTHENTICATED_POINTER);
    let is_type = is_unknown || row.type_name.strip_prefix(prefix) == Some(type_name(object.machine, entry.ty));
    let name = object.name(entry.target()).expect("a target of the object");
    is_type && row.name == if row.is_symbol { name } else { name.split(',').next_back().unwrap() }
}

fn section(section: &Section) -> llvm::Section {
    llvm::Section {
        name: section.name.clone(),
        address: section.address,
        size: section.size,
        align: section.align,
        bytes: section.contents.to_vec(),
    }
}

/// The number in the bytes of a record's place.
fn stored(row: &Row, contents: &[u8], offset: u32) -> i64 {
    let size = 1 << row.length;
    let stored = &contents[offset as usize..][..size];
    let mut bytes = [if stored[size - 1] >> 7 == 1 { 0xff } else { 0 }; 8];
    bytes[..size].copy_from_slice(stored);
    i64::from_le_bytes(bytes)
}

/// The entry of a record, whose addend has yet to lose a section's address.
fn entry(row: &Row, offset: u32, is_subtracted: bool, addend: i64, addresses: &[u64]) -> Reloc {
    let (target, addend) = match row.is_symbol {
        true => (Target::Symbol(row.index), addend),
        false => {
            let number = row.index - 1;
            (Target::Section(number), addend.wrapping_sub_unsigned(addresses[number as usize]))
        }
    };
    Reloc {
        offset,
        ty: row.ty,
        size: 1 << row.length,
        is_pcrel: row.is_pcrel.into(),
        is_subtracted: is_subtracted.into(),
        target: target.pack(),
        addend,
        ..Reloc::default()
    }
}

/// The entries that records come to, by RULES 4.2 to 4.12; those of authenticated pointers by authenticated.rs.
fn expected(rows: &[Row], contents: &[u8], addresses: &[u64]) -> Vec<Reloc> {
    let mut entries = Vec::new();
    let mut i = 0;
    while i < rows.len() {
        let offset = rows[i].offset;
        let mut addend = 0;
        if rows[i].ty == ty::ADDEND {
            addend = i64::from((rows[i].index << 8) as i32 >> 8);
            i += 1;
        }
        let row = &rows[i];
        if row.ty == ty::UNSIGNED {
            addend = stored(row, contents, offset);
        }
        let is_subtracted = i > 0 && rows[i - 1].ty == ty::SUBTRACTOR;
        let plain = entry(row, offset, is_subtracted, addend, addresses);
        entries.push(match row.ty {
            ty::AUTHENTICATED_POINTER => {
                authenticated::entry(plain, contents).expect("an authenticated pointer's word")
            }
            _ => plain,
        });
        i += 1;
    }
    entries
}

/// The entries that x86_64 records come to: one for each, with what is stored there and what the type's name says.
fn expected_x86_64(rows: &[Row], section: &Section, addresses: &[u64]) -> Vec<Reloc> {
    let one = |(i, row): (usize, &Row)| {
        let bias = match row.type_name.strip_prefix("X86_64_RELOC_SIGNED_") {
            Some(digit) => digit.parse().expect("a number"),
            None => 0,
        };
        let end = section.address.wrapping_add(u64::from(row.offset) + 4);
        let base = if row.is_symbol || !row.is_pcrel { 0 } else { end };
        let addend = stored(row, section.contents, row.offset).wrapping_add_unsigned(base).wrapping_add(bias);
        let is_subtracted = i > 0 && rows[i - 1].type_name == "X86_64_RELOC_SUBTRACTOR";
        entry(row, row.offset, is_subtracted, addend, addresses)
    };
    rows.iter().enumerate().map(one).collect()
}
