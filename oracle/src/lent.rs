//! The lent records of RULES 2, as bytes and as what the Rust works on.

use crate::input_sections::Reloc;
use crate::macho::MachRel;
use crate::symbol::Symbol;

pub const RECORD: usize = 8;
pub const ENTRY: usize = 24;
pub const TARGET: usize = 48;
pub const REPORT: usize = 24;
pub const HINT: usize = 64;

/// "No entry" in a hint's place.
pub const NO_ENTRY: u32 = 0xffff_ffff;

fn u32_at(bytes: &[u8], at: usize) -> u32 {
    u32::from_le_bytes(bytes[at..at + 4].try_into().unwrap())
}

fn u64_at(bytes: &[u8], at: usize) -> u64 {
    u64::from_le_bytes(bytes[at..at + 8].try_into().unwrap())
}

/// The records of a list. A list that is not whole is the caller's to keep away (number 1).
fn whole(list: &[u8], size: usize) -> std::slice::ChunksExact<'_, u8> {
    assert!(list.len() % size == 0, "a list of {} bytes, {size} a record", list.len());
    list.chunks_exact(size)
}

pub fn records(list: &[u8]) -> Vec<MachRel> {
    whole(list, RECORD).map(|r| MachRel { offset: u32_at(r, 0), bits: u32_at(r, 4) }).collect()
}

pub fn entries(list: &[u8]) -> Vec<Reloc> {
    whole(list, ENTRY)
        .map(|e| Reloc {
            offset: u32_at(e, 0),
            ty: e[4],
            size: e[5],
            is_pcrel: e[6] != 0,
            is_subtracted: e[7] != 0,
            target: u32_at(e, 8),
            addend: u64_at(e, 16) as i64,
        })
        .collect()
}

pub fn entry_bytes(r: &Reloc) -> [u8; ENTRY] {
    let mut e = [0; ENTRY];
    e[0..4].copy_from_slice(&r.offset.to_le_bytes());
    e[4..8].copy_from_slice(&[r.ty, r.size, r.is_pcrel as u8, r.is_subtracted as u8]);
    e[8..12].copy_from_slice(&r.target.to_le_bytes());
    e[16..24].copy_from_slice(&r.addend.to_le_bytes());
    e
}

pub fn targets(list: &[u8]) -> Vec<Symbol> {
    (0..)
        .zip(whole(list, TARGET))
        .map(|(entry, t)| Symbol {
            entry,
            address: u64_at(t, 0),
            got: u64_at(t, 8),
            branch_target: u64_at(t, 16),
            thunk: u64_at(t, 24),
            helper: u64_at(t, 32),
            flags: u32_at(t, 40),
        })
        .collect()
}

/// A report's bytes from the Rust's message, which stands after the place's name: None for the
/// message of target_has_address, which RULES 2.21 has no kind for.
pub fn report_bytes(entry: u32, message: &str) -> Option<[u8; REPORT]> {
    let text = message.splitn(3, ": ").nth(2).expect("file: name: text");
    let hex = |after: &str| {
        let rest = &text[text.find(after).expect("an address") + after.len()..];
        u64::from_str_radix(rest.split(' ').next().unwrap(), 16).expect("an address")
    };
    let (kind, size, place, target) = if text.starts_with("ADRP out of range, ") {
        (1, 0, hex("from 0x"), hex("to 0x"))
    } else if text.starts_with("B/BL out of range ") {
        (2, 0, hex("from 0x"), hex("to 0x"))
    } else if let Some((_, rest)) = text.split_once("' not ") {
        (3, rest.split_once("-byte aligned").expect("a size").0.parse().expect("a size"), 0, 0)
    } else if text == "non-LDR instruction" {
        (4, 0, 0, 0)
    } else {
        assert!(text.ends_with(" does not have address"), "{text}");
        return None;
    };
    let mut r = [0; REPORT];
    r[0..4].copy_from_slice(&entry.to_le_bytes());
    r[4] = kind;
    r[5] = size;
    r[8..16].copy_from_slice(&place.to_le_bytes());
    r[16..24].copy_from_slice(&target.to_le_bytes());
    Some(r)
}

/// A place of a hint: offset in its part, entry number, the word's own address.
#[derive(Clone, Copy)]
pub struct HintInsn {
    pub offset: u32,
    pub entry: u32,
    pub address: u64,
}

pub struct HintRecord {
    pub kind: u8,
    pub count: u8,
    pub object: u32,
    pub start: u32,
    pub length: u32,
    pub places: [HintInsn; 3],
}

pub fn hints(list: &[u8]) -> Vec<HintRecord> {
    whole(list, HINT)
        .map(|h| HintRecord {
            kind: h[0],
            count: h[1],
            object: u32_at(h, 4),
            start: u32_at(h, 8),
            length: u32_at(h, 12),
            places: [16, 32, 48].map(|at| HintInsn {
                offset: u32_at(h, at),
                entry: u32_at(h, at + 4),
                address: u64_at(h, at + 8),
            }),
        })
        .collect()
}
