//! The sketch of docs/INTEGRATION.md for x86_64, as it is there.

use std::path::Path;

use hauklivo::{Record, Target, position_of_refusal, ty_x86_64};

use crate::linker::*;
use crate::{MachRel, Reloc};

fn read_relocs(
    file_name: &Path,
    sections: &[MachSection],
    hdr: &MachSection,
    contents: &[u8],
    rels: &[MachRel],
) -> Vec<Reloc> {
    let addrs: Vec<u64> = sections.iter().map(|s| s.addr).collect(); // better made once for each object
    let mut entries = vec![Reloc::default(); rels.len()]; // one for each record
    let slots = Reloc::bytes_mut(&mut entries);
    if let Err(refusal) = hauklivo::read_relocs_x86_64(contents, MachRel::bytes(rels), &addrs, hdr.addr, slots) {
        let at = position_of_refusal::in_records_x86_64(refusal, contents, MachRel::bytes(rels), &addrs);
        let at = at.map(|i| format!(": record {i} at 0x{:x}", rels[i].offset)).unwrap_or_default();
        fatal!("{}: {}: {refusal}{at}", file_name.display(), hdr.sectname().escape_ascii())
    }
    entries
}

fn record(offset: u32, idx: u32, is_extern: bool, ty: u8) -> MachRel {
    let r = hauklivo::MachRel::new(offset, idx, true, 2, is_extern, ty);
    MachRel { offset, bits: r.bits }
}

fn section(addr: u64) -> MachSection {
    MachSection { addr, name: b"__text".to_vec() }
}

#[test]
fn reads() {
    let sections = [section(0), section(0x40)];
    // From 0x48, the end of the second field, to 0x40.
    let contents = [[0xff; 4], (-8_i32).to_le_bytes()].concat();
    let records = [record(0, 7, true, ty_x86_64::SIGNED_4), record(4, 2, false, ty_x86_64::BRANCH)];
    let rels = read_relocs(Path::new("a.o"), &sections, &sections[1], &contents, &records);
    let found: Vec<_> = rels.iter().map(|r| (r.offset, r.ty, r.target, r.addend)).collect();
    let own = Target::Section(1).pack();
    assert_eq!(found, [(0, ty_x86_64::SIGNED_4, 7, 3), (4, ty_x86_64::BRANCH, own, 0)]);
}

#[test]
#[should_panic(expected = "a.o: __text: 7: a record names a section that is not there: record 1 at 0x4")]
fn refusals_are_fatal() {
    let records = [record(0, 7, true, ty_x86_64::GOT), record(4, 2, false, ty_x86_64::BRANCH)];
    read_relocs(Path::new("a.o"), &[section(0)], &section(0), &[0; 8], &records);
}
