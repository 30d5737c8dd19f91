//! The sketches of docs/INTEGRATION.md, against small stand-ins for mold-macho's types. Each block of code there stands
//! here as it is, or in x86_64.rs.

mod linker;
mod x86_64;

use std::collections::BTreeMap;
use std::ops::Range;
use std::path::Path;

use hauklivo::{
    HintInsn, HintRecord, Record, Refusal, Report, Resolved, RuleRecord, flag, kind, position_of_refusal, ty,
};
use linker::*;

/// A relocation record of a mapped file.
#[repr(C)]
#[derive(Clone, Copy, Default)]
pub struct MachRel {
    pub offset: u32,
    pub bits: u32,
}

#[repr(C)]
#[derive(Clone, Copy, Debug, Default)]
pub struct Reloc {
    pub offset: u32,
    pub ty: u8,
    pub size: u8,
    pub is_pcrel: u8,
    pub is_subtracted: u8,
    pub target: u32,
    pub diversity: u16,
    pub address_diversity: u8,
    pub key: u8,
    pub addend: i64,
}

// SAFETY: both are repr(C) without padding, and of integers alone.
unsafe impl hauklivo::Record for MachRel {}
unsafe impl hauklivo::Record for Reloc {}
const _: () = assert!(MachRel::SIZE == hauklivo::MachRel::SIZE && Reloc::SIZE == hauklivo::Reloc::SIZE);

fn read_relocs(
    file_name: &Path,
    sections: &[MachSection],
    hdr: &MachSection,
    contents: &[u8],
    rels: &[MachRel],
) -> Vec<Reloc> {
    let addrs: Vec<u64> = sections.iter().map(|s| s.addr).collect(); // better made once for each object
    let mut entries = vec![Reloc::default(); rels.len()];
    let slots = Reloc::bytes_mut(&mut entries);
    match hauklivo::read_relocs(contents, MachRel::bytes(rels), &addrs, slots) {
        Ok(n) => entries.truncate(n),
        Err(refusal) => {
            let at = position_of_refusal::in_records(refusal, contents, MachRel::bytes(rels), &addrs);
            let at = at.map(|i| format!(": record {i} at 0x{:x}", rels[i].offset)).unwrap_or_default();
            fatal!("{}: {}: {refusal}{at}", file_name.display(), hdr.sectname().escape_ascii())
        }
    }
    entries
}

fn resolved(ctx: &Context<Arm64>, isec_id: usize, rels: &[Reloc], base: u64) -> Vec<Resolved> {
    let file = &ctx.objs[ctx.isecs[isec_id].file as usize];
    let mut is_taken = false; // by the SUBTRACTOR before it: only its address is looked at
    let mut targets = Vec::with_capacity(rels.len());
    for (i, r) in rels.iter().enumerate() {
        let mut t = Resolved { address: r.addr(ctx, file), ..Resolved::default() };
        if !is_taken {
            facts(ctx, isec_id, rels, i, base, &mut t);
        }
        is_taken = !is_taken && r.ty == ty::SUBTRACTOR;
        targets.push(t);
    }
    targets
}

fn facts(ctx: &Context<Arm64>, isec_id: usize, rels: &[Reloc], i: usize, base: u64, t: &mut Resolved) {
    let (isec, r) = (&ctx.isecs[isec_id], &rels[i]);
    let file = &ctx.objs[isec.file as usize];
    let p = base.wrapping_add(r.offset as u64);
    let sym = r.sym(file);
    if r.ty == ty::GOT_LOAD_PAGE21
        && let Some((helper, own)) =
            lazy_helpers::load_helper(ctx, isec_id, r).or_else(|| delay_init::load_helper(ctx, isec_id, r))
    {
        (t.helper, t.flags) = (helper, flag::HAS_HELPER | (flag::HELPER_OWN * u32::from(own)));
        return;
    }
    match (r.ty, sym) {
        (ty::UNSIGNED | ty::AUTHENTICATED_POINTER, _) => {
            isec.check_text_reloc(ctx, isec_id, rels, i, p);
            t.flags |= flag::IMPORTED * u32::from(sym.is_some_and(|id| ctx.symbols[id].binds_as_import(ctx)));
            t.flags |= flag::THREAD_LOCAL * u32::from(r.refers_to_tls(ctx, file));
        }
        (ty::BRANCH26, Some(id)) => match dtrace::site_kind(ctx, id) {
            Some(SiteKind::Probe) => t.flags |= flag::PROBE,
            Some(SiteKind::IsEnabled) => t.flags |= flag::IS_ENABLED,
            None => {
                t.branch = ctx.symbols[id].branch_target_addr(ctx);
                if let Some(thunk) = ctx.symbols[id].thunk_addr(ctx, p) {
                    (t.thunk, t.flags) = (thunk, t.flags | flag::HAS_THUNK);
                }
            }
        },
        (ty::PAGE21 | ty::PAGEOFF12, _) => t.flags |= flag::HAS_ADDRESS * u32::from(isec.target_has_address(ctx, r)),
        (ty::GOT_LOAD_PAGE21..=ty::TLVP_LOAD_PAGEOFF12, Some(id)) => {
            if r.ty != ty::POINTER_TO_GOT && ctx.symbols[id].can_relax_got(ctx) {
                t.flags |= flag::RELAXES_GOT;
            } else {
                t.got = ctx.symbols[id].got_addr(ctx);
            }
        }
        _ => {}
    }
}

fn apply_reloc_alloc(ctx: &Context<Arm64>, rels: &[Reloc], isec_id: usize, base: u64, buf: &mut [u8]) {
    let isec = &ctx.isecs[isec_id];
    let targets = resolved(ctx, isec_id, rels, base);
    let mut reports = vec![Report::default(); rels.len()]; // better kept by the thread, like targets
    let (entries, targets) = (Reloc::bytes(rels), Resolved::bytes(&targets));
    let slots = Report::bytes_mut(&mut reports);
    match hauklivo::apply_reloc_alloc(buf, base, ctx.tls_begin, ctx.image_base, entries, targets, slots) {
        Ok(n) => {
            for report in &reports[..n] {
                tell(ctx, isec, &rels[report.entry as usize], report);
            }
        }
        Err(refusal) => {
            let at = position_of_refusal::in_entries(refusal, buf, base, ctx.image_base, entries, targets);
            let at = at.map(|i| format!(": relocation {i} at 0x{:x}", rels[i].offset)).unwrap_or_default();
            fatal!("{}: {refusal}{at}", ctx.objs[isec.file as usize].mf.name.display())
        }
    }
}

fn write_stubs(ctx: &Context<Arm64>, addr: u64, buf: &mut [u8]) {
    for (i, &sym) in ctx.stubs.symbols.iter().enumerate() {
        let off = stubs::entry_offset::<Arm64>(i as u32);
        let ent_addr = addr + off;
        let ptr_addr = ctx.symbols[sym].stub_ptr_addr(ctx, i);
        if !hauklivo::write_stub(&mut buf[off as usize..], ent_addr, ptr_addr).expect("12 bytes") {
            error!(
                "stub for {}: ADRP out of range, from 0x{ent_addr:08X} to its pointer at 0x{ptr_addr:08X}",
                ctx.symbols[sym]
            );
        }
    }
}

fn write_thunk(ctx: &Context<Arm64>, addr: u64, syms: &[SymbolId], buf: &mut [u8]) {
    for (i, &sym) in syms.iter().enumerate() {
        let target = ctx.symbols[sym].branch_target_addr(ctx);
        hauklivo::write_thunk(&mut buf[12 * i..], addr + 12 * i as u64, target).expect("12 bytes");
    }
}

fn read_loh(file_name: &Path, payload: &[u8]) -> Vec<(u8, Vec<u64>)> {
    let mut row = vec![0; payload.len()]; // a value for each byte
    match hauklivo::read_hints(payload, &mut row) {
        Ok(n) => row.truncate(n),
        Err(refusal) => fatal!("{}: LC_LINKER_OPTIMIZATION_HINT: {refusal}", file_name.display()),
    }
    // A kind must not be cut to 8 bits: 263 would be 7.
    let known = |(kind, addrs): (u64, &[u64])| Some((u8::try_from(kind).ok()?, addrs.to_vec()));
    hauklivo::hints(&row).filter_map(known).collect()
}

fn write_loh(loh: &[(u8, Vec<u64>)]) -> Vec<u8> {
    let mut row = Vec::new();
    for (kind, addrs) in loh {
        row.extend([u64::from(*kind), addrs.len() as u64]);
        row.extend(addrs);
    }
    let mut payload = vec![0; hauklivo::SPELLING * row.len()];
    let n = hauklivo::write_hints(&row, &mut payload).expect("whole hints, none of kind 0");
    payload.resize(n.next_multiple_of(8), 0); // zeros close the list
    payload
}

fn hint_insns(ctx: &Context<Arm64>, obj: &ObjectFile, addrs: &[u64]) -> Option<(usize, Range<usize>, [HintInsn; 3])> {
    let id = obj.hint_subsec(&ctx.isecs, addrs)?;
    let isec = &ctx.isecs[id];
    if !isec.is_emitted() || isec.offset == u32::MAX {
        return None;
    }
    let hdr = ctx.chunk_header(isec.output_section()?);
    let rels = isec.rels(&ctx.objs[isec.file as usize]);
    let mut places = [HintInsn::default(); 3];
    for (place, &addr) in places.iter_mut().zip(addrs) {
        let off = addr - isec.input_addr as u64;
        if off + 4 > isec.size as u64 {
            return None;
        }
        let i = rels.partition_point(|r| (r.offset as u64) < off);
        let has_rel = rels.get(i).is_some_and(|r| r.offset as u64 == off);
        *place = HintInsn {
            offset: u32::try_from(off).ok()?,
            entry: if has_rel { i as u32 } else { HintInsn::WITHOUT_ENTRY },
            address: hdr.addr + isec.offset as u64 + off,
        };
    }
    let start = (hdr.fileoff + isec.offset as u64) as usize;
    Some((id, start..start + isec.size as usize, places))
}

fn apply_hints(ctx: &Context<Arm64>, buf: &mut [u8]) {
    for obj in ctx.objs.iter().filter(|obj| obj.is_reachable) {
        let mut parts = BTreeMap::<usize, (Range<usize>, Vec<HintRecord>)>::new(); // by subsection
        for (kind, addrs) in &obj.loh {
            let words = match *kind {
                1 | 2 | 7 | 8 => 2,
                3..=6 => 3,
                _ => continue,
            };
            if addrs.len() != usize::from(words) {
                continue;
            }
            let Some((id, range, places)) = hint_insns(ctx, obj, addrs) else { continue };
            let hint = HintRecord { kind: *kind, words, length: range.len() as u32, places, ..HintRecord::default() };
            parts.entry(id).or_insert((range, Vec::new())).1.push(hint);
        }
        for (id, (range, hints)) in parts {
            let isec = &ctx.isecs[id];
            let entries = Reloc::bytes(isec.rels(&ctx.objs[isec.file as usize]));
            match hauklivo::apply_hints(&mut buf[range], HintRecord::bytes(&hints), entries) {
                Ok(_tally) => {} // rewritten, declined, turned down by 9: for --stats
                Err(refusal) => fatal!("{}: hints: {refusal}", obj.mf.name.display()),
            }
        }
    }
}

fn listing(image: &mut [u8], hints: &[HintRecord], entries: &[hauklivo::Reloc]) -> Result<Vec<String>, Refusal> {
    let mut records = vec![RuleRecord::default(); hints.len()];
    hauklivo::typed::apply_hints_listed(image, hints, entries, &mut records)?;
    records.sort_by_key(|r| r.position);
    let kind = |r: &RuleRecord| hints[r.position as usize].kind;
    let line = |r: &RuleRecord| format!("hint {}: kind {}, rule {}, {} words", r.position, kind(r), r.rule, r.changed);
    Ok(records.iter().map(line).collect())
}

/// Each block of Rust in the document stands in these files.
#[test]
fn sketches_are_these() {
    let here = concat!(include_str!("main.rs"), include_str!("x86_64.rs"));
    let document = include_str!("../../../docs/INTEGRATION.md");
    let blocks: Vec<_> = document.split("```rust\n").skip(1).map(|rest| rest.split("```").next().unwrap()).collect();
    assert!(blocks.len() >= 6);
    for block in blocks {
        assert!(here.contains(block), "not here:\n{block}");
    }
}

fn bytes(words: &[u32]) -> Vec<u8> {
    words.iter().flat_map(|w| w.to_le_bytes()).collect()
}

fn record(offset: u32, idx: u32, is_pcrel: bool, p2size: u8, ty: u8) -> MachRel {
    let r = hauklivo::MachRel::new(offset, idx, is_pcrel, p2size, true, ty);
    MachRel { offset, bits: r.bits }
}

/// One object with symbols 0 (near) and 1 (imported), and with a subsection of 40 bytes at 0x1000.
fn context(rels: Vec<Reloc>) -> Context<Arm64> {
    let near = Symbol { addr: 0x2010, got: 0x3000, thunk: Some(0x1800), ..Symbol::default() };
    let far = Symbol { got: 0x3008, is_imported: true, site: Some(SiteKind::IsEnabled), ..Symbol::default() };
    let probe = Symbol { site: Some(SiteKind::Probe), ..Symbol::default() };
    let loh = read_loh(Path::new("a.o"), &[7, 2, 0, 4, 9, 0, 0x87, 2, 0, 7, 1, 0, 0, 0, 0, 0]);
    Context {
        objs: vec![ObjectFile { is_reachable: true, symbols: vec![0, 1, 2], loh, rels, ..ObjectFile::default() }],
        isecs: vec![InputSection { size: 40, ..InputSection::default() }],
        symbols: vec![near, far, probe],
        stubs: Stubs { symbols: vec![1] },
        tls_begin: 0,
        image_base: 0x800,
        told: Default::default(),
        machine: Default::default(),
    }
}

#[test]
fn reads_fixes_and_works_hints() {
    let mut section = bytes(&[0x90000000, 0x91000000, 0x94000000, 0x94000000, 0x90000000, 0, 0, 0, 0, 0]);
    let records = [
        record(0, 0, true, 2, ty::PAGE21),
        record(4, 0, false, 2, ty::PAGEOFF12),
        record(8, 0, true, 2, ty::BRANCH26),
        record(12, 2, true, 2, ty::BRANCH26),
        record(16, 1, true, 2, ty::PAGE21),
        record(24, 0, false, 3, ty::SUBTRACTOR),
        record(24, 0, false, 3, ty::UNSIGNED),
        record(32, 1, false, 3, ty::UNSIGNED),
    ];
    let rels = read_relocs(Path::new("a.o"), &[], &MachSection::default(), &section, &records);
    assert_eq!(rels.len(), records.len());
    let ctx = context(rels);
    apply_reloc_alloc(&ctx, &ctx.objs[0].rels, 0, 0x1000, &mut section);
    let fixed = [0xb0000000, 0x91004000, 0x94000402, 0xd503201f, 0x90000000, 0, 0, 0, 0, 0];
    assert_eq!(section, bytes(&fixed));
    // Nothing of the UNSIGNED that the SUBTRACTOR takes.
    assert_eq!(*ctx.told.borrow(), ["no address for 10", "pointer 7 at 1020"]);

    apply_hints(&ctx, &mut section);
    assert_eq!(section[..8], bytes(&[0x10008080, 0xd503201f])); // adr x0, 0x2010; nop
    assert_eq!(section[8..], bytes(&fixed)[8..]);
}

/// Of two authenticated pointers one counts from the image base, the other is left for dyld.
#[test]
fn lists_rules_by_position() {
    let half = |ty| hauklivo::Reloc { ty, size: 4, is_pcrel: 1, target: 5, ..hauklivo::Reloc::default() };
    let entries = [half(ty::PAGE21), half(ty::PAGEOFF12)];
    let place = |offset, entry| HintInsn { offset, entry, address: 0x1000 + u64::from(offset) };
    let hint = |object, kind, first| HintRecord {
        kind,
        words: 2,
        object,
        length: 16,
        places: [place(first, 0), place(first + 4, 1), HintInsn::default()],
        ..HintRecord::default()
    };
    let mut image = bytes(&[0x9000_0000, 0xf940_0401, 0x9000_0000, 0x9100_0c00]);
    let hints = [hint(2, kind::ADRP_LDR, 0), hint(1, kind::ADRP_ADD, 8)];
    let lines = listing(&mut image, &hints, &entries).expect("fit");
    assert_eq!(lines, ["hint 0: kind 2, rule 3, 2 words", "hint 1: kind 7, rule 4, 2 words"]);
    assert_eq!(image[..8], bytes(&[0xd503_201f, 0x5800_0021]));
}

#[test]
fn fixes_authenticated_pointers() {
    let stored = 0x8001002a00000000_u64;
    let mut section = [stored; 2].map(u64::to_le_bytes).concat();
    let records = [0, 1].map(|idx| record(8 * idx, idx, false, 3, ty::AUTHENTICATED_POINTER));
    let ctx = context(read_relocs(Path::new("a.o"), &[], &MachSection::default(), &section, &records));
    apply_reloc_alloc(&ctx, &ctx.objs[0].rels, 0, 0x1000, &mut section);
    assert_eq!(ctx.symbols[0].addr - ctx.image_base, 0x1810);
    assert_eq!(section, [0x8001002a00001810, stored].map(u64::to_le_bytes).concat());
    assert_eq!(*ctx.told.borrow(), ["pointer 0 at 1000", "pointer 1 at 1008"]);
}

#[test]
fn payloads_of_hints() {
    let loh = vec![(7, vec![0, 0x80]), (9, vec![]), (1, vec![0, 4])];
    let payload = write_loh(&loh);
    assert_eq!(payload, [7, 2, 0, 0x80, 1, 9, 0, 1, 2, 0, 4, 0, 0, 0, 0, 0]);
    assert_eq!(read_loh(Path::new("a.o"), &payload), loh);
    assert_eq!(write_loh(&[]), []);
}

#[test]
#[should_panic(expected = "a.o: LC_LINKER_OPTIMIZATION_HINT: 13: a value or a hint of a payload is cut off")]
fn refused_payloads_are_fatal() {
    read_loh(Path::new("a.o"), &[7, 2, 0]);
}

#[test]
fn taken_entries_are_not_asked() {
    let entry = |offset, ty| Reloc { offset, ty, size: 8, target: 1, ..Reloc::default() };
    let rels = [entry(0, ty::SUBTRACTOR), entry(0, ty::PAGE21), entry(8, ty::SUBTRACTOR), entry(8, ty::SUBTRACTOR)];
    let rels = [&rels[..], &[Reloc { is_subtracted: 1, ..entry(16, ty::UNSIGNED) }]].concat();
    let ctx = context(rels);
    let targets = resolved(&ctx, 0, &ctx.objs[0].rels, 0x1000);
    assert_eq!(*ctx.told.borrow(), ["pointer 4 at 1010"]);
    assert_eq!(targets.iter().map(|t| t.flags).collect::<Vec<_>>(), [0, 0, 0, 0, flag::IMPORTED]);
}

#[test]
#[should_panic(expected = "a.o: __text: 5: a relocation's type or form is not supported: record 1 at 0x4")]
fn refusals_are_fatal() {
    let hdr = MachSection { name: b"__text".to_vec(), ..MachSection::default() };
    let records = [record(0, 1, true, 2, ty::BRANCH26), record(4, 1, true, 2, 15), record(0, 1, true, 2, ty::BRANCH26)];
    read_relocs(Path::new("a.o"), &[], &hdr, &[0; 8], &records);
}

#[test]
#[should_panic(expected = "8: a SUBTRACTOR entry is the last entry: relocation 1 at 0x8")]
fn refused_fix_ups_are_fatal() {
    let entry = |offset, ty| Reloc { offset, ty, size: 8, ..Reloc::default() };
    let ctx = context(vec![entry(0, ty::UNSIGNED), entry(8, ty::SUBTRACTOR)]);
    apply_reloc_alloc(&ctx, &ctx.objs[0].rels, 0, 0x1000, &mut [0; 40]);
}

#[test]
fn stubs_and_thunks() {
    let ctx = context(Vec::new());
    let mut buf = [0; 12];
    write_stubs(&ctx, 0x1000, &mut buf);
    assert_eq!(buf[..], bytes(&[0xd0000010, 0xf9400610, 0xd61f0200])); // adrp x16, 0x3000; ldr x16, [x16, #8]; br x16
    write_thunk(&ctx, 0x1000, &[0], &mut buf);
    assert_eq!(buf[..], bytes(&[0xb0000010, 0x91004210, 0xd61f0200])); // adrp x16, 0x2000; add x16, x16, #16; br x16
}
