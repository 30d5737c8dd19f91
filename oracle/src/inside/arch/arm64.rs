// The private functions of arm64.rs. The `fatal!` that arm64.rs calls puts these items into a module inside that file
// (error.rs), from where they reach what is private there. A file that is put so has no `//!`.

impl crate::words::Words for Arm64 {
    fn page_offset(hi: u64, lo: u64) -> u32 {
        page_offset(hi, lo)
    }

    fn adrp_reaches(hi: u64, lo: u64) -> bool {
        adrp_reaches(hi, lo)
    }

    fn write_adrp(insn: u32, hi: u64, lo: u64) -> u32 {
        let mut loc = insn.to_le_bytes();
        write_adrp(&mut loc, hi, lo);
        u32::from_le_bytes(loc)
    }

    fn is_ldr_imm(insn: u32) -> bool {
        is_ldr_imm(insn)
    }

    fn write_add_ldst(insn: u32, val: u64) -> Result<u32, u32> {
        let mut loc = insn.to_le_bytes();
        write_add_ldst(&mut loc, val)?;
        Ok(u32::from_le_bytes(loc))
    }

    fn within_1mb(from: u64, to: u64) -> bool {
        within_1mb(from, to)
    }

    fn is_adrp(insn: u32) -> bool {
        is_adrp(insn)
    }

    fn adrp_page(insn: u32, pc: u64) -> u64 {
        adrp_page(insn, pc)
    }

    fn adr(rd: u32, target: u64, pc: u64) -> u32 {
        adr(rd, target, pc)
    }

    fn parse_add(insn: u32) -> Option<crate::words::AddWord> {
        let Add { rd, rn, imm } = parse_add(insn)?;
        Some(crate::words::AddWord { rd, rn, imm })
    }

    fn parse_ldst(insn: u32) -> Option<crate::words::AccessWord> {
        let ls = parse_ldst(insn)?;
        Some(crate::words::AccessWord {
            reg: ls.reg,
            base: ls.base,
            offset: ls.offset,
            size: ls.size,
            is_store: ls.is_store,
            is_float: ls.is_float,
            is_ldrsw: ls.is_ldrsw,
            has_literal_form: ls.has_literal_form(),
        })
    }

    fn to_literal(insn: u32, target: u64, pc: u64) -> Option<u32> {
        Some(parse_ldst(insn)?.to_literal(target, pc))
    }

    fn with_base(insn: u32, base: u32, offset: u64) -> Option<u32> {
        Some(parse_ldst(insn)?.with_base(base, offset))
    }
}

impl crate::words::Forms for Arm64 {
    fn is_supported(bits: u32) -> bool {
        is_supported(&MachRel { offset: 0, bits })
    }
}

fn rule(kind: u8) -> Option<(usize, fn(&mut Hint))> {
    Some(match kind {
        LOH_ARM64_ADRP_ADRP => (2, loh_adrp_adrp),
        LOH_ARM64_ADRP_LDR => (2, loh_adrp_ldr),
        LOH_ARM64_ADRP_ADD_LDR => (3, loh_adrp_add_ldr),
        LOH_ARM64_ADRP_LDR_GOT_LDR => (3, loh_adrp_ldr_got_ldr),
        LOH_ARM64_ADRP_ADD_STR => (3, loh_adrp_add_str),
        LOH_ARM64_ADRP_LDR_GOT_STR => (3, loh_adrp_ldr_got_str),
        LOH_ARM64_ADRP_ADD => (2, loh_adrp_add),
        LOH_ARM64_ADRP_LDR_GOT => (2, loh_adrp_ldr_got),
        _ => return None,
    })
}

impl crate::words::Rules for Arm64 {
    fn word_count(kind: u8) -> Option<usize> {
        rule(kind).map(|(count, _)| count)
    }

    fn run_rule(kind: u8, part: &mut [u8], places: &[crate::words::Place]) {
        let mut insns = [HintInsn::default(); 3];
        for (insn, &(off, addr, rel)) in insns.iter_mut().zip(places) {
            *insn = HintInsn { off, addr, rel };
        }
        if let Some((n, rule)) = rule(kind) {
            rule(&mut Hint { buf: part, insns, n });
        }
    }
}
