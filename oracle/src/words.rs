//! The private functions of the machines' files, word by word and record by record: the files below `inside` have them.

use crate::input_sections::Reloc;

/// "add Xd, Xn, #imm" as parse_add takes it apart.
#[derive(Clone, Copy, Debug, PartialEq, Eq)]
pub struct AddWord {
    pub rd: u32,
    pub rn: u32,
    pub imm: u64,
}

/// A load or store as parse_ldst takes it apart.
#[derive(Clone, Copy, Debug, PartialEq, Eq)]
pub struct AccessWord {
    pub reg: u32,
    pub base: u32,
    pub offset: u64,
    pub size: u64,
    pub is_store: bool,
    pub is_float: bool,
    pub is_ldrsw: bool,
    pub has_literal_form: bool,
}

/// A word that a hint names: offset in its part, its own address, its entry.
pub(crate) type Place<'a> = (usize, u64, Option<&'a Reloc>);

/// Implemented for Arm64 by arm64.rs's own functions of these names.
pub trait Words {
    fn page_offset(hi: u64, lo: u64) -> u32;
    fn adrp_reaches(hi: u64, lo: u64) -> bool;
    /// The ADRP `insn` at `lo` after write_adrp.
    fn write_adrp(insn: u32, hi: u64, lo: u64) -> u32;
    fn is_ldr_imm(insn: u32) -> bool;
    /// The word after write_add_ldst, or the access size that does not divide `val`.
    fn write_add_ldst(insn: u32, val: u64) -> Result<u32, u32>;
    fn within_1mb(from: u64, to: u64) -> bool;
    fn is_adrp(insn: u32) -> bool;
    fn adrp_page(insn: u32, pc: u64) -> u64;
    fn adr(rd: u32, target: u64, pc: u64) -> u32;
    fn parse_add(insn: u32) -> Option<AddWord>;
    fn parse_ldst(insn: u32) -> Option<AccessWord>;
    /// The load or store `insn` as a literal load, whether or not it has that form.
    fn to_literal(insn: u32, target: u64, pc: u64) -> Option<u32>;
    fn with_base(insn: u32, base: u32, offset: u64) -> Option<u32>;
}

/// Implemented for Arm64 and X86_64.
pub trait Forms {
    /// Whether the form and type of a record with these bits go together.
    fn is_supported(bits: u32) -> bool;
}

/// The hint rules. apply_hints has their choice inside it, so the choice is here once more;
/// apply_hints_linked runs the Rust's own.
pub(crate) trait Rules {
    /// How many words a hint of `kind` has; None if there is no such kind.
    fn word_count(kind: u8) -> Option<usize>;
    /// Runs the rule of `kind`, one that there is, on the bytes of its part.
    fn run_rule(kind: u8, part: &mut [u8], places: &[Place]);
}
