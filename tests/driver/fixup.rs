//! The fix-up: one case, and what the Rust makes of it.

use hauklivo::{Record, Reloc, Report, Resolved, Target, flag, raw};

use crate::answers::{FIX, record};
use crate::lent::{Lent, filled, hex, pattern};
use crate::rng::Rng;
use crate::rows::{FIXUP_NUMBERS, FIXUP_TYPE_NUMBERS, Rows, Way, type_row};
use crate::table::Table;
use crate::{Difference, World};

#[derive(Clone)]
pub struct Case {
    pub section: Vec<u8>,
    pub base: u64,
    pub tls_begin: u64,
    pub image_base: u64,
    pub entries: Vec<u8>,
    pub targets: Vec<u8>,
    /// Bytes of slots.
    pub slots: usize,
}

/// What a fix-up leaves: the number, the section's bytes, the reports, and the entries for which the
/// Rust also says that the target has no address.
#[derive(Clone, PartialEq)]
pub struct Answer {
    pub number: u8,
    pub section: Vec<u8>,
    pub reports: Vec<u8>,
    pub without_address: Vec<u32>,
}

impl Case {
    /// A case with thread-local storage from 0x1234_5678, some image base, and just the slots that its entries need.
    pub fn new(section: Vec<u8>, base: u64, pairs: &[(Reloc, Resolved)]) -> Self {
        let (entries, targets): (Vec<_>, Vec<_>) = pairs.iter().copied().unzip();
        let (entries, targets) = (Reloc::bytes(&entries).to_vec(), Resolved::bytes(&targets).to_vec());
        let image_base = some_image_base(&[&section, &entries, &targets]);
        Self { section, base, tls_begin: 0x1234_5678, image_base, entries, targets, slots: 24 * pairs.len() }
    }

    /// The pairs of whole lists that agree.
    pub fn pairs(&self) -> Vec<(Reloc, Resolved)> {
        let entries = Reloc::list(&self.entries).expect("whole entries");
        let targets = Resolved::list(&self.targets).expect("whole targets");
        entries.into_iter().zip(targets).collect()
    }

    pub fn refused(&self, number: u8) -> Answer {
        let section = self.section.clone();
        Answer { number, section, reports: Vec::new(), without_address: Vec::new() }
    }

    pub fn show(&self) -> String {
        let Self { base, tls_begin, image_base, slots, .. } = self;
        format!(
            "apply_reloc_alloc: section {}\n    base {base:#x}, thread-local start {tls_begin:#x}, \
             image base {image_base:#x}\n    entries {}\n    targets {}\n    {slots} bytes of slots",
            hex(&self.section),
            hex(&self.entries),
            hex(&self.targets)
        )
    }
}

/// An image base that is another for each case, and that nothing of the case has to do with.
fn some_image_base(lists: &[&[u8]]) -> u64 {
    let bytes = lists.iter().copied().flatten();
    let number = bytes.fold(7, |n: u64, &byte| n.wrapping_mul(0x100_0000_01b3).wrapping_add(byte.into()));
    Rng::new("image base", number).next()
}

impl Answer {
    fn show(&self) -> String {
        let Self { number, without_address, .. } = self;
        let (section, reports) = (hex(&self.section), hex(&self.reports));
        format!("{number}, section {section}, reports {reports}, without address {without_address:?}")
    }
}

pub fn is_section(e: &Reloc) -> bool {
    matches!(e.target(), Target::Section(_))
}

/// The entries that are worked by themselves: all but those that a SUBTRACTOR takes.
pub fn steps(pairs: &[(Reloc, Resolved)]) -> Vec<usize> {
    let mut steps = Vec::new();
    let mut i = 0;
    while i < pairs.len() {
        steps.push(i);
        i += if pairs[i].0.ty == 1 { 2 } else { 1 };
    }
    steps
}

/// Numbers 1 and 2, of the lengths of lists.
pub fn of_lengths(entries: usize, targets: usize, slots: usize) -> Option<u8> {
    if !entries.is_multiple_of(24) || !targets.is_multiple_of(48) {
        return Some(1);
    }
    let n = entries / 24;
    if n != targets / 48 || n > u32::MAX as usize {
        return Some(1);
    }
    (slots < 24 * n).then_some(2)
}

/// Number 11, of a target's flags and last bytes.
pub fn is_flawed(t: &Resolved) -> bool {
    let both = flag::PROBE | flag::IS_ENABLED;
    t.flags >> 9 != 0 || t.flags & both == both || t.zero != 0
}

/// The Rust's answer. It has no number 11: entries before the first flawed target are asked by
/// themselves, then that entry's offset, then it is 11.
pub fn rust(case: &Case, world: &World) -> Result<Answer, Difference> {
    let pairs = case.pairs();
    let flawed = steps(&pairs).into_iter().find(|&i| is_flawed(&pairs[i].1));
    let n = flawed.unwrap_or(pairs.len());
    let mut section = case.section.clone();
    let (entries, targets) = (&case.entries[..24 * n], &case.targets[..48 * n]);
    let done = (world.oracle.apply_reloc_alloc)(&mut section, case.base, case.tls_begin, entries, targets);
    match (done, flawed) {
        (Err(stop), _) => match stop.number {
            Some(number) => Ok(case.refused(number)),
            None => Err(Difference {
                input: case.show(),
                port: "not asked".into(),
                expected: format!("a stop with a number; the Rust: {}", stop.text),
            }),
        },
        (Ok(_), Some(i)) if pairs[i].0.offset as usize > case.section.len() => Ok(case.refused(3)),
        (Ok(_), Some(_)) => Ok(case.refused(11)),
        (Ok(f), None) => Ok(Answer { number: 0, section, reports: f.reports, without_address: f.without_address }),
    }
}

fn expected(case: &Case, world: &World) -> Result<Answer, Difference> {
    match of_lengths(case.entries.len(), case.targets.len(), case.slots) {
        Some(number) => Ok(case.refused(number)),
        None => world.differences.fixup(case, world),
    }
}

/// The count before a call.
const COUNT: usize = 0x5eed;

/// The port's number; `section` stands for the case's own.
fn port(case: &Case, section: &mut [u8], slots: &mut [u8], count: &mut usize) -> u8 {
    // SAFETY: slices, none of which is lent twice.
    unsafe {
        raw::hauklivo_apply_reloc_alloc(
            section.as_mut_ptr(),
            section.len(),
            case.base,
            case.tls_begin,
            case.image_base,
            case.entries.as_ptr(),
            case.entries.len(),
            case.targets.as_ptr(),
            case.targets.len(),
            slots.as_mut_ptr(),
            slots.len(),
            count,
        )
    }
}

/// Holds the port to the expected answer on a case.
pub fn check(case: &Case, world: &World, table: &mut Table) -> Result<Answer, Difference> {
    let due = expected(case, world)?;
    let lent = case.clone();
    let mut section = Lent::new(&case.section);
    let mut slots = Lent::slots(case.slots);
    let mut count = COUNT;
    let number = port(&lent, section.bytes(), slots.bytes(), &mut count);
    let (count_due, slots_due) = match due.number {
        0 => (due.reports.len() / 24, filled(&due.reports, case.slots)),
        _ => (COUNT, pattern(case.slots)),
    };
    let same = number == due.number
        && count == count_due
        && section.bytes() == due.section
        && slots.bytes() == slots_due
        && due.without_address.is_empty();
    let kept =
        lent.entries == case.entries && lent.targets == case.targets && section.is_guarded() && slots.is_guarded();
    if !same || !kept {
        let (section, slots) = (hex(section.bytes()), hex(slots.bytes()));
        return Err(Difference {
            input: case.show(),
            port: format!("{number}, count {count}, section {section}, slots {slots}, the rest kept: {kept}"),
            expected: due.show(),
        });
    }
    record_answer(case, &due, table);
    table.note(|| noted(case, &due));
    Ok(due)
}

fn noted(case: &Case, answer: &Answer) -> Vec<u8> {
    let bases = [case.base, case.tls_begin, case.image_base].map(u64::to_le_bytes).concat();
    let lists = [&case.section, &case.entries, &case.targets].map(Vec::len);
    let values = [&lists[..], &[case.slots, answer.reports.len() / 24]].concat();
    let parts = [&bases[..], &case.section, &case.entries, &case.targets, &answer.section, &answer.reports];
    record(FIX, answer.number, &values, &parts)
}

fn record_answer(case: &Case, answer: &Answer, table: &mut Table) {
    let number = |list: &[u8]| list.iter().position(|&n| n == answer.number);
    table.hit(Rows::FixupNumber as usize, number(&FIXUP_NUMBERS).expect("a number of the fix-up"));
    if of_lengths(case.entries.len(), case.targets.len(), case.slots).is_some() {
        return;
    }
    let pairs = case.pairs();
    let reports = Report::list(&answer.reports).expect("whole reports");
    for r in &reports {
        let ty = pairs[r.entry as usize].0.ty as usize;
        table.hit_cell(Rows::FixupReport as usize, report_row(r), ty);
    }
    let steps = steps(&pairs);
    if answer.number == 0 {
        for &i in steps.iter().filter(|&&i| pairs[i].0.ty == 1) {
            table.hit(Rows::FixupConsumed as usize, type_row(pairs[i + 1].0.ty));
        }
    }
    if let [0] = steps[..] {
        let (e, t) = &pairs[0];
        let column = number(&FIXUP_TYPE_NUMBERS).expect("a number of an entry");
        table.hit_cell(Rows::FixupType as usize, type_row(e.ty), column);
        if answer.number == 0 {
            table.hit(Rows::FixupWay as usize, way(case, e, t, reports.first()) as usize);
        }
    }
}

fn report_row(r: &Report) -> usize {
    match r.kind {
        1 | 2 => r.kind as usize - 1,
        3 => 1 + r.size.trailing_zeros() as usize,
        _ => 6,
    }
}

/// How a single entry that was worked ends.
fn way(case: &Case, e: &Reloc, t: &Resolved, report: Option<&Report>) -> Way {
    let has = |f| t.flags & f != 0;
    let far = report.is_some();
    match e.ty {
        0 if !is_section(e) && has(flag::IMPORTED) => Way::UnsignedImported,
        0 if has(flag::THREAD_LOCAL) => Way::UnsignedTls,
        0 if has(flag::IMPORTED) => Way::UnsignedImportedSection,
        0 => Way::UnsignedAddress,
        1 if e.size == 4 => Way::Subtractor4,
        1 => Way::Subtractor8,
        2 => branch_way(case, e, t, far),
        3 if !has(flag::HAS_ADDRESS) => Way::PageNoAddress,
        3 if far => Way::PageFar,
        3 if is_section(e) => Way::PageSection,
        3 => Way::PageSymbol,
        4 if !has(flag::HAS_ADDRESS) => Way::OffsetNoAddress,
        4 if far => Way::OffsetMisaligned,
        4 => offset_way(word(case, e)),
        5 if has(flag::HAS_HELPER) && is_section(e) => Way::GotHelperSection,
        5 if has(flag::HAS_HELPER) && has(flag::HELPER_OWN) => Way::GotHelperOwn,
        5 if has(flag::HAS_HELPER) => Way::GotHelper,
        5 | 8 => slot_page_way(e, has(flag::RELAXES_GOT), far),
        6 | 9 if has(flag::RELAXES_GOT) => relaxed_way(e, word(case, e)),
        6 if far => Way::GotSlotMisaligned,
        6 => Way::GotSlot,
        9 if far => Way::TlvpSlotMisaligned,
        9 => Way::TlvpSlot,
        11 if has(flag::IMPORTED) => Way::PointerImported,
        11 if has(flag::THREAD_LOCAL) => Way::PointerTls,
        11 if !has(flag::HAS_ADDRESS) => Way::PointerNoAddress,
        11 => Way::PointerAddress,
        _ => Way::PointerToGot,
    }
}

/// The word at an entry's place.
fn word(case: &Case, e: &Reloc) -> u32 {
    let at = e.offset as usize;
    u32::from_le_bytes(case.section[at..at + 4].try_into().expect("4 bytes"))
}

/// Of GOT_LOAD_PAGE21 without a helper and of TLVP_LOAD_PAGE21.
fn slot_page_way(e: &Reloc, is_relaxed: bool, far: bool) -> Way {
    let ways = match e.ty {
        5 => [Way::GotPageRelaxed, Way::GotPageRelaxedFar, Way::GotPageSlot, Way::GotPageSlotFar],
        _ => [Way::TlvpPageRelaxed, Way::TlvpPageRelaxedFar, Way::TlvpPageSlot, Way::TlvpPageSlotFar],
    };
    ways[2 * usize::from(!is_relaxed) + usize::from(far)]
}

/// Of GOT_LOAD_PAGEOFF12 and TLVP_LOAD_PAGEOFF12, relaxed.
fn relaxed_way(e: &Reloc, word: u32) -> Way {
    match (e.ty, word >> 22) {
        (6, 0x2e5) => Way::GotLdrW,
        (6, 0x3e5) => Way::GotLdrX,
        (6, 0x244) => Way::GotAdd,
        (6, _) => Way::GotNonLdr,
        (_, 0x2e5) => Way::TlvpLdrW,
        (_, 0x3e5) => Way::TlvpLdrX,
        (_, 0x244) => Way::TlvpAddNonLdr,
        (_, _) => Way::TlvpNonLdr,
    }
}

fn branch_way(case: &Case, e: &Reloc, t: &Resolved, far: bool) -> Way {
    let has = |f| t.flags & f != 0;
    if is_section(e) {
        return match (far, has(flag::PROBE | flag::IS_ENABLED)) {
            (true, _) => Way::BranchSectionFar,
            (false, true) => Way::BranchTracedSection,
            (false, false) => Way::BranchSection,
        };
    }
    if has(flag::PROBE) {
        return Way::BranchProbe;
    }
    if has(flag::IS_ENABLED) {
        return Way::BranchEnabled;
    }
    let place = case.base + u64::from(e.offset);
    let distance = t.branch.wrapping_add_signed(e.addend).wrapping_sub(place) as i64;
    match (far, has(flag::HAS_THUNK)) {
        (false, _) if (-(1 << 27)..1 << 27).contains(&distance) => Way::BranchSymbol,
        (false, _) => Way::BranchThunk,
        (true, false) => Way::BranchNoThunk,
        (true, true) if e.addend != 0 => Way::BranchThunkAddend,
        (true, true) => Way::BranchThunkFar,
    }
}

fn offset_way(word: u32) -> Way {
    if word >> 27 & 7 != 7 || word >> 24 & 3 != 1 {
        return Way::OffsetUnscaled;
    }
    match (word >> 30, word >> 26 & 1, word >> 23 & 1) {
        (0, 1, 1) => Way::Offset16,
        (0, ..) => Way::Offset1,
        (1, ..) => Way::Offset2,
        (2, ..) => Way::Offset4,
        _ => Way::Offset8,
    }
}
