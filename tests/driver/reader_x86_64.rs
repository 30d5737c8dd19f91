//! The reader of x86_64 records: its calls, and which rows a case of it reaches.

use hauklivo::{MachRel, Record, Reloc, raw};

use crate::answers::READ_X86_64;
use crate::reader::{self, Answer, Lists, Machine};
use crate::rows::{Rows, Stored, Sums, X86_NUMBERS};
use crate::table::Table;
use crate::{Difference, Oracle, Stop, World};

/// With the address of the section that has the records.
#[derive(Clone, Copy)]
pub struct X86_64 {
    pub address: u64,
}

pub type Case = reader::Case<X86_64>;

pub const SIGNED: usize = 1;
pub const SUBTRACTOR: usize = 5;

impl Machine for X86_64 {
    const CALL: &str = "read_relocs_x86_64";
    const LISTED: u8 = READ_X86_64;

    fn takes(ty: usize, form: usize) -> bool {
        match ty {
            0 => [4, 6, 12, 14].contains(&form),
            SUBTRACTOR => [12, 14].contains(&form),
            SIGNED | 6 | 7 | 8 => [5, 13].contains(&form),
            2 => [5, 9, 13].contains(&form),
            3 | 4 | 9 => form == 13,
            _ => false,
        }
    }

    fn address(&self) -> Option<u64> {
        Some(self.address)
    }

    fn port(&self, lists: &Lists, slots: &mut [u8], count: &mut usize) -> u8 {
        // SAFETY: slices, none of which is lent twice.
        unsafe {
            raw::hauklivo_read_relocs_x86_64(
                lists.contents.as_ptr(),
                lists.contents.len(),
                lists.records.as_ptr(),
                lists.records.len(),
                lists.sections.as_ptr(),
                lists.sections.len(),
                self.address,
                slots.as_mut_ptr(),
                slots.len(),
                count,
            )
        }
    }

    fn rust(&self, lists: &Lists, oracle: &Oracle) -> Result<Vec<u8>, Stop> {
        (oracle.read_relocs_x86_64)(lists.contents, lists.records, lists.sections, self.address)
    }

    fn expected(case: &Case, world: &World) -> Result<Answer, Difference> {
        world.differences.reader_x86_64(case, world)
    }

    fn record_answer(case: &Case, answer: &Answer, table: &mut Table) {
        let number = *answer.as_ref().err().unwrap_or(&0);
        let row = X86_NUMBERS.iter().position(|&n| n == number).expect("a number of this reader");
        table.hit(Rows::X86Number as usize, row);
        let Ok(entries) = answer else { return };
        let list = case.list();
        table.hit_if(list.is_empty(), Rows::X86Sums as usize, Sums::EmptyList as usize);
        let before = [None].into_iter().chain(list.iter().map(|r| Some(r.ty() as usize)));
        for ((r, before), entry) in list.iter().zip(before).zip(Reloc::list(entries).expect("whole entries")) {
            let ty = r.ty() as usize;
            table.hit_cell(Rows::X86Read as usize, ty, (r.bits >> 24 & 15) as usize);
            let column = match before {
                None => 0,
                Some(SUBTRACTOR) => 1,
                Some(SIGNED) => 2,
                Some(_) => 3,
            };
            table.hit_cell(Rows::X86Before as usize, ty, column);
            let stored = stored(&case.contents, r);
            record_stored(r, stored, table);
            record_sums(case, r, stored, &entry, table);
        }
    }
}

/// What a type adds to the stored number.
fn bias(ty: usize) -> i64 {
    [0, 0, 0, 0, 0, 0, 1, 2, 4, 0][ty]
}

/// The number at a record's place, whose bytes are there.
fn stored(contents: &[u8], r: &MachRel) -> i64 {
    let bytes = &contents[r.offset as usize..][..1 << r.p2size()];
    let sign = if bytes[bytes.len() - 1] >> 7 == 1 { 0xff } else { 0 };
    i64::from_le_bytes(std::array::from_fn(|i| bytes.get(i).copied().unwrap_or(sign)))
}

/// The row of a field's 1, 4 or 8 bytes, by their log2.
pub fn width_row(p2size: usize) -> usize {
    p2size.div_ceil(2)
}

fn record_stored(r: &MachRel, stored: i64, table: &mut Table) {
    let most = i64::MAX >> (64 - (8 << r.p2size()));
    let row = width_row(r.p2size() as usize);
    let mut hit = |column| table.hit_cell(Rows::X86Stored as usize, row, column as usize);
    match stored {
        0 => hit(Stored::Zero),
        1.. => hit(Stored::Positive),
        _ => hit(Stored::Negative),
    }
    match stored {
        n if n == most => hit(Stored::Largest),
        n if n == -most - 1 => hit(Stored::Least),
        _ => {}
    }
    let Some(row) = [SIGNED, 6, 7, 8].iter().position(|&ty| ty == r.ty() as usize) else { return };
    let sum = stored + bias(r.ty() as usize);
    let mut hit = |is_met, column| {
        if is_met {
            table.hit_cell(Rows::X86Bias as usize, row, column);
        }
    };
    hit(r.is_extern(), 0);
    hit(!r.is_extern(), 1);
    hit(sum < 0, 2);
    hit(sum == 0, 3);
    hit(sum > most, 4);
}

fn record_sums(case: &Case, r: &MachRel, stored: i64, entry: &Reloc, table: &mut Table) {
    let mut hit = |is_met, row| table.hit_if(is_met, Rows::X86Sums as usize, row as usize);
    let end = field_end(case.machine.address, r);
    if r.is_extern() {
        hit(true, Sums::Symbol);
        return hit(r.is_pcrel() && end > u64::MAX.into(), Sums::SymbolPastEnd);
    }
    let held = stored + bias(r.ty() as usize);
    let section = case.sections[r.idx() as usize - 1];
    hit(r.idx() == 1, Sums::FirstSection);
    hit(r.idx() as usize == case.sections.len(), Sums::LastSection);
    hit(entry.addend == i64::MIN, Sums::Least);
    hit(entry.addend == i64::MAX, Sums::Largest);
    if !r.is_pcrel() {
        hit(true, Sums::Section);
        return hit((held as u64) < section, Sums::SectionBelow);
    }
    hit(true, Sums::PcrelSection);
    hit(end == u64::MAX.into(), Sums::EndFits);
    hit(end == 1 << 64, Sums::EndAt);
    hit(end > 1 << 64, Sums::EndPast);
    let sum = (end as u64).checked_add_signed(held);
    hit(sum.is_none() && held > 0, Sums::HeldPast);
    hit(sum.is_none() && held < 0, Sums::HeldBelow);
    hit((end as u64).wrapping_add_signed(held) < section, Sums::PcrelSectionBelow);
}

/// Where the field of 4 bytes of a record ends, by its section's address, without wrapping.
fn field_end(address: u64, r: &MachRel) -> u128 {
    u128::from(address) + u128::from(r.offset) + 4
}

/// In place of a number where the Rust stops without one: no answer of the port's.
pub const NO_NUMBER: u8 = 0xff;

/// Half of the address space: what the address is lowered by where the Rust's own sum would overflow.
const HALF: u64 = 1 << 63;

impl Case {
    /// Whether a pc-relative record of a section, of its form, has a field that ends at 2^64 or past it. The Rust adds
    /// this up without wrapping, and stops.
    pub fn field_end_wraps(&self) -> bool {
        let is_added = |r: &MachRel| X86_64::takes(r.ty() as usize, 5) && r.bits >> 24 & 15 == 5;
        self.list().iter().any(|r| is_added(r) && field_end(self.machine.address, r) > u64::MAX.into())
    }

    /// Lowers the own address by half of the address space. No such field ends past it then, and the Rust can be asked.
    pub fn lower(&mut self) {
        self.machine.address -= HALF;
    }

    /// Makes up for it in the Rust's entries: those of pc-relative records of a section have the own address in their
    /// addend, and no other has.
    pub fn raise(&self, answer: &mut Answer) {
        let Ok(bytes) = answer else { return };
        let mut entries = Reloc::list(bytes).expect("whole entries");
        for (entry, r) in entries.iter_mut().zip(self.list()) {
            if r.is_pcrel() && !r.is_extern() {
                entry.addend = entry.addend.wrapping_add(HALF as i64);
            }
        }
        *bytes = Reloc::bytes(&entries).to_vec();
    }
}
