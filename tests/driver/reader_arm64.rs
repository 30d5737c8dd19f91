//! The reader of arm64 records: its calls, and which rows a case of it reaches.

use hauklivo::{MachRel, raw};

use crate::answers::READ;
use crate::class::is_unallocated;
use crate::reader::{Answer, Case, Lists, Machine};
use crate::rows::{READER_NUMBERS, Rows};
use crate::table::Table;
use crate::{Difference, Oracle, Stop, World};

#[derive(Clone, Copy)]
pub struct Arm64;

impl Machine for Arm64 {
    const CALL: &str = "read_relocs";
    const LISTED: u8 = READ;

    fn takes(ty: usize, form: usize) -> bool {
        match ty {
            0 => [4, 6, 12, 14].contains(&form),
            1 => [12, 14].contains(&form),
            2 | 3 | 5 | 7 | 8 => form == 13,
            4 | 6 | 9 => form == 12,
            10 => form == 4,
            11 => form == 14,
            _ => false,
        }
    }

    fn address(&self) -> Option<u64> {
        None
    }

    fn port(&self, lists: &Lists, slots: &mut [u8], count: &mut usize) -> u8 {
        // SAFETY: slices, none of which is lent twice.
        unsafe {
            raw::hauklivo_read_relocs(
                lists.contents.as_ptr(),
                lists.contents.len(),
                lists.records.as_ptr(),
                lists.records.len(),
                lists.sections.as_ptr(),
                lists.sections.len(),
                slots.as_mut_ptr(),
                slots.len(),
                count,
            )
        }
    }

    fn rust(&self, lists: &Lists, oracle: &Oracle) -> Result<Vec<u8>, Stop> {
        (oracle.read_relocs)(lists.contents, lists.records, lists.sections)
    }

    fn expected(case: &Case<Self>, world: &World) -> Result<Answer, Difference> {
        world.differences.reader(case, world)
    }

    fn record_answer(case: &Case<Self>, answer: &Answer, table: &mut Table) {
        let number = answer.as_ref().err().copied().unwrap_or(0);
        let row = READER_NUMBERS.iter().position(|&n| n == number).expect("a number of the reader");
        table.hit(Rows::ReaderNumber as usize, row);
        if answer.is_err() {
            return;
        }
        let records = case.list();
        let kind = |table: &mut Table, i| table.hit(Rows::ReaderKind as usize, i);
        if records.is_empty() {
            kind(table, 7);
        }
        for Turn { offset, own, is_after_addend } in turns(&records) {
            let r = records[own];
            let ty = r.ty() as usize;
            table.hit_cell(Rows::ReaderRead as usize, ty, (r.bits >> 24 & 15) as usize);
            if is_after_addend {
                table.hit(Rows::ReaderAfterAddend as usize, ty);
                if records[own - 1].idx() >> 23 == 1 {
                    kind(table, 6);
                }
            }
            kind(table, usize::from(!r.is_extern()));
            if own > 0 && records[own - 1].ty() == 1 {
                kind(table, 2);
            }
            if ty == 0 {
                let negative = r.p2size() == 2 && case.contents[offset + 3] >> 7 == 1;
                kind(table, if r.p2size() == 3 { 5 } else { 3 + usize::from(negative) });
            }
        }
    }
}

impl Case<Arm64> {
    /// The numbers of the TLVP page offsets, of their form, whose word, at their turn's offset, is unallocated.
    pub fn tlvp_on_unallocated(&self) -> Vec<usize> {
        let list = self.list();
        let is_on = |turn: &Turn| {
            let bytes = self.contents.get(turn.offset..).and_then(|rest| rest.first_chunk());
            list[turn.own].bits >> 24 == 0x9c && bytes.is_some_and(|&word| is_unallocated(u32::from_le_bytes(word)))
        };
        turns(&list).into_iter().filter(is_on).map(|turn| turn.own).collect()
    }
}

/// A turn of the reader: the place, and the number of the record that says the rest, which may stand after an ADDEND.
pub struct Turn {
    pub offset: usize,
    pub own: usize,
    pub is_after_addend: bool,
}

impl Turn {
    /// The number of its first record.
    pub fn first(&self) -> usize {
        self.own - usize::from(self.is_after_addend)
    }
}

/// The turns over a list; an ADDEND that is the last record has none.
pub fn turns(list: &[MachRel]) -> Vec<Turn> {
    let mut turns = Vec::new();
    let mut i = 0;
    while i < list.len() {
        let is_after_addend = list[i].ty() == 10;
        let own = i + usize::from(is_after_addend);
        if own < list.len() {
            turns.push(Turn { offset: list[i].offset as usize, own, is_after_addend });
        }
        i = own + 1;
    }
    turns
}
