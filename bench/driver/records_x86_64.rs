//! A section with relocation records of all x86_64 types.

use hauklivo::ty_x86_64 as ty;

use crate::records::{SECTIONS, Table, symbol};
use crate::rng::Rng;

/// The section's own address.
pub const ADDRESS: u64 = 0x2_0000;

impl Table {
    /// `n` x86_64 records, in the mix that `group_x86_64` makes.
    pub fn new_x86_64(n: usize) -> Self {
        Self::of_groups(n, "records, x86_64", Self::group_x86_64)
    }

    /// One record, or two that belong together; a call where fewer are left.
    fn group_x86_64(&mut self, rng: &mut Rng, left: usize) {
        match rng.below(100) {
            0..24 => self.field(ty::SIGNED, 2, 0, rng),
            24..40 => self.field(ty::GOT_LOAD, 3, 0, rng),
            40..43 => self.field(ty::SIGNED_1, 2, -1, rng),
            43..45 => self.field(ty::SIGNED_2, 3, -2, rng),
            45..48 => self.field(ty::SIGNED_4, 2, -4, rng),
            48..50 => self.field(ty::TLV, 3, 0, rng),
            50..52 => self.field(ty::GOT, 2, 0, rng),
            52..60 => self.of_section(rng),
            60..66 if left >= 2 => {
                let p2size = rng.pick(&[2, 3]);
                let at = self.room(1 << p2size);
                self.push(at, symbol(rng), false, p2size, true, ty::SUBTRACTOR);
                self.push(at, symbol(rng), false, p2size, true, ty::UNSIGNED);
            }
            66..76 => {
                let at = self.room(8);
                self.push(at, symbol(rng), false, 3, true, ty::UNSIGNED);
            }
            76..82 => {
                let (ordinal, at) = (ordinal(rng), self.room(8));
                self.contents[at as usize..].copy_from_slice(&(0x1000 * u64::from(ordinal)).to_le_bytes());
                self.push(at, ordinal, false, 3, false, ty::UNSIGNED);
            }
            82 => {
                let at = self.code(1, &[0]);
                self.push(at, symbol(rng), true, 0, true, ty::BRANCH);
            }
            _ => self.field(ty::BRANCH, 1, 0, rng),
        }
    }

    /// An instruction with `before` bytes in front of a field, at any address; the field's offset.
    fn code(&mut self, before: usize, stored: &[u8]) -> u32 {
        self.contents.resize(self.contents.len() + before, 0x48);
        let at = self.contents.len() as u32;
        self.contents.extend(stored);
        at
    }

    /// A field of 4 bytes of a symbol.
    fn field(&mut self, ty: u8, before: usize, stored: i32, rng: &mut Rng) {
        let at = self.code(before, &stored.to_le_bytes());
        self.push(at, symbol(rng), true, 2, true, ty);
    }

    /// A field of 4 bytes of a section: a displacement that reaches it from the field's end.
    fn of_section(&mut self, rng: &mut Rng) {
        let ordinal = ordinal(rng);
        let end = ADDRESS as i32 + self.contents.len() as i32 + 7;
        let at = self.code(3, &(0x1000 * ordinal as i32 - end).to_le_bytes());
        self.push(at, ordinal, true, 2, false, ty::SIGNED);
    }
}

fn ordinal(rng: &mut Rng) -> u32 {
    1 + rng.below(u64::from(SECTIONS)) as u32
}
