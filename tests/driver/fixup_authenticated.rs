//! Authenticated pointers in the fix-up. The Rust turns them down: what becomes of one is the driver's own rule, and
//! the Rust is asked for the entries around it.

use hauklivo::{Record, Reloc, Resolved, flag};

use crate::World;
use crate::fixup::{Answer, Case, check, is_flawed, is_section, rust, steps};
use crate::fixup_groups::{BASE, SECTION, at, entry, some_rest};
use crate::reader_authenticated::{TYPE, not_turned_down};
use crate::rng::{Digits, Rng};
use crate::rows::{DISTANCES, Rows, SUMMED};
use crate::run::{Group, Verdict};
use crate::table::Table;

/// What becomes of an entry that is worked.
enum End {
    Refused(u8),
    Left,
    Written([u8; 8]),
}

/// The number that comes before an entry's type is looked at.
fn before_type(case: &Case, e: &Reloc, t: &Resolved) -> Option<u8> {
    let is_past = e.offset as usize > case.section.len();
    let overflows = case.base.checked_add(e.offset.into()).is_none();
    [(is_past, 3), (is_flawed(t), 11), (overflows, 9)].into_iter().find(|(is_met, _)| *is_met).map(|(_, number)| number)
}

/// What becomes of an authenticated pointer.
fn end(case: &Case, e: &Reloc, t: &Resolved) -> End {
    if let Some(number) = before_type(case, e, t) {
        return End::Refused(number);
    }
    if is_section(e) {
        return End::Refused(10);
    }
    if t.flags & flag::IMPORTED != 0 {
        return End::Left;
    }
    let sum = t.address.wrapping_add(e.addend as u64);
    let Ok(distance) = u32::try_from(sum.wrapping_sub(case.image_base)) else { return End::Refused(16) };
    if case.section.len() - (e.offset as usize) < 8 {
        return End::Refused(3);
    }
    let ([a, b, c, d], [f, g]) = (distance.to_le_bytes(), e.diversity.to_le_bytes());
    End::Written([a, b, c, d, f, g, e.address_diversity % 2 + 2 * (e.key % 4), 0x80])
}

impl Case {
    /// The authenticated pointers that are worked by themselves.
    pub fn authenticated(&self) -> Vec<usize> {
        let pairs = self.pairs();
        steps(&pairs).into_iter().filter(|&i| pairs[i].0.ty == TYPE).collect()
    }

    /// Holds the Rust to its turning the first of them down: by the number that comes before its type is looked at,
    /// else by 5, unless it refuses what is before.
    pub fn check_turned_down(&self, answer: &Answer, world: &World) -> Verdict {
        let first = self.authenticated()[0];
        let mut before = self.clone();
        before.entries.truncate(Reloc::SIZE * first);
        before.targets.truncate(Resolved::SIZE * first);
        let (e, t) = self.pairs()[first];
        let due = match rust(&before, world)?.number {
            0 => before_type(self, &e, &t).unwrap_or(5),
            number => number,
        };
        if answer.number == due { Ok(()) } else { Err(not_turned_down(self.show(), due, answer.number)) }
    }

    /// Makes UNSIGNED entries of them, with an address by which the same word is written, or none for an imported
    /// symbol; the first that is refused ends the lists.
    pub fn as_unsigned(&mut self) {
        let mut pairs = self.pairs();
        for i in self.authenticated() {
            let (e, t) = &mut pairs[i];
            match end(self, e, t) {
                End::Refused(_) => {
                    pairs.truncate(i);
                    break;
                }
                End::Left => {}
                End::Written(word) => {
                    t.address = u64::from_le_bytes(word).wrapping_sub(e.addend as u64);
                    t.flags &= !flag::THREAD_LOCAL;
                }
            }
            e.ty = 0;
        }
        let (entries, targets): (Vec<_>, Vec<_>) = pairs.into_iter().unzip();
        (self.entries, self.targets) = (Reloc::bytes(&entries).to_vec(), Resolved::bytes(&targets).to_vec());
    }

    /// The number of the first that is refused, where no entry before it is.
    pub fn refuse(&self, answer: &mut Answer) {
        let pairs = self.pairs();
        let number = |i: usize| match end(self, &pairs[i].0, &pairs[i].1) {
            End::Refused(number) => Some(number),
            End::Left | End::Written(_) => None,
        };
        if let Some(number) = self.authenticated().into_iter().find_map(number)
            && answer.number == 0
        {
            *answer = self.refused(number);
        }
    }
}

pub fn groups() -> Vec<Group> {
    vec![
        Group::new("fixup/pointer-order", 64 * 2 * 3 * 4, 1_536, order),
        Group::new("fixup/distances", 10 * 7 * 5 * 5, 1_750, distances),
        Group::new("fixup/signing", 512 * 19 * 4 * 2, 10_240, signing),
    ]
}

/// Every set of what can be wrong with an authenticated pointer, with entries before and after it.
fn order(index: u64, world: &World, table: &mut Table) -> Verdict {
    let mut d = Digits(index);
    let (faults, imported, beside, ty) = (d.next(64), d.next(2), d.next(3), d.pick(&[TYPE, TYPE, 10, 12]));
    let has = |fault: usize| faults >> fault & 1 == 1;
    let len = 24;
    let offset = if has(0) { len + 1 } else { len - if has(5) { 7 } else { 8 } };
    let base = if has(2) { u64::MAX - 8 } else { BASE };
    let mut t = at(BASE);
    t.flags |= if has(1) { 1 << 9 } else { 0 } | if imported == 1 { flag::IMPORTED } else { 0 };
    let mut rng = Rng::new("fixup/pointer-order", index);
    let target = if has(3) { SECTION } else { 5 };
    let own = (Reloc { target, ty, offset: offset as u32, ..some_rest(&mut rng) }, t);
    let pointer = (entry(0, 0, 8), at(0x1357_9bdf));
    let pairs = [pointer, own, (entry(8, 5, 4), at(0x1357_9bdf))];
    let mut case = Case::new(vec![0xee; len], base, &pairs[[1, 0, 1][beside]..[2, 2, 3][beside]]);
    case.image_base = BASE + 1 - if has(4) { 0 } else { 1 + rng.below(BASE) };
    let answer = check(&case, world, table)?;
    let is_far = has(4) && imported == 0;
    let is_short = (has(0) || has(5)) && imported == 0;
    let met = [has(0), has(1), has(2), has(3), is_far, is_short];
    let Some(first) = met.iter().position(|&is_met| is_met) else { return Ok(()) };
    if ty == TYPE && answer.number == [3, 11, 9, 10, 16, 3][first] {
        let others = (first + 1..6).filter(|&second| met[second]);
        others.for_each(|second| table.hit_cell(Rows::FixupPointerOrder as usize, first, second));
    }
    Ok(())
}

/// The number, after those of [`SUMMED`], of a pointer that SUBTRACTOR takes.
const CONSUMED: usize = SUMMED.len();

/// Distances from the image base around the limits, by sums that wrap or do not, of symbols of each kind.
fn distances(index: u64, world: &World, table: &mut Table) -> Verdict {
    let mut d = Digits(index);
    let (row, column) = (d.next(10), d.next(CONSUMED + 1));
    let mut rng = Rng::new("fixup/distances", index);
    let addend = d.pick(&[0, 1, -1, i64::MIN, rng.next() as i64]);
    let image_base = d.pick(&[0, BASE, 1 << 63, u64::MAX, rng.next()]);
    let image_base = if column == 2 { u64::MAX } else { image_base };
    let sum = image_base.wrapping_add(DISTANCES[row].0);
    let addend = match column {
        1 if sum >> 63 == 0 => i64::MAX,
        1 => i64::MIN,
        _ => addend,
    };
    let mut t = at(sum.wrapping_sub(addend as u64));
    if column == 3 || column == 5 {
        t.flags |= flag::IMPORTED;
    }
    let is_at_end = column == 4 || column == 5;
    let e = Reloc { ty: TYPE, target: 5, addend, offset: if is_at_end { 9 } else { 8 }, ..some_rest(&mut rng) };
    let pairs = [(entry(0, 1, 8), at(rng.next())), (e, t)];
    let pairs = if column == CONSUMED { &pairs[..] } else { &pairs[1..] };
    let mut case = Case::new(rng.bytes(16), BASE, pairs);
    case.image_base = image_base;
    let answer = check(&case, world, table)?;
    let due = match (column, row) {
        (0..=2 | 4, 4..) => 16,
        (4, _) => 3,
        _ => 0,
    };
    let summed = SUMMED.get(column).unwrap_or(&"consumed");
    assert_eq!(answer.number, due, "distance {}, {summed}", DISTANCES[row].1);
    if column == CONSUMED {
        table.hit(Rows::FixupConsumedDistance as usize, row);
    } else if column != 1 || t.address.checked_add_signed(addend).is_none() {
        table.hit_cell(Rows::FixupDistance as usize, row, column);
    }
    Ok(())
}

/// Every byte of the address diversity and of the key, beside some diversity, with what a fix-up does not look at.
fn signing(index: u64, world: &World, table: &mut Table) -> Verdict {
    let mut d = Digits(index);
    let (byte, bit) = (d.next(512), d.next(19));
    let mut rng = Rng::new("fixup/signing", index);
    let mut e = Reloc { ty: TYPE, target: 5, addend: rng.next() as i64, ..some_rest(&mut rng) };
    e.diversity = match bit {
        0..16 => 1 << bit,
        16 => 0,
        17 => 0xffff,
        _ => e.diversity,
    };
    match byte {
        0..256 => e.address_diversity = byte as u8,
        _ => e.key = byte as u8,
    }
    e.size = d.pick(&[8, 4, 0, 255]);
    e.offset = d.pick(&[0, 5]);
    let mut case = Case::new(rng.bytes(16), BASE, &[(e, Resolved::default())]);
    let address = case.image_base.wrapping_add(rng.below(1 << 32)).wrapping_sub(e.addend as u64);
    let t = Resolved { address, flags: rng.pick(&[0, flag::HAS_ADDRESS, flag::THREAD_LOCAL]), ..Resolved::default() };
    case.targets = t.to_bytes();
    let answer = check(&case, world, table)?;
    assert_eq!(answer.number, 0, "a pointer in reach");
    table.hit(Rows::FixupSigning as usize, byte);
    Ok(())
}
