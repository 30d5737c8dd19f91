//! The cases of the hint run.

use hauklivo::{HintInsn, HintRecord, Reloc};

use crate::class::UNALLOCATED;
use crate::hint_shape::{BASE, LDR_X, LDRSW, LOADS, NOP, STORES, STR_X, Shape, bytes, entry, laid, places, single};
use crate::hints::{Answer, Case, check, of_lengths, word_count};
use crate::reader_lists::flip;
use crate::rng::{Digits, Rng};
use crate::rows::Rows;
use crate::run::{Group, Verdict};
use crate::table::Table;
use crate::{Difference, World};

pub fn groups() -> Vec<Group> {
    let classed = CLASSED.len() as u64;
    vec![
        Group::new("hints/classes", classed * 1024 * 4 * 3, 40_000, classes),
        Group::new("hints/limits", measured().len() as u64 * 47 * 6 * 4 * 2, 26_000, limits),
        Group::new("hints/entries", 8 * 13 * 13 * 3 * 4, 16_224, entries),
        Group::new("hints/registers", 256 * 8 * 2 * 2 * 2, 8_000, registers),
        Group::new("hints/counts", 256 * 256, 8_000, counts),
        Group::new("hints/folds", 4096 * 5 * 4 * 6 * 2, 30_000, folds),
        Group::new("hints/nine", 6 * 16 * 5 * 5 * 2 * 3 * 2, 10_000, nine),
        Group::new("hints/bounds", 2 * 2 * 9 * 23 * 22 * 21, 20_000, bounds),
        Group::new("hints/absent", 216 * 3 * 2 * 2 * 4 * 2, 10_000, absent),
        Group::new("hints/lengths", 201 * 61, 2_000, lengths),
        Group::new("hints/one-adrp", 2 * 13 * 2 * 3 * SECONDS.len() as u64 * 2 * 2 * 3, 8_000, one_adrp),
        Group::new("hints/overlaps", 300_000, 10_000, overlaps),
        Group::new("hints/lists", 600_000, 20_000, lists),
        Group::new("hints/damaged", 600_000, 20_000, damaged),
    ]
}

/// A word of a kind, and whether the second word is ADD.
pub const CLASSED: [(u8, usize, bool); 24] = [
    (1, 0, false),
    (1, 1, false),
    (2, 0, false),
    (2, 1, false),
    (3, 0, false),
    (3, 1, false),
    (3, 2, false),
    (4, 0, false),
    (4, 1, false),
    (4, 2, false),
    (4, 1, true),
    (4, 2, true),
    (5, 0, false),
    (5, 1, false),
    (5, 2, false),
    (6, 0, false),
    (6, 1, false),
    (6, 2, false),
    (6, 1, true),
    (6, 2, true),
    (7, 0, false),
    (7, 1, false),
    (8, 0, false),
    (8, 1, false),
];

/// Puts a shape's target out of reach of the load, or of all its words.
pub fn place_at(shape: &mut Shape, distance: usize) {
    let last = word_count(shape.kind) - 1;
    match distance {
        0 => {}
        1 => shape.addresses[last] = shape.page - (1 << 21),
        _ => shape.page = shape.page.wrapping_add(1 << 28),
    }
}

/// Every class of word as each word of each kind.
fn classes(index: u64, world: &World, table: &mut Table) -> Verdict {
    let mut d = Digits(index);
    let (class, i, low, distance) = (d.next(1024), d.next(CLASSED.len()), d.next(4), d.next(3));
    let (kind, place, is_relaxed) = CLASSED[i];
    let mut shape = Shape { is_relaxed, ..Shape::new(kind) };
    place_at(&mut shape, distance);
    let mut named = shape.named();
    let random = Rng::new("hints/classes", index).word();
    let word = &mut named[place].word;
    let low = match low {
        0 => *word,
        1 => *word & 0x3ff,
        2 => random & 0x3f_fc00 | *word & 0x3ff,
        _ => random,
    };
    *word = (class as u32) << 22 | low & 0x3f_ffff;
    check(&single(kind, &named), world, table)?;
    table.hit(Rows::HintClass as usize, i * 1024 + class);
    Ok(())
}

/// What a displacement is measured to: a literal load's target, an ADR's, a GOT slot, or slot and offset.
#[derive(Clone, Copy, PartialEq)]
pub enum Reach {
    Literal,
    Adr,
    Slot,
    End,
}

pub const LIMITED: [(u8, Reach); 14] = [
    (2, Reach::Literal),
    (3, Reach::Literal),
    (3, Reach::Adr),
    (4, Reach::Literal),
    (4, Reach::Adr),
    (4, Reach::Slot),
    (4, Reach::End),
    (5, Reach::Adr),
    (6, Reach::Adr),
    (6, Reach::Slot),
    (6, Reach::End),
    (7, Reach::Adr),
    (8, Reach::Adr),
    (8, Reach::Slot),
];

/// Each of these by its number, and once more, with an offset in the access, those with an ADR before an access.
fn measured() -> Vec<(usize, u32)> {
    let has_offset = |&i: &usize| LIMITED[i].1 == Reach::Adr && word_count(LIMITED[i].0) == 3;
    let all = 0..LIMITED.len();
    all.clone().map(|i| (i, 0)).chain(all.filter(has_offset).map(|i| (i, 1))).collect()
}

/// Displacements around the limits of reach.
fn limits(index: u64, world: &World, table: &mut Table) -> Verdict {
    let mut d = Digits(index);
    let ((rewrite, offset), i) = (d.pick(&measured()), d.next(47));
    let (kind, reach) = LIMITED[rewrite];
    let far = [1 << 21, -(1 << 21), 1 << 31, -(1 << 31), 1 << 32, 1 << 62, i64::MAX, i64::MIN];
    let distance = match i {
        0..39 => [-(1i64 << 20), 0, 1 << 20][i / 13] + (i % 13) as i64 - 6,
        _ => far[i - 39],
    };
    let class = d.pick(&[2, 3, 4, 0, 1, 5]);
    let base = d.pick(&[BASE, 0, 1 << 63, u64::MAX - 0x1fff]);
    let mut shape = Shape { page: base.wrapping_add(0x4000), ..Shape::new(kind) };
    shape.is_relaxed = [Reach::Literal, Reach::Adr].contains(&reach);
    let loads = [LOADS.as_slice(), &[LDRSW]].concat();
    shape.class = if [5, 6].contains(&kind) { STORES[class.min(4)] } else { loads[class] };
    shape.addresses = [0, 4, 8].map(|n| base.wrapping_add(n));
    shape.immediates[1] = offset;
    measure(&mut shape, reach, distance, d.pick(&[1 << 22, 0x100]));
    check(&shape.case(), world, table)?;
    if i < 39 {
        table.hit(Rows::HintLimit as usize, rewrite * 39 + i);
    }
    Ok(())
}

/// Puts the word that a reach is measured from at a displacement from the target, and a word with another reach at
/// another distance.
fn measure(shape: &mut Shape, reach: Reach, distance: i64, other: u64) {
    let last = word_count(shape.kind) - 1;
    let before = |target: u64| target.wrapping_add_signed(distance.wrapping_neg());
    match reach {
        Reach::Literal if shape.kind == 2 => {
            let target = shape.page.wrapping_add(u64::from(shape.immediates[0]) * shape.size());
            shape.addresses = [shape.page.wrapping_sub(other), before(target), 0];
        }
        Reach::Literal => {
            shape.immediates = [0x10, 8];
            shape.addresses[0] = shape.page.wrapping_sub(other);
            shape.addresses[2] = before(shape.page.wrapping_add(0x10 + 8 * shape.size()));
        }
        Reach::Adr => {
            let target = shape.addresses[0].wrapping_add_signed(distance);
            // Kinds 3 and 5 measure to what is accessed, the others to what the ADD makes.
            let offset = if [3, 5].contains(&shape.kind) { u64::from(shape.immediates[1]) * shape.size() } else { 0 };
            let made = target.wrapping_sub(offset);
            (shape.page, shape.immediates[0]) = (made & !0xfff, made as u32 & 0xfff);
            if last == 2 {
                shape.addresses[2] = target.wrapping_sub(other);
            }
        }
        Reach::Slot | Reach::End => {
            shape.immediates = [4, if reach == Reach::End { 4 } else { 0 }];
            let offset = u64::from(shape.immediates[1]) * shape.size();
            shape.addresses[1] = before(shape.page.wrapping_add(32 + offset));
        }
    }
}

/// Every pair of types of entries, with targets, addends and other fields that differ, and a third entry.
fn entries(index: u64, world: &World, table: &mut Table) -> Verdict {
    let mut d = Digits(index);
    let (kind, a, b, third, pair) = (d.next(8), d.next(13), d.next(13), d.next(3), d.next(4));
    let mut shape = Shape::new(kind as u8 + 1);
    let of = |ty: usize| if ty == 12 { None } else { entry(ty as u8) };
    shape.entries = [of(a), of(b), [None, entry(0), entry(4)][third]];
    if let Some(e) = &mut shape.entries[1] {
        match pair {
            0 => {}
            1 => e.target ^= 1 << 31,
            2 => e.addend = 1 << 32,
            _ => (e.diversity, e.size, e.offset, e.is_pcrel) = (7, 8, 9, 1),
        }
    }
    check(&shape.case(), world, table)?;
    table.hit(Rows::HintEntry as usize, (kind * 13 + a) * 13 + b);
    Ok(())
}

/// Registers that link the words, or do not.
fn registers(index: u64, world: &World, table: &mut Table) -> Verdict {
    let mut d = Digits(index);
    let mut register = || d.pick(&[0, 1, 16, 31]);
    let (adrp, second, base) = (register(), [register(), register()], register());
    let mut shape = Shape { adrp, second, third: [base, 4], ..Shape::new(1 + d.next(8) as u8) };
    shape.is_relaxed = d.next(2) == 1;
    shape.class = d.pick(&[LDR_X, STR_X]);
    place_at(&mut shape, 2 * d.next(2));
    check(&shape.case(), world, table).map(|_| ())
}

/// Every kind with every word count.
fn counts(index: u64, world: &World, table: &mut Table) -> Verdict {
    let mut d = Digits(index);
    let (kind, count) = (d.next(256) as u8, d.next(256) as u8);
    let mut case = Shape::new(kind.clamp(1, 8)).case();
    let mut list = case.list();
    (list[0].kind, list[0].words) = (kind, count);
    case.set_list(&list);
    check(&case, world, table)?;
    table.hit(Rows::HintCount as usize, kind as usize);
    table.hit(Rows::HintCount as usize, 256 + count as usize);
    Ok(())
}

/// Folds of every immediate into accesses of each size, with offsets of their own. Of those without, ADRP_ADD_LDR and
/// ADRP_ADD_STR have some in reach of an ADR.
fn folds(index: u64, world: &World, table: &mut Table) -> Verdict {
    let mut d = Digits(index);
    let (immediate, size, kind, offset) = (d.next(4096), d.next(5), d.next(4), d.next(6));
    let mut shape = Shape { is_relaxed: true, ..Shape::new(3 + kind as u8) };
    place_at(&mut shape, if offset == 1 && kind % 2 == 0 { 1 } else { 2 });
    shape.class = if d.next(2) == usize::from(kind > 1) { LOADS[size] } else { STORES[size] };
    let left = (4096 - immediate as u32) / shape.size() as u32;
    let random = Rng::new("hints/folds", index).word() & 0xfff;
    let offset = [0, 0, 1, left.saturating_sub(1), left.min(4095), random][offset];
    shape.immediates = [immediate as u32, offset];
    check(&shape.case(), world, table)?;
    table.hit(Rows::HintFold as usize, size * 4096 + immediate);
    Ok(())
}

/// Sums around 2^64.
fn nine(index: u64, world: &World, table: &mut Table) -> Verdict {
    let mut d = Digits(index);
    let kind = d.pick(&[2, 3, 4, 5, 6, 8]);
    let (pages, around, size) = (1 + d.next(16) as u64, d.next(5), d.next(5));
    let mut shape = Shape { is_relaxed: d.next(2) == 1, page: (pages << 12).wrapping_neg(), ..Shape::new(kind) };
    shape.class = if [5, 6].contains(&kind) { STORES[size] } else { LOADS[size] };
    let near = d.pick(&[0, u64::MAX - 0xfff, (1 << 63) - 0x1000]);
    shape.addresses = [near, near.wrapping_add(4), near.wrapping_add(8)];
    let first = d.next(2) == 0;
    // So many units of a size that the sum is around 2^64.
    let units = |left: u64, size: u64| ((left / size + around as u64).saturating_sub(2) as u32).min(4095);
    let left = pages << 12;
    if first || [2, 8].contains(&kind) {
        shape.immediates[0] = units(left, if kind == 2 { shape.size() } else { 8 });
        shape.immediates[1] = if first { 0 } else { 4095 };
    } else {
        let made = if shape.is_relaxed || kind % 2 == 1 { 16 } else { 16 * 8 };
        shape.immediates[1] = units(left - made, shape.size());
    }
    check(&shape.case(), world, table).map(|_| ())
}

/// Places a byte around the ends of parts and images of each small length.
fn bounds(index: u64, world: &World, table: &mut Table) -> Verdict {
    let mut d = Digits(index);
    let kind = d.pick(&[7, 5]);
    let is_skipped = d.next(2) == 1;
    let len = d.pick(&[0, 3, 4, 7, 8, 11, 12, 13, 16]);
    let some = |d: &mut Digits, most: u32, far: &[u32]| {
        let i = d.next((most + 1) as usize + far.len()) as u32;
        if i <= most { i } else { far[(i - most - 1) as usize] }
    };
    let start = some(&mut d, 20, &[1 << 31, u32::MAX]);
    let length = some(&mut d, 20, &[u32::MAX]);
    let offset = some(&mut d, 18, &[u32::MAX - 3, u32::MAX]);
    let shape = Shape::new(kind);
    let mut image = vec![0xee; len];
    let mut entries = Vec::new();
    let mut places = places(&shape.named(), &mut entries);
    let last = word_count(kind) - 1;
    places[last].offset = offset;
    for (word, place) in shape.words().iter().zip(places) {
        let at = start as usize + place.offset as usize;
        if let Some(into) = image.get_mut(at..at + 4) {
            into.copy_from_slice(&word.to_le_bytes());
        }
    }
    let count = last as u8 + 1 + u8::from(is_skipped);
    let hint = HintRecord { kind, words: count, object: 1, start, length, places, ..HintRecord::default() };
    let answer = check(&Case::new(image, &[hint], &entries), world, table)?;
    let (part, word) = (u64::from(start) + u64::from(length), u64::from(offset) + 4);
    let (over, past) = (part as i64 - len as i64, word as i64 - i64::from(length));
    let row = match (answer.number, over, past) {
        (0, 1.., 1..) if is_skipped => Some(4),
        _ if is_skipped => None,
        (3, 1, ..=0) => Some(0),
        (0, 0, _) => Some(1),
        (3, ..=0, 1) => Some(2),
        (0, _, 0) => Some(3),
        _ => None,
    };
    if let Some(row) = row {
        table.hit(Rows::HintBound as usize, row);
    }
    Ok(())
}

/// Entry numbers around the count, words past their parts, in two hints of either order of work.
fn absent(index: u64, world: &World, table: &mut Table) -> Verdict {
    let mut d = Digits(index);
    let named: Vec<_> = (0..3).map(|_| d.next(6)).collect();
    let n = d.next(3) as u32 + 2;
    let kind = d.pick(&[7, 5]);
    let past = d.next(2) == 1;
    let (second, falls) = (d.next(4), d.next(2) == 1);
    let numbers = [0, n - 1, n, n + 1, HintInsn::WITHOUT_ENTRY - 1, HintInsn::WITHOUT_ENTRY];
    let shape = Shape::new(kind);
    let mut places = places(&shape.named(), &mut Vec::new());
    let count = word_count(kind);
    for (place, &i) in places.iter_mut().zip(&named) {
        place.entry = numbers[i];
    }
    places[count - 1].offset += u32::from(past);
    let good = HintRecord {
        kind,
        words: count as u8,
        length: 4 * count as u32,
        object: u32::from(falls),
        ..HintRecord::default()
    };
    let first = HintRecord { places, ..good };
    let mut other = HintRecord { object: 1 - u32::from(falls), ..good };
    other.places = [0, 4, 8].map(|offset| HintInsn { offset, entry: 0, address: BASE });
    match second {
        0 | 1 => {}
        2 => other.places[0].entry = n,
        _ => other.length = 3,
    }
    let list = [first, other];
    let list = &list[..if second == 0 { 1 } else { 2 }];
    let entries: Vec<Reloc> = (0..n).map(|i| Reloc { ty: 3 + (i % 2) as u8, ..Reloc::default() }).collect();
    let answer = check(&Case::new(bytes(&shape.words()), list, &entries), world, table)?;
    record_absent(&named[..count], past, second, &answer, table);
    Ok(())
}

fn record_absent(named: &[usize], past: bool, second: usize, answer: &Answer, table: &mut Table) {
    let mut hit = |row| table.hit(Rows::HintBound as usize, row);
    let is_absent = named.iter().any(|i| (2..5).contains(i));
    match (answer.number, past, is_absent, second) {
        (12, false, true, 0 | 1) if named.iter().all(|&i| ![3, 4].contains(&i)) => hit(5),
        (0, false, false, _) if named.contains(&1) => hit(6),
        (3, true, true, _) => hit(7),
        (12, false, true, 3) => hit(8),
        (3, true, false, 2) => hit(9),
        _ => {}
    }
}

/// Every short length of hints and entries.
fn lengths(index: u64, world: &World, table: &mut Table) -> Verdict {
    let mut d = Digits(index);
    let (hints, entries) = (d.next(201), d.next(61));
    let mut case = Shape::new(7).case();
    let mut list = case.list();
    for place in &mut list[0].places {
        place.entry = HintInsn::WITHOUT_ENTRY;
    }
    case.set_list(&[list[0]; 4]);
    case.hints.truncate(hints);
    case.entries.resize(entries, 3);
    check(&case, world, table).map(|_| ())
}

/// A second hint that names the ADRP of a first one.
#[derive(Clone, Copy)]
pub struct Second {
    kind: u8,
    offsets: [u32; 3],
    /// How far the page of its own ADRP, if it has one, is from the first hint's.
    page: u64,
    /// Whether the ADRP makes the last page, and the hint's own offset passes the end.
    is_past_end: bool,
}

const fn second(kind: u8, offsets: [u32; 3], page: u64) -> Second {
    Second { kind, offsets, page, is_past_end: false }
}

const fn past_end(kind: u8) -> Second {
    Second { kind, offsets: APART, page: 0, is_past_end: true }
}

const APART: [u32; 3] = [4, 16, 20];

/// ADRP_ADRP with an ADRP before or after the first hint's; a hint of another kind with words of its own, in the end one
/// over the last byte of the first hint's access; and hints that 9 turns down.
pub const SECONDS: [Second; 12] = [
    second(1, [0, 4, 20], 0),
    second(1, [0, 4, 20], 0x1000),
    second(1, APART, 0),
    second(1, APART, 0x1000),
    second(2, APART, 0),
    second(3, APART, 0),
    second(5, APART, 0),
    second(7, APART, 0),
    second(7, [4, 15, 20], 0),
    past_end(2),
    past_end(3),
    past_end(5),
];

/// ADRP, ADD and an access, and a second hint that names the ADRP.
fn one_adrp(index: u64, world: &World, table: &mut Table) -> Verdict {
    let mut d = Digits(index);
    let mut first = Shape::new(d.pick(&[3, 5]));
    first.class = d.pick(&[LOADS.as_slice(), &STORES, &UNALLOCATED].concat());
    first.immediates[1] = d.next(2) as u32;
    let (distance, second, register) = (d.next(3), d.pick(&SECONDS), d.pick(&[1, 2]));
    let (mut case, list) = with_second(first, distance, second, register);
    in_order(&mut case, list, d.next(2), d.pick(&OBJECTS));
    check(&case, world, table).map(|_| ())
}

/// A hint with its target at a distance, and a second one that names its ADRP and goes by a register.
pub fn with_second(mut first: Shape, distance: usize, second: Second, register: u32) -> (Case, [HintRecord; 2]) {
    let Second { kind, offsets, page, is_past_end } = second;
    let base = if is_past_end { 0x5000u64.wrapping_neg() } else { BASE };
    (first.page, first.addresses) = (base + 0x4000, [base, base + 4, base + 8]);
    place_at(&mut first, distance);
    let mut other = Shape { page: first.page.wrapping_add(page), ..Shape::new(kind) };
    other.addresses = offsets.map(|offset| base - 4 + u64::from(offset));
    if is_past_end {
        other.immediates[usize::from(kind != 2)] = 0xfff;
    }
    (other.adrp, other.second[0]) = (register, register);
    let mut case = Case::new(bytes(&[NOP; 6]), &[], &[]);
    // The first hint's words stand in the end, where both have one.
    let second = laid(&mut case, &other, offsets);
    let first = laid(&mut case, &first, [4, 8, 12]);
    (case, [first, second])
}

/// Objects of two hints.
pub const OBJECTS: [(u32, u32); 3] = [(0, 0), (0, 1), (1, 0)];

/// Sets a list of two hints, in either order.
pub fn in_order(case: &mut Case, mut list: [HintRecord; 2], order: usize, objects: (u32, u32)) {
    list.swap(0, order);
    (list[0].object, list[1].object) = objects;
    case.set_list(&list);
}

/// A hint whose words share bytes: each is laid over those before it, where its bytes can be theirs.
fn overlaps(index: u64, world: &World, table: &mut Table) -> Verdict {
    let mut rng = Rng::new("hints/overlaps", index);
    let mut shape = some_shape(&mut rng, BASE);
    if shape.kind == 1 && rng.one_in(2) {
        shape.addresses[1] = shape.addresses[0];
    }
    let shifts = [0; 2].map(|_| rng.pick(&[0, 1, 2, 3, 3, 4, 4]));
    if shape.kind != 1 && rng.one_in(2) {
        link_by_shared_byte(&mut rng, &mut shape, shifts);
    }
    let mut case = shape.case();
    let mut list = case.list();
    for i in 1..word_count(shape.kind) {
        list[0].places[i].offset = list[0].places[i - 1].offset + shifts[i - 1];
    }
    for (i, word) in shape.words().into_iter().enumerate() {
        let at = 4 + list[0].places[i].offset as usize;
        let mut word = word.to_le_bytes();
        if i > 0 && !rng.one_in(4) {
            // The last byte of the word before, where it lies in this one, tells its class.
            let shift = (list[0].places[i].offset - list[0].places[i - 1].offset) as usize;
            if let Some(byte) = 3usize.checked_sub(shift) {
                word[byte] = case.image[at + byte];
            }
        }
        case.image[at..at + 4].copy_from_slice(&word);
    }
    case.set_list(&list);
    check(&case, world, table).map(|_| ())
}

/// Takes registers that link a word to the next one, where that begins with the last byte of the first.
fn link_by_shared_byte(rng: &mut Rng, shape: &mut Shape, shifts: [u32; 2]) {
    let registers = |rng: &mut Rng, byte: u32| [byte >> 5 | rng.word() & 0x18, byte & 0x1f];
    let words = shape.words();
    if shifts[0] == 3 {
        shape.second = registers(rng, words[0] >> 24);
        (shape.adrp, shape.third[0]) = (shape.second[0], shape.second[1]);
    } else if shifts[1] == 3 {
        shape.third = registers(rng, words[1] >> 24);
        shape.second[1] = shape.third[0];
    }
}

/// A shape of some kind, mostly one that its rule rewrites.
fn some_shape(rng: &mut Rng, address: u64) -> Shape {
    let mut shape = Shape::new(1 + rng.below(8) as u8);
    shape.is_relaxed = rng.one_in(2);
    shape.addresses = [0, 4, 8].map(|n| address.wrapping_add(n));
    let away = match rng.below(6) {
        0 => rng.next() >> 32,
        1 => 1 << 28,
        2 => (1 << 20) + rng.below(1 << 13),
        _ => rng.below(1 << 20),
    };
    shape.page = if rng.one_in(2) { address.wrapping_add(away) } else { address.wrapping_sub(away) } & !0xfff;
    let stores = if rng.one_in(8) { rng.one_in(2) } else { [5, 6].contains(&shape.kind) };
    shape.class = rng.pick(if stores { &STORES } else { &LOADS });
    match rng.below(16) {
        0 | 1 => shape.class = 0x0e4 | rng.word() & 0x313,
        2 => shape.class = rng.pick(&UNALLOCATED),
        _ => {}
    }
    let immediate = |rng: &mut Rng| match rng.below(4) {
        0 => 0,
        1 => rng.word() & 0xfff,
        2 => rng.word() & 0xff8,
        _ => rng.word() & 0x30,
    };
    shape.immediates = [immediate(rng), immediate(rng)];
    let made = rng.pick(&[1, 1, 1, 1, 1, 2, 2, 31]);
    let link = rng.pick(&[1, 1, 1, 1, 1, 0, 0, 31]);
    (shape.adrp, shape.second, shape.third) = (link, [link, made], [made, rng.word() & 31]);
    if [4, 6, 8].contains(&shape.kind) && rng.one_in(3) {
        shape.entries = [entry(8), entry(9), None];
    }
    if rng.one_in(12) {
        shape.entries[rng.len(3)] = entry(rng.below(11) as u8);
    }
    if rng.one_in(24) {
        shape.addresses[rng.len(3)] = rng.next();
    }
    shape
}

/// A list of hints over one image, that mostly work. Some share words.
fn good_list(rng: &mut Rng) -> Case {
    let base = rng.pick(&[BASE, BASE, BASE + 0xff0, 0, 1 << 63, u64::MAX - 0x3ff]);
    let n = rng.pick(&[0, 1, 1, 2, 2, 3, 4, 6]);
    let before = rng.len(12);
    let mut image = rng.bytes(before);
    let (mut list, mut entries): (Vec<HintRecord>, Vec<Reloc>) = (Vec::new(), Vec::new());
    for _ in 0..n {
        let at = image.len() as u32;
        let shape = some_shape(rng, base.wrapping_add(u64::from(at)));
        image.extend(bytes(&shape.words()));
        let mut places = places(&shape.named(), &mut entries);
        let count = word_count(shape.kind);
        for place in &mut places[..count] {
            place.offset += at;
        }
        if let Some(other) = list.last()
            && rng.one_in(2)
        {
            // A word of the hint before, at its own place.
            let from = other.places[rng.len(other.words as usize)];
            places[rng.len(count)] = from;
        }
        let object = rng.pick(&[0, 0, 1, 1, 2, u32::MAX]);
        list.push(HintRecord {
            kind: shape.kind,
            words: count as u8,
            ignored: rng.word() as u16,
            object,
            places,
            ..HintRecord::default()
        });
    }
    image.extend(bytes(&[NOP, NOP]));
    for hint in &mut list {
        let named = &mut hint.places[..hint.words as usize];
        let least = named.iter().map(|p| p.offset).min().expect("a place");
        let start = rng.below(u64::from(least) + 1) as u32;
        let end = named.iter().map(|p| p.offset + 4).max().expect("a place");
        let end = end + rng.below(image.len() as u64 - u64::from(end) + 1) as u32;
        named.iter_mut().for_each(|p| p.offset -= start);
        (hint.start, hint.length) = (start, end - start);
    }
    let mut case = Case::new(image, &[], &entries);
    reorder(rng, &mut list);
    case.set_list(&list);
    case
}

/// Objects by rising number, or the list in any order, or as it is.
fn reorder(rng: &mut Rng, list: &mut [HintRecord]) {
    match rng.below(3) {
        0 => list.sort_by_key(|h| h.object),
        1 => {
            for i in (1..list.len()).rev() {
                list.swap(i, rng.len(i + 1));
            }
        }
        _ => {}
    }
}

fn lists(index: u64, world: &World, table: &mut Table) -> Verdict {
    let mut rng = Rng::new("hints/lists", index);
    check(&good_list(&mut rng), world, table).map(|_| ())
}

/// A good list with one to three spots damaged.
fn damaged(index: u64, world: &World, table: &mut Table) -> Verdict {
    let mut rng = Rng::new("hints/damaged", index);
    let mut case = good_list(&mut rng);
    for _ in 0..1 + rng.below(3) {
        match rng.below(8) {
            0..3 => flip(&mut rng, &mut case.hints),
            3 => flip(&mut rng, &mut case.entries),
            4 | 5 => flip(&mut rng, &mut case.image),
            6 => {
                let len = case.image.len();
                case.image.truncate(len - rng.len(len.min(14) + 1));
            }
            _ => {
                let (list, size) = if rng.one_in(2) { (&mut case.hints, 64) } else { (&mut case.entries, 24) };
                list.truncate(list.len().saturating_sub(rng.pick(&[size, size, 1, size - 1])));
            }
        }
    }
    check(&case, world, table).map(|_| ())
}

/// Lists of as many records as are allowed and one more, in memory that is reserved but not there. The first hint
/// is refused by 3, so that no more of them are read.
pub fn long_lists(reserved: &mut [u8]) -> Result<u64, Difference> {
    let most = u32::MAX as usize;
    reserved[..2].copy_from_slice(&[2, 2]);
    for (hints, entries, first) in [(most, 0, 3), (most + 1, 0, 1), (0, most, 0), (0, most + 1, 1), (1, most, 3)] {
        let (hints_len, entries_len) = (64 * hints, 24 * entries);
        let expected = of_lengths(hints_len, entries_len).unwrap_or(first);
        let mut tally = [7; 4];
        let bytes = reserved.as_ptr();
        // SAFETY: the reserved bytes are as many as the lists have; the image is empty.
        let number = unsafe {
            let image = std::ptr::NonNull::<u8>::dangling().as_ptr();
            hauklivo::raw::hauklivo_apply_hints(
                image,
                0,
                bytes,
                hints_len,
                bytes,
                entries_len,
                tally.as_mut_ptr().cast(),
            )
        };
        let tally_due = if expected == 0 { [0; 4] } else { [7; 4] };
        if (number, tally) != (expected, tally_due) {
            return Err(Difference {
                input: format!("apply_hints: {hints} hints, {entries} entries"),
                port: format!("{number}, tally {tally:?}"),
                expected: format!("{expected}, tally {tally_due:?}"),
            });
        }
    }
    reserved[..2].copy_from_slice(&[0, 0]);
    Ok(5)
}
