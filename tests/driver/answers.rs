//! The lists of answers that the gate replays (crates/replay_reader, replay_fixup, replay_hints): cases chosen so that
//! each row of the table is covered, and each row of docs/DIFFERENCES.md, each with what is expected of it. Left out are
//! cases whose answer is modelled, by the driver's own rule, those of authenticated pointers, and the rows that only
//! they reach. And a list of every case, for tests/arm.
//!
//! A list is a chain of records of 16 bytes and a body. A record is: what it is (u8), the answer's number (u8), the
//! body's length (u16), and six values (u16). Numbers are little-endian.
//!
//! - 0, a title. Body: a row's name; the answers before it, back to the last title, were chosen for that row.
//! - 1, read_relocs. Values: bytes of contents, bytes of records, sections, bytes of slots, entries filled. Body: contents,
//!   records, sections (u64), entries.
//! - 2, apply_reloc_alloc. Values: bytes of the section, of entries, of targets, of slots, reports filled. Body: base,
//!   thread-local start and image base (u64), section, entries, targets, section after, reports.
//! - 3, write_stub. Values: bytes lent, whether ADRP reaches. Body: address and pointer (u64), bytes after.
//! - 4, write_thunk. Values: bytes lent, 1. Body: address and target (u64), bytes after.
//! - 5, apply_hints. Values: bytes of the image, of hints, of entries. Body: tally (four u32), image, hints, entries, image
//!   after.
//! - 6, load_store_class. The number is the entry of the table. Body: the word (u32).
//! - 7, read_hints. Values: bytes of the payload, slots, slots filled. Body: payload, row (u64).
//! - 8, write_hints. Values: length of the row, bytes lent, bytes filled. Body: row (u64), bytes.
//! - 9, read_relocs_x86_64. Values as of 1. Body: contents, records, sections (u64), the section's own address (u64),
//!   entries.
//! - 10, apply_hints_listed. Values as of 5, then bytes of slots, rule records filled. Body as of 5, then the rule records.
//!
//! Only the list of every case has records of 6, 7, 8 and 10; the lists that crates replay have none.
//!
//! After a refusal the bytes are those before it and the tally is zeros, which nobody reads. Slots after those filled
//! keep the pattern of `lent.rs`, and so do the bytes of a stub or thunk that is refused.

use std::fs;
use std::io::{self, Write};
use std::path::Path;

use crate::rows::blocks;
use crate::run::Group;
use crate::table::Table;
use crate::{Difference, World};

/// The calls by their number in a list.
pub const READ: u8 = 1;
pub const FIX: u8 = 2;
pub const STUB: u8 = 3;
pub const THUNK: u8 = 4;
pub const HINTS: u8 = 5;
pub const CLASS: u8 = 6;
pub const READ_HINTS: u8 = 7;
pub const WRITE_HINTS: u8 = 8;
pub const READ_X86_64: u8 = 9;
pub const LISTED: u8 = 10;

const FILES: [(&str, &[u8]); 3] =
    [("replay_reader", &[READ, READ_X86_64]), ("replay_fixup", &[FIX, STUB, THUNK]), ("replay_hints", &[HINTS])];

/// How often each cell of the table is covered, how many cells of a block that is shown as one line, how many cases
/// of each group beside those, and the most bytes that an answer has.
const EACH: u32 = 3;
const OF_LINE: usize = 96;
const OF_GROUP: u64 = 48;
const LONGEST: usize = 1000;

/// A record and its body, or nothing where a length has more than 16 bits.
pub fn record(what: u8, number: u8, values: &[usize], parts: &[&[u8]]) -> Vec<u8> {
    let body = parts.concat();
    let mut bytes = vec![what, number];
    let mut all = [0; 7];
    all[0] = body.len();
    all[1..=values.len()].copy_from_slice(values);
    if all.iter().any(|&n| n >= 1 << 16) {
        return Vec::new();
    }
    bytes.extend(all.iter().flat_map(|&n| (n as u16).to_le_bytes()));
    bytes.extend(body);
    bytes
}

/// Whether a cell is still to be covered.
fn is_wanted(table: &Table, kept: &[Vec<u32>], (block, cell): (usize, usize)) -> bool {
    let (cells, is_line) = (kept[block].len(), table.blocks()[block].condensed);
    match is_line {
        _ if !table.blocks()[block].is_replayed => false,
        true => cell % cells.div_ceil(OF_LINE) == 0 && kept[block][cell] == 0,
        false => kept[block][cell] < EACH,
    }
}

/// The cells that must be reached and that no answer covers, but for those that only cases left out have reached; of a
/// block that is shown as one line, the line.
fn uncovered(table: &Table, kept: &[Vec<u32>], only_left_out: &[Vec<Option<bool>>]) -> Vec<String> {
    let mut bare = Vec::new();
    for ((block, kept), only_left_out) in table.blocks().iter().zip(kept).zip(only_left_out) {
        if !block.is_replayed {
            continue;
        }
        let columns = block.columns.len();
        let is_required = |cell| (block.required)(cell / columns, cell % columns) && only_left_out[cell] != Some(true);
        let is_bare = |&cell: &usize| kept[cell] == 0 && is_required(cell);
        let cells: Vec<_> = (0..kept.len()).filter(is_bare).collect();
        if !block.condensed {
            bare.extend(cells.iter().map(|cell| format!("{}: {}", block.title, block.rows[cell / columns])));
        } else if cells.len() == kept.len() {
            bare.push(block.title.into());
        }
    }
    bare
}

/// How many answers each row of docs/DIFFERENCES.md has changed so far.
fn changed(world: &World) -> Vec<u64> {
    world.differences.counts().iter().map(|row| row.changed).collect()
}

/// Of how many cases a row held so far whose answers are modelled.
fn modelled(world: &World) -> u64 {
    world.differences.counts().iter().filter(|row| row.is_modelled).map(|row| row.reached).sum()
}

/// A value for each cell of the table.
fn of_cells<T: Clone>(table: &Table, value: T) -> Vec<Vec<T>> {
    table.blocks().iter().map(|b| vec![value.clone(); b.rows.len() * b.columns.len()]).collect()
}

/// The answers of each row, and last those of the cases of each group. The cases are those of a short run, in its order, on
/// one thread.
fn chosen(groups: &[Group], world: &World, table: &mut Table) -> Result<Vec<Vec<Vec<u8>>>, Difference> {
    let (mut kept, mut only_left_out) = (of_cells(table, 0), of_cells(table, None));
    let mut rows: Vec<Vec<Vec<u8>>> = vec![Vec::new(); kept.len() + 1];
    let mut shown: Vec<_> = world.differences.counts().iter().map(|row| row.is_modelled).collect();
    for group in groups {
        let count = group.count(true);
        for i in 0..count {
            let (before, modelled_before) = (changed(world), modelled(world));
            group.verdict(group.index(i, true), world, table)?;
            let note = table.take_note();
            let is_modelled = modelled(world) > modelled_before;
            for &(block, cell) in &note.cells {
                let only: &mut Option<bool> = &mut only_left_out[block][cell];
                *only = Some(is_modelled && only.unwrap_or(true));
            }
            let wanted = note.cells.iter().copied().find(|&cell| is_wanted(table, &kept, cell));
            let row = wanted.map(|cell| cell.0).or((i % count.div_ceil(OF_GROUP) == 0).then_some(kept.len()));
            let fitting: Vec<_> = note.answers.into_iter().filter(|a| (16..=LONGEST).contains(&a.len())).collect();
            if let Some(row) = row
                && !fitting.is_empty()
                && !is_modelled
            {
                rows[row].extend(fitting);
                note.cells.iter().for_each(|&(block, cell)| kept[block][cell] += 1);
                let differs = before.iter().zip(changed(world)).map(|(&then, now)| now > then);
                shown.iter_mut().zip(differs).for_each(|(shown, differs)| *shown |= differs);
            }
        }
    }
    let mut bare = uncovered(table, &kept, &only_left_out);
    let counts = world.differences.counts();
    bare.extend(counts.iter().zip(shown).filter(|row| !row.1).map(|row| row.0.name.into()));
    assert!(bare.is_empty(), "rows that no answer covers: {bare:?}");
    Ok(rows)
}

/// Writes each list to `data/answers` of its crate below a folder, and to the crate's file `stdout` what a replay of it
/// writes.
pub fn write(groups: &[Group], world: &World, folder: &Path) -> Result<(), Difference> {
    let mut table = Table::noting(blocks());
    let rows = chosen(groups, world, &mut table)?;
    for (name, calls) in FILES {
        let (mut written, mut total) = (String::new(), 0);
        let titles = table.blocks().iter().map(|b| b.title).chain(["Some of each group of cases"]);
        let mut list = Vec::new();
        for (title, answers) in titles.zip(&rows) {
            let own: Vec<_> = answers.iter().filter(|a| calls.contains(&a[0])).collect();
            if !own.is_empty() {
                list.extend(own.iter().copied().flatten());
                list.extend(record(0, 0, &[], &[title.as_bytes()]));
                written += &format!("{title}: {}\n", own.len());
                total += own.len();
            }
        }
        written += &format!("{total} answers, 0 differences\n");
        let own = folder.join(name);
        fs::write(own.join("data/answers"), list).expect("the folder can be written");
        fs::write(own.join("stdout"), written).expect("the folder can be written");
    }
    Ok(())
}

/// Writes the answers of every case of a run as one list without titles, in the run's order, two for a hint run, and says
/// how many there are and how many did not fit.
pub fn write_every(groups: &[Group], short: bool, world: &World, out: &mut impl Write) -> Result<(), Difference> {
    let mut table = Table::noting(blocks());
    let (mut written, mut left_out) = (0_u64, 0_u64);
    for group in groups {
        for i in 0..group.count(short) {
            group.verdict(group.index(i, short), world, &mut table)?;
            for answer in table.take_note().answers {
                match answer.is_empty() {
                    true => left_out += 1,
                    false => written += 1,
                }
                out.write_all(&answer).map_err(unwritten)?;
            }
        }
    }
    out.flush().map_err(unwritten)?;
    eprintln!("{written} answers written, {left_out} left out");
    Ok(())
}

fn unwritten(error: io::Error) -> Difference {
    Difference {
        input: "the list of answers".into(),
        port: error.to_string(),
        expected: "that it can be written".into(),
    }
}
