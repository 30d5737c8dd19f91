//! Times the port, the unchanged Rust and a plain copy on the same inputs.
//!
//!   bench times [CASE ..]           a line for each case, size and side: case, size, side, calls, median and least
//!                                   nanoseconds of a call, bytes of a copy
//!   bench once CASE SIZE SIDE       one call, in the function `bench_timed`, for callgrind

mod clock;
mod hints;
mod jobs;
mod payload;
mod records;
mod records_x86_64;
#[allow(dead_code)]
#[path = "../../tests/driver/rng.rs"]
mod rng;

use std::collections::BTreeMap;

use hauklivo::{HintRecord, MachRel, Record, Reloc, Resolved, RuleRecord};
use hints::{Objects, Sequences};
use jobs::{Copy, Fill, Job, PortFix, RustFix};
use payload::Payload;
use records::Table;

type Sides<'a> = Vec<(&'static str, Box<dyn Job + 'a>)>;

const SIZES: [usize; 4] = [1_000, 10_000, 100_000, 1_000_000];
const SWEEPS: usize = 5;
const CASES: [(&str, usize); 9] = [
    ("read", 4),
    ("read, x86_64", 4),
    ("fix", 4),
    ("hints", 4),
    ("hints, many objects", 4),
    ("hints, falling objects", 2),
    ("hints, listed", 4),
    ("payload, read", 4),
    ("payload, written", 4),
];

#[unsafe(no_mangle)]
#[inline(never)]
fn bench_timed(job: &mut dyn Job) {
    job.run();
}

/// Makes the inputs of a case and hands its sides to `then`, with the bytes that the copy moves.
fn with_sides(case: &str, size: usize, then: impl FnOnce(Sides, usize)) {
    match case {
        "read" | "read, x86_64" => with_readers(case, size, then),
        "fix" => with_fix_ups(size, then),
        "payload, read" | "payload, written" => {
            let payload = Payload::new(size);
            let bytes = payload.bytes.len() + size_of_val(&payload.row[..]);
            let (port, rust) = match case {
                "payload, read" => (jobs::port_read_hints(&payload), jobs::rust_read_ulebs(&payload)),
                _ => (jobs::port_write_hints(&payload), jobs::rust_encode_ulebs(&payload)),
            };
            then(vec![("port", port), ("rust", rust), ("copy", Box::new(Copy::new(bytes)))], bytes);
        }
        _ => with_hints(case, size, then),
    }
}

/// A listed run is timed beside the plain one; the Rust has none.
fn with_hints(case: &str, size: usize, then: impl FnOnce(Sides, usize)) {
    let objects = match case {
        "hints" | "hints, listed" => Objects::One,
        "hints, many objects" => Objects::Many,
        _ => Objects::Falling,
    };
    let from = Sequences::new(size, objects);
    let lent = from.image.len() + size * HintRecord::SIZE + from.entries.len() * Reloc::SIZE;
    let (port, other, bytes) = match case {
        "hints, listed" => {
            let plain = ("port, plain", jobs::port_hints(&from));
            (jobs::port_listed(&from), plain, lent + size * RuleRecord::SIZE)
        }
        _ => (jobs::port_hints(&from), ("rust, own run", jobs::rust_run(&from)), lent),
    };
    let copy = Box::new(Copy::new(bytes));
    then(vec![("port", port), ("rust", jobs::rust_rules(&from)), other, ("copy", copy)], bytes);
}

fn with_readers(case: &str, size: usize, then: impl FnOnce(Sides, usize)) {
    let is_arm = case == "read";
    let table = if is_arm { Table::new(size) } else { Table::new_x86_64(size) };
    let bytes = table.contents.len() + size * (MachRel::SIZE + Reloc::SIZE);
    let (port, rust) = match is_arm {
        true => (jobs::port_read(&table), jobs::rust_read(&table)),
        false => (jobs::port_read_x86_64(&table), jobs::rust_read_x86_64(&table)),
    };
    then(vec![("port", port), ("rust", rust), ("copy", Box::new(Copy::new(bytes)))], bytes);
}

fn with_fix_ups(size: usize, then: impl FnOnce(Sides, usize)) {
    let table = Table::new(size + size / 8);
    let (mut entries, mut targets) = records::entries(&table);
    // No SUBTRACTOR may end the list.
    let end = size - usize::from(entries[size - 1].ty == hauklivo::ty::SUBTRACTOR);
    entries.truncate(end);
    targets.truncate(end);
    let symbols = &targets[..size / 4];
    let bytes = table.contents.len() + end * (Reloc::SIZE + Resolved::SIZE);
    let port = Box::new(PortFix::new(&table.contents, &entries, &targets));
    let rust = Box::new(RustFix::new(&table.contents, &entries, &targets));
    let fill = Box::new(Fill::new(&entries, symbols));
    let copy = Box::new(Copy::new(bytes));
    then(vec![("port", port), ("rust", rust), ("copy", copy), ("fill", fill)], bytes);
}

/// The times of a side's calls, and the bytes of a copy.
type Times = BTreeMap<(usize, usize, usize), (&'static str, usize, Vec<u64>)>;

/// Runs the sides of a case by turns, a part of the rounds, and adds their times.
fn time(number: usize, size: usize, all: &mut Times) {
    let case = CASES[number].0;
    let rounds = match (case, size) {
        ("hints, falling objects", 10_000) => 2,
        (_, 1_000_000) => 5,
        _ => 800_000 / size.max(4_000) + 1,
    };
    with_sides(case, size, |mut sides, bytes| {
        check(case, &mut sides);
        for _ in 0..rounds {
            for (k, (side, job)) in sides.iter_mut().enumerate() {
                job.reset();
                let (_, _, times) = all.entry((number, size, k)).or_insert((side, bytes, Vec::new()));
                times.push(clock::timed(|| bench_timed(&mut **job)));
            }
        }
    });
}

/// All cases in several sweeps, so that a busy spell of the machine falls on each of them; then a line for each side.
fn times(only: &[&str]) {
    let mut all = Times::new();
    for _ in 0..SWEEPS {
        for (number, (case, sizes)) in CASES.iter().enumerate() {
            for size in &SIZES[..*sizes] {
                if only.is_empty() || only.contains(case) {
                    time(number, *size, &mut all);
                }
            }
        }
    }
    for ((number, size, _), (side, bytes, mut times)) in all {
        times.sort();
        let (case, n) = (CASES[number].0, times.len());
        println!("{case}\t{size}\t{side}\t{n}\t{}\t{}\t{bytes}", times[n / 2], times[0]);
    }
}

/// A first round, in which the sides must leave the same bytes.
fn check(case: &str, sides: &mut Sides) {
    let mut results = Vec::new();
    for (_, job) in sides {
        job.reset();
        bench_timed(&mut **job);
        results.push(job.result());
    }
    results.retain(|bytes| !bytes.is_empty());
    assert!(results.len() >= 2 && results.iter().all(|bytes| *bytes == results[0]), "{case}: results differ");
}

fn main() {
    clock::keep_memory();
    let words: Vec<String> = std::env::args().skip(1).collect();
    match words.iter().map(String::as_str).collect::<Vec<_>>()[..] {
        ["times", ref only @ ..] => times(only),
        ["once", case, size, name] => with_sides(case, size.parse().expect("a size"), |sides, _| {
            let (_, mut job) = sides.into_iter().find(|(side, _)| *side == name).expect("a side");
            job.reset();
            bench_timed(&mut *job);
        }),
        _ => panic!("bench times [CASE ..] | bench once CASE SIZE SIDE"),
    }
}
