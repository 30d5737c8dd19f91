//! The run: groups of cases on two threads, progress while they go, the table at the end.

use std::env;
use std::fs;
use std::io::{BufWriter, IsTerminal, Write, stderr, stdout};
use std::panic::{self, AssertUnwindSafe};
use std::path::Path;
use std::process::ExitCode;
use std::sync::Mutex;
use std::sync::atomic::{AtomicBool, AtomicU64, AtomicUsize, Ordering};
use std::thread;
use std::time::{Duration, Instant};

use crate::differences::Differences;
use crate::reader_arm64::Arm64;
use crate::rows::blocks;
use crate::table::Table;
use crate::{
    Difference, Oracle, World, answers, class, fixup_authenticated, fixup_groups, hint_groups, hint_listed,
    hint_register31, hint_unallocated, payload_groups, reader_authenticated, reader_groups, reader_lists,
    reader_x86_64_groups, stub,
};

pub type Verdict = Result<(), Difference>;

/// A numbered family of cases.
#[derive(Clone)]
pub struct Group {
    name: &'static str,
    cases: u64,
    /// How many of them a short run takes.
    short: u64,
    run: fn(u64, &World, &mut Table) -> Verdict,
}

impl Group {
    pub fn new(name: &'static str, cases: u64, short: u64, run: fn(u64, &World, &mut Table) -> Verdict) -> Self {
        Self { name, cases, short: short.min(cases), run }
    }

    pub fn count(&self, short: bool) -> u64 {
        if short { self.short } else { self.cases }
    }

    /// The i-th case of a run. A short run takes cases that are spread over the group.
    pub fn index(&self, i: u64, short: bool) -> u64 {
        if short && self.short < self.cases { (i * self.stride()) % self.cases } else { i }
    }

    /// A case's verdict; a panic on the way, as of an oracle that is not caught, is a difference.
    pub fn verdict(&self, index: u64, world: &World, table: &mut Table) -> Verdict {
        panic::catch_unwind(AssertUnwindSafe(|| (self.run)(index, world, table))).unwrap_or_else(|_| {
            let (input, port) = (String::from("see the case's number"), String::from("not known"));
            Err(Difference { input, port, expected: "an answer; there was a panic, shown above".into() })
        })
    }

    /// About 0.618 of the cases, and prime to their number.
    fn stride(&self) -> u64 {
        let from = (self.cases as f64 * 0.618_033_988_75) as u64;
        (from.max(1)..).find(|&s| gcd(s, self.cases) == 1).expect("a number prime to another")
    }
}

fn gcd(a: u64, b: u64) -> u64 {
    if b == 0 { a } else { gcd(b, a % b) }
}

struct Options {
    short: bool,
    /// End at the first difference.
    first: bool,
    threads: usize,
    /// One case, by its group and number.
    case: Option<(String, u64)>,
    /// The folder of the crates that replay answers, if their lists are to be made.
    answers: Option<String>,
    /// Whether the answers of all cases go to the standard output, instead of the table.
    every: bool,
    differences: String,
}

const USAGE: &str = "usage: differential [--short] [--first] [--threads N] [--case GROUP:NUMBER] [--answers FOLDER] [--every] \
                     DIFFERENCES.md";

fn options() -> Option<Options> {
    let differences = String::new();
    let mut o =
        Options { short: false, first: false, threads: 2, case: None, answers: None, every: false, differences };
    let mut args = env::args().skip(1);
    while let Some(arg) = args.next() {
        match arg.as_str() {
            "--short" => o.short = true,
            "--first" => o.first = true,
            "--threads" => o.threads = args.next()?.parse().ok()?,
            "--answers" => o.answers = Some(args.next()?),
            "--every" => o.every = true,
            "--case" => {
                let (group, number) = args.next()?.split_once(':').map(|(g, n)| (g.to_string(), n.parse()))?;
                o.case = Some((group, number.ok()?));
            }
            file if o.differences.is_empty() && !file.starts_with('-') => o.differences = file.into(),
            _ => return None,
        }
    }
    (!o.differences.is_empty()).then_some(o)
}

/// What the threads share.
struct Shared<'a> {
    groups: &'a [Group],
    options: &'a Options,
    /// The next piece of work, and how many cases are done.
    next: AtomicUsize,
    done: AtomicU64,
    stop: AtomicBool,
    differences: AtomicU64,
    /// The first differences, with the name and number of their cases.
    found: Mutex<Vec<(String, Difference)>>,
    table: Mutex<Table>,
}

const PIECE: u64 = 2000;
const SHOWN: usize = 10;

/// The pieces of work: a group, and the first case of at most PIECE.
fn pieces(groups: &[Group], short: bool) -> Vec<(usize, u64)> {
    let starts = |n: u64| (0..n).step_by(PIECE as usize);
    groups.iter().enumerate().flat_map(|(g, group)| starts(group.count(short)).map(move |i| (g, i))).collect()
}

fn work(shared: &Shared, pieces: &[(usize, u64)], world: &World) {
    let mut table = Table::new(blocks());
    let short = shared.options.short;
    while let Some(&(g, start)) = pieces.get(shared.next.fetch_add(1, Ordering::Relaxed)) {
        let group = &shared.groups[g];
        let end = (start + PIECE).min(group.count(short));
        for i in start..end {
            if shared.stop.load(Ordering::Relaxed) {
                break;
            }
            let index = group.index(i, short);
            if let Err(difference) = group.verdict(index, world, &mut table) {
                shared.differences.fetch_add(1, Ordering::Relaxed);
                shared.stop.store(shared.options.first, Ordering::Relaxed);
                let mut found = shared.found.lock().unwrap();
                if found.len() < SHOWN {
                    found.push((format!("{}:{index}", group.name), difference));
                }
            }
        }
        shared.done.fetch_add(end - start, Ordering::Relaxed);
    }
    shared.table.lock().unwrap().add(&table);
}

/// Shows how far the run is: over one line on a terminal, else a line every ten seconds.
fn progress(shared: &Shared, pieces: &[(usize, u64)], total: u64, begun: Instant) {
    let terminal = stderr().is_terminal();
    let every = Duration::from_millis(if terminal { 500 } else { 10_000 });
    let mut shown = begun;
    while shared.next.load(Ordering::Relaxed) < pieces.len() + shared.options.threads {
        thread::sleep(Duration::from_millis(50));
        if shown.elapsed() < every {
            continue;
        }
        shown = Instant::now();
        let at = shared.next.load(Ordering::Relaxed).clamp(1, pieces.len()) - 1;
        let name = shared.groups[pieces[at].0].name;
        let done = shared.done.load(Ordering::Relaxed);
        let line = format!("{done:>9} of {total} cases, {:>4} s, {name}", begun.elapsed().as_secs());
        if terminal {
            eprint!("\r{line:<70}");
        } else {
            eprintln!("{line}");
        }
        let _ = stderr().flush();
    }
    if terminal {
        eprint!("\r{:<70}\r", "");
    }
}

fn show(name: &str, d: &Difference) {
    println!("DIFFERENCE in case {name}");
    println!("  {}\n  port     {}\n  expected {}", d.input, d.port, d.expected);
}

/// Memory that is reserved and not there, for lists of as many records as can be counted. Its first page can
/// be written.
fn reserve(len: usize) -> &'static mut [u8] {
    unsafe extern "C" {
        fn mmap(addr: *mut u8, len: usize, prot: i32, flags: i32, fd: i32, offset: i64) -> *mut u8;
        fn mprotect(addr: *mut u8, len: usize, prot: i32) -> i32;
    }
    const PROT_READ: i32 = 1;
    const PROT_READ_WRITE: i32 = 3;
    const PRIVATE_ANONYMOUS_NORESERVE: i32 = 0x2 | 0x20 | 0x4000;
    // SAFETY: a new mapping, never taken back; its bytes read as zero.
    unsafe {
        let start = mmap(std::ptr::null_mut(), len, PROT_READ, PRIVATE_ANONYMOUS_NORESERVE, -1, 0);
        assert!(start as isize != -1, "cannot reserve {len} bytes");
        assert!(mprotect(start, 4096, PROT_READ_WRITE) == 0, "cannot write the first page");
        std::slice::from_raw_parts_mut(start, len)
    }
}

fn long_lists(world: &World) -> Result<u64, Difference> {
    let reserved = reserve(64 << 32);
    let readers = reader_lists::long_lists(&Arm64, reserved)? + reader_x86_64_groups::long_lists(reserved, world)?;
    let others = readers + fixup_groups::long_lists(reserved)?;
    let hints = hint_groups::long_lists(reserved)? + hint_listed::long_lists(reserved, reserve(16 << 32))?;
    Ok(others + hints + payload_groups::long_lists(reserved)?)
}

fn one_case(groups: &[Group], name: &str, number: u64, world: &World) -> ExitCode {
    let Some(group) = groups.iter().find(|g| g.name == name) else {
        eprintln!("no group {name}; there are: {:?}", groups.iter().map(|g| g.name).collect::<Vec<_>>());
        return ExitCode::from(2);
    };
    match group.verdict(number, world, &mut Table::new(blocks())) {
        Ok(()) => {
            println!("case {name}:{number} as expected");
            ExitCode::SUCCESS
        }
        Err(d) => {
            show(&format!("{name}:{number}"), &d);
            ExitCode::FAILURE
        }
    }
}

/// Runs the program over the Rust's calls.
pub fn main(oracle: &Oracle) -> ExitCode {
    let Some(options) = options() else {
        eprintln!("{USAGE}");
        return ExitCode::from(2);
    };
    let read = fs::read_to_string(&options.differences).map_err(|e| e.to_string());
    let differences = match read.and_then(|text| Differences::read(&text)) {
        Ok(differences) => differences,
        Err(error) => {
            eprintln!("{}: {error}", options.differences);
            return ExitCode::from(2);
        }
    };
    let world = World { oracle, differences: &differences };
    let calls = [
        reader_groups::groups,
        reader_authenticated::groups,
        reader_x86_64_groups::groups,
        fixup_groups::groups,
        fixup_authenticated::groups,
        stub::groups,
        hint_groups::groups,
        hint_unallocated::groups,
        hint_register31::groups,
        hint_listed::groups,
        class::groups,
        payload_groups::groups,
    ];
    let groups = calls.map(|groups| groups()).concat();
    if let Some(folder) = &options.answers {
        return made(answers::write(&groups, &world, Path::new(folder)));
    }
    if options.every {
        return made(answers::write_every(&groups, options.short, &world, &mut BufWriter::new(stdout().lock())));
    }
    match &options.case {
        Some((name, number)) => one_case(&groups, name, *number, &world),
        None => run_all(&groups, &options, &world),
    }
}

fn made(lists: Result<(), Difference>) -> ExitCode {
    match lists {
        Ok(()) => ExitCode::SUCCESS,
        Err(d) => {
            show("of the list of answers", &d);
            ExitCode::FAILURE
        }
    }
}

fn run_all(groups: &[Group], options: &Options, world: &World) -> ExitCode {
    let begun = Instant::now();
    let pieces = pieces(groups, options.short);
    let total = groups.iter().map(|g| g.count(options.short)).sum();
    let shared = Shared {
        groups,
        options,
        next: AtomicUsize::new(0),
        done: AtomicU64::new(0),
        stop: AtomicBool::new(false),
        differences: AtomicU64::new(0),
        found: Mutex::new(Vec::new()),
        table: Mutex::new(Table::new(blocks())),
    };
    thread::scope(|scope| {
        for _ in 0..options.threads {
            scope.spawn(|| work(&shared, &pieces, world));
        }
        progress(&shared, &pieces, total, begun);
    });
    let long = long_lists(world);
    finish(shared, long, total, world, begun)
}

/// The table and the verdict.
fn finish(shared: Shared, long: Result<u64, Difference>, total: u64, world: &World, begun: Instant) -> ExitCode {
    let table = shared.table.into_inner().unwrap();
    let mut found = shared.found.into_inner().unwrap();
    let mut differences = shared.differences.into_inner();
    let more = long.unwrap_or_else(|d| {
        found.push(("long lists".into(), d));
        differences += 1;
        0
    });
    found.sort_by(|a, b| a.0.cmp(&b.0));
    let (rows, idle) = world.differences.show();
    let mut empty = table.empty();
    empty.extend(idle);
    print!("{}{rows}", table.show());
    for (name, difference) in &found {
        show(name, difference);
    }
    for name in &empty {
        println!("EMPTY ROW {name}");
    }
    let seconds = begun.elapsed().as_secs_f64();
    println!("{} cases in {seconds:.1} s, {differences} differences, {} empty rows", total + more, empty.len());
    if differences == 0 && empty.is_empty() { ExitCode::SUCCESS } else { ExitCode::FAILURE }
}
