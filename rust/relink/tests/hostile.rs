//! Damaged copies of the examples: each is linked, its entries are listed, or it is refused in a sentence, and nothing
//! else happens.

use std::fs;
use std::path::PathBuf;
use std::process::Command;

use relink::{Fault, Object, Options, PORT, entries, entry_listing, link, listing};

const EXAMPLE: &[u8] = include_bytes!("../example/thermo.o");
const X86_64: &[u8] = include_bytes!("../example/thermo-x86_64.o");
const ARM64E: &[u8] = include_bytes!("../example/pointers.o");

/// Numbers that are the same in every run.
struct Numbers(u64);

impl Numbers {
    fn next(&mut self) -> u64 {
        self.0 ^= self.0 << 13;
        self.0 ^= self.0 >> 7;
        self.0 ^= self.0 << 17;
        self.0
    }

    fn below(&mut self, limit: usize) -> usize {
        (self.next() % limit as u64) as usize
    }

    /// An example with one to four spots changed: a bit, a byte, or four bytes of a number that
    /// is likely to be taken for an offset or a count.
    fn damaged(&mut self, example: &[u8]) -> Vec<u8> {
        let mut bytes = example.to_vec();
        for _ in 0..=self.below(4) {
            // Half of the spots are in the header and the load commands.
            let end = if self.below(2) == 0 { bytes.len() } else { 0x500.min(bytes.len()) };
            let at = self.below(end);
            match self.below(3) {
                0 => bytes[at] ^= 1 << self.below(8),
                1 => bytes[at] = self.next() as u8,
                _ => {
                    let numbers = [0, 1, 3, 4, 8, bytes.len() as u32, 1 << 31, u32::MAX - 3, u32::MAX];
                    let number = numbers[self.below(numbers.len())].to_le_bytes();
                    let at = (at & !3).min(bytes.len() - 4);
                    bytes[at..at + 4].copy_from_slice(&number);
                }
            }
        }
        bytes
    }
}

/// What a piece of work lists of `bytes`; a refusal says something.
fn worked(bytes: &[u8], work: impl FnOnce(&Object) -> Result<String, Fault>) -> Option<String> {
    let done = Object::parse(bytes).and_then(|object| work(&object));
    done.map_err(|fault| assert!(fault.to_string().len() > 10)).ok()
}

/// Whether `bytes` are linked.
fn links(bytes: &[u8], options: &Options) -> bool {
    let listing = worked(bytes, |object| Ok(listing(object, &link(object, options, &PORT)?)));
    listing.is_some_and(|text| text.starts_with("Layout\n"))
}

/// Whether the entries of `bytes` are listed.
fn lists(bytes: &[u8]) -> bool {
    let listing = worked(bytes, |object| entry_listing(object, &entries(object, &PORT)?));
    listing.is_some_and(|text| text.ends_with(" relocation records.\n"))
}

const LAYOUTS: [Options; 4] = [
    Options { text: 0x1_0000_4000, data: None, debug: false },
    Options { text: 0, data: Some(1 << 33), debug: true },
    Options { text: u64::MAX - 0x2000, data: Some(0), debug: true },
    Options { text: 0x4000, data: Some(u64::MAX - 0x800), debug: true },
];

/// An example is linked in each layout, its beginnings are not, and damaged copies come to either.
fn damaged_links(example: &[u8], layouts: &[Options], cases: usize) {
    for options in layouts {
        assert!(links(example, options));
        let cut = (0..example.len()).filter(|&end| links(&example[..end], options)).count();
        assert!(cut < 16, "only padding can be missing: {cut}");
    }
    let mut numbers = Numbers(0x9e37_79b9_7f4a_7c15);
    let linked = (0..cases).filter(|i| links(&numbers.damaged(example), &layouts[i % layouts.len()])).count();
    assert!(linked > cases / 20 && linked < cases / 20 * 19, "both ends are reached: {linked} of {cases}");
}

#[test]
fn in_this_process() {
    damaged_links(EXAMPLE, &LAYOUTS, 60_000);
}

/// The same of the example for arm64e, in the layouts that have its data within 4 GiB above the image base.
#[test]
fn arm64e_in_this_process() {
    damaged_links(ARM64E, &[LAYOUTS[0], LAYOUTS[2]], 40_000);
    assert!([1, 3].iter().all(|&far| !links(ARM64E, &LAYOUTS[far])));
}

/// The same, of the listing of entries.
#[test]
fn entries_in_this_process() {
    let mut numbers = Numbers(0x2545_f491_4f6c_dd1d);
    for (example, cases) in [(EXAMPLE, 20_000), (ARM64E, 20_000), (X86_64, 60_000)] {
        assert!(lists(example));
        let cut = (0..example.len()).filter(|&end| lists(&example[..end])).count();
        assert!(cut < 16, "only padding can be missing: {cut}");
        let listed = (0..cases).filter(|_| lists(&numbers.damaged(example))).count();
        assert!(listed > cases / 20 && listed < cases / 20 * 19, "both ends are reached: {listed} of {cases}");
    }
}

/// An object with one segment of `headers` sections, which all have the same `count` records, and with `tail` after the
/// load commands.
fn sharing(headers: u32, count: u32, tail: usize) -> Vec<u8> {
    let size = 72 + 80 * headers;
    let mut words = vec![0xfeed_facf_u32, 0x0100_000c, 0, 1, 1, size, 0, 0];
    words.extend([0x19, size]);
    words.extend([0; 14]);
    words.extend([headers, 0]);
    for _ in 0..headers {
        let mut header = [0; 20];
        (header[14], header[15]) = (32 + size, count);
        words.extend(header);
    }
    let mut bytes: Vec<u8> = words.iter().flat_map(|w| w.to_le_bytes()).collect();
    bytes.resize(bytes.len() + tail, 0);
    bytes
}

/// Many headers over one list of records would hold some 7 GB.
#[test]
fn one_list_for_many_sections() {
    let most = |headers, count, tail| Object::parse(&sharing(headers, count, tail)).map(|o| o.sections.len());
    assert_eq!(most(2, 100, 800), Err(Fault::new("the sections hold more bytes than the file")));
    assert_eq!(most(1, 100, 800), Ok(1));
    assert_eq!(most(10_000, 90_000, 720_000), Err(Fault::new("the sections hold more bytes than the file")));
    assert_eq!(most(1, 1 << 18, 8 << 18), Ok(1));
    assert_eq!(most(1, 262_145, 9 << 18), Err(Fault::new("there are more than 262144 relocation records")));
}

/// How often the program ends with each status: on an example, on its beginnings, and on 2,000 damaged copies.
fn statuses(example: &[u8], name: &str, options: &[&str]) -> [usize; 4] {
    let file = PathBuf::from(env!("CARGO_TARGET_TMPDIR")).join(name);
    let mut statuses = [0; 4];
    let mut run = |bytes: &[u8]| {
        fs::write(&file, bytes).unwrap();
        let mut command = Command::new(env!("CARGO_BIN_EXE_relink"));
        let done = command.arg(&file).args(options).output().unwrap();
        let status = done.status.code().expect("no signal");
        assert!([0, 1, 3].contains(&status), "{status}: {}", String::from_utf8_lossy(&done.stderr));
        assert_eq!(done.stderr.is_empty(), status == 0);
        assert_eq!(done.stdout.is_empty(), status == 1);
        let has_reports = done.stdout.windows(9).any(|w| w == b"\nReports\n");
        assert_eq!(has_reports, status == 3);
        statuses[status as usize] += 1;
    };
    run(example);
    for end in 0..example.len() {
        run(&example[..end]);
    }
    let mut numbers = Numbers(0x0123_4567_89ab_cdef);
    for _ in 0..2_000 {
        run(&numbers.damaged(example));
    }
    statuses
}

#[test]
fn as_a_program() {
    let out = concat!(env!("CARGO_TARGET_TMPDIR"), "/hostile.out");
    let statuses = statuses(EXAMPLE, "hostile.o", &["-o", out]);
    assert!([0, 1, 3].iter().all(|&status| statuses[status] > 30), "{statuses:?}");
}

#[test]
fn arm64e_as_a_program() {
    let statuses = statuses(ARM64E, "hostile-arm64e.o", &[]);
    assert!(statuses[0] > 30 && statuses[1] > 30, "{statuses:?}");
}

#[test]
fn entries_as_a_program() {
    let statuses = statuses(X86_64, "hostile-x86_64.o", &["--entries"]);
    assert!(statuses[0] > 30 && statuses[1] > 30 && statuses[3] == 0, "{statuses:?}");
}
