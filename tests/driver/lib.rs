//! The differential run: the port and the unchanged Rust on the same inputs.
//!
//! A group is a numbered family of cases; a case is one call of the port, held against the answer
//! of the Rust on the same input. A hint run is asked for twice, plain and listed. Numbers 1, 2 and 11
//! are about lent lists, which the Rust does not have, and it turns authenticated pointers down: there
//! each module's own model says what is expected.
//! `main.rs` binds the Rust.

mod answers;
mod class;
mod differences;
mod fixup;
mod fixup_authenticated;
mod fixup_groups;
mod hint_calls;
mod hint_groups;
mod hint_listed;
mod hint_register31;
mod hint_shape;
mod hint_steps;
mod hint_unallocated;
mod hint_ways;
mod hints;
mod lent;
mod payload_groups;
mod payload_reader;
mod payload_writer;
mod reader;
mod reader_arm64;
mod reader_authenticated;
mod reader_groups;
mod reader_lists;
mod reader_x86_64;
mod reader_x86_64_groups;
mod rng;
mod rows;
mod run;
mod stub;
mod table;

pub use run::main;

/// A stop of the Rust: the number of RULES 3.1 for it, if it has one, and the Rust's words.
pub struct Stop {
    pub number: Option<u8>,
    pub text: String,
}

/// What the Rust's fix-up leaves beside the section's bytes: reports, and the entries whose target
/// it says has no address.
pub struct FixedUp {
    pub reports: Vec<u8>,
    pub without_address: Vec<u32>,
}

/// The rule that acted on a hint, by its number, and how many places it wrote.
#[derive(Clone, Copy, Debug, PartialEq)]
pub struct Acted {
    pub rule: u8,
    pub changed: u8,
}

/// How a hint run ends: each hint's outcome (0 rewritten, 1 skipped, 2 declined, 3 turned down by 9) and
/// the tally of the four, what was done with each hint, and the words written, in their order.
pub struct HintRun {
    pub outcomes: Vec<usize>,
    pub tally: [u32; 4],
    pub acted: Vec<Acted>,
    pub words: Vec<Written>,
}

/// A word written, after its offset in the image.
pub type Written = (usize, u32);

/// What the Rust takes a load or store to be.
#[derive(Clone, PartialEq, Debug)]
pub struct Access {
    pub bytes: u64,
    pub is_store: bool,
    pub is_vector: bool,
    pub is_ldrsw: bool,
}

/// The calls of the Rust. Lists are whole.
pub struct Oracle {
    pub read_relocs: fn(contents: &[u8], records: &[u8], sections: &[u64]) -> Result<Vec<u8>, Stop>,
    /// `address` is that of the section that has the records.
    pub read_relocs_x86_64:
        fn(contents: &[u8], records: &[u8], sections: &[u64], address: u64) -> Result<Vec<u8>, Stop>,
    pub apply_reloc_alloc:
        fn(section: &mut [u8], base: u64, tls_begin: u64, entries: &[u8], targets: &[u8]) -> Result<FixedUp, Stop>,
    pub apply_hints: fn(image: &mut [u8], hints: &[u8], entries: &[u8]) -> Result<HintRun, Stop>,
    /// The words written in the same run by the Rust's own walk; None where that cannot say it.
    pub apply_hints_linked: fn(image: &mut [u8], hints: &[u8], entries: &[u8]) -> Option<Result<Vec<Written>, Stop>>,
    pub stub: fn(address: u64, pointer: u64) -> ([u8; 12], bool),
    pub thunk: fn(address: u64, target: u64) -> [u8; 12],
    pub parse_ldst: fn(word: u32) -> Option<Access>,
    /// A LEB128 value taken off the front.
    pub read_uleb: fn(bytes: &mut &[u8]) -> Result<u64, Stop>,
    pub encode_uleb: fn(out: &mut Vec<u8>, value: u64),
    pub write_uleb: fn(buf: &mut [u8], value: u64) -> usize,
    pub uleb_size: fn(value: u64) -> usize,
}

/// What a case is judged with: the Rust, and the rows of expected differences.
struct World<'a> {
    oracle: &'a Oracle,
    differences: &'a differences::Differences,
}

/// A case on which the port does not answer as expected.
struct Difference {
    input: String,
    port: String,
    expected: String,
}

/// What is expected of the port: what the Rust does, but for the rows of docs/DIFFERENCES.md.
pub struct Expected<'a> {
    oracle: &'a Oracle,
    differences: differences::Differences,
}

/// What is expected of a hint run.
pub struct ExpectedRun {
    pub number: u8,
    pub tally: [u32; 4],
    /// The rule records of a listed run, in the order of work.
    pub records: Vec<u8>,
    /// Whether the Rust's own walk over the hints can say them, with none turned down by 9, and came to the same as its
    /// rules hint by hint.
    pub by_own_walk: bool,
}

impl<'a> Expected<'a> {
    /// From the text of docs/DIFFERENCES.md.
    pub fn new(oracle: &'a Oracle, document: &str) -> Result<Self, String> {
        Ok(Self { oracle, differences: differences::Differences::read(document)? })
    }

    /// Runs the hints of whole lists, or says what is wrong with the Rust's run.
    pub fn apply_hints(&self, image: &mut [u8], hints: &[u8], entries: &[u8]) -> Result<ExpectedRun, String> {
        let case = hints::Case { image: image.to_vec(), hints: hints.to_vec(), entries: entries.to_vec() };
        let world = World { oracle: self.oracle, differences: &self.differences };
        let wrong = |d: Difference| format!("{}\n  port     {}\n  expected {}", d.input, d.port, d.expected);
        let due = self.differences.hints(&case, &world).map_err(wrong)?;
        image.copy_from_slice(&due.image);
        let records = hint_listed::rule_records(&case, &due);
        Ok(ExpectedRun { number: due.number, tally: due.tally, records, by_own_walk: due.by_own_walk })
    }
}
