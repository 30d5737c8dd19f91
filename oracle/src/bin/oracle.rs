//! The oracle by lines: a call a line from standard input, its answer a line on standard output.
//! Bytes and numbers are hexadecimal, `-` is no bytes at all; a section list is u64 words.
//!
//!   read CONTENTS RECORDS SECTIONS          entries BYTES
//!   read-x86_64 CONTENTS RECORDS SECTIONS ADDRESS
//!                                           entries BYTES
//!   fix SECTION BASE TLS ENTRIES TARGETS    fixed SECTION REPORTS
//!   hints IMAGE HINTS ENTRIES               image IMAGE OUTCOMES, a letter a hint:
//!                                           r rewritten, s skipped, d declined, 9 turned down
//!   stub ADDRESS POINTER                    stub BYTES reaches|short
//!   thunk ADDRESS TARGET                    thunk BYTES
//!   word WORD                               adrp | add | load N | store N | other
//!   spelt BYTES                             values VALUE.., unsigned LEB128 until the bytes end
//!   value VALUE                             spelt BYTES
//!
//! Where the Rust stops: stop, the number of RULES 3.1, and the Rust's words.

use std::io::{self, BufRead, Write};

use oracle::{Arm64, HintRun, Outcome, Stop, Words};

fn number(field: &str) -> u64 {
    u64::from_str_radix(field, 16).expect("a number")
}

fn bytes(field: &str) -> Vec<u8> {
    let digits = if field == "-" { "" } else { field };
    (0..digits.len()).step_by(2).map(|i| number(&digits[i..i + 2]) as u8).collect()
}

fn hex(bytes: &[u8]) -> String {
    if bytes.is_empty() {
        return "-".into();
    }
    bytes.iter().map(|b| format!("{b:02x}")).collect()
}

fn stopped(number: Option<u8>, stop: &Stop) -> String {
    let number = number.map_or("?".into(), |n| n.to_string());
    let (Stop::Fatal(text)
    | Stop::Index(text)
    | Stop::Slice(text)
    | Stop::Overflow(text)
    | Stop::NoneUnwrap(text)
    | Stop::CutOff(text)
    | Stop::Other(text)) = stop;
    format!("stop {number} {text}")
}

fn addresses(field: &str) -> Vec<u64> {
    bytes(field).chunks_exact(8).map(|s| u64::from_le_bytes(s.try_into().unwrap())).collect()
}

fn entries(read: Result<Vec<u8>, Stop>, number: fn(&Stop) -> Option<u8>) -> String {
    match read {
        Ok(entries) => format!("entries {}", hex(&entries)),
        Err(stop) => stopped(number(&stop), &stop),
    }
}

fn class(insn: u32) -> String {
    if Arm64::is_adrp(insn) {
        "adrp".into()
    } else if Arm64::parse_add(insn).is_some() {
        "add".into()
    } else if let Some(access) = Arm64::parse_ldst(insn) {
        format!("{} {}", if access.is_store { "store" } else { "load" }, access.size)
    } else {
        "other".into()
    }
}

fn outcomes(run: &HintRun) -> String {
    let letter = |o: &Outcome| match o {
        Outcome::Rewritten => 'r',
        Outcome::Skipped => 's',
        Outcome::Declined => 'd',
        Outcome::TurnedDown => '9',
    };
    if run.outcomes.is_empty() { "-".into() } else { run.outcomes.iter().map(letter).collect() }
}

fn values(mut list: &[u8]) -> String {
    let mut line = String::from("values");
    while !list.is_empty() {
        match oracle::read_uleb(&mut list) {
            Ok(n) => line += &format!(" {n:x}"),
            Err(stop) => return stopped(stop.payload_number(), &stop),
        }
    }
    line
}

fn answer(line: &str) -> String {
    let fields: Vec<&str> = line.split_whitespace().collect();
    match fields[..] {
        ["read", contents, records, sections] => {
            let read = oracle::read_relocs(&bytes(contents), &bytes(records), &addresses(sections));
            entries(read, Stop::reader_number)
        }
        ["read-x86_64", contents, records, sections, address] => {
            let (contents, records, sections) = (bytes(contents), bytes(records), addresses(sections));
            let read = oracle::read_relocs_x86_64(&contents, &records, &sections, number(address));
            entries(read, Stop::reader_x86_64_number)
        }
        ["fix", section, base, tls, entries, targets] => {
            let mut section = bytes(section);
            let (entries, targets) = (bytes(entries), bytes(targets));
            match oracle::apply_reloc_alloc(&mut section, number(base), number(tls), &entries, &targets) {
                Ok(fixed) => format!("fixed {} {}", hex(&section), hex(&fixed.reports)),
                Err(stop) => stopped(stop.fixup_number(), &stop),
            }
        }
        ["hints", image, hints, entries] => {
            let mut image = bytes(image);
            match oracle::apply_hints(&mut image, &bytes(hints), &bytes(entries)) {
                Ok(run) => format!("image {} {}", hex(&image), outcomes(&run)),
                Err(stop) => stopped(stop.hints_number(), &stop),
            }
        }
        ["stub", address, pointer] => {
            let (stub, reaches) = oracle::stub(number(address), number(pointer));
            format!("stub {} {}", hex(&stub), if reaches { "reaches" } else { "short" })
        }
        ["thunk", address, target] => {
            format!("thunk {}", hex(&oracle::thunk(number(address), number(target))))
        }
        ["word", insn] => class(number(insn) as u32),
        ["spelt", list] => values(&bytes(list)),
        ["value", n] => {
            let mut spelling = Vec::new();
            oracle::encode_uleb(&mut spelling, number(n));
            format!("spelt {}", hex(&spelling))
        }
        _ => "unknown call".into(),
    }
}

fn main() -> io::Result<()> {
    let mut out = io::BufWriter::new(io::stdout().lock());
    for line in io::stdin().lock().lines() {
        writeln!(out, "{}", answer(&line?))?;
    }
    out.flush()
}
