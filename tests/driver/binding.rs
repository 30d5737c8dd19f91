//! The oracle's calls as the driver takes them.

use driver::{Access, Acted, FixedUp, HintRun, Oracle, Stop};
use oracle::{Arm64, Words};

pub const ORACLE: Oracle = Oracle {
    read_relocs: |contents, records, sections| {
        oracle::read_relocs(contents, records, sections)
            .map_err(|s| Stop { number: s.reader_number(), text: format!("{s:?}") })
    },
    read_relocs_x86_64: |contents, records, sections, address| {
        oracle::read_relocs_x86_64(contents, records, sections, address)
            .map_err(|s| Stop { number: s.reader_x86_64_number(), text: format!("{s:?}") })
    },
    apply_reloc_alloc: |section, base, tls_begin, entries, targets| {
        oracle::apply_reloc_alloc(section, base, tls_begin, entries, targets)
            .map(|f| FixedUp { reports: f.reports, without_address: f.without_address })
            .map_err(|s| Stop { number: s.fixup_number(), text: format!("{s:?}") })
    },
    apply_hints: |image, hints, entries| {
        let acted = |a: &oracle::Acted| Acted { rule: a.rule as u8, changed: a.changed };
        oracle::apply_hints(image, hints, entries)
            .map(|r| HintRun {
                outcomes: r.outcomes.iter().map(|&o| o as usize).collect(),
                tally: r.tally,
                acted: r.acted.iter().map(acted).collect(),
                words: r.words,
            })
            .map_err(|s| Stop { number: s.hints_number(), text: format!("{s:?}") })
    },
    apply_hints_linked: |image, hints, entries| {
        let done = oracle::apply_hints_linked(image, hints, entries)?;
        Some(done.map_err(|s| Stop { number: s.hints_number(), text: format!("{s:?}") }))
    },
    stub: oracle::stub,
    thunk: oracle::thunk,
    parse_ldst: |word| {
        let a = Arm64::parse_ldst(word)?;
        Some(Access { bytes: a.size, is_store: a.is_store, is_vector: a.is_float, is_ldrsw: a.is_ldrsw })
    },
    read_uleb: |bytes| {
        oracle::read_uleb(bytes).map_err(|s| Stop { number: s.payload_number(), text: format!("{s:?}") })
    },
    encode_uleb: oracle::encode_uleb,
    write_uleb: oracle::write_uleb,
    uleb_size: oracle::uleb_size,
};
