//! An object linked by the port and by the Rust.

use relink::{Fault, Linked, Object, Options, PORT, link};

use crate::rust::RUST;

/// A layout with a name.
pub struct NamedLayout {
    pub name: &'static str,
    options: Options,
}

const TEXT: u64 = 0x1_0000_4000;

const fn layout(name: &'static str, data: u64) -> NamedLayout {
    NamedLayout { name, options: Options { text: TEXT, data: Some(data), debug: true } }
}

/// Data on the next pages, before the text, at the limit of 1 MiB, past it (no ADR and no literal load), past 128 MiB
/// (thunks), and past 4 GiB (out of ADRP's reach).
pub const LAYOUTS: [NamedLayout; 6] = [
    layout("near", TEXT + 0x8000),
    layout("below", TEXT - 0x8_0000),
    layout("at 1 MiB", TEXT + (1 << 20) - 0x80),
    layout("at 16 MiB", TEXT + (1 << 24)),
    layout("at 256 MiB", TEXT + (1 << 28)),
    layout("at 8 GiB", TEXT + (1 << 33)),
];

/// Whether a link is refused by 16: an authenticated pointer's target is too far from the image base.
fn is_far(fault: &Fault) -> bool {
    fault.to_string().contains(": number 16: ")
}

/// The linked object, where the port and the Rust agree on it; None where both refuse it by 16, in the same section.
/// For which entry, is not compared: the words of a fault have the one that the library finds.
pub fn compare(object: &Object, layout: &NamedLayout) -> Result<Option<Linked>, String> {
    let port = link(object, &layout.options, &PORT);
    let rust = link(object, &layout.options, &RUST);
    let (port, rust) = match (port, rust) {
        (Ok(port), Ok(rust)) => (port, rust),
        (Err(port), Err(rust)) if port == rust && is_far(&port) => return Ok(None),
        (port, rust) => {
            let words = |done: Result<Linked, Fault>| match done {
                Ok(_) => "links".into(),
                Err(fault) => fault.to_string(),
            };
            return Err(format!("the port: {}; the Rust: {}", words(port), words(rust)));
        }
    };
    let parts = [
        ("layout", port.layout == rust.layout),
        ("stubs, thunks or GOT", port.before == rust.before && port.far_stubs == rust.far_stubs),
        ("entries or reports", port.sections == rust.sections),
        ("fixed-up bytes", port.fixed == rust.fixed),
        ("hints or tally", port.hints == rust.hints),
        ("finished bytes", port.image == rust.image),
    ];
    let unequal: Vec<_> = parts.iter().filter(|(_, equal)| !equal).map(|(name, _)| *name).collect();
    match unequal[..] {
        [] => Ok(Some(port)),
        _ => Err(format!("port and Rust differ in {}", unequal.join(", "))),
    }
}
