//! The header and the load commands, which say where everything else is.

use hauklivo::{MachRel, Record};

use super::bytes::{File, name, u32_at, u64_at};
use super::symbols::Table;
use super::{MOST, Machine, Section, too_many};
use crate::Fault;

const MAGIC_64: u32 = 0xfeed_facf;
const CPU_TYPE_ARM64: u32 = 0x0100_000c;
const CPU_TYPE_X86_64: u32 = 0x0100_0007;
const FILE_TYPE_OBJECT: u32 = 1;

const HEADER: u64 = 32;
const LC_SYMTAB: u32 = 0x2;
const LC_SEGMENT_64: u32 = 0x19;
const LC_LINKER_OPTIMIZATION_HINT: u32 = 0x2e;

/// Bytes of a segment command before its sections, and of each section header.
const SEGMENT: usize = 72;
const SECTION: usize = 80;

/// The largest alignment of a section, as log2.
const MOST_ALIGN: u32 = 15;

/// What the load commands say.
#[derive(Default)]
pub struct Parts<'a> {
    headers: Vec<&'a [u8]>,
    pub symbols: Option<Table>,
    /// Offset and size of the list of hints.
    pub hints: Option<(u64, u64)>,
}

/// The machine that a header names.
fn machine(header: &[u8]) -> Result<Machine, Fault> {
    match u32_at(header, 4) {
        CPU_TYPE_ARM64 => Ok(Machine::Arm64),
        CPU_TYPE_X86_64 => Ok(Machine::X86_64),
        cpu => Err(Fault::new(format!("this file is for another processor than arm64 or x86_64 (cpu type {cpu:#x})"))),
    }
}

/// Reads the header and the load commands.
pub fn read(file: File) -> Result<(Machine, Parts), Fault> {
    if file.0.len() < 4 || u32_at(file.0, 0) != MAGIC_64 {
        let universal = file.0.starts_with(&[0xca, 0xfe, 0xba, 0xbe]);
        let first = if universal { " but a universal one: take the part of one machine out first" } else { "" };
        return Err(Fault::new(format!("this is no 64-bit Mach-O file{first}")));
    }
    let header = file.range(0, HEADER, "the header")?;
    let machine = machine(header)?;
    if u32_at(header, 12) != FILE_TYPE_OBJECT {
        let ty = u32_at(header, 12);
        return Err(Fault::new(format!("this Mach-O file is no object file (file type {ty})")));
    }
    let mut rest = file.range(HEADER, u32_at(header, 20).into(), "the list of load commands")?;
    let mut parts = Parts::default();
    for number in 0..u32_at(header, 16) {
        let size = if rest.len() < 8 { 0 } else { u32_at(rest, 4) as usize };
        if size < 8 || size > rest.len() {
            return Err(Fault::new(format!("load command {number} does not fit among the load commands")));
        }
        let (command, after) = rest.split_at(size);
        parts.take(command, number)?;
        rest = after;
    }
    Ok((machine, parts))
}

impl<'a> Parts<'a> {
    fn take(&mut self, command: &'a [u8], number: u32) -> Result<(), Fault> {
        let long = |least: usize| match command.len() >= least {
            true => Ok(()),
            false => Err(Fault::new(format!("load command {number} is too short"))),
        };
        match u32_at(command, 0) {
            LC_SEGMENT_64 => {
                long(SEGMENT)?;
                let count = u32_at(command, 64) as usize;
                let headers = command[SEGMENT..].chunks_exact(SECTION);
                if headers.len() < count {
                    return Err(Fault::new(format!("load command {number} is too short for its {count} sections")));
                }
                self.headers.extend(headers.take(count));
            }
            LC_SYMTAB => {
                long(24)?;
                let [offset, count, names, names_size] = [8, 12, 16, 20].map(|at| u64::from(u32_at(command, at)));
                self.symbols = Some(Table { offset, count, names, names_size });
            }
            LC_LINKER_OPTIMIZATION_HINT => {
                long(16)?;
                self.hints = Some((u32_at(command, 8).into(), u32_at(command, 12).into()));
            }
            _ => {}
        }
        Ok(())
    }

    /// The sections with their bytes and records.
    pub fn sections(&self, file: File<'a>) -> Result<Vec<Section<'a>>, Fault> {
        let mut room = Room { bytes: file.0.len(), records: MOST };
        self.headers.iter().map(|header| section(file, header, &mut room)).collect()
    }
}

/// What sections may hold, together not more than the file. It is asked before records are copied, so that headers
/// which share one list cannot ask for much.
struct Room {
    bytes: usize,
    records: usize,
}

impl Room {
    /// Takes a section's bytes and records off.
    fn take(&mut self, bytes: usize, records: usize) -> Result<(), Fault> {
        let more = || Fault::new("the sections hold more bytes than the file");
        self.bytes = self.bytes.checked_sub(bytes + 8 * records).ok_or_else(more)?;
        self.records = self.records.checked_sub(records).ok_or_else(|| too_many("relocation records"))?;
        Ok(())
    }
}

fn section<'a>(file: File<'a>, header: &[u8], room: &mut Room) -> Result<Section<'a>, Fault> {
    let name = format!("{},{}", name(&header[16..32]), name(&header[..16]));
    let mut section = Section {
        address: u64_at(header, 32),
        size: u64_at(header, 40),
        align: u32_at(header, 52),
        flags: u32_at(header, 64),
        contents: &[],
        records: Vec::new(),
        name,
    };
    let name = &section.name;
    if section.align > MOST_ALIGN {
        return Err(Fault::new(format!("section {name} asks for alignment 2^{}", section.align)));
    }
    if !section.is_zerofill() {
        let what = format!("section {name}");
        section.contents = file.range(u32_at(header, 48).into(), section.size, &what)?;
    }
    let what = format!("the relocation list of section {name}");
    let size = 8 * u64::from(u32_at(header, 60));
    let records = file.range(u32_at(header, 56).into(), size, &what)?;
    room.take(section.contents.len(), records.len() / 8)?;
    section.records = MachRel::list(records).expect("whole records");
    Ok(section)
}

#[cfg(test)]
mod tests {
    use super::super::kind;
    use super::*;

    #[test]
    fn zerofill_has_no_bytes() {
        let mut header = [0; SECTION];
        let mut room = Room { bytes: 0, records: 0 };
        header[40..48].copy_from_slice(&u64::MAX.to_le_bytes());
        assert!(section(File(&[]), &header, &mut room).is_err());
        header[64] = kind::ZEROFILL as u8;
        assert_eq!(section(File(&[]), &header, &mut room).map(|s| s.contents.len()), Ok(0));
    }
}
