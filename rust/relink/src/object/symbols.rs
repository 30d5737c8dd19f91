//! The symbol table.

use super::bytes::{File, name, u32_at, u64_at};
use super::{MOST, Symbol, SymbolPlace, too_many};
use crate::Fault;

/// Where the symbol table and its names are in the file.
pub struct Table {
    pub offset: u64,
    pub count: u64,
    pub names: u64,
    pub names_size: u64,
}

/// Bytes of a symbol: Apple's nlist_64.
const SYMBOL: usize = 16;

/// Fields of its type byte, and their values.
const STAB: u8 = 0xe0;
const TYPE: u8 = 0x0e;
const UNDEFINED: u8 = 0x0;
const ABSOLUTE: u8 = 0x2;
const SECTION: u8 = 0xe;
const EXTERNAL: u8 = 0x01;
const PRIVATE: u8 = 0x10;

/// Bits of its description.
const WEAK_DEFINITION: u16 = 0x80;

pub fn read(file: File, table: &Table, sections: usize) -> Result<Vec<Symbol>, Fault> {
    let list = file.range(table.offset, SYMBOL as u64 * table.count, "the symbol table")?;
    if list.len() / SYMBOL > MOST {
        return Err(too_many("symbols"));
    }
    let names = file.range(table.names, table.names_size, "the table of names")?;
    list.chunks_exact(SYMBOL).zip(0..).map(|(s, number)| symbol(s, number, names, sections)).collect()
}

fn symbol(bytes: &[u8], number: usize, names: &[u8], sections: usize) -> Result<Symbol, Fault> {
    let (ty, ordinal, value) = (bytes[4], usize::from(bytes[5]), u64_at(bytes, 8));
    let description = u16::from_le_bytes([bytes[6], bytes[7]]);
    let name = match names.get(u32_at(bytes, 0) as usize..) {
        Some(from) => name(from),
        None => return Err(Fault::new(format!("the name of symbol {number} is past the table of names"))),
    };
    let place = match ty & TYPE {
        _ if ty & STAB != 0 => SymbolPlace::Absolute(value),
        SECTION if (1..=sections).contains(&ordinal) => SymbolPlace::Defined { section: ordinal - 1, value },
        SECTION => {
            let words = format!("symbol {number} ({name}) is in section {ordinal} of {sections}");
            return Err(Fault::new(words));
        }
        ABSOLUTE => SymbolPlace::Absolute(value),
        UNDEFINED if value != 0 => SymbolPlace::Common { size: value, align: u32::from(description >> 8 & 0xf) },
        _ => SymbolPlace::Undefined,
    };
    let is_exported = ty & EXTERNAL != 0 && ty & PRIVATE == 0;
    let is_defined = matches!(place, SymbolPlace::Defined { .. });
    let is_weak = is_defined && is_exported && description & WEAK_DEFINITION != 0;
    Ok(Symbol { name, place, is_weak })
}
