//! Instruction words as text, those that relocations and hints are about.

/// NOP.
const NOP: u32 = 0xd503_201f;

/// The word of four bytes at `at`; None past the end.
pub fn word_at(bytes: &[u8], at: usize) -> Option<u32> {
    let word = bytes.get(at..)?.first_chunk()?;
    Some(u32::from_le_bytes(*word))
}

/// Whether the word is ADR.
fn is_adr(word: u32) -> bool {
    word & 0x9f00_0000 == 0x1000_0000
}

/// Whether the word is a load or store with an unsigned offset.
fn is_access(word: u32) -> bool {
    word & 0x3b00_0000 == 0x3900_0000
}

/// Where B or BL at `address` goes; None for another word.
pub fn branch_target(word: u32, address: u64) -> Option<u64> {
    let is_branch = word & 0x7c00_0000 == 0x1400_0000;
    is_branch.then(|| address.wrapping_add_signed(signed(word & 0x3ff_ffff, 26) << 2))
}

/// The word at `address` as an assembler would have it; ".word" for one of another class.
pub fn text(word: u32, address: u64) -> String {
    let (rd, rn) = (word & 31, word >> 5 & 31);
    if word == NOP {
        "nop".into()
    } else if is_adr(word) {
        format!("adr {}, {:#x}", x(rd), address.wrapping_add_signed(pages(word)))
    } else if word & 0x9f00_0000 == 0x9000_0000 {
        let page = (address & !0xfff).wrapping_add_signed(pages(word) << 12);
        format!("adrp {}, {page:#x}", x(rd))
    } else if word & 0x7fc0_0000 == 0x1100_0000 {
        let is_64 = word >> 31 == 1;
        let sp = if is_64 { "sp" } else { "wsp" };
        let name = |r| if r == 31 { sp.into() } else { general(r, is_64) };
        format!("add {}, {}, #{:#x}", name(rd), name(rn), word >> 10 & 0xfff)
    } else if let Some(to) = branch_target(word, address) {
        let name = if word >> 31 == 1 { "bl" } else { "b" };
        format!("{name} {to:#x}")
    } else if is_access(word) {
        access(word).unwrap_or_else(|| unknown(word))
    } else if word & 0x3b00_0000 == 0x1800_0000 {
        literal(word, address).unwrap_or_else(|| unknown(word))
    } else if word & 0xffe0_0000 == 0xd280_0000 {
        format!("mov {}, #{:#x}", x(rd), word >> 5 & 0xffff)
    } else {
        unknown(word)
    }
}

fn unknown(word: u32) -> String {
    format!(".word {word:#010x}")
}

/// The low `bits` of a word as a signed number.
fn signed(word: u32, bits: u32) -> i64 {
    i64::from((word << (32 - bits)) as i32 >> (32 - bits))
}

/// The immediate of ADR or ADRP: bytes or pages.
fn pages(word: u32) -> i64 {
    signed((word >> 5 & 0x7_ffff) << 2 | word >> 29 & 3, 21)
}

fn general(number: u32, is_64: bool) -> String {
    match (number, is_64) {
        (31, true) => "xzr".into(),
        (31, false) => "wzr".into(),
        (n, true) => format!("x{n}"),
        (n, false) => format!("w{n}"),
    }
}

fn x(number: u32) -> String {
    general(number, true)
}

/// A load or store with an unsigned offset. None for one that the manual leaves unallocated.
fn access(word: u32) -> Option<String> {
    let (rt, rn) = (word & 31, word >> 5 & 31);
    let is_vector = word >> 26 & 1 == 1;
    let (size, opc) = (word >> 30, word >> 22 & 3);
    let (name, register, scale) = if is_vector {
        let scale = match (size, opc) {
            (_, 0 | 1) => size,
            (0, _) => 4,
            _ => return None,
        };
        let name = if opc & 1 == 1 { "ldr" } else { "str" };
        (name, format!("{}{rt}", ["b", "h", "s", "d", "q"][scale as usize]), scale)
    } else {
        let name = match (size, opc) {
            (0, 0) => "strb",
            (0, 1) => "ldrb",
            (0, _) => "ldrsb",
            (1, 0) => "strh",
            (1, 1) => "ldrh",
            (1, _) => "ldrsh",
            (_, 0) => "str",
            (_, 1) => "ldr",
            (2, 2) => "ldrsw",
            _ => return None,
        };
        (name, general(rt, size == 3 || opc == 2), size)
    };
    let base = if rn == 31 { "sp".into() } else { x(rn) };
    Some(match (word >> 10 & 0xfff) << scale {
        0 => format!("{name} {register}, [{base}]"),
        offset => format!("{name} {register}, [{base}, #{offset:#x}]"),
    })
}

/// A literal load at `address`. None for a prefetch or an unallocated one.
fn literal(word: u32, address: u64) -> Option<String> {
    let rt = word & 31;
    let target = address.wrapping_add_signed(signed(word >> 5 & 0x7_ffff, 19) << 2);
    let (name, register) = match (word >> 30, word >> 26 & 1) {
        (0, 0) => ("ldr", general(rt, false)),
        (1, 0) => ("ldr", x(rt)),
        (2, 0) => ("ldrsw", x(rt)),
        (n @ 0..=2, 1) => ("ldr", format!("{}{rt}", ["s", "d", "q"][n as usize])),
        _ => return None,
    };
    Some(format!("{name} {register}, {target:#x}"))
}

#[cfg(test)]
mod tests {
    use super::text;

    #[test]
    fn texts() {
        for (word, expected) in [
            (0xd503201f, "nop"),
            (0xb0000000, "adrp x0, 0x2000"),
            (0xf0ffffe0, "adrp x0, 0x0"),
            (0x10000040, "adr x0, 0x123c"),
            (0x70ffffe1, "adr x1, 0x1233"),
            (0x91000c3f, "add sp, x1, #0x3"),
            (0x11000421, "add w1, w1, #0x1"),
            (0x97ffffff, "bl 0x1230"),
            (0x14000001, "b 0x1238"),
            (0xf9400401, "ldr x1, [x0, #0x8]"),
            (0xb98003e1, "ldrsw x1, [sp]"),
            (0x39c00001, "ldrsb w1, [x0]"),
            (0x3dc00501, "ldr q1, [x8, #0x10]"),
            (0x3d800501, "str q1, [x8, #0x10]"),
            (0xfd400100, "ldr d0, [x8]"),
            (0x58000061, "ldr x1, 0x1240"),
            (0x9c000020, "ldr q0, 0x1238"),
            (0x98000020, "ldrsw x0, 0x1238"),
            (0xd2800000, "mov x0, #0x0"),
            (0xd65f03c0, ".word 0xd65f03c0"),
        ] {
            assert_eq!(text(word, 0x1234), expected, "{word:08x}");
        }
    }
}
