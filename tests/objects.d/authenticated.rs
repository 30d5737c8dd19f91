//! Authenticated pointers. The Rust turns their records down as unsupported, so it is asked for all others alone
//! (rust.rs), and what is due of these is computed here: from the bits that a word has by LLVM's assembler.

use std::collections::BTreeMap;

use relink::Linked;
use relink::hauklivo::{Refusal, Reloc, Resolved, flag, ty};
use relink::signing::KEYS;

/// Of a word, from bit `at` on, so many bits.
fn bits(word: u64, at: u32, count: u32) -> u64 {
    word >> at & ((1 << count) - 1)
}

/// The entry of a record's other fields and of the bytes at its place.
pub fn entry(plain: Reloc, contents: &[u8]) -> Result<Reloc, Refusal> {
    let bytes = contents.get(plain.offset as usize..).and_then(|place| place.first_chunk());
    let word = u64::from_le_bytes(*bytes.ok_or(Refusal::Bounds)?);
    match (bits(word, 51, 12), bits(word, 63, 1)) {
        (0, 1) => Ok(Reloc {
            addend: bits(word, 0, 31) as i64 - ((bits(word, 31, 1) as i64) << 31),
            diversity: bits(word, 32, 16) as u16,
            address_diversity: bits(word, 48, 1) as u8,
            key: bits(word, 49, 2) as u8,
            ..plain
        }),
        _ => Err(Refusal::NotAuthenticated),
    }
}

/// The finished word of an entry; None where it is left for dyld.
pub fn word(entry: &Reloc, target: &Resolved, image_base: u64) -> Result<Option<u64>, Refusal> {
    if target.flags & flag::IMPORTED != 0 {
        return Ok(None);
    }
    let distance = i128::from(target.address) + i128::from(entry.addend) - i128::from(image_base);
    let low = u32::try_from(distance).map_err(|_| Refusal::FarFromImage)?;
    let high =
        u64::from(entry.diversity) + 0x1_0000 * u64::from(entry.address_diversity) + 0x2_0000 * u64::from(entry.key);
    Ok(Some(u64::from(low) + (high << 32) + (1 << 63)))
}

/// How the authenticated pointers of the objects are signed, and what they hold.
#[derive(Default)]
pub struct Pointers {
    signed: BTreeMap<(u8, u8), usize>,
    /// Of each of [`ENDS`].
    ends: [usize; ENDS.len()],
    sections: usize,
    /// Links that both refuse by 16.
    pub far: usize,
}

/// What must be met beside every key.
const ENDS: [(&str, fn(&Reloc, &Resolved) -> bool); 6] = [
    ("addend below 0", |entry, _| entry.addend < 0),
    ("addend above 0", |entry, _| entry.addend > 0),
    ("diversity 0", |entry, _| entry.diversity == 0),
    ("diversity 65535", |entry, _| entry.diversity == 65535),
    ("another image's symbol", |_, target| target.flags & flag::IMPORTED != 0),
    ("a symbol of the object", |_, target| target.flags & flag::IMPORTED == 0),
];

impl Pointers {
    /// Counts those of a linked object.
    pub fn count(&mut self, linked: &Linked) {
        for section in &linked.sections {
            let pairs = section.entries.iter().zip(&section.targets);
            let mut own = pairs.filter(|(entry, _)| entry.ty == ty::AUTHENTICATED_POINTER).peekable();
            self.sections += usize::from(own.peek().is_some());
            for (entry, target) in own {
                *self.signed.entry((entry.key, entry.address_diversity)).or_default() += 1;
                for (count, (_, holds)) in self.ends.iter_mut().zip(ENDS) {
                    *count += usize::from(holds(entry, target));
                }
            }
        }
    }

    /// What no object has.
    pub fn missing(&self) -> Vec<String> {
        let forms = (0..8).map(|i| (i / 2, i % 2)).filter(|form| !self.signed.contains_key(form));
        let ends = self.ends.iter().zip(ENDS).filter(|(count, _)| **count == 0).map(|(_, (name, _))| name.into());
        forms.map(words).chain(ends).chain((self.far == 0).then(|| "a link refused by 16".into())).collect()
    }

    pub fn print(&self) {
        println!("authenticated pointers of all arm64e objects");
        self.signed.iter().for_each(|(&form, count)| println!("  {:27} {count:6}", words(form)));
        self.ends.iter().zip(ENDS).for_each(|(count, (name, _))| println!("  {name:27} {count:6}"));
        let pointers: usize = self.signed.values().sum();
        let (sections, far) = (self.sections, self.far);
        println!(
            "{pointers} records, in {sections} sections, that the Rust is not asked for; {far} links refused by 16\n"
        );
    }
}

fn words((key, address_diversity): (u8, u8)) -> String {
    format!("key {}, address diversity {address_diversity}", KEYS[usize::from(key)])
}
