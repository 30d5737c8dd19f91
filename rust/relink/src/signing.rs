//! How an authenticated pointer is signed, in words.

use hauklivo::{Reloc, ty};

/// The names of the keys, by number.
pub const KEYS: [&str; 4] = ["ia", "ib", "da", "db"];

/// How the pointer of an entry is signed, to stand behind what it points to; nothing for another type.
pub fn signing(entry: &Reloc) -> String {
    if entry.ty != ty::AUTHENTICATED_POINTER {
        return String::new();
    }
    let key = KEYS[usize::from(entry.key % 4)];
    let address = if entry.address_diversity % 2 == 1 { ", address diversity" } else { "" };
    format!(" (key {key}, diversity {}{address})", entry.diversity)
}

#[cfg(test)]
mod tests {
    use super::*;

    #[test]
    fn words() {
        let entry =
            |ty, address_diversity, key| Reloc { ty, diversity: 42, address_diversity, key, ..Reloc::default() };
        let of = |address_diversity, key| signing(&entry(ty::AUTHENTICATED_POINTER, address_diversity, key));
        assert_eq!(of(1, 0), " (key ia, diversity 42, address diversity)");
        assert_eq!(
            [1, 2, 3].map(|key| of(0, key)),
            ["ib", "da", "db"].map(|key| format!(" (key {key}, diversity 42)"))
        );
        assert_eq!(signing(&entry(ty::UNSIGNED, 1, 0)), "");
    }
}
