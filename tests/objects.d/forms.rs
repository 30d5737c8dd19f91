//! Which forms of x86_64 records the objects held.

use std::collections::BTreeMap;

use relink::hauklivo::{Reloc, Target};
use relink::{Machine, type_name};

/// Type, size and whether it is of a section.
type Form = (u8, u8, bool);

#[derive(Default)]
pub struct Forms {
    objects: usize,
    entries: BTreeMap<Form, usize>,
}

/// The sizes that each type has, of a symbol and of a section.
const SIZES: [(&[u8], &[u8]); 10] = [
    (&[4, 8], &[4, 8]), // UNSIGNED
    (&[4], &[4]),
    (&[1, 4], &[4]), // BRANCH
    (&[4], &[]),
    (&[4], &[]),
    (&[4, 8], &[]), // SUBTRACTOR
    (&[4], &[4]),
    (&[4], &[4]),
    (&[4], &[4]),
    (&[4], &[]), // TLV
];

/// All forms.
fn forms() -> impl Iterator<Item = Form> {
    let of_type = |(ty, (symbol, section)): (u8, (&'static [u8], &'static [u8]))| {
        let of = move |sizes: &'static [u8], is_section| sizes.iter().map(move |&size| (ty, size, is_section));
        of(symbol, false).chain(of(section, true))
    };
    (0..).zip(SIZES).flat_map(of_type)
}

fn words((ty, size, is_section): Form) -> String {
    let what = if is_section { "section" } else { "symbol" };
    format!("{:10} size {size}, of a {what:7}", type_name(Machine::X86_64, ty))
}

impl Forms {
    /// Counts the entries of an object's sections.
    pub fn count(&mut self, lists: &[Vec<Reloc>]) {
        self.objects += 1;
        for entry in lists.iter().flatten() {
            let form = (entry.ty, entry.size, matches!(entry.target(), Target::Section(_)));
            *self.entries.entry(form).or_default() += 1;
        }
    }

    /// The forms that no object has.
    pub fn missing(&self) -> Vec<String> {
        forms().filter(|form| !self.entries.contains_key(form)).map(words).collect()
    }

    pub fn print(&self) {
        println!("entries of all x86_64 objects");
        self.entries.iter().for_each(|(&form, count)| println!("  {} {count:6}", words(form)));
        let records: usize = self.entries.values().sum();
        let types = (0..10).filter(|ty| self.entries.keys().any(|form| form.0 == *ty)).count();
        let met = forms().filter(|form| self.entries.contains_key(form)).count();
        let (objects, all) = (self.objects, forms().count());
        println!("{objects} x86_64 objects, {records} records, {types} of 10 types, {met} of {all} forms\n");
    }
}
