//! Words before and after, as llvm-objdump has them.

use std::path::Path;

use relink::{HintWord, Linked, LinkedHint, Outcome, kind_name};

use crate::llvm::disassembly;
use crate::table::Table;

/// Shows the words of hints that were rewritten, before all hints and after all: of each kind and rewrite the first of the
/// run, or all.
pub fn show(file: &Path, layout: &str, linked: &Linked, all: bool, table: &mut Table) {
    let new = |hint: &&LinkedHint| {
        let is_rewritten = matches!(hint.outcome, Outcome::Rewritten(_));
        is_rewritten && (table.shown.insert((hint.kind, hint.outcome)) || all)
    };
    let hints: Vec<_> = linked.hints.hints.iter().filter(new).collect();
    if hints.is_empty() {
        return;
    }
    let both = |word: &HintWord| [(word.address, word.before), (word.address, word.after)];
    let words: Vec<_> = hints.iter().flat_map(|hint| hint.words.iter().flat_map(both)).collect();
    let texts = disassembly(&words, &file.with_extension("words"));
    let mut shown = words.iter().zip(texts).map(|((_, word), text)| format!("{word:08x} {text}"));
    for hint in hints {
        let name = kind_name(hint.kind).unwrap_or("unknown");
        println!("{}, data {layout}: {name}, {}", file.file_stem().unwrap().display(), hint.outcome.words());
        for word in &hint.words {
            let (before, after) = (shown.next().unwrap(), shown.next().unwrap());
            let by = if word.is_of_another() { ", by another hint" } else { "" };
            println!("  {:x}  {before:40} {after}{by}", word.address);
        }
    }
}
