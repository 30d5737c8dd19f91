//! Real objects: the port against the unchanged Rust, and both against the LLVM tools.

mod authenticated;
#[path = "../driver/binding.rs"]
mod binding;
mod forms;
mod linking;
mod llvm;
mod reading;
mod rust;
mod sample;
mod table;
mod together;

use std::fs;
use std::path::{Path, PathBuf};
use std::process::ExitCode;

use relink::{Machine, Object, PORT, entries};

use authenticated::Pointers;
use forms::Forms;
use linking::LAYOUTS;
use table::Table;
use together::Together;

/// What the objects held and came to.
#[derive(Default)]
struct Run {
    table: Table,
    together: [Together; LAYOUTS.len()],
    forms: Forms,
    pointers: Pointers,
}

fn main() -> ExitCode {
    let (options, files): (Vec<_>, Vec<_>) = std::env::args().skip(1).partition(|word| word == "--show");
    let show_all = !options.is_empty();
    let mut run = Run::default();
    let mut differences = 0;
    for file in files.iter().map(PathBuf::from) {
        let found = object(&file, show_all, &mut run);
        found.iter().for_each(|words| println!("{}: {words}", file.display()));
        differences += found.len();
    }
    for (layout, together) in LAYOUTS.iter().zip(&run.together) {
        let found = together.differences();
        found.iter().for_each(|words| println!("data {}: {words}", layout.name));
        differences += found.len();
    }
    run.table.print();
    run.forms.print();
    run.pointers.print();
    let has_arm64e = files.iter().any(|file| file.contains("/arm64e/"));
    let pointers = if has_arm64e { run.pointers.missing() } else { Vec::new() };
    let lists = [("HINT", run.table.missing()), ("X86_64 RECORD", run.forms.missing()), ("POINTER", pointers)];
    for (what, missing) in &lists {
        missing.iter().for_each(|one| println!("NO {what}: {one}"));
    }
    let missing: usize = lists.iter().map(|(_, missing)| missing.len()).sum();
    println!("{} objects, {differences} differences, {missing} kinds of hint or record missing", files.len());
    match differences == 0 && missing == 0 && !files.is_empty() {
        true => ExitCode::SUCCESS,
        false => ExitCode::FAILURE,
    }
}

/// The differences of one object.
fn object(file: &Path, show_all: bool, run: &mut Run) -> Vec<String> {
    let bytes = fs::read(file).expect("an object");
    let object = match Object::parse(&bytes) {
        Ok(object) => object,
        Err(fault) => return vec![fault.to_string()],
    };
    let mut found = reading::differences(&object, file);
    match object.machine {
        Machine::Arm64 => found.extend(linked(&object, file, show_all, run)),
        Machine::X86_64 => match entries(&object, &PORT) {
            Ok(lists) => run.forms.count(&lists),
            Err(fault) => found.push(fault.to_string()),
        },
    }
    found
}

/// The differences of an object in each layout.
fn linked(object: &Object, file: &Path, show_all: bool, run: &mut Run) -> Vec<String> {
    let mut found = Vec::new();
    for (layout, together) in LAYOUTS.iter().zip(&mut run.together) {
        match linking::compare(object, layout) {
            Ok(None) => run.pointers.far += 1,
            Ok(Some(linked)) => {
                if layout.name == LAYOUTS[0].name {
                    run.pointers.count(&linked);
                }
                run.table.count(object, &linked, layout);
                together.add(&linked);
                sample::show(file, layout.name, &linked, show_all, &mut run.table);
            }
            Err(words) => found.push(format!("data {}: {words}", layout.name)),
        }
    }
    found
}
