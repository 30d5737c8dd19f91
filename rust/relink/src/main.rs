//! `relink [FILE.o] [--text ADDRESS] [--data ADDRESS] [-o OUT]`, `relink --entries [FILE.o]`

use std::ffi::{OsStr, OsString};
use std::fs::{self, File};
use std::io::{self, Read, Write};
use std::path::{Path, PathBuf};
use std::process::ExitCode;

use relink::{Fault, Object, Options, PORT, entries, entry_listing, link, listing, reports};

/// Which ./relink prints, too, before anything is built.
const USAGE: &str = include_str!("usage.txt");

const EXAMPLE: &[u8] = include_bytes!("../example/thermo.o");

/// The largest file that is read, in bytes.
const LARGEST: u64 = 16 << 20;

/// The exit statuses.
const DONE: u8 = 0;
const FAILED: u8 = 1;
const WRONG_ARGUMENTS: u8 = 2;
const BROKEN: u8 = 3;

/// What the command line asks for.
#[derive(Default)]
struct Asked {
    file: Option<PathBuf>,
    /// Whether entries are listed, and nothing is laid out.
    entries: bool,
    text: Option<u64>,
    data: Option<u64>,
    out: Option<PathBuf>,
}

fn main() -> ExitCode {
    let asked = match arguments(std::env::args_os().skip(1)) {
        Ok(Some(asked)) => asked,
        Ok(None) => return print(USAGE, DONE),
        Err(fault) => {
            eprint!("relink: {fault}\n\n{USAGE}");
            return ExitCode::from(WRONG_ARGUMENTS);
        }
    };
    let name = match &asked.file {
        Some(file) => file.display().to_string(),
        None => "the example, rust/relink/example/thermo.o".into(),
    };
    match work(&name, &asked) {
        Ok((text, 0)) => print(&text, DONE),
        Ok((text, reports)) => {
            let status = print(&text, BROKEN);
            eprintln!("relink: {name}: the link is broken: {reports} in Reports");
            status
        }
        Err(fault) => {
            eprintln!("relink: {name}: {fault}");
            ExitCode::from(FAILED)
        }
    }
}

/// Writes to the standard output; the status where that goes well. A reader that went away is no fault.
fn print(text: &str, status: u8) -> ExitCode {
    match io::stdout().write_all(text.as_bytes()) {
        Err(error) if error.kind() != io::ErrorKind::BrokenPipe => {
            eprintln!("relink: the listing cannot be written: {error}");
            ExitCode::from(FAILED)
        }
        _ => ExitCode::from(status),
    }
}

/// What the arguments ask for; None where it is help.
fn arguments(mut words: impl Iterator<Item = OsString>) -> Result<Option<Asked>, Fault> {
    let mut asked = Asked::default();
    while let Some(word) = words.next() {
        let mut value = || words.next().ok_or_else(|| Fault::new(format!("{} needs a value", plain(&word))));
        match word.to_str() {
            Some("--help" | "-h") => return Ok(None),
            Some("--entries") => asked.entries = true,
            Some("--text") => asked.text = Some(address(&value()?)?),
            Some("--data") => asked.data = Some(address(&value()?)?),
            Some("-o") => asked.out = Some(value()?.into()),
            _ if word.as_encoded_bytes().starts_with(b"-") => {
                return Err(Fault::new(format!("no such option: {}", plain(&word))));
            }
            _ if asked.file.is_some() => return Err(Fault::new("only one file can be given")),
            _ => asked.file = Some(word.into()),
        }
    }
    let lays_out = asked.text.is_some() || asked.data.is_some() || asked.out.is_some();
    match asked.entries && lays_out {
        true => Err(Fault::new("with --entries nothing is laid out: it goes with none of --text, --data and -o")),
        false => Ok(Some(asked)),
    }
}

/// An argument as text, whatever its bytes.
fn plain(word: &OsStr) -> String {
    word.to_string_lossy().into_owned()
}

/// A number, hexadecimal after 0x.
fn address(word: &OsStr) -> Result<u64, Fault> {
    let text = plain(word);
    let (digits, radix) = match text.strip_prefix("0x") {
        Some(digits) => (digits, 16),
        None => (&*text, 10),
    };
    let number = u64::from_str_radix(digits, radix).ok().filter(|_| !digits.starts_with('+'));
    number.ok_or_else(|| Fault::new(format!("{text} is no address (for example 0x100004000)")))
}

/// The listing, and how many reports it has.
fn work(name: &str, asked: &Asked) -> Result<(String, usize), Fault> {
    let bytes = match &asked.file {
        Some(file) => read(file).map_err(|error| Fault::new(format!("it cannot be read: {error}")))?,
        None => EXAMPLE.to_vec(),
    };
    if bytes.len() as u64 > LARGEST {
        return Err(Fault::new("it is larger than 16 MiB"));
    }
    let object = Object::parse(&bytes)?;
    if asked.entries {
        let listing = entry_listing(&object, &entries(&object, &PORT)?)?;
        return Ok((format!("{name}\n\n{listing}"), 0));
    }
    let text = asked.text.unwrap_or(Options::default().text);
    let linked = link(&object, &Options { text, data: asked.data, ..Options::default() }, &PORT)?;
    if let Some(out) = &asked.out {
        let fault = |error| Fault::new(format!("{} cannot be written: {error}", out.display()));
        fs::write(out, &linked.image).map_err(fault)?;
    }
    Ok((format!("{name}\n\n{}", listing(&object, &linked)), reports(&object, &linked).len()))
}

/// A file's bytes, at most one more than the largest that is read.
fn read(file: &Path) -> io::Result<Vec<u8>> {
    let mut bytes = Vec::new();
    File::open(file)?.take(LARGEST + 1).read_to_end(&mut bytes)?;
    Ok(bytes)
}
