//! The commands of the twin; README.md lists them.

use std::io::{self, BufWriter, Read, Write};
use std::process::ExitCode;

use twin::library::{Library, MAX_WORDS};
use twin::run::apply;
use twin::{cases, compile, make, run, words};

const USAGE: &str =
    "usage: twin answer | make SEED COUNT [KIND] | make SEED COPIES faults STREAM.. | count | show | pick K | library | compile_file";

fn main() -> ExitCode {
    let arguments: Vec<String> = std::env::args().skip(1).collect();
    let arguments: Vec<&str> = arguments.iter().map(String::as_str).collect();
    match command(&arguments) {
        Ok(true) => ExitCode::SUCCESS,
        Ok(false) => {
            eprintln!("{}", USAGE);
            ExitCode::from(2)
        }
        Err(error) => {
            eprintln!("twin: {}", error);
            ExitCode::FAILURE
        }
    }
}

/// Does a command; false where the arguments are none.
fn command(arguments: &[&str]) -> io::Result<bool> {
    let mut out = BufWriter::new(io::stdout());
    match arguments {
        ["answer"] => cases::write_answers(&input()?, &mut out)?,
        ["count"] => cases::write_counts(&input()?, &mut out)?,
        ["show"] => cases::write_shown(&input()?, &mut out)?,
        ["library"] => match run::run(&Library::fresh().image(), &input()?, MAX_WORDS) {
            Ok(image) => out.write_all(&words::pack(&image))?,
            Err(refusal) => {
                let why = format!("the stream is refused: {} {}", refusal.number as u32, refusal.place);
                return Err(io::Error::new(io::ErrorKind::InvalidData, why));
            }
        },
        ["compile_file"] => out.write_all(&compile::program(&input()?))?,
        ["pick", place] => match place.parse() {
            Ok(place) => cases::write_picked(&input()?, place, &mut out)?,
            Err(_) => return Ok(false),
        },
        ["make", seed, copies, "faults", streams @ ..] => match (seed.parse(), copies.parse()) {
            (Ok(seed), Ok(copies)) => make::write_faults(seed, copies, &library_of(streams)?, &mut out)?,
            _ => return Ok(false),
        },
        ["make", seed, count, sort @ ..] => match (seed.parse(), count.parse(), sort_of(sort)) {
            (Ok(seed), Ok(count), Some(sort)) => make::write_cases(seed, count, sort, &mut out)?,
            _ => return Ok(false),
        },
        _ => return Ok(false),
    }
    out.flush()?;
    Ok(true)
}

fn sort_of(arguments: &[&str]) -> Option<make::Sort> {
    match arguments {
        [] => Some(make::Sort::Mix),
        [name] => make::Sort::of_name(name),
        _ => None,
    }
}

/// The library that the streams of some files make of the fresh one, one after another.
fn library_of(files: &[&str]) -> io::Result<Library> {
    let mut library = Library::fresh();
    for file in files {
        let refused = |refusal| io::Error::new(io::ErrorKind::InvalidData, format!("{}: {:?}", file, refusal));
        library = apply(library, &std::fs::read(file)?).map_err(refused)?;
    }
    Ok(library)
}

fn input() -> io::Result<Vec<u8>> {
    let mut bytes = Vec::new();
    io::stdin().lock().read_to_end(&mut bytes)?;
    Ok(bytes)
}
