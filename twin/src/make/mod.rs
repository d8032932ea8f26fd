//! Making cases: each kind from its own part, all from one seed.

mod drafts;
mod faults;
mod forms;
mod growth;
mod libraries;
mod limits;
mod merge_limits;
mod merges;
mod packing;
mod random;
mod spoil;
mod texts;

use std::io::{self, Write};

use crate::cases::Case;
use crate::compile::{write, LINE_BYTES};
use crate::library::Library;
use crate::refusal::Number;
use drafts::Draft;
pub use faults::write_cases as write_faults;
pub use libraries::{any as any_library, made_by, EXAMPLE};
pub use limits::count as limit_cases;
pub use merges::{pair as two_libraries, streams as two_streams};
pub use random::Random;

/// What cases are wanted.
#[derive(Clone, Copy, Debug, PartialEq, Eq)]
pub enum Sort {
    Mix,
    Words,
    Forms,
    Lines,
    Check,
    Run,
    Compile,
    Merge,
    Limits,
}

impl Sort {
    pub fn of_name(name: &str) -> Option<Sort> {
        match name {
            "words" => Some(Sort::Words),
            "forms" => Some(Sort::Forms),
            "lines" => Some(Sort::Lines),
            "check" => Some(Sort::Check),
            "run" => Some(Sort::Run),
            "compile" => Some(Sort::Compile),
            "merge" => Some(Sort::Merge),
            "limits" => Some(Sort::Limits),
            _ => None,
        }
    }
}

/// Writes `count` cases. The limits are a list, gone through again and again.
pub fn write_cases(seed: u64, count: usize, sort: Sort, out: &mut impl Write) -> io::Result<()> {
    let mut random = Random::new(seed);
    for index in 0..count {
        case(&mut random, index, sort).write(out)?;
    }
    Ok(())
}

/// The case at an index; kinds that go through a list go by the index.
pub fn case(random: &mut Random, index: usize, sort: Sort) -> Case {
    match sort {
        Sort::Words => packing::case(random, index),
        Sort::Forms => forms::line_case(random, index),
        Sort::Lines => forms::case(random, index),
        Sort::Check => check_case(random, index),
        Sort::Run => run_case(random),
        Sort::Compile => compile_case(random),
        Sort::Merge => merges::case(random, index),
        Sort::Limits => limits::case(index),
        Sort::Mix => {
            let sort = match random.below(100) {
                0..=12 => Sort::Words,
                13..=16 => Sort::Forms,
                17..=31 => Sort::Lines,
                32..=48 => Sort::Check,
                49..=76 => Sort::Run,
                77..=91 => Sort::Compile,
                _ => Sort::Merge,
            };
            let index = random.below(1 << 20);
            case(random, index, sort)
        }
    }
}

/// A stream of sets that a library accepts, and their names.
pub fn sets(random: &mut Random, library: &Library) -> (Vec<u8>, Vec<Vec<u8>>) {
    loop {
        let mut draft = Draft::new(library.clone());
        let names = (0..random.within(1, 4)).map(|_| draft.good_set(random)).collect();
        if draft.refused.is_none() {
            return (draft.stream, names);
        }
    }
}

/// Every second image is spoiled.
fn check_case(random: &mut Random, index: usize) -> Case {
    if index % 2 == 0 {
        Case::check(&libraries::any(random).image())
    } else {
        let library = libraries::with_cards(random);
        Case::check(&spoil::spoiled(random, &library))
    }
}

fn run_case(random: &mut Random) -> Case {
    match random.below(100) {
        0..=11 => run_on_spoiled(random),
        12..=17 => run_without_room(random),
        18..=46 => run_refused(random),
        47..=50 => run_of_changed_stream(random),
        _ => run_accepted(random),
    }
}

fn run_on_spoiled(random: &mut Random) -> Case {
    let library = libraries::with_cards(random);
    let image = spoil::spoiled(random, &library);
    let mut draft = Draft::new(library);
    let lines = random.below(4);
    draft.good_lines(random, lines);
    Case::run(&image, &draft.stream(random), image.len() + random.below(20))
}

/// A library, and a draft of lines that it accepts.
fn accepted_draft(random: &mut Random) -> (Library, Draft) {
    loop {
        let library = libraries::any(random);
        let mut draft = Draft::new(library.clone());
        let lines = if random.chance(5) { 0 } else { random.within(1, 14) };
        draft.good_lines(random, lines);
        if draft.refused.is_none() {
            return (library, draft);
        }
    }
}

fn run_accepted(random: &mut Random) -> Case {
    let (library, draft) = accepted_draft(random);
    let length = draft.run.library.length();
    let room = if random.chance(50) { length } else { length + random.within(1, 20) };
    Case::run(&library.image(), &draft.stream(random), room)
}

/// 32: a space one word short, or shorter.
fn run_without_room(random: &mut Random) -> Case {
    let (library, draft) = accepted_draft(random);
    let length = draft.run.library.length();
    let room = if random.chance(60) { length - 1 } else { random.below(length) };
    Case::run(&library.image(), &draft.stream(random), room)
}

/// 20 to 30, each as often; lines after the refused one are never reached.
fn run_refused(random: &mut Random) -> Case {
    const NUMBERS: [Number; 11] = [
        Number::Character,
        Number::Columns,
        Number::DirectiveForm,
        Number::NotCarried,
        Number::Nowhere,
        Number::KnownName,
        Number::UnknownYank,
        Number::BarredYank,
        Number::NotFound,
        Number::Backwards,
        Number::BarredCard,
    ];
    let library = libraries::any(random);
    let mut draft = Draft::new(library.clone());
    let lines = random.below(8);
    draft.good_lines(random, lines);
    let number = NUMBERS[random.below(NUMBERS.len())];
    draft.wrong_line(random, number);
    if random.chance(30) {
        let number = NUMBERS[random.below(NUMBERS.len())];
        draft.wrong_line(random, number);
    }
    let image = library.image();
    Case::run(&image, &draft.stream(random), random.below(2 * image.len()))
}

/// An accepted stream with a few bytes changed, dropped or put in.
fn run_of_changed_stream(random: &mut Random) -> Case {
    let (library, draft) = accepted_draft(random);
    let mut stream = draft.stream;
    for _ in 0..random.within(1, 3) {
        let at = random.below(stream.len() + 1);
        let byte = if random.chance(20) { 10 } else { crate::text::CHART[random.below(64)] };
        match random.below(3) {
            0 => stream.insert(at, byte),
            1 if at < stream.len() => stream[at] = byte,
            _ if at < stream.len() => drop(stream.remove(at)),
            _ => {}
        }
    }
    Case::run(&library.image(), &stream, library.length() + random.below(60))
}

fn compile_case(random: &mut Random) -> Case {
    match random.below(20) {
        0 => {
            let library = libraries::with_cards(random);
            let image = spoil::spoiled(random, &library);
            Case::compile(&image, random.below(500))
        }
        1..=4 => {
            let library = libraries::any(random);
            compile_of(random, &library)
        }
        _ => {
            let library = libraries::with_calls(random);
            compile_of(random, &library)
        }
    }
}

/// Room for the file's lines exactly, a byte less or more, or any.
fn compile_of(random: &mut Random, library: &Library) -> Case {
    let length = match write(library, usize::MAX) {
        Ok(file) => file.bytes.len(),
        Err(_) => random.below(12) * LINE_BYTES,
    };
    let room = match random.below(10) {
        0..=3 => length,
        4 => length.saturating_sub(1),
        5 | 6 => length + 1,
        7 => length + random.below(200),
        _ => random.below(length + LINE_BYTES),
    };
    Case::compile(&library.image(), room)
}
