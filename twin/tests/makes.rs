//! What made cases answer: every number often enough, and the same cases from the same seed.

use std::collections::BTreeMap;

use twin::cases::{cases, Answer, Case, CHECK, COMPILE, COMPRESS, EXPAND, PACK, RUN, UNPACK};
use twin::check::check;
use twin::compile::{LINE_BYTES, MAX_CALLS};
use twin::library::{MAX_CARDS, MAX_DECKS, MAX_NAMES, MAX_WORDS};
use twin::make::{limit_cases, made_by, write_cases, write_faults, Sort, EXAMPLE};
use twin::run::MAX_STREAM;
use twin::words::{field, from_bytes, pack};

const COUNT: usize = 20_000;
const MOST_BYTES: usize = 20_000_000;
const OFTEN: usize = 50;

type Counts = BTreeMap<(u8, u32), usize>;

fn made(sort: Sort, count: usize) -> Vec<u8> {
    let mut file = Vec::new();
    write_cases(1, count, sort, &mut file).expect("written");
    file
}

fn counts(file: &[u8]) -> Counts {
    let mut counts = Counts::new();
    for case in cases(file) {
        *counts.entry((case.op, case.answer().number)).or_insert(0) += 1;
    }
    counts
}

fn often(counts: &Counts, op: u8, numbers: impl IntoIterator<Item = u32>) {
    for number in numbers {
        let count = counts.get(&(op, number)).copied().unwrap_or(0);
        assert!(count >= OFTEN, "op {} number {}: {}", op, number, count);
    }
}

fn two_fifths_accepted(counts: &Counts, op: u8) {
    let all: usize = counts.iter().filter(|((of, _), _)| *of == op).map(|(_, count)| count).sum();
    assert!(counts[&(op, 0)] * 5 >= all * 2, "op {}", op);
}

fn made_and_counted(sort: Sort) -> Counts {
    let file = made(sort, COUNT);
    assert!(file.len() <= MOST_BYTES);
    assert_eq!(cases(&file).count(), COUNT);
    counts(&file)
}

#[test]
fn words() {
    let counts = made_and_counted(Sort::Words);
    often(&counts, PACK, [50, 53]);
    often(&counts, UNPACK, [50, 51, 53]);
    often(&counts, EXPAND, [6]);
    [PACK, UNPACK, COMPRESS, EXPAND].iter().for_each(|&op| two_fifths_accepted(&counts, op));
}

#[test]
fn images() {
    let counts = made_and_counted(Sort::Check);
    often(&counts, CHECK, 1..=10);
    two_fifths_accepted(&counts, CHECK);
}

#[test]
fn runs() {
    let counts = made_and_counted(Sort::Run);
    often(&counts, RUN, (1..=10).chain(20..=30).chain([32]));
    two_fifths_accepted(&counts, RUN);
}

#[test]
fn compiles() {
    let counts = made_and_counted(Sort::Compile);
    often(&counts, COMPILE, [40, 41, 42, 44]);
    two_fifths_accepted(&counts, COMPILE);
}

#[test]
fn lines() {
    let counts = made_and_counted(Sort::Lines);
    often(&counts, RUN, [0, 22, 23, 24, 25, 26, 27, 28, 30]);
    often(&counts, CHECK, [0, 7, 8]);
    often(&counts, COMPILE, [0, 7, 8, 40]);
}

#[test]
fn limits_reach_what_small_cases_do_not() {
    let counts = counts(&made(Sort::Limits, limit_cases()));
    for key in [(CHECK, 1), (CHECK, 3), (CHECK, 5), (RUN, 19), (RUN, 21), (RUN, 31), (RUN, 32), (COMPILE, 42), (COMPILE, 43)] {
        assert!(counts.contains_key(&key), "{:?}", key);
    }
}

/// The gate goes through the list once, by this count.
#[test]
fn limits_are_543() {
    assert_eq!(limit_cases(), 543);
}

#[test]
fn limits_have_both_sides() {
    let file = made(Sort::Limits, limit_cases());
    let answered: Vec<(Case, Answer)> = cases(&file).map(|case| (case.clone(), case.answer())).collect();
    let has = |what: &str, test: &dyn Fn(&Case, &Answer) -> bool| {
        assert!(answered.iter().any(|(case, answer)| test(case, answer)), "{}", what);
    };
    let stream = |case: &Case, bytes: usize| case.op == RUN && case.second.len() == bytes;
    has("262,144 bytes", &|case, answer| stream(case, MAX_STREAM) && answer.number == 0);
    has("262,145 bytes", &|case, answer| stream(case, MAX_STREAM + 1) && answer.number == 19);
    has("262,144 bytes, 16,383 cards", &|case, answer| stream(case, MAX_STREAM) && answer.values[0] > 2 * MAX_CARDS);
    has("262,144 bytes, 16,384 cards", &|case, answer| stream(case, MAX_STREAM) && answer.values[0] == MAX_CARDS + 1);

    for op in [CHECK, RUN, COMPILE] {
        // What a library of some counts answers: no row of the check, or the row.
        let library = |row: u32, counts: &dyn Fn(&[u64]) -> bool| {
            has(&format!("op {} row {}", op, row), &|case, answer| {
                let number = if answer.number > 10 { 0 } else { answer.number };
                case.op == op && number == row && counts(&from_bytes(&case.first))
            })
        };
        let tables = |image: &[u64], high: u32, low: u32| if image.len() < 3 { 0 } else { field(image[1], high, low) as usize };
        let cards = |image: &[u64]| check(image).map_or(0, |library| library.cards.len());
        library(0, &|image| image.len() == MAX_WORDS);
        library(1, &|image| image.len() == MAX_WORDS + 1);
        library(0, &|image| tables(image, 35, 18) == MAX_NAMES);
        library(3, &|image| tables(image, 35, 18) == MAX_NAMES + 1);
        library(0, &|image| tables(image, 17, 0) == MAX_DECKS);
        library(3, &|image| tables(image, 17, 0) == MAX_DECKS + 1);
        library(0, &|image| cards(image) == MAX_CARDS);
        library(5, &|image| image.len() > MAX_CARDS);
    }

    let compiled = |case: &Case, answer: &Answer, number: u32| case.op == COMPILE && answer.number == number;
    has("4,096 calls", &|case, answer| compiled(case, answer, 0) && answer.values[1] == MAX_CALLS);
    has("4,097 calls", &|case, answer| compiled(case, answer, 43));
    has("nested 9 deep", &|case, answer| compiled(case, answer, 42));
    for lines in [1, 2, 3, 10, 100, 1_999] {
        let room = lines * LINE_BYTES;
        let fits = |case: &Case, answer: &Answer| compiled(case, answer, 0) && answer.values[0] == lines;
        has("room for the lines", &|case, answer| fits(case, answer) && case.room as usize == room);
        has("a byte more", &|case, answer| fits(case, answer) && case.room as usize == room + 1);
        has("a byte less", &|case, answer| compiled(case, answer, 44) && case.room as usize == room - 1);
    }
}

#[test]
fn a_seed_gives_the_same_cases() {
    assert_eq!(made(Sort::Mix, 500), made(Sort::Mix, 500));
    assert_eq!(
        made(Sort::Limits, limit_cases() + 1).len() - made(Sort::Limits, limit_cases()).len(),
        made(Sort::Limits, 1).len()
    );
}

/// Bytes in which two packed images of one length differ.
fn different_bytes(one: &[u64], other: &[u64]) -> Vec<usize> {
    let (one, other) = (pack(one), pack(other));
    (0..one.len()).filter(|&at| one[at] != other[at]).collect()
}

#[test]
fn faults_damage_every_copy() {
    const COPIES: usize = 500;
    let library = made_by(EXAMPLE);
    let sound = library.image();
    let mut file = Vec::new();
    write_faults(1, COPIES, &library, &mut file).expect("written");
    let made: Vec<_> = cases(&file).collect();
    assert_eq!(made.len(), 3 * COPIES);
    let (mut changed, mut swapped, mut cut) = (0, 0, 0);
    for copy in made.chunks(3) {
        assert_eq!([copy[0].op, copy[1].op, copy[2].op], [CHECK, RUN, COMPILE]);
        assert!(copy[0].first == copy[1].first && copy[0].first == copy[2].first);
        let image = from_bytes(&copy[0].first);
        if image.len() < sound.len() {
            assert_eq!(image, sound[..image.len()]);
            cut += 1;
        } else {
            match different_bytes(&image, &sound)[..] {
                [_] => changed += 1,
                [first, second] if second == first + 1 => swapped += 1,
                ref more => panic!("{:?}", more),
            }
        }
    }
    assert_eq!((changed, swapped, cut), (2 * COPIES / 5, 2 * COPIES / 5, COPIES / 5));
    let counts = counts(&file);
    for op in [CHECK, RUN, COMPILE] {
        for number in [0, 2, 3, 4, 5, 6, 7] {
            assert!(counts.contains_key(&(op, number)), "op {} number {}", op, number);
        }
    }
}
