//! What made merges meet: every number of either library, every sort of library, common name, limit and room.

use twin::cases::{cases, write_counts, Answer, Case, MERGE};
use twin::check::check;
use twin::library::{Library, FRESH, HEADER_WORDS, MAX_CARDS, MAX_DECKS, MAX_NAMES, MAX_WORDS};
use twin::lines::call;
use twin::make::{limit_cases, write_cases, Sort};
use twin::words::from_bytes;

const COUNT: usize = 20_000;
const MOST_BYTES: usize = 20_000_000;
const OFTEN: usize = 100;

/// The limits of a library, in the order of `Merge::totals`.
const LIMITS: [usize; 4] = [MAX_NAMES, MAX_DECKS, MAX_CARDS, MAX_WORDS];

fn made(sort: Sort, count: usize) -> Vec<u8> {
    let mut file = Vec::new();
    write_cases(1, count, sort, &mut file).expect("written");
    file
}

/// A merge: its answer, and the libraries that are sound.
struct Merge {
    room: usize,
    answer: Answer,
    libraries: [Option<Library>; 2],
}

/// A property of a library.
type Has = fn(&Library) -> bool;

/// A name of both libraries: its place in the second's directory, and whether it is a deck's in each.
type Common = (usize, [bool; 2]);

impl Merge {
    fn of(case: &Case) -> Merge {
        let library = |bytes: &[u8]| check(&from_bytes(bytes)).ok();
        Merge { room: case.room as usize, answer: case.answer(), libraries: [library(&case.first), library(&case.second)] }
    }

    fn both(&self) -> Option<(&Library, &Library)> {
        match &self.libraries {
            [Some(first), Some(second)] => Some((first, second)),
            _ => None,
        }
    }

    fn answers(&self, number: u32, which: usize) -> bool {
        self.answer.number == number && self.answer.values[1] == which
    }

    /// Accepted, and both libraries have something.
    fn accepted_with(&self, property: Has) -> bool {
        self.answer.number == 0 && self.both().map_or(false, |(first, second)| property(first) && property(second))
    }

    /// What sound libraries have together: entries, decks, cards, words.
    fn totals(&self) -> [usize; 4] {
        let counts = |library: &Library| [library.directory.len(), library.decks.len(), library.cards.len(), library.length()];
        self.both().map_or([0; 4], |(first, second)| {
            let (first, second) = (counts(first), counts(second));
            [first[0] + second[0], first[1] + second[1] - 1, first[2] + second[2], first[3] + second[3] - FRESH.len()]
        })
    }

    fn length(&self) -> usize {
        self.totals()[3]
    }

    fn passes_limit(&self) -> bool {
        self.totals().iter().zip(LIMITS).any(|(&total, limit)| total > limit)
    }

    fn has_room(&self) -> bool {
        self.room >= self.length().min(MAX_WORDS)
    }

    fn common(&self) -> Vec<Common> {
        let (first, second) = match self.both() {
            Some(both) => both,
            None => return Vec::new(),
        };
        let deck = |library: &Library, number: u16| library.deck_of(number).is_some();
        let entries = second.directory.iter().enumerate();
        let known = entries.filter_map(|(index, entry)| Some((index, first.number(entry.name?)?)));
        known.map(|(index, number)| (index, [deck(first, number), deck(second, index as u16 + 1)])).collect()
    }
}

type Property = Box<dyn Fn(&Merge) -> bool>;

/// Properties of merges, each with its name and how many of a file must have it.
#[derive(Default)]
struct Wanted(Vec<(String, usize, Property)>);

impl Wanted {
    fn add(&mut self, least: usize, what: impl Into<String>, property: impl Fn(&Merge) -> bool + 'static) {
        self.0.push((what.into(), least, Box::new(property)));
    }

    /// Holds the merges of a file to the properties, and answers how many merges there are.
    fn hold(&self, file: &[u8]) -> usize {
        let mut counts = vec![0; self.0.len()];
        let mut merges = 0;
        for merge in cases(file).filter(|case| case.op == MERGE).map(|case| Merge::of(&case)) {
            merges += 1;
            self.0.iter().zip(&mut counts).for_each(|((_, _, property), count)| *count += usize::from(property(&merge)));
        }
        for ((what, least, _), count) in self.0.iter().zip(counts) {
            assert!(count >= *least, "{}: {}", what, count);
        }
        merges
    }
}

#[test]
fn merges_meet_what_they_are_made_for() {
    let file = made(Sort::Merge, COUNT);
    assert!(file.len() <= MOST_BYTES, "{}", file.len());
    let mut wanted = Wanted::default();
    want_answers(&mut wanted);
    want_libraries(&mut wanted);
    want_common_names(&mut wanted);
    want_limits(&mut wanted);
    want_rooms(&mut wanted);
    assert_eq!(wanted.hold(&file), COUNT);
}

fn want_answers(wanted: &mut Wanted) {
    wanted.add(COUNT * 2 / 5, "accepted", |merge| merge.answer.number == 0);
    for row in 1..=10 {
        for which in [1, 2] {
            wanted.add(OFTEN, format!("{} of {}", row, which), move |merge| merge.answers(row, which));
        }
    }
    for (number, which) in [(37, 2), (31, 0), (32, 0)] {
        wanted.add(2 * OFTEN, number.to_string(), move |merge| merge.answers(number, which));
    }
    wanted.add(OFTEN, "both refused", |merge| merge.libraries.iter().all(Option::is_none));
    wanted.add(OFTEN, "a row without room", |merge| (1..=10).contains(&merge.answer.number) && merge.room == 0);
}

fn is_fresh(library: &Library) -> bool {
    library.length() == FRESH.len()
}

fn has_yanked_yank(library: &Library) -> bool {
    let yanked = library.settle();
    library.decks[0].cards.iter().any(|&card| yanked[usize::from(library.cards[card as usize].owner())])
}

fn want_libraries(wanted: &mut Wanted) {
    let properties: [(&str, Has); 6] = [
        ("cards of YANK$$$", |library| !library.decks[0].cards.is_empty()),
        ("a yanked yank", has_yanked_yank),
        ("a purged entry", |library| library.directory.iter().any(|entry| entry.name.is_none())),
        ("a common deck", |library| library.decks.iter().any(|deck| deck.common)),
        ("a call", |library| library.cards.iter().any(|card| call(&card.line).is_some())),
        ("no deck", |library| library.decks.len() == 1),
    ];
    for (what, property) in properties {
        wanted.add(OFTEN / 2, what, move |merge| merge.accepted_with(property));
    }
    for bytes in 1..=9 {
        wanted.add(OFTEN, format!("{} bytes in the second", bytes), move |merge| {
            let has = |library: &Library| library.cards.iter().any(|card| card.history.len() == bytes);
            merge.answer.number == 0 && merge.both().map_or(false, |(first, second)| !first.directory.is_empty() && has(second))
        });
    }
    for fresh in [[true, false], [false, true], [true, true]] {
        let least = if fresh == [true, true] { 1 } else { OFTEN };
        wanted.add(least, format!("fresh {:?}", fresh), move |merge| {
            merge.both().map_or(false, |(first, second)| [is_fresh(first), is_fresh(second)] == fresh)
        });
    }
}

fn want_common_names(wanted: &mut Wanted) {
    let mut add = |what: &str, property: fn(&Merge, &[Common]) -> bool| {
        wanted.add(OFTEN / 2, what, move |merge| merge.answer.number == 37 && property(merge, &merge.common()));
    };
    fn entries(merge: &Merge) -> usize {
        merge.both().map_or(0, |(_, second)| second.directory.len())
    }
    add("decks of one name", |_, names| names[0].1 == [true, true]);
    add("a deck and a set", |_, names| names[0].1 == [true, false]);
    add("a set and a deck", |_, names| names[0].1 == [false, true]);
    add("sets of one name", |_, names| names[0].1 == [false, false]);
    add("the first of some entries", |merge, names| names[0].0 == 0 && entries(merge) > 1);
    add("the last of some entries", |merge, names| names[0].0 > 0 && names[0].0 + 1 == entries(merge));
    add("an entry between", |merge, names| names[0].0 > 0 && names[0].0 + 1 < entries(merge));
    add("several names", |_, names| names.len() > 1);
    add("37 and 32", |merge, _| !merge.passes_limit() && !merge.has_room());
    add("37 and 31", |merge, _| merge.passes_limit());
}

fn want_limits(wanted: &mut Wanted) {
    for (place, least) in [(0, OFTEN / 2), (1, 10), (2, 1), (3, 1)] {
        let total = move |merge: &Merge, past: usize| merge.totals()[place] == LIMITS[place] + past;
        let reached = move |merge: &Merge| merge.answer.number == 0 && total(merge, 0);
        wanted.add(least, format!("limit {} reached", place), reached);
        let passed = move |merge: &Merge| merge.answer.number == 31 && total(merge, 1);
        wanted.add(least, format!("limit {} passed", place), passed);
    }
}

fn want_rooms(wanted: &mut Wanted) {
    let mut add = |what: &str, number: u32, property: fn(&Merge) -> bool| {
        wanted.add(OFTEN / 2, what, move |merge| merge.answer.number == number && property(merge));
    };
    add("exact room", 0, |merge| merge.room == merge.length());
    add("more room", 0, |merge| merge.room > merge.length());
    add("a word short", 32, |merge| merge.room + 1 == merge.length());
    add("no room", 32, |merge| merge.room == 0);
    add("some room", 32, |merge| merge.room > 0 && merge.room + 1 < merge.length());
    add("31 with room", 31, Merge::has_room);
    add("31 and 32", 31, |merge| !merge.has_room());
}

/// 37 and which library, by what the two directories have in common.
#[test]
fn common_names_answer_their_place() {
    for merge in cases(&made(Sort::Merge, COUNT / 10)).map(|case| Merge::of(&case)) {
        match merge.common().first() {
            Some((index, _)) => assert!(merge.answers(37, 2) && merge.answer.values[0] == HEADER_WORDS + index),
            None => assert_ne!(merge.answer.number, 37),
        }
    }
}

#[test]
fn limits_of_merges_have_both_sides() {
    let mut wanted = Wanted::default();
    for (place, limit) in LIMITS.into_iter().enumerate() {
        let mut add = |what: &str, past: usize, number: u32, property: fn(&Merge) -> bool| {
            wanted.add(1, format!("limit {}: {}", place, what), move |merge| {
                merge.totals()[place] == limit + past && merge.answer.number == number && property(merge)
            });
        };
        add("exact room", 0, 0, |merge| merge.room == merge.length());
        add("a word short", 0, 32, |merge| merge.room + 1 == merge.length());
        add("no room", 0, 32, |merge| merge.room == 0);
        add("passed", 1, 31, Merge::has_room);
        add("passed without room", 1, 31, |merge| merge.room == 0);
        add("passed with a common name", 1, 37, Merge::has_room);
        add("passed with a common name and no room", 1, 37, |merge| merge.room == 0);
        add("a common name and no room", 0, 37, |merge| merge.room == 0);
        add("a fresh first", 0, 0, |merge| merge.both().map_or(false, |(first, _)| is_fresh(first)));
        add("a fresh second", 0, 0, |merge| merge.both().map_or(false, |(_, second)| is_fresh(second)));
    }
    for (number, which) in [(1, 1), (1, 2), (3, 1), (3, 2), (5, 1), (5, 2)] {
        wanted.add(1, format!("{} of {}", number, which), move |merge| merge.answers(number, which));
    }
    assert!(wanted.hold(&made(Sort::Limits, limit_cases())) > 0);
}

#[test]
fn counts_say_which_library() {
    let fresh = |first: usize, second: usize| Case::merge(&FRESH[..first], &FRESH[..second], 3);
    let mut file = Vec::new();
    for case in [fresh(3, 3), fresh(2, 3), fresh(3, 2), fresh(3, 1), Case::check(&FRESH[..2])] {
        case.write(&mut file).expect("written");
    }
    let mut table = Vec::new();
    write_counts(&file, &mut table).expect("written");
    let expected = " 1   1       1\n 9   0       1\n 9   1       1 of 1\n 9   1       2 of 2\n";
    assert_eq!(String::from_utf8(table), Ok(expected.to_string()));
}
