//! RULES, "The merge": each rule of a merge with its smallest input, and what holds of every pair of libraries.

use twin::cases::{Answer, Case};
use twin::check::check;
use twin::compile::{compile, CompileFile, LINE_BYTES, MAX_CALLS};
use twin::library::{FRESH, HEADER, HEADER_WORDS, MAX_CARDS, MAX_DECKS, MAX_NAMES, MAX_WORDS, PURGED};
use twin::lines::is_deck_line;
use twin::make::{sets, two_libraries, two_streams, Random};
use twin::merge::{merge, Refused, Which};
use twin::refusal::Number;
use twin::run::run;
use twin::text::{expand, CHART};
use twin::words::{bit, field, WORD_END};

const PAIRS: usize = 3_000;
const ANY_ROOM: usize = usize::MAX;

const A: u64 = 0o01000000000000000000;
const B: u64 = 0o02000000000000000000;
const YANK: u64 = 0o31011613535353000000;
/// Counts of one name, and of YANK$$$ alone or with a deck.
const ONE_NAME: u64 = 0o1000001;
const ONE_DECK: u64 = 0o1000002;
/// The head of an active card A.1 with a word of text, and `*DECK A`.
const HEAD: u64 = 0o60000001000001200001;
const DECK_A: u64 = 0o47040503135501000000;

/// The library that a stream, written with `|` for byte 10, makes of the fresh one.
fn library(stream: &str) -> Vec<u64> {
    run(&FRESH, stream.replace('|', "\n").as_bytes(), MAX_WORDS).expect("an accepted stream")
}

fn merged(first: &[u64], second: &[u64]) -> Vec<u64> {
    merge(first, second, MAX_WORDS).expect("an accepted merge")
}

fn refusal(first: &[u64], second: &[u64], room: usize, number: Number, place: usize, which: Which) {
    assert_eq!(merge(first, second, room), Err(Refused::new(number, place, which)));
}

fn octal(words: &[u64]) -> Vec<String> {
    words.iter().map(|word| format!("{:020o}", word)).collect()
}

/// An image of names and purged entries without decks or cards.
fn directory(entries: &[u64]) -> Vec<u64> {
    [&[HEADER, (entries.len() as u64) << 18 | 1], entries, &[YANK]].concat()
}

/// Images that rows 1 to 10 refuse, and their places.
fn refused_images() -> Vec<(Vec<u64>, Number, usize)> {
    vec![
        (vec![], Number::Length, 0),
        (FRESH[..1].to_vec(), Number::Length, 1),
        (FRESH[..2].to_vec(), Number::Length, 2),
        (vec![HEADER, 1, YANK | WORD_END], Number::Length, 2),
        (vec![0; MAX_WORDS + 1], Number::Length, MAX_WORDS),
        (vec![HEADER + 1, 1, YANK], Number::Header, 0),
        (vec![HEADER, 0, YANK], Number::Counts, 1),
        (vec![HEADER, 0o2000001, A, A, YANK], Number::TableName, 3),
        (vec![HEADER, ONE_DECK, A, YANK, B], Number::TableName, 4),
        (vec![HEADER, ONE_NAME, A, YANK, HEAD + 1, A], Number::CardForm, 4),
        (vec![HEADER, ONE_NAME, A, YANK, HEAD, 0], Number::TextForm, 4),
        (vec![HEADER, ONE_DECK, A, YANK, A], Number::DeckCard, 5),
        (vec![HEADER, ONE_NAME, A, YANK, HEAD, A], Number::YankCard, 4),
        (vec![HEADER, ONE_DECK, A, YANK, A, HEAD, DECK_A, 0o60000000000001200001], Number::Twice, 7),
        (vec![HEADER, ONE_DECK, A, YANK, A, HEAD & !(1 << 58), DECK_A], Number::StoredBit, 5),
    ]
}

#[test]
fn rows_of_the_check_say_which_library() {
    let known = library("*DK A");
    for (image, number, place) in refused_images() {
        for room in [0, 3, 100] {
            for sound in [&FRESH[..], &known] {
                refusal(&image, sound, room, number, place, Which::First);
                refusal(sound, &image, room, number, place, Which::Second);
            }
        }
    }
}

#[test]
fn rows_of_the_first_come_ahead_of_the_second() {
    for (first, number, place) in refused_images() {
        for (second, _, _) in refused_images() {
            refusal(&first, &second, 100, number, place, Which::First);
        }
    }
}

/// Each library is read against its own directory: the other's names and numbers make nothing sound.
#[test]
fn nothing_of_the_other_library_counts() {
    let three = library("*ID X|*ID Y|*ID Z");
    let one = |head: u64, text: u64| vec![HEADER, ONE_NAME, A, YANK, head, text];
    // A.1 `*Y X`, and a byte of number 2.
    refusal(&three, &one(HEAD, 0o47315530000000000000), 100, Number::YankCard, 4, Which::Second);
    refusal(&three, &one(HEAD + 1, A), 100, Number::CardForm, 4, Which::Second);
    refusal(&one(HEAD + 1, A), &three, 100, Number::CardForm, 4, Which::First);
    // X in the deck list.
    let listed = [HEADER, ONE_DECK, A, YANK, 0o30000000000000000000, HEAD, DECK_A];
    refusal(&library("*DK X"), &listed, 100, Number::TableName, 4, Which::Second);
}

#[test]
fn number_37_is_at_the_first_common_word_of_the_second() {
    refusal(&library("*ID A|*ID B"), &library("*ID C|*ID B|*ID A"), 100, Number::CommonName, 3, Which::Second);
    refusal(&library("*ID A|*ID B"), &library("*ID A|*ID B"), 100, Number::CommonName, 2, Which::Second);
    refusal(&library("*ID X|*ID A"), &library("*ID B|*ID C|*ID A|*ID X"), 100, Number::CommonName, 4, Which::Second);
    // The deck list is in another order than the directory, which alone is asked.
    let decks =
        [HEADER, 0o2000003, A, B, YANK, B, A, 0o60000001000001200002, 0o47040503135502000000, 0o60000001000001200001, DECK_A];
    assert!(check(&decks).is_ok());
    refusal(&library("*ID B|*ID A"), &decks, 100, Number::CommonName, 2, Which::Second);
    assert!(merge(&library("*ID AB|*ID A1"), &library("*ID A|*ID B"), 100).is_ok());
}

#[test]
fn number_37_is_of_decks_and_sets_alike() {
    for first in ["*DK A", "*CD A", "*ID A"] {
        for second in ["*DK A", "*CD A", "*ID A"] {
            refusal(&library(first), &library(second), 100, Number::CommonName, 2, Which::Second);
            refusal(&library(first), &library(&["*ID B|", second].concat()), 100, Number::CommonName, 3, Which::Second);
        }
    }
}

#[test]
fn purged_entries_are_no_names_and_stay_in_place() {
    let (first, second) = (directory(&[PURGED, A, PURGED]), directory(&[PURGED, PURGED, B, PURGED]));
    assert_eq!(merged(&first, &second), directory(&[PURGED, A, PURGED, PURGED, PURGED, B, PURGED]));
    refusal(&first, &directory(&[PURGED, PURGED, A]), 100, Number::CommonName, 4, Which::Second);
    // They count for the numbers: B.1 is owned by 2, and then by 5.
    let deck = [HEADER, 0o2000002, PURGED, B, YANK, B, 0o60000001000001200002, 0o47040503135502000000];
    assert_eq!(merged(&first, &deck)[HEADER_WORDS + 5 + 2], 0o60000001000001200005);
}

/// Entries, the first of them a name.
fn named(name: u64, entries: usize) -> Vec<u64> {
    directory(&[vec![name], vec![PURGED; entries - 1]].concat())
}

#[test]
fn number_31_of_entries() {
    for first in [1, 24, 512, MAX_NAMES - 1] {
        let second = MAX_NAMES - first;
        assert_eq!(merged(&named(A, first), &named(B, second)).len(), MAX_NAMES + 3);
        for room in [0, 3, MAX_NAMES + 4, MAX_WORDS] {
            refusal(&named(A, first), &named(B, second + 1), room, Number::Limit, 0, Which::Merged);
            refusal(&named(A, first), &named(A, second + 1), room, Number::CommonName, 2, Which::Second);
        }
    }
    refusal(&named(A, 1_000), &named(B, 24), 0, Number::Limit, 0, Which::Merged);
    refusal(&named(A, MAX_NAMES), &named(B, MAX_NAMES), MAX_WORDS, Number::Limit, 0, Which::Merged);
}

/// Empty decks of a letter, YANK$$$ counted.
fn decks(letter: char, decks: usize) -> Vec<u64> {
    library(&(1..decks).map(|deck| format!("*DK {}{}|", letter, deck)).collect::<String>())
}

#[test]
fn number_31_of_decks() {
    for first in [1, 2, 128, MAX_DECKS - 1] {
        let second = MAX_DECKS + 1 - first;
        let whole = merged(&decks('A', first), &decks('B', second));
        assert_eq!(field(whole[1], 17, 0) as usize, MAX_DECKS);
        if second < MAX_DECKS {
            refusal(&decks('A', first), &decks('B', second + 1), 0, Number::Limit, 0, Which::Merged);
        }
    }
    refusal(&decks('A', MAX_DECKS), &decks('B', 2), MAX_WORDS, Number::Limit, 0, Which::Merged);
}

/// A deck of one letter with that many cards.
fn cards(letter: char, cards: usize) -> Vec<u64> {
    library(&format!("*DK {}|{}", letter, "|".repeat(cards - 1)))
}

#[test]
fn number_31_of_cards() {
    for first in [1, 8_000, MAX_CARDS - 1] {
        let second = MAX_CARDS - first;
        assert_eq!(check(&merged(&cards('A', first), &cards('B', second))).expect("sound").cards.len(), MAX_CARDS);
        refusal(&cards('A', first), &cards('B', second + 1), 0, Number::Limit, 0, Which::Merged);
        refusal(&cards('A', first), &cards('A', second + 1), 0, Number::CommonName, 2, Which::Second);
    }
}

/// A deck of one letter in an image of that many words.
fn words(letter: char, words: usize) -> Vec<u64> {
    let (longest, empty) = (17, library("*DK A").len());
    let long = [&":".repeat(80), "|"].concat().repeat((words - empty) / longest);
    let image = library(&format!("*DK {}|{}{}", letter, long, "|".repeat((words - empty) % longest)));
    assert_eq!(image.len(), words);
    image
}

#[test]
fn number_31_of_words() {
    for first in [20_000, 32_768, 45_000] {
        let second = MAX_WORDS + FRESH.len() - first;
        assert_eq!(merged(&words('A', first), &words('B', second)).len(), MAX_WORDS);
        refusal(&words('A', first), &words('B', second), MAX_WORDS - 1, Number::NewLength, 0, Which::Merged);
        for room in [0, MAX_WORDS, MAX_WORDS + 1] {
            refusal(&words('A', first), &words('B', second + 1), room, Number::Limit, 0, Which::Merged);
        }
        refusal(&words('A', first), &words('A', second + 1), 0, Number::CommonName, 2, Which::Second);
    }
}

#[test]
fn number_32_comes_last() {
    let (first, second) = (library("*DK A|A2"), library("*DK B|B2|*ID S|*D B.2"));
    let length = first.len() + second.len() - FRESH.len();
    for room in [0, 1, length - 1] {
        refusal(&first, &second, room, Number::NewLength, 0, Which::Merged);
        refusal(&first, &library("*DK B|*ID A"), room, Number::CommonName, 3, Which::Second);
    }
    for room in [length, length + 1, MAX_WORDS] {
        assert_eq!(merge(&first, &second, room).map(|image| image.len()), Ok(length));
    }
    refusal(&FRESH, &FRESH, 2, Number::NewLength, 0, Which::Merged);
    assert_eq!(merge(&FRESH, &FRESH, 3), Ok(FRESH.to_vec()));
}

#[test]
fn tables_and_yank_cards_and_decks_follow_the_first() {
    let expected = [
        "03100503130004003147", "00000000000006000003", "23000000000000000000", "24000000000000000000", "01000000000000000000",
        "25000000000000000000", "26000000000000000000", "02000000000000000000", "31011613535353000000", "01000000000000000000",
        "02000000000000000000", "60000001000001200002", "47315523000000000000", "60000001000001200005", "47315525000000000000",
        "60000001000001200003", "47041355010000000000", "60000001000001200006", "47041355020000000000",
    ];
    let (first, second) = (library("*ID S|*ID T|*Y S|*DK A"), library("*ID U|*ID V|*Y U|*DK B"));
    assert_eq!(octal(&merged(&first, &second)), expected);
}

/// The shown library after TWO, behind two names.
#[test]
fn settled_bits_stay() {
    let second = library("*DECK PUMP| A=1| B=2|*IDENT ONE|*DELETE PUMP.2| A=3|*IDENT TWO|*YANK ONE");
    let expected = [
        "03100503130004003147", "00000000000005000003", "01000000000000000000", "23000000000000000000", "20251520000000000000",
        "17160500000000000000", "24271700000000000000", "31011613535353000000", "01000000000000000000", "20251520000000000000",
        "60000001000001200005", "47310116135517160500", "60000001000001200001", "47041355010000000000", "60000001000001200003",
        "47040503135520251520", "20000001000002200003", "40400004000000000000", "55015434000000000000", "40000001000001600004",
        "55015436000000000000", "60000001000003200003", "55025435000000000000",
    ];
    assert_eq!(octal(&merged(&library("*DK A|*ID S"), &second)), expected);
}

/// A library of deck A and sets B and C, with one card more, blank, of the words given.
fn with_history(heads: &[u64]) -> Vec<u64> {
    let tables = [HEADER, 0o3000002, A, B, 0o03000000000000000000, YANK, A, HEAD, DECK_A];
    [&tables[..], heads].concat()
}

/// Behind two names each number rises by 2. Zero bytes stay zero, and the sequence number stays, whatever it is.
#[test]
fn numbers_are_raised_in_the_history_alone() {
    let first = library("*ID X|*ID Y");
    for sequence in [2, 3, 0o377777, 0o777777] {
        let heads = |words: &[u64]| -> Vec<u64> { [&[words[0] | sequence << 18], &words[1..]].concat() };
        for (bytes, before, after) in [
            (1, vec![0o60000000000000200001], vec![0o60000000000000200003]),
            (2, vec![0o200001, 0o40000002000000000000], vec![0o200003, 0o40000004000000000000]),
            (3, vec![0o20000000000000200001, 0o40000002200003000000], vec![0o20000000000000200003, 0o40000004200005000000]),
            (4, vec![0o200001, 0o40000002200003000003], vec![0o200003, 0o40000004200005000005]),
            (
                5,
                vec![0o20000000000000200001, 0o00000002200002000003, 0o40200003000000000000],
                vec![0o20000000000000200003, 0o00000004200004000005, 0o40200005000000000000],
            ),
            (
                8,
                vec![0o200001, 0o00000001200001000002, 0o00200002000002200003, 0o40000003000000000000],
                vec![0o200003, 0o00000003200003000004, 0o00200004000004200005, 0o40000005000000000000],
            ),
        ] {
            let second = with_history(&heads(&before));
            let read = check(&second).expect("sound");
            assert_eq!(read.cards.last().map(|card| card.history.len()), Some(bytes));
            let whole = merged(&first, &second);
            assert_eq!(octal(&whole[whole.len() - after.len()..]), octal(&heads(&after)));
            assert_eq!(merged(&FRESH, &second), second);
        }
    }
}

#[test]
fn the_first_keeps_its_numbers() {
    let first = with_history(&[0o2200001, 0o40000002200003000003]);
    let whole = merged(&first, &library("*ID X|*ID Y"));
    assert_eq!(whole[whole.len() - 4..], first[first.len() - 4..]);
}

#[test]
fn answers_have_place_and_library() {
    let untouched = |room: usize| Case::run(&[], b"", room).answer().sum;
    let answer = |first: &[u64], second: &[u64], room: usize| Case::merge(first, second, room).answer();
    let (a, b) = (library("*ID A"), library("*ID B"));
    let both = library("*ID A|*ID B");
    let sum = Case::run(&both, b"", 9).answer().sum;
    assert_eq!(answer(&a, &b, 9), Answer { number: 0, values: [5, 0], sum });
    assert_eq!(answer(&FRESH[..2], &FRESH[..1], 9), Answer { number: 1, values: [2, 1], sum: untouched(9) });
    assert_eq!(answer(&FRESH, &FRESH[..1], 9), Answer { number: 1, values: [1, 2], sum: untouched(9) });
    assert_eq!(answer(&both, &b, 9), Answer { number: 37, values: [2, 2], sum: untouched(9) });
    assert_eq!(answer(&a, &b, 4), Answer { number: 32, values: [0, 0], sum: untouched(4) });
    let (most, more) = (named(A, 1_000), named(B, 24));
    assert_eq!(answer(&most, &more, 9), Answer { number: 31, values: [0, 0], sum: untouched(9) });
}

/// Directory, deck list, cards of YANK$$$ and of the other decks, as words.
fn parts(image: &[u64]) -> [&[u64]; 4] {
    let (names, decks) = (field(image[1], 35, 18) as usize, field(image[1], 17, 0) as usize);
    let (directory, rest) = image[HEADER_WORDS..].split_at(names);
    let (list, cards) = rest.split_at(decks);
    let mut at = 0;
    while at < cards.len() {
        let (heads, end) = card_ends(cards, at);
        if is_deck_line(&expand(&cards[heads..end]).expect("text")) {
            break;
        }
        at = end;
    }
    let (yanks, others) = cards.split_at(at);
    [directory, list, yanks, others]
}

/// Where the history words of the card at a place end, and where its text does.
fn card_ends(cards: &[u64], at: usize) -> (usize, usize) {
    let heads = at + 1 + cards[at..].iter().position(|&word| bit(word, 59)).expect("a last history word");
    (heads, heads + field(cards[at], 53, 36) as usize)
}

/// Cards with the number of every used byte raised.
fn raised(cards: &[u64], by: u64) -> Vec<u64> {
    let mut words = cards.to_vec();
    let mut at = 0;
    while at < cards.len() {
        let (heads, end) = card_ends(cards, at);
        words[at] += by;
        for word in &mut words[at + 1..heads] {
            *word += [0, 18, 36].iter().filter(|&&low| field(*word, low + 17, low) != 0).map(|&low| by << low).sum::<u64>();
        }
        at = end;
    }
    words
}

/// The merge as a work on words, without a model of libraries.
fn by_words(first: &[u64], second: &[u64]) -> Vec<u64> {
    let [names, list, yanks, decks] = parts(first);
    let [more_names, more_list, more_yanks, more_decks] = parts(second);
    let counts = first[1] + second[1] - 1;
    let by = names.len() as u64;
    let (more_yanks, more_decks) = (raised(more_yanks, by), raised(more_decks, by));
    [&[HEADER, counts], names, more_names, list, &more_list[1..], yanks, &more_yanks, decks, &more_decks].concat()
}

#[test]
fn every_merge_is_the_work_on_words() {
    let mut random = Random::new(11);
    for _ in 0..PAIRS {
        let (first, second) = two_libraries(&mut random);
        let (first, second) = (first.image(), second.image());
        let whole = merged(&first, &second);
        assert_eq!(whole, by_words(&first, &second));
        assert_eq!(whole.len(), first.len() + second.len() - FRESH.len());
        assert!(check(&whole).is_ok());
        assert_eq!(merged(&FRESH, &whole), whole);
        assert_eq!(merged(&whole, &FRESH), whole);
    }
}

#[test]
fn three_libraries_merge_in_either_grouping() {
    let mut random = Random::new(12);
    let mut apart = 0;
    for _ in 0..PAIRS {
        let (first, second) = two_libraries(&mut random);
        let (third, _) = two_libraries(&mut random);
        let (first, second, third) = (first.image(), second.image(), third.image());
        if let (Ok(_), Ok(last_two)) = (merge(&first, &third, MAX_WORDS), merge(&second, &third, MAX_WORDS)) {
            assert_eq!(merged(&first, &last_two), merged(&merged(&first, &second), &third));
            apart += 1;
        }
    }
    assert!(apart > PAIRS / 20);
}

/// Units that name nothing of the library they are run on make the same of it as a merge with what they make alone.
#[test]
fn a_merge_is_one_run_after_the_other() {
    let mut random = Random::new(13);
    for _ in 0..PAIRS {
        let (one, two) = two_streams(&mut random);
        let alone = |stream: &[u8]| run(&FRESH, stream, MAX_WORDS).expect("an accepted stream");
        let after = run(&alone(&one), &two, MAX_WORDS).expect("an accepted stream");
        assert_eq!(merged(&alone(&one), &alone(&two)), after);
    }
}

/// Whether both compile; where they do, the merged file has the lines and calls of both, if there is room for them.
fn files_follow(first: &[u64], second: &[u64], rooms: &[usize]) -> bool {
    let (one, two) = match (compile(first, ANY_ROOM), compile(second, ANY_ROOM)) {
        (Ok(one), Ok(two)) => (one, two),
        _ => return false,
    };
    let both = CompileFile { bytes: [one.bytes, two.bytes].concat(), calls: one.calls + two.calls };
    let whole = merged(first, second);
    for &room in rooms {
        let file = compile(&whole, room * LINE_BYTES);
        if both.calls <= MAX_CALLS && both.lines() <= room {
            assert_eq!(file, Ok(both.clone()));
        } else {
            let number = file.expect_err("too many calls or lines").number;
            assert!(number == Number::Calls || number == Number::LineRoom);
        }
    }
    true
}

#[test]
fn files_follow_each_other() {
    let mut random = Random::new(14);
    let mut compiled = 0;
    for _ in 0..PAIRS {
        let (first, second) = two_libraries(&mut random);
        compiled += usize::from(files_follow(&first.image(), &second.image(), &[1 << 20, 10, 3, 0]));
    }
    assert!(compiled > PAIRS / 2);
}

#[test]
fn calls_of_both_are_counted_together() {
    let calls = |letter: char, calls: usize| {
        library(&format!("*CD {0}|*DK {0}1|{1}", letter, format!("*CA {}|", letter).repeat(calls)))
    };
    for (one, two) in [(4_000, 96), (4_000, 97), (1, MAX_CALLS), (MAX_CALLS, 0), (MAX_CALLS, MAX_CALLS)] {
        assert!(files_follow(&calls('A', one), &calls('B', two), &[0, 1]));
    }
}

/// A CALL of no deck may find one in the other library, so the promise is of libraries that both compile.
#[test]
fn a_call_may_find_a_deck_of_the_other_library() {
    let (first, second) = (library("*DK A|*CA B"), library("*CD B|B2"));
    assert_eq!(compile(&first, ANY_ROOM).map_err(|refusal| refusal.number), Err(Number::CallOfNoDeck));
    for whole in [merged(&first, &second), merged(&second, &first)] {
        assert_eq!(compile(&whole, ANY_ROOM).map(|file| (file.lines(), file.calls)), Ok((1, 1)));
    }
}

/// Demand 3 holds of merged libraries: sets yanked leave the compile answer as it was.
#[test]
fn yanked_sets_leave_no_trace_in_a_merged_library() {
    let mut random = Random::new(15);
    for _ in 0..PAIRS / 3 {
        let (first, second) = two_libraries(&mut random);
        let base = merged(&first.image(), &second.image());
        let (stream, names) = sets(&mut random, &check(&base).expect("sound"));
        let yanks: Vec<u8> = names.iter().flat_map(|name| [b"*YANK ", &name[..], b"\n"].concat()).collect();
        let new = run(&base, &stream, MAX_WORDS).expect("accepted sets");
        let yanked = run(&new, &[b"*IDENT BACK\n", &yanks[..]].concat(), MAX_WORDS).expect("accepted yanks");
        for room in [1 << 20, 910, 90] {
            assert_eq!(compile(&yanked, room), compile(&base, room));
        }
    }
}

/// Names of every character, one library of half of them, one of the others.
#[test]
fn names_of_every_character_stay() {
    let sets = |from: usize| -> String {
        (from..=0o54).step_by(2).map(|code| format!("*ID {0}|*ID {0}{0}|", char::from(CHART[code]))).collect()
    };
    let (first, second) = (library(&sets(1)), library(&sets(2)));
    let whole = merged(&first, &second);
    assert_eq!(parts(&whole)[0], [parts(&first)[0], parts(&second)[0]].concat());
    assert_eq!(whole, library(&[sets(1), sets(2)].concat()));
}
