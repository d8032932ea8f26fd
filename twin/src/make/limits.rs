//! Cases of the kind `limits`: each limit exactly, and one past it. Those of merges stand in `merge_limits`.

use super::libraries::made_by;
use super::merge_limits;
use super::texts::blanks;
use crate::cases::{Case, COMPRESS, EXPAND, PACK, UNPACK};
use crate::compile::{DEPTH, LINE_BYTES, MAX_CALLS};
use crate::library::{Byte, Entry, Library, FRESH, MAX_BYTES, MAX_CARDS, MAX_DECKS, MAX_NAMES, MAX_WORDS};
use crate::lines::{Kind, LAST_SEQUENCE};
use crate::run::MAX_STREAM;
use crate::text::{compress, words_of_codes, Name, CHART, COLUMNS};
use crate::words::{pack, packed_length, to_bytes, WORD_END};

/// The largest spaces lent: 2,000 lines of a compile file, and as many bytes for packing.
const LINES: usize = 2_000;
const BYTES: usize = LINES * LINE_BYTES;

pub type Maker = Box<dyn Fn() -> Case>;

/// The limit case at an index, going round.
pub fn case(index: usize) -> Case {
    let makers = makers();
    makers[index % makers.len()]()
}

/// How many limit cases there are.
pub fn count() -> usize {
    makers().len()
}

fn makers() -> Vec<Maker> {
    let parts = [words(), texts(), images(), streams(), runs(), growths(), compiles(), merge_limits::makers()];
    parts.into_iter().flatten().collect()
}

pub fn each<T: Copy + 'static, const N: usize>(items: [T; N], make: fn(T) -> Case) -> Vec<Maker> {
    items.into_iter().map(|item| Box::new(move || make(item)) as Maker).collect()
}

/// Ops 4 and 5: spaces exactly, one short, one more; lengths; words about 2^60.
fn words() -> Vec<Maker> {
    const MOST: usize = BYTES / 8;
    let packed = packed_length;
    let mut makers = each([(0, 0), (0, 7), (1, 8), (1, 7), (2, 15), (2, 14), (3, 23), (3, 24)], pack_case);
    makers.extend(each([(MOST, packed(MOST)), (MOST, packed(MOST) - 1), (MOST - 1, packed(MOST - 1))], pack_case));
    makers.extend(each([(0, 0), (0, 7), (1, 8), (1, 0), (1, 7), (2, 16), (2, 17), (3, 24), (3, 32)], unpack_case));
    makers.extend(each([(MOST, BYTES), (MOST, BYTES - 8), (MOST - 1, BYTES - 8), (MOST - 1, BYTES - 16)], unpack_case));
    makers.extend(each([WORD_END - 1, WORD_END, u64::MAX], |word| Case::bytes(PACK, 23, to_bytes(&[0, 0, word]))));
    makers.extend(each([0, 1, 2, 4, 8, 15], |bits| Case::bytes(UNPACK, 24, [vec![255; 22], vec![0xF0 | bits]].concat())));
    makers.extend(each([0, 1, 7, 8, 9, 14, 15, 16, 22, 23, 24, 30], |length| Case::bytes(UNPACK, 64, vec![0; length])));
    makers.extend(each([0, 1, 7, 8, 9, 15, 16], |length| Case::bytes(PACK, 64, vec![0; length])));
    makers
}

fn pack_case((words, room): (usize, usize)) -> Case {
    Case::bytes(PACK, room, to_bytes(&some_words(words)))
}

fn unpack_case((words, room): (usize, usize)) -> Case {
    Case::bytes(UNPACK, room, pack(&some_words(words)))
}

fn some_words(count: usize) -> Vec<u64> {
    (0..count as u64).map(|word| (word + 1) * 0o1234567654321 % WORD_END).collect()
}

/// Lines whose runs of blanks and columns are at the limits.
fn limit_lines() -> Vec<Vec<u8>> {
    let mut lines: Vec<Vec<u8>> = [1, 2, 3, 4, 62, 63, 64, 65, 66, 67, 68, 78]
        .iter()
        .flat_map(|&run| [[b"X".to_vec(), blanks(run), b"X".to_vec()].concat(), [blanks(run), b"X".to_vec()].concat()])
        .collect();
    lines.extend([Vec::new(), blanks(COLUMNS), vec![b'X'; COLUMNS], vec![b':'; COLUMNS], [blanks(79), b":".to_vec()].concat()]);
    lines.extend([9, 10, 11, 19, 20, 21].iter().map(|&length| vec![b'9'; length]));
    lines.extend([4, 5, 6, 9, 10, 11].iter().map(|&length| vec![b':'; length]));
    lines
}

/// Ops 6 and 7, and row 6.
fn texts() -> Vec<Maker> {
    let mut makers: Vec<Maker> = Vec::new();
    for line in limit_lines() {
        let text = to_bytes(&compress(&line));
        makers.push(Box::new(move || Case::bytes(COMPRESS, 0, line.clone())));
        makers.push(Box::new(move || Case::bytes(EXPAND, 0, text.clone())));
    }
    for codes in spoiled_codes() {
        let text = words_of_codes(&codes);
        let bytes = to_bytes(&text);
        makers.push(Box::new(move || Case::bytes(EXPAND, 0, bytes.clone())));
        makers.push(Box::new(move || Case::check(&with_card(|library, card| library.cards[card].text = text.clone()).image())));
    }
    makers
}

/// Codes one past a limit: 81 columns, 17 words, and runs written in a way that is not the rules'.
fn spoiled_codes() -> Vec<Vec<u8>> {
    vec![
        vec![1; COLUMNS + 1],
        [0, 1].repeat(COLUMNS + 1),
        [vec![1], [0, 0o77].to_vec(), vec![1; 16]].concat(),
        [vec![1], vec![0o55; 3], vec![1]].concat(),
        [vec![1], [0, 0o76, 0o55, 0o55].to_vec(), vec![1]].concat(),
        [vec![1], [0, 0o76, 0, 2].to_vec(), vec![1]].concat(),
        [vec![1], [0, 0o77, 0o55, 0o55, 0o55].to_vec(), vec![1]].concat(),
        vec![0, 2, 1],
        vec![1, 0o55],
        vec![1, 0, 0, 1],
        vec![0; 10],
        vec![1; 9].into_iter().chain([0, 0]).collect(),
        vec![0; 10 * 20],
    ]
}

/// An empty deck P and a set S.
fn base() -> Library {
    made_by(b"*DECK P\n*IDENT S\n")
}

/// Deck P with one card more, changed.
pub fn with_card(change: impl Fn(&mut Library, usize)) -> Library {
    let mut library = base();
    let card = library.add_card(1, 2, b"P2", 1, 1);
    change(&mut library, card);
    library
}

/// Deck P, its last cards long ones, so that the image has that many words.
fn filled(words: usize) -> Library {
    const LONGEST: usize = 17;
    let mut library = base();
    let mut left = words - library.length();
    while left > 0 {
        let length = left.min(LONGEST);
        let index = library.decks[1].cards.len();
        library.add_card(1, index as u32 + 1, &vec![b':'; (length - 1) * 5], 1, index);
        left -= length;
    }
    library
}

/// Deck P with blank cards, so that the library has that many cards.
fn with_cards(cards: usize) -> Library {
    let mut library = base();
    for index in 1..cards {
        library.add_card(1, index as u32 + 1, b"", 1, index);
    }
    library
}

/// A directory of that many names, the last a set.
fn with_names(names: usize) -> Library {
    let mut library = base();
    for index in library.directory.len()..names {
        if index % 100 == 50 {
            library.directory.push(Entry { name: None, deck: None });
        } else {
            library.add_name(numbered('N', index));
        }
    }
    library
}

fn with_decks(decks: usize) -> Library {
    let mut library = base();
    while library.decks.len() < decks {
        let deck = library.decks.len();
        let name = numbered('D', deck);
        let number = library.add_name(name);
        library.add_deck(number, name, Kind::Deck);
        library.add_card(number, 1, &[b"*DECK ", &name.bytes()[..]].concat(), deck, 0);
    }
    library
}

/// P.2 with that many bytes, the last of them not activating where the count is even.
pub fn with_bytes(bytes: usize) -> Library {
    with_card(|library, card| {
        let history = (1..bytes).map(|index| Byte { number: 2, activating: index % 2 == 0 });
        library.cards[card].history.extend(history);
    })
}

pub fn numbered(letter: char, number: usize) -> Name {
    Name::of_bytes(format!("{}{}", letter, number).as_bytes()).expect("a name")
}

/// Ops 1, 2 and 3 on one library.
fn each_op<T: Copy + 'static, const N: usize>(items: [T; N], library: fn(T) -> Library) -> Vec<Maker> {
    let mut makers: Vec<Maker> = Vec::new();
    for item in items {
        makers.push(Box::new(move || Case::check(&library(item).image())));
        makers.push(Box::new(move || run_on(&library(item), "")));
        makers.push(Box::new(move || Case::compile(&library(item).image(), BYTES)));
    }
    makers
}

/// Rows 1, 3 and 5.
fn images() -> Vec<Maker> {
    let mut makers = each_op([MAX_WORDS - 1, MAX_WORDS, MAX_WORDS + 1], filled);
    makers.extend(each([0, 1, 2, 3], |words| Case::check(&FRESH[..words])));
    makers.extend(each([0, 1, 2, 3], |words| Case::compile(&FRESH[..words], 0)));
    makers.extend(each_op([MAX_NAMES, MAX_NAMES + 1], with_names));
    makers.extend(each_op([MAX_DECKS, MAX_DECKS + 1], with_decks));
    makers.extend(each_op([62, 63, MAX_BYTES, MAX_BYTES + 1, 67, 68], with_bytes));
    makers.extend(each_op([MAX_CARDS, MAX_CARDS + 1], with_cards));
    makers.extend(each([3, LAST_SEQUENCE], |number| {
        Case::check(&with_card(|library, card| library.cards[card].sequence = number).image())
    }));
    makers.extend(each([0, 1, 2, 7, 8], |at| {
        let mut image = with_card(|_, _| ()).image();
        image[at] |= WORD_END;
        Case::check(&image)
    }));
    makers.push(Box::new(|| {
        let mut image = filled(MAX_WORDS + 1).image();
        image[0] = u64::MAX;
        Case::check(&image)
    }));
    makers
}

fn run_on(library: &Library, stream: &str) -> Case {
    Case::run(&library.image(), stream.as_bytes(), MAX_WORDS)
}

fn run_on_fresh(stream: &[u8]) -> Case {
    Case::run(&FRESH, stream, 100)
}

/// Op 2 on small libraries: stream lengths, columns, numbers, names, rooms.
fn streams() -> Vec<Maker> {
    let mut makers = each([MAX_STREAM - 1, MAX_STREAM, MAX_STREAM + 1], |bytes| run_on_fresh(&commented(bytes)));
    makers.extend(each([MAX_STREAM, MAX_STREAM + 1], |bytes| run_on_fresh(&vec![b'X'; bytes])));
    makers.extend(each([MAX_STREAM, MAX_STREAM + 1], |bytes| Case::run(&FRESH[..2], &vec![b'X'; bytes], 8)));
    makers.extend(each([MAX_STREAM, MAX_STREAM + 1], |bytes| run_on(&Library::fresh(), &texts_to(MAX_CARDS, bytes))));
    makers.extend(each([MAX_STREAM, MAX_STREAM + 1], |bytes| run_on(&Library::fresh(), &texts_to(MAX_CARDS + 1, bytes))));
    makers.extend(each(["", "X", "*/", "*END", "*DECK N", "*IDENT S,", " ", "*PURGE"], |line| columns_case(line, COLUMNS)));
    makers.extend(each(["", "X", "*/", "*END", "*DECK N", "*IDENT S,", " ", "*PURGE"], |line| columns_case(line, COLUMNS + 1)));
    makers.extend(each(["P.262143", "P.262144", "P.999999", "P.0000002", "P.000002", "P.0", "P.1000000"], |card| {
        run_on(&with_card(|_, _| ()), &format!("*IDENT T\n*INSERT {}\nTEXT\n", card))
    }));
    makers.extend(each(["ABCDEFGHI", "ABCDEFGHIJ", "YANK$$$", "YANK$$$$", "YANK$$"], |name| {
        run_on(&base(), &format!("*IDENT {}\n*COMDECK X\n", name))
    }));
    makers.extend(each(["*ID Z0\n*Y ALL\n", "*ID Z0\n*D ALL.1\n", ""], |after| {
        run_on(&made_by(b"*DECK D0\n"), &(widest_yank() + after))
    }));
    makers.extend(each([2, 3, 400, MAX_NAMES - 2, MAX_NAMES - 1], |sets| run_on(&base(), &yank_chain(sets))));
    makers.extend(each([0, 2, 3, 4], |room| Case::run(&FRESH, b"", room)));
    makers.extend(each([6, 7, 8], |room| Case::run(&FRESH, b"*DECK P", room)));
    makers.push(Box::new(|| {
        run_on(&with_card(|library, card| library.cards[card].sequence = LAST_SEQUENCE), "*IDENT T\n*DELETE P.262143\nTEXT\n")
    }));
    makers.extend(
        limit_lines()
            .into_iter()
            .map(|line| -> Maker { Box::new(move || run_on_fresh(&[b"*DECK P\n", &line[..], b"\n"].concat())) }),
    );
    makers
}

/// Sets of one character, as many as a YANK of all of them has columns for, and that YANK.
fn widest_yank() -> String {
    const COUNT: usize = 39;
    let names: Vec<char> = CHART[1..=COUNT].iter().map(|&byte| char::from(byte)).collect();
    let sets: String = names.iter().map(|name| format!("*ID {}\n*I D0.1\n{}\n", name, name)).collect();
    let named: Vec<String> = names.iter().map(char::to_string).collect();
    [&sets, "*ID ALL\n*Y ", &named.join(","), "\n"].concat()
}

/// Sets that each yank the one before and put a line after P.1.
fn yank_chain(sets: usize) -> String {
    let set = |number: usize| format!("*ID N{}\n*Y N{}\n*I P.1\n{}\n", number, number - 1, number);
    ["*ID N0\n", &(1..sets).map(set).collect::<String>()].concat()
}

/// A deck and comments, that many bytes in all.
fn commented(bytes: usize) -> Vec<u8> {
    let mut stream = b"*DECK P\nTEXT\n".to_vec();
    let comment = [b"*/", &[b'X'; COLUMNS - 2][..], b"\n"].concat();
    while stream.len() + comment.len() <= bytes {
        stream.extend_from_slice(&comment);
    }
    stream.extend(std::iter::repeat(b'\n').take(bytes - stream.len()));
    stream
}

/// A deck of that many cards, deck card and all, that many bytes in all; the last line is the longest.
fn texts_to(cards: usize, bytes: usize) -> String {
    let deck = "*DECK P\n";
    let lines = cards - 1;
    let each = (bytes - deck.len()) / lines - 1;
    let line = "X".repeat(each) + "\n";
    let last = bytes - deck.len() - (lines - 1) * line.len() - 1;
    [deck, &line.repeat(lines - 1), &"X".repeat(last), "\n"].concat()
}

fn columns_case(line: &str, columns: usize) -> Case {
    let mut long = line.as_bytes().to_vec();
    long.resize(columns, if line.starts_with('X') { b'X' } else { b' ' });
    run_on_fresh(&[b"*DECK P\n", &long[..], b"\n"].concat())
}

/// Op 2: runs that reach a limit of rows 3 and 5, and runs that would pass it.
fn runs() -> Vec<Maker> {
    let mut makers = each([MAX_NAMES - 1, MAX_NAMES], |names| run_on(&with_names(names), "*IDENT U\n*INSERT P.1\nX\n"));
    makers.extend(each([MAX_NAMES - 1, MAX_NAMES], |names| run_on(&with_names(names), "*DECK U\nX\n")));
    makers.extend(each([MAX_DECKS - 1, MAX_DECKS], |decks| run_on(&with_decks(decks), "*DECK U\nX\n")));
    makers.extend(each([MAX_DECKS - 1, MAX_DECKS], |decks| run_on(&with_decks(decks), "*IDENT U\n*COMDECK V\n")));
    makers.extend(each([MAX_CARDS - 1, MAX_CARDS], |cards| run_on(&with_cards(cards), "*DECK U\n")));
    makers.extend(each([MAX_CARDS - 1, MAX_CARDS], |cards| run_on(&with_cards(cards), "*IDENT U\n*BEFORE P.2\nX\n")));
    makers.extend(each([MAX_CARDS - 1, MAX_CARDS], |cards| run_on(&with_cards(cards), "*IDENT U\n*YANK S\n")));
    makers.extend(each([MAX_CARDS - 1, MAX_CARDS], |cards| run_on(&with_cards(cards), "*IDENT U\n*DELETE P.2,P.16382\n")));
    makers.extend(each([61, 62, 63, MAX_BYTES], |bytes| run_on(&with_bytes(bytes), "*IDENT U\n*DELETE P.2\n*RESTORE P.2\n")));
    makers
        .extend(each([61, 62, 63, MAX_BYTES], |bytes| run_on(&with_bytes(bytes), "*IDENT U\n*RESTORE P.2\nX\n*DELETE P.2\n")));
    makers.extend(each([MAX_NAMES, MAX_NAMES + 1], |names| run_on(&Library::fresh(), &repeated("*ID S", names))));
    makers.extend(each([MAX_DECKS - 1, MAX_DECKS], |decks| run_on(&Library::fresh(), &repeated("*DK D", decks))));
    makers.extend(each([MAX_CARDS - 1, MAX_CARDS], |cards| {
        run_on(&Library::fresh(), &["*DECK P\n", &"X\n".repeat(cards)].concat())
    }));
    makers.extend(each(["*INSERT P.1", "*BEFORE P.2", "*DELETE P.2"], |directive| insertion(directive, "", MAX_CARDS - 2)));
    makers.extend(each(["*INSERT P.1", "*BEFORE P.2", "*DELETE P.2"], |directive| insertion(directive, "", MAX_CARDS - 1)));
    makers.extend(each([LINES_OF_FIVE, LINES_OF_FIVE + 1], |lines| insertion("*INSERT P.2", FIVE_WORDS, lines)));
    makers.extend(each([MAX_BYTES / 2 - 1, MAX_BYTES / 2], |times| {
        let pair = "*D P.2\n*R P.2\n";
        run_on(&with_card(|_, _| ()), &["*IDENT U\n", &pair.repeat(times), "*D P.2\n"].concat())
    }));
    makers
}

/// A line whose card has five words, and how many of them a library has words for beside deck P, P.2 and two sets.
const FIVE_WORDS: &str = "::::::::::::::::";
const LINES_OF_FIVE: usize = (MAX_WORDS - 11) / 5;

/// Text lines after one directive.
fn insertion(directive: &str, line: &str, lines: usize) -> Case {
    let text = [line, "\n"].concat().repeat(lines);
    run_on(&with_card(|_, _| ()), &["*IDENT U\n", directive, "\n", &text].concat())
}

/// A numbered line, that many times.
fn repeated(line: &str, times: usize) -> String {
    (0..times).map(|number| format!("{}{}\n", line, number)).collect()
}

/// Op 2: runs that grow to 65,536 words by each sort of line, and one word past them.
fn growths() -> Vec<Maker> {
    const STREAMS: [(&str, usize); 8] = [
        ("", 0),
        ("*IDENT U\n", 1),
        ("*DECK U\n", 4),
        ("*IDENT U\n*INSERT P.2\n\n", 2),
        ("*IDENT U\n*BEFORE P.2\nTEXT\n", 3),
        ("*IDENT U\n*DELETE P.2\n", 2),
        ("*IDENT U\n*DELETE P.2,P.21\n*RESTORE P.2\n", 21),
        ("*IDENT U\n*YANK S\n", 3),
    ];
    let mut makers = each(STREAMS, |(stream, words)| run_on(&filled(MAX_WORDS - words), stream));
    makers.extend(each(STREAMS, |(stream, words)| run_on(&filled(MAX_WORDS - words + 1), stream)));
    makers.extend(each([MAX_WORDS - 1, MAX_WORDS - 2], |room| Case::run(&filled(MAX_WORDS - 1).image(), b"*IDENT U\n", room)));
    makers
}

/// Op 3: calls, depth, rooms and columns.
fn compiles() -> Vec<Maker> {
    let mut makers = each([MAX_CALLS - 1, MAX_CALLS, MAX_CALLS + 1], |calls| compile_of(&calls_stream(calls, 0), BYTES));
    makers.extend(each([DEPTH - 1, DEPTH, DEPTH + 1], |depth| compile_of(&calls_stream(0, depth), BYTES)));
    makers.extend(each([MAX_CALLS - DEPTH - 1, MAX_CALLS - DEPTH, MAX_CALLS - DEPTH + 1], |calls| {
        compile_of(&calls_stream(calls, DEPTH), BYTES)
    }));
    makers.extend(each([MAX_CALLS - DEPTH, MAX_CALLS - DEPTH + 1], |calls| compile_of(&calls_stream(calls, DEPTH + 1), BYTES)));
    makers.extend(each([LINES, LINES + 1], |lines| Case::compile(&with_cards(lines + 1).image(), BYTES)));
    makers.extend(each([0, 1], |less| Case::compile(&with_cards(LINES + 1).image(), BYTES - less)));
    makers.extend(each([0, LINE_BYTES - 1, LINE_BYTES, LINE_BYTES + 1], |room| {
        Case::compile(&with_card(|_, _| ()).image(), room)
    }));
    makers.extend(each([2, 3, 10, 100, LINES - 1], |lines| rooms_case(lines, lines * LINE_BYTES - 1)));
    makers.extend(each([2, 3, 10, 100, LINES - 1], |lines| rooms_case(lines, lines * LINE_BYTES)));
    makers.extend(each([2, 3, 10, 100, LINES - 1], |lines| rooms_case(lines, lines * LINE_BYTES + 1)));
    makers.extend(each([2, 3, 400], |sets| compile_of(&["*DECK P\n", &yank_chain(sets)].concat(), BYTES)));
    makers.extend(each([7, 8], |lines| compile_of("*COMDECK Q\nT\n*CALL Q\n*DECK P\n*CALL Q\n", lines * LINE_BYTES)));
    makers.extend(each([71, 72, 73, COLUMNS], |columns| {
        compile_of(&format!("*DECK ABCDEFGHI\n{}\n", "X".repeat(columns)), LINE_BYTES)
    }));
    makers.extend(each([71, 72, 79, COLUMNS], |columns| {
        compile_of(&format!("*COMDECK Q\nX\n*DECK P\n{:width$}Q\n", "*CALL", width = columns - 1), LINE_BYTES)
    }));
    makers.extend(each([MAX_WORDS, MAX_WORDS + 1], |words| Case::compile(&filled(words).image(), BYTES)));
    makers.push(Box::new(|| {
        Case::compile(&with_card(|library, card| library.cards[card].sequence = LAST_SEQUENCE).image(), LINE_BYTES)
    }));
    makers.extend(each([b"*DECK ABCDEFGHI\nX\n" as &[u8], b"*DECK P", b""], |stream| {
        Case::compile(&made_by(stream).image(), LINE_BYTES - 1)
    }));
    makers
}

/// A file of that many lines, a call of an empty deck after the last.
fn rooms_case(lines: usize, room: usize) -> Case {
    compile_of(&["*COMDECK Q\n*DECK P\n", &"X\n".repeat(lines), "*CALL Q\n"].concat(), room)
}

fn compile_of(stream: &str, room: usize) -> Case {
    Case::compile(&made_by(stream.as_bytes()).image(), room)
}

/// Common decks and a normal one that opens that many calls, and then a chain of calls nested to that depth.
fn calls_stream(calls: usize, depth: usize) -> String {
    const MANY: usize = 64;
    let mut stream = ["*COMDECK ONE\n*COMDECK MANY\n", &"*CA ONE\n".repeat(MANY)].concat();
    stream += "*COMDECK C1\nLAST\n";
    (2..=depth).for_each(|at| stream += &format!("*COMDECK C{}\n*CALL C{}\nTEXT\n", at, at - 1));
    stream += "*DECK P\nFIRST\n";
    stream += &"*CA MANY\n".repeat(calls / (MANY + 1));
    stream += &"*CA ONE\n".repeat(calls % (MANY + 1));
    if depth > 0 {
        stream += &format!("*CALL C{}\n", depth);
    }
    stream + "END\n"
}
