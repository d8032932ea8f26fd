//! Cases of the kind `lines`: every directive name with every separator, parameter list and tail, as lines of a stream and
//! as texts of cards.

use super::libraries::{made_by, EXAMPLE};
use super::random::Random;
use crate::cases::{Case, LINE};
use crate::compile::LINE_BYTES;
use crate::library::Library;
use crate::lines::{read, Line, NOT_CARRIED};
use crate::text::{compress, Name, COLUMNS};

/// Names that are carried, those skipped or kept as text, and near misses.
const OTHER_NAMES: [&[u8]; 40] = [
    b"DECK", b"DK", b"COMDECK", b"CD", b"IDENT", b"ID", b"INSERT", b"I", b"BEFORE", b"B", b"DELETE", b"D", b"RESTORE", b"R",
    b"YANK", b"Y", b"CALL", b"CA", b"END", b"/", b"", b"DEC", b"DECKS", b"COMDEC", b"IDENTS", b"INSER", b"BEFOR", b"DELETED",
    b"RESTOR", b"YANKS", b"CAL", b"CALLS", b"EN", b"ENDS", b"ADD-FILE", b"DECK.Y", b"/DECK", b"*DECK", b"YANK$$$", b"A",
];

/// The first six are well formed.
const SEPARATORS: [&str; 14] = [" ", " ", ",", ",", "  ", "     ", " ", "", ",,", ", ", " ,", ".", ";", "="];

const PARAMETERS: [&str; 66] = [
    "", "P", "Q", "S", "T", "U", "N", "NEW", "Z", "YANK$$$", "ABCDEFGHI", "ABCDEFGHIJ", "+-*/()$=", "A:B", "A#B", "P.1", "P.2",
    "P.3", "P.4", "P.5", "Q.1", "Q.2", "S.1", "T.1", "U.1", "N.1", "YANK$$$.1", "Z.1", "P.000003", "P.0000003", "P.0", "P.00",
    "P.262143", "P.262144", "P.999999", "P.", ".3", "3", "P..3", "P.3.", "P.3X", "P.+3", "ABCDEFGHI.1", "ABCDEFGHIJ.1",
    "P.2,P.4", "P.4,P.2", "P.3,P.3", "P.2,Q.2", "P.1,P.2", "T.1,P.2", "Q.2,T.1", "P.2,Z.1", "P.2,P.3,P.4", "S,S", "S,Z", "P,Z",
    "P,S", "S,U", "YANK$$$,Z", "NEW,B=1", "NEW,NOPROP", "NEW,B=1,K=Y", "NEW,", ",NEW", "S;T", "S.T",
];

/// Lines of good form, most of which mean something to the library or to the set that is open.
const APT: [(&[&str], &[&str]); 5] = [
    (&["DECK", "DK", "COMDECK", "CD", "IDENT", "ID"], &["P", "Q", "S", "U", "N", "YANK$$$", "NEW", "X", "P.2", "A=B"]),
    (&["INSERT", "I", "BEFORE", "B"], &["P.1", "P.2", "P.3", "P.4", "Q.1", "Q.2", "S.1", "T.1", "U.1", "N.1", "P.5", "Z.1"]),
    (
        &["DELETE", "D", "RESTORE", "R"],
        &[
            "P.1", "P.2", "P.4", "Q.2", "S.1", "T.1", "P.2,P.4", "P.4,P.2", "P.2,Q.2", "Q.1,P.2", "T.1,T.1", "T.1,P.3",
            "P.2,Z.1",
        ],
    ),
    (&["YANK", "Y"], &["S", "T", "S,T", "T,S", "S,S", "P", "Q", "U", "N", "Z", "YANK$$$", "S,P", "P,Z", "Z,U", "S,T,Z"]),
    (&["CALL", "CA"], &["Q", "P", "S", "Z", "YANK$$$", "Q,Q", "Q.2", ""]),
];

/// Bytes that the character set has not.
const OUTSIDE: [u8; 10] = [0, 9, 10, 13, 31, b'a', b'`', 127, 128, 255];

const TAILS: [&str; 12] = ["", "", "", "", "", " ", "     ", " JUNK", ",", " ,", ";", "."];

const AHEAD: [&str; 9] = [
    "",
    "*IDENT U\n",
    "*IDENT U\n",
    "*IDENT U\n",
    "*IDENT U\n*INSERT P.2\n",
    "*IDENT U\n*DELETE T.1\n",
    "*IDENT U\n*YANK S\n",
    "*DECK N\n",
    "*COMDECK N\nTEXT\n",
];

const BEHIND: [&str; 5] = ["", "", "TEXT\n", "*IDENT W\n", "*/ C\nTEXT"];

/// Words of space for a run, and lines for a compile, beyond what any of these cases takes.
const SPARE_WORDS: usize = 40;
const SPARE_LINES: usize = 12;

pub fn case(random: &mut Random, index: usize) -> Case {
    let line = line(random, index / 4);
    let library = made_by(EXAMPLE);
    match index % 4 {
        0 | 1 => run_case(random, &library, &line),
        2 => Case::check(&with_text(random, library, &line).image()),
        _ => {
            let room = random.within(SPARE_LINES - 8, SPARE_LINES) * LINE_BYTES;
            Case::compile(&with_text(random, library, &line).image(), room)
        }
    }
}

/// A line alone; some have a byte outside the set, or run past column 80.
pub fn line_case(random: &mut Random, index: usize) -> Case {
    let mut line = line(random, index);
    if random.chance(8) {
        let at = random.below(line.len() + 1);
        line.insert(at, OUTSIDE[random.below(OUTSIDE.len())]);
    }
    if random.chance(8) {
        line.resize(random.within(COLUMNS - 1, COLUMNS + 3).max(line.len()), b' ');
    }
    Case::bytes(LINE, 0, line)
}

/// A line of the name at an index, all names in turn, or of good form.
fn line(random: &mut Random, index: usize) -> Vec<u8> {
    if random.chance(35) {
        let (names, parameters) = APT[random.below(APT.len())];
        let (name, separator) = (random.pick(names), random.pick(&SEPARATORS[..6]));
        return ["*", name, separator, random.pick(parameters)].concat().into_bytes();
    }
    let name = match index % (2 * OTHER_NAMES.len() + NOT_CARRIED.len()) {
        at if at < NOT_CARRIED.len() => NOT_CARRIED[at],
        at => OTHER_NAMES[(at - NOT_CARRIED.len()) % OTHER_NAMES.len()],
    };
    let start = if random.chance(95) { "*" } else { random.pick(&["", " *", "**", "/"]) };
    let middle = [random.pick(&SEPARATORS), random.pick(&PARAMETERS), random.pick(&TAILS)].concat();
    let mut line = [start.as_bytes(), name, middle.as_bytes()].concat();
    if random.chance(4) {
        line.resize(random.within(COLUMNS - 1, COLUMNS + 1).max(line.len()), b' ');
    }
    line
}

fn run_case(random: &mut Random, library: &Library, line: &[u8]) -> Case {
    let mut stream = random.pick(&AHEAD).as_bytes().to_vec();
    stream.extend_from_slice(line);
    if random.chance(10) {
        let index = random.below(1_000);
        stream.push(10);
        stream.extend(self::line(random, index));
    }
    let behind = random.pick(&BEHIND);
    if !behind.is_empty() || random.chance(70) {
        stream.push(10);
    }
    stream.extend_from_slice(behind.as_bytes());
    Case::run(&library.image(), &stream, library.length() + SPARE_WORDS)
}

/// The library with the line as a card's text: in a deck, in one that is called, in YANK$$$, or on a deck card.
fn with_text(random: &mut Random, mut library: Library, line: &[u8]) -> Library {
    const SEQUENCE: u32 = 50;
    let number = |name: &[u8], library: &Library| Name::of_bytes(name).and_then(|name| library.number(name));
    let (p, t) = (number(b"P", &library).expect("P"), number(b"T", &library).expect("T"));
    match random.below(6) {
        0 | 1 => drop(library.add_card(p, SEQUENCE, line, 1, 2)),
        2 => {
            library.add_card(p, SEQUENCE, b"*CALL Q", 1, 2);
            library.add_card(t, SEQUENCE, line, 2, 1);
        }
        3 | 4 => {
            let end = library.decks[0].cards.len();
            let card = library.add_card(t, SEQUENCE, line, 0, random.below(end + 1));
            library.cards[card].yanks = known_sets(line, &library);
        }
        _ => {
            let deck = random.within(1, 2);
            let card = library.decks[deck].cards[0] as usize;
            library.cards[card].text = compress(line);
        }
    }
    library
}

fn known_sets(line: &[u8], library: &Library) -> Vec<u16> {
    match read(line) {
        Ok(Line::Yank(names)) => names.into_iter().filter_map(|name| library.number(name)).collect(),
        _ => Vec::new(),
    }
}
