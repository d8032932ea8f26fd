//! Texts, names and directive lines for cases.

use super::random::Random;
use crate::library::Library;
use crate::lines::LAST_SEQUENCE;
use crate::text::{words_of_codes, Name, CHART, COLUMNS};

/// A directive's full and short name.
pub type Spelling = (&'static str, &'static str);
pub const DECK: Spelling = ("DECK", "DK");
pub const COMDECK: Spelling = ("COMDECK", "CD");
pub const IDENT: Spelling = ("IDENT", "ID");
pub const INSERT: Spelling = ("INSERT", "I");
pub const BEFORE: Spelling = ("BEFORE", "B");
pub const DELETE: Spelling = ("DELETE", "D");
pub const RESTORE: Spelling = ("RESTORE", "R");
pub const YANK: Spelling = ("YANK", "Y");
pub const CALL: Spelling = ("CALL", "CA");

const NAMES: [&str; 24] = [
    "P", "Q", "A", "B", "S", "T", "U", "ONE", "TWO", "PUMP", "TANK", "A+B", "(=)", "/", "*", "$", "9", "0-1", "LONGNAME9",
    "YANK$$", "YANK$$$$", "DECK", "IDENT", "ZZZZZZZZZ",
];

/// Texts that look like directives and are none, or are none in a run.
const ODD_TEXTS: [&str; 12] = [
    "*", "* DECK Y", "*,Y", "*DECK.Y", "*ADD-FILE X", "**DECK A", " *DECK A", "*DECKS A", "*ENDX", "*CALLS A", "*;", "*YANK.S",
];

/// A name for a set or deck.
pub fn name(random: &mut Random) -> Vec<u8> {
    match random.below(5) {
        0 => format!("N{}", random.below(1_000)).into_bytes(),
        _ => random.pick(&NAMES).as_bytes().to_vec(),
    }
}

/// A name that a library does not know.
pub fn new_name(random: &mut Random, library: &Library) -> Vec<u8> {
    loop {
        let name = name(random);
        if library.number(Name::of_bytes(&name).expect("a name")).is_none() {
            return name;
        }
    }
}

/// The text of a card: mostly short, sometimes of any shape, never a directive of a run.
pub fn text(random: &mut Random) -> Vec<u8> {
    match random.below(20) {
        0 => Vec::new(),
        1 => random.pick(&ODD_TEXTS).as_bytes().to_vec(),
        2 | 3 => wide_text(random),
        _ => short_text(random),
    }
}

fn short_text(random: &mut Random) -> Vec<u8> {
    let mut line = blanks([0, 0, 0, 1, 2, 4, 6][random.below(7)]);
    for _ in 0..random.within(1, 3) {
        line.extend((0..random.within(1, 4)).map(|_| CHART[random.below(48)]));
        line.extend(blanks([0, 1, 2, 3, 4][random.below(5)]));
    }
    without_star(line)
}

/// Text of any shape and up to 80 columns: long runs of blanks, colons, every character.
pub fn wide_text(random: &mut Random) -> Vec<u8> {
    let columns = match random.below(8) {
        0 => 72,
        1 => 73,
        2 => COLUMNS,
        _ => random.within(0, COLUMNS),
    };
    let mut line = Vec::new();
    while line.len() < columns {
        match random.below(5) {
            0 => line.extend(blanks([1, 2, 3, 4, 9, 10, 63, 64, 65, 66, 67, 68][random.below(12)])),
            1 => line.extend(std::iter::repeat(b':').take(random.within(1, 12))),
            _ => line.extend((0..random.within(1, 9)).map(|_| CHART[random.below(64)])),
        }
    }
    line.truncate(columns);
    without_star(line)
}

fn without_star(mut line: Vec<u8>) -> Vec<u8> {
    if line.first() == Some(&b'*') {
        line[0] = b'X';
    }
    line
}

pub fn blanks(count: usize) -> Vec<u8> {
    vec![b' '; count]
}

/// A well formed directive, in one of its spellings.
pub fn directive(random: &mut Random, (full, short): Spelling, parameters: &[Vec<u8>]) -> Vec<u8> {
    let name = if random.chance(60) { full } else { short };
    let separator = match random.below(8) {
        0 | 1 => b",".to_vec(),
        2 => blanks(random.within(2, 5)),
        _ => blanks(1),
    };
    let mut line = [b"*", name.as_bytes(), &separator[..], &parameters.join(&b',')[..]].concat();
    if random.chance(8) {
        line.extend(blanks(random.within(1, 4)));
    }
    line
}

/// A card as a directive names it.
pub fn card_name(random: &mut Random, library: &Library, card: u32) -> Vec<u8> {
    let card = &library.cards[card as usize];
    let owner = library.name(card.owner()).expect("an owner has a name");
    let digits = match random.below(10) {
        0 => format!("{:06}", card.sequence),
        1 => format!("{:03}", card.sequence),
        _ => card.sequence.to_string(),
    };
    [&owner.bytes()[..], b".", digits.as_bytes()].concat()
}

/// A parameter that is neither a name nor a card.
pub fn bad_parameter(random: &mut Random) -> Vec<u8> {
    let past = format!("P.{}", LAST_SEQUENCE + 1);
    let bad = [
        "", "ABCDEFGHIJ", "ABCDEFGHIJ.1", "3", ".3", "P.", "P.0", "P.000000", "P.0000003", "P.3X", "P..3", "P.3.4", "P:3",
        "P;Q", "S.T", "A.B", "#", "P.-1", "P.1A", "?.1", "P.999999", &past,
    ];
    random.pick(&bad).as_bytes().to_vec()
}

/// Words that are no text, from a text with one departure from the rules.
pub fn spoiled_text(random: &mut Random) -> Vec<u64> {
    let mut codes: Vec<u8> = (0..random.within(1, 12)).map(|_| random.within(1, 63) as u8).collect();
    let middle = random.below(codes.len() + 1);
    let departure: &[u8] = match random.below(9) {
        0 => &[0o55, 0o55, 0o55],
        1 => &[0, 0],
        2 => &[0, 0o77, 0, 0o77],
        3 => &[0o55, 0, 2],
        4 => &[0, 2, 0o55],
        5 => &[0, 2, 0, 2],
        6 => &[0, 0o75, 0o55, 0o55, 0o55],
        _ => &[],
    };
    if departure.is_empty() {
        return spoiled_end(random, codes);
    }
    codes.splice(middle..middle, departure.iter().copied());
    words_of_codes(&codes)
}

fn spoiled_end(random: &mut Random, mut codes: Vec<u8>) -> Vec<u64> {
    match random.below(6) {
        0 => codes.push(0o55),
        1 => codes.extend([0, random.within(2, 63) as u8]),
        2 => codes.splice(0..0, [0, random.within(2, 63) as u8]).for_each(drop),
        3 => codes.resize(random.within(COLUMNS + 1, COLUMNS + 20), 1),
        4 => codes.resize(codes.len() + 10, 0),
        _ => return (0..random.within(1, 17)).map(|_| random.word()).collect(),
    }
    words_of_codes(&codes)
}
