//! Spoiled images: each row of the table from 1 to 10, two rows at once, and blind changes.

use super::random::Random;
use super::texts::{bad_parameter, directive, new_name, spoiled_text, text, DECK, YANK};
use crate::library::{
    Byte, Library, ACTIVATING_BYTE, ACTIVE_CARD, HEADER_WORDS, LAST_HISTORY_WORD, MAX_BYTES, PURGED, YANKED_BYTE,
};
use crate::text::{compress, YANK_DECK};
use crate::words::field;

const ROWS: usize = 10;

/// The image of a library with at least one card, spoiled in some way. Where the library lacks what a row takes, the image
/// may answer another one, or none.
pub fn spoiled(random: &mut Random, library: &Library) -> Vec<u64> {
    let mut library = library.clone();
    let rows: Vec<usize> = match random.below(100) {
        0..=19 => Vec::new(),
        20..=39 => vec![random.within(1, ROWS), random.within(1, ROWS)],
        _ => vec![random.within(1, ROWS)],
    };
    // What is not spoiled in the library is spoiled in its image, row 1 last, since it may leave no words.
    let mut left: Vec<usize> = rows.iter().copied().filter(|&row| !spoil_library(random, &mut library, row)).collect();
    left.sort_by_key(|&row| std::cmp::Reverse(row));
    let mut image = library.image();
    left.iter().for_each(|&row| spoil_image(random, &library, &mut image, row));
    if rows.is_empty() {
        blind(random, &mut image);
    }
    image
}

fn spoil_library(random: &mut Random, library: &mut Library, row: usize) -> bool {
    match row {
        5 if random.chance(35) => spoil_history(random, library),
        6 => spoil_text(random, library),
        7 if library.decks.len() < 2 || random.chance(10) => add_stray_deck_card(random, library),
        7 => spoil_deck_card(random, library),
        8 => spoil_yank_card(random, library),
        10 => repeat_card(random, library),
        _ => return false,
    }
    true
}

fn spoil_image(random: &mut Random, library: &Library, image: &mut Vec<u64>, row: usize) {
    match row {
        1 => spoil_words(random, image),
        2 => flip(random, &mut image[0]),
        3 => spoil_counts(random, image),
        4 => spoil_names(random, library, image),
        5 => spoil_head(random, library, image),
        _ => spoil_bit(random, library, image),
    }
}

/// A change that minds no rule.
fn blind(random: &mut Random, image: &mut Vec<u64>) {
    let at = random.below(image.len());
    match random.below(7) {
        0..=2 => flip(random, &mut image[at]),
        3 => image.swap(at, random.below(at + 1)),
        4 => image.truncate(at),
        5 => image.insert(at, image[random.below(image.len())]),
        _ => image.push([0, 1, random.word(), image[at]][random.below(4)]),
    }
}

fn flip(random: &mut Random, word: &mut u64) {
    *word ^= 1 << random.below(60);
}

fn spoil_words(random: &mut Random, image: &mut Vec<u64>) {
    if random.chance(25) || image.is_empty() {
        image.truncate(random.below(3));
    } else {
        let at = random.below(image.len());
        image[at] |= 1 << random.within(60, 63);
    }
}

fn spoil_counts(random: &mut Random, image: &mut [u64]) {
    let (names, decks) = (field(image[1], 35, 18), field(image[1], 17, 0));
    let length = image.len() as u64;
    image[1] = match random.below(7) {
        0 => names << 18,
        1 => names << 18 | 256,
        2 => 1_024 << 18 | decks,
        3 => names << 18 | decks | 1 << random.within(36, 59),
        4 => names << 18 | length.saturating_sub(1 + names).min(255),
        5 => length.saturating_sub(1 + decks) << 18 | decks,
        _ => names << 18 | decks | 1 << random.within(10, 17),
    };
}

/// A table word that is no name, a name twice, or one that does not belong there.
fn spoil_names(random: &mut Random, library: &Library, image: &mut [u64]) {
    let end = HEADER_WORDS + library.directory.len() + library.decks.len();
    let (at, other) = (random.within(HEADER_WORDS, end - 1), random.within(HEADER_WORDS, end - 1));
    let new = compress(&new_name(random, library))[0];
    image[at] = match random.below(10) {
        0 => 0,
        1 => PURGED,
        2 => YANK_DECK.word(),
        3 | 4 => image[other],
        5 => image[at] | random.within(1, 63) as u64,
        6 => image[at] & !(0o77 << (6 * random.within(1, 9))),
        7 => image[at] | (random.within(0o55, 0o77) as u64) << (6 * random.within(1, 9)),
        8 => new,
        _ => image[at] ^ 1 << random.below(60),
    };
}

/// The place of each card in the image, in stream order, and the card.
fn places(library: &Library) -> Vec<(usize, usize)> {
    let mut place = HEADER_WORDS + library.directory.len() + library.decks.len();
    let mut places = Vec::new();
    for &card in library.decks.iter().flat_map(|deck| &deck.cards) {
        places.push((place, card as usize));
        place += library.cards[card as usize].length();
    }
    places
}

/// A history too long, or with a number that falls, is purged, or is 0.
fn spoil_history(random: &mut Random, library: &mut Library) {
    let card = random.below(library.cards.len());
    let number = random.below(library.directory.len() + 1) as u16;
    let history = &mut library.cards[card].history;
    let byte = Byte { number: history[0].number, activating: random.chance(50) };
    if random.chance(15) {
        history.resize(MAX_BYTES + random.within(1, 3), byte);
    } else {
        history.push(Byte { number, ..byte });
    }
}

/// A card's first word, or its last history word, not as laid out; or words that form no card.
fn spoil_head(random: &mut Random, library: &Library, image: &mut Vec<u64>) {
    let places = places(library);
    let (place, card) = places[random.below(places.len())];
    let card = &library.cards[card];
    let last = place + card.length() - card.text.len() - 1;
    let head = &mut image[place];
    match random.below(9) {
        0 => *head |= 1 << random.within(54, 57),
        1 => *head &= !(0o777777 << 18),
        2 => *head &= !ACTIVATING_BYTE,
        3 => *head = *head & !0o177777 | (library.directory.len() + random.within(1, 3)) as u64,
        4 => *head |= 0o100000 << 36,
        5 => *head ^= LAST_HISTORY_WORD,
        6 if last > place => image[last] |= 1 << random.within(54, 58),
        7 => {
            image[last] &= !LAST_HISTORY_WORD;
            image.insert(last + 1, LAST_HISTORY_WORD | (random.below(2) as u64 * random.word()) >> 6);
        }
        _ => image.push(random.word() >> random.below(60)),
    }
}

fn spoil_text(random: &mut Random, library: &mut Library) {
    let card = random.below(library.cards.len());
    library.cards[card].text = spoiled_text(random);
}

fn set_line(library: &mut Library, card: usize, line: &[u8]) {
    library.cards[card].line = line.to_vec();
    library.cards[card].text = compress(line);
}

/// A deck card against the list: form, name, number, bytes, owner, or missing.
fn spoil_deck_card(random: &mut Random, library: &mut Library) {
    let deck = random.within(1, library.decks.len() - 1);
    let other = random.within(1, library.decks.len() - 1);
    let card = library.decks[deck].cards[0] as usize;
    let last = library.directory.len() as u16;
    match random.below(8) {
        0 => library.cards[card].sequence = random.within(2, 40) as u32,
        1 if library.name(last).is_some() => library.cards[card].history.push(Byte { number: last, activating: true }),
        2 => library.cards[card].history[0].number = library.cards[random.below(library.cards.len())].owner(),
        3 => set_line(library, card, b"*DECK"),
        4 => {
            let line = [&b"*DECK "[..], &bad_parameter(random)].concat();
            set_line(library, card, &line);
        }
        5 => {
            let line = [&b"*CD "[..], &library.decks[deck].name.bytes(), b",NOPROP"].concat();
            set_line(library, card, &line);
        }
        6 => {
            let line = text(random);
            set_line(library, card, &line);
        }
        _ => {
            let name = library.decks[deck].name;
            library.decks[deck].name = library.decks[other].name;
            library.decks[other].name = name;
        }
    }
}

fn add_stray_deck_card(random: &mut Random, library: &mut Library) {
    let card = random.below(library.cards.len());
    let name = match library.name(library.cards[card].owner()) {
        Some(name) if random.chance(60) => name.bytes(),
        _ => new_name(random, library),
    };
    let line = directive(random, DECK, &[name]);
    set_line(library, card, &line);
}

/// A card of YANK$$$ that is no YANK, a malformed one, or one that names what it may not.
fn spoil_yank_card(random: &mut Random, library: &mut Library) {
    let named = library.directory.iter().rposition(|entry| entry.name.is_some()).expect("a card has an owner");
    let last = named as u16 + 1;
    let card = match random.one_of(&library.decks[0].cards) {
        Some(card) if random.chance(70) => card as usize,
        _ => {
            let index = random.below(library.decks[0].cards.len() + 1);
            library.add_card(last, random.within(100, 200) as u32, b"", 0, index)
        }
    };
    let line = wrong_yank(random, library, library.cards[card].owner(), last);
    set_line(library, card, &line);
}

fn wrong_yank(random: &mut Random, library: &Library, owner: u16, last: u16) -> Vec<u8> {
    let name = match random.below(7) {
        0 => return text(random),
        1 => {
            return random
                .pick(&["*INSERT P.1", "*IDENT S", "*/", "*END", "*CALL Q", "*WEOR", "YANK S", "*YANK"])
                .as_bytes()
                .to_vec()
        }
        2 => bad_parameter(random),
        3 => new_name(random, library),
        4 => library.decks[random.below(library.decks.len())].name.bytes(),
        5 => library.name(owner).map_or_else(Vec::new, |name| name.bytes()),
        _ => library.name(last).map_or_else(Vec::new, |name| name.bytes()),
    };
    directive(random, YANK, &[name])
}

fn spoil_bit(random: &mut Random, library: &Library, image: &mut [u64]) {
    let places = places(library);
    let (place, card) = places[random.below(places.len())];
    let byte = random.below(library.cards[card].history.len());
    // Bytes 1, 2 and 3 stand in the second word, from bit 53 down.
    let (word, shift) = if byte == 0 { (place, 0) } else { (place + (byte + 2) / 3, 36 - 18 * ((byte + 2) % 3)) };
    if random.chance(35) {
        image[place] ^= ACTIVE_CARD;
    } else {
        image[word] ^= YANKED_BYTE << shift;
    }
}

/// A card that stands twice. A deck card would be refused for its place in the list, so a deck that has only that gets
/// another card of its identifier.
fn repeat_card(random: &mut Random, library: &mut Library) {
    let deck = random.below(library.decks.len());
    let (first, cards) = (deck.min(1), library.decks[deck].cards.len());
    if cards > first {
        let card = library.decks[deck].cards[random.within(first, cards - 1)];
        // A card of YANK$$$ is repeated there: in another deck it would be text, and a text would be refused in YANK$$$.
        let to = if deck == 0 { 0 } else { random.within(1, library.decks.len() - 1) };
        let at = random.within(to.min(1), library.decks[to].cards.len());
        library.decks[to].cards.insert(at, card);
    } else if deck > 0 {
        let owner = library.cards[library.decks[deck].cards[0] as usize].owner();
        library.add_card(owner, 1, b"TWICE", deck, cards);
    }
}
