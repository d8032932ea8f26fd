//! Libraries grown towards a limit, for merges that reach it or pass it.

use super::limits::numbered;
use crate::library::{Entry, Library, FRESH, MAX_CARDS, MAX_DECKS, MAX_NAMES, MAX_WORDS};
use crate::lines::Kind;

/// What is limited in a library, and row 31 in a merged one.
#[derive(Clone, Copy, Debug, PartialEq, Eq)]
pub enum Limit {
    Names,
    Decks,
    Cards,
    Words,
}

pub const LIMITS: [Limit; 4] = [Limit::Names, Limit::Decks, Limit::Cards, Limit::Words];

/// The words of a deck with its deck card alone, and of the longest card of one byte.
const DECK_WORDS: usize = 4;
const LONGEST: usize = 17;

impl Limit {
    pub fn most(self) -> usize {
        match self {
            Limit::Names => MAX_NAMES,
            Limit::Decks => MAX_DECKS,
            Limit::Cards => MAX_CARDS,
            Limit::Words => MAX_WORDS,
        }
    }

    /// How much a library has of it.
    pub fn of(self, library: &Library) -> usize {
        match self {
            Limit::Names => library.directory.len(),
            Limit::Decks => library.decks.len(),
            Limit::Cards => library.cards.len(),
            Limit::Words => library.length(),
        }
    }

    /// How much two libraries have of it when merged: what the fresh library has, both have, and it counts once.
    pub fn of_both(self, first: &Library, second: &Library) -> usize {
        self.of(first) + self.of(second) - self.of(&Library::fresh())
    }

    /// Adds that much of it to a library, under names of the letter and a number.
    pub fn grow(self, library: &mut Library, much: usize, letter: char) {
        match self {
            Limit::Names => (0..much).for_each(|index| add_entry(library, letter, index)),
            Limit::Decks => (0..much).for_each(|index| {
                add_deck(library, letter, index);
            }),
            Limit::Cards if much > 0 => add_blank_cards(library, much - 1, letter),
            Limit::Cards => {}
            Limit::Words if much >= DECK_WORDS => add_long_cards(library, much - DECK_WORDS, letter),
            Limit::Words => (0..much).for_each(|index| add_entry(library, letter, index)),
        }
    }
}

/// The words of two libraries merged.
pub fn merged_length(first: &Library, second: &Library) -> usize {
    first.length() + second.length() - FRESH.len()
}

/// A set without cards, or a purged entry, by turns.
fn add_entry(library: &mut Library, letter: char, index: usize) {
    if index % 2 == 0 {
        library.add_name(numbered(letter, index));
    } else {
        library.directory.push(Entry { name: None, deck: None });
    }
}

/// A deck with its deck card; answers the number of its name.
fn add_deck(library: &mut Library, letter: char, index: usize) -> u16 {
    let name = numbered(letter, index);
    let (number, deck) = (library.add_name(name), library.decks.len());
    library.add_deck(number, name, Kind::Deck);
    library.add_card(number, 1, &[b"*DECK ", &name.bytes()[..]].concat(), deck, 0);
    number
}

/// A deck of that many blank cards.
fn add_blank_cards(library: &mut Library, cards: usize, letter: char) {
    let number = add_deck(library, letter, 0);
    (0..cards).for_each(|_| add_last_card(library, number, b""));
}

/// A deck whose cards take that many words, none more than the longest.
fn add_long_cards(library: &mut Library, words: usize, letter: char) {
    let number = add_deck(library, letter, 0);
    let mut left = words;
    while left > 0 {
        let length = left.min(LONGEST);
        add_last_card(library, number, &vec![b':'; (length - 1) * 5]);
        left -= length;
    }
}

/// A card at the end of the last deck.
fn add_last_card(library: &mut Library, owner: u16, line: &[u8]) {
    let deck = library.decks.len() - 1;
    let index = library.decks[deck].cards.len();
    library.add_card(owner, index as u32 + 1, line, deck, index);
}
