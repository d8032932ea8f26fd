//! RULES, "Libraries" and "When a card is active": a library as decks of cards.

use std::collections::HashMap;

use crate::lines::Kind;
use crate::text::{compress, Name, YANK_DECK};
use crate::words::WORD_END;

pub const MAX_WORDS: usize = 65_536;
pub const MAX_NAMES: usize = 1_023;
pub const MAX_DECKS: usize = 255;
pub const MAX_BYTES: usize = 64;
pub const MAX_CARDS: usize = 16_383;

/// CHECK, character set 4, Y and `*`.
pub const HEADER: u64 = 0o03100503130004003147;
pub const PURGED: u64 = 0o20;
pub const HEADER_WORDS: usize = 2;
/// The fresh library: no directory, and the deck YANK$$$ without cards.
pub const FRESH: [u64; 3] = [HEADER, 1, 0o31011613535353000000];

pub const LAST_HISTORY_WORD: u64 = 1 << 59;
pub const ACTIVE_CARD: u64 = 1 << 58;
pub const YANKED_BYTE: u64 = 1 << 17;
pub const ACTIVATING_BYTE: u64 = 1 << 16;

/// A correction history byte. Its yank bit follows from the library and is not kept.
#[derive(Clone, Copy, Debug, PartialEq, Eq)]
pub struct Byte {
    pub number: u16,
    pub activating: bool,
}

#[derive(Clone, Debug, PartialEq, Eq)]
pub struct Card {
    pub sequence: u32,
    pub history: Vec<Byte>,
    /// The line without trailing blanks, and its compressed words.
    pub line: Vec<u8>,
    pub text: Vec<u64>,
    /// The deck that the card stands in.
    pub deck: usize,
    /// For a card of YANK$$$, the numbers of the sets it names.
    pub yanks: Vec<u16>,
}

/// A directory entry; a purged one has no name.
#[derive(Clone, Copy, Debug, PartialEq, Eq)]
pub struct Entry {
    pub name: Option<Name>,
    /// The deck of that name; a set has none.
    pub deck: Option<usize>,
}

#[derive(Clone, Debug, PartialEq, Eq)]
pub struct Deck {
    pub name: Name,
    pub common: bool,
    /// The cards in stream order, as indexes of `Library::cards`. A deck card comes first, but YANK$$$ has none.
    pub cards: Vec<u32>,
}

/// A library in the form that the check accepts. Decks are numbered from 0, which is YANK$$$.
#[derive(Clone, Debug)]
pub struct Library {
    pub directory: Vec<Entry>,
    pub decks: Vec<Deck>,
    pub cards: Vec<Card>,
    pub numbers: HashMap<Name, u16>,
    /// Owner and sequence number of each card.
    pub identifiers: HashMap<(u16, u32), u32>,
}

/// Which directory numbers are yanked, at the number as index.
pub type Yanked = Vec<bool>;

impl Card {
    pub fn owner(&self) -> u16 {
        self.history[0].number
    }

    /// Of the bytes whose numbers are not yanked the last one says it; without any the card is not active.
    pub fn is_active(&self, yanked: &Yanked) -> bool {
        let last = self.history.iter().rev().find(|byte| !yanked[usize::from(byte.number)]);
        last.map_or(false, |byte| byte.activating)
    }

    /// The words it takes in an image.
    pub fn length(&self) -> usize {
        history_words(self.history.len()) + self.text.len()
    }

    fn write(&self, yanked: &Yanked, image: &mut Vec<u64>) {
        let bytes: Vec<u64> = self.history.iter().map(|byte| byte.word(yanked)).collect();
        let activity = if self.is_active(yanked) { ACTIVE_CARD } else { 0 };
        let first = image.len();
        image.push(activity | (self.text.len() as u64) << 36 | u64::from(self.sequence) << 18 | bytes[0]);
        for three in bytes[1..].chunks(3) {
            image.push(three.iter().zip([36, 18, 0]).fold(0, |word, (byte, low)| word | byte << low));
        }
        let last = image.len() - 1;
        debug_assert_eq!(last + 1 - first, history_words(bytes.len()));
        image[last] |= LAST_HISTORY_WORD;
        image.extend_from_slice(&self.text);
    }
}

impl Byte {
    fn word(self, yanked: &Yanked) -> u64 {
        let yank = if yanked[usize::from(self.number)] { YANKED_BYTE } else { 0 };
        let activating = if self.activating { ACTIVATING_BYTE } else { 0 };
        yank | activating | u64::from(self.number)
    }
}

/// One byte in a card's first word, three in each word after it.
pub fn history_words(bytes: usize) -> usize {
    1 + (bytes + 1) / 3
}

impl Library {
    pub fn number(&self, name: Name) -> Option<u16> {
        self.numbers.get(&name).copied()
    }

    pub fn name(&self, number: u16) -> Option<Name> {
        self.directory[usize::from(number) - 1].name
    }

    /// The deck of a name in the directory.
    pub fn deck_of(&self, number: u16) -> Option<usize> {
        self.directory[usize::from(number) - 1].deck
    }

    /// Adds a name to the directory's end.
    pub fn add_name(&mut self, name: Name) -> u16 {
        self.directory.push(Entry { name: Some(name), deck: None });
        let number = self.directory.len() as u16;
        self.numbers.insert(name, number);
        number
    }

    /// Adds a deck after all others, without its deck card.
    pub fn add_deck(&mut self, number: u16, name: Name, kind: Kind) {
        self.directory[usize::from(number) - 1].deck = Some(self.decks.len());
        self.decks.push(Deck { name, common: kind == Kind::Comdeck, cards: Vec::new() });
    }

    /// Puts a new card of `owner` at an index of a deck.
    pub fn add_card(&mut self, owner: u16, sequence: u32, line: &[u8], deck: usize, index: usize) -> usize {
        let card = self.cards.len();
        self.decks[deck].cards.insert(index, card as u32);
        self.identifiers.insert((owner, sequence), card as u32);
        self.cards.push(Card {
            sequence,
            history: vec![Byte { number: owner, activating: true }],
            line: crate::text::trimmed(line).to_vec(),
            text: compress(line),
            deck,
            yanks: Vec::new(),
        });
        card
    }

    /// The deck and the index in it where a card stands.
    pub fn position(&self, card: u32) -> (usize, usize) {
        let deck = self.cards[card as usize].deck;
        let index = self.decks[deck].cards.iter().position(|&other| other == card);
        (deck, index.expect("a card stands in its deck"))
    }

    /// Settles the yanks, the highest owners first: a card of YANK$$$ names only numbers below its owner's, and
    /// its bytes have no lower ones, so its activity is known once all cards of higher owners are done.
    pub fn settle(&self) -> Yanked {
        let mut yanked = vec![false; self.directory.len() + 1];
        let mut cards: Vec<&Card> = self.decks[0].cards.iter().map(|&card| &self.cards[card as usize]).collect();
        cards.sort_by_key(|card| std::cmp::Reverse(card.owner()));
        for card in cards {
            if card.is_active(&yanked) {
                card.yanks.iter().for_each(|&number| yanked[usize::from(number)] = true);
            }
        }
        yanked
    }

    /// The words of its image.
    pub fn length(&self) -> usize {
        let tables = HEADER_WORDS + self.directory.len() + self.decks.len();
        tables + self.cards.iter().map(Card::length).sum::<usize>()
    }

    /// Its image, with the bits settled.
    pub fn image(&self) -> Vec<u64> {
        let yanked = self.settle();
        let mut image = vec![HEADER, (self.directory.len() as u64) << 18 | self.decks.len() as u64];
        image.extend(self.directory.iter().map(|entry| entry.name.map_or(PURGED, Name::word)));
        image.extend(self.decks.iter().map(|deck| deck.name.word()));
        for &card in self.decks.iter().flat_map(|deck| &deck.cards) {
            self.cards[card as usize].write(&yanked, &mut image);
        }
        debug_assert!(image.iter().all(|&word| word < WORD_END));
        image
    }

    pub fn fresh() -> Library {
        Library {
            directory: Vec::new(),
            decks: vec![Deck { name: YANK_DECK, common: false, cards: Vec::new() }],
            cards: Vec::new(),
            numbers: HashMap::new(),
            identifiers: HashMap::new(),
        }
    }
}
