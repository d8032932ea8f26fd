//! RULES, "The merge": the merge of two libraries. The second goes behind the first: directory behind directory, YANK$$$ behind
//! YANK$$$, decks behind decks.

use crate::check::check;
use crate::library::{Byte, Card, Deck, Entry, Library, HEADER_WORDS, MAX_CARDS, MAX_DECKS, MAX_NAMES, MAX_WORDS};
use crate::refusal::{Number, Refusal};

/// The library that a refusal speaks of, by its number in the answer.
#[derive(Clone, Copy, Debug, PartialEq, Eq, PartialOrd, Ord)]
pub enum Which {
    Merged = 0,
    First = 1,
    Second = 2,
}

/// A refusal of a merge.
#[derive(Clone, Copy, Debug, PartialEq, Eq)]
pub struct Refused {
    pub refusal: Refusal,
    pub which: Which,
}

impl Refused {
    pub fn new(number: Number, place: usize, which: Which) -> Refused {
        Refused { refusal: Refusal::new(number, place), which }
    }
}

/// The merged library of two images, for a space of `room` words: rows 1 to 10 of the first, of the second, 37, 31, 32.
pub fn merge(first: &[u64], second: &[u64], room: usize) -> Result<Vec<u64>, Refused> {
    let first = check(first).map_err(|refusal| Refused { refusal, which: Which::First })?;
    let second = check(second).map_err(|refusal| Refused { refusal, which: Which::Second })?;
    if let Some(place) = common_name(&first, &second) {
        return Err(Refused::new(Number::CommonName, place, Which::Second));
    }
    let merged = joined(first, second);
    if passes_limit(&merged) {
        return Err(Refused::new(Number::Limit, 0, Which::Merged));
    }
    if merged.length() > room {
        return Err(Refused::new(Number::NewLength, 0, Which::Merged));
    }
    Ok(merged.image())
}

/// The first directory word of the second library whose name the first has. A purged entry is no name.
fn common_name(first: &Library, second: &Library) -> Option<usize> {
    let known = |entry: &Entry| entry.name.map_or(false, |name| first.number(name).is_some());
    second.directory.iter().position(known).map(|index| HEADER_WORDS + index)
}

/// Row 31 of the merged library.
fn passes_limit(merged: &Library) -> bool {
    merged.directory.len() > MAX_NAMES
        || merged.decks.len() > MAX_DECKS
        || merged.cards.len() > MAX_CARDS
        || merged.length() > MAX_WORDS
}

/// The two libraries in one. No name is in both.
pub fn joined(first: Library, second: Library) -> Library {
    let shift = Shift::behind(&first);
    let mut merged = first;
    merged.directory.extend(second.directory.into_iter().map(|entry| shift.entry(entry)));
    merged.cards.extend(second.cards.into_iter().map(|card| shift.card(card)));
    merged.numbers.extend(second.numbers.into_iter().map(|(name, number)| (name, shift.number(number))));
    merged.identifiers.extend(second.identifiers.into_iter().map(|identifier| shift.identifier(identifier)));
    let mut decks = second.decks.into_iter().map(|deck| shift.deck(deck));
    merged.decks[0].cards.extend(decks.next().expect("a library begins with YANK$$$").cards);
    merged.decks.extend(decks);
    merged
}

/// How far the second library's directory numbers, decks and cards move on.
struct Shift {
    numbers: u16,
    decks: usize,
    cards: u32,
}

impl Shift {
    fn behind(first: &Library) -> Shift {
        Shift { numbers: first.directory.len() as u16, decks: first.decks.len() - 1, cards: first.cards.len() as u32 }
    }

    fn number(&self, number: u16) -> u16 {
        number + self.numbers
    }

    /// The second's YANK$$$ becomes a part of the first's, which is deck 0.
    fn place(&self, deck: usize) -> usize {
        match deck {
            0 => 0,
            deck => deck + self.decks,
        }
    }

    fn identifier(&self, ((owner, sequence), card): ((u16, u32), u32)) -> ((u16, u32), u32) {
        ((self.number(owner), sequence), card + self.cards)
    }

    fn entry(&self, entry: Entry) -> Entry {
        Entry { deck: entry.deck.map(|deck| self.place(deck)), ..entry }
    }

    fn deck(&self, deck: Deck) -> Deck {
        Deck { cards: deck.cards.iter().map(|card| card + self.cards).collect(), ..deck }
    }

    /// A card with its directory numbers raised, in its history and among the sets it yanks; all else stays.
    fn card(&self, card: Card) -> Card {
        let raised = |byte: &Byte| Byte { number: self.number(byte.number), ..*byte };
        Card {
            history: card.history.iter().map(raised).collect(),
            deck: self.place(card.deck),
            yanks: card.yanks.iter().map(|&number| self.number(number)).collect(),
            ..card
        }
    }
}
