//! RULES, "Units", "Corrections" and "The run": a correction run.

use crate::check::check;
use crate::library::{history_words, Byte, Library, Yanked, MAX_BYTES, MAX_CARDS, MAX_DECKS, MAX_NAMES, MAX_WORDS};
use crate::lines::{lines, read, CardName, Kind, Line};
use crate::refusal::{Number, Refusal};
use crate::text::{code, Name, COLUMNS, YANK_DECK};

pub const MAX_STREAM: usize = 262_144;

/// The new library of a run, for a space of `room` words.
pub fn run(image: &[u64], stream: &[u8], room: usize) -> Result<Vec<u64>, Refusal> {
    let library = check(image)?;
    let new = apply(library, stream)?.image();
    if new.len() > room {
        return Err(Refusal::new(Number::NewLength, 0));
    }
    Ok(new)
}

/// A library after a stream: 19, then line by line.
pub fn apply(library: Library, stream: &[u8]) -> Result<Library, Refusal> {
    if stream.len() > MAX_STREAM {
        return Err(Refusal::new(Number::StreamLength, 0));
    }
    let mut run = Run::new(library);
    for (index, line) in lines(stream).enumerate() {
        run.line(line).map_err(|number| Refusal::new(number, index + 1))?;
    }
    Ok(run.library)
}

/// The unit that new cards belong to.
#[derive(Clone, Copy)]
struct Unit {
    kind: Kind,
    number: u16,
    next_sequence: u32,
}

/// Where a text line goes.
#[derive(Clone, Copy)]
enum Spot {
    Nowhere,
    /// After a DELETE or RESTORE in YANK$$$.
    InYankDeck,
    At {
        deck: usize,
        index: usize,
    },
}

/// A run between two lines. After a refused line it is of no more use.
pub struct Run {
    pub library: Library,
    unit: Option<Unit>,
    spot: Spot,
    /// The words of the library's image.
    length: usize,
    /// The settled yanks, until a card of YANK$$$ changes.
    yanked: Option<Yanked>,
}

/// A place for a card, by deck and index, in stream order.
type Position = (usize, usize);

impl Run {
    pub fn new(library: Library) -> Run {
        let length = library.length();
        Run { library, unit: None, spot: Spot::Nowhere, length, yanked: None }
    }

    /// The kind of the unit that the next line is in.
    pub fn unit_kind(&self) -> Option<Kind> {
        self.unit.map(|unit| unit.kind)
    }

    /// Whether a text line has somewhere to go.
    pub fn takes_text(&self) -> bool {
        matches!(self.spot, Spot::At { .. })
    }

    pub fn line(&mut self, line: &[u8]) -> Result<(), Number> {
        if line.iter().any(|&byte| code(byte).is_none()) {
            return Err(Number::Character);
        }
        if line.len() > COLUMNS {
            return Err(Number::Columns);
        }
        match read(line)? {
            Line::Skipped => Ok(()),
            Line::Text => self.text(line),
            Line::Unit(kind, name) => self.start_unit(kind, name, line),
            Line::Insert(card) => self.insert(card, 1),
            Line::Before(card) => self.insert(card, 0),
            Line::Delete(first, last) => self.correct(first, last, false),
            Line::Restore(first, last) => self.correct(first, last, true),
            Line::Yank(names) => self.yank(&names, line),
        }
    }

    /// The set of a correction, 24 outside one.
    fn set(&self) -> Result<u16, Number> {
        match self.unit {
            Some(Unit { kind: Kind::Ident, number, .. }) => Ok(number),
            _ => Err(Number::Nowhere),
        }
    }

    fn start_unit(&mut self, kind: Kind, name: Name, line: &[u8]) -> Result<(), Number> {
        if name == YANK_DECK || self.library.number(name).is_some() {
            return Err(Number::KnownName);
        }
        let number = self.library.add_name(name);
        // The settled yanks have no place for the new number.
        self.yanked = None;
        self.unit = Some(Unit { kind, number, next_sequence: 1 });
        self.spot = Spot::Nowhere;
        self.grow(1)?;
        within(self.library.directory.len(), MAX_NAMES)?;
        if kind == Kind::Ident {
            return Ok(());
        }
        self.library.add_deck(number, name, kind);
        self.grow(1)?;
        within(self.library.decks.len(), MAX_DECKS)?;
        self.spot = Spot::At { deck: self.library.decks.len() - 1, index: 0 };
        self.text(line)
    }

    /// A text line, or a deck card: the next card of the unit.
    fn text(&mut self, line: &[u8]) -> Result<(), Number> {
        match self.spot {
            Spot::Nowhere => Err(Number::Nowhere),
            Spot::InYankDeck => Err(Number::BarredCard),
            Spot::At { deck, index } => {
                self.spot = Spot::At { deck, index: index + 1 };
                self.add_card(line, deck, index).map(|_| ())
            }
        }
    }

    fn add_card(&mut self, line: &[u8], deck: usize, index: usize) -> Result<usize, Number> {
        let unit = self.unit.as_mut().expect("a card is added in a unit");
        let card = self.library.add_card(unit.number, unit.next_sequence, line, deck, index);
        unit.next_sequence += 1;
        within(self.library.cards.len(), MAX_CARDS)?;
        self.grow(self.library.cards[card].length())?;
        Ok(card)
    }

    /// INSERT and BEFORE: text goes `after` or ahead of the card.
    fn insert(&mut self, card: CardName, after: usize) -> Result<(), Number> {
        self.set()?;
        let (deck, index) = self.find(card)?;
        // Ahead of index 0 of a deck is ahead of its deck card.
        if deck == 0 || index + after == 0 {
            return Err(Number::BarredCard);
        }
        self.spot = Spot::At { deck, index: index + after };
        Ok(())
    }

    /// DELETE and RESTORE: a byte of this set for each card of the range that is not yet as asked.
    fn correct(&mut self, first: CardName, last: CardName, activating: bool) -> Result<(), Number> {
        let number = self.set()?;
        let (first, last) = (self.find(first)?, self.find(last)?);
        check_range(first, last)?;
        let deck = last.0;
        for card in self.cards_of_activity(first, last, !activating) {
            self.add_byte(card, Byte { number, activating })?;
        }
        if deck == 0 {
            self.yanked = None;
            self.spot = Spot::InYankDeck;
        } else {
            self.spot = Spot::At { deck, index: last.1 + 1 };
        }
        Ok(())
    }

    /// The cards of a range within one deck that are active, or not, before the directive.
    fn cards_of_activity(&mut self, first: Position, last: Position, active: bool) -> Vec<usize> {
        let library = &self.library;
        let yanked = self.yanked.get_or_insert_with(|| library.settle());
        let range = library.decks[first.0].cards[first.1..=last.1].iter();
        range.map(|&card| card as usize).filter(|&card| library.cards[card].is_active(yanked) == active).collect()
    }

    fn add_byte(&mut self, card: usize, byte: Byte) -> Result<(), Number> {
        let history = &mut self.library.cards[card].history;
        let words = history_words(history.len());
        history.push(byte);
        let bytes = history.len();
        within(bytes, MAX_BYTES)?;
        self.grow(history_words(bytes) - words)
    }

    /// YANK: a new card, the last of YANK$$$; no text can follow it.
    fn yank(&mut self, names: &[Name], line: &[u8]) -> Result<(), Number> {
        let set = self.set()?;
        let refused = names.iter().filter_map(|&name| self.yank_refusal(name, set)).min();
        if let Some(number) = refused {
            return Err(number);
        }
        let yanks = names.iter().filter_map(|&name| self.library.number(name)).collect();
        let card = self.add_card(line, 0, self.library.decks[0].cards.len())?;
        self.library.cards[card].yanks = yanks;
        self.yanked = None;
        self.spot = Spot::Nowhere;
        Ok(())
    }

    fn yank_refusal(&self, name: Name, set: u16) -> Option<Number> {
        if name == YANK_DECK {
            return Some(Number::BarredYank);
        }
        match self.library.number(name) {
            None => Some(Number::UnknownYank),
            Some(number) if number == set || self.library.deck_of(number).is_some() => Some(Number::BarredYank),
            Some(_) => None,
        }
    }

    fn find(&self, card: CardName) -> Result<Position, Number> {
        let owner = self.library.number(card.owner).ok_or(Number::NotFound)?;
        let card = self.library.identifiers.get(&(owner, card.sequence)).ok_or(Number::NotFound)?;
        Ok(self.library.position(*card))
    }

    fn grow(&mut self, words: usize) -> Result<(), Number> {
        self.length += words;
        within(self.length, MAX_WORDS)
    }
}

/// Row 31.
fn within(count: usize, limit: usize) -> Result<(), Number> {
    if count <= limit {
        Ok(())
    } else {
        Err(Number::Limit)
    }
}

/// Rows 29 and 30 for a range. One that reaches into a later deck goes over that deck's card.
fn check_range(first: Position, last: Position) -> Result<(), Number> {
    let over_deck_card = first.0 != last.0 || (first.0 != 0 && first.1 == 0);
    if first > last {
        Err(Number::Backwards)
    } else if over_deck_card {
        Err(Number::BarredCard)
    } else {
        Ok(())
    }
}
