//! RULES, "The compile file" and "The compile program".

use crate::check::check;
use crate::library::{Card, Library};
use crate::lines::call;
use crate::refusal::{Number, Refusal};
use crate::text::{Name, YANK_DECK};
use crate::words::unpack;

pub const LINE_BYTES: usize = 91;
pub const DEPTH: usize = 8;
pub const MAX_CALLS: usize = 4_096;
pub const PROGRAM_INPUT: usize = 30_720;
pub const PROGRAM_LINES: usize = 720;

const TEXT_COLUMNS: usize = 72;

/// A compile file, and the calls opened in writing it.
#[derive(Clone, Debug, PartialEq, Eq)]
pub struct CompileFile {
    pub bytes: Vec<u8>,
    pub calls: usize,
}

impl CompileFile {
    pub fn lines(&self) -> usize {
        self.bytes.len() / LINE_BYTES
    }
}

/// The full compile file of an image, for a space of `room` bytes.
pub fn compile(image: &[u64], room: usize) -> Result<CompileFile, Refusal> {
    write(&check(image)?, room)
}

/// The full compile file of a library.
pub fn write(library: &Library, room: usize) -> Result<CompileFile, Refusal> {
    let mut walk = Walk::new(library, room);
    for (index, deck) in library.decks.iter().enumerate().skip(1) {
        if !deck.common {
            walk.deck(index, DEPTH)?;
        }
    }
    Ok(walk.file)
}

/// The program: a packed library in, the file or the REFUSED line out.
pub fn program(input: &[u8]) -> Vec<u8> {
    match compile_packed(input) {
        Ok(file) => file.bytes,
        Err(refusal) => refused_line(refusal).into_bytes(),
    }
}

fn compile_packed(input: &[u8]) -> Result<CompileFile, Refusal> {
    if input.len() > PROGRAM_INPUT {
        return Err(Refusal::new(Number::ProgramInput, 0));
    }
    let image = unpack(input).map_err(|number| Refusal::new(number, 0))?;
    compile(&image, PROGRAM_LINES * LINE_BYTES)
}

fn refused_line(refusal: Refusal) -> String {
    let sequence = refusal.sequence.map_or(String::new(), |sequence| format!(" {}", sequence));
    format!("REFUSED {} {}{}\n", refusal.number as u32, refusal.place, sequence)
}

struct Walk<'a> {
    library: &'a Library,
    /// The active cards of each deck, without deck cards.
    active: Vec<Vec<&'a Card>>,
    room: usize,
    file: CompileFile,
}

impl<'a> Walk<'a> {
    fn new(library: &'a Library, room: usize) -> Walk<'a> {
        let yanked = library.settle();
        let active_of = |(index, deck): (usize, &'a crate::library::Deck)| {
            let deck_cards = if index == 0 { 0 } else { 1 };
            let cards = deck.cards.iter().skip(deck_cards).map(|&card| &library.cards[card as usize]);
            cards.filter(|card| card.is_active(&yanked)).collect()
        };
        let active = library.decks.iter().enumerate().map(active_of).collect();
        Walk { library, active, room, file: CompileFile { bytes: Vec::new(), calls: 0 } }
    }

    /// The active cards of a deck, in which `depth` more calls may nest.
    fn deck(&mut self, deck: usize, depth: usize) -> Result<(), Refusal> {
        for index in 0..self.active[deck].len() {
            let card = self.active[deck][index];
            let at_card = |number| Refusal::at_card(number, card.owner(), card.sequence);
            match call(&card.line) {
                None => self.line(card).map_err(at_card)?,
                Some(called) => {
                    let called = called.and_then(|name| self.open(name, depth)).map_err(at_card)?;
                    self.deck(called, depth - 1)?;
                }
            }
        }
        Ok(())
    }

    /// Opens a call: 40 to 43, in this order.
    fn open(&mut self, name: Name, depth: usize) -> Result<usize, Number> {
        if name == YANK_DECK {
            return Err(Number::CallOfNoCommonDeck);
        }
        let deck = self.library.number(name).and_then(|number| self.library.deck_of(number));
        let deck = deck.ok_or(Number::CallOfNoDeck)?;
        if !self.library.decks[deck].common {
            Err(Number::CallOfNoCommonDeck)
        } else if depth == 0 {
            Err(Number::Depth)
        } else if self.file.calls == MAX_CALLS {
            Err(Number::Calls)
        } else {
            self.file.calls += 1;
            Ok(deck)
        }
    }

    fn line(&mut self, card: &Card) -> Result<(), Number> {
        if self.file.bytes.len() + LINE_BYTES > self.room {
            return Err(Number::LineRoom);
        }
        let owner = self.library.name(card.owner()).expect("an owner has a name");
        self.file.bytes.extend_from_slice(&file_line(card, owner));
        Ok(())
    }
}

/// 72 columns of the line, a blank, the owner's name in 9 columns, the sequence number at the right end of 8, byte 10.
fn file_line(card: &Card, owner: Name) -> [u8; LINE_BYTES] {
    let mut line = [b' '; LINE_BYTES];
    let columns = card.line.len().min(TEXT_COLUMNS);
    line[..columns].copy_from_slice(&card.line[..columns]);
    let name = owner.bytes();
    line[TEXT_COLUMNS + 1..][..name.len()].copy_from_slice(&name);
    let sequence = card.sequence.to_string();
    line[LINE_BYTES - 1 - sequence.len()..LINE_BYTES - 1].copy_from_slice(sequence.as_bytes());
    line[LINE_BYTES - 1] = 10;
    line
}
