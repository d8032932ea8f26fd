//! Streams for runs: lines that a run accepts, and lines that answer a wanted number.

use super::random::Random;
use super::texts::{
    bad_parameter, blanks, card_name, directive, name, new_name, text, BEFORE, CALL, COMDECK, DECK, DELETE, IDENT, INSERT,
    RESTORE, YANK,
};
use crate::library::Library;
use crate::lines::{Kind, NOT_CARRIED};
use crate::refusal::Number;
use crate::run::Run;
use crate::text::{code, COLUMNS};

/// A stream in the making, and the run that it makes.
pub struct Draft {
    pub run: Run,
    pub stream: Vec<u8>,
    pub refused: Option<Number>,
}

impl Draft {
    pub fn new(library: Library) -> Draft {
        Draft { run: Run::new(library), stream: Vec::new(), refused: None }
    }

    /// Adds a line; the run takes it, until one is refused.
    pub fn line(&mut self, line: &[u8]) {
        self.stream.extend_from_slice(line);
        self.stream.push(10);
        if self.refused.is_none() {
            self.refused = self.run.line(line).err();
        }
    }

    /// Adds lines that the run should accept.
    pub fn good_lines(&mut self, random: &mut Random, count: usize) {
        for _ in 0..count {
            let line = good_line(random, &self.run);
            self.line(&line);
        }
    }

    /// Adds a set of a few corrections that the run should accept, and answers its name.
    pub fn good_set(&mut self, random: &mut Random) -> Vec<u8> {
        let name = new_name(random, self.library());
        let line = directive(random, IDENT, std::slice::from_ref(&name));
        self.line(&line);
        for _ in 0..random.within(1, 4) {
            if let Some(line) = correction(random, self.library()) {
                self.line(&line);
            }
            if self.run.takes_text() && random.chance(40) {
                let line = text_or_call(random, self.library());
                self.line(&line);
            }
        }
        name
    }

    /// The stream, sometimes without its last byte 10.
    pub fn stream(mut self, random: &mut Random) -> Vec<u8> {
        if random.chance(25) && self.stream.last() == Some(&10) && !self.stream.ends_with(b"\n\n") {
            self.stream.pop();
        }
        self.stream
    }

    fn library(&self) -> &Library {
        &self.run.library
    }

    /// Adds a line that starts a set of a new name.
    pub fn start_set(&mut self, random: &mut Random) {
        let name = new_name(random, self.library());
        let line = directive(random, IDENT, &[name]);
        self.line(&line);
    }

    fn be_in_set(&mut self, random: &mut Random) {
        if self.run.unit_kind() != Some(Kind::Ident) {
            self.start_set(random);
        }
    }

    /// Adds lines of which the last should answer the number.
    pub fn wrong_line(&mut self, random: &mut Random, number: Number) {
        match number {
            Number::Nowhere => self.prepare_nowhere(random),
            Number::BarredCard if random.chance(30) => self.delete_in_yank_deck(random),
            number if number > Number::KnownName => self.be_in_set(random),
            _ => {}
        }
        let line = match number {
            Number::Character => strange_line(random, &self.run),
            Number::Columns => long_line(random, &self.run),
            Number::DirectiveForm => malformed(random, self.library()),
            Number::NotCarried => not_carried(random, self.library()),
            Number::KnownName => known_unit(random, self.library()),
            Number::UnknownYank => unknown_yank(random, self.library()),
            Number::BarredYank => barred_yank(random, self.library()),
            Number::NotFound => not_found(random, self.library()),
            Number::Backwards => backwards(random, self.library()),
            Number::BarredCard if !self.run.takes_text() && random.chance(50) => text(random),
            Number::BarredCard => barred_card(random, self.library()),
            Number::Nowhere if self.run.unit_kind() != Some(Kind::Ident) => {
                if self.run.takes_text() || random.chance(60) {
                    correction(random, self.library()).unwrap_or_else(|| b"*INSERT P.1".to_vec())
                } else {
                    text(random)
                }
            }
            _ => text(random),
        };
        self.line(&line);
    }

    /// Goes where text has nowhere to go, or corrections are outside a set.
    fn prepare_nowhere(&mut self, random: &mut Random) {
        if self.run.unit_kind() != Some(Kind::Ident) && random.chance(50) {
            return;
        }
        self.start_set(random);
        if let Some(line) = yank(random, self.library()).filter(|_| random.chance(50)) {
            self.line(&line);
        }
    }

    fn delete_in_yank_deck(&mut self, random: &mut Random) {
        self.be_in_set(random);
        if let Some(line) = range_in(random, self.library(), 0) {
            self.line(&line);
        }
    }
}

/// A line that a run accepts where it stands.
fn good_line(random: &mut Random, run: &Run) -> Vec<u8> {
    let library = &run.library;
    if random.chance(4) {
        return skipped(random);
    }
    let text_share = match run.unit_kind() {
        None => 0,
        Some(Kind::Ident) => 45,
        Some(_) => 80,
    };
    if run.takes_text() && random.chance(text_share) {
        return text_or_call(random, library);
    }
    let correction = match run.unit_kind() {
        Some(Kind::Ident) if random.chance(88) => correction(random, library),
        _ => None,
    };
    correction.unwrap_or_else(|| unit(random, library))
}

fn skipped(random: &mut Random) -> Vec<u8> {
    random.pick(&["*/", "*/ COMMENT", "*/DECK P", "*END", "*END P,,", "*END,"]).as_bytes().to_vec()
}

fn unit(random: &mut Random, library: &Library) -> Vec<u8> {
    let spelling = match random.below(10) {
        0..=2 => DECK,
        3 => COMDECK,
        _ if library.decks.len() == 1 => DECK,
        _ => IDENT,
    };
    let name = new_name(random, library);
    directive(random, spelling, &[name])
}

fn text_or_call(random: &mut Random, library: &Library) -> Vec<u8> {
    let common: Vec<&crate::library::Deck> = library.decks.iter().filter(|deck| deck.common).collect();
    match random.one_of(&common) {
        Some(deck) if random.chance(15) => directive(random, CALL, &[deck.name.bytes()]),
        _ => text(random),
    }
}

/// A correction that a set accepts, where the library has something to correct.
fn correction(random: &mut Random, library: &Library) -> Option<Vec<u8>> {
    match random.below(10) {
        0..=3 => insertion(random, library),
        4..=6 => corrected_range(random, library),
        7 | 8 => yank(random, library),
        _ => range_in(random, library, 0),
    }
}

fn insertion(random: &mut Random, library: &Library) -> Option<Vec<u8>> {
    let deck = random_deck(random, library)?;
    let (spelling, first) = if random.chance(60) { (INSERT, 0) } else { (BEFORE, 1) };
    let card = random.one_of(&library.decks[deck].cards[first..])?;
    let card = card_name(random, library, card);
    Some(directive(random, spelling, &[card]))
}

fn corrected_range(random: &mut Random, library: &Library) -> Option<Vec<u8>> {
    let deck = random_deck(random, library)?;
    range_in(random, library, deck)
}

fn random_deck(random: &mut Random, library: &Library) -> Option<usize> {
    let decks: Vec<usize> = (1..library.decks.len()).collect();
    random.one_of(&decks)
}

/// DELETE or RESTORE of a card or range in a deck, past its deck card.
fn range_in(random: &mut Random, library: &Library, deck: usize) -> Option<Vec<u8>> {
    let cards = &library.decks[deck].cards;
    let start = deck.min(1);
    if cards.len() <= start {
        return None;
    }
    let first = random.within(start, cards.len() - 1);
    let last = random.within(first, cards.len() - 1).min(first + 4);
    let spelling = if random.chance(65) { DELETE } else { RESTORE };
    let mut parameters = vec![card_name(random, library, cards[first])];
    if last > first || random.chance(15) {
        parameters.push(card_name(random, library, cards[last]));
    }
    Some(directive(random, spelling, &parameters))
}

/// The sets that the open set, which is the last name, may yank.
fn yankable(library: &Library) -> Vec<Vec<u8>> {
    let names = library.directory.iter().take(library.directory.len().saturating_sub(1));
    names.filter(|entry| entry.deck.is_none()).filter_map(|entry| entry.name).map(|name| name.bytes()).collect()
}

/// A YANK that the open set may give, where there is a set to yank.
pub fn yank(random: &mut Random, library: &Library) -> Option<Vec<u8>> {
    let mut names = yankable(library);
    if names.is_empty() {
        return None;
    }
    random.shuffle(&mut names);
    names.truncate(random.within(1, 3));
    if random.chance(5) {
        names.push(names[0].clone());
    }
    Some(directive(random, YANK, &names))
}

/// 20: a line with a byte that is no character, sometimes too long as well.
fn strange_line(random: &mut Random, run: &Run) -> Vec<u8> {
    let mut line = if random.chance(20) { long_line(random, run) } else { good_line(random, run) };
    let byte = match random.below(8) {
        0 => b'a',
        1 => b'\t',
        2 => b'\r',
        3 => 0,
        4 => random.within(128, 255) as u8,
        _ => random.below(256) as u8,
    };
    let byte = if code(byte).is_none() && byte != 10 { byte } else { b'`' };
    line.insert(random.below(line.len() + 1), byte);
    line
}

/// 21: a line of more than 80 columns.
fn long_line(random: &mut Random, run: &Run) -> Vec<u8> {
    let mut line = good_line(random, run);
    let fill = if random.chance(50) { b' ' } else { b'X' };
    let columns = if random.chance(60) { COLUMNS + 1 } else { random.within(COLUMNS + 1, COLUMNS + 20) };
    line.resize(columns, fill);
    line
}

/// 22: a directive with one fault of form.
fn malformed(random: &mut Random, library: &Library) -> Vec<u8> {
    let spelling = *random.pick(&[&DECK, &COMDECK, &IDENT, &INSERT, &BEFORE, &DELETE, &RESTORE, &YANK]);
    let mut good = if [DECK, COMDECK, IDENT, YANK].contains(&spelling) {
        name(random)
    } else {
        some_card(random, library).unwrap_or_else(|| b"P.2".to_vec())
    };
    let extra = good.clone();
    match random.below(8) {
        0 => directive(random, spelling, &[]),
        1 => [directive(random, spelling, &[good]), b" JUNK".to_vec()].concat(),
        2 => directive(random, spelling, &[good, Vec::new()]),
        3 => directive(random, spelling, &[Vec::new(), good]),
        4 => directive(random, spelling, &[good, blanks(1), extra]),
        5 if spelling != YANK => directive(random, spelling, &[good, extra.clone(), extra]),
        6 => {
            good.insert(random.below(good.len() + 1), *random.pick(&[&b'?', &b' ', &b';', &b'.']));
            directive(random, spelling, &[good])
        }
        _ => {
            let bad = bad_parameter(random);
            directive(random, spelling, &[bad])
        }
    }
}

/// 23: a name of UPDATE that is not carried, or a second parameter of IDENT or COMDECK.
fn not_carried(random: &mut Random, library: &Library) -> Vec<u8> {
    let first = if random.chance(70) { new_name(random, library) } else { name(random) };
    match random.below(5) {
        0 => directive(random, IDENT, &[first, b"B=1".to_vec()]),
        1 => directive(random, COMDECK, &[first, b"NOPROP".to_vec()]),
        _ => {
            let tail = random.pick(&["", " ", ",", " P", ",P.2", " P,Q", "  A B", ",,", " 1"]);
            [&b"*"[..], random.pick(&NOT_CARRIED), tail.as_bytes()].concat()
        }
    }
}

/// 25.
fn known_unit(random: &mut Random, library: &Library) -> Vec<u8> {
    let known: Vec<_> = library.directory.iter().filter_map(|entry| entry.name).collect();
    let name = match random.one_of(&known) {
        Some(name) if random.chance(80) => name.bytes(),
        _ => b"YANK$$$".to_vec(),
    };
    let spelling = *random.pick(&[&DECK, &COMDECK, &IDENT]);
    directive(random, spelling, &[name])
}

/// 26, also beside a name that answers 27.
fn unknown_yank(random: &mut Random, library: &Library) -> Vec<u8> {
    let mut names = vec![new_name(random, library)];
    let mut others = yankable(library);
    others.push(b"YANK$$$".to_vec());
    others.extend(library.decks.iter().map(|deck| deck.name.bytes()));
    while names.len() < 4 && random.chance(40) {
        names.push(others[random.below(others.len())].clone());
    }
    random.shuffle(&mut names);
    directive(random, YANK, &names)
}

/// 27: the name of a deck, of YANK$$$ or of the set that yanks.
fn barred_yank(random: &mut Random, library: &Library) -> Vec<u8> {
    let itself = library.directory.last().and_then(|entry| entry.name).map(|name| name.bytes());
    let deck = library.decks[random.below(library.decks.len())].name.bytes();
    let barred = if random.chance(40) { itself.unwrap_or(deck) } else { deck };
    let mut names = yankable(library);
    random.shuffle(&mut names);
    names.truncate(random.below(3));
    names.push(barred);
    random.shuffle(&mut names);
    directive(random, YANK, &names)
}

/// 28.
fn not_found(random: &mut Random, library: &Library) -> Vec<u8> {
    let owner = if random.chance(60) { library.decks[random.below(library.decks.len())].name.bytes() } else { name(random) };
    let missing = [&owner[..], b".", random.within(30, 300).to_string().as_bytes()].concat();
    let found = some_card(random, library).unwrap_or_else(|| missing.clone());
    match random.below(5) {
        0 => directive(random, INSERT, &[missing]),
        1 => directive(random, BEFORE, &[missing]),
        2 => directive(random, DELETE, &[missing, found]),
        3 => directive(random, DELETE, &[found, missing]),
        _ => directive(random, RESTORE, &[missing]),
    }
}

/// 29, over deck cards too.
fn backwards(random: &mut Random, library: &Library) -> Vec<u8> {
    let cards: Vec<u32> = library.decks.iter().flat_map(|deck| deck.cards.iter().copied()).collect();
    if cards.len() < 2 {
        return text(random);
    }
    let later = random.within(1, cards.len() - 1);
    let earlier = random.below(later);
    let parameters = [card_name(random, library, cards[later]), card_name(random, library, cards[earlier])];
    let spelling = if random.chance(60) { DELETE } else { RESTORE };
    directive(random, spelling, &parameters)
}

/// 30: a deck card, or a range with one, or a card of YANK$$$.
fn barred_card(random: &mut Random, library: &Library) -> Vec<u8> {
    let decks = &library.decks;
    let in_yank_deck = random.one_of(&decks[0].cards);
    if let Some(card) = in_yank_deck.filter(|_| random.chance(40)) {
        let card = card_name(random, library, card);
        let spelling = if random.chance(50) { INSERT } else { BEFORE };
        return directive(random, spelling, &[card]);
    }
    let deck = match random_deck(random, library) {
        Some(deck) => deck,
        None => return text(random),
    };
    let deck_card = card_name(random, library, decks[deck].cards[0]);
    let spelling = *random.pick(&[&BEFORE, &DELETE, &RESTORE]);
    let earlier: Vec<u32> = decks[..deck].iter().flat_map(|deck| deck.cards.iter().copied()).collect();
    match random.one_of(&earlier) {
        Some(card) if spelling != BEFORE && random.chance(60) => {
            let last = decks[deck].cards[random.below(decks[deck].cards.len())];
            let parameters = [card_name(random, library, card), card_name(random, library, last)];
            directive(random, spelling, &parameters)
        }
        _ => directive(random, spelling, &[deck_card]),
    }
}

fn some_card(random: &mut Random, library: &Library) -> Option<Vec<u8>> {
    if library.cards.is_empty() {
        return None;
    }
    let card = random.below(library.cards.len()) as u32;
    Some(card_name(random, library, card))
}
