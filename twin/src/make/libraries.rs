//! Libraries that the check accepts: such as runs make, and such as no run makes.

use super::drafts::Draft;
use super::random::Random;
use super::texts::{card_name, directive, name, new_name, text, CALL, COMDECK, DECK, DELETE, IDENT, INSERT, YANK};
use crate::library::{Byte, Entry, Library};
use crate::lines::{Kind, LAST_SEQUENCE};
use crate::run::apply;
use crate::text::Name;

/// A library with a normal deck, a common deck, two sets and a yank in force.
pub const EXAMPLE: &[u8] = b"*DECK P\nP2\nP3\nP4\n*COMDECK Q\nQ2\n*IDENT S\n*INSERT P.3\nS1\n*IDENT T\n*DELETE P.2\n*YANK S\n";

/// The library that a stream makes of the fresh one.
pub fn made_by(stream: &[u8]) -> Library {
    apply(Library::fresh(), stream).expect("an accepted stream")
}

/// Any library, the fresh one too.
pub fn any(random: &mut Random) -> Library {
    match random.below(20) {
        0 => Library::fresh(),
        1 => made_by(EXAMPLE),
        2..=6 => free(random),
        7 | 8 => with_calls(random),
        9..=12 => contested(random),
        _ => by_runs(random),
    }
}

/// A library with at least one card.
pub fn with_cards(random: &mut Random) -> Library {
    loop {
        let library = any(random);
        if !library.cards.is_empty() {
            return library;
        }
    }
}

/// A library that accepted streams make.
pub fn by_runs(random: &mut Random) -> Library {
    loop {
        let mut draft = Draft::new(Library::fresh());
        let lines = if random.chance(5) { random.within(30, 60) } else { random.within(3, 28) };
        draft.good_lines(random, lines);
        if draft.refused.is_none() {
            return draft.run.library;
        }
    }
}

/// A library of one deck and many sets, which correct the same cards and yank each other.
fn contested(random: &mut Random) -> Library {
    let mut draft = Draft::new(Library::fresh());
    let name = name(random);
    let line = directive(random, DECK, &[name]);
    draft.line(&line);
    for _ in 0..random.within(1, 4) {
        let line = text(random);
        draft.line(&line);
    }
    for _ in 0..random.within(3, 9) {
        draft.good_set(random);
    }
    match draft.refused {
        None => draft.run.library,
        Some(_) => contested(random),
    }
}

/// A library that the check accepts though no run need make it: purged entries, a deck list in another order than the
/// directory, cards of any owner anywhere, gaps and disorder in sequence numbers, equal numbers in one history.
pub fn free(random: &mut Random) -> Library {
    let mut library = Library::fresh();
    let mut named = free_directory(random, &mut library);
    for _ in 0..random.below(4) {
        add_free_yank(random, &mut library, &named);
    }
    random.shuffle(&mut named);
    named.truncate(3);
    // Decks come after the yanks, which name none of them: a yanked number stays a set's.
    named.retain(|&number| !library.cards.iter().any(|card| card.yanks.contains(&number)));
    for number in named {
        add_free_deck(random, &mut library, number);
    }
    library
}

fn free_directory(random: &mut Random, library: &mut Library) -> Vec<u16> {
    for _ in 0..random.within(1, 8) {
        if random.chance(15) {
            library.directory.push(Entry { name: None, deck: None });
        } else {
            let name = new_name(random, library);
            library.add_name(Name::of_bytes(&name).expect("a name"));
        }
    }
    named_numbers(library)
}

fn named_numbers(library: &Library) -> Vec<u16> {
    let mut numbers: Vec<u16> = library.numbers.values().copied().collect();
    numbers.sort_unstable();
    numbers
}

fn add_free_yank(random: &mut Random, library: &mut Library, named: &[u16]) {
    if named.len() < 2 {
        return;
    }
    let owner = random.within(1, named.len() - 1);
    let mut yanks: Vec<u16> = named[..owner].to_vec();
    random.shuffle(&mut yanks);
    yanks.truncate(random.within(1, 3));
    let names: Vec<Vec<u8>> = yanks.iter().filter_map(|&number| library.name(number)).map(Name::bytes).collect();
    let line = directive(random, YANK, &names);
    let index = random.below(library.decks[0].cards.len() + 1);
    let card = add_free_card(random, library, named[owner], &line, (0, index));
    library.cards[card].yanks = yanks;
}

fn add_free_deck(random: &mut Random, library: &mut Library, number: u16) {
    let named = named_numbers(library);
    let name = library.name(number).expect("a named number");
    let kind = if random.chance(70) { Kind::Deck } else { Kind::Comdeck };
    // Another card may hold the deck card's identifier.
    if library.identifiers.contains_key(&(number, 1)) {
        return;
    }
    library.add_deck(number, name, kind);
    let deck = library.decks.len() - 1;
    let line = directive(random, if kind == Kind::Deck { DECK } else { COMDECK }, &[name.bytes()]);
    library.add_card(number, 1, &line, deck, 0);
    for index in 1..=random.below(6) {
        let owner = named[random.below(named.len())];
        let line = free_text(random, library);
        add_free_card(random, library, owner, &line, (deck, index));
    }
}

/// Text of a normal deck's card: every directive but DECK and COMDECK is text there.
fn free_text(random: &mut Random, library: &Library) -> Vec<u8> {
    let called = library.decks[random.below(library.decks.len())].name.bytes();
    match random.below(10) {
        0 => directive(random, CALL, &[called]),
        1 => directive(random, IDENT, &[called]),
        2 => random.pick(&["*WEOR 1", "*YANK S", "*INSERT P.1", "*DELETE", "*END", "*/ C", "*TEXT"]).as_bytes().to_vec(),
        _ => text(random),
    }
}

/// A card with any history that `owner` may begin.
fn add_free_card(random: &mut Random, library: &mut Library, owner: u16, line: &[u8], at: (usize, usize)) -> usize {
    let sequence = loop {
        let sequence = match random.below(12) {
            0 => LAST_SEQUENCE,
            1 => random.within(1, LAST_SEQUENCE as usize) as u32,
            _ => random.within(2, 30) as u32,
        };
        if !library.identifiers.contains_key(&(owner, sequence)) {
            break sequence;
        }
    };
    let card = library.add_card(owner, sequence, line, at.0, at.1);
    let mut later: Vec<u16> = named_numbers(library).into_iter().filter(|&number| number >= owner).collect();
    let bytes = if random.chance(70) { random.below(4) } else { random.below(9) };
    later = (0..bytes).map(|_| later[random.below(later.len())]).collect();
    later.sort_unstable();
    let history = later.into_iter().map(|number| Byte { number, activating: random.chance(50) });
    library.cards[card].history.extend(history);
    card
}

/// A library of common decks and calls, nested, sometimes to a depth about 8, sometimes with a wrong call.
pub fn with_calls(random: &mut Random) -> Library {
    let mut draft = Draft::new(Library::fresh());
    let chain = random.chance(12);
    let common = if chain { random.within(7, 9) } else { random.below(5) };
    let mut decks: Vec<Vec<u8>> = Vec::new();
    for _ in 0..common {
        let called: Vec<Vec<u8>> = if chain { decks.last().cloned().into_iter().collect() } else { decks.clone() };
        decks.push(add_deck_of_calls(random, &mut draft, COMDECK, &called, chain));
    }
    for _ in 0..random.within(1, 2) {
        let called: Vec<Vec<u8>> = if chain { decks.last().cloned().into_iter().collect() } else { decks.clone() };
        add_deck_of_calls(random, &mut draft, DECK, &called, chain);
    }
    if random.chance(30) {
        add_wrong_call(random, &mut draft);
    }
    if random.chance(50) {
        let lines = random.within(1, 8);
        draft.good_lines(random, lines);
    }
    match draft.refused {
        None => draft.run.library,
        Some(_) => with_calls(random),
    }
}

fn add_deck_of_calls(
    random: &mut Random,
    draft: &mut Draft,
    spelling: super::texts::Spelling,
    called: &[Vec<u8>],
    chain: bool,
) -> Vec<u8> {
    let name = new_name(random, &draft.run.library);
    let line = directive(random, spelling, std::slice::from_ref(&name));
    draft.line(&line);
    for _ in 0..random.below(4) {
        let line = text(random);
        draft.line(&line);
    }
    for name in called {
        if chain || random.chance(35) {
            let line = directive(random, CALL, std::slice::from_ref(name));
            draft.line(&line);
        }
    }
    if random.chance(40) {
        let line = text(random);
        draft.line(&line);
    }
    name
}

/// A set that puts a CALL answering 40, 41 or 42 after some card.
fn add_wrong_call(random: &mut Random, draft: &mut Draft) {
    let library = &draft.run.library;
    let deck = random.within(1, library.decks.len() - 1);
    let cards = &library.decks[deck].cards;
    let card = cards[random.below(cards.len())];
    let card = card_name(random, library, card);
    let called = match random.below(6) {
        0 | 1 => library.decks[deck].name.bytes(),
        2 => library.decks[random.below(library.decks.len())].name.bytes(),
        3 => name(random),
        _ => b"YANK$$$".to_vec(),
    };
    let call = match random.below(8) {
        0 => random
            .pick(&["*CALL", "*CA A,B", "*CALL A B", "*CALL,", "*CALL A,", "*CALL ABCDEFGHIJ", "*CA A.1"])
            .as_bytes()
            .to_vec(),
        _ => directive(random, CALL, &[called]),
    };
    let set = new_name(random, library);
    let spelling = if random.chance(80) { INSERT } else { DELETE };
    let lines = [directive(random, IDENT, &[set]), directive(random, spelling, &[card]), call];
    lines.iter().for_each(|line| draft.line(line));
}
