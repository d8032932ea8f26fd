//! Cases of the kind `merge`: two libraries, their names mostly apart, either of them sometimes spoiled.

use std::collections::HashMap;

use super::drafts::{yank, Draft};
use super::growth::{merged_length, Limit};
use super::libraries::any;
use super::random::Random;
use super::spoil;
use super::texts::{card_name, directive, name, text, CALL, COMDECK, DECK, DELETE, RESTORE, YANK};
use crate::cases::Case;
use crate::library::{Card, Entry, Library, MAX_WORDS};
use crate::lines::{call, read, Kind, Line};
use crate::text::{compress, trimmed, Name};

/// Limits that take large images come by the index, the others by chance.
const WORDS_EVERY: usize = 5_000;
const CARDS_EVERY: usize = 2_000;

pub fn case(random: &mut Random, index: usize) -> Case {
    if (index + 1) % WORDS_EVERY == 0 {
        return at_large_limit(random, Limit::Words, index / WORDS_EVERY % 2);
    }
    if (index + 1) % CARDS_EVERY == 0 {
        return at_large_limit(random, Limit::Cards, index / CARDS_EVERY % 2);
    }
    match random.below(200) {
        0..=95 => accepted(random),
        96..=117 => spoiled(random, true, false),
        118..=143 => spoiled(random, false, true),
        144..=153 => spoiled(random, true, true),
        154..=155 => yank_of_other(random),
        156..=176 => with_common_names(random),
        177..=193 => without_room(random),
        _ => {
            let limit = if random.chance(80) { Limit::Names } else { Limit::Decks };
            let past = [0, 0, 0, 1, 1, 1, 1, 2, 40][random.below(9)];
            at_limit(random, limit, past)
        }
    }
}

/// Two libraries whose names are apart.
pub fn pair(random: &mut Random) -> (Library, Library) {
    let (first, second) = (library(random), library(random));
    let second = apart(random, &first, second);
    (first, second)
}

/// Two streams of units, each accepted by the fresh library, whose names are apart.
pub fn streams(random: &mut Random) -> (Vec<u8>, Vec<u8>) {
    loop {
        let (first, second) = (accepted_draft(random), accepted_draft(random));
        if !has_common_name(&first.run.library, &second.run.library) {
            return (first.stream, second.stream);
        }
    }
}

fn accepted_draft(random: &mut Random) -> Draft {
    loop {
        let mut draft = Draft::new(Library::fresh());
        let lines = random.within(1, 20);
        draft.good_lines(random, lines);
        if draft.refused.is_none() {
            return draft;
        }
    }
}

/// Any library; those that a merge has most to do with more often than elsewhere.
fn library(random: &mut Random) -> Library {
    match random.below(20) {
        0 => without_cards(random),
        1..=3 => with_purged_entries(random),
        4 | 5 => with_long_histories(random),
        6..=8 => with_yanked_yanks(random),
        _ => any(random),
    }
}

/// Sets and purged entries alone, or nothing.
fn without_cards(random: &mut Random) -> Library {
    let mut draft = Draft::new(Library::fresh());
    (0..random.below(4)).for_each(|_| draft.start_set(random));
    let mut library = draft.run.library;
    (0..random.below(3)).for_each(|_| library.directory.push(Entry { name: None, deck: None }));
    library
}

/// Purged entries behind some names, and more names behind these.
fn with_purged_entries(random: &mut Random) -> Library {
    let mut library = any(random);
    (0..random.within(1, 3)).for_each(|_| library.directory.push(Entry { name: None, deck: None }));
    let mut draft = Draft::new(library.clone());
    let lines = random.below(12);
    draft.good_lines(random, lines);
    match draft.refused {
        None => draft.run.library,
        Some(_) => library,
    }
}

/// A deck of a few cards.
fn small_deck(random: &mut Random) -> Draft {
    let mut draft = Draft::new(Library::fresh());
    let name = name(random);
    let spelling = if random.chance(80) { DECK } else { COMDECK };
    draft.line(&directive(random, spelling, &[name]));
    for _ in 0..random.within(1, 4) {
        draft.line(&text(random));
    }
    draft
}

/// A card that sets delete and restore by turns, each one byte, and a yank of some of them at the end.
fn with_long_histories(random: &mut Random) -> Library {
    let mut draft = small_deck(random);
    let cards = draft.run.library.cards.len();
    let card = random.within(1, cards - 1) as u32;
    for turn in 0..random.within(3, 12) {
        draft.start_set(random);
        let card = card_name(random, &draft.run.library, card);
        draft.line(&directive(random, if turn % 2 == 0 { DELETE } else { RESTORE }, &[card]));
    }
    if random.chance(50) {
        add_yanking_set(random, &mut draft);
    }
    draft.run.library
}

/// Sets that correct a deck and yank each other.
fn with_yanked_yanks(random: &mut Random) -> Library {
    loop {
        let mut draft = small_deck(random);
        for _ in 0..random.within(1, 3) {
            draft.good_set(random);
        }
        for _ in 0..random.within(1, 4) {
            add_yanking_set(random, &mut draft);
        }
        if draft.refused.is_none() {
            return draft.run.library;
        }
    }
}

fn add_yanking_set(random: &mut Random, draft: &mut Draft) {
    draft.start_set(random);
    if let Some(line) = yank(random, &draft.run.library) {
        draft.line(&line);
    }
}

fn names(library: &Library) -> Vec<Name> {
    library.directory.iter().filter_map(|entry| entry.name).collect()
}

fn has_common_name(first: &Library, second: &Library) -> bool {
    names(second).iter().any(|&name| first.number(name).is_some())
}

/// The second library, with new names in place of those that the first has.
fn apart(random: &mut Random, first: &Library, second: Library) -> Library {
    let mut new: HashMap<Name, Name> = HashMap::new();
    let mut taken = names(&second);
    for old in names(&second) {
        if first.number(old).is_some() {
            let other = loop {
                let other = Name::of_bytes(&name(random)).expect("a name");
                if first.number(other).is_none() && !taken.contains(&other) {
                    break other;
                }
            };
            taken.push(other);
            new.insert(old, other);
        }
    }
    renamed(random, second, &new)
}

/// The second library with some names of the first in place of its own; the two are apart.
fn with_common(random: &mut Random, first: &Library, second: Library) -> Library {
    let (mut theirs, mut own) = (names(first), names(&second));
    random.shuffle(&mut theirs);
    random.shuffle(&mut own);
    let count = [1, 1, 1, 2, 3][random.below(5)];
    let new: HashMap<Name, Name> = own.into_iter().zip(theirs).take(count).collect();
    renamed(random, second, &new)
}

/// A library under other names: in its directory and deck list, and where its cards name decks and sets.
fn renamed(random: &mut Random, mut library: Library, new: &HashMap<Name, Name>) -> Library {
    let other = |name: Name| new.get(&name).copied().unwrap_or(name);
    library.directory.iter_mut().for_each(|entry| entry.name = entry.name.map(other));
    library.decks.iter_mut().for_each(|deck| deck.name = other(deck.name));
    library.numbers = library.numbers.iter().map(|(&name, &number)| (other(name), number)).collect();
    library.cards.iter_mut().for_each(|card| rename_in_text(random, card, new));
    library
}

fn rename_in_text(random: &mut Random, card: &mut Card, new: &HashMap<Name, Name>) {
    let (spelling, old) = match (read(&card.line), call(&card.line)) {
        (Ok(Line::Yank(names)), _) => (YANK, names),
        (Ok(Line::Unit(Kind::Deck, name)), _) => (DECK, vec![name]),
        (Ok(Line::Unit(Kind::Comdeck, name)), _) => (COMDECK, vec![name]),
        (_, Some(Ok(name))) => (CALL, vec![name]),
        _ => return,
    };
    if old.iter().any(|name| new.contains_key(name)) {
        let names: Vec<Vec<u8>> = old.iter().map(|name| new.get(name).unwrap_or(name).bytes()).collect();
        let line = directive(random, spelling, &names);
        card.text = compress(&line);
        card.line = trimmed(&line).to_vec();
    }
}

/// Room for the merged library, exactly or more.
fn enough(random: &mut Random, first: &Library, second: &Library) -> usize {
    let length = merged_length(first, second);
    if random.chance(60) {
        length
    } else {
        length + random.within(1, 20)
    }
}

/// Room one word short, none, or any that is too little.
fn too_little(random: &mut Random, first: &Library, second: &Library) -> usize {
    let length = merged_length(first, second);
    match random.below(10) {
        0..=4 => length - 1,
        5 | 6 => 0,
        _ => random.below(length),
    }
}

fn any_room(random: &mut Random, first: &Library, second: &Library) -> usize {
    let room = if random.chance(60) { enough } else { too_little };
    room(random, first, second).min(MAX_WORDS)
}

/// Names apart and room enough; every tenth has the fresh library on a side.
fn accepted(random: &mut Random) -> Case {
    let (mut first, mut second) = pair(random);
    match random.below(20) {
        0 => first = Library::fresh(),
        1 => second = Library::fresh(),
        _ => {}
    }
    let room = enough(random, &first, &second);
    Case::merge(&first.image(), &second.image(), room)
}

/// 32.
fn without_room(random: &mut Random) -> Case {
    let (first, second) = pair(random);
    let room = too_little(random, &first, &second);
    Case::merge(&first.image(), &second.image(), room)
}

/// 37, in any room.
fn with_common_names(random: &mut Random) -> Case {
    let (first, second) = loop {
        let (first, second) = pair(random);
        if !first.numbers.is_empty() && !second.numbers.is_empty() {
            break (first, second);
        }
    };
    let second = with_common(random, &first, second);
    let room = any_room(random, &first, &second);
    Case::merge(&first.image(), &second.image(), room)
}

/// 1 to 10 of the first library, of the second, or of both, in any room, sometimes with a name that both have.
fn spoiled(random: &mut Random, in_first: bool, in_second: bool) -> Case {
    let (first, mut second) = loop {
        let (first, second) = pair(random);
        if (!in_first || !first.cards.is_empty()) && (!in_second || !second.cards.is_empty()) {
            break (first, second);
        }
    };
    if random.chance(15) {
        second = with_common(random, &first, second);
    }
    let room = any_room(random, &first, &second);
    let mut image = |library: &Library, damaged: bool| if damaged { spoil::spoiled(random, library) } else { library.image() };
    let first = image(&first, in_first);
    let second = image(&second, in_second);
    Case::merge(&first, &second, room)
}

/// 8: a card of YANK$$$ that names a set of the other library, which the merged library would have.
fn yank_of_other(random: &mut Random) -> Case {
    let (mut first, mut second) = pair(random);
    let room = any_room(random, &first, &second);
    if random.chance(50) {
        add_yank_of_other(random, &mut first, &second);
    } else {
        add_yank_of_other(random, &mut second, &first);
    }
    Case::merge(&first.image(), &second.image(), room)
}

fn add_yank_of_other(random: &mut Random, library: &mut Library, other: &Library) {
    let sets: Vec<Name> = other.directory.iter().filter(|entry| entry.deck.is_none()).filter_map(|entry| entry.name).collect();
    let owner = names(library).last().and_then(|&name| library.number(name));
    if let (Some(set), Some(owner)) = (random.one_of(&sets), owner) {
        let line = directive(random, YANK, &[set.bytes()]);
        let index = random.below(library.decks[0].cards.len() + 1);
        library.add_card(owner, random.within(100, 200) as u32, &line, 0, index);
    }
}

/// Two libraries, names apart, that reach a limit together, or pass it by so much; neither does so alone.
fn grown_pair(random: &mut Random, limit: Limit, past: usize) -> (Library, Library) {
    let (mut first, mut second) = pair(random);
    let missing = limit.most() + past - limit.of_both(&first, &second);
    let share = match random.below(4) {
        0 => past,
        1 => missing - past,
        _ => random.within(past, missing - past),
    };
    limit.grow(&mut first, share, 'D');
    limit.grow(&mut second, missing - share, 'E');
    (first, second)
}

/// 31 where the limit is passed, in any room, sometimes with a name that both have.
fn at_limit(random: &mut Random, limit: Limit, past: usize) -> Case {
    let (first, mut second) = grown_pair(random, limit, past);
    if random.chance(20) {
        second = with_common(random, &first, second);
    }
    let room = any_room(random, &first, &second);
    Case::merge(&first.image(), &second.image(), room)
}

/// 31 where the limit is passed, else accepted.
fn at_large_limit(random: &mut Random, limit: Limit, past: usize) -> Case {
    let (first, second) = grown_pair(random, limit, past);
    let room = enough(random, &first, &second).min(MAX_WORDS);
    Case::merge(&first.image(), &second.image(), room)
}
