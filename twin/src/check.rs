//! RULES, "The check", rows 1 to 10: reads an image, refusing it in the order of the rules.

use std::collections::hash_map::Entry as Slot;

use crate::library::{
    Byte, Card, Library, ACTIVATING_BYTE, HEADER, HEADER_WORDS, MAX_BYTES, MAX_CARDS, MAX_DECKS, MAX_NAMES, MAX_WORDS, PURGED,
    YANKED_BYTE,
};
use crate::lines::{is_deck_line, read, Kind, Line};
use crate::refusal::{Number, Refusal};
use crate::text::{expand, Name, YANK_DECK};
use crate::words::{bit, field, WORD_END};

/// A card as it stands in an image: with its place, and the bits that settling must agree with.
struct Stored {
    card: Card,
    place: usize,
    active: bool,
    yanked: Vec<bool>,
}

/// Reads an image into a library.
pub fn check(image: &[u64]) -> Result<Library, Refusal> {
    check_words(image)?;
    check_header(image)?;
    let (names, decks) = table_counts(image)?;
    let mut library = Library::fresh();
    let deck_names = read_tables(image, names, decks, &mut library)?;
    let mut stored = read_cards(image, HEADER_WORDS + names + decks, &library)?;
    part_decks(image, &deck_names, &mut stored, &mut library)?;
    read_yanks(&mut stored, &library)?;
    take_cards(&stored, &mut library)?;
    check_bits(&stored, &library)?;
    Ok(library)
}

/// Row 1: too few words, then too many, then a number that is no word.
fn check_words(image: &[u64]) -> Result<(), Refusal> {
    let fault = if image.len() < 3 {
        Some(image.len())
    } else if image.len() > MAX_WORDS {
        Some(MAX_WORDS)
    } else {
        image.iter().position(|&word| word >= WORD_END)
    };
    fault.map_or(Ok(()), |place| Err(Refusal::new(Number::Length, place)))
}

/// Row 2.
fn check_header(image: &[u64]) -> Result<(), Refusal> {
    if image[0] == HEADER {
        Ok(())
    } else {
        Err(Refusal::new(Number::Header, 0))
    }
}

/// Row 3: the directory count and the deck count.
fn table_counts(image: &[u64]) -> Result<(usize, usize), Refusal> {
    let names = field(image[1], 35, 18) as usize;
    let decks = field(image[1], 17, 0) as usize;
    let laid_out = field(image[1], 59, 36) == 0 && names <= MAX_NAMES && (1..=MAX_DECKS).contains(&decks);
    if laid_out && HEADER_WORDS + names + decks <= image.len() {
        Ok((names, decks))
    } else {
        Err(Refusal::new(Number::Counts, 1))
    }
}

/// Row 4: fills the directory, and answers the deck list's names.
fn read_tables(image: &[u64], names: usize, decks: usize, library: &mut Library) -> Result<Vec<Name>, Refusal> {
    let list_start = HEADER_WORDS + names;
    for (place, &word) in image.iter().enumerate().take(list_start).skip(HEADER_WORDS) {
        if !read_entry(word, library) {
            return Err(Refusal::new(Number::TableName, place));
        }
    }
    let mut list = Vec::with_capacity(decks);
    for (place, &word) in image.iter().enumerate().take(list_start + decks).skip(list_start) {
        match Name::of_word(word) {
            Some(name) if belongs_to_list(name, &list, library) => list.push(name),
            _ => return Err(Refusal::new(Number::TableName, place)),
        }
    }
    Ok(list)
}

fn read_entry(word: u64, library: &mut Library) -> bool {
    if word == PURGED {
        library.directory.push(crate::library::Entry { name: None, deck: None });
        return true;
    }
    match Name::of_word(word) {
        Some(name) if name != YANK_DECK && library.number(name).is_none() => {
            library.add_name(name);
            true
        }
        _ => false,
    }
}

/// The list begins with YANK$$$; each name after it is one of the directory, and did not stand in the list yet.
fn belongs_to_list(name: Name, list: &[Name], library: &Library) -> bool {
    if list.is_empty() {
        name == YANK_DECK
    } else {
        library.number(name).is_some() && !list.contains(&name)
    }
}

/// Rows 5 and 6, one card after another.
fn read_cards(image: &[u64], start: usize, library: &Library) -> Result<Vec<Stored>, Refusal> {
    let mut cards = Vec::new();
    let mut place = start;
    while place < image.len() {
        let (mut stored, text) = read_card_form(image, place, library)
            .filter(|_| cards.len() < MAX_CARDS)
            .ok_or_else(|| Refusal::new(Number::CardForm, place))?;
        stored.card.line = expand(text).ok_or_else(|| Refusal::new(Number::TextForm, place))?;
        stored.card.text = text.to_vec();
        place += stored.card.length();
        cards.push(stored);
    }
    Ok(cards)
}

/// Row 5: a card's history, and the words of its text.
fn read_card_form<'a>(image: &'a [u64], place: usize, library: &Library) -> Option<(Stored, &'a [u64])> {
    let first = image[place];
    let bytes = history_bytes(image, place)?;
    let card = Card {
        sequence: field(first, 35, 18) as u32,
        history: bytes.iter().map(|&byte| byte_of(byte)).collect(),
        line: Vec::new(),
        text: Vec::new(),
        deck: 0,
        yanks: Vec::new(),
    };
    let text_start = place + card.length();
    let text = image.get(text_start..text_start + field(first, 53, 36) as usize)?;
    if card.sequence == 0 || !history_stands(&card.history, library) {
        return None;
    }
    let yanked = bytes.iter().map(|byte| byte & YANKED_BYTE != 0).collect();
    Some((Stored { card, place, active: bit(first, 58), yanked }, text))
}

/// The used bytes of a history. Zero bytes end it, and the last word has a used one.
fn history_bytes(image: &[u64], place: usize) -> Option<Vec<u64>> {
    let mut word = *image.get(place)?;
    if field(word, 57, 54) != 0 {
        return None;
    }
    let mut bytes = vec![field(word, 17, 0)];
    let mut at = place;
    while !bit(word, 59) {
        at += 1;
        word = *image.get(at)?;
        if field(word, 58, 54) != 0 || bytes.len() > MAX_BYTES {
            return None;
        }
        bytes.extend([field(word, 53, 36), field(word, 35, 18), field(word, 17, 0)]);
    }
    let used = bytes.iter().rposition(|&byte| byte != 0)? + 1;
    let unused = bytes.len() - used;
    bytes.truncate(used);
    if used <= MAX_BYTES && unused < 3 {
        Some(bytes)
    } else {
        None
    }
}

fn byte_of(byte: u64) -> Byte {
    Byte { number: field(byte, 15, 0) as u16, activating: byte & ACTIVATING_BYTE != 0 }
}

/// The first byte is activating; numbers are known, name no purged entry, and never fall.
fn history_stands(history: &[Byte], library: &Library) -> bool {
    let known = |number: u16| (1..=library.directory.len()).contains(&usize::from(number)) && library.name(number).is_some();
    history[0].activating
        && history.iter().all(|byte| known(byte.number))
        && history.windows(2).all(|pair| pair[0].number <= pair[1].number)
}

/// Row 7: a deck card is a well-formed DECK or COMDECK of the list's next name, which owns it; its number is 1, and it
/// has one byte. A wrong card comes ahead of a missing one.
fn part_decks(image: &[u64], list: &[Name], cards: &mut [Stored], library: &mut Library) -> Result<(), Refusal> {
    for Stored { card, place, .. } in cards.iter_mut() {
        if is_deck_line(&card.line) {
            let (kind, name) = deck_card(card, library)
                .filter(|(_, name)| list.get(library.decks.len()) == Some(name))
                .ok_or_else(|| Refusal::new(Number::DeckCard, *place))?;
            library.add_deck(card.owner(), name, kind);
        }
        card.deck = library.decks.len() - 1;
    }
    if library.decks.len() == list.len() {
        Ok(())
    } else {
        Err(Refusal::new(Number::DeckCard, image.len()))
    }
}

fn deck_card(card: &Card, library: &Library) -> Option<(Kind, Name)> {
    match read(&card.line) {
        Ok(Line::Unit(kind, name))
            if library.number(name) == Some(card.owner()) && card.sequence == 1 && card.history.len() == 1 =>
        {
            Some((kind, name))
        }
        _ => None,
    }
}

/// Row 8: each card of YANK$$$ is a well-formed YANK, and each name on it is a set's, with a number below the owner's.
fn read_yanks(cards: &mut [Stored], library: &Library) -> Result<(), Refusal> {
    for Stored { card, place, .. } in cards.iter_mut().take_while(|stored| stored.card.deck == 0) {
        card.yanks = yanked_sets(card, library).ok_or_else(|| Refusal::new(Number::YankCard, *place))?;
    }
    Ok(())
}

fn yanked_sets(card: &Card, library: &Library) -> Option<Vec<u16>> {
    let lower_set = |name| library.number(name).filter(|&number| number < card.owner() && library.deck_of(number).is_none());
    match read(&card.line) {
        Ok(Line::Yank(names)) => names.into_iter().map(lower_set).collect(),
        _ => None,
    }
}

/// Row 10, and the cards into their decks.
fn take_cards(cards: &[Stored], library: &mut Library) -> Result<(), Refusal> {
    for Stored { card, place, .. } in cards {
        let index = library.cards.len() as u32;
        match library.identifiers.entry((card.owner(), card.sequence)) {
            Slot::Occupied(_) => return Err(Refusal::new(Number::Twice, *place)),
            Slot::Vacant(slot) => slot.insert(index),
        };
        library.decks[card.deck].cards.push(index);
        library.cards.push(card.clone());
    }
    Ok(())
}

/// Row 9: the bits as they are stored against those that settling gives.
fn check_bits(cards: &[Stored], library: &Library) -> Result<(), Refusal> {
    let yanked = library.settle();
    let agrees = |stored: &Stored| {
        let bytes = stored.card.history.iter().zip(&stored.yanked);
        stored.active == stored.card.is_active(&yanked)
            && bytes.into_iter().all(|(byte, &bit)| bit == yanked[usize::from(byte.number)])
    };
    match cards.iter().find(|stored| !agrees(stored)) {
        Some(stored) => Err(Refusal::new(Number::StoredBit, stored.place)),
        None => Ok(()),
    }
}
