//! Limit cases of merges: each limit of the merged library reached, and passed by one, with row 31 ahead of 32 and row 37
//! ahead of both; limits of either library alone; the shortest images; histories of every length.

use super::growth::{merged_length, Limit, LIMITS};
use super::libraries::{made_by, EXAMPLE};
use super::limits::{each, with_bytes, with_card, Maker};
use crate::cases::Case;
use crate::library::{Library, FRESH, MAX_BYTES, MAX_NAMES, MAX_WORDS};
use crate::lines::LAST_SEQUENCE;

/// A second library, beside EXAMPLE: names apart, or a set that is called as EXAMPLE's first deck is.
const APART: &[u8] = b"*DECK R\nR2\n*IDENT V\n*DELETE R.2\nV1\n*IDENT W\n*YANK V\n";
const COMMON: &[u8] = b"*DECK R\nR2\n*IDENT P\n*DELETE R.2\nP1\n*IDENT W\n*YANK P\n";

pub fn makers() -> Vec<Maker> {
    [short_images(), histories(), merged(), alone()].into_iter().flatten().collect()
}

/// Two libraries whose merge is a limit long, or one past it.
#[derive(Clone, Copy)]
struct Pair {
    limit: Limit,
    past: usize,
    second: &'static [u8],
    /// How much of the growth the first has: none, a half, all.
    halves: usize,
}

/// The words lent, beside those that the merged library takes.
#[derive(Clone, Copy)]
enum Room {
    Exact,
    OneShort,
    None,
}

impl Pair {
    fn case(self, room: Room) -> Case {
        let (mut first, mut second) = (made_by(EXAMPLE), made_by(self.second));
        let missing = self.limit.most() + self.past - self.limit.of_both(&first, &second);
        let share = missing * self.halves / 2;
        self.limit.grow(&mut first, share, 'D');
        self.limit.grow(&mut second, missing - share, 'E');
        let length = merged_length(&first, &second);
        let room = match room {
            Room::Exact => length.min(MAX_WORDS),
            Room::OneShort => length - 1,
            Room::None => 0,
        };
        Case::merge(&first.image(), &second.image(), room)
    }
}

/// The limits of the merged library.
fn merged() -> Vec<Maker> {
    let mut makers: Vec<Maker> = Vec::new();
    for limit in LIMITS {
        let mut add = |past, second, halves, room| {
            let pair = Pair { limit, past, second, halves };
            makers.push(Box::new(move || pair.case(room)));
        };
        for halves in 0..=2 {
            add(0, APART, halves, Room::Exact);
            add(1, APART, halves, Room::Exact);
        }
        add(0, APART, 1, Room::OneShort);
        add(0, APART, 1, Room::None);
        add(1, APART, 1, Room::None);
        add(0, COMMON, 1, Room::None);
        add(1, COMMON, 1, Room::Exact);
        add(1, COMMON, 1, Room::None);
    }
    makers
}

/// A library of that much and nothing else.
fn grown(limit: Limit, much: usize, letter: char) -> Library {
    let mut library = Library::fresh();
    limit.grow(&mut library, much - limit.of(&Library::fresh()), letter);
    library
}

/// Libraries at their own limit, beside the fresh one and beside each other; and past it, where the row is theirs.
fn alone() -> Vec<Maker> {
    let mut makers: Vec<Maker> = Vec::new();
    for limit in LIMITS {
        let most = limit.most();
        let mut add = |first: Option<usize>, second: Option<usize>| {
            makers.push(Box::new(move || {
                let library = |much: Option<usize>, letter| much.map_or_else(Library::fresh, |much| grown(limit, much, letter));
                Case::merge(&library(first, 'D').image(), &library(second, 'E').image(), MAX_WORDS)
            }))
        };
        add(Some(most), None);
        add(None, Some(most));
        add(Some(most), Some(most));
        add(Some(most + 1), None);
        add(None, Some(most + 1));
    }
    makers
}

/// Images under 3 words on either side, and the fresh library twice in small rooms.
fn short_images() -> Vec<Maker> {
    let mut makers =
        each([(0, 3), (1, 3), (2, 3), (3, 0), (3, 1), (3, 2), (2, 1), (1, 2), (0, 0)], |(first, second): (usize, usize)| {
            Case::merge(&FRESH[..first], &FRESH[..second], 3)
        });
    makers.extend(each([0, 2, 3, 4], |room| Case::merge(&FRESH, &FRESH, room)));
    makers.extend(each([-1, 0, 1], |more| {
        let (first, second) = (made_by(EXAMPLE), made_by(APART));
        let room = merged_length(&first, &second) as i64 + more;
        Case::merge(&first.image(), &second.image(), room as usize)
    }));
    makers
}

/// Cards of the second library with every sort of last history word, behind few names and behind as many as there may be.
fn histories() -> Vec<Maker> {
    const BYTES: [usize; 12] = [1, 2, 3, 4, 5, 6, 7, 8, 62, 63, MAX_BYTES, MAX_BYTES + 1];
    let mut makers = each(BYTES, |bytes| behind(made_by(APART), &with_bytes(bytes)));
    makers.extend(each(BYTES, |bytes| {
        let second = with_bytes(bytes);
        behind(grown(Limit::Names, MAX_NAMES - second.directory.len(), 'D'), &second)
    }));
    makers.extend(each([MAX_BYTES, MAX_BYTES + 1], |bytes| behind(with_bytes(bytes), &made_by(APART))));
    makers.extend(each([1, 2, 3, LAST_SEQUENCE - 1, LAST_SEQUENCE], |sequence| {
        behind(made_by(APART), &with_card(|library, card| library.cards[card].sequence = sequence))
    }));
    makers
}

fn behind(first: Library, second: &Library) -> Case {
    Case::merge(&first.image(), &second.image(), merged_length(&first, second))
}
