//! Cases of ops 4 to 7: packing, unpacking, and text.

use super::random::Random;
use super::texts::{spoiled_text, text, wide_text};
use crate::cases::{Case, COMPRESS, EXPAND, PACK, UNPACK};
use crate::text::{compress, CHART, COLUMNS};
use crate::words::{pack, packed_length, to_bytes, WORD_END};

pub fn case(random: &mut Random, index: usize) -> Case {
    match index % 4 {
        0 => pack_case(random),
        1 => unpack_case(random),
        2 => Case::bytes(COMPRESS, 0, line(random)),
        _ => expand_case(random),
    }
}

fn some_words(random: &mut Random) -> Vec<u64> {
    let sparse = random.chance(30);
    (0..random.below(13)).map(|_| if sparse { random.word() >> random.below(60) } else { random.word() }).collect()
}

/// Room that is enough, exactly or not, or one too little.
fn room(random: &mut Random, needed: usize, step: usize) -> usize {
    match random.below(10) {
        0..=4 => needed,
        5 | 6 => needed + step,
        7 => needed + step * random.below(9),
        _ => needed.saturating_sub(step * random.within(1, 3)),
    }
}

fn pack_case(random: &mut Random) -> Case {
    let mut words = some_words(random);
    let room = room(random, packed_length(words.len()), 1);
    if !words.is_empty() && random.chance(12) {
        let at = random.below(words.len());
        words[at] = if random.chance(50) { WORD_END } else { words[at] | 1 << random.within(60, 63) };
    }
    let mut bytes = to_bytes(&words);
    if random.chance(15) {
        bytes.resize(bytes.len() + random.within(1, 7), 0);
    }
    Case::bytes(PACK, room, bytes)
}

fn unpack_case(random: &mut Random) -> Case {
    let words = some_words(random);
    let mut room = room(random, words.len() * 8, 8);
    let mut packed = pack(&words);
    if words.len() % 2 == 1 && random.chance(30) {
        let last = packed.len() - 1;
        packed[last] |= random.within(1, 15) as u8;
    }
    match random.below(20) {
        0 => room += random.within(1, 7),
        1 => packed.push(random.below(256) as u8),
        2 => drop(packed.pop()),
        _ => {}
    }
    Case::bytes(UNPACK, room, packed)
}

fn line(random: &mut Random) -> Vec<u8> {
    match random.below(4) {
        0 => text(random),
        1 => (0..random.within(0, COLUMNS)).map(|_| *random.pick(&[&b' ', &b' ', &b':', &b'X'])).collect(),
        2 => (0..random.within(0, COLUMNS)).map(|_| CHART[random.below(64)]).collect(),
        _ => wide_text(random),
    }
}

fn expand_case(random: &mut Random) -> Case {
    let mut words = match random.below(10) {
        0..=5 => compress(&line(random)),
        6 | 7 => spoiled_text(random),
        _ => {
            let mut words = compress(&line(random));
            if !words.is_empty() {
                let at = random.below(words.len());
                words[at] ^= 1 << random.below(60);
            }
            words
        }
    };
    if random.chance(3) {
        words.push([0, WORD_END, random.word()][random.below(3)]);
    }
    Case::bytes(EXPAND, 0, to_bytes(&words))
}
