//! Cases of the kind `faults`: copies of one library whose packed form was damaged, each checked, run and compiled.

use std::io::{self, Write};

use super::drafts::Draft;
use super::random::Random;
use crate::cases::Case;
use crate::compile::{write, LINE_BYTES};
use crate::library::Library;
use crate::words::{pack, unpack};

/// Writes three cases for each copy.
pub fn write_cases(seed: u64, copies: usize, library: &Library, out: &mut impl Write) -> io::Result<()> {
    let mut random = Random::new(seed);
    let image = library.image();
    let file_length = write(library, usize::MAX).map_or(LINE_BYTES, |file| file.bytes.len());
    for copy in 0..copies {
        let damaged = damaged(&mut random, copy, &image);
        let (stream, length) = small_stream(&mut random, library);
        Case::check(&damaged).write(out)?;
        Case::run(&damaged, &stream, length + random.below(20)).write(out)?;
        Case::compile(&damaged, file_length + random.below(2 * LINE_BYTES)).write(out)?;
    }
    Ok(())
}

/// Of five copies two have a byte changed, two have neighbouring bytes swapped, and one is cut short.
fn damaged(random: &mut Random, copy: usize, image: &[u64]) -> Vec<u64> {
    loop {
        let mut packed = pack(image);
        let at = random.below(packed.len() - 1);
        match copy % 5 {
            0 | 1 => packed[at] ^= random.within(1, 255) as u8,
            2 | 3 => packed.swap(at, at + 1),
            _ => return image[..random.below(image.len())].to_vec(),
        }
        // The last 4 bits of an odd word are no part of the image, and equal bytes swapped leave it as it was.
        match unpack(&packed) {
            Ok(words) if words != image => return words,
            _ => {}
        }
    }
}

/// A set that the sound library accepts, and the words that it makes of it.
fn small_stream(random: &mut Random, library: &Library) -> (Vec<u8>, usize) {
    loop {
        let mut draft = Draft::new(library.clone());
        draft.good_set(random);
        if draft.refused.is_none() {
            return (draft.stream, draft.run.library.length());
        }
    }
}
