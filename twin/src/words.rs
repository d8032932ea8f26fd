//! RULES, "Words" and "Packing": words of 60 bits, each in a number of 64, and their packed form.

use crate::refusal::Number;

/// The first number that is no word.
pub const WORD_END: u64 = 1 << 60;

/// Bits `high` to `low` of a word, bit 0 being the lowest.
pub fn field(word: u64, high: u32, low: u32) -> u64 {
    (word >> low) & ((1 << (high - low + 1)) - 1)
}

pub fn bit(word: u64, at: u32) -> bool {
    field(word, at, at) == 1
}

/// The byte form for C: eight bytes for each word, the lowest ahead.
pub fn to_bytes(words: &[u64]) -> Vec<u8> {
    words.iter().flat_map(|word| word.to_le_bytes()).collect()
}

/// The words of a byte form; bytes past the last whole word are left out.
pub fn from_bytes(bytes: &[u8]) -> Vec<u64> {
    bytes.chunks_exact(8).map(|chunk| chunk.iter().rev().fold(0, |word, &byte| word << 8 | u64::from(byte))).collect()
}

/// The bytes of n words: seven and a half for each, rounded up.
pub fn packed_length(words: usize) -> usize {
    (words * 15 + 1) / 2
}

/// The number of words in a packed length, where the length is one.
pub fn packed_words(length: usize) -> Option<usize> {
    match length % 15 {
        0 => Some(length / 15 * 2),
        8 => Some(length / 15 * 2 + 1),
        _ => None,
    }
}

/// Packs words, the highest bit of each ahead; an odd last word is followed by four zero bits.
pub fn pack(words: &[u64]) -> Vec<u8> {
    let mut packed = Vec::with_capacity(packed_length(words.len()));
    for pair in words.chunks(2) {
        let second = pair.get(1).copied().unwrap_or(0);
        let bits = u128::from(pair[0]) << 60 | u128::from(second);
        packed.extend_from_slice(&(bits << 8).to_be_bytes()[..packed_length(pair.len())]);
    }
    packed
}

/// Unpacks bytes; 50 for the length, then 51 for the last four bits.
pub fn unpack(packed: &[u8]) -> Result<Vec<u64>, Number> {
    let count = packed_words(packed.len()).ok_or(Number::PackedLength)?;
    let mut words = Vec::with_capacity(count + 1);
    for chunk in packed.chunks(15) {
        let mut bytes = [0; 16];
        bytes[..chunk.len()].copy_from_slice(chunk);
        let bits = u128::from_be_bytes(bytes) >> 8;
        words.push((bits >> 60) as u64);
        words.push(bits as u64 & (WORD_END - 1));
    }
    // The half left over beside an odd last word is the four bits, which lead its 60.
    if words.len() > count && words[count] != 0 {
        return Err(Number::LastBits);
    }
    words.truncate(count);
    Ok(words)
}

/// Packing as C calls it: the byte form of words into `room` bytes. 50 comes ahead of 53.
pub fn pack_bytes(words: &[u8], room: usize) -> Result<Vec<u8>, Number> {
    if words.len() % 8 != 0 {
        return Err(Number::PackedLength);
    }
    let words = from_bytes(words);
    if packed_length(words.len()) > room || words.iter().any(|&word| word >= WORD_END) {
        return Err(Number::PackedRoom);
    }
    Ok(pack(&words))
}

/// Unpacking as C calls it, into a byte form of `room` bytes. 50 comes ahead of 53, 53 ahead of 51.
pub fn unpack_bytes(packed: &[u8], room: usize) -> Result<Vec<u8>, Number> {
    let count = packed_words(packed.len()).ok_or(Number::PackedLength)?;
    if room % 8 != 0 {
        return Err(Number::PackedLength);
    }
    if count * 8 > room {
        return Err(Number::PackedRoom);
    }
    Ok(to_bytes(&unpack(packed)?))
}
