//! RULES, "Text" and "Names and numbers": display code, compressed lines, and names.

use crate::words::field;

/// The 64 characters, in the order of their display codes.
pub const CHART: &[u8; 64] = b":ABCDEFGHIJKLMNOPQRSTUVWXYZ0123456789+-*/()$= ,.#[]%\"_!&'?<>@\\^;";
pub const COLUMNS: usize = 80;

const BLANK: u8 = 0o55;
const LONGEST_RUN: usize = 64;
const CODES_PER_WORD: usize = 10;

/// The display code of a byte of the character set.
pub fn code(byte: u8) -> Option<u8> {
    CHART.iter().position(|&character| character == byte).map(|code| code as u8)
}

/// A line without its trailing blanks, which no card keeps.
pub fn trimmed(line: &[u8]) -> &[u8] {
    let end = line.iter().rposition(|&byte| byte != b' ').map_or(0, |last| last + 1);
    &line[..end]
}

/// The compressed text of a line of the character set.
pub fn compress(line: &[u8]) -> Vec<u64> {
    words_of_codes(&codes_of_line(trimmed(line)))
}

fn codes_of_line(line: &[u8]) -> Vec<u8> {
    let mut codes = Vec::with_capacity(line.len());
    let mut at = 0;
    while at < line.len() {
        let mut length = 1;
        match line[at] {
            b' ' if at == 0 => codes.push(BLANK),
            b' ' => {
                length = line[at..].iter().take_while(|&&byte| byte == b' ').count();
                push_run(&mut codes, length);
            }
            b':' => codes.extend_from_slice(&[0, 1]),
            byte => codes.push(code(byte).expect("a byte of the character set")),
        }
        at += length;
    }
    codes
}

/// A run of blanks: 00 77 for 64 of them while more are left, then 55 for each of one or two, or 00 and their count less one.
fn push_run(codes: &mut Vec<u8>, run: usize) {
    match run {
        0 => {}
        1 | 2 => codes.extend(std::iter::repeat(BLANK).take(run)),
        _ => {
            let taken = run.min(LONGEST_RUN);
            codes.extend_from_slice(&[0, taken as u8 - 1]);
            push_run(codes, run - taken);
        }
    }
}

/// Ten codes in each word, zeros after the last code, and no word more than needed.
pub fn words_of_codes(codes: &[u8]) -> Vec<u64> {
    codes
        .chunks(CODES_PER_WORD)
        .map(|chunk| {
            let word = chunk.iter().fold(0, |word, &code| word << 6 | u64::from(code));
            word << (6 * (CODES_PER_WORD - chunk.len()))
        })
        .collect()
}

fn codes_of_word(word: u64) -> impl Iterator<Item = u8> {
    (0..CODES_PER_WORD as u32).rev().map(move |at| field(word, 6 * at + 5, 6 * at) as u8)
}

/// The line of a compressed text. What compresses to other words is no text.
pub fn expand(words: &[u64]) -> Option<Vec<u8>> {
    let mut line = Vec::new();
    let mut codes = words.iter().flat_map(|&word| codes_of_word(word));
    while let Some(code) = codes.next() {
        match code {
            0 => match codes.next() {
                None | Some(0) => break,
                Some(1) => line.push(b':'),
                Some(pair) => line.resize(line.len() + usize::from(pair) + 1, b' '),
            },
            _ => line.push(CHART[usize::from(code)]),
        }
        if line.len() > COLUMNS {
            return None;
        }
    }
    if compress(&line) == words {
        Some(line)
    } else {
        None
    }
}

/// A name, as its directory word: the codes of its 1 to 9 characters from bit 59 down, the rest zero.
#[derive(Clone, Copy, Debug, PartialEq, Eq, Hash)]
pub struct Name(u64);

const NAME_COLUMNS: usize = 9;
/// A name has the codes 1 to 54 in octal: letters, digits, and `+ - * / ( ) $ =`.
const LAST_NAME_CODE: u8 = 0o54;

/// The reserved name of the first deck.
pub const YANK_DECK: Name = Name(0o31011613535353000000);

impl Name {
    pub fn of_bytes(bytes: &[u8]) -> Option<Name> {
        if bytes.is_empty() || bytes.len() > NAME_COLUMNS {
            return None;
        }
        let codes: Option<Vec<u8>> =
            bytes.iter().map(|&byte| code(byte).filter(|code| (1..=LAST_NAME_CODE).contains(code))).collect();
        Some(Name(words_of_codes(&codes?)[0]))
    }

    pub fn of_word(word: u64) -> Option<Name> {
        let codes: Vec<u8> = codes_of_word(word).take_while(|&code| code != 0).collect();
        let bytes: Vec<u8> = codes.iter().map(|&code| CHART[usize::from(code)]).collect();
        Name::of_bytes(&bytes).filter(|name| name.0 == word)
    }

    pub fn word(self) -> u64 {
        self.0
    }

    pub fn bytes(self) -> Vec<u8> {
        codes_of_word(self.0).take_while(|&code| code != 0).map(|code| CHART[usize::from(code)]).collect()
    }
}
