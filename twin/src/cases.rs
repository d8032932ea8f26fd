//! Cases and their answers, one format for every implementation.

use std::collections::BTreeMap;
use std::io::{self, Write};

use crate::check::check;
use crate::compile::compile;
use crate::lines::{call, lines, read, CardName, Kind, Line};
use crate::merge::{merge, Refused};
use crate::refusal::{Number, Refusal};
use crate::run::run;
use crate::text::{code, compress, expand, COLUMNS};
use crate::words::{from_bytes, pack_bytes, to_bytes, unpack_bytes};

pub const CHECK: u8 = 1;
pub const RUN: u8 = 2;
pub const COMPILE: u8 = 3;
pub const PACK: u8 = 4;
pub const UNPACK: u8 = 5;
pub const COMPRESS: u8 = 6;
pub const EXPAND: u8 = 7;
pub const LINE: u8 = 8;
pub const MERGE: u8 = 9;

const HEAD: usize = 13;
/// What each byte of a lent space holds before the call.
const LENT: u8 = 0x5A;

#[derive(Clone, Debug, PartialEq, Eq)]
pub struct Case {
    pub op: u8,
    pub room: u32,
    pub first: Vec<u8>,
    pub second: Vec<u8>,
}

/// The three numbers and the sum.
#[derive(Clone, Copy, Debug, PartialEq, Eq)]
pub struct Answer {
    pub number: u32,
    pub values: [usize; 2],
    pub sum: u64,
}

impl Case {
    pub fn check(image: &[u64]) -> Case {
        Case { op: CHECK, room: 0, first: to_bytes(image), second: Vec::new() }
    }

    pub fn run(image: &[u64], stream: &[u8], room: usize) -> Case {
        Case { op: RUN, room: room as u32, first: to_bytes(image), second: stream.to_vec() }
    }

    pub fn compile(image: &[u64], room: usize) -> Case {
        Case { op: COMPILE, room: room as u32, first: to_bytes(image), second: Vec::new() }
    }

    pub fn merge(first: &[u64], second: &[u64], room: usize) -> Case {
        Case { op: MERGE, room: room as u32, first: to_bytes(first), second: to_bytes(second) }
    }

    pub fn bytes(op: u8, room: usize, bytes: Vec<u8>) -> Case {
        Case { op, room: room as u32, first: bytes, second: Vec::new() }
    }

    pub fn write(&self, out: &mut impl Write) -> io::Result<()> {
        out.write_all(&[self.op])?;
        for number in [self.room, self.first.len() as u32, self.second.len() as u32] {
            out.write_all(&number.to_le_bytes())?;
        }
        out.write_all(&self.first)?;
        out.write_all(&self.second)
    }

    pub fn answer(&self) -> Answer {
        let room = self.room as usize;
        let image = || from_bytes(&self.first);
        match self.op {
            CHECK => match check(&image()) {
                Ok(_) => done(0, 0, 0),
                Err(refusal) => refused(refusal, 0),
            },
            RUN => match run(&image(), &self.second, room) {
                Ok(new) => done(new.len(), 0, word_sum(&new, room)),
                Err(refusal) => refused(refusal, word_sum(&[], room)),
            },
            COMPILE => match compile(&image(), room) {
                Ok(file) => done(file.lines(), file.calls, byte_sum(&file.bytes, room)),
                Err(refusal) => refused(refusal, byte_sum(&[], room)),
            },
            PACK => bytes_answer(pack_bytes(&self.first, room), room),
            UNPACK => bytes_answer(unpack_bytes(&self.first, room), room),
            COMPRESS => {
                let words = compress(&self.first);
                done(words.len(), 0, word_sum(&words, words.len()))
            }
            EXPAND => match expand(&image()) {
                Some(line) => done(line.len(), 0, byte_sum(&line, line.len())),
                None => refused(Refusal::new(Number::TextForm, 0), 0),
            },
            LINE => match asked(&self.first) {
                Ok((kind, words)) => done(kind, words.len(), word_sum(&words, words.len())),
                Err(number) => refused(Refusal::new(number, 0), 0),
            },
            MERGE => match merge(&image(), &from_bytes(&self.second), room) {
                Ok(new) => done(new.len(), 0, word_sum(&new, room)),
                Err(Refused { refusal, which }) => {
                    Answer { values: [refusal.place, which as usize], ..refused(refusal, word_sum(&[], room)) }
                }
            },
            op => panic!("no op {}", op),
        }
    }
}

/// What a line asks: the number of its kind, and the words that it names.
fn asked(line: &[u8]) -> Result<(usize, Vec<u64>), Number> {
    if line.iter().any(|&byte| code(byte).is_none()) {
        return Err(Number::Character);
    }
    if line.len() > COLUMNS {
        return Err(Number::Columns);
    }
    let card = |card: CardName| vec![card.owner.word(), u64::from(card.sequence)];
    Ok(match read(line)? {
        Line::Text => match call(line) {
            None => (0, vec![]),
            Some(Ok(name)) => (0, vec![1, name.word()]),
            Some(Err(_)) => (0, vec![2]),
        },
        Line::Skipped => (1, vec![]),
        Line::Unit(Kind::Deck, name) => (2, vec![name.word()]),
        Line::Unit(Kind::Comdeck, name) => (3, vec![name.word()]),
        Line::Unit(Kind::Ident, name) => (4, vec![name.word()]),
        Line::Insert(at) => (5, card(at)),
        Line::Before(at) => (6, card(at)),
        Line::Delete(first, last) => (7, [card(first), card(last)].concat()),
        Line::Restore(first, last) => (8, [card(first), card(last)].concat()),
        Line::Yank(names) => (9, names.into_iter().map(|name| name.word()).collect()),
    })
}

fn done(first: usize, second: usize, sum: u64) -> Answer {
    Answer { number: 0, values: [first, second], sum }
}

fn refused(refusal: Refusal, sum: u64) -> Answer {
    let sequence = refusal.sequence.unwrap_or(0) as usize;
    Answer { number: refusal.number as u32, values: [refusal.place, sequence], sum }
}

fn bytes_answer(result: Result<Vec<u8>, Number>, room: usize) -> Answer {
    match result {
        Ok(bytes) => done(bytes.len(), 0, byte_sum(&bytes, room)),
        Err(number) => refused(Refusal::new(number, 0), byte_sum(&[], room)),
    }
}

const LENT_HALF: u32 = u32::from_le_bytes([LENT; 4]);

/// A word counts as its low 32 bits and then its high 32 bits.
fn word_sum(written: &[u64], room: usize) -> u64 {
    let halves: Vec<u32> = written.iter().flat_map(|&word| [word as u32, (word >> 32) as u32]).collect();
    space_sum(&halves, room * 2, LENT_HALF)
}

fn byte_sum(written: &[u8], room: usize) -> u64 {
    let written: Vec<u32> = written.iter().map(|&byte| u32::from(byte)).collect();
    space_sum(&written, room, u32::from(LENT))
}

/// The sum over a space of `room` items: those written, then those left as they were lent.
fn space_sum(written: &[u32], room: usize, lent: u32) -> u64 {
    let left = std::iter::repeat(lent).take(room - written.len());
    let step = |sum: u64, item: u32| (sum * 65_599 + u64::from(item)) % 4_294_967_291;
    written.iter().copied().chain(left).fold(0, step)
}

/// The cases of a file. A file cut short ends with its last whole case.
pub fn cases(file: &[u8]) -> impl Iterator<Item = Case> + '_ {
    let mut rest = file;
    std::iter::from_fn(move || {
        let (case, after) = first_case(rest)?;
        rest = after;
        Some(case)
    })
}

fn first_case(file: &[u8]) -> Option<(Case, &[u8])> {
    let head = file.get(..HEAD)?;
    let number = |at: usize| u32::from_le_bytes([head[at], head[at + 1], head[at + 2], head[at + 3]]);
    let (first, second) = (number(5) as usize, number(9) as usize);
    let body = file.get(HEAD..HEAD + first + second)?;
    let (first, second) = body.split_at(first);
    let case = Case { op: head[0], room: number(1), first: first.to_vec(), second: second.to_vec() };
    Some((case, &file[HEAD + body.len()..]))
}

pub fn write_answers(file: &[u8], out: &mut impl Write) -> io::Result<()> {
    for case in cases(file) {
        let Answer { number, values: [first, second], sum } = case.answer();
        writeln!(out, "{} {} {} {}", number, first, second, sum)?;
    }
    Ok(())
}

/// A table of op, number of the answer, and how many; for a merge that is refused, also which library.
pub fn write_counts(file: &[u8], out: &mut impl Write) -> io::Result<()> {
    let mut counts: BTreeMap<(u8, u32, Option<usize>), usize> = BTreeMap::new();
    for case in cases(file) {
        let Answer { number, values: [_, which], .. } = case.answer();
        let which = Some(which).filter(|_| case.op == MERGE && number > 0);
        *counts.entry((case.op, number, which)).or_insert(0) += 1;
    }
    for ((op, number, which), count) in counts {
        let which = which.map_or(String::new(), |which| format!(" of {}", which));
        writeln!(out, "{:2} {:3} {:7}{}", op, number, count, which)?;
    }
    Ok(())
}

/// Copies the case at a place, counted from 1.
pub fn write_picked(file: &[u8], place: usize, out: &mut impl Write) -> io::Result<()> {
    match place.checked_sub(1).and_then(|index| cases(file).nth(index)) {
        Some(case) => case.write(out),
        None => Ok(()),
    }
}

/// Each case for people: octal words, streams as text, other bytes in hexadecimal.
pub fn write_shown(file: &[u8], out: &mut impl Write) -> io::Result<()> {
    for (index, case) in cases(file).enumerate() {
        let Answer { number, values: [first, second], sum } = case.answer();
        writeln!(out, "case {}: op {} room {}", index + 1, case.op, case.room)?;
        match case.op {
            UNPACK => show_bytes(&case.first, out)?,
            COMPRESS | LINE => show_lines(&case.first, out)?,
            _ => show_words(&case.first, out)?,
        }
        match case.op {
            MERGE => {
                writeln!(out, "and")?;
                show_words(&case.second, out)?;
            }
            _ => show_lines(&case.second, out)?,
        }
        writeln!(out, "answer: {} {} {} {}\n", number, first, second, sum)?;
    }
    Ok(())
}

fn show_words(bytes: &[u8], out: &mut impl Write) -> io::Result<()> {
    for (place, word) in from_bytes(bytes).iter().enumerate() {
        writeln!(out, "{:7} {:020o}", place, word)?;
    }
    show_bytes(&bytes[bytes.len() / 8 * 8..], out)
}

fn show_bytes(bytes: &[u8], out: &mut impl Write) -> io::Result<()> {
    for chunk in bytes.chunks(15) {
        let shown: Vec<String> = chunk.iter().map(|byte| format!("{:02x}", byte)).collect();
        writeln!(out, "        {}", shown.join(" "))?;
    }
    Ok(())
}

fn show_lines(stream: &[u8], out: &mut impl Write) -> io::Result<()> {
    for (index, line) in lines(stream).enumerate() {
        let shown: String = line.iter().flat_map(|&byte| std::ascii::escape_default(byte)).map(char::from).collect();
        writeln!(out, "{:7} |{}|", index + 1, shown)?;
    }
    Ok(())
}
