//! RULES, "Lines" and "Directives": lines, directive names, and the form of each directive.

use crate::refusal::Number;
use crate::text::Name;

pub const LAST_SEQUENCE: u32 = 262_143;
const SEQUENCE_DIGITS: usize = 6;

/// The names of UPDATE that are not carried (23), full and then short. C is short for COMPILE, and in UPDATE for COPY too.
pub const NOT_CARRIED: [&[u8]; 57] = [
    b"ABBREV", b"ADDFILE", b"CHANGE", b"COMPILE", b"COPY", b"CWEOR", b"DECLARE", b"DEFINE", b"DO", b"DONT", b"ENDIF",
    b"ENDTEXT", b"IF", b"LIMIT", b"LIST", b"MOVE", b"NOABBREV", b"NOLIST", b"PULLMOD", b"PURDECK", b"PURGE", b"READ",
    b"REWIND", b"SELPURGE", b"SELYANK", b"SEQUENCE", b"SKIP", b"TEXT", b"WEOR", b"YANKDECK", b"AF", b"C", b"CH", b"CW", b"CY",
    b"DC", b"DF", b"DT", b"EI", b"ET", b"L", b"LT", b"M", b"NA", b"NL", b"P", b"PD", b"PM", b"RD", b"RW", b"S", b"SK", b"SP",
    b"SY", b"T", b"W", b"YD",
];

#[derive(Clone, Copy, Debug, PartialEq, Eq)]
pub enum Kind {
    Deck,
    Comdeck,
    Ident,
}

/// A card as a directive names it.
#[derive(Clone, Copy, Debug, PartialEq, Eq)]
pub struct CardName {
    pub owner: Name,
    pub sequence: u32,
}

/// A line of a stream, or a card's text, read by its form alone.
#[derive(Clone, Debug, PartialEq, Eq)]
pub enum Line {
    Text,
    Skipped,
    Unit(Kind, Name),
    Insert(CardName),
    Before(CardName),
    Delete(CardName, CardName),
    Restore(CardName, CardName),
    Yank(Vec<Name>),
}

/// The lines of a stream: each up to a byte 10, and what stands after the last of these.
pub fn lines(stream: &[u8]) -> impl Iterator<Item = &[u8]> {
    stream.split_inclusive(|&byte| byte == 10).map(|line| line.strip_suffix(b"\n").unwrap_or(line))
}

/// Reads a line's form: 22, then 23.
pub fn read(line: &[u8]) -> Result<Line, Number> {
    if line.starts_with(b"*/") {
        return Ok(Line::Skipped);
    }
    let (name, rest) = match directive_name(line) {
        Some(parts) => parts,
        None => return Ok(Line::Text),
    };
    match name {
        b"DECK" | b"DK" => one(rest, Name::of_bytes).map(|name| Line::Unit(Kind::Deck, name)),
        b"COMDECK" | b"CD" => unit_with_options(Kind::Comdeck, rest),
        b"IDENT" | b"ID" => unit_with_options(Kind::Ident, rest),
        b"INSERT" | b"I" => one(rest, card_name).map(Line::Insert),
        b"BEFORE" | b"B" => one(rest, card_name).map(Line::Before),
        b"DELETE" | b"D" => range(rest).map(|(first, last)| Line::Delete(first, last)),
        b"RESTORE" | b"R" => range(rest).map(|(first, last)| Line::Restore(first, last)),
        b"YANK" | b"Y" => each(rest, Name::of_bytes).map(Line::Yank),
        b"END" => Ok(Line::Skipped),
        name if NOT_CARRIED.contains(&name) => Err(Number::NotCarried),
        _ => Ok(Line::Text),
    }
}

/// Whether a line has the name of DECK or COMDECK, well formed or not.
pub fn is_deck_line(line: &[u8]) -> bool {
    matches!(directive_name(line), Some((b"DECK" | b"DK" | b"COMDECK" | b"CD", _)))
}

/// The deck that a CALL names: nothing where the line is no CALL, 40 where it is a malformed one.
pub fn call(line: &[u8]) -> Option<Result<Name, Number>> {
    match directive_name(line) {
        Some((b"CALL" | b"CA", rest)) => Some(one(rest, Name::of_bytes).map_err(|_| Number::CallOfNoDeck)),
        _ => None,
    }
}

/// What stands after a `*` in column 1, up to the first comma or blank or the line's end; and the rest.
fn directive_name(line: &[u8]) -> Option<(&[u8], &[u8])> {
    let body = line.strip_prefix(b"*")?;
    let end = body.iter().position(|&byte| byte == b',' || byte == b' ').unwrap_or(body.len());
    Some(body.split_at(end))
}

/// One comma or the blanks are passed; the field up to the next blank is cut at its commas; only blanks may follow it.
fn parameters(rest: &[u8]) -> Result<Vec<&[u8]>, Number> {
    let start = match rest.first() {
        Some(b',') => 1,
        _ => blanks(rest),
    };
    let rest = &rest[start..];
    let end = rest.iter().position(|&byte| byte == b' ').unwrap_or(rest.len());
    let (held, tail) = rest.split_at(end);
    let parameters: Vec<&[u8]> = held.split(|&byte| byte == b',').collect();
    if blanks(tail) < tail.len() || parameters.iter().any(|parameter| parameter.is_empty()) {
        return Err(Number::DirectiveForm);
    }
    Ok(parameters)
}

fn blanks(bytes: &[u8]) -> usize {
    bytes.iter().take_while(|&&byte| byte == b' ').count()
}

/// One or more parameters, each of the form that `form` reads.
fn each<T>(rest: &[u8], form: fn(&[u8]) -> Option<T>) -> Result<Vec<T>, Number> {
    let read: Option<Vec<T>> = parameters(rest)?.into_iter().map(form).collect();
    read.ok_or(Number::DirectiveForm)
}

fn one<T: Copy>(rest: &[u8], form: fn(&[u8]) -> Option<T>) -> Result<T, Number> {
    match each(rest, form)?[..] {
        [only] => Ok(only),
        _ => Err(Number::DirectiveForm),
    }
}

fn range(rest: &[u8]) -> Result<(CardName, CardName), Number> {
    match each(rest, card_name)?[..] {
        [only] => Ok((only, only)),
        [first, last] => Ok((first, last)),
        _ => Err(Number::DirectiveForm),
    }
}

/// IDENT and COMDECK: UPDATE has more parameters after the name; any such is 23.
fn unit_with_options(kind: Kind, rest: &[u8]) -> Result<Line, Number> {
    let parameters = parameters(rest)?;
    let name = Name::of_bytes(parameters[0]).ok_or(Number::DirectiveForm)?;
    match parameters.len() {
        1 => Ok(Line::Unit(kind, name)),
        _ => Err(Number::NotCarried),
    }
}

/// A card's name: a name, a point, and up to six digits with a value from 1 to 262143.
fn card_name(parameter: &[u8]) -> Option<CardName> {
    let dot = parameter.iter().position(|&byte| byte == b'.')?;
    let owner = Name::of_bytes(&parameter[..dot])?;
    let digits = &parameter[dot + 1..];
    if digits.is_empty() || digits.len() > SEQUENCE_DIGITS || !digits.iter().all(u8::is_ascii_digit) {
        return None;
    }
    let sequence = digits.iter().fold(0, |number, digit| number * 10 + u32::from(digit - b'0'));
    if (1..=LAST_SEQUENCE).contains(&sequence) {
        Some(CardName { owner, sequence })
    } else {
        None
    }
}
