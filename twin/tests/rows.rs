//! RULES, "Numbers of the answers": each number with its smallest input.

use twin::check::check;
use twin::compile::{compile, program, LINE_BYTES, MAX_CALLS, PROGRAM_INPUT};
use twin::library::{FRESH, HEADER, MAX_CARDS, MAX_NAMES, MAX_WORDS};
use twin::refusal::{Number, Refusal};
use twin::run::{run, MAX_STREAM};
use twin::text::expand;
use twin::words::{pack_bytes, unpack, unpack_bytes, WORD_END};

const A: u64 = 0o01000000000000000000;
const YANK: u64 = 0o31011613535353000000;
/// Counts of one name, and of YANK$$$ alone or with a deck.
const ONE_NAME: u64 = 0o1000001;
const ONE_DECK: u64 = 0o1000002;
/// The head of an active card A.1 with a word of text, and `*DECK A`.
const HEAD: u64 = 0o60000001000001200001;
const DECK_A: u64 = 0o47040503135501000000;

fn check_refusal(image: &[u64], number: Number, place: usize) {
    assert_eq!(check(image).err(), Some(Refusal::new(number, place)), "{:?}", image);
}

/// The stream is written with `|` for byte 10.
fn run_refusal(stream: &str, number: Number, place: usize) {
    let stream = stream.replace('|', "\n");
    assert_eq!(run(&FRESH, stream.as_bytes(), MAX_WORDS).err(), Some(Refusal::new(number, place)), "{}", stream);
}

fn compile_refusal(stream: &str, room: usize, number: Number, owner: u16, sequence: u32) {
    let image = run(&FRESH, stream.replace('|', "\n").as_bytes(), MAX_WORDS).expect("an accepted stream");
    assert_eq!(compile(&image, room).err(), Some(Refusal::at_card(number, owner, sequence)), "{}", stream);
}

#[test]
fn fresh_library_is_accepted() {
    assert!(check(&FRESH).is_ok());
    assert_eq!(run(&FRESH, b"", 3), Ok(FRESH.to_vec()));
}

#[test]
fn number_1() {
    check_refusal(&[], Number::Length, 0);
    check_refusal(&[0, WORD_END], Number::Length, 2);
    check_refusal(&[0, 0, WORD_END], Number::Length, 2);
    check_refusal(&vec![WORD_END; MAX_WORDS + 1], Number::Length, MAX_WORDS);
}

#[test]
fn number_2() {
    check_refusal(&[0, 0, 0], Number::Header, 0);
}

#[test]
fn number_3() {
    check_refusal(&[HEADER, 0, YANK], Number::Counts, 1);
    check_refusal(&[HEADER, 256, YANK], Number::Counts, 1);
    check_refusal(&[HEADER, ONE_NAME, YANK], Number::Counts, 1);
    check_refusal(&[HEADER, 1 << 36 | 1, YANK], Number::Counts, 1);
    check_refusal(&[HEADER, 1_024 << 18 | 1, YANK], Number::Counts, 1);
}

#[test]
fn number_4() {
    check_refusal(&[HEADER, 1, 0], Number::TableName, 2);
    check_refusal(&[HEADER, 1, 0o20], Number::TableName, 2);
    check_refusal(&[HEADER, ONE_NAME, YANK, YANK], Number::TableName, 2);
    check_refusal(&[HEADER, 0o2000001, A, A, YANK], Number::TableName, 3);
    check_refusal(&[HEADER, ONE_DECK, A, YANK, YANK], Number::TableName, 4);
}

#[test]
fn number_5() {
    check_refusal(&[HEADER, 1, YANK, 0], Number::CardForm, 3);
    let mut image = vec![HEADER, ONE_DECK, A, YANK, A, HEAD, DECK_A];
    for sequence in 2..=MAX_CARDS as u64 {
        image.push(0o60000000000000200001 | sequence << 18);
    }
    assert!(check(&image).is_ok());
    image.push(0o60000000777777200001);
    check_refusal(&image, Number::CardForm, image.len() - 1);
}

#[test]
fn number_6() {
    check_refusal(&[HEADER, ONE_NAME, A, YANK, HEAD, 0], Number::TextForm, 4);
    assert_eq!(expand(&[0]), None);
}

#[test]
fn number_7() {
    check_refusal(&[HEADER, ONE_DECK, A, YANK, A], Number::DeckCard, 5);
    check_refusal(&[HEADER, ONE_NAME, A, YANK, HEAD, DECK_A], Number::DeckCard, 4);
    check_refusal(&[HEADER, ONE_NAME, A, YANK, HEAD, 0o47040503130000000000], Number::DeckCard, 4);
}

#[test]
fn number_8() {
    check_refusal(&[HEADER, ONE_NAME, A, YANK, HEAD, A], Number::YankCard, 4);
}

#[test]
fn number_9() {
    check_refusal(&[HEADER, ONE_DECK, A, YANK, A, HEAD & !(1 << 58), DECK_A], Number::StoredBit, 5);
    check_refusal(&[HEADER, ONE_DECK, A, YANK, A, HEAD | 1 << 17, DECK_A], Number::StoredBit, 5);
}

#[test]
fn number_10() {
    const BLANK: u64 = 0o60000000000001200001;
    check_refusal(&[HEADER, ONE_DECK, A, YANK, A, HEAD, DECK_A, BLANK], Number::Twice, 7);
}

#[test]
fn number_19() {
    let stream = vec![b'X'; MAX_STREAM + 1];
    assert_eq!(run(&FRESH, &stream, 3), Err(Refusal::new(Number::StreamLength, 0)));
    assert_eq!(run(&FRESH, &stream[1..], 3), Err(Refusal::new(Number::Columns, 1)));
    assert_eq!(run(&[], &stream, 3), Err(Refusal::new(Number::Length, 0)));
}

#[test]
fn numbers_20_and_21() {
    run_refusal("a", Number::Character, 1);
    run_refusal(&" ".repeat(81), Number::Columns, 1);
    run_refusal(&["X".repeat(85), "a".to_string()].concat(), Number::Character, 1);
    run_refusal(&" ".repeat(80), Number::Nowhere, 1);
}

#[test]
fn numbers_22_and_23() {
    run_refusal("*D", Number::DirectiveForm, 1);
    run_refusal("*ID A,", Number::DirectiveForm, 1);
    run_refusal("*ID A,B C", Number::DirectiveForm, 1);
    run_refusal("*C", Number::NotCarried, 1);
    run_refusal("*ID A,B", Number::NotCarried, 1);
    run_refusal("*CD A,B", Number::NotCarried, 1);
    run_refusal("*DK A,B", Number::DirectiveForm, 1);
}

#[test]
fn number_24() {
    run_refusal("|", Number::Nowhere, 1);
    run_refusal("*I A.1", Number::Nowhere, 1);
    run_refusal("*ID A||", Number::Nowhere, 2);
    run_refusal("*ID A|*ID B|*Y A||", Number::Nowhere, 4);
    run_refusal("*DK A|*Y B", Number::Nowhere, 2);
}

#[test]
fn number_25() {
    run_refusal("*ID YANK$$$", Number::KnownName, 1);
    run_refusal("*ID A|*DK A", Number::KnownName, 2);
}

#[test]
fn numbers_26_and_27() {
    run_refusal("*ID A|*Y B", Number::UnknownYank, 2);
    run_refusal("*ID A|*Y A,B", Number::UnknownYank, 2);
    run_refusal("*ID A|*Y A", Number::BarredYank, 2);
    run_refusal("*ID A|*Y YANK$$$", Number::BarredYank, 2);
    run_refusal("*DK A|*ID B|*Y A", Number::BarredYank, 3);
}

#[test]
fn numbers_28_and_29() {
    run_refusal("*ID A|*I A.1", Number::NotFound, 2);
    run_refusal("*DK A|*ID B|*D A.1,A.2", Number::NotFound, 3);
    run_refusal("*DK A||*ID B|*D A.2,A.1", Number::Backwards, 4);
}

#[test]
fn number_30() {
    run_refusal("*DK A|*ID B|*B A.1", Number::BarredCard, 3);
    run_refusal("*DK A|*ID B|*R A.1", Number::BarredCard, 3);
    run_refusal("*DK A||*DK C||*ID B|*D A.2,C.2", Number::BarredCard, 6);
    run_refusal("*ID A|*ID B|*Y A|*I B.1", Number::BarredCard, 4);
    run_refusal("*ID A|*ID B|*Y A|*R B.1||", Number::BarredCard, 5);
}

#[test]
fn number_31() {
    let names: String = (0..=MAX_NAMES).map(|name| format!("*ID {}|", name)).collect();
    run_refusal(&names, Number::Limit, MAX_NAMES + 1);
    let cards = ["*DK A|", &"|".repeat(MAX_CARDS)].concat();
    run_refusal(&cards, Number::Limit, MAX_CARDS + 1);
    let bytes = ["*DK A||*ID B|", &"*D A.2|*R A.2|".repeat(32)].concat();
    run_refusal(&bytes, Number::Limit, 3 + 64);
}

#[test]
fn number_32() {
    assert_eq!(run(&FRESH, b"", 2), Err(Refusal::new(Number::NewLength, 0)));
    assert_eq!(run(&FRESH, b"*ID A\n*", 0), Err(Refusal::new(Number::Nowhere, 2)));
}

#[test]
fn numbers_40_and_41() {
    compile_refusal("*DK A|*CA", 0, Number::CallOfNoDeck, 1, 2);
    compile_refusal("*DK A|*CA B|*ID B", 0, Number::CallOfNoDeck, 1, 2);
    compile_refusal("*DK A|*CA A", 0, Number::CallOfNoCommonDeck, 1, 2);
    compile_refusal("*DK A|*CA YANK$$$", 0, Number::CallOfNoCommonDeck, 1, 2);
}

#[test]
fn number_42() {
    compile_refusal("*CD A|*CA A|*DK B|*CA A", 0, Number::Depth, 1, 2);
    compile_refusal("*CD A|T|*CA A|*DK B|*CA A", 8 * LINE_BYTES, Number::Depth, 1, 3);
    compile_refusal("*CD A|T|*CA A|*DK B|*CA A", 8 * LINE_BYTES - 1, Number::LineRoom, 1, 2);
}

#[test]
fn number_43() {
    let calls = ["*CD A|*DK B|", &"*CA A|".repeat(MAX_CALLS + 1)].concat();
    compile_refusal(&calls, 0, Number::Calls, 2, MAX_CALLS as u32 + 2);
}

#[test]
fn number_44() {
    compile_refusal("*DK A||", LINE_BYTES - 1, Number::LineRoom, 1, 2);
}

#[test]
fn numbers_50_51_and_53() {
    assert_eq!(pack_bytes(&[0], 100), Err(Number::PackedLength));
    assert_eq!(unpack_bytes(&[0], 100), Err(Number::PackedLength));
    assert_eq!(unpack_bytes(&[], 1), Err(Number::PackedLength));
    assert_eq!(unpack(&[0]), Err(Number::PackedLength));
    assert_eq!(unpack_bytes(&[0, 0, 0, 0, 0, 0, 0, 1], 8), Err(Number::LastBits));
    assert_eq!(unpack_bytes(&[0, 0, 0, 0, 0, 0, 0, 1], 0), Err(Number::PackedRoom));
    assert_eq!(pack_bytes(&[0; 8], 7), Err(Number::PackedRoom));
    assert_eq!(pack_bytes(&WORD_END.to_le_bytes(), 8), Err(Number::PackedRoom));
}

#[test]
fn number_52() {
    assert_eq!(program(&vec![0; PROGRAM_INPUT + 1]), b"REFUSED 52 0\n");
    assert_eq!(program(&vec![0; PROGRAM_INPUT]), b"REFUSED 2 0\n");
    assert_eq!(program(&[0]), b"REFUSED 50 0\n");
    assert_eq!(program(&[]), b"REFUSED 1 0\n");
}
