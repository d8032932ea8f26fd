//! RULES, "Shown example": whole images, runs of blanks, packed words, and the compile program.

use twin::compile::program;
use twin::library::FRESH;
use twin::run::run;
use twin::text::{compress, expand};
use twin::words::{pack, unpack};

const ONE: &[u8] = b"*DECK PUMP\n A=1\n B=2\n*IDENT ONE\n*DELETE PUMP.2\n A=3\n";

fn after(streams: &[&[u8]]) -> Vec<u64> {
    streams.iter().fold(FRESH.to_vec(), |image, stream| run(&image, stream, 100).expect("an accepted stream"))
}

fn octal(words: &[u64]) -> Vec<String> {
    words.iter().map(|word| format!("{:020o}", word)).collect()
}

#[test]
fn image_after_one() {
    let expected = [
        "03100503130004003147", "00000000000002000002", "20251520000000000000", "17160500000000000000", "31011613535353000000",
        "20251520000000000000", "60000001000001200001", "47040503135520251520", "00000001000002200001", // PUMP.2
        "40000002000000000000", "55015434000000000000", "60000001000001200002", // ONE.1
        "55015436000000000000", "60000001000003200001", // PUMP.3
        "55025435000000000000",
    ];
    assert_eq!(octal(&after(&[ONE])), expected);
}

#[test]
fn image_after_two() {
    let expected = [
        "03100503130004003147", "00000000000003000002", "20251520000000000000", "17160500000000000000", "24271700000000000000",
        "31011613535353000000", "20251520000000000000", "60000001000001200003", "47310116135517160500", "60000001000001200001",
        "47040503135520251520", "20000001000002200001", // PUMP.2
        "40400002000000000000", "55015434000000000000", "40000001000001600002", // ONE.1
        "55015436000000000000", "60000001000003200001", "55025435000000000000",
    ];
    assert_eq!(octal(&after(&[ONE, b"*IDENT TWO\n*YANK ONE\n"])), expected);
}

#[test]
fn image_after_three() {
    let expected = [
        "03100503130004003147", "00000000000004000002", "20251520000000000000", "17160500000000000000", "24271700000000000000",
        "24102205050000000000", "31011613535353000000", "20251520000000000000", "40000001000001600003", "47310116135517160500",
        "60000001000001200004", "47310116135524271700", "60000001000001200001", "47040503135520251520",
        "00000001000002200001", // PUMP.2
        "40000002000000000000", "55015434000000000000", "60000001000001200002", // ONE.1
        "55015436000000000000", "60000001000003200001", "55025435000000000000",
    ];
    let streams: [&[u8]; 3] = [ONE, b"*IDENT TWO\n*YANK ONE\n", b"*IDENT THREE\n*YANK TWO\n"];
    assert_eq!(octal(&after(&streams)), expected);
    assert_eq!(octal(&after(&[&streams.concat()])), expected);
}

#[test]
fn blanks_of_g_and_h() {
    let inside = |run: usize| octal(&compress(&[b"A", &vec![b' '; run][..], b"A"].concat()));
    assert_eq!(inside(64), ["01007701000000000000"]);
    assert_eq!(inside(65), ["01007755010000000000"]);
    assert_eq!(inside(66), ["01007755550100000000"]);
    assert_eq!(inside(67), ["01007700020100000000"]);
    assert_eq!(octal(&compress(b"    A")), ["55000201000000000000"]);
    assert_eq!(expand(&compress(b"    A")), Some(b"    A".to_vec()));
}

#[test]
fn three_words_pack_to_23_bytes() {
    let packed = pack(&FRESH);
    assert_eq!(packed.len(), 23);
    assert_eq!(unpack(&packed), Ok(FRESH.to_vec()));
}

#[test]
fn compile_program_after_one() {
    let file = program(&pack(&after(&[ONE])));
    let expected = [format!("{:72} {:9}{:8}\n", " A=3", "ONE", 1), format!("{:72} {:9}{:8}\n", " B=2", "PUMP", 3)].concat();
    assert_eq!(String::from_utf8(file), Ok(expected));
}

#[test]
fn compile_program_refuses_with_owner_and_sequence() {
    let image = after(&[b"*DECK A\nX\n*CALL B\n"]);
    assert_eq!(program(&pack(&image)), b"REFUSED 40 1 3\n");
    assert_eq!(program(&pack(&FRESH)), b"");
}
