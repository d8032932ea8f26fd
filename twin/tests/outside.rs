//! Cases and a corpus from outside, where they are at hand: in the folders that TWIN_VECTORS and TWIN_CORPUS name, else in
//! `vectors` and `corpus` of the project's tests.

use std::fs;
use std::path::{Path, PathBuf};

use twin::cases::write_answers;
use twin::compile::{compile, CompileFile, LINE_BYTES};
use twin::library::{FRESH, MAX_WORDS};
use twin::merge::merge;
use twin::run::run;

const TEXT_COLUMNS: usize = 72;

fn folder(variable: &str, name: &str) -> PathBuf {
    let beside = Path::new(env!("CARGO_MANIFEST_DIR")).join("../tests").join(name);
    std::env::var_os(variable).map_or(beside, PathBuf::from)
}

#[test]
fn vectors_are_answered_alike() {
    let entries = match fs::read_dir(folder("TWIN_VECTORS", "vectors")) {
        Ok(entries) => entries,
        Err(_) => return,
    };
    for path in entries.map(|entry| entry.expect("an entry").path()) {
        if path.extension().map_or(false, |extension| extension == "cases") {
            let expected = fs::read_to_string(path.with_extension("answers")).expect("the answers of the cases");
            let mut answers = Vec::new();
            write_answers(&fs::read(&path).expect("the cases"), &mut answers).expect("written");
            let answers = String::from_utf8(answers).expect("text");
            for (place, (answer, expected)) in answers.lines().zip(expected.lines()).enumerate() {
                assert_eq!(answer, expected, "case {} of {}", place + 1, path.display());
            }
            assert_eq!(answers.lines().count(), expected.lines().count(), "{}", path.display());
        }
    }
}

/// Columns 1 to 72 of each line, trailing blanks dropped.
fn shown(file: &CompileFile) -> Vec<String> {
    let text = |line: &[u8]| String::from_utf8_lossy(&line[..TEXT_COLUMNS]).trim_end().to_string();
    file.bytes.chunks(LINE_BYTES).map(text).collect()
}

#[test]
fn corpus_compiles_to_its_lines() {
    let folder = folder("TWIN_CORPUS", "corpus");
    if !folder.is_dir() {
        return;
    }
    let read = |name: &str| fs::read(folder.join(name)).expect("a file of the corpus");
    let lines = |name: &str| -> Vec<String> { String::from_utf8_lossy(&read(name)).lines().map(str::to_string).collect() };
    let corrected = |image: &[u64], stream: &[u8]| run(image, stream, MAX_WORDS).expect("an accepted stream");
    let file = |image: &[u64]| compile(image, usize::MAX).expect("a compile file");

    let base = corrected(&corrected(&FRESH, &read("create-1.upd")), &read("create-2.upd"));
    assert_eq!(shown(&file(&base)), lines("base.txt"));
    let sets = read("sets.upd");
    let new = corrected(&base, &sets);
    assert_eq!(shown(&file(&new)), lines("final.txt"));

    let names = sets.split(|&byte| byte == 10).filter_map(|line| line.strip_prefix(b"*IDENT "));
    let yanks: Vec<u8> = names.rev().flat_map(|name| [b"*YANK ", name, b"\n"].concat()).collect();
    let yanked = corrected(&new, &[b"*IDENT BACK\n", &yanks[..]].concat());
    assert_eq!(file(&yanked), file(&base));
    assert_eq!(file(&corrected(&yanked, b"*IDENT AGAIN\n*YANK BACK\n")), file(&new));
}

/// The streams of the corpus name different decks: each alone on the fresh library, merged, is the second after the first.
#[test]
fn corpus_merges_as_it_runs() {
    let folder = folder("TWIN_CORPUS", "corpus");
    if !folder.is_dir() {
        return;
    }
    let read = |name: &str| fs::read(folder.join(name)).expect("a file of the corpus");
    let corrected = |image: &[u64], name: &str| run(image, &read(name), MAX_WORDS).expect("an accepted stream");
    let first = corrected(&FRESH, "create-1.upd");
    let second = corrected(&FRESH, "create-2.upd");
    let both = corrected(&first, "create-2.upd");
    assert!(merge(&first, &second, MAX_WORDS) == Ok(both.clone()), "the merged corpus");
    assert!(merge(&first, &second, both.len()) == Ok(both.clone()), "the merged corpus in its own room");
    let sets = corrected(&both, "sets.upd");
    assert!(merge(&sets, &FRESH, MAX_WORDS) == Ok(sets.clone()), "the corpus and the fresh library");
    assert!(merge(&FRESH, &sets, MAX_WORDS) == Ok(sets), "the fresh library and the corpus");
}
