//! Refusals have the numbers and the sentences of `tests/refusals.txt`, which every language shares, and say what
//! is wrong in words of the crate's own.

use cavzemil::{Colorant, Refusal};
use std::collections::{BTreeMap, BTreeSet};
use std::fs;
use std::path::Path;

/// A refusal of each sort.
const REFUSALS: [Refusal; 15] = [
    Refusal::Slope,
    Refusal::CellCount,
    Refusal::Subscreens,
    Refusal::Offset,
    Refusal::OffSheet,
    Refusal::InputLength,
    Refusal::OutputLength,
    Refusal::Brick,
    Refusal::Plates,
    Refusal::Primary(Colorant::Magenta),
    Refusal::PrimarySet(65),
    Refusal::Price,
    Refusal::Job,
    Refusal::PrimariesLength,
    Refusal::Stored,
];

/// What they say, before their numbers.
const WORDS: [&str; 15] = [
    "the slope a/b needs 1 ≤ a < b ≤ 64 and no common divisor above 1",
    "the cell count N must be 1 to 4,096",
    "the number of subscreens K must be 1 to 16 and not above N",
    "the offset g must be below N",
    "columns or rows beyond the sheet's 65,536 were asked for",
    "the input's length does not fit the columns and rows or, of tallies, is no multiple of 8",
    "the output's length does not fit the columns and rows",
    "the brick buffer is below N places or holds a wrong phase",
    "a cell is above 7, a pixel is in no plane or in several, or padding is set",
    "a value of the magenta primary is not 0 to 200",
    "a value of set 65 (cyan, black) is not 0 to 200",
    "a price is above 1,000,000 cents for a million cells",
    "a job needs 1 to 1,000 windows, each of at most 4,294,967,296 cells",
    "a cellular prediction needs 765 values, X, Y, Z of each of 255 sets",
    "the stored columns, rows and shift are not those of a, b and N",
];

/// Numbers that no call here can answer: that of a call which is served, that of the program `counts`, and
/// that of a separation, which is a type.
const NOT_HERE: [u32; 3] = [0, 10, 100];

/// The sentences of the file, by number.
fn sentences() -> BTreeMap<u32, String> {
    let path = Path::new(env!("CARGO_MANIFEST_DIR")).join("../tests/refusals.txt");
    let text = fs::read_to_string(path).expect("the refusals are there");
    let fields = text.lines().map(|line| line.split('\t').collect::<Vec<_>>());
    fields.map(|fields| (fields[0].parse().expect("a number comes first"), fields[2].into())).collect()
}

#[test]
fn every_refusal_has_its_sentence() {
    let sentences = sentences();
    for refusal in REFUSALS {
        assert_eq!(refusal.sentence(), sentences[&refusal.number()], "{refusal:?}");
    }
    let here: BTreeSet<u32> = REFUSALS.iter().map(|refusal| refusal.number()).collect();
    let all: BTreeSet<u32> = here.iter().copied().chain(NOT_HERE).collect();
    assert_eq!(all, sentences.into_keys().collect(), "the numbers of the file");
}

#[test]
fn every_refusal_tells_its_words_and_number() {
    for (refusal, words) in REFUSALS.iter().zip(WORDS) {
        assert_eq!(refusal.to_string(), format!("{words} (refusal {})", refusal.number()));
    }
}
