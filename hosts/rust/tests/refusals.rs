//! The refusals of this package against those of the library: their names and numbers in the crate
//! `refusals`, and the figures in the table of docs/RULES.md.

use stackfilter::{Held, Refusal, MOST_NAMES};
use std::fs;
use std::path::Path;

const PLACE: usize = 777_777;

/// Every refusal at that place, in the order of their numbers.
const REFUSALS: [Refusal; 19] = [
    Refusal::RecipeLength { bytes: PLACE },
    Refusal::StepCode { step: PLACE },
    Refusal::StepField { step: PLACE },
    Refusal::SignalsHeld { step: PLACE, held: Held::TooFew },
    Refusal::Reach { step: PLACE },
    Refusal::TermsLent { needed: PLACE },
    Refusal::BadTerm { index: PLACE },
    Refusal::TermCount { terms: PLACE },
    Refusal::ScanLength { samples: PLACE },
    Refusal::OutputLength { needed: PLACE },
    Refusal::NotPositive { pattern: PLACE },
    Refusal::TableLength { bytes: PLACE },
    Refusal::PresetNumber { number: PLACE },
    Refusal::FileLength { bytes: PLACE },
    Refusal::Mark { byte: PLACE },
    Refusal::TermDistance { byte: PLACE },
    Refusal::SampleDistance { byte: PLACE },
    Refusal::BadName { line: PLACE },
    Refusal::NameCount,
];

/// A file of the repository.
fn file(path: &str) -> String {
    let whole = Path::new(env!("CARGO_MANIFEST_DIR")).join("../..").join(path);
    fs::read_to_string(&whole).unwrap_or_else(|error| panic!("{}: {error}", whole.display()))
}

/// The crate's refusals: `Refusal::RecipeLength(length) => (1, length),` is RecipeLength and 1.
fn told() -> Vec<(String, u8)> {
    let named = |line: &str| {
        let (name, rest) = line.trim().strip_prefix("Refusal::")?.split_once('(')?;
        let (number, _) = rest.split_once(" => (")?.1.split_once(',')?;
        Some((name.to_string(), number.parse().ok()?))
    };
    file("crates/refusals/src/lib.rt").lines().filter_map(named).collect()
}

/// The numbers in a text, without the commas within them.
fn figures(text: &str) -> Vec<usize> {
    let digits = text.replace(',', "");
    digits.split(|c: char| !c.is_ascii_digit()).filter_map(|figure| figure.parse().ok()).collect()
}

#[test]
fn names_and_numbers_are_those_of_the_crate() {
    let ours: Vec<(String, u8)> = REFUSALS
        .iter()
        .map(|refusal| {
            let shown = format!("{refusal:?}");
            (shown.split(' ').next().unwrap().to_string(), refusal.number())
        })
        .collect();
    assert_eq!(ours, told());
}

#[test]
fn sentences_have_the_figures_of_the_rules() {
    let rules = file("docs/RULES.md");
    let table =
        rules.split("| No. | Given exactly when | Place |").nth(1).expect("docs/RULES.md has the table");
    let rows: Vec<&str> = table.lines().skip(2).take_while(|line| line.starts_with("| ")).collect();
    assert_eq!(rows.len(), REFUSALS.len());
    for (refusal, row) in REFUSALS.iter().zip(rows) {
        let fields: Vec<&str> = row.split('|').map(str::trim).collect();
        assert_eq!(fields[1], refusal.number().to_string(), "{row}");
        let said = figures(&refusal.to_string());
        for figure in figures(fields[2]) {
            assert!(said.contains(&figure), "{refusal}: {row}");
        }
    }
}

#[test]
fn each_has_its_place_and_its_own_sentence() {
    let mut sentences = Vec::new();
    let held = [Held::Ninth, Held::NotOne].map(|held| Refusal::SignalsHeld { step: PLACE, held });
    for refusal in REFUSALS.iter().chain(&held) {
        let fixed = (*refusal == Refusal::NameCount).then_some(MOST_NAMES);
        assert_eq!(refusal.place(), fixed.unwrap_or(PLACE));
        assert_eq!(figures(&refusal.to_string()).contains(&PLACE), fixed.is_none(), "{refusal}");
        sentences.push(refusal.to_string());
    }
    sentences.sort();
    sentences.dedup();
    assert_eq!(sentences.len(), REFUSALS.len() + held.len());
}

#[test]
fn a_scan_file_is_told_what_is_wrong_and_where() {
    let cases = [
        (
            Refusal::FileLength { bytes: 5_000_000_000 },
            (15, 5_000_000_000),
            "a scan file has 12 to 33,032 bytes, and this has 5000000000",
        ),
        (
            Refusal::Mark { byte: 26 },
            (16, 26),
            "the mark 53 46 hex, which ends a scan file, does not stand at byte 26",
        ),
        (
            Refusal::TermDistance { byte: 20 },
            (17, 20),
            "the scan file's term distance, at byte 20, is not 12 + 2 x the number of terms",
        ),
        (
            Refusal::SampleDistance { byte: 16 },
            (18, 16),
            "the scan file's sample distance, at byte 16, is not the file's length, is below the term distance, \
             or differs from it by an odd number",
        ),
    ];
    for (refusal, number_and_place, sentence) in cases {
        assert_eq!((refusal.number(), refusal.place()), number_and_place);
        assert_eq!(refusal.to_string(), sentence);
    }
}
