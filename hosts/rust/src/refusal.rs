//! Why a call says no.

use crate::limits::{
    LAST_CODE, LONGEST_FILE, LONGEST_NAME, LONGEST_RECIPE, MOST_NAMES, MOST_SAMPLES, MOST_TERMS, PATTERNS,
    PRESETS, REACH, STEP_BYTES, TABLE_BYTES, TRAILER_BYTES, WORD_BYTES,
};
use std::error::Error;
use std::fmt;

/// Why a call was refused, with the place at fault. After a refusal every slice lent has the
/// elements that it had.
///
/// ```
/// let refusal = stackfilter::clean(&[24, 16], &[5, 0, 0]).unwrap_err();
/// assert_eq!(refusal, stackfilter::Refusal::BadTerm { index: 1 });
/// assert_eq!((refusal.number(), refusal.place()), (7, 1));
/// assert_eq!(
///     refusal.to_string(),
///     "term 1 is over 511, not above its predecessor, or contains an earlier one"
/// );
/// ```
#[derive(Clone, Copy, Debug, PartialEq, Eq, Hash)]
pub enum Refusal {
    /// 1: the recipe is empty, not a multiple of 4 bytes, or over 128 bytes.
    RecipeLength {
        /// The recipe's length.
        bytes: usize,
    },
    /// 2: a step's code is over 8.
    StepCode {
        /// The step, from 0.
        step: usize,
    },
    /// 3: a step's field is not allowed.
    StepField {
        /// The step, from 0.
        step: usize,
    },
    /// 4: too few signals are held, a ninth is added, or not one is left.
    SignalsHeld {
        /// The step, from 0; the number of steps where more than one is left at the end.
        step: usize,
        /// Which of the three it is.
        held: Held,
    },
    /// 5: the reach leaves -4 to 4 after a step.
    Reach {
        /// The step, from 0.
        step: usize,
    },
    /// 6: fewer elements are lent for terms than needed.
    TermsLent {
        /// The number of terms.
        needed: usize,
    },
    /// 7: a term is over 511, not above its predecessor, or contains an earlier one.
    BadTerm {
        /// The first such index.
        index: usize,
    },
    /// 8: a form has over 126 terms.
    TermCount {
        /// Its terms.
        terms: usize,
    },
    /// 9: the scan has no samples, or over 16,384.
    ScanLength {
        /// Its samples.
        samples: usize,
    },
    /// 10: the output slice has the wrong length (reading a file: fewer than the samples).
    OutputLength {
        /// The length needed.
        needed: usize,
    },
    /// 12: the truth table is not positive.
    NotPositive {
        /// The least pattern with value 1 that one more offset turns to 0.
        pattern: usize,
    },
    /// 13: the slice of the truth table has not 64 bytes.
    TableLength {
        /// Its length.
        bytes: usize,
    },
    /// 14: a preset number is over 19.
    PresetNumber {
        /// The number.
        number: usize,
    },
    /// 15: the scan file's length is outside 12 to 33,032 bytes.
    FileLength {
        /// Its whole length.
        bytes: usize,
    },
    /// 16: the scan file does not end with the mark 53 46 hex.
    Mark {
        /// The mark's first byte, from the file's start.
        byte: usize,
    },
    /// 17: the scan file's term distance is not 12 + 2 x the number of terms; a wrong number of terms shows here
    /// too.
    TermDistance {
        /// The term distance's first byte, from the file's start.
        byte: usize,
    },
    /// 18: the scan file's sample distance is not the file's length, is below the term distance, or differs
    /// from it by an odd number.
    SampleDistance {
        /// The sample distance's first byte, from the file's start.
        byte: usize,
    },
    /// 19: a line of a list of names is empty, or over 255 bytes.
    BadName {
        /// The first such line, from 1.
        line: usize,
    },
    /// 20: a list of names has over 250 lines.
    NameCount,
}

/// What is wrong with the signals that a recipe holds.
#[derive(Clone, Copy, Debug, PartialEq, Eq, Hash)]
pub enum Held {
    /// A step finds fewer signals than it takes.
    TooFew,
    /// A step adds a ninth signal.
    Ninth,
    /// After the last step more than one signal is left.
    NotOne,
}

impl Refusal {
    /// The refusal that has this number and this place, given for this recipe; for any recipe where
    /// the call takes none.
    pub(crate) fn new(number: u8, place: usize, recipe: &[u8]) -> Refusal {
        match number {
            1 => Refusal::RecipeLength { bytes: place },
            2 => Refusal::StepCode { step: place },
            3 => Refusal::StepField { step: place },
            4 => Refusal::SignalsHeld { step: place, held: held(place, recipe) },
            5 => Refusal::Reach { step: place },
            6 => Refusal::TermsLent { needed: place },
            7 => Refusal::BadTerm { index: place },
            8 => Refusal::TermCount { terms: place },
            9 => Refusal::ScanLength { samples: place },
            10 => Refusal::OutputLength { needed: place },
            12 => Refusal::NotPositive { pattern: place },
            13 => Refusal::TableLength { bytes: place },
            14 => Refusal::PresetNumber { number: place },
            15 => Refusal::FileLength { bytes: place },
            16 => Refusal::Mark { byte: place },
            17 => Refusal::TermDistance { byte: place },
            18 => Refusal::SampleDistance { byte: place },
            19 => Refusal::BadName { line: place },
            20 => Refusal::NameCount,
            _ => panic!("the archive refused with the number {number}, which this package does not know"),
        }
    }

    /// The refusal's number: 1 to 10 or 12 to 20.
    pub fn number(&self) -> u8 {
        match self {
            Refusal::RecipeLength { .. } => 1,
            Refusal::StepCode { .. } => 2,
            Refusal::StepField { .. } => 3,
            Refusal::SignalsHeld { .. } => 4,
            Refusal::Reach { .. } => 5,
            Refusal::TermsLent { .. } => 6,
            Refusal::BadTerm { .. } => 7,
            Refusal::TermCount { .. } => 8,
            Refusal::ScanLength { .. } => 9,
            Refusal::OutputLength { .. } => 10,
            Refusal::NotPositive { .. } => 12,
            Refusal::TableLength { .. } => 13,
            Refusal::PresetNumber { .. } => 14,
            Refusal::FileLength { .. } => 15,
            Refusal::Mark { .. } => 16,
            Refusal::TermDistance { .. } => 17,
            Refusal::SampleDistance { .. } => 18,
            Refusal::BadName { .. } => 19,
            Refusal::NameCount => 20,
        }
    }

    /// The place at fault: a step, an index, a pattern, a number, a line, the first byte of a scan file's field
    /// (16, 17, 18), or the length or size that was given (1, 8, 9, 13, 15) or is needed (6, 10). It is 250 for a
    /// list of too many names.
    pub fn place(&self) -> usize {
        match *self {
            Refusal::StepCode { step }
            | Refusal::StepField { step }
            | Refusal::SignalsHeld { step, .. }
            | Refusal::Reach { step } => step,
            Refusal::RecipeLength { bytes }
            | Refusal::TableLength { bytes }
            | Refusal::FileLength { bytes } => bytes,
            Refusal::TermsLent { needed } | Refusal::OutputLength { needed } => needed,
            Refusal::BadTerm { index } => index,
            Refusal::TermCount { terms } => terms,
            Refusal::ScanLength { samples } => samples,
            Refusal::NotPositive { pattern } => pattern,
            Refusal::PresetNumber { number } => number,
            Refusal::Mark { byte } | Refusal::TermDistance { byte } | Refusal::SampleDistance { byte } => {
                byte
            }
            Refusal::BadName { line } => line,
            Refusal::NameCount => MOST_NAMES,
        }
    }
}

/// Which of refusal 4's causes it is: at the end more than one signal is left; before it a signal step
/// (code 0) adds a ninth, and any other step finds too few.
fn held(place: usize, recipe: &[u8]) -> Held {
    match recipe.get(STEP_BYTES * place) {
        None => Held::NotOne,
        Some(0) => Held::Ninth,
        Some(_) => Held::TooFew,
    }
}

/// A number of four to six digits, with a comma behind its thousands.
fn by_thousands(number: usize) -> String {
    format!("{},{:03}", number / 1000, number % 1000)
}

impl fmt::Display for Refusal {
    fn fmt(&self, f: &mut fmt::Formatter) -> fmt::Result {
        let place = self.place();
        match self {
            Refusal::RecipeLength { .. } => {
                write!(
                    f,
                    "a recipe has {STEP_BYTES} to {LONGEST_RECIPE} bytes, a multiple of {STEP_BYTES}, and this has {place}"
                )
            }
            Refusal::StepCode { .. } => write!(f, "step {place} has a code over {LAST_CODE}"),
            Refusal::StepField { .. } => write!(f, "step {place} has a field that is not allowed"),
            Refusal::SignalsHeld { held: Held::TooFew, .. } => {
                write!(f, "at step {place} too few signals are held")
            }
            Refusal::SignalsHeld { held: Held::Ninth, .. } => {
                write!(f, "at step {place} a ninth signal is added")
            }
            Refusal::SignalsHeld { held: Held::NotOne, .. } => {
                write!(f, "after the {place} steps more than one signal is left")
            }
            Refusal::Reach { .. } => write!(f, "at step {place} the reach leaves -{REACH} to {REACH}"),
            Refusal::TermsLent { .. } => {
                write!(f, "{place} elements are needed for the terms, and fewer were lent")
            }
            Refusal::BadTerm { .. } => {
                let most = PATTERNS - 1;
                write!(
                    f,
                    "term {place} is over {most}, not above its predecessor, or contains an earlier one"
                )
            }
            Refusal::TermCount { .. } => {
                write!(f, "a form has at most {MOST_TERMS} terms, and this has {place}")
            }
            Refusal::ScanLength { .. } => {
                let most = by_thousands(MOST_SAMPLES);
                write!(f, "a scan has 1 to {most} samples, and this has {place}")
            }
            Refusal::OutputLength { .. } => {
                write!(f, "the output has the wrong length, and {place} is needed")
            }
            Refusal::NotPositive { .. } => {
                write!(f, "the truth table is 1 on pattern {place} and 0 with one offset more, so it is not positive")
            }
            Refusal::TableLength { .. } => {
                write!(f, "a truth table has {TABLE_BYTES} bytes, and this slice has {place}")
            }
            Refusal::PresetNumber { .. } => {
                let last = PRESETS - 1;
                write!(f, "presets have the numbers 0 to {last}, and {place} was asked for")
            }
            Refusal::FileLength { .. } => {
                let longest = by_thousands(LONGEST_FILE);
                write!(f, "a scan file has {TRAILER_BYTES} to {longest} bytes, and this has {place}")
            }
            Refusal::Mark { .. } => {
                write!(f, "the mark 53 46 hex, which ends a scan file, does not stand at byte {place}")
            }
            Refusal::TermDistance { .. } => {
                write!(
                    f,
                    "the scan file's term distance, at byte {place}, is not {TRAILER_BYTES} + {WORD_BYTES} x the number of terms"
                )
            }
            Refusal::SampleDistance { .. } => {
                write!(
                    f,
                    "the scan file's sample distance, at byte {place}, is not the file's length, is below the term distance, \
                     or differs from it by an odd number"
                )
            }
            Refusal::BadName { .. } => {
                write!(
                    f,
                    "a name has 1 to {LONGEST_NAME} bytes, and line {place} of the list is empty or longer"
                )
            }
            Refusal::NameCount => {
                write!(f, "a list of names has at most {MOST_NAMES} lines, and this has more")
            }
        }
    }
}

impl Error for Refusal {}
