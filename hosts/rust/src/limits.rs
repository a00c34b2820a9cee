//! The library's numbers, each named once; what follows from others stands as that.

/// An offset is -REACH to REACH.
pub const REACH: usize = 4;
/// The number of offsets.
pub const WIDTH: usize = 2 * REACH + 1;
/// The number of patterns; a set of offsets is a number below this.
pub const PATTERNS: usize = 1 << WIDTH;
/// The bytes of a truth table: a bit to a pattern.
pub const TABLE_BYTES: usize = PATTERNS / 8;
/// The most terms that a form has.
pub const MOST_TERMS: usize = 126;
/// The most samples that a scan has.
pub const MOST_SAMPLES: usize = 16_384;
/// The bytes of a step.
pub const STEP_BYTES: usize = 4;
/// The most steps that a recipe has.
pub const MOST_STEPS: usize = 32;
/// The bytes of the longest recipe.
pub const LONGEST_RECIPE: usize = STEP_BYTES * MOST_STEPS;
/// The greatest code of a step.
pub const LAST_CODE: usize = 8;
/// The number of presets.
pub const PRESETS: usize = 20;
/// The most terms that a preset has.
pub const MOST_PRESET_TERMS: usize = 3;
/// The bytes of a sample, and of a term, in a scan file.
pub const WORD_BYTES: usize = 2;
/// The bytes at the end of a scan file that say where its samples and its terms stand.
pub const TRAILER_BYTES: usize = 12;
/// The bytes of the longest scan file.
pub const LONGEST_FILE: usize = file_bytes(MOST_SAMPLES, MOST_TERMS);
/// How many counts the report has.
pub const COUNTS: usize = 5;
/// The bytes that are lent for the report's line.
pub const LINE_BYTES: usize = 128;
/// The most names that a list has, one to a line.
pub const MOST_NAMES: usize = 250;
/// The bytes of the longest name.
pub const LONGEST_NAME: usize = 255;
/// The bytes of the longest list: a line feed ends each name.
pub const LONGEST_LIST: usize = MOST_NAMES * (LONGEST_NAME + 1);
/// How many totals the night sheet has.
pub const TOTALS: usize = 14;
/// The bytes that are lent for the night sheet's last line.
pub const TOTALS_BYTES: usize = 512;

/// How long a scan file is that holds so many samples and terms.
pub const fn file_bytes(samples: usize, terms: usize) -> usize {
    WORD_BYTES * samples + WORD_BYTES * terms + TRAILER_BYTES
}
