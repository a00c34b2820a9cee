//! The scope document's numbers, each named once; what follows from others stands as that.

/// An offset is -REACH to REACH.
pub const REACH: i64 = 4;
/// The number of offsets.
pub const WIDTH: usize = 2 * REACH as usize + 1;
/// The number of patterns: each offset is in or out. A set of offsets is a number below this.
pub const PATTERNS: u16 = 1 << WIDTH;
/// The set of every offset, the largest number that a set has.
pub const LARGEST_SET: u16 = PATTERNS - 1;
/// The bytes of a truth table: a bit to a pattern.
pub const TABLE_BYTES: usize = PATTERNS as usize / BYTE_BITS;
pub const BYTE_BITS: usize = 8;

pub const MOST_TERMS: usize = 126;
pub const MOST_SAMPLES: usize = 16_384;

/// A step's code, rank and set.
pub const STEP_BYTES: usize = 4;
pub const MOST_STEPS: usize = 32;
pub const LONGEST_RECIPE: usize = STEP_BYTES * MOST_STEPS;
pub const MOST_SIGNALS: usize = 8;
pub const LAST_CODE: u8 = 8;

pub const PRESETS: usize = 20;

/// The end of a scan file: two distances, the number of terms, the mark.
pub const MARK: [u8; 2] = [0x53, 0x46];
pub const DISTANCE_BYTES: usize = 4;
pub const COUNT_BYTES: usize = 2;
pub const TRAILER: usize = 2 * DISTANCE_BYTES + COUNT_BYTES + MARK.len();
/// A sample's or a term's.
pub const WORD_BYTES: usize = 2;
pub const LONGEST_FILE: usize = file_bytes(MOST_SAMPLES, MOST_TERMS);
/// What is lent for the report's line.
pub const LINE_BYTES: usize = 128;

/// A list of names, one to a line.
pub const MOST_NAMES: usize = 250;
pub const LONGEST_NAME: usize = 255;
pub const LINE_FEED: u8 = 10;
/// The numbers of the night sheet's last line, and what is lent for it.
pub const TOTALS: usize = 14;
pub const TOTALS_BYTES: usize = 512;

// What follows is what the document says in figures.
const _: () = assert!(PATTERNS == 512 && TABLE_BYTES == 64 && LONGEST_RECIPE == 128);
const _: () = assert!(TRAILER == 12 && LONGEST_FILE == 33_032);

/// How long a scan file is that holds so many samples and terms.
pub const fn file_bytes(samples: usize, terms: usize) -> usize {
    WORD_BYTES * samples + WORD_BYTES * terms + TRAILER
}
