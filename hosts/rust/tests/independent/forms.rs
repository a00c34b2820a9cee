//! Forms: their check, their truth tables, and their filters by counting levels.

use super::limits::{BYTE_BITS, MOST_TERMS, PATTERNS, PRESETS, REACH, TABLE_BYTES, WIDTH};
use super::No;

/// Whether every offset of `part` is one of `whole`.
pub fn within(part: u16, whole: u16) -> bool {
    part & !whole == 0
}

/// Refusals 7 and 8.
pub fn check(terms: &[u16]) -> Result<(), No> {
    for (index, term) in terms.iter().enumerate() {
        let earlier = &terms[..index];
        let not_above = earlier.last().map_or(false, |before| term <= before);
        if *term >= PATTERNS || not_above || earlier.iter().any(|part| within(*part, *term)) {
            return Err((7, index));
        }
    }
    if terms.len() > MOST_TERMS {
        return Err((8, terms.len()));
    }
    Ok(())
}

/// Whether the form's function is 1 on the pattern: it contains some term.
pub fn holds(terms: &[u16], pattern: u16) -> bool {
    terms.iter().any(|term| within(*term, pattern))
}

/// The patterns on which a positive function is 1 and that contain no other such pattern.
pub fn least_patterns(function: impl Fn(u16) -> bool) -> Vec<u16> {
    let mut least: Vec<u16> = Vec::new();
    for pattern in 0..PATTERNS {
        // What is within a pattern is a smaller number, so it has been met.
        if !least.iter().any(|part| within(*part, pattern)) && function(pattern) {
            least.push(pattern);
        }
    }
    least
}

/// The least pattern with value 1 that one more offset turns to 0.
pub fn first_not_positive(function: impl Fn(u16) -> bool) -> Option<u16> {
    (0..PATTERNS)
        .find(|pattern| function(*pattern) && (0..WIDTH).any(|place| !function(pattern | 1 << place)))
}

/// The bytes of the form's truth table.
pub fn table(terms: &[u16]) -> Vec<u8> {
    let bit = |pattern: usize| holds(terms, pattern as u16) as u8;
    let byte = |index: usize| (0..BYTE_BITS).map(|place| bit(BYTE_BITS * index + place) << place).sum();
    (0..TABLE_BYTES).map(byte).collect()
}

/// The form of a preset: its 8-bit table is over the offsets -1, 0, 1.
pub fn preset(number: u64) -> Option<Vec<u16>> {
    let tables: [u8; PRESETS] =
        [0, 128, 136, 160, 168, 170, 192, 200, 204, 224, 232, 234, 236, 238, 240, 248, 250, 252, 254, 255];
    let table = *tables.get(usize::try_from(number).ok()?)?;
    // The three bits of a pattern from that of offset -1 on are the offsets -1, 0 and 1.
    Some(least_patterns(|pattern| table >> (pattern >> (REACH - 1) & 0b111) & 1 == 1))
}

/// The filter of a form: at each sample the number of levels 1 to 65,535 whose cut makes the
/// function 1. Between two samples of the window the cut is the same at every level.
pub fn filter(terms: &[u16], scan: &[u16]) -> Vec<u16> {
    let function: Vec<bool> = (0..PATTERNS).map(|pattern| holds(terms, pattern)).collect();
    (0..scan.len()).map(|x| levels(&function, &window(scan, x))).collect()
}

/// The samples at every offset of x, with the ends held.
fn window(scan: &[u16], x: usize) -> [u16; WIDTH] {
    let last = scan.len() - 1;
    std::array::from_fn(|place| scan[(x + place).saturating_sub(REACH as usize).min(last)])
}

fn levels(function: &[bool], window: &[u16; WIDTH]) -> u16 {
    let mut tops = *window;
    tops.sort_unstable();
    let mut counted: u32 = 0;
    let mut below: u16 = 0;
    for top in tops.into_iter().chain([u16::MAX]) {
        // The levels over `below` and up to `top` all cut the window as `top` does.
        if top > below && function[cut(window, top) as usize] {
            counted += (top - below) as u32;
        }
        below = top;
    }
    counted as u16
}

/// The pattern of the samples that are at least the level.
fn cut(window: &[u16; WIDTH], level: u16) -> u16 {
    window.iter().enumerate().map(|(place, sample)| ((*sample >= level) as u16) << place).sum()
}
