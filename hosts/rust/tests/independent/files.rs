//! The scan file.

use super::limits::{file_bytes, COUNT_BYTES, DISTANCE_BYTES, LONGEST_FILE, MARK, TRAILER, WORD_BYTES};
use super::No;

/// Samples, terms and the trailer that points back, whatever they are.
pub fn lay_out(samples: &[u16], terms: &[u16]) -> Vec<u8> {
    let term_distance = file_bytes(0, terms.len()) as u32;
    let sample_distance = file_bytes(samples.len(), terms.len()) as u32;
    let mut file: Vec<u8> = samples.iter().chain(terms).flat_map(|number| number.to_le_bytes()).collect();
    file.extend(sample_distance.to_le_bytes());
    file.extend(term_distance.to_le_bytes());
    file.extend((terms.len() as u16).to_le_bytes());
    file.extend(MARK);
    file
}

/// The samples and the terms of a file, or refusals 15 to 18. The trailer's fields are taken off the file's end: as
/// many bytes as are left then, so many stand before the field.
pub fn take_apart(file: &[u8]) -> Result<(Vec<u16>, Vec<u16>), No> {
    if !(TRAILER..=LONGEST_FILE).contains(&file.len()) {
        return Err((15, file.len()));
    }
    let (rest, mark) = end_of(file, MARK.len());
    if mark != MARK {
        return Err((16, rest.len()));
    }
    let (rest, count) = end_of(rest, COUNT_BYTES);
    let (rest, term_distance) = end_of(rest, DISTANCE_BYTES);
    if number(term_distance) != file_bytes(0, number(count)) {
        return Err((17, rest.len()));
    }
    let (body, sample_distance) = end_of(rest, DISTANCE_BYTES);
    let before_terms = body.len().checked_sub(WORD_BYTES * number(count));
    match before_terms {
        Some(bytes) if bytes % WORD_BYTES == 0 && number(sample_distance) == file.len() => {
            let (samples, terms) = body.split_at(bytes);
            Ok((numbers(samples), numbers(terms)))
        }
        _ => Err((18, body.len())),
    }
}

/// What stands before the last bytes, so many of them, and these.
fn end_of(bytes: &[u8], last: usize) -> (&[u8], &[u8]) {
    bytes.split_at(bytes.len() - last)
}

fn numbers(words: &[u8]) -> Vec<u16> {
    words.chunks(WORD_BYTES).map(|word| number(word) as u16).collect()
}

/// The number whose bytes stand low first.
pub fn number(bytes: &[u8]) -> usize {
    bytes.iter().rev().fold(0, |high, byte| 256 * high + *byte as usize)
}
