//! The night sheet: the list of names, the lines, and the totals of printed lines.

use super::limits::{LINE_BYTES, LINE_FEED, LONGEST_NAME, MOST_NAMES, TOTALS};
use super::No;

/// The sheet of a list, where `open` gives what is read of a file, if it is opened.
pub fn night(list: &[u8], open: impl Fn(&[u8]) -> Option<Vec<u8>>) -> String {
    let names = match names(list) {
        Ok(names) => names,
        Err((number, place)) => return format!("refused {number} {place}\n"),
    };
    let lines: Vec<String> = names.into_iter().map(|name| line(open(name).as_deref())).collect();
    let printed: Vec<&str> = lines.iter().map(String::as_str).collect();
    lines.concat() + &last_line(totals([0; TOTALS], &printed))
}

/// The names of a list, or refusals 20 and 19.
pub fn names(list: &[u8]) -> Result<Vec<&[u8]>, No> {
    let mut lines: Vec<&[u8]> = list.split(|byte| *byte == LINE_FEED).collect();
    // Behind the last line feed a line begins only where a byte follows.
    lines.pop().filter(|last| !last.is_empty()).into_iter().for_each(|last| lines.push(last));
    if lines.len() > MOST_NAMES {
        return Err((20, MOST_NAMES));
    }
    let bad = lines.iter().position(|line| !(1..=LONGEST_NAME).contains(&line.len()));
    bad.map_or(Ok(lines), |index| Err((19, index + 1)))
}

/// The line of a file, or of one that was not opened.
pub fn line(file: Option<&[u8]>) -> String {
    let line = file.map_or(Ok(b"unopened\n".to_vec()), |file| super::line(file, LINE_BYTES));
    String::from_utf8(line.unwrap()).unwrap()
}

/// The totals with these printed lines more, in 64 bits.
pub fn totals(mut totals: [u64; TOTALS], lines: &[&str]) -> [u64; TOTALS] {
    for line in lines {
        for (place, adds) in adds(line) {
            totals[place] = totals[place].wrapping_add(adds);
        }
    }
    totals
}

/// The numbers under which a file is refused. Their totals stand in this order, behind those of the files cleaned and
/// of those not opened, and before the sums.
const REFUSED: [&str; 7] = ["7", "8", "9", "15", "16", "17", "18"];

/// What a printed line adds, and to which of the totals.
fn adds(line: &str) -> Vec<(usize, u64)> {
    let words: Vec<&str> = line.split_whitespace().collect();
    match words[..] {
        ["unopened"] => vec![(1, 1)],
        ["refused", number, _] if REFUSED.contains(&number) => {
            REFUSED.iter().enumerate().map(|(index, one)| (2 + index, (*one == number) as u64)).collect()
        }
        [_, _, _, _, _] => {
            let counts = words.iter().map(|word| word.parse().unwrap());
            [(0, 1)].into_iter().chain((2 + REFUSED.len()..TOTALS).zip(counts)).collect()
        }
        _ => panic!("no file has the line {line:?}"),
    }
}

pub fn last_line(totals: [u64; TOTALS]) -> String {
    totals.map(|total| total.to_string()).join(" ") + "\n"
}
