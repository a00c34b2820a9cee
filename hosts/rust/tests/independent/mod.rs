//! A second implementation of every call, written from the scope document's definitions alone and
//! by other means than the crates: filters count levels, recipes are trees asked for a stretch of
//! the endless signal, tables and forms go pattern by pattern, and the night sheet's totals are taken from
//! the printed lines.
//!
//! Each call takes the lengths lent in place of slices and gives what must be written, or the
//! refusal's number and place.

pub mod files;
pub mod forms;
pub mod limits;
pub mod recipes;
pub mod sheets;

use limits::{BYTE_BITS, LINE_BYTES, MOST_SAMPLES, TABLE_BYTES, TOTALS, TOTALS_BYTES};

/// A refusal's number and place.
pub type No = (u8, usize);

pub fn compile(recipe: &[u8], lent: usize) -> Result<Vec<u16>, No> {
    let plan = recipes::judge(recipe)?;
    let terms = forms::least_patterns(|pattern| recipes::holds(&plan, pattern));
    enough_for_terms(terms, lent)
}

pub fn run_recipe(recipe: &[u8], scan: &[u16], lent: usize) -> Result<Vec<u16>, No> {
    let plan = recipes::judge(recipe)?;
    check_scan(scan.len())?;
    check_output(scan.len(), lent)?;
    Ok(recipes::run(&plan, scan))
}

/// The number of terms.
pub fn check(terms: &[u16]) -> Result<usize, No> {
    forms::check(terms)?;
    Ok(terms.len())
}

pub fn clean(terms: &[u16], scan: &[u16], lent: usize) -> Result<Vec<u16>, No> {
    forms::check(terms)?;
    check_scan(scan.len())?;
    check_output(scan.len(), lent)?;
    Ok(forms::filter(terms, scan))
}

pub fn residue(terms: &[u16], scan: &[u16], lent: usize) -> Result<Vec<i32>, No> {
    let cleaned = clean(terms, scan, lent)?;
    Ok(residues(scan, &cleaned))
}

/// The first sample that differs from its filtered value, or the number of samples.
pub fn root(terms: &[u16], scan: &[u16]) -> Result<usize, No> {
    let cleaned = clean(terms, scan, scan.len())?;
    let same = scan.iter().zip(&cleaned).take_while(|(raw, cleaned)| raw == cleaned);
    Ok(same.count())
}

pub fn table_to_form(table: &[u8], lent: usize) -> Result<Vec<u16>, No> {
    if table.len() != TABLE_BYTES {
        return Err((13, table.len()));
    }
    let value = |pattern: u16| table[pattern as usize / BYTE_BITS] >> (pattern as usize % BYTE_BITS) & 1 == 1;
    if let Some(pattern) = forms::first_not_positive(value) {
        return Err((12, pattern as usize));
    }
    enough_for_terms(forms::least_patterns(value), lent)
}

/// The table; the call gives back the number of terms.
pub fn form_to_table(terms: &[u16], lent: usize) -> Result<Vec<u8>, No> {
    forms::check(terms)?;
    if lent != TABLE_BYTES {
        return Err((13, lent));
    }
    Ok(forms::table(terms))
}

pub fn preset(number: u64, lent: usize) -> Result<Vec<u16>, No> {
    let terms = forms::preset(number).ok_or((14, number as usize))?;
    enough_for_terms(terms, lent)
}

/// The samples and the terms.
pub fn read(file: &[u8], lent_samples: usize, lent_terms: usize) -> Result<(Vec<u16>, Vec<u16>), No> {
    let (samples, terms) = read_sound(file)?;
    let terms = enough_for_terms(terms, lent_terms)?;
    if lent_samples < samples.len() {
        return Err((10, samples.len()));
    }
    Ok((samples, terms))
}

pub fn write(terms: &[u16], scan: &[u16], lent: usize) -> Result<Vec<u8>, No> {
    forms::check(terms)?;
    check_scan(scan.len())?;
    let file = files::lay_out(scan, terms);
    check_output(file.len(), lent)?;
    Ok(file)
}

/// Samples, changed samples, spikes, total above, total below.
pub fn count(file: &[u8]) -> Result<[u64; 5], No> {
    let (samples, terms) = read_sound(file)?;
    let residues = residues(&samples, &forms::filter(&terms, &samples));
    let changed = residues.iter().filter(|r| **r != 0).count();
    // Splitting at the unchanged samples leaves runs, and nothing between two neighbours; in a run each change of sign
    // begins one spike more.
    let turns = |run: &[i32]| run.windows(2).filter(|two| two[0].signum() != two[1].signum()).count();
    let spikes: usize =
        residues.split(|r| *r == 0).filter(|run| !run.is_empty()).map(|run| 1 + turns(run)).sum();
    let above: u64 = residues.iter().filter(|r| **r > 0).map(|r| *r as u64).sum();
    let below: u64 = residues.iter().filter(|r| **r < 0).map(|r| -*r as u64).sum();
    Ok([samples.len() as u64, changed as u64, spikes as u64, above, below])
}

/// The report's line. A refused file has one too.
pub fn line(file: &[u8], lent: usize) -> Result<Vec<u8>, No> {
    check_output(LINE_BYTES, lent)?;
    let fields: Vec<String> = match count(file) {
        Ok(counts) => counts.iter().map(u64::to_string).collect(),
        Err((number, place)) => vec!["refused".to_string(), number.to_string(), place.to_string()],
    };
    Ok((fields.join(" ") + "\n").into_bytes())
}

/// The number of names.
pub fn night_list(text: &[u8]) -> Result<usize, No> {
    Ok(sheets::names(text)?.len())
}

/// The line of a file, or of one that was not opened, and the totals with that line more.
pub fn night_line(
    file: Option<&[u8]>,
    totals: [u64; TOTALS],
    lent: usize,
) -> Result<(Vec<u8>, [u64; TOTALS]), No> {
    check_output(LINE_BYTES, lent)?;
    let line = sheets::line(file);
    let totals = sheets::totals(totals, &[&line]);
    Ok((line.into_bytes(), totals))
}

pub fn night_totals(totals: [u64; TOTALS], lent: usize) -> Result<Vec<u8>, No> {
    check_output(TOTALS_BYTES, lent)?;
    Ok(sheets::last_line(totals).into_bytes())
}

fn read_sound(file: &[u8]) -> Result<(Vec<u16>, Vec<u16>), No> {
    let (samples, terms) = files::take_apart(file)?;
    forms::check(&terms)?;
    check_scan(samples.len())?;
    Ok((samples, terms))
}

fn residues(scan: &[u16], cleaned: &[u16]) -> Vec<i32> {
    scan.iter().zip(cleaned).map(|(raw, cleaned)| *raw as i32 - *cleaned as i32).collect()
}

/// Refusal 9.
fn check_scan(samples: usize) -> Result<(), No> {
    if samples == 0 || samples > MOST_SAMPLES {
        return Err((9, samples));
    }
    Ok(())
}

/// Refusal 10.
fn check_output(needed: usize, lent: usize) -> Result<(), No> {
    if lent != needed {
        return Err((10, needed));
    }
    Ok(())
}

/// Refusal 6.
pub fn enough_for_terms(terms: Vec<u16>, lent: usize) -> Result<Vec<u16>, No> {
    if lent < terms.len() {
        return Err((6, terms.len()));
    }
    Ok(terms)
}
