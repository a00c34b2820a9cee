//! Stack filters on scans of whole counts: a safe interface to the proved library.
//!
//! A **scan** is 1 to 16,384 samples of 0 to 65,535; beyond its ends the first and the last sample
//! are repeated without end. A set of **offsets** is a number 0 to 511, in which offset d, from -4
//! to 4, is worth 2^(d+4) ([`offsets`]). A **form** is a list of such sets, its terms, strictly
//! ascending, none containing another; its filter gives at each sample the largest, over the terms, of
//! the smallest sample that the term reaches. A **recipe** is 1 to 32 steps ([`Step`]) that compile to
//! a form.
//!
//! Each call comes in two shapes: one that gives its answer, and one, named `.._into`, that fills a
//! slice you lend from its start and keeps what stands after the answer. A refused call gives a
//! [`Refusal`] and changes no slice. The numbers after "Refuses" are those of the refusals, in the
//! order in which they are tested. No call takes more than 128 KiB of the stack.
//!
//! [`night`] opens files by their names and gives one sheet for all of them: a line each, and the totals.
//!
//! ```
//! use stackfilter::{clean, compile, offsets, recipe, Step};
//!
//! let terms = compile(&recipe(&[Step::Signal, Step::Median(offsets(&[-1, 0, 1]))]))?;
//! assert_eq!(terms, [24, 40, 48]);
//! assert_eq!(clean(&terms, &[10, 10, 90, 10, 10])?, [10, 10, 10, 10, 10]);
//! # Ok::<(), stackfilter::Refusal>(())
//! ```

#![deny(missing_docs)]

pub mod limits;
mod night;
pub mod raw;
mod refusal;
mod step;

pub use limits::{
    LINE_BYTES, MOST_NAMES, MOST_SAMPLES, MOST_TERMS, TABLE_BYTES, TOTALS_BYTES, TRAILER_BYTES,
};
pub use night::{
    night, night_line, night_line_into, night_list, night_totals, night_totals_into, night_unopened,
    night_unopened_into, LineFeedInName, Totals,
};
pub use refusal::{Held, Refusal};
pub use step::{offsets, recipe, Step};

use limits::{file_bytes, COUNTS, WORD_BYTES};

/// The form that a recipe computes.
///
/// Refuses 1; then step by step 2, 3, 4, 5; then 4 at the end.
///
/// ```
/// use stackfilter::{compile, offsets, recipe, Held, Refusal, Step};
/// let pair = offsets(&[0, 1]);
/// assert_eq!(compile(&recipe(&[Step::Signal, Step::Open(pair)])), Ok(vec![24, 48]));
/// let refusal = compile(&recipe(&[Step::Erode(pair)])).unwrap_err();
/// assert_eq!(refusal, Refusal::SignalsHeld { step: 0, held: Held::TooFew });
/// assert_eq!(refusal.to_string(), "at step 0 too few signals are held");
/// ```
pub fn compile(recipe: &[u8]) -> Result<Vec<u16>, Refusal> {
    terms_by(|terms| compile_into(recipe, terms))
}

/// Writes the form that a recipe computes to the start of `terms` and gives the number of its terms;
/// [`MOST_TERMS`] elements are always enough.
///
/// Refuses 1; then step by step 2, 3, 4, 5; then 4 at the end; then 6.
///
/// ```
/// use stackfilter::{compile_into, offsets, recipe, Refusal, Step};
/// let (three, five) = (offsets(&[-1, 0, 1]), offsets(&[-2, -1, 0, 1, 2]));
/// let mut terms = [7; 4];
/// assert_eq!(compile_into(&recipe(&[Step::Signal, Step::Median(three)]), &mut terms), Ok(3));
/// assert_eq!(terms, [24, 40, 48, 7]);
/// let refused = compile_into(&recipe(&[Step::Signal, Step::Median(five)]), &mut terms);
/// assert_eq!(refused, Err(Refusal::TermsLent { needed: 10 }));
/// ```
pub fn compile_into(recipe: &[u8], terms: &mut [u16]) -> Result<usize, Refusal> {
    // Safety, here and in every call below: each pointer and length are those of a slice, and a
    // slice that is written is borrowed for it alone.
    answer_for(recipe, |value| unsafe {
        raw::sf_compile(recipe.as_ptr(), recipe.len(), terms.as_mut_ptr(), terms.len(), value)
    })
}

/// The scan as the recipe's steps leave it, without compiling.
///
/// Refuses 1 to 5 as [`compile`] does, then 9.
///
/// ```
/// use stackfilter::{offsets, recipe, run_recipe, Step};
/// let three = offsets(&[-1, 0, 1]);
/// let steps = recipe(&[Step::Signal, Step::Erode(three), Step::Dilate(three)]);
/// assert_eq!(run_recipe(&steps, &[5, 0, 0]), Ok(vec![5, 0, 0]));
/// ```
pub fn run_recipe(recipe: &[u8], scan: &[u16]) -> Result<Vec<u16>, Refusal> {
    let mut out = vec![0; within(MOST_SAMPLES, scan.len())];
    run_recipe_into(recipe, scan, &mut out)?;
    Ok(out)
}

/// Writes the scan as the recipe's steps leave it to `out`, which has as many elements as the scan,
/// and gives the number of samples.
///
/// Refuses 1 to 5 as [`compile`] does, then 9, 10.
pub fn run_recipe_into(recipe: &[u8], scan: &[u16], out: &mut [u16]) -> Result<usize, Refusal> {
    answer_for(recipe, |value| unsafe {
        raw::sf_run_recipe(
            recipe.as_ptr(),
            recipe.len(),
            scan.as_ptr(),
            scan.len(),
            out.as_mut_ptr(),
            out.len(),
            value,
        )
    })
}

/// Whether a list of terms is a form, which every call that takes a form asks first: the number of its
/// terms.
///
/// Refuses 7, 8.
///
/// ```
/// use stackfilter::{check, Refusal};
/// assert_eq!(check(&[24, 40, 48]), Ok(3));
/// assert_eq!(check(&[24, 16]), Err(Refusal::BadTerm { index: 1 }));
/// ```
pub fn check(terms: &[u16]) -> Result<usize, Refusal> {
    answer(|value| unsafe { raw::sf_check(terms.as_ptr(), terms.len(), value) })
}

/// The scan as the form's filter gives it.
///
/// Refuses 7, 8, 9.
///
/// ```
/// use stackfilter::{clean, Refusal};
/// assert_eq!(clean(&[16, 40], &[2, 2, 0, 1, 1]), Ok(vec![2, 2, 1, 1, 1]));
/// assert_eq!(clean(&[], &[3, 9]), Ok(vec![0, 0]));
/// assert_eq!(clean(&[16], &[]), Err(Refusal::ScanLength { samples: 0 }));
/// ```
pub fn clean(terms: &[u16], scan: &[u16]) -> Result<Vec<u16>, Refusal> {
    let mut out = vec![0; within(MOST_SAMPLES, scan.len())];
    clean_into(terms, scan, &mut out)?;
    Ok(out)
}

/// Writes the scan as the form's filter gives it to `out`, which has as many elements as the scan,
/// and gives the number of samples.
///
/// Refuses 7, 8, 9, 10.
///
/// ```
/// use stackfilter::{clean_into, Refusal};
/// let mut out = [1, 2, 3];
/// assert_eq!(clean_into(&[16], &[5, 6], &mut out), Err(Refusal::OutputLength { needed: 2 }));
/// assert_eq!(out, [1, 2, 3]);
/// ```
pub fn clean_into(terms: &[u16], scan: &[u16], out: &mut [u16]) -> Result<usize, Refusal> {
    answer(|value| unsafe {
        raw::sf_clean(
            terms.as_ptr(),
            terms.len(),
            scan.as_ptr(),
            scan.len(),
            out.as_mut_ptr(),
            out.len(),
            value,
        )
    })
}

/// Raw minus cleaned at each sample, -65,535 to 65,535.
///
/// Refuses 7, 8, 9.
///
/// ```
/// assert_eq!(stackfilter::residue(&[24, 40, 48], &[10, 10, 90, 10, 10]), Ok(vec![0, 0, 80, 0, 0]));
/// ```
pub fn residue(terms: &[u16], scan: &[u16]) -> Result<Vec<i32>, Refusal> {
    let mut out = vec![0; within(MOST_SAMPLES, scan.len())];
    residue_into(terms, scan, &mut out)?;
    Ok(out)
}

/// Writes raw minus cleaned at each sample to `out`, which has as many elements as the scan, and
/// gives the number of samples.
///
/// Refuses 7, 8, 9, 10.
pub fn residue_into(terms: &[u16], scan: &[u16], out: &mut [i32]) -> Result<usize, Refusal> {
    answer(|value| unsafe {
        raw::sf_residue(
            terms.as_ptr(),
            terms.len(),
            scan.as_ptr(),
            scan.len(),
            out.as_mut_ptr(),
            out.len(),
            value,
        )
    })
}

/// Whether the form leaves the scan as it is: the first sample that differs from its filtered
/// value, or `None` where the scan is a root.
///
/// Refuses 7, 8, 9.
///
/// ```
/// assert_eq!(stackfilter::root(&[24, 40, 48], &[10, 10, 90, 10, 10]), Ok(Some(2)));
/// assert_eq!(stackfilter::root(&[24, 40, 48], &[10, 10, 90, 90, 10]), Ok(None));
/// ```
pub fn root(terms: &[u16], scan: &[u16]) -> Result<Option<usize>, Refusal> {
    let first = answer(|value| unsafe {
        raw::sf_root(terms.as_ptr(), terms.len(), scan.as_ptr(), scan.len(), value)
    })?;
    Ok(Some(first).filter(|first| *first < scan.len()))
}

/// The form of a positive truth table of [`TABLE_BYTES`]: bit v mod 8 of byte v / 8 is the value on
/// pattern v.
///
/// Refuses 13, 12.
///
/// ```
/// use stackfilter::{table_to_form, Refusal, TABLE_BYTES};
/// assert_eq!(table_to_form(&[255; TABLE_BYTES]), Ok(vec![0]));
/// let mut only_on_pattern_0 = [0; TABLE_BYTES];
/// only_on_pattern_0[0] = 1;
/// assert_eq!(table_to_form(&only_on_pattern_0), Err(Refusal::NotPositive { pattern: 0 }));
/// ```
pub fn table_to_form(table: &[u8]) -> Result<Vec<u16>, Refusal> {
    terms_by(|terms| table_to_form_into(table, terms))
}

/// Writes the form of a positive truth table to the start of `terms` and gives the number of its
/// terms; [`MOST_TERMS`] elements are always enough.
///
/// Refuses 13, 12, 6.
pub fn table_to_form_into(table: &[u8], terms: &mut [u16]) -> Result<usize, Refusal> {
    answer(|value| unsafe {
        raw::sf_table_to_form(table.as_ptr(), table.len(), terms.as_mut_ptr(), terms.len(), value)
    })
}

/// The truth table of a form.
///
/// Refuses 7, 8.
///
/// ```
/// let table = stackfilter::form_to_table(&[24, 40, 48])?;
/// assert_eq!(stackfilter::table_to_form(&table), Ok(vec![24, 40, 48]));
/// # Ok::<(), stackfilter::Refusal>(())
/// ```
pub fn form_to_table(terms: &[u16]) -> Result<[u8; TABLE_BYTES], Refusal> {
    let mut table = [0; TABLE_BYTES];
    form_to_table_into(terms, &mut table)?;
    Ok(table)
}

/// Writes the truth table of a form to `table`, which has [`TABLE_BYTES`], and gives the number of terms.
///
/// Refuses 7, 8, 13.
pub fn form_to_table_into(terms: &[u16], table: &mut [u8]) -> Result<usize, Refusal> {
    answer(|value| unsafe {
        raw::sf_form_to_table(terms.as_ptr(), terms.len(), table.as_mut_ptr(), table.len(), value)
    })
}

/// The form of one of the twenty filters of three samples, by its number 0 to 19; 10 is the median.
///
/// Refuses 14.
///
/// ```
/// assert_eq!(stackfilter::preset(10), Ok(vec![24, 40, 48]));
/// assert_eq!(stackfilter::preset(20), Err(stackfilter::Refusal::PresetNumber { number: 20 }));
/// ```
pub fn preset(number: u64) -> Result<Vec<u16>, Refusal> {
    terms_by(|terms| preset_into(number, terms))
}

/// Writes the form of a preset to the start of `terms` and gives the number of its terms;
/// [`MOST_PRESET_TERMS`](limits::MOST_PRESET_TERMS) elements are always enough.
///
/// Refuses 14, 6.
pub fn preset_into(number: u64, terms: &mut [u16]) -> Result<usize, Refusal> {
    answer(|value| unsafe { raw::sf_preset(number, terms.as_mut_ptr(), terms.len(), value) })
}

/// What a scan file holds.
#[derive(Clone, Debug, PartialEq, Eq)]
pub struct ScanFile {
    /// The samples of its scan.
    pub samples: Vec<u16>,
    /// The terms of its form.
    pub terms: Vec<u16>,
}

/// The scan and the form that a scan file holds.
///
/// Refuses 15, 16, 17, 18, 7, 8, 9.
///
/// ```
/// use stackfilter::{read, write, Refusal, ScanFile};
/// let file = write(&[24, 40, 48], &[10, 10, 90])?;
/// assert_eq!(read(&file)?, ScanFile { samples: vec![10, 10, 90], terms: vec![24, 40, 48] });
/// assert_eq!(read(&file[1..]), Err(Refusal::SampleDistance { byte: 11 }));
/// assert_eq!(read(&file[..11]), Err(Refusal::FileLength { bytes: 11 }));
/// # Ok::<(), Refusal>(())
/// ```
pub fn read(file: &[u8]) -> Result<ScanFile, Refusal> {
    let mut samples = vec![0; within(MOST_SAMPLES, file.len() / WORD_BYTES)];
    let mut terms = vec![0; MOST_TERMS];
    let (samples_read, terms_read) = read_into(file, &mut samples, &mut terms)?;
    samples.truncate(samples_read);
    terms.truncate(terms_read);
    Ok(ScanFile { samples, terms })
}

/// Writes the scan that a scan file holds to the start of `samples` and its form to the start of
/// `terms`, and gives both numbers, of samples and of terms.
///
/// Refuses 15, 16, 17, 18, 7, 8, 9, 6, 10.
pub fn read_into(file: &[u8], samples: &mut [u16], terms: &mut [u16]) -> Result<(usize, usize), Refusal> {
    let mut terms_read = 0;
    let samples_read = answer(|value| unsafe {
        raw::sf_read(
            file.as_ptr(),
            file.len(),
            samples.as_mut_ptr(),
            samples.len(),
            terms.as_mut_ptr(),
            terms.len(),
            value,
            &mut terms_read,
        )
    })?;
    Ok((samples_read, terms_read))
}

/// The scan file that holds this form and this scan.
///
/// Refuses 7, 8, 9.
///
/// ```
/// let file = stackfilter::write(&[16], &[258])?;
/// assert_eq!(file, [2, 1, 16, 0, 16, 0, 0, 0, 14, 0, 0, 0, 1, 0, 0x53, 0x46]);
/// # Ok::<(), stackfilter::Refusal>(())
/// ```
pub fn write(terms: &[u16], scan: &[u16]) -> Result<Vec<u8>, Refusal> {
    let mut out = vec![0; file_bytes(within(MOST_SAMPLES, scan.len()), within(MOST_TERMS, terms.len()))];
    write_into(terms, scan, &mut out)?;
    Ok(out)
}

/// Writes the scan file to `out`, whose length is [`file_bytes`], and gives that length.
///
/// Refuses 7, 8, 9, 10.
pub fn write_into(terms: &[u16], scan: &[u16], out: &mut [u8]) -> Result<usize, Refusal> {
    answer(|value| unsafe {
        raw::sf_write(
            terms.as_ptr(),
            terms.len(),
            scan.as_ptr(),
            scan.len(),
            out.as_mut_ptr(),
            out.len(),
            value,
        )
    })
}

/// What the report says about a scan file.
#[derive(Clone, Copy, Debug, PartialEq, Eq)]
pub struct Counts {
    /// The samples.
    pub samples: u64,
    /// The samples that the filter changes.
    pub changed: u64,
    /// The runs of neighbouring samples whose residues are of one sign, each as long as it can be: one up beside one
    /// down is two.
    pub spikes: u64,
    /// The total of the positive residues.
    pub above: u64,
    /// The total of the negative residues, with the sign dropped.
    pub below: u64,
}

/// Filters the scan that a scan file holds by the form beside it and counts what that changes.
///
/// Refuses 15, 16, 17, 18, 7, 8, 9.
///
/// ```
/// use stackfilter::{count, write, Counts};
/// let file = write(&[24, 40, 48], &[10, 10, 90, 10, 10])?;
/// assert_eq!(count(&file)?, Counts { samples: 5, changed: 1, spikes: 1, above: 80, below: 0 });
/// # Ok::<(), stackfilter::Refusal>(())
/// ```
pub fn count(file: &[u8]) -> Result<Counts, Refusal> {
    let mut counts = [0; COUNTS];
    answer(|value| unsafe { raw::sf_count(file.as_ptr(), file.len(), &mut counts, value) })?;
    let [samples, changed, spikes, above, below] = counts;
    Ok(Counts { samples, changed, spikes, above, below })
}

/// The line that the report program prints for a scan file, with the line feed at its end. It refuses
/// no file: the line of a refused file is `refused`, the number and the place.
///
/// ```
/// use stackfilter::{line, write};
/// let file = write(&[24, 40, 48], &[10, 10, 90, 10, 10])?;
/// assert_eq!(line(&file), "5 1 1 80 0\n");
/// assert_eq!(line(&file[1..]), "refused 18 15\n");
/// # Ok::<(), stackfilter::Refusal>(())
/// ```
pub fn line(file: &[u8]) -> String {
    text_by::<LINE_BYTES>(|out| line_into(file, out))
}

/// Writes the line that the report program prints for a scan file to the start of `out`, which has
/// [`LINE_BYTES`], and gives the line's length.
///
/// Refuses 10.
pub fn line_into(file: &[u8], out: &mut [u8]) -> Result<usize, Refusal> {
    answer(|value| unsafe { raw::sf_line(file.as_ptr(), file.len(), out.as_mut_ptr(), out.len(), value) })
}

/// Makes a raw call that takes no recipe: what it gives back, or its refusal.
fn answer(call: impl FnOnce(&mut usize) -> u8) -> Result<usize, Refusal> {
    answer_for(&[], call)
}

/// Makes a raw call that takes this recipe: what it gives back, or its refusal.
fn answer_for(recipe: &[u8], call: impl FnOnce(&mut usize) -> u8) -> Result<usize, Refusal> {
    let mut value = 0;
    match call(&mut value) {
        0 => Ok(value),
        number => Err(Refusal::new(number, value, recipe)),
    }
}

/// A length, or the most that is accepted: an input over the most is refused before the length of its
/// output is looked at, so no output is made for it.
fn within(most: usize, length: usize) -> usize {
    length.min(most)
}

/// The line that a call writes when it is lent the bytes that it needs.
fn text_by<const BYTES: usize>(call: impl FnOnce(&mut [u8]) -> Result<usize, Refusal>) -> String {
    let mut out = [0; BYTES];
    let length = call(&mut out).expect("a line has room in what is lent for it");
    out[..length].iter().map(|byte| char::from(*byte)).collect()
}

/// The terms that a call writes when it is lent room for every form.
fn terms_by(call: impl FnOnce(&mut [u16]) -> Result<usize, Refusal>) -> Result<Vec<u16>, Refusal> {
    let mut terms = vec![0; MOST_TERMS];
    let written = call(&mut terms)?;
    terms.truncate(written);
    Ok(terms)
}
