//! The C interface as it stands, for callers that lend memory of their own.
//!
//! Each call returns 0 and writes what it gives back to `value`, or returns a refusal's number,
//! writes its place to `value` and nothing anywhere else. `hosts/c/stackfilter.h` describes each.
//!
//! # Safety
//!
//! Every pointer is aligned and good for its length; where that is 0 it may be null. Not in place: what a
//! call writes overlaps nothing else that it is given.

use crate::limits::{COUNTS, TOTALS};

extern "C" {
    /// Writes the form that a recipe computes to `terms`: [`compile`](crate::compile).
    pub fn sf_compile(recipe: *const u8, n: usize, terms: *mut u16, lent: usize, value: *mut usize) -> u8;
    /// Writes the scan as the recipe's steps leave it to `out`: [`run_recipe`](crate::run_recipe).
    pub fn sf_run_recipe(
        recipe: *const u8,
        n: usize,
        scan: *const u16,
        samples: usize,
        out: *mut u16,
        lent: usize,
        value: *mut usize,
    ) -> u8;
    /// Asks whether a list of terms is a form: [`check`](crate::check).
    pub fn sf_check(terms: *const u16, m: usize, value: *mut usize) -> u8;
    /// Writes the scan as the form's filter gives it to `out`: [`clean`](crate::clean).
    pub fn sf_clean(
        terms: *const u16,
        m: usize,
        scan: *const u16,
        samples: usize,
        out: *mut u16,
        lent: usize,
        value: *mut usize,
    ) -> u8;
    /// Writes raw minus cleaned at each sample to `out`: [`residue`](crate::residue).
    pub fn sf_residue(
        terms: *const u16,
        m: usize,
        scan: *const u16,
        samples: usize,
        out: *mut i32,
        lent: usize,
        value: *mut usize,
    ) -> u8;
    /// Asks whether the form leaves the scan as it is: [`root`](crate::root).
    pub fn sf_root(terms: *const u16, m: usize, scan: *const u16, samples: usize, value: *mut usize) -> u8;
    /// Writes the form of a positive truth table to `terms`: [`table_to_form`](crate::table_to_form).
    pub fn sf_table_to_form(
        table: *const u8,
        n: usize,
        terms: *mut u16,
        lent: usize,
        value: *mut usize,
    ) -> u8;
    /// Writes the truth table of a form to `table`: [`form_to_table`](crate::form_to_table).
    pub fn sf_form_to_table(
        terms: *const u16,
        m: usize,
        table: *mut u8,
        lent: usize,
        value: *mut usize,
    ) -> u8;
    /// Writes the form of a preset to `terms`: [`preset`](crate::preset).
    pub fn sf_preset(number: u64, terms: *mut u16, lent: usize, value: *mut usize) -> u8;
    /// Writes the scan and the form that a scan file holds to `samples` and `terms`: [`read`](crate::read).
    pub fn sf_read(
        file: *const u8,
        n: usize,
        samples: *mut u16,
        lent_samples: usize,
        terms: *mut u16,
        lent_terms: usize,
        value: *mut usize,
        terms_read: *mut usize,
    ) -> u8;
    /// Writes the scan file that holds this form and this scan to `out`: [`write`](crate::write).
    pub fn sf_write(
        terms: *const u16,
        m: usize,
        scan: *const u16,
        samples: usize,
        out: *mut u8,
        lent: usize,
        value: *mut usize,
    ) -> u8;
    /// Writes the report's counts for a scan file to `counts`: [`count`](crate::count).
    pub fn sf_count(file: *const u8, n: usize, counts: *mut [u64; COUNTS], value: *mut usize) -> u8;
    /// Writes the report's line for a scan file to `out`: [`line`](crate::line).
    pub fn sf_line(file: *const u8, n: usize, out: *mut u8, lent: usize, value: *mut usize) -> u8;
    /// Checks a list of file names: [`night_list`](crate::night_list).
    pub fn sf_night_list(text: *const u8, n: usize, value: *mut usize) -> u8;
    /// Adds a file that was read to `totals` and writes its line to `out`: [`night_line`](crate::night_line).
    pub fn sf_night_line(
        file: *const u8,
        n: usize,
        totals: *mut [u64; TOTALS],
        out: *mut u8,
        lent: usize,
        value: *mut usize,
    ) -> u8;
    /// Adds a file that was not opened to `totals` and writes its line to `out`:
    /// [`night_unopened`](crate::night_unopened).
    pub fn sf_night_unopened(totals: *mut [u64; TOTALS], out: *mut u8, lent: usize, value: *mut usize) -> u8;
    /// Writes the night sheet's last line to `out`: [`night_totals`](crate::night_totals).
    pub fn sf_night_totals(totals: *const [u64; TOTALS], out: *mut u8, lent: usize, value: *mut usize) -> u8;
}
