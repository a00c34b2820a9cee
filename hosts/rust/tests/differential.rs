//! The library against a second implementation, on random and damaged inputs, over all seventeen
//! calls. Behind and before every slice that is lent stand guards that no call may touch. Then whole nights,
//! in folders of random files.
//!
//! `STACKFILTER_INPUTS` sets the number of inputs in all (260,000 unless set), of which there is a folder to
//! every 340, and `STACKFILTER_SEED` the seed.

mod folders;
mod independent;
mod inputs;

use folders::Folder;
use independent::limits::{file_bytes, LINE_BYTES, LINE_FEED, PRESETS, TABLE_BYTES, TOTALS, TOTALS_BYTES};
use independent::{sheets, No};
use inputs::Random;
use stackfilter::{raw, Refusal, Totals};
use std::collections::BTreeMap;
use std::env;
use std::ffi::OsStr;
use std::fmt::Debug;
use std::os::unix::ffi::OsStrExt;

const CALLS: u64 = 17;

/// A call is tried on so many inputs to one folder of files.
const INPUTS_TO_A_FOLDER: u64 = 20;

/// The elements before and behind a slice that is lent.
const GUARD: usize = 16;

/// Memory lent to a call, between guards.
struct Lent<T> {
    before: Vec<T>,
    now: Vec<T>,
}

impl<T: Copy + PartialEq + Debug> Lent<T> {
    fn new(length: usize, some: impl FnMut() -> T) -> Lent<T> {
        let before: Vec<T> = std::iter::repeat_with(some).take(length + 2 * GUARD).collect();
        Lent { now: before.clone(), before }
    }

    fn pointer(&mut self) -> *mut T {
        self.now[GUARD..].as_mut_ptr()
    }

    fn len(&self) -> usize {
        self.now.len() - 2 * GUARD
    }

    /// Puts elements into the slice that the call is to find there.
    fn put(&mut self, elements: &[T]) {
        for side in [&mut self.before, &mut self.now] {
            side[GUARD..GUARD + elements.len()].copy_from_slice(elements);
        }
    }

    /// Whether the slice begins with what was to be written and all else is as it was.
    fn holds(&self, written: &[T]) -> bool {
        let end = GUARD + written.len();
        self.now[..GUARD] == self.before[..GUARD]
            && self.now[GUARD..end] == *written
            && self.now[end..] == self.before[end..]
    }
}

fn lend_u8(random: &mut Random, length: usize) -> Lent<u8> {
    Lent::new(length, || random.bits() as u8)
}

fn lend_u16(random: &mut Random, length: usize) -> Lent<u16> {
    Lent::new(length, || random.bits() as u16)
}

fn lend_usize(random: &mut Random) -> Lent<usize> {
    Lent::new(1, || random.bits() as usize)
}

/// The number that a setting of the environment gives.
fn setting(name: &str, unless_set: u64) -> u64 {
    match env::var(name) {
        Ok(text) => text.parse().unwrap_or_else(|_| panic!("{name} is not a number: {text}")),
        Err(_) => unless_set,
    }
}

/// Tries a call on its share of the inputs.
fn try_call(call: u64, numbers: &[u8], one: impl Fn(&mut Random) -> (u8, Option<String>)) {
    try_inputs(call, share_of_inputs(), 10_000, numbers, one)
}

/// How many inputs a call is tried on.
fn share_of_inputs() -> u64 {
    (setting("STACKFILTER_INPUTS", 260_000) + CALLS - 1) / CALLS
}

/// Tries a call on so many inputs. `one` makes an input, calls both sides, and gives the number that came
/// back with a complaint if they differ. In the end, where the inputs are enough, every number of `numbers`,
/// 0 for an answer among them, must have been met.
fn try_inputs(
    call: u64,
    inputs: u64,
    enough: u64,
    numbers: &[u8],
    one: impl Fn(&mut Random) -> (u8, Option<String>),
) {
    let seed = setting("STACKFILTER_SEED", 1986);
    let mut met: BTreeMap<u8, u64> = BTreeMap::new();
    for index in 0..inputs {
        let mut random = Random::new(seed ^ call << 56 ^ index << 16);
        let (number, complaint) = one(&mut random);
        if let Some(complaint) = complaint {
            panic!("input {index} of seed {seed}: {complaint}");
        }
        *met.entry(number).or_default() += 1;
    }
    println!("{inputs} inputs, by the number that came back: {met:?}");
    let missed: Vec<&u8> = numbers.iter().filter(|number| !met.contains_key(number)).collect();
    assert!(inputs < enough || missed.is_empty(), "never met: {missed:?}");
    assert!(met.keys().all(|number| numbers.contains(number)), "not to be expected: {met:?}");
}

/// The number and the value that a call must give.
fn outcome<T>(expected: &Result<T, No>, value: impl Fn(&T) -> usize) -> (u8, usize) {
    match expected {
        Ok(answer) => (0, value(answer)),
        Err(no) => *no,
    }
}

/// What must be written to a lent slice: nothing where the call is refused.
fn written<T, U>(expected: &Result<T, No>, part: impl Fn(&T) -> &[U]) -> &[U] {
    expected.as_ref().map(part).unwrap_or(&[])
}

/// A safe call's answer with the refusal as number and place.
fn plain<T>(answer: Result<T, Refusal>) -> Result<T, No> {
    answer.map_err(|refusal| (refusal.number(), refusal.place()))
}

/// The complaint where something differs, with everything needed to see it again.
fn complain(same: bool, input: &dyn Debug, expected: &dyn Debug, got: &dyn Debug) -> Option<String> {
    (!same).then(|| format!("\n   input: {input:?}\nexpected: {expected:?}\n     got: {got:?}"))
}

/// Compares a raw call that lends one slice, and the safe call that lends room enough.
fn compare<T: Copy + PartialEq + Debug>(
    input: &dyn Debug,
    mut lent: Lent<T>,
    random: &mut Random,
    expected: Result<Vec<T>, No>,
    ample: Result<Vec<T>, No>,
    raw_call: impl FnOnce(*mut T, usize, *mut usize) -> u8,
    safe_call: impl FnOnce() -> Result<Vec<T>, Refusal>,
) -> (u8, Option<String>) {
    let mut value = lend_usize(random);
    let number = raw_call(lent.pointer(), lent.len(), value.pointer());
    let (no, gives) = outcome(&expected, Vec::len);
    let raw_same = number == no && value.holds(&[gives]) && lent.holds(written(&expected, |answer| answer));
    let safe = plain(safe_call());
    let complaint = complain(raw_same, input, &(lent.len(), &expected), &(number, &value.now, &lent.now))
        .or_else(|| complain(safe == ample, input, &ample, &safe));
    (number, complaint)
}

#[test]
fn compile() {
    try_call(0, &[0, 1, 2, 3, 4, 5, 6], |random| {
        let recipe = random.recipe();
        let ample = independent::compile(&recipe, usize::MAX);
        let lent = random.ample_length(ample.as_ref().map_or(3, Vec::len));
        let expected = ample.clone().and_then(|terms| independent::enough_for_terms(terms, lent));
        compare(
            &recipe,
            lend_u16(random, lent),
            random,
            expected,
            ample,
            |terms, lent, value| unsafe {
                raw::sf_compile(recipe.as_ptr(), recipe.len(), terms, lent, value)
            },
            || stackfilter::compile(&recipe),
        )
    });
}

#[test]
fn run_recipe() {
    try_call(1, &[0, 1, 2, 3, 4, 5, 9, 10], |random| {
        let (recipe, scan) = (random.recipe(), random.scan());
        let lent = random.exact_length(scan.len());
        compare(
            &(&recipe, &scan),
            lend_u16(random, lent),
            random,
            independent::run_recipe(&recipe, &scan, lent),
            independent::run_recipe(&recipe, &scan, scan.len()),
            |out, lent, value| unsafe {
                raw::sf_run_recipe(recipe.as_ptr(), recipe.len(), scan.as_ptr(), scan.len(), out, lent, value)
            },
            || stackfilter::run_recipe(&recipe, &scan),
        )
    });
}

#[test]
fn clean() {
    try_call(2, &[0, 7, 9, 10], |random| {
        let (terms, scan) = (random.terms(), random.scan());
        let lent = random.exact_length(scan.len());
        compare(
            &(&terms, &scan),
            lend_u16(random, lent),
            random,
            independent::clean(&terms, &scan, lent),
            independent::clean(&terms, &scan, scan.len()),
            |out, lent, value| unsafe {
                raw::sf_clean(terms.as_ptr(), terms.len(), scan.as_ptr(), scan.len(), out, lent, value)
            },
            || stackfilter::clean(&terms, &scan),
        )
    });
}

#[test]
fn residue() {
    try_call(3, &[0, 7, 9, 10], |random| {
        let (terms, scan) = (random.terms(), random.scan());
        let lent = random.exact_length(scan.len());
        compare(
            &(&terms, &scan),
            Lent::new(lent, || random.bits() as i32),
            random,
            independent::residue(&terms, &scan, lent),
            independent::residue(&terms, &scan, scan.len()),
            |out, lent, value| unsafe {
                raw::sf_residue(terms.as_ptr(), terms.len(), scan.as_ptr(), scan.len(), out, lent, value)
            },
            || stackfilter::residue(&terms, &scan),
        )
    });
}

#[test]
fn root() {
    try_call(4, &[0, 7, 9], |random| {
        let terms = random.terms();
        let mut scan = random.scan();
        if random.once_in(2) {
            // A filtered scan is often a root, or nearly one.
            scan = independent::clean(&terms, &scan, scan.len()).unwrap_or(scan);
        }
        let expected = independent::root(&terms, &scan);
        let mut value = lend_usize(random);
        let number =
            unsafe { raw::sf_root(terms.as_ptr(), terms.len(), scan.as_ptr(), scan.len(), value.pointer()) };
        let (no, gives) = outcome(&expected, |first| *first);
        let raw_same = number == no && value.holds(&[gives]);
        let safe = plain(stackfilter::root(&terms, &scan)).map(|first| first.unwrap_or(scan.len()));
        let input = (&terms, &scan);
        let complaint = complain(raw_same, &input, &expected, &(number, &value.now))
            .or_else(|| complain(safe == expected, &input, &expected, &safe));
        (number, complaint)
    });
}

#[test]
fn table_to_form() {
    try_call(5, &[0, 6, 12, 13], |random| {
        let table = random.table();
        let ample = independent::table_to_form(&table, usize::MAX);
        let lent = random.ample_length(ample.as_ref().map_or(3, Vec::len));
        compare(
            &table,
            lend_u16(random, lent),
            random,
            independent::table_to_form(&table, lent),
            ample,
            |terms, lent, value| unsafe {
                raw::sf_table_to_form(table.as_ptr(), table.len(), terms, lent, value)
            },
            || stackfilter::table_to_form(&table),
        )
    });
}

#[test]
fn form_to_table() {
    try_call(6, &[0, 7, 13], |random| {
        let terms = random.terms();
        let lent = random.exact_length(TABLE_BYTES);
        let mut table = lend_u8(random, lent);
        let expected = independent::form_to_table(&terms, table.len());
        let mut value = lend_usize(random);
        let number = unsafe {
            raw::sf_form_to_table(terms.as_ptr(), terms.len(), table.pointer(), table.len(), value.pointer())
        };
        let (no, gives) = outcome(&expected, |_| terms.len());
        let raw_same =
            number == no && value.holds(&[gives]) && table.holds(written(&expected, |table| table));
        let ample = independent::form_to_table(&terms, TABLE_BYTES);
        let safe = plain(stackfilter::form_to_table(&terms)).map(Vec::from);
        let complaint =
            complain(raw_same, &terms, &(table.len(), &expected), &(number, &value.now, &table.now))
                .or_else(|| complain(safe == ample, &terms, &ample, &safe));
        (number, complaint)
    });
}

#[test]
fn preset() {
    try_call(7, &[0, 6, 14], |random| {
        let preset = match random.below(4) {
            0 => random.bits() >> random.below(64),
            1 => {
                let presets = PRESETS as u64;
                random.one_of(&[
                    presets - 1,
                    presets,
                    255,
                    256,
                    256 + presets,
                    1 << 16,
                    u32::MAX as u64,
                    1 << 32,
                    u64::MAX,
                ])
            }
            _ => random.below(PRESETS) as u64,
        };
        let lent = random.below(6);
        compare(
            &preset,
            lend_u16(random, lent),
            random,
            independent::preset(preset, lent),
            independent::preset(preset, usize::MAX),
            |terms, lent, value| unsafe { raw::sf_preset(preset, terms, lent, value) },
            || stackfilter::preset(preset),
        )
    });
}

#[test]
fn read() {
    try_call(8, &[0, 6, 7, 9, 10, 15, 16, 17, 18], |random| {
        let file = random.file();
        let ample = independent::read(&file, usize::MAX, usize::MAX);
        let needed = ample.as_ref().map_or((3, 3), |(samples, terms)| (samples.len(), terms.len()));
        let (lent_samples, lent_terms) = (random.ample_length(needed.0), random.ample_length(needed.1));
        let (mut samples, mut terms) = (lend_u16(random, lent_samples), lend_u16(random, lent_terms));
        let (mut value, mut terms_read) = (lend_usize(random), lend_usize(random));
        let expected = independent::read(&file, lent_samples, lent_terms);
        let number = unsafe {
            raw::sf_read(
                file.as_ptr(),
                file.len(),
                samples.pointer(),
                lent_samples,
                terms.pointer(),
                lent_terms,
                value.pointer(),
                terms_read.pointer(),
            )
        };
        let (no, gives) = outcome(&expected, |(samples, _)| samples.len());
        let read_terms: Vec<usize> = expected.iter().map(|(_, terms)| terms.len()).collect();
        let raw_same = number == no
            && value.holds(&[gives])
            && terms_read.holds(&read_terms)
            && samples.holds(written(&expected, |(samples, _)| samples))
            && terms.holds(written(&expected, |(_, terms)| terms));
        let safe = plain(stackfilter::read(&file)).map(|read| (read.samples, read.terms));
        let lengths = (lent_samples, lent_terms);
        let got = (number, &value.now, &terms_read.now, &samples.now, &terms.now);
        let complaint = complain(raw_same, &(&file, lengths), &expected, &got)
            .or_else(|| complain(safe == ample, &file, &ample, &safe));
        (number, complaint)
    });
}

#[test]
fn write() {
    try_call(9, &[0, 7, 9, 10], |random| {
        let (terms, scan) = (random.terms(), random.scan());
        let needed = file_bytes(scan.len(), terms.len());
        let lent = random.exact_length(needed);
        compare(
            &(&terms, &scan),
            lend_u8(random, lent),
            random,
            independent::write(&terms, &scan, lent),
            independent::write(&terms, &scan, needed),
            |out, lent, value| unsafe {
                raw::sf_write(terms.as_ptr(), terms.len(), scan.as_ptr(), scan.len(), out, lent, value)
            },
            || stackfilter::write(&terms, &scan),
        )
    });
}

#[test]
fn count() {
    try_call(10, &[0, 7, 9, 15, 16, 17, 18], |random| {
        let file = random.file();
        let expected = independent::count(&file);
        let (mut value, mut counts) = (lend_usize(random), Lent::new(5, || random.bits()));
        let number =
            unsafe { raw::sf_count(file.as_ptr(), file.len(), counts.pointer().cast(), value.pointer()) };
        let (no, gives) = outcome(&expected, |counts| counts[0] as usize);
        let raw_same = number == no && value.holds(&[gives]) && counts.holds(written(&expected, |five| five));
        let safe =
            plain(stackfilter::count(&file)).map(|c| [c.samples, c.changed, c.spikes, c.above, c.below]);
        let complaint = complain(raw_same, &file, &expected, &(number, &value.now, &counts.now))
            .or_else(|| complain(safe == expected, &file, &expected, &safe));
        (number, complaint)
    });
}

#[test]
fn check() {
    try_call(11, &[0, 7], |random| {
        let terms = random.terms();
        let expected = independent::check(&terms);
        let mut value = lend_usize(random);
        let number = unsafe { raw::sf_check(terms.as_ptr(), terms.len(), value.pointer()) };
        let (no, gives) = outcome(&expected, |terms| *terms);
        let raw_same = number == no && value.holds(&[gives]);
        let safe = plain(stackfilter::check(&terms));
        let complaint = complain(raw_same, &terms, &expected, &(number, &value.now))
            .or_else(|| complain(safe == expected, &terms, &expected, &safe));
        (number, complaint)
    });
}

#[test]
fn line() {
    try_call(12, &[0, 7, 9, 10, 15, 16, 17, 18], |random| {
        let file = random.file();
        let lent = random.exact_length(LINE_BYTES);
        let (number, complaint) = compare(
            &file,
            lend_u8(random, lent),
            random,
            independent::line(&file, lent),
            independent::line(&file, LINE_BYTES),
            |out, lent, value| unsafe { raw::sf_line(file.as_ptr(), file.len(), out, lent, value) },
            || Ok(stackfilter::line(&file).into_bytes()),
        );
        (back_or_in_line(number, &file), complaint)
    });
}

/// The number that came back from a call that gives a line, or the one in the line of a refused file.
fn back_or_in_line(number: u8, file: &[u8]) -> u8 {
    match independent::count(file) {
        Err((in_line, _)) if number == 0 => in_line,
        _ => number,
    }
}

#[test]
fn night_list() {
    try_call(13, &[0, 19, 20], |random| {
        let list = random.list();
        let expected = independent::night_list(&list);
        let mut value = lend_usize(random);
        let number = unsafe { raw::sf_night_list(list.as_ptr(), list.len(), value.pointer()) };
        let (no, gives) = outcome(&expected, |names| *names);
        let raw_same = number == no && value.holds(&[gives]);
        let safe = plain(stackfilter::night_list(&list));
        let complaint = complain(raw_same, &list, &expected, &(number, &value.now))
            .or_else(|| complain(safe == expected, &list, &expected, &safe));
        (number, complaint)
    });
}

#[test]
fn night_line() {
    try_call(14, &[0, 7, 9, 10, 15, 16, 17, 18], |random| {
        let file = random.file();
        let (number, complaint) = add_to_totals(random, Some(&file));
        (back_or_in_line(number, &file), complaint)
    });
}

#[test]
fn night_unopened() {
    try_call(15, &[0, 10], |random| add_to_totals(random, None));
}

/// Compares the calls that add a file, or one that was not opened, to totals.
fn add_to_totals(random: &mut Random, file: Option<&[u8]>) -> (u8, Option<String>) {
    let before = std::array::from_fn(|_| random.total());
    let lent = random.exact_length(LINE_BYTES);
    let (mut line, mut value) = (lend_u8(random, lent), lend_usize(random));
    let mut totals = Lent::new(TOTALS, || random.bits());
    totals.put(&before);
    let number = unsafe {
        let numbers = totals.pointer().cast();
        match file {
            Some(file) => {
                raw::sf_night_line(file.as_ptr(), file.len(), numbers, line.pointer(), lent, value.pointer())
            }
            None => raw::sf_night_unopened(numbers, line.pointer(), lent, value.pointer()),
        }
    };
    let expected = independent::night_line(file, before, lent);
    let (no, gives) = outcome(&expected, |(line, _)| line.len());
    let raw_same = number == no
        && value.holds(&[gives])
        && line.holds(written(&expected, |(line, _)| line))
        && totals.holds(written(&expected, |(_, totals)| totals));

    let mut safe_totals = totals_of(before);
    let safe_line = match file {
        Some(file) => stackfilter::night_line(file, &mut safe_totals),
        None => stackfilter::night_unopened(&mut safe_totals),
    };
    let ample = independent::night_line(file, before, LINE_BYTES)
        .map(|(line, totals)| (String::from_utf8(line).unwrap(), totals_of(totals)));
    let safe = Ok((safe_line, safe_totals));
    let input = (&file, &before);
    let got = (number, &value.now, &line.now, &totals.now);
    let complaint = complain(raw_same, &input, &(lent, &expected), &got)
        .or_else(|| complain(safe == ample, &input, &ample, &safe));
    (number, complaint)
}

fn totals_of(numbers: [u64; TOTALS]) -> Totals {
    let [cleaned, unopened, bad_term, term_count, scan_length, rest @ ..] = numbers;
    let [file_length, mark, term_distance, sample_distance, samples, changed, spikes, above, below] = rest;
    Totals {
        cleaned,
        unopened,
        bad_term,
        term_count,
        scan_length,
        file_length,
        mark,
        term_distance,
        sample_distance,
        samples,
        changed,
        spikes,
        above,
        below,
    }
}

#[test]
fn night_totals() {
    try_call(16, &[0, 10], |random| {
        let totals: [u64; TOTALS] = std::array::from_fn(|_| random.total());
        let lent = random.exact_length(TOTALS_BYTES);
        compare(
            &totals,
            lend_u8(random, lent),
            random,
            independent::night_totals(totals, lent),
            independent::night_totals(totals, TOTALS_BYTES),
            |out, lent, value| unsafe { raw::sf_night_totals(&totals, out, lent, value) },
            || Ok(stackfilter::night_totals(&totals_of(totals)).into_bytes()),
        )
    });
}

#[test]
fn night() {
    try_inputs(17, share_of_inputs() / INPUTS_TO_A_FOLDER, 60, &[0, 19, 20], |random| {
        let folder = Folder::new(random);
        let names = folder.names(random);
        let list: Vec<u8> = names.iter().flat_map(|name| [&name[..], &[LINE_FEED]].concat()).collect();
        let expected = sheets::night(&list, |name| folder.content(name));
        let got = stackfilter::night(names.iter().map(|name| OsStr::from_bytes(name)));
        let number = sheets::names(&list).map_or_else(|(number, _)| number, |_| 0);
        (number, complain(got.as_ref() == Ok(&expected), &(&names, &folder), &expected, &got))
    });
}
