//! Random and damaged inputs, from a small generator of our own so that a seed always gives the
//! same ones.

use crate::independent::limits::{
    file_bytes, BYTE_BITS, COUNT_BYTES, DISTANCE_BYTES, LARGEST_SET, LAST_CODE, LINE_FEED, LONGEST_FILE,
    LONGEST_NAME, LONGEST_RECIPE, MARK, MOST_NAMES, MOST_SAMPLES, MOST_SIGNALS, MOST_STEPS, MOST_TERMS,
    PATTERNS, REACH, STEP_BYTES, TABLE_BYTES, TRAILER, WIDTH, WORD_BYTES,
};
use crate::independent::{files, forms, recipes};

/// A length far over the longest file.
const MEGABYTE: usize = 1 << 20;

/// The set {0}.
const MIDDLE: u16 = 1 << REACH;

/// The fields of a scan file's trailer: how far before the file's end they begin, and their bytes.
const SAMPLE_DISTANCE: Field = (TRAILER, DISTANCE_BYTES);
const TERM_DISTANCE: Field = (TRAILER - DISTANCE_BYTES, DISTANCE_BYTES);
const COUNT: Field = (MARK.len() + COUNT_BYTES, COUNT_BYTES);
const END_MARK: Field = (MARK.len(), MARK.len());
type Field = (usize, usize);

/// The bytes of a field.
fn field(file: &mut [u8], (before_end, bytes): Field) -> &mut [u8] {
    let start = file.len() - before_end;
    &mut file[start..start + bytes]
}

/// Puts the low bytes of a number into a field.
fn put(file: &mut [u8], which: Field, number: usize) {
    let (_, bytes) = which;
    field(file, which).copy_from_slice(&number.to_le_bytes()[..bytes]);
}

/// Cuts the file's start, or puts bytes before it, until it has that length. The sample distance follows.
fn give_length(file: &mut Vec<u8>, length: usize) {
    file.drain(..file.len().saturating_sub(length));
    file.splice(0..0, vec![7; length - file.len()]);
    if length >= TRAILER {
        put(file, SAMPLE_DISTANCE, length);
    }
}

/// SplitMix64: a counter whose every value is stirred.
pub struct Random(u64);

impl Random {
    pub fn new(seed: u64) -> Random {
        Random(seed)
    }

    pub fn bits(&mut self) -> u64 {
        self.0 = self.0.wrapping_add(0x9E37_79B9_7F4A_7C15);
        let mut z = self.0;
        z = (z ^ z >> 30).wrapping_mul(0xBF58_476D_1CE4_E5B9);
        z = (z ^ z >> 27).wrapping_mul(0x94D0_49BB_1331_11EB);
        z ^ z >> 31
    }

    pub fn below(&mut self, bound: usize) -> usize {
        (self.bits() % bound as u64) as usize
    }

    pub fn between(&mut self, least: usize, most: usize) -> usize {
        least + self.below(most - least + 1)
    }

    /// True once in so many times.
    pub fn once_in(&mut self, times: usize) -> bool {
        self.below(times) == 0
    }

    pub fn one_of<T: Copy>(&mut self, choices: &[T]) -> T {
        choices[self.below(choices.len())]
    }

    /// Any bytes, of one of these lengths.
    fn noise(&mut self, lengths: &[usize]) -> Vec<u8> {
        let length = self.one_of(lengths);
        (0..length).map(|_| self.bits() as u8).collect()
    }

    // ---- lengths lent

    /// A length for a slice that must have exactly the length needed.
    pub fn exact_length(&mut self, needed: usize) -> usize {
        match self.below(12) {
            0 => needed + self.one_of(&[1, 2, 7]),
            1 => needed.saturating_sub(self.one_of(&[1, 2, needed])),
            _ => needed,
        }
    }

    /// A length for a slice that may be longer than needed.
    pub fn ample_length(&mut self, needed: usize) -> usize {
        match self.below(8) {
            0 => needed.saturating_sub(self.one_of(&[1, 2, needed])),
            1..=3 => needed,
            _ => needed + self.between(1, 20),
        }
    }

    // ---- scans

    /// Mostly short; now and then empty, at the limit or over it.
    pub fn scan(&mut self) -> Vec<u16> {
        let samples = match self.below(300) {
            0..=5 => 0,
            6 => self.one_of(&[MOST_SAMPLES - 1, MOST_SAMPLES, MOST_SAMPLES + 1, MOST_SAMPLES + MOST_TERMS]),
            7..=30 => self.between(41, 300),
            31..=100 => self.between(1, 4),
            _ => self.between(1, 40),
        };
        self.samples(samples)
    }

    /// So many samples: of few levels, of any, at the ends of the range, or close to each other.
    pub fn samples(&mut self, samples: usize) -> Vec<u16> {
        let base = self.bits() as u16;
        let kind = self.below(4);
        let sample = |_| match kind {
            0 => self.below(4) as u16,
            1 => self.bits() as u16,
            2 => self.one_of(&[0, 1, 2, 32_767, 32_768, u16::MAX - 1, u16::MAX]),
            _ => base.saturating_add(self.below(20) as u16),
        };
        (0..samples).map(sample).collect()
    }

    // ---- forms

    /// The least sets among a few drawn ones.
    pub fn form(&mut self) -> Vec<u16> {
        let tries = self.one_of(&[0, 1, 1, 2, 3, 5, 8, 16, 40, 120]);
        // Sets of about one size seldom contain each other, so these forms are long.
        let size = self.between(1, WIDTH - 1) as u32;
        let drawn: Vec<u16> = (0..tries).map(|_| self.set_of_about(size)).collect();
        forms::least_patterns(|pattern| forms::holds(&drawn, pattern))
    }

    fn set_of_about(&mut self, size: u32) -> u16 {
        loop {
            let set = self.set();
            if set.count_ones().abs_diff(size) <= 1 {
                return set;
            }
        }
    }

    /// Any set of offsets.
    fn set(&mut self) -> u16 {
        self.below(PATTERNS as usize) as u16
    }

    /// A form, or one time in three a list with faults.
    pub fn terms(&mut self) -> Vec<u16> {
        let mut terms = self.form();
        if !self.once_in(3) {
            return terms;
        }
        for _ in 0..self.between(1, 2) {
            self.damage_terms(&mut terms);
        }
        terms
    }

    fn damage_terms(&mut self, terms: &mut Vec<u16>) {
        let place = self.below(terms.len() + 1);
        let any = self.set();
        match self.below(8) {
            0 => terms.insert(place, self.one_of(&[PATTERNS, PATTERNS + 1, 1023, 1024, u16::MAX])),
            1 => terms.insert(place, any),
            2 => terms.insert(0, 0),
            3 => {
                *terms =
                    (0..self.between(100, 600)).map(|_| self.below(PATTERNS as usize + 8) as u16).collect()
            }
            4 => *terms = (0..self.between(MOST_TERMS - 6, PATTERNS as usize) as u16).collect(),
            _ if terms.is_empty() => terms.push(any | PATTERNS),
            5 => terms.insert(place, terms[place.min(terms.len() - 1)]),
            6 => {
                let (one, other) = (self.below(terms.len()), self.below(terms.len()));
                terms.swap(one, other);
            }
            _ => {
                let last = terms.len() - 1;
                terms[place.min(last)] ^= 1 << self.below(16);
            }
        }
    }

    // ---- tables

    pub fn table(&mut self) -> Vec<u8> {
        let mut table = forms::table(&self.form());
        match self.below(10) {
            0 => return self.noise(&[TABLE_BYTES]),
            1 => return vec![self.one_of(&[0, 1, 128, 255]); TABLE_BYTES],
            2 => table.truncate(self.below(TABLE_BYTES)),
            3 => table.extend(vec![255; self.between(1, TABLE_BYTES + 6)]),
            4 | 5 => table[self.below(TABLE_BYTES)] ^= 1 << self.below(BYTE_BITS),
            _ => {}
        }
        table
    }

    // ---- recipes

    /// A sound recipe, or about half the time one with faults.
    pub fn recipe(&mut self) -> Vec<u8> {
        let mut recipe = self.sound_recipe();
        if self.once_in(2) {
            self.damage_recipe(&mut recipe);
        }
        recipe
    }

    fn sound_recipe(&mut self) -> Vec<u8> {
        let most = self.one_of(&[1, 2, 2, 3, 3, 4, 6, 9, 15, MOST_STEPS]);
        let mut recipe = Vec::new();
        let mut reaches: Vec<(i64, i64)> = Vec::new();
        for step in 0..most {
            // Every further signal will need a step that joins it.
            let free = most - step > reaches.len();
            let code = match reaches.len() {
                0 => 0,
                1 if free && self.once_in(4) => 0,
                1 => self.between(1, 6),
                _ if !free => self.between(7, 8),
                MOST_SIGNALS => self.between(1, LAST_CODE as usize),
                _ => self.between(0, LAST_CODE as usize),
            };
            self.add_step(&mut recipe, &mut reaches, code as u8);
        }
        recipe
    }

    fn add_step(&mut self, recipe: &mut Vec<u8>, reaches: &mut Vec<(i64, i64)>, code: u8) {
        let taken = match code {
            0 => Vec::new(),
            7 | 8 => reaches.split_off(reaches.len() - 2),
            _ => reaches.split_off(reaches.len() - 1),
        };
        let mut fields = recipes::Fields { code, rank: 0, set: 0 };
        if (1..=6).contains(&code) {
            fields = self.fields_in_reach(code, &taken);
        }
        reaches.push(recipes::reach(fields, &taken));
        let [low, high] = fields.set.to_le_bytes();
        recipe.extend([fields.code, fields.rank, low, high]);
    }

    /// Fields that keep the reach in its bounds: after some tries the set {0}, which moves nothing.
    fn fields_in_reach(&mut self, code: u8, taken: &[(i64, i64)]) -> recipes::Fields {
        for _ in 0..8 {
            let window = self.one_of(&[
                LARGEST_SET,
                LARGEST_SET,
                0b001_111_100,
                0b000_111_000,
                0b000_110_000,
                0b100_000_001,
            ]);
            let mut set = self.set() & window;
            if code == 6 && set.count_ones() % 2 == 0 {
                set ^= MIDDLE;
            }
            if set == 0 {
                continue;
            }
            let rank = if code == 5 { self.between(1, set.count_ones() as usize) as u8 } else { 0 };
            let fields = recipes::Fields { code, rank, set };
            let (low, high) = recipes::reach(fields, taken);
            if low >= -REACH && high <= REACH {
                return fields;
            }
        }
        recipes::Fields { code, rank: (code == 5) as u8, set: MIDDLE }
    }

    fn damage_recipe(&mut self, recipe: &mut Vec<u8>) {
        let step = STEP_BYTES * self.below(recipe.len() / STEP_BYTES);
        let longest = LONGEST_RECIPE;
        match self.below(14) {
            0 => recipe.truncate(self.below(recipe.len())),
            1 => recipe.extend(self.noise(&[1])),
            2 => {
                let about = [longest - 4, longest - 1, longest, longest + 1, longest + 4, longest + 8];
                *recipe = self.noise(&[&[0, 3, 4, 5, 8], &about[..], &[200]].concat())
            }
            3 => {
                recipe.resize(self.one_of(&[longest, longest + 1, longest + 3, longest + 4, 2 * longest]), 0)
            }
            4 => drop(recipe.drain(step..step + STEP_BYTES)),
            5 => drop(recipe.splice(step..step, [0; STEP_BYTES])),
            6 => drop(recipe.splice(0..0, vec![0; STEP_BYTES * self.between(1, MOST_SIGNALS + 1)])),
            7 => recipe[step] = self.one_of(&[LAST_CODE + 1, LAST_CODE + 2, 128, 255, 16, LAST_CODE]),
            8 => recipe[step] = self.between(0, LAST_CODE as usize) as u8,
            9 => recipe[step + 1] = self.between(0, WIDTH + 1) as u8,
            10 | 11 => recipe[step + 2..step + STEP_BYTES].copy_from_slice(&self.set().to_le_bytes()),
            12 => recipe[step + 2] ^= 1 << self.below(BYTE_BITS),
            _ => recipe[step + 3] ^= 1 << self.below(BYTE_BITS),
        }
    }

    // ---- files

    /// A scan file: its parts may be faulty, and about half the time its bytes are damaged too.
    pub fn file(&mut self) -> Vec<u8> {
        let mut file = files::lay_out(&self.scan(), &self.terms());
        if self.once_in(3) {
            self.damage_file(&mut file);
        }
        file
    }

    fn damage_file(&mut self, file: &mut Vec<u8>) {
        let length = file.len();
        match self.below(12) {
            0 => file.truncate(self.below(length)),
            1 => drop(file.drain(..self.between(1, length))),
            2 => file.extend(self.noise(&[1])),
            3 => drop(file.splice(0..0, vec![7; self.between(1, 4)])),
            4 => *file = self.noise(&[0, 1, TRAILER - 1, TRAILER, TRAILER + 1, TRAILER + 2, 40]),
            5 => *file = self.file_at_its_limit(),
            6 => {
                let shortest = [0, 1, TRAILER - 1, TRAILER, TRAILER + 1];
                let longest = [LONGEST_FILE - 1, LONGEST_FILE, LONGEST_FILE + 1, MEGABYTE];
                give_length(file, self.one_of(&[&shortest[..], &longest].concat()));
            }
            // An odd number of bytes is all that is at fault.
            7 => give_length(file, length + self.between(1, 4)),
            8 => {
                // The term distance follows the number of terms, so the layout may still be sound.
                let fitting = self.below(length / WORD_BYTES);
                let terms = self.one_of(&[fitting, fitting, 32_768, u16::MAX as usize]);
                put(file, TERM_DISTANCE, file_bytes(0, terms));
                put(file, COUNT, terms);
            }
            9 => {
                self.damage_field(file);
                self.damage_field(file);
            }
            _ => self.damage_field(file),
        }
    }

    /// Damages one field of the trailer: by a little, in one bit, to a number near its largest or near what a smaller
    /// type would make of it, or anyhow.
    fn damage_field(&mut self, file: &mut [u8]) {
        let which = self.one_of(&[SAMPLE_DISTANCE, TERM_DISTANCE, COUNT, END_MARK]);
        let (_, bytes) = which;
        let before = files::number(field(file, which));
        let little = self.one_of(&[1, 2, 3, 4]);
        let number = match self.below(6) {
            0 => before + little,
            1 => before.wrapping_sub(little),
            2 => before ^ 1 << self.below(BYTE_BITS * bytes),
            3 => little.wrapping_neg(),
            4 => before + (self.one_of(&[1, 2, u16::MAX as usize]) << 16),
            _ => self.bits() as usize,
        };
        put(file, which, number);
    }

    /// Bytes about the longest file, as samples or as terms.
    fn file_at_its_limit(&mut self) -> Vec<u8> {
        let numbers = MOST_SAMPLES + MOST_TERMS + self.below(3) - 1;
        let terms = self.one_of(&[0, 1, MOST_TERMS, MOST_TERMS + 1, numbers - 1, numbers]);
        let ascending: Vec<u16> = (0..terms as u16).collect();
        files::lay_out(&self.samples(numbers - terms), &ascending)
    }

    /// Bytes over the longest file; one time in two the longest file stands at their start.
    pub fn file_over_its_limit(&mut self) -> Vec<u8> {
        let length = LONGEST_FILE + self.one_of(&[1, 2, 3, LONGEST_FILE, MEGABYTE]);
        let mut file = self.noise(&[length]);
        if self.once_in(2) {
            let terms = forms::least_patterns(|pattern| pattern.count_ones() > REACH as u32);
            let longest = files::lay_out(&self.samples(MOST_SAMPLES), &terms);
            file[..LONGEST_FILE].copy_from_slice(&longest);
        }
        file
    }

    // ---- lists of names

    /// How many lines a list has: mostly few, now and then about the most.
    pub fn lines(&mut self) -> usize {
        match self.below(10) {
            0 => 0,
            1 => self.one_of(&[MOST_NAMES - 1, MOST_NAMES]),
            2 => self.one_of(&[MOST_NAMES + 1, MOST_NAMES + 2, 2 * MOST_NAMES]),
            _ => self.between(1, 20),
        }
    }

    /// A list of names, one time in two with bad ones, its last line feed one time in two left out.
    pub fn list(&mut self) -> Vec<u8> {
        let lines = self.lines();
        let bad_once_in = self.one_of(&[usize::MAX, usize::MAX, 6, 60]);
        let mut list = Vec::new();
        for _ in 0..lines {
            let length = self.line_length(bad_once_in);
            list.extend((0..length).map(|_| self.byte_of_a_line()));
            list.push(LINE_FEED);
        }
        if self.once_in(2) {
            list.pop();
        }
        list
    }

    fn line_length(&mut self, bad_once_in: usize) -> usize {
        if self.once_in(bad_once_in) {
            return self.one_of(&[0, 0, LONGEST_NAME + 1, LONGEST_NAME + 2, 2 * LONGEST_NAME + 1, 2_000]);
        }
        match self.below(12) {
            0 => self.one_of(&[LONGEST_NAME - 1, LONGEST_NAME]),
            _ => self.between(1, 12),
        }
    }

    /// Any byte but a line feed, some more often than others.
    fn byte_of_a_line(&mut self) -> u8 {
        let any = self.bits() as u8;
        let byte = self.one_of(&[any, any, any, 0, b' ', b'\r', b'/', 9, 11, 255]);
        byte + (byte == LINE_FEED) as u8
    }

    /// The name of a file in a folder: any bytes but those that no such name has.
    pub fn file_name(&mut self) -> Vec<u8> {
        let length = self.between(1, 12);
        let letter = |_| loop {
            let byte = self.byte_of_a_line();
            if byte != 0 && byte != b'/' {
                return byte;
            }
        };
        // A folder has the names `.` and `..` already.
        [b"n".to_vec(), (0..length).map(letter).collect()].concat()
    }

    /// A total: any, or so large that it wraps.
    pub fn total(&mut self) -> u64 {
        match self.below(4) {
            0 => u64::MAX - self.below(3) as u64,
            1 => self.bits(),
            _ => self.bits() >> self.below(64),
        }
    }
}
