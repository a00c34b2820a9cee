//! Recipes by the names of their steps, and sets by their offsets.

use crate::limits::{PATTERNS, REACH, STEP_BYTES};

/// The set of these offsets: a number 0 to 511, in which offset d, from -4 to 4, is worth 2^(d+4).
///
/// It is 512 where an offset is not -4 to 4. No step and no form takes a set over 511, so a recipe
/// with it is refused with 3, and a form with it with 7.
///
/// ```
/// use stackfilter::{compile, offsets, recipe, Refusal, Step};
/// const NEIGHBOURS: u16 = offsets(&[-1, 0, 1]);
/// assert_eq!(NEIGHBOURS, 56);
/// let beyond = recipe(&[Step::Signal, Step::Median(offsets(&[0, 1, 5]))]);
/// assert_eq!(compile(&beyond), Err(Refusal::StepField { step: 1 }));
/// ```
pub const fn offsets(offsets: &[i32]) -> u16 {
    let reach = REACH as i32;
    let mut set = 0;
    let mut i = 0;
    while i < offsets.len() {
        let offset = offsets[i];
        if offset < -reach || reach < offset {
            return PATTERNS as u16;
        }
        set |= 1 << (offset + reach);
        i += 1;
    }
    set
}

/// One step of a recipe. Its set of offsets is best made by [`offsets`].
#[derive(Clone, Copy, Debug, PartialEq, Eq)]
pub enum Step {
    /// Adds the scan to the signals held.
    Signal,
    /// The least of g(x+b) over the set.
    Erode(u16),
    /// The largest of g(x-b) over the set.
    Dilate(u16),
    /// Erode, then dilate.
    Open(u16),
    /// Dilate, then erode.
    Close(u16),
    /// The k-th largest of g(x+b) over the set: first k, then the set.
    Rank(u8, u16),
    /// The middle one of g(x+b) over a set of odd size.
    Median(u16),
    /// The larger of the last two signals.
    Larger,
    /// The smaller of the last two signals.
    Smaller,
}

impl Step {
    /// The bytes of this step: code, rank, and the set with its low byte first.
    pub fn bytes(self) -> [u8; STEP_BYTES] {
        let (code, rank, set) = match self {
            Step::Signal => (0, 0, 0),
            Step::Erode(set) => (1, 0, set),
            Step::Dilate(set) => (2, 0, set),
            Step::Open(set) => (3, 0, set),
            Step::Close(set) => (4, 0, set),
            Step::Rank(k, set) => (5, k, set),
            Step::Median(set) => (6, 0, set),
            Step::Larger => (7, 0, 0),
            Step::Smaller => (8, 0, 0),
        };
        let [low, high] = set.to_le_bytes();
        [code, rank, low, high]
    }
}

/// The bytes of a recipe. It refuses nothing: [`compile`](crate::compile) and
/// [`run_recipe`](crate::run_recipe) judge them.
///
/// ```
/// use stackfilter::{offsets, recipe, Step};
/// assert_eq!(recipe(&[Step::Signal, Step::Median(offsets(&[-1, 0, 1]))]), [0, 0, 0, 0, 6, 0, 56, 0]);
/// ```
pub fn recipe(steps: &[Step]) -> Vec<u8> {
    steps.iter().flat_map(|step| step.bytes()).collect()
}
