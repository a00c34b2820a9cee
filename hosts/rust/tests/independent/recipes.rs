//! Recipes: judged step by step into a tree, which is asked for a stretch of the endless signal.

use super::limits::{LARGEST_SET, LAST_CODE, LONGEST_RECIPE, MOST_SIGNALS, REACH, STEP_BYTES};
use super::No;
use std::ops::RangeInclusive;

/// What a recipe means. Offsets are kept as signed numbers.
#[derive(Clone, Debug)]
pub enum Plan {
    Scan,
    Least(Box<Plan>, Vec<i64>),
    Largest(Box<Plan>, Vec<i64>),
    Rank(Box<Plan>, usize, Vec<i64>),
    Larger(Box<Plan>, Box<Plan>),
    Smaller(Box<Plan>, Box<Plan>),
}

/// A signal held: its plan and its reach, lowest and highest.
type Held = (Plan, i64, i64);

/// The four fields of a step.
#[derive(Clone, Copy)]
pub struct Fields {
    pub code: u8,
    pub rank: u8,
    pub set: u16,
}

/// The offsets of a set, ascending.
pub fn offsets(set: u16) -> Vec<i64> {
    (-REACH..=REACH).filter(|d| set >> (d + REACH) & 1 == 1).collect()
}

/// Refusals 1 to 5, in their order, or the plan of the one signal left.
pub fn judge(recipe: &[u8]) -> Result<Plan, No> {
    if recipe.is_empty() || recipe.len() % STEP_BYTES != 0 || recipe.len() > LONGEST_RECIPE {
        return Err((1, recipe.len()));
    }
    let mut held: Vec<Held> = Vec::new();
    for (index, bytes) in recipe.chunks(STEP_BYTES).enumerate() {
        let fields = Fields { code: bytes[0], rank: bytes[1], set: bytes[2] as u16 + 256 * bytes[3] as u16 };
        take_step(&mut held, fields).map_err(|number| (number, index))?;
    }
    match held.pop() {
        Some((plan, _, _)) if held.is_empty() => Ok(plan),
        _ => Err((4, recipe.len() / STEP_BYTES)),
    }
}

/// One step on the signals held, or the number of its refusal.
fn take_step(held: &mut Vec<Held>, fields: Fields) -> Result<(), u8> {
    if fields.code > LAST_CODE {
        return Err(2);
    }
    if !allowed(fields) {
        return Err(3);
    }
    let needed = match fields.code {
        0 => 0,
        7 | 8 => 2,
        _ => 1,
    };
    if held.len() < needed || fields.code == 0 && held.len() == MOST_SIGNALS {
        return Err(4);
    }
    let taken = held.split_off(held.len() - needed);
    let (low, high) = reach(fields, &taken.iter().map(|(_, low, high)| (*low, *high)).collect::<Vec<_>>());
    if low < -REACH || high > REACH {
        return Err(5);
    }
    held.push((plan(fields, taken.into_iter().map(|(plan, _, _)| plan).collect()), low, high));
    Ok(())
}

/// Whether the fields are allowed for a code that a step has.
fn allowed(fields: Fields) -> bool {
    let size = offsets(fields.set).len();
    let some_set = (1..=LARGEST_SET).contains(&fields.set);
    match fields.code {
        0 | 7 | 8 => fields.rank == 0 && fields.set == 0,
        5 => some_set && (1..=size).contains(&(fields.rank as usize)),
        6 => some_set && fields.rank == 0 && size % 2 == 1,
        _ => some_set && fields.rank == 0,
    }
}

/// The reach after a step, by the table's last column, from the reaches of the signals it takes.
pub fn reach(fields: Fields, taken: &[(i64, i64)]) -> (i64, i64) {
    let (low, high) = match taken.first() {
        Some(&reach) => reach,
        None => return (0, 0),
    };
    if let [_, (other_low, other_high)] = *taken {
        return (low.min(other_low), high.max(other_high));
    }
    let set = offsets(fields.set);
    let (least, most) = (set[0], set[set.len() - 1]);
    match fields.code {
        2 => (low - most, high - least),
        3 | 4 => (low - (most - least), high + (most - least)),
        _ => (low + least, high + most),
    }
}

/// What a step makes of the signals it takes.
fn plan(fields: Fields, mut taken: Vec<Plan>) -> Plan {
    let set = offsets(fields.set);
    let last = match taken.pop() {
        Some(plan) => Box::new(plan),
        None => return Plan::Scan,
    };
    if let Some(other) = taken.pop().map(Box::new) {
        return if fields.code == 7 { Plan::Larger(other, last) } else { Plan::Smaller(other, last) };
    }
    match fields.code {
        1 => Plan::Least(last, set),
        2 => Plan::Largest(last, set),
        3 => Plan::Largest(Box::new(Plan::Least(last, set.clone())), set),
        4 => Plan::Least(Box::new(Plan::Largest(last, set.clone())), set),
        5 => Plan::Rank(last, fields.rank as usize, set),
        _ => Plan::Rank(last, (set.len() + 1) / 2, set),
    }
}

/// The values of a plan on a stretch of the endless signal.
fn values(plan: &Plan, stretch: RangeInclusive<i64>, signal: &dyn Fn(i64) -> u16) -> Vec<u16> {
    let asked = |inner: &Plan| values(inner, stretch.clone(), signal);
    match plan {
        Plan::Scan => stretch.map(signal).collect(),
        Plan::Least(inner, set) => {
            over(inner, stretch, signal, set, |reached| *reached.iter().min().unwrap())
        }
        Plan::Largest(inner, set) => {
            let mirrored: Vec<i64> = set.iter().rev().map(|b| -b).collect();
            over(inner, stretch, signal, &mirrored, |reached| *reached.iter().max().unwrap())
        }
        Plan::Rank(inner, k, set) => over(inner, stretch, signal, set, |reached| {
            reached.sort_unstable_by(|a, b| b.cmp(a));
            reached[k - 1]
        }),
        Plan::Larger(one, other) => asked(one).into_iter().zip(asked(other)).map(|(a, b)| a.max(b)).collect(),
        Plan::Smaller(one, other) => {
            asked(one).into_iter().zip(asked(other)).map(|(a, b)| a.min(b)).collect()
        }
    }
}

/// At each x of the stretch, what `choose` makes of g(x+d) over the ascending offsets d.
fn over(
    inner: &Plan,
    stretch: RangeInclusive<i64>,
    signal: &dyn Fn(i64) -> u16,
    set: &[i64],
    choose: impl Fn(&mut Vec<u16>) -> u16,
) -> Vec<u16> {
    let (least, most) = (set[0], set[set.len() - 1]);
    let wider = values(inner, stretch.start() + least..=stretch.end() + most, signal);
    let mut reached = Vec::with_capacity(set.len());
    (0..stretch.count())
        .map(|x| {
            reached.clear();
            reached.extend(set.iter().map(|d| wider[x + (d - least) as usize]));
            choose(&mut reached)
        })
        .collect()
}

/// The plan on a scan whose ends are held without end.
pub fn run(plan: &Plan, scan: &[u16]) -> Vec<u16> {
    let last = scan.len() as i64 - 1;
    values(plan, 0..=last, &|x| scan[x.clamp(0, last) as usize])
}

/// The plan's Boolean function on a pattern: its value at 0 of the signal that is 1 at the
/// pattern's offsets. It never asks beyond them.
pub fn holds(plan: &Plan, pattern: u16) -> bool {
    let signal = |x: i64| {
        assert!((-REACH..=REACH).contains(&x), "a sound recipe reads only its offsets, not {x}");
        pattern >> (x + REACH) & 1
    };
    values(plan, 0..=0, &signal) == [1]
}
