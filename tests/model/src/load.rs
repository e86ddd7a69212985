//! Loads, of request [10] of document 02. Which digits are allowed is looked up in a table of how many trees
//! so many digits can be, filled from what a leaf, a stem and a fork are.

use std::sync::OnceLock;

/// Refusal, and the digits written.
pub type LoadAnswer = [usize; 2];

/// "A load of n digits, n from 1 to 4,095"
const MOST: usize = 4_095;

/// At most so many trees are wanted anywhere in a load: one at its beginning, and one more for each fork.
const TREES: usize = MOST + 1;

/// Whether so many digits can be exactly so many trees, by both numbers.
type Possible = Vec<Vec<bool>>;

/// How many trees one digit more can be, from how many `fewer` digits can. Where the first is a leaf, the
/// others are one tree fewer; where it is a stem, as many, its branch among them; where it is a fork, one
/// more, its two branches among them. More than `TREES` trees have more digits than any load.
fn one_more(fewer: &[bool]) -> Vec<bool> {
    let is = |trees: usize| fewer.get(trees).is_some_and(|possible| *possible);
    let possible = |trees| is(trees - 1) || is(trees) || is(trees + 1);
    // No trees have no digits.
    let mut more = vec![false];
    more.extend((1..=TREES).map(possible));
    more
}

/// The table for up to as many digits as are left after the first.
fn possible() -> &'static Possible {
    static TABLE: OnceLock<Possible> = OnceLock::new();
    TABLE.get_or_init(|| {
        // Without digits there are no trees.
        let none = (0..=TREES).map(|trees| trees == 0).collect();
        let rows = std::iter::successors(Some(none), |fewer: &Vec<bool>| Some(one_more(fewer)));
        rows.take(MOST).collect()
    })
}

/// How many trees are wanted after a digit, where so many are wanted before it.
fn wanted_after(wanted: usize, digit: u8) -> usize {
    match digit {
        b'0' => wanted - 1,
        b'1' => wanted,
        _ => wanted + 1,
    }
}

/// "A digit is allowed if the text can still become a whole tree of exactly n digits": the digits allowed, "in
/// ascending order", where so many trees are wanted, one at least, and so many digits are left after this one.
pub fn allowed(wanted: usize, left: usize) -> Vec<u8> {
    let becomes = &possible()[left];
    let allowed = |digit: &u8| becomes[wanted_after(wanted, *digit)];
    b"012".iter().copied().filter(allowed).collect()
}

/// "From a 32-bit seed the next state is state times 1,664,525 plus 1,013,904,223, kept to 32 bits."
fn next_state(state: u64) -> u64 {
    (state * 1_664_525 + 1_013_904_223) % (1 << 32)
}

/// The digits of a load, from 1 to 4,095 of them.
fn load(seed: u32, digits: usize) -> Vec<u8> {
    let (mut state, mut wanted) = (u64::from(seed), 1);
    let mut text = Vec::new();
    for left in (0..digits).rev() {
        // "Each draw advances the state, then takes it divided by 65,536, rounded down."
        state = next_state(state);
        let draw = (state / 65_536) as usize;
        // It "takes the remainder by the number of digits allowed there".
        let allowed = allowed(wanted, left);
        let digit = allowed[draw % allowed.len()];
        wanted = wanted_after(wanted, digit);
        text.push(digit);
    }
    text
}

/// "For any n outside, the load is empty, whatever the output. Otherwise an output shorter than n gives 10 and
/// stays as it was."
pub fn generate(seed: u32, digits: usize, out: &mut [u8]) -> LoadAnswer {
    if !(1..=MOST).contains(&digits) {
        return [0, 0];
    }
    match out.get_mut(..digits) {
        Some(place) => {
            place.copy_from_slice(&load(seed, digits));
            [0, digits]
        }
        None => [10, 0],
    }
}
