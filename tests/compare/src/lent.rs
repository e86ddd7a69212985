//! Bytes or words that are lent to a function and to its model: both must answer the same and leave the same in them.

use crate::random::Random;

/// So many after those that are lent must stay.
const BEYOND: usize = 8;

/// What is lent, with those beyond.
pub struct Lent<T>(Vec<T>);

pub type OutBytes = Lent<u8>;

/// An answer, and what is lent after it, with those beyond.
pub type After<T, const N: usize> = ([usize; N], Vec<T>);

impl OutBytes {
    pub fn new(random: &mut Random, bytes: usize) -> Self {
        Lent((0..bytes + BEYOND).map(|_| random.number() as u8).collect())
    }
}

impl Lent<u32> {
    /// These words, with small numbers beyond, which may pass for branches.
    pub fn words(mut words: Vec<u32>) -> Self {
        words.reserve_exact(BEYOND);
        words.extend(0..BEYOND as u32);
        Lent(words)
    }
}

impl<T: Clone> Lent<T> {
    /// How many are lent.
    pub fn lent(&self) -> usize {
        self.0.len() - BEYOND
    }

    /// What a function answers that is lent these, and what it leaves.
    pub fn after<const N: usize>(&self, call: impl FnOnce(&mut [T]) -> [usize; N]) -> After<T, N> {
        let mut after = self.0.clone();
        let answer = call(&mut after[..self.lent()]);
        (answer, after)
    }
}

/// Where two answers and what they leave differ, if they do.
pub fn different<T: PartialEq, const N: usize>(
    given: &After<T, N>,
    expected: &After<T, N>,
) -> Option<String> {
    if given == expected {
        return None;
    }
    let place = (0..given.1.len()).find(|&i| given.1[i] != expected.1[i]);
    let (engine, model) = (given.0, expected.0);
    Some(format!(
        "engine: {engine:?}\nmodel:  {model:?}; what is lent differs at {place:?}"
    ))
}
