//! Loads: what a digit costs at six counts of digits, and the engine beside a plain generator. Each call has
//! another seed, so that the processor does not learn a load's digits over the repetitions.

use crate::measure::{contender, rounds, Contender, Times};
use crate::{plain, ROUNDS};
use std::hint::black_box;

/// The most that a digit may cost at one of the counts, as a ratio of what it costs at another.
const GOAL: f64 = 1.5;

/// The counts of digits.
const DIGITS: [usize; 6] = [100, 250, 500, 1_000, 2_000, 4_095];

/// Two seeds that follow each other differ by this.
const SEEDS_APART: u32 = 0x9e37_79b9;

/// What makes a load: refusal, and the digits written.
type Generate = fn(u32, usize, &mut [u8]) -> [usize; 2];

fn engine(seed: u32, digits: usize, out: &mut [u8]) -> [usize; 2] {
    let load = lazvorn::generate(seed, digits, out);
    [load.refusal, load.digits]
}

/// Both, with their names.
const BOTH: [(&str, Generate); 2] = [("engine", engine), ("plain Rust", plain::generate)];

/// Both make the same loads of so many digits.
fn check(digits: usize) {
    for k in 0..100 {
        let seed = SEEDS_APART.wrapping_mul(k);
        let [engine, plain] = BOTH.map(|(_, generate)| {
            let mut out = vec![0; digits];
            assert_eq!(generate(seed, digits, &mut out), [0, digits]);
            out
        });
        assert!(engine == plain, "seed {seed}, {digits} digits");
    }
}

/// A load of so many digits, each time from another seed.
fn making((name, generate): (&'static str, Generate), digits: usize) -> Contender<'static> {
    let (mut seed, mut out) = (0_u32, vec![0; digits]);
    contender(name, move || {
        seed = seed.wrapping_add(SEEDS_APART);
        assert_eq!(generate(seed, digits, &mut out), [0, digits]);
        black_box(&out);
    })
}

/// A number of a contender's times: the best or the median, in seconds for a call.
type Of = fn(&Times) -> f64;

/// Nanoseconds a digit, at each count.
fn costs(times: &[Times], of: Of) -> Vec<f64> {
    let times = times.iter().zip(DIGITS);
    times
        .map(|(t, digits)| 1e9 * of(t) / digits as f64)
        .collect()
}

/// The cost of a digit where it is largest, as a ratio of where it is smallest.
fn largest_to_smallest(times: &[Times], of: Of) -> f64 {
    let costs = costs(times, of);
    let largest = costs.iter().copied().fold(0.0, f64::max);
    largest / costs.into_iter().fold(f64::INFINITY, f64::min)
}

/// Prints what a digit costs at each count, and how the engine's speed is beside the other's.
fn print_costs(engine: &[Times], other: &[Times]) {
    let name = other[0].name;
    println!(
        "| Digits | Engine, ns a digit, best | median | {name}, best | median | Speed | Quartiles |"
    );
    println!("|---|---|---|---|---|---|---|");
    let columns =
        [engine, other].map(|times| [Times::best, Times::median].map(|of| costs(times, of)));
    for (i, digits) in DIGITS.iter().enumerate() {
        let cells = columns.iter().flatten();
        let cells: Vec<String> = cells.map(|column| format!("{:.2}", column[i])).collect();
        let [low, middle, high] = other[i].speed_of(&engine[i]);
        let cells = cells.join(" | ");
        println!("| {digits} | {cells} | {middle:.2} | {low:.2} to {high:.2} |");
    }
}

/// Measures all of it, in the same rounds, and prints it.
pub fn loads() {
    DIGITS.into_iter().for_each(check);
    let contenders = BOTH.map(|by| DIGITS.map(|digits| making(by, digits)));
    let times = rounds(contenders.into_iter().flatten().collect(), ROUNDS);
    let (engine, other) = times.split_at(DIGITS.len());
    println!("\n### Loads\n");
    print_costs(engine, other);
    println!("\n| ns a digit, largest to smallest | Best | Median | Goal |");
    println!("|---|---|---|---|");
    for (times, goal) in [(engine, Some(GOAL)), (other, None)] {
        let [best, median] = [Times::best, Times::median].map(|of| largest_to_smallest(times, of));
        let goal = goal.map_or("none".to_string(), |goal| {
            let met = if best <= goal { "met" } else { "missed" };
            format!("at most {goal}: {met}")
        });
        println!("| {} | {best:.2} | {median:.2} | {goal} |", times[0].name);
    }
}

#[cfg(test)]
mod tests {
    use super::*;
    use model::load;

    /// The engine, the plain generator and the model make the same loads.
    #[test]
    fn loads_are_the_same() {
        for digits in (1..=20).chain(DIGITS) {
            check(digits);
            for seed in [0, 1, u32::MAX] {
                let [mut out, mut other] = [vec![0; digits], vec![0; digits]];
                let answer = plain::generate(seed, digits, &mut out);
                assert_eq!(answer, load::generate(seed, digits, &mut other));
                assert_eq!(out, other);
            }
        }
    }

    /// The plain generator makes the same checks.
    #[test]
    fn checks_are_the_same() {
        for digits in [0, 1, 2, 9, 4_095, 4_096, usize::MAX] {
            for length in [0, 1, 8, 9, 4_094, 4_095, 4_096] {
                let answers = BOTH.map(|(_, generate)| {
                    let mut out = vec![7; length];
                    (generate(12, digits, &mut out), out)
                });
                assert_eq!(answers[0], answers[1], "{digits} {length}");
            }
        }
    }
}
