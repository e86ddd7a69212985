//! How the time of a step grows with the nodes in the table: an application that makes so many nodes, one
//! in three steps, by the engine and by the C loop with the same index.

use crate::c::{self, Apply, Placed};
use crate::measure::{contender, rounds};
use crate::places::PLACES;
use crate::{slope, ROUNDS};
use std::cell::RefCell;
use std::hint::black_box;

/// How many nodes an application makes.
const NODES: [usize; 6] = [1_000, 5_000, 10_000, 20_000, 40_000, 60_000];

/// The most that a step may cost at the upper half of these beside the lower half, as a ratio of what it
/// does in the C loop.
const GOAL: f64 = 1.2;

/// The words of a table that is written by hand, and its nodes in use.
#[derive(Default)]
struct Words(Vec<u32>);

impl Words {
    /// The branch word of the node with these words, one that is there or a new one.
    fn put(&mut self, first: u32, second: u32) -> u32 {
        let there = self.0.chunks(2).position(|node| node == [first, second]);
        let node = there.unwrap_or_else(|| {
            self.0.extend([first, second]);
            self.0.len() / 2 - 1
        });
        node as u32 + 1
    }

    /// Δ(Δp)(Kg), which on N is g on the outcome of p on N, in two steps beside those of both.
    fn compose(&mut self, p: u32, g: u32) -> u32 {
        let leaf = self.put(0, 0);
        let second = self.put(leaf, g);
        let first = self.put(p, 0);
        self.put(first, second)
    }

    /// The tree that puts K before its argument so many times: each time one step and one node.
    fn times(&mut self, n: usize) -> u32 {
        let leaf = self.put(0, 0);
        let (mut power, mut all) = (self.put(leaf, 0), None);
        for bit in 0..usize::BITS - n.leading_zeros() {
            if n >> bit & 1 == 1 {
                all = Some(all.map_or(power, |before| self.compose(before, power)));
            }
            power = self.compose(power, power);
        }
        all.expect("one time at least")
    }
}

/// One application that makes so many nodes of the leaf.
struct Growing {
    table: Vec<u32>,
    stack: Vec<u32>,
    used: usize,
    function: usize,
}

impl Growing {
    fn new(nodes: usize) -> Self {
        let mut words = Words::default();
        let function = words.times(nodes) as usize - 1;
        let Words(mut table) = words;
        let used = table.len() / 2;
        table.resize(131_072, 0);
        Growing {
            table,
            stack: vec![0; 300],
            used,
            function,
        }
    }

    fn call(&mut self, apply: Apply) -> [usize; 10] {
        let mut answer = [0; 10];
        // The pointers and lengths are those of slices that nothing else borrows. The C loop trusts the
        // table and the numbers, which are sound.
        unsafe {
            apply(
                self.table.as_mut_ptr(),
                self.table.len(),
                self.used,
                self.stack.as_mut_ptr(),
                self.stack.len(),
                self.function,
                0,
                1_000_000,
                &mut answer,
            )
        };
        answer
    }
}

/// Steps and seconds of one call, for each count of nodes.
type Points = Vec<(f64, f64)>;

/// All counts of nodes take turns, and all contenders.
fn points(contenders: &[(&'static str, Placed<Apply>)]) -> Vec<Points> {
    let cells: Vec<RefCell<Growing>> = NODES.map(|n| RefCell::new(Growing::new(n))).into();
    let mut steps = Vec::new();
    let mut calls = Vec::new();
    for (name, places) in contenders {
        for (cell, nodes) in cells.iter().zip(NODES) {
            let answer = cell.borrow_mut().call(places[0]);
            let made = answer[2] - cell.borrow().used;
            assert_eq!((answer[0], made), (0, nodes), "{name}");
            steps.push(answer[3] as f64);
            calls.push(contender(name, move || {
                for apply in places {
                    black_box(cell.borrow_mut().call(*apply));
                }
            }));
        }
    }
    let times = rounds(calls, ROUNDS);
    let seconds = times.iter().map(|t| t.median() / PLACES.len() as f64);
    let points: Points = steps.into_iter().zip(seconds).collect();
    points.chunks(NODES.len()).map(<[_]>::to_vec).collect()
}

/// Prints what a step costs by the nodes that are made, and how that grows.
pub fn growing() {
    println!("\n### A step by the nodes in the table\n");
    let mut contenders = vec![("engine", c::Build::this().apply)];
    contenders.extend(c::loops());
    let points = points(&contenders);
    let names: Vec<&str> = contenders.iter().map(|(name, _)| *name).collect();
    println!("| Nodes made | Steps | {}, ns a step |", names.join(" | "));
    println!("|---|---|{}", "---|".repeat(names.len()));
    for (i, nodes) in NODES.iter().enumerate() {
        let cells = points
            .iter()
            .map(|p| format!("{:.2}", 1e9 * p[i].1 / p[i].0));
        let cells: Vec<String> = cells.collect();
        println!("| {nodes} | {} | {} |", points[0][i].0, cells.join(" | "));
    }
    let middle = NODES.len() / 2;
    let growth = |p: &Points| slope(&p[middle..]) / slope(&p[..middle]);
    println!("\n| | ns a step more, lower half | upper half | growth | engine's beside it |");
    println!("|---|---|---|---|---|");
    for (name, of) in names.iter().zip(&points) {
        let beside = growth(&points[0]) / growth(of);
        println!(
            "| {name} | {:.2} | {:.2} | {:.2} | {beside:.2}{} |",
            1e9 * slope(&of[..middle]),
            1e9 * slope(&of[middle..]),
            growth(of),
            if beside > GOAL {
                ", above the goal"
            } else {
                ""
            }
        );
    }
}

#[cfg(test)]
mod tests {
    use super::*;

    /// n times K on the leaf are n nodes, in n steps and two for each place where two are put together.
    #[test]
    fn so_many_nodes() {
        let apply = c::Build::this().apply[0];
        for (nodes, steps) in [(1, 1), (2, 4), (3, 7), (4, 10), (1_000, 2_998)] {
            let mut growing = Growing::new(nodes);
            let answer = growing.call(apply);
            let made = answer[2] - growing.used;
            assert_eq!((answer[0], made, answer[3]), (0, nodes, steps));
        }
    }
}
