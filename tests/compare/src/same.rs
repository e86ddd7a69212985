//! `same` beside the model, which compares trees and not numbers: on any two nodes of any table, and on
//! the nodes of two texts, which are equal exactly if their trees are.

use crate::calls::{both, memory, Call, EQUAL_NODES};
use crate::Noise;
use compare::random::Random;
use compare::tables::{equal_nodes, node, sow};
use compare::{same_of, trees};
use model::Memory;

/// The kinds of calls that are counted.
pub const KINDS: [&str; 5] = [
    EQUAL_NODES,
    "equal nodes of any table",
    "other nodes of any table",
    "nodes of equal texts",
    "nodes of other texts",
];

pub fn same(random: &mut Random, noise: &Noise) -> Call {
    if random.once_in(4) {
        return of_texts(random, noise);
    }
    let (memory, used) = memory(random, noise, 5, 5);
    let a = node(random, used);
    let b = if random.once_in(3) {
        a
    } else {
        node(random, used)
    };
    let mut call = same_in(&memory, used, a, b);
    call.kind = match call.refusal {
        0 if a == b => Some(1),
        0 => Some(2),
        2 => equal_nodes(&memory.table, used).then_some(0),
        _ => None,
    };
    call
}

/// A whole text with a stem put in or taken out, the same text, or any.
fn other_text(random: &mut Random, text: &[u8]) -> Vec<u8> {
    let mut other = text.to_vec();
    let at = random.below(other.len());
    match random.below(4) {
        0 => other.insert(at, b'1'),
        1 if other[at] == b'1' => drop(other.remove(at)),
        2 => {}
        _ => other = trees::text(random),
    }
    other
}

/// The nodes of two texts that are read one after the other into a table with some nodes in use.
fn of_texts(random: &mut Random, noise: &Noise) -> Call {
    let first = trees::text(random);
    let second = other_text(random, &first);
    let before = random.below(20);
    let words = 2 * (before + first.len() + second.len()) + random.below(9);
    let mut memory = noise.memory(random, words, 65_536, 0);
    sow(random, &mut memory.table, before);
    let mut used = before;
    let [a, b] = [&first, &second].map(|text| {
        let read = model::read(&mut memory, used, text);
        used = read[2];
        read[1]
    });
    memory.stack.truncate(5);
    let equal = usize::from(first == second);
    let expected = [0, equal];
    let mut call = same_in(&memory, used, a, b);
    call.kind = Some(4 - equal);
    let answer = model::same(&memory.table, used, a, b);
    if answer != expected {
        call.difference = Some(format!("{expected:?} by texts, {answer:?} by the model"));
    }
    call
}

fn same_in(memory: &Memory, used: usize, a: usize, b: usize) -> Call {
    both(
        memory,
        || format!("{a} and {b}, {used} nodes in use"),
        |m| same_of(lazvorn::same(&m.table, used, a, b)),
        |m| model::same(&m.table, used, a, b),
    )
}
