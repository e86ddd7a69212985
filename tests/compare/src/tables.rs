//! Tables with random nodes or trees in use, sound or spoilt, node numbers to ask for in them, and the texts of nodes.

use crate::random::Random;
use model::Memory;
use std::collections::HashSet;

/// The most words of a table.
pub const WORDS: usize = 131_072;

/// A number that is far from every bound.
pub fn odd_number(random: &mut Random) -> usize {
    let odd = [
        65_536,
        131_072,
        1 << 31,
        (1 << 31) - 1,
        1 << 32,
        (1 << 32) + 1,
        1 << 63,
        usize::MAX / 2,
        usize::MAX / 3,
        usize::MAX - 1,
        usize::MAX,
    ];
    *random.pick(&odd)
}

/// This number, a little more, or far more.
pub fn at_least(random: &mut Random, least: usize) -> usize {
    match random.below(2) {
        0 => least.saturating_add(random.below(3)),
        _ => odd_number(random).max(least),
    }
}

/// Whether no used node of a table is broken, and two are equal.
pub fn equal_nodes(table: &[u32], used: usize) -> bool {
    let nodes = table.chunks_exact(2).take(used).enumerate();
    let mut broken = nodes.clone().filter(|(i, node)| {
        let above = node.iter().any(|word| *word as usize > *i);
        above || (node[0] == 0 && node[1] != 0)
    });
    let different: HashSet<&[u32]> = nodes.clone().map(|(_, node)| node).collect();
    broken.next().is_none() && different.len() < used.min(table.len() / 2)
}

/// The first `used` nodes of a table as random nodes that are not broken, no two of them equal.
pub fn sow(random: &mut Random, table: &mut [u32], used: usize) {
    let mut sown = HashSet::new();
    for i in 0..used {
        let branch = |random: &mut Random| {
            if i > 6 && random.once_in(2) {
                random.within(i - 5, i) as u32
            } else {
                random.within(1, i.max(1)) as u32
            }
        };
        // Node 0 is the leaf, and there are enough others for every node after it.
        let node = loop {
            let node = match random.below(if i == 0 { 1 } else { 5 }) {
                0 if i == 0 => [0, 0],
                0 | 1 => [branch(random), 0],
                _ => [branch(random), branch(random)],
            };
            if sown.insert(node) {
                break node;
            }
        };
        table[2 * i..2 * i + 2].copy_from_slice(&node);
    }
}

/// Puts the tree of a whole text into a table whose nodes are all in use, by the model's Read; its node.
pub fn put_text(table: &mut Vec<u32>, text: &[u8]) -> usize {
    let used = table.len() / 2;
    let mut memory = Memory {
        table: std::mem::take(table),
        stack: vec![0; 3 * text.len()],
        out: Vec::new(),
    };
    memory.table.resize(2 * (used + text.len()), 0);
    let [_, node, used, ..] = model::read(&mut memory, used, text);
    *table = memory.table;
    table.truncate(2 * used);
    node
}

/// Adds forks of the last node with itself to a table whose nodes are all in use, so that each has twice as many digits:
/// more than 2^20, up to more than any memory holds.
pub fn double(random: &mut Random, table: &mut Vec<u32>) {
    for _ in 0..random.within(20, 80) {
        let last = table.len() as u32 / 2;
        table.extend([last, last]);
    }
}

/// The text of a node's tree, in a sound table.
pub fn text_of(table: &[u32], node: usize) -> Vec<u8> {
    let (mut text, mut rest) = (Vec::new(), vec![node]);
    while let Some(node) = rest.pop() {
        let branches = table[2 * node..2 * node + 2].iter();
        let branches = branches.filter(|word| **word != 0).rev();
        let before = rest.len();
        rest.extend(branches.map(|word| *word as usize - 1));
        text.push(b"012"[rest.len() - before]);
    }
    text
}

/// Breaks one of the nodes in use, of which there is one at least: it has a second branch alone, or a branch that is
/// the node itself or comes after it.
pub fn break_node(random: &mut Random, table: &mut [u32], used: usize) {
    let i = if random.once_in(3) {
        used - 1
    } else {
        random.below(used)
    };
    let node = &mut table[2 * i..2 * i + 2];
    match random.below(4) {
        0 => node.copy_from_slice(&[0, random.within(1, 4) as u32]),
        1 => node[0] = i as u32 + 1,
        2 => node.copy_from_slice(&[1, i as u32 + 1]),
        _ => node[random.below(2)] = random.number() as u32 | 1 << 31,
    }
}

/// Makes two of the nodes in use equal, of which there are two at least: the last and one before it, or any two.
pub fn repeat_node(random: &mut Random, table: &mut [u32], used: usize) {
    let later = if random.once_in(2) {
        used - 1
    } else {
        random.within(1, used - 1)
    };
    let earlier = random.below(later);
    table.copy_within(2 * earlier..2 * earlier + 2, 2 * later);
}

/// Now and then breaks one of the nodes in use, makes two of them equal, once in twenty times or more,
/// or has too many in use; how many are in use then.
pub fn spoil(random: &mut Random, table: &mut [u32], used: usize) -> usize {
    match random.below(60) {
        0 => return table.len() / 2 + random.within(1, 3),
        1 => return odd_number(random),
        2..=6 if used > 0 => break_node(random, table, used),
        7..=12 if used > 1 => repeat_node(random, table, used),
        _ => {}
    }
    used
}

/// A node number that is most often in use.
pub fn node(random: &mut Random, used: usize) -> usize {
    match random.below(40) {
        0 => used,
        1 => odd_number(random),
        2..=20 if used > 0 => used - 1 - random.below(used.min(6)),
        _ if used > 0 => random.below(used),
        _ => 0,
    }
}
