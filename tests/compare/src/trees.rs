//! Rules and texts to make packets and tables of: useful ones, random ones, long ones and wrong ones.

use crate::random::Random;

/// Rules that do something with their arguments.
pub const RULES: &[&[u8]] = &[
    &[2, 3, 0],                                        // x
    &[2, 0],                                           // the leaf
    &[2, 1, 3, 0, 3, 0],                               // x x
    &[2, 2, 3, 1],                                     // the first of two
    &[2, 2, 3, 0],                                     // the second of two
    &[2, 2, 1, 3, 1, 3, 0],                            // x y
    &[2, 2, 1, 3, 0, 3, 1],                            // y x
    &[2, 2, 2, 1, 3, 2, 1, 3, 1, 3, 0],                // x (y z)
    &[2, 2, 2, 1, 1, 3, 2, 3, 0, 1, 3, 1, 3, 0],       // x z (y z)
    &[2, 1, 1, 0, 3, 0, 3, 0],                         // the fork of x and x
    &[2, 1, 0, 3, 0],                                  // the stem of x
    &[2, 2, 1, 3, 1, 1, 3, 1, 3, 0],                   // x twice on y
    &[2, 2, 1, 3, 1, 1, 3, 1, 1, 3, 1, 3, 0],          // x three times on y
    &[2, 1, 0, 1, 3, 0, 3, 0],                         // the stem of x x
    &[2, 2, 1, 1, 3, 1, 3, 1, 3, 0],                   // x x y
    &[2, 2, 1, 3, 0, 1, 3, 1, 3, 1],                   // y (x x)
    &[2, 1, 1, 3, 0, 3, 0, 1, 3, 0, 3, 0],             // x x (x x)
    &[2, 2, 2, 1, 1, 3, 0, 3, 2, 3, 1],                // z x y
    &[2, 1, 1, 3, 0, 0, 1, 0, 3, 0],                   // x Δ (Δx)
    &[2, 2, 1, 1, 0, 1, 3, 1, 3, 0, 1, 3, 1, 3, 0],    // the fork of x y and x y
    &[2, 2, 1, 3, 1, 2, 1, 1, 1, 3, 2, 3, 2, 3, 0, 0], // x (λz. x x z Δ)
];

/// Rules that never end on themselves: in the last place of an application, and inside one.
pub const ENDLESS: &[&[u8]] = &[
    &[2, 1, 3, 0, 3, 0],
    &[2, 1, 0, 1, 3, 0, 3, 0],
    &[2, 1, 1, 3, 0, 3, 0, 3, 0],
    &[2, 1, 1, 1, 0, 0, 1, 3, 0, 3, 0, 0],
];

/// Adds a random tree of at most `budget` nodes to a text.
fn grow(random: &mut Random, budget: usize, text: &mut Vec<u8>) {
    match budget {
        0 | 1 => text.push(b'0'),
        2 => text.extend(if random.once_in(3) { &b"0"[..] } else { b"10" }),
        _ => {
            if random.once_in(3) {
                text.push(b'1');
                grow(random, budget - 1, text);
            } else {
                text.push(b'2');
                let first = random.within(1, budget - 2);
                grow(random, first, text);
                grow(random, budget - 1 - first, text);
            }
        }
    }
}

/// A random tree's text of at most `budget` digits.
pub fn tree(random: &mut Random, budget: usize) -> Vec<u8> {
    let mut text = Vec::new();
    grow(random, budget, &mut text);
    text
}

/// A tree that is deep: stems, forks in the first branch or forks in the second.
pub fn deep(random: &mut Random, depth: usize) -> Vec<u8> {
    match random.below(4) {
        0 => [vec![b'1'; depth], vec![b'0']].concat(),
        1 => [vec![b'2'; depth], vec![b'0'; depth + 1]].concat(),
        2 => [b"20".repeat(depth), vec![b'0']].concat(),
        _ => [b"210".repeat(depth), b"10".to_vec()].concat(),
    }
}

/// A rule's tree as a text, for rules of moderate size.
pub fn text_of(rule: &[u8]) -> Vec<u8> {
    model::tree_text(rule, 4_000).unwrap_or_else(|| b"0".to_vec())
}

/// A whole text: a rule's tree, a random one or a deep one.
pub fn text(random: &mut Random) -> Vec<u8> {
    match random.below(20) {
        0..=8 => {
            let rule = random.pick(RULES);
            text_of(rule)
        }
        9..=11 => {
            let budget = random.within(1, 6);
            tree(random, budget)
        }
        12..=15 => {
            let budget = random.within(1, 40);
            tree(random, budget)
        }
        16 | 17 => {
            let budget = random.within(1, 600);
            tree(random, budget)
        }
        18 => {
            let depth = random.below(200);
            deep(random, depth)
        }
        _ => text_of(&rule(random)),
    }
}

/// A text that is not one whole tree.
pub fn wrong_text(random: &mut Random) -> Vec<u8> {
    let mut text = text(random);
    match random.below(6) {
        0 => text.clear(),
        1 => text.push(*random.pick(b"012")),
        2 => {
            text.pop();
        }
        3 => {
            let at = random.below(text.len());
            text[at] = *random.pick(&[0, 1, 2, b'/', b'3', b'a', 255]);
        }
        4 => {
            let at = random.below(text.len());
            text.remove(at);
        }
        _ => {
            let at = random.below(text.len());
            text[at] = *random.pick(b"012");
        }
    }
    text
}

/// Adds a random term of at most `budget` leaves and variables under `around` abstractions.
fn grow_term(
    random: &mut Random,
    around: usize,
    nested: usize,
    budget: usize,
    bytes: &mut Vec<u8>,
) {
    if around < nested && random.once_in(3) {
        bytes.push(2);
        grow_term(random, around + 1, nested, budget, bytes);
    } else if budget < 2 || random.once_in(8) {
        if around == 0 || random.once_in(4) {
            bytes.push(0);
        } else {
            bytes.extend([3, random.below(around) as u8]);
        }
    } else {
        bytes.push(1);
        let function = random.within(1, budget - 1);
        grow_term(random, around, nested, function, bytes);
        grow_term(random, around, nested, budget - function, bytes);
    }
}

/// A random rule.
pub fn rule(random: &mut Random) -> Vec<u8> {
    let nested = match random.below(12) {
        0..=4 => 1,
        5..=8 => 2,
        9 | 10 => 3,
        _ => random.within(4, 16),
    };
    let budget = match random.below(10) {
        0..=6 => random.within(1, 6),
        7 | 8 => random.within(1, 25),
        _ => random.within(1, 120),
    };
    let mut bytes = vec![2];
    grow_term(random, 1, nested, budget, &mut bytes);
    bytes
}

/// A rule near the most bytes or the most abstractions that a rule may have, on either side.
pub fn large_rule(random: &mut Random) -> Vec<u8> {
    match random.below(3) {
        0 => {
            let nested = random.within(14, 18);
            let mut bytes = vec![2; nested];
            bytes.push(0);
            bytes
        }
        1 => {
            // Two bytes an application of the leaf, one for the abstraction and one for the last leaf;
            // one more where the first leaf is a variable instead.
            let leaves = random.within(2_046, 2_048);
            let mut bytes = vec![2];
            bytes.extend([1, 0].repeat(leaves));
            bytes.push(0);
            if random.once_in(2) {
                bytes.splice(2..3, [3, 0]);
            }
            bytes
        }
        _ => {
            let leaves = random.within(100, 1_000);
            let mut bytes = vec![2];
            bytes.extend(vec![1; leaves]);
            bytes.extend([3, 0].repeat(leaves + 1));
            bytes
        }
    }
}

/// Bytes that are not a rule.
pub fn wrong_rule(random: &mut Random) -> Vec<u8> {
    let mut bytes = rule(random);
    match random.below(8) {
        0 => bytes.clear(),
        1 => {
            bytes.pop();
        }
        2 => bytes.push(random.below(4) as u8),
        3 => {
            bytes.remove(0);
        }
        4 => {
            let at = random.below(bytes.len());
            bytes[at] = random.within(4, 255) as u8;
        }
        5 => {
            // A variable of no abstraction.
            bytes = vec![2, 1, 3, 0, 3, random.within(1, 255) as u8];
        }
        6 => {
            let nested = random.within(17, 20);
            bytes = [vec![2; nested], vec![3, 16]].concat();
        }
        _ => {
            let at = random.below(bytes.len());
            bytes[at] ^= 1 << random.below(3);
        }
    }
    bytes
}
