//! Read, Write, Translate, Apply, Label, `unlabel` and `same` beside the model, on tables that are sound,
//! broken, noise or have two equal nodes, with lengths and numbers at and beyond every border.

use crate::{difference, hexadecimal, same, unlabel, Counts, Noise};
use compare::random::Random;
use compare::tables::{equal_nodes, node, sow, spoil};
use compare::trees;
use compare::{answer_of, counted_of, LABEL_NODES};
use model::Memory;

/// An operation, with the refusals that it can meet, and the kinds of its calls that are counted.
#[derive(Clone, Copy)]
pub struct Operation {
    pub name: &'static str,
    pub refusals: &'static [usize],
    pub kinds: &'static [&'static str],
    call: fn(&mut Random, &Noise) -> Call,
}

/// The kind of every operation's calls that are refused for two equal nodes alone.
pub const EQUAL_NODES: &str = "2 for equal nodes";

/// The kinds of calls that may make nodes.
const MAKING: [&str; 4] = [
    EQUAL_NODES,
    "0 in a full table",
    "8 in a full table",
    "8 after new nodes",
];

pub const OPERATIONS: [Operation; 7] = [
    Operation {
        name: "Read",
        refusals: &[1, 2, 4, 8, 9],
        kinds: &MAKING,
        call: read,
    },
    Operation {
        name: "Write",
        refusals: &[1, 2, 3, 9, 10],
        kinds: &[EQUAL_NODES],
        call: write,
    },
    Operation {
        name: "Translate",
        refusals: &[1, 2, 5, 8, 9],
        kinds: &MAKING,
        call: translate,
    },
    Operation {
        name: "Apply",
        refusals: &[1, 2, 3, 7, 8, 9],
        kinds: &MAKING,
        call: apply,
    },
    Operation {
        name: "Label",
        refusals: &[1, 2, 3, 8],
        kinds: &MAKING,
        call: label,
    },
    Operation {
        name: "Unlabel",
        refusals: &[1, 2, 3, 11],
        kinds: &unlabel::KINDS,
        call: unlabel::unlabel,
    },
    Operation {
        name: "Same",
        refusals: &[1, 2, 3],
        kinds: &same::KINDS,
        call: same::same,
    },
];

/// A call that was made: the model's refusal, its place among the kinds that are counted, if it is of
/// one, and what it was where the engine differs.
pub struct Call {
    pub refusal: usize,
    pub kind: Option<usize>,
    pub difference: Option<String>,
}

/// What came of calls: how often each refusal was met, and 0 for success; how many were of each kind;
/// and how many differ.
pub struct Compared {
    pub counts: Counts,
    pub kinds: Vec<usize>,
    pub differences: usize,
}

/// Makes so many calls.
pub fn compare(random: &mut Random, noise: &Noise, operation: Operation, calls: usize) -> Compared {
    let mut compared = Compared {
        counts: Counts::default(),
        kinds: vec![0; operation.kinds.len()],
        differences: 0,
    };
    for _ in 0..calls {
        let call = (operation.call)(random, noise);
        compared.counts[call.refusal] += 1;
        if let Some(kind) = call.kind {
            compared.kinds[kind] += 1;
        }
        if let Some(difference) = call.difference {
            compared.differences += 1;
            println!("{} {difference}", operation.name);
        }
    }
    compared
}

/// Makes one call on two copies of a memory.
pub fn both<const N: usize>(
    memory: &Memory,
    what: impl FnOnce() -> String,
    engine: impl FnOnce(&mut Memory) -> [usize; N],
    model: impl FnOnce(&mut Memory) -> [usize; N],
) -> Call {
    let (mut ours, mut theirs) = (memory.clone(), memory.clone());
    let answer = engine(&mut ours);
    let modelled = model(&mut theirs);
    let place = difference(&ours, &theirs);
    let differs = answer != modelled || place.is_some();
    Call {
        refusal: modelled[0],
        kind: None,
        difference: differs.then(|| {
            format!(
                "{}, {} words of stack, {} out bytes, table {:?}\nengine: {answer:?}\nmodel:  {modelled:?}\n{}",
                what(),
                memory.stack.len(),
                memory.out.len(),
                memory.table,
                place.unwrap_or_default()
            )
        }),
    }
}

/// A call of an operation that may make nodes, with its kind.
fn making<const N: usize>(
    memory: &Memory,
    used: usize,
    what: impl FnOnce() -> String,
    engine: impl FnOnce(&mut Memory) -> [usize; N],
    model: impl FnOnce(&mut Memory) -> [usize; N],
) -> Call {
    let mut call = both(memory, what, engine, model);
    let full = used == memory.table.len() / 2;
    call.kind = match call.refusal {
        2 => equal_nodes(&memory.table, used).then_some(0),
        0 => full.then_some(1),
        8 => Some(if full { 2 } else { 3 }),
        _ => None,
    };
    call
}

/// Puts the trees of some rules and texts into a table; how many nodes are in use then.
fn plant(random: &mut Random, table: &mut Vec<u32>) -> usize {
    let mut memory = Memory {
        table: std::mem::take(table),
        stack: vec![0; 12_000],
        out: Vec::new(),
    };
    let mut used = 0;
    for _ in 0..random.within(1, 4) {
        let answer = if random.once_in(2) {
            let rule = *random.pick(trees::RULES);
            model::translate(&mut memory, used, rule)
        } else {
            let text = trees::text(random);
            model::read(&mut memory, used, &text)
        };
        used = answer[2];
    }
    *table = memory.table;
    used
}

/// A count of words for a table of a few nodes, or of none, or of as many as may be, or more.
fn words(random: &mut Random) -> usize {
    match random.below(300) {
        0 => 131_072,
        1 => 131_073,
        2..=99 => random.below(30),
        100..=279 => random.below(400),
        _ => random.below(6_000),
    }
}

/// Memory with a table that has some nodes in use: sound, broken at one node, with two equal nodes, or
/// mere noise. Now and then the words after a sound table are nodes that could be in use.
pub fn memory(random: &mut Random, noise: &Noise, stack: usize, out: usize) -> (Memory, usize) {
    let words = words(random);
    let mut memory = noise.memory(random, words, stack, out);
    let capacity = words / 2;
    let used = match random.below(8) {
        0..=3 => plant(random, &mut memory.table),
        4..=6 => {
            let used = random.below(capacity.min(3_000) + 1);
            sow(random, &mut memory.table, used);
            used
        }
        _ => random.below(capacity + 1),
    };
    let used = if random.once_in(8) {
        random.below(used + 1)
    } else {
        used
    };
    let used = spoil(random, &mut memory.table, used);
    (memory, used)
}

/// A table of so many words: the rest is cut off, or noise is added.
fn resize(random: &mut Random, noise: &Noise, table: &mut Vec<u32>, words: usize) {
    let words = words.min(131_073);
    if words <= table.len() {
        return table.truncate(words);
    }
    let more = noise.memory(random, words, 0, 0).table;
    table.extend_from_slice(&more[table.len()..]);
}

/// At times the memory at a border of what a call needs that wants at most `most` new nodes: with just
/// enough nodes, one too few or one more; or with all that it makes in use already, and no free node or
/// one. Else the memory as it is.
fn tight<const N: usize>(
    random: &mut Random,
    noise: &Noise,
    (mut memory, used): (Memory, usize),
    most: usize,
    call: impl FnOnce(&mut Memory) -> [usize; N],
) -> (Memory, usize) {
    if !random.once_in(3) || used > memory.table.len() / 2 {
        return (memory, used);
    }
    let mut large = memory.clone();
    large.table.truncate(2 * used);
    large.table.resize((2 * (used + most)).min(131_072), 7);
    let answer = call(&mut large);
    if answer[0] != 0 {
        return (memory, used);
    }
    let end = answer[2];
    if random.once_in(3) {
        large.table.truncate(2 * end);
        memory.table = large.table;
        let words = 2 * end + random.below(4);
        resize(random, noise, &mut memory.table, words);
        return (memory, end);
    }
    let words = 2 * random.near(end) + random.below(2);
    resize(random, noise, &mut memory.table, words);
    (memory, used)
}

/// A count of words for a stack.
fn stack(random: &mut Random) -> usize {
    match random.below(300) {
        0 => 65_536,
        1 => 65_537,
        2..=99 => random.below(12),
        100..=199 => random.below(120),
        _ => random.below(3_000),
    }
}

fn read(random: &mut Random, noise: &Noise) -> Call {
    let text = match random.below(400) {
        0 => {
            let depth = random.within(20_000, 33_000);
            trees::deep(random, depth)
        }
        1 => [vec![b'1'; random.near(65_535)], vec![b'0']].concat(),
        2..=120 => trees::wrong_text(random),
        _ => trees::text(random),
    };
    let words = stack(random);
    let found = memory(random, noise, words, 0);
    let before = found.1;
    let (memory, used) = tight(random, noise, found, text.len(), |m| {
        model::read(m, before, &text)
    });
    making(
        &memory,
        used,
        || {
            format!(
                "{used} nodes in use, text {}",
                String::from_utf8_lossy(&text)
            )
        },
        |m| answer_of(lazvorn::read(&mut m.table, used, &mut m.stack, &text)),
        |m| model::read(m, used, &text),
    )
}

fn write(random: &mut Random, noise: &Noise) -> Call {
    let words = stack(random);
    let out = match random.below(300) {
        0 => 65_535,
        1 => 65_536,
        2..=99 => random.below(12),
        _ => random.below(2_000),
    };
    let (mut memory, used) = memory(random, noise, words, out);
    let node = node(random, used);
    if random.once_in(3) {
        // Just enough out bytes, one too few or one more.
        let mut large = memory.clone();
        large.stack = vec![0; 65_536];
        large.out = vec![0; 65_535];
        let answer = model::write(&mut large, used, node);
        if answer[0] == 0 {
            memory.out.resize(random.near(answer[4]), b'?');
        }
    }
    let mut call = both(
        &memory,
        || format!("node {node}, {used} nodes in use"),
        |m| {
            answer_of(lazvorn::write(
                &m.table,
                used,
                &mut m.stack,
                node,
                &mut m.out,
            ))
        },
        |m| model::write(m, used, node),
    );
    let equal = call.refusal == 2 && equal_nodes(&memory.table, used);
    call.kind = equal.then_some(0);
    call
}

fn translate(random: &mut Random, noise: &Noise) -> Call {
    let bytes = match random.below(100) {
        0..=3 => trees::large_rule(random),
        4..=24 => trees::wrong_rule(random),
        25..=50 => random.pick(trees::RULES).to_vec(),
        _ => trees::rule(random),
    };
    let words = stack(random);
    let (mut memory, before) = memory(random, noise, words, 0);
    let mut most = 0;
    if random.once_in(2) {
        // Just enough frames for the rule's tree, or one word too few. The largest is the largest that
        // frames suffice for.
        let largest = if random.once_in(50) { 10_922 } else { 1_000 };
        if let Some(text) = model::tree_text(&bytes, largest) {
            most = text.len();
            let words = 6 * most + random.below(3);
            let words = words.saturating_sub(random.below(2) * random.below(2));
            memory.stack = noise.memory(random, 0, words.min(65_537), 0).stack;
        }
    }
    let (memory, used) = tight(random, noise, (memory, before), most, |m| {
        model::translate(m, before, &bytes)
    });
    making(
        &memory,
        used,
        || format!("{used} nodes in use, rule {}", hexadecimal(&bytes)),
        |m| answer_of(lazvorn::translate(&mut m.table, used, &mut m.stack, &bytes)),
        |m| model::translate(m, used, &bytes),
    )
}

fn apply(random: &mut Random, noise: &Noise) -> Call {
    let words = stack(random);
    let (memory, before) = memory(random, noise, words, 0);
    let nodes = [node(random, before), node(random, before)];
    let mut limit = match random.below(80) {
        0 => *random.pick(&[1_000_001, usize::MAX, 1 << 32]),
        1 => 1_000_000,
        2..=40 => random.below(40),
        _ => random.below(3_000),
    };
    let mut steps = None;
    let (memory, used) = tight(random, noise, (memory, before), 2_000, |m| {
        let answer = model::apply(m, before, nodes[0], nodes[1], 3_000);
        steps = Some(answer[3]).filter(|_| answer[0] == 0);
        answer
    });
    if let Some(steps) = steps {
        // Just enough steps, one too few or one more; or as many as may be taken.
        limit = match random.below(3) {
            0 => random.near(steps),
            _ => 3_000,
        };
    }
    apply_in(&memory, used, nodes, limit)
}

/// Apply of one node to another in a memory.
pub fn apply_in(
    memory: &Memory,
    used: usize,
    [function, argument]: [usize; 2],
    limit: usize,
) -> Call {
    making(
        memory,
        used,
        || format!("{function} to {argument}, limit {limit}, {used} nodes in use"),
        |m| {
            counted_of(lazvorn::apply(
                &mut m.table,
                used,
                &mut m.stack,
                function,
                argument,
                limit,
            ))
        },
        |m| model::apply(m, used, function, argument, limit),
    )
}

fn label(random: &mut Random, noise: &Noise) -> Call {
    let (memory, before) = memory(random, noise, 5, 5);
    let (rule, label) = (node(random, before), node(random, before));
    let (memory, used) = tight(random, noise, (memory, before), LABEL_NODES, |m| {
        model::label(m, before, rule, label)
    });
    making(
        &memory,
        used,
        || format!("{rule} with {label}, {used} nodes in use"),
        |m| answer_of(lazvorn::label(&mut m.table, used, rule, label)),
        |m| model::label(m, used, rule, label),
    )
}
