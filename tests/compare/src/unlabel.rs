//! `unlabel` beside the model: on any node of any table, on labelled trees, which must come apart into
//! the rule and the label that they were made of, on such trees with another tree in one place of the
//! form, and on trees that were labelled earlier, without K before the label.

use crate::calls::{both, memory, Call, EQUAL_NODES};
use crate::Noise;
use compare::random::Random;
use compare::tables::{equal_nodes, node, sow, spoil};
use compare::{parts_of, trees, LABEL_NODES};
use model::{Memory, Parts};

/// The kinds of trees that are counted: in a table with two equal nodes; labelled; labelled earlier, with
/// Kx for some x or with another label; changed in one place of the form, and still labelled; and refused
/// with 11 after that, by the place.
pub const KINDS: [&str; 5 + FORM] = [
    EQUAL_NODES,
    "labelled",
    "earlier with Kx",
    "earlier 11",
    "changed 0",
    "changed 11 at the whole",
    "Δ(Kt)",
    "Kt",
    "its leaf",
    "Δ(Δf)(KK)",
    "Δf",
    "KK",
    "its leaf",
    "its K",
    "the leaf of K",
];

/// The places that make up the form of a labelled tree, Δ(Δ(Kt))(Δ(Δf)(KK)) but for t and f.
const FORM: usize = 10;

/// A tree in a table, labelled as Label does or, `earlier`, without K before the label.
struct Labelled {
    table: Vec<u32>,
    used: usize,
    node: usize,
    earlier: bool,
    /// The nodes of rule and label, if it is of the labelled form.
    parts: Option<[usize; 2]>,
}

impl Labelled {
    /// What `unlabel` must answer.
    fn answer(&self) -> Parts {
        match self.parts {
            Some([rule, label]) => [0, rule, self.used, 0, 0, label],
            None => [11, 0, self.used, 0, 0, 0],
        }
    }
}

/// A labelled tree as Label makes it of two nodes of a sound table.
fn by_label(random: &mut Random, noise: &Noise) -> Labelled {
    let words = 2 * random.within(1, 200);
    let mut table = noise.memory(random, words, 0, 0).table;
    let used = random.within(1, words / 2);
    sow(random, &mut table, used);
    table.resize(words.max(2 * (used + LABEL_NODES)), 7);
    let (rule, label) = (random.below(used), random.below(used));
    let made = lazvorn::label(&mut table, used, rule, label);
    Labelled {
        table,
        used: made.used,
        node: made.node,
        earlier: false,
        parts: Some([rule, label]),
    }
}

/// A tree as Read makes it of its text, where rule and label were read before: their nodes are the parts.
/// An earlier label that is itself Kx, 20 and x, is one with K before x.
fn by_read(random: &mut Random, noise: &Noise, earlier: bool) -> Labelled {
    let (rule, mut label) = (trees::text(random), trees::text(random));
    let mut constant = label.clone();
    if earlier {
        label = constant.strip_prefix(b"20").unwrap_or(b"0").to_vec();
    } else {
        constant.splice(..0, *b"20");
    }
    let text = [b"21", &constant[..], b"21", &rule, b"2010"].concat();
    let before = random.below(20);
    let words = 2 * (before + rule.len() + label.len() + text.len()) + random.below(9);
    let mut memory = noise.memory(random, words, 65_536, 0);
    sow(random, &mut memory.table, before);
    let mut used = before;
    let [rule, label, node] = [&rule, &label, &text].map(|text| {
        let read = lazvorn::read(&mut memory.table, used, &mut memory.stack, text);
        used = read.used;
        read.node
    });
    let of_the_form = constant.starts_with(b"20");
    Labelled {
        table: memory.table,
        used,
        node,
        earlier,
        parts: of_the_form.then_some([rule, label]),
    }
}

/// The branch word of the node with these words: one that is there, or a new one.
fn put(table: &mut Vec<u32>, words: [u32; 2]) -> u32 {
    let there = table.chunks(2).position(|node| node == words);
    let node = there.unwrap_or_else(|| {
        table.extend(words);
        table.len() / 2 - 1
    });
    node as u32 + 1
}

/// The branch word of any node: one that is there, or a new one.
fn any(random: &mut Random, table: &mut Vec<u32>) -> u32 {
    let nodes = table.len() / 2;
    let first = random.within(0, nodes) as u32;
    let second = match first {
        0 => 0,
        _ => random.below(2) * random.within(0, nodes),
    };
    put(table, [first, second as u32])
}

/// The branch word of x where that of Kx is given, if it is one.
fn constant_of(table: &[u32], word: u32) -> Option<u32> {
    let words = |word: u32| [0, 1].map(|i| table[2 * (word as usize - 1) + i]);
    let [first, second] = words(word);
    (second != 0 && words(first) == [0, 0]).then_some(second)
}

/// A table with some nodes in use, to which labelled trees are added.
struct Scattered<'a> {
    random: &'a mut Random,
    table: Vec<u32>,
    /// The place of the form that another tree stands in, if any.
    changed: Option<usize>,
}

impl Scattered<'_> {
    /// The branch word of the node with these words at a place of the form, after another node at times.
    fn part(&mut self, place: usize, words: [u32; 2]) -> u32 {
        if self.random.once_in(3) || self.changed == Some(place) {
            let other = any(self.random, &mut self.table);
            if self.changed == Some(place) {
                return other;
            }
        }
        put(&mut self.table, words)
    }

    /// The branch word of a labelled tree, of the branch words of its rule and its label. An earlier one
    /// has the label where Kt stands.
    fn labelled(&mut self, [rule, label]: [u32; 2], earlier: bool) -> u32 {
        let leaf = self.part(9, [0, 0]);
        let k = self.part(8, [leaf, 0]);
        let leaf = self.part(7, [0, 0]);
        let kk = self.part(6, [leaf, k]);
        let rule_stem = self.part(5, [rule, 0]);
        let second = self.part(4, [rule_stem, kk]);
        let kt = if earlier {
            label
        } else {
            let leaf = self.part(3, [0, 0]);
            self.part(2, [leaf, label])
        };
        let label_stem = self.part(1, [kt, 0]);
        self.part(0, [label_stem, second])
    }
}

/// A tree whose nodes lie in some order, with others between them, and that shares nodes with itself and
/// with these; with another tree in a place of the form, if one is named.
fn scattered(random: &mut Random, earlier: bool, changed: Option<usize>) -> Labelled {
    let used = random.within(1, 6);
    let mut table = vec![0; 2 * used];
    sow(random, &mut table, used);
    let [rule, mut label] = [(); 2].map(|()| random.within(1, used) as u32);
    if earlier && random.once_in(3) {
        let leaf = put(&mut table, [0, 0]);
        label = put(&mut table, [leaf, label]);
    }
    for word in [rule, label] {
        // The stem of either is there before the nodes that it comes after in Label.
        if random.once_in(2) {
            put(&mut table, [word, 0]);
        }
    }
    let mut table = Scattered {
        random,
        table,
        changed,
    };
    let node = table.labelled([rule, label], earlier);
    let table = table.table;
    let label = if earlier {
        constant_of(&table, label)
    } else {
        Some(label)
    };
    Labelled {
        used: table.len() / 2,
        node: node as usize - 1,
        earlier,
        parts: label.map(|label| [rule, label].map(|word| word as usize - 1)),
        table,
    }
}

fn labelled(random: &mut Random, noise: &Noise, earlier: bool) -> Labelled {
    match random.below(6) {
        0 | 1 if !earlier => by_label(random, noise),
        2 => by_read(random, noise, earlier),
        _ => scattered(random, earlier, None),
    }
}

pub fn unlabel(random: &mut Random, noise: &Noise) -> Call {
    match random.below(16) {
        0..=3 => {
            let (memory, used) = memory(random, noise, 5, 5);
            let node = node(random, used);
            unlabel_in(&memory, used, node)
        }
        4 | 5 => {
            let tree = labelled(random, noise, true);
            known(random, noise, tree)
        }
        6..=10 => {
            let tree = labelled(random, noise, false);
            known(random, noise, tree)
        }
        _ => changed(random, noise),
    }
}

/// A tree that must come apart into what it was made of, or be refused.
fn known(random: &mut Random, noise: &Noise, tree: Labelled) -> Call {
    let expected = tree.answer();
    let kind = match (tree.earlier, tree.parts) {
        (false, _) => 1,
        (true, Some(_)) => 2,
        (true, None) => 3,
    };
    let mut memory = noise.memory(random, 0, 5, 5);
    memory.table = tree.table;
    let answer = model::unlabel(&memory.table, tree.used, tree.node);
    let mut call = unlabel_in(&memory, tree.used, tree.node);
    call.kind = Some(kind);
    if answer != expected {
        call.difference = Some(format!("{expected:?} as made, {answer:?} by the model"));
    }
    call
}

/// A labelled tree with another tree in one place of the form; now and then spoilt too.
fn changed(random: &mut Random, noise: &Noise) -> Call {
    let place = random.below(FORM);
    let tree = scattered(random, false, Some(place));
    let mut memory = noise.memory(random, 0, 5, 5);
    memory.table = tree.table;
    let used = spoil(random, &mut memory.table, tree.used);
    let mut call = unlabel_in(&memory, used, tree.node);
    call.kind = match call.refusal {
        0 => Some(4),
        11 => Some(5 + place),
        _ => call.kind,
    };
    call
}

fn unlabel_in(memory: &Memory, used: usize, node: usize) -> Call {
    let mut call = both(
        memory,
        || format!("{node}, {used} nodes in use"),
        |m| parts_of(lazvorn::unlabel(&m.table, used, node)),
        |m| model::unlabel(&m.table, used, node),
    );
    let equal = call.refusal == 2 && equal_nodes(&memory.table, used);
    call.kind = equal.then_some(0);
    call
}
