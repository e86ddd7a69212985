//! What the worst costs: a table and a packet whose nodes are chosen so that their searches begin in one
//! place of the index, beside random ones of the same size.

use crate::c::{self, Apply};
use crate::measure::{contender, rounds};
use crate::ROUNDS;
use compare::packets::{Parts, PROGRAM};
use compare::random::Random;
use std::collections::HashSet;
use std::hint::black_box;

/// The slots of the index of the largest table, and of the program's.
const LARGEST: usize = 2 * 65_536;
const PROGRAMS: usize = 2 * 8_192;

/// The nodes of the table.
const NODES: usize = 20_000;

/// The most digits of an argument in a packet with the rule 02 00.
const DIGITS: usize = 16_376;

/// Where the search for a node with these words begins, as in `c/apply.c`.
fn home(a: u32, b: u32, slots: usize) -> usize {
    (u64::from(a) * 2_122_696_415 + u64::from(b) * 735_350_203) as usize & (slots - 1)
}

/// Whether it begins in one of a few slots side by side.
fn meets(words: [u32; 2], slots: usize, few: usize) -> bool {
    let place = home(words[0], words[1], slots);
    (slots / 2..slots / 2 + few).contains(&place)
}

/// The nodes that may be made of a new one and those before it, all by their branch words.
fn pairs(new: u32) -> impl Iterator<Item = [u32; 2]> {
    let with = (1..=new).flat_map(move |other| [[new, other], [other, new]]);
    with.chain([[new, 0]])
}

/// A table of so many nodes: of those that may be made next one that meets the others, if there is one and
/// that is asked for, else any.
fn table(random: &mut Random, nodes: usize, meeting: bool) -> Vec<u32> {
    let (mut words, mut there) = (vec![0, 0], HashSet::from([[0, 0]]));
    let mut waiting: Vec<[u32; 2]> = Vec::new();
    while words.len() < 2 * nodes {
        let last = words.len() / 2;
        if meeting {
            waiting.extend(pairs(last as u32).filter(|words| meets(*words, LARGEST, 8)));
        }
        let node = waiting
            .pop()
            .unwrap_or_else(|| [0, 1].map(|_| random.within(1, last) as u32));
        if there.insert(node) {
            words.extend(node);
        }
    }
    words
}

/// A tree that an argument is made of: its branch word and its text.
type Part = (u32, Vec<u8>);

/// An argument's text: a row of forks, each of a small tree and the next fork. The small trees are stems and
/// forks of small trees, and meet each other where that is asked for.
fn text(random: &mut Random, meeting: bool) -> Vec<u8> {
    // Read takes the last digit first. The nodes 0 and 1 are the leaf and 200 of the rule.
    let mut parts: Vec<Part> = vec![(1, b"0".to_vec()), (2, b"200".to_vec())];
    let (mut row, mut spine, mut nodes) = (b"0".to_vec(), 1, 2);
    let mut there = HashSet::from([[0, 0], [1, 1]]);
    loop {
        let Some((words, text)) = next(random, &parts, &there, meeting) else {
            return row;
        };
        if row.len() + text.len() + 1 > DIGITS {
            return row;
        }
        nodes += 1;
        there.insert(words);
        if text.len() <= 8 {
            parts.push((nodes, text.clone()));
        }
        there.insert([nodes, spine]);
        row = [b"2", &text[..], &row].concat();
        nodes += 1;
        spine = nodes;
    }
}

/// A stem or a fork of parts that is not there: of many tried one that meets others, with the fewest digits,
/// if that is asked for and there is one; else any.
fn next(
    random: &mut Random,
    parts: &[Part],
    there: &HashSet<[u32; 2]>,
    meeting: bool,
) -> Option<([u32; 2], Vec<u8>)> {
    let mut best: Option<(usize, [u32; 2], Vec<u8>)> = None;
    for _ in 0..if meeting { 10_000 } else { 100 } {
        let (first, p) = random.pick(parts);
        let second = parts.get(random.below(parts.len() + 1));
        let words = [*first, second.map_or(0, |(word, _)| *word)];
        if there.contains(&words) {
            continue;
        }
        let apart = usize::from(meeting && !meets(words, PROGRAMS, 320));
        let q = second.map_or(&[][..], |(_, q)| q);
        let digits = 1 + p.len() + q.len() + 1_000 * apart;
        if best.as_ref().is_none_or(|(fewest, ..)| digits < *fewest) {
            let digit = if second.is_some() { b"2" } else { b"1" };
            best = Some((digits, words, [digit, &p[..], q].concat()));
        }
        if !meeting && random.once_in(4) {
            break;
        }
    }
    best.map(|(_, words, text)| (words, text))
}

/// Which places of the index have an entry, where these nodes were entered in order.
fn entered(table: &[u32], slots: usize) -> Vec<bool> {
    let mut full = vec![false; slots + slots / 2];
    for node in table.chunks(2) {
        let at = home(node[0], node[1], slots);
        let empty = at + run(&full, at);
        full[empty] = true;
    }
    full
}

/// How many entries lie side by side from a place on.
fn run(full: &[bool], at: usize) -> usize {
    full[at..].iter().take_while(|full| **full).count()
}

/// A table with the tree of λx. x x too, whose node is the last. On itself, N, it wants KN and ΔN for ever:
/// after it comes of some random nodes those for which these two are searched for longest, if that is
/// asked for.
fn with_endless(random: &mut Random, table: &[u32], longest: bool) -> Vec<u32> {
    let mut best = (0, Vec::new());
    for _ in 0..if longest { 24 } else { 1 } {
        let mut words = table.to_vec();
        for _ in 0..random.below(100) {
            let nodes = words.len() / 2;
            words.extend([0, 1].map(|_| random.within(nodes / 2, nodes) as u32));
        }
        let mut used = words.len() / 2;
        words.resize(LARGEST, 0);
        used = lazvorn::read(&mut words, used, &mut [0; 9], b"212101021010").used;
        words.truncate(2 * used);
        let full = entered(&words, LARGEST);
        let node = used as u32;
        let searched = [[1, node], [node, 0]].map(|[a, b]| run(&full, home(a, b, LARGEST)));
        let searched = 1 + searched[0] + searched[1];
        if searched > best.0 {
            best = (searched, words);
        }
    }
    best.1
}

/// A row: what a call takes on the one that meets and on the random one.
fn row<T>(what: &str, mut both: [T; 2], call: impl Fn(&mut T)) {
    let [meeting, any] = &mut both;
    let contenders = vec![
        contender("meeting", || call(meeting)),
        contender("random", || call(any)),
    ];
    let times = rounds(contenders, ROUNDS / 8);
    let [low, middle, high] = times[0].speed_of(&times[1]);
    println!(
        "| {what} | {:.1} | {:.1} | {middle:.1} | {low:.1} to {high:.1} |",
        1e6 * times[0].median(),
        1e6 * times[1].median()
    );
}

/// A table of the most words, with nodes in use, and a stack.
struct Lent {
    table: Vec<u32>,
    used: usize,
    stack: Vec<u32>,
}

impl Lent {
    fn new(words: &[u32]) -> Self {
        let mut table = words.to_vec();
        table.resize(LARGEST, 0);
        Lent {
            table,
            used: words.len() / 2,
            stack: vec![0; 300],
        }
    }

    /// A node applied to itself.
    fn apply(&mut self, apply: Apply, node: usize, limit: usize) -> [usize; 10] {
        let mut answer = [0; 10];
        // The pointers and lengths are those of slices that nothing else borrows. The C loop trusts the
        // table and the numbers, which are sound.
        unsafe {
            apply(
                self.table.as_mut_ptr(),
                self.table.len(),
                self.used,
                self.stack.as_mut_ptr(),
                self.stack.len(),
                node,
                node,
                limit,
                &mut answer,
            )
        };
        answer
    }
}

fn tables(random: &mut Random) {
    let words = [true, false].map(|meeting| table(random, NODES, meeting));
    let lent = || words.each_ref().map(|words| Lent::new(words));
    row("`same`, 20,000 nodes", lent(), |m| {
        let same = lazvorn::same(&m.table, m.used, 0, 1);
        assert_eq!((same.refusal, same.equal), (0, 0));
    });
    row("Read, one digit, 20,000 nodes", lent(), |m| {
        let read = lazvorn::read(&mut m.table, m.used, &mut m.stack, b"0");
        assert_eq!((read.refusal, read.used), (0, m.used));
    });
    let [meeting, any] = &words;
    let endless = [
        with_endless(random, meeting, true),
        with_endless(random, any, false),
    ];
    let mut contenders = vec![("engine", c::Build::this().apply)];
    contenders.extend(c::loops());
    for (name, apply) in contenders {
        let what = format!("Apply, one step, 20,000 nodes, {name}");
        row(&what, lent(), |m| {
            let answer = m.apply(apply[0], 0, 1);
            assert_eq!([answer[0], answer[3]], [0, 1]);
        });
        let what = format!("Apply, 10,000 steps of an endless rule, 20,000 nodes, {name}");
        row(
            &what,
            endless.each_ref().map(|words| Lent::new(words)),
            |m| {
                assert_eq!(m.apply(apply[0], m.used - 1, 10_000)[0], 7);
            },
        );
    }
}

fn packets(random: &mut Random) {
    let packets = [true, false].map(|meeting| {
        let parts = Parts {
            rule: vec![2, 0],
            arguments: vec![text(random, meeting)],
            limit: None,
            label: None,
        };
        parts.packet()
    });
    let mut used = Vec::new();
    let lent = packets.each_ref().map(|packet| {
        let (mut table, mut stack) = (vec![0; PROGRAM.table], vec![0; PROGRAM.stack]);
        let ran = lazvorn::run(&mut table, &mut stack, &mut [0; 9], packet);
        assert_eq!(ran.refusal, 0);
        used.push(format!("{} bytes, {} nodes", packet.len(), ran.used));
        (table, stack, packet)
    });
    let what = format!("Run, a packet in the program's room ({})", used.join("; "));
    row(&what, lent, |(table, stack, packet)| {
        black_box(lazvorn::run(table, stack, &mut [0; 9], packet));
    });
}

/// Prints what calls take on what meets in one place of the index, and on what does not.
pub fn meeting() {
    println!("\n### Nodes that meet in one place of the index\n");
    println!("| Work | Meeting, µs | Random, µs | Times as long | Quartiles |");
    println!("|---|---|---|---|---|");
    let random = &mut Random::new(5);
    tables(random);
    packets(random);
}

#[cfg(test)]
mod tests {
    use super::*;

    /// Most nodes of such a table begin in a few slots, and of a random one hardly any.
    #[test]
    fn nodes_meet() {
        let random = &mut Random::new(5);
        let [meeting, any] = [true, false].map(|meeting| {
            let words = table(random, 3_000, meeting);
            let nodes = words.chunks(2).filter(|n| meets([n[0], n[1]], LARGEST, 8));
            nodes.count()
        });
        assert!(meeting > 300 && any < 30, "{meeting} {any}");
    }

    /// Many of a packet's nodes do, though each is followed by one that holds the row together.
    #[test]
    fn nodes_of_a_packet_meet() {
        let random = &mut Random::new(5);
        let [meeting, any] = [true, false].map(|meeting| {
            let (mut table, mut stack) = (vec![0; PROGRAM.table], vec![0; PROGRAM.stack]);
            let rule = lazvorn::translate(&mut table, 0, &mut stack, &[2, 0]);
            let text = text(random, meeting);
            let read = lazvorn::read(&mut table, rule.used, &mut stack, &text);
            assert_eq!(read.refusal, 0);
            let nodes = table.chunks(2).take(read.used);
            let nodes = nodes.filter(|n| meets([n[0], n[1]], PROGRAMS, 320));
            nodes.count()
        });
        assert!(meeting > 500 && any < 100, "{meeting} {any}");
    }
}
