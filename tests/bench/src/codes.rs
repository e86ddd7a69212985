//! Codes: what the text of a code costs beside a plain function with the same values, and what the code of a node
//! costs beside `same`, which makes the same checks and then one comparison. What is asked for comes in random
//! orders, so that the processor learns less of it over the repetitions.

use crate::measure::{contender, rounds, Contender, Times};
use crate::ROUNDS;
use compare::random::Random;
use lazvorn::{CODES, CODE_DIGITS};
use model::code;
use std::collections::HashSet;
use std::hint::black_box;

/// So many calls are one run of a contender.
const CALLS: usize = 16;

/// So many contenders are held beside the first of them.
const SIDE_BY_SIDE: usize = 3;

/// These numbers in so many random orders, one after another.
fn orders(random: &mut Random, numbers: &[usize], many: usize) -> Vec<usize> {
    let mut all = Vec::new();
    for _ in 0..many {
        let first = all.len();
        all.extend(numbers);
        for k in (first + 1..all.len()).rev() {
            all.swap(k, random.within(first, k));
        }
    }
    assert_eq!(all.len() % CALLS, 0);
    all
}

/// Calls with these numbers in turn, which begin again after the last.
fn calling<'a>(
    name: &'static str,
    numbers: &'a [usize],
    mut call: impl FnMut(usize) -> usize + 'a,
) -> Contender<'a> {
    let mut turns = numbers.chunks_exact(CALLS).cycle();
    contender(name, move || {
        for number in turns.next().expect("numbers to call with") {
            black_box(call(*number));
        }
    })
}

/// The best and the median of nanoseconds a call.
fn ns(times: &Times) -> [f64; 2] {
    [times.best(), times.median()].map(|run| 1e9 * run / CALLS as f64)
}

/// Prints a row for each contender of each group: a call's time, and how long it is beside that of the group's first.
fn print_calls(head: &str, groups: &[String], times: &[Times]) {
    println!("| {head} | By | ns a call, best | median | Times as long | Quartiles |");
    println!("|---|---|---|---|---|---|");
    for (group, times) in groups.iter().zip(times.chunks(SIDE_BY_SIDE)) {
        for (i, by) in times.iter().enumerate() {
            let [best, median] = ns(by);
            let [low, middle, high] = by.speed_of(&times[0]);
            let beside = if i == 0 {
                " | ".to_string()
            } else {
                format!("{middle:.2} | {low:.2} to {high:.2}")
            };
            println!(
                "| {group} | {} | {best:.1} | {median:.1} | {beside} |",
                by.name
            );
        }
    }
}

/// The nanoseconds by which a call of one is longer than a call of another: of the best and of the medians.
fn longer(times: &Times, other: &Times) -> [f64; 2] {
    let (times, other) = (ns(times), ns(other));
    [times[0] - other[0], times[1] - other[1]]
}

// ---- texts of codes

/// The out bytes that are lent: two more than any text has digits.
const OUT: usize = CODE_DIGITS + 2;

/// The codes in so many orders.
const ORDERS: usize = 8;

/// The values of all codes.
type Values = [u32; CODES];

fn values() -> Values {
    let texts = code::texts();
    std::array::from_fn(|code| code::value(&texts[code]) as u32)
}

/// Writes the text of a code to out, and gives how many digits it has.
///
/// # Safety
///
/// The code is below `CODES`, and out is as long as any text.
#[inline(never)]
unsafe fn unchecked(values: &Values, code: usize, out: &mut [u8]) -> usize {
    let mut value = *values.get_unchecked(code);
    let (mut digits, mut power) = (1, 3);
    while power <= value {
        digits += 1;
        power *= 3;
    }
    for place in out.get_unchecked_mut(..digits).iter_mut().rev() {
        *place = b'0' + (value % 3) as u8;
        value /= 3;
    }
    digits
}

/// The same, with the values copied to its own frame first.
///
/// # Safety
///
/// That of `unchecked`.
#[inline(never)]
unsafe fn copied(values: &Values, code: usize, out: &mut [u8]) -> usize {
    let values = *values;
    black_box(&values);
    unchecked(&values, code, out)
}

/// The texts of these codes, which are below `CODES`, by the plain function, by it with the copy, and by the engine.
fn writing<'a>(values: &'a Values, codes: &'a [usize]) -> [Contender<'a>; SIDE_BY_SIDE] {
    let [mut out, mut other_out] = [[0; OUT]; 2];
    // Each code is below `CODES`, and out has more bytes than a text.
    let plain = move |code| unsafe { unchecked(values, code, &mut out) };
    let copying = move |code| unsafe { copied(values, code, &mut other_out) };
    [
        calling("plain Rust", codes, plain),
        calling("plain Rust, values copied", codes, copying),
        by_engine(codes),
    ]
}

/// The same by the engine alone, for any codes.
fn by_engine(codes: &[usize]) -> Contender<'_> {
    let mut out = [0; OUT];
    calling("engine", codes, move |code| {
        lazvorn::code_text(code, &mut out).number
    })
}

/// The engine and both plain functions write the same for each code.
fn check_texts(values: &Values) {
    for code in 0..CODES {
        let mut outs = [[7; OUT]; SIDE_BY_SIDE];
        let [first, second, third] = &mut outs;
        // The code is below `CODES`, and out has more bytes than a text.
        let written = unsafe {
            [
                unchecked(values, code, first),
                copied(values, code, second),
                lazvorn::code_text(code, third).number,
            ]
        };
        assert!(written.iter().all(|digits| *digits == written[2]), "{code}");
        assert!(outs.iter().all(|out| *out == outs[2]), "{code}");
    }
    let none = lazvorn::code_text(CODES, &mut []);
    assert_eq!(none.given(), Ok(None));
}

/// Prints what the copy of the values costs: a code that has no text is told before it, and the text of code 0 is
/// one digit after it.
fn print_copy(times: &[Times]) {
    let [_, _, all, leaf, leaf_copied, leaf_engine, none] = times else {
        unreachable!("two groups, and the engine on a code without a text");
    };
    println!("\n| The copy of the values | Best | Median |");
    println!("|---|---|---|");
    let [best, median] = longer(leaf_engine, none);
    println!("| engine, ns: code 0 less code 1,374 | {best:.1} | {median:.1} |");
    let [best_call, median_call] = ns(all);
    let (best, median) = (best / best_call, median / median_call);
    println!("| the same, as a part of its call over all codes | {best:.2} | {median:.2} |");
    let [best, median] = longer(leaf_copied, leaf);
    println!("| plain Rust, ns: code 0 with the copy less without | {best:.1} | {median:.1} |");
}

fn texts() {
    let values = values();
    check_texts(&values);
    let codes: Vec<usize> = (0..CODES).collect();
    let all = orders(&mut Random::new(3), &codes, ORDERS);
    let [leaf, none] = [0, CODES].map(|code| vec![code; CALLS]);
    let mut contenders: Vec<Contender> = writing(&values, &all).into();
    contenders.extend(writing(&values, &leaf));
    contenders.push(by_engine(&none));
    let times = rounds(contenders, ROUNDS);
    println!("\n### Texts of codes\n");
    let groups = ["all 1,374", "0, one digit", "1,374, no text"];
    print_calls("Codes", &groups.map(str::to_string), &times);
    print_copy(&times);
}

// ---- codes of nodes

/// How many nodes the tables have, all of them in use.
const NODES: [usize; 3] = [16, 1_000, 60_000];

/// Up to so many nodes those after the trees of ten digits are forks of the node before.
const FORKS: usize = 100;

/// Trees of ten digits, which have nine different parts.
const TEN: [&[u8; CODE_DIGITS]; 4] = [b"2102200200", b"2220020010", b"2210200200", b"2200210200"];

/// A table with trees of ten digits and one of very many.
struct Table {
    words: Vec<u32>,
    /// The nodes of the trees of ten digits.
    ten: Vec<usize>,
    /// The last of a row of forks, both of whose branches are the node before.
    long: usize,
}

impl Table {
    /// The trees of ten digits, then the row of forks, and random forks for the rest.
    fn new(random: &mut Random, nodes: usize) -> Self {
        let (mut words, mut used) = (vec![0; 2 * nodes], 0);
        let ten = TEN.map(|text| {
            let read = lazvorn::read(&mut words, used, &mut [0; 3 * CODE_DIGITS], text);
            assert_eq!(read.refusal, 0);
            used = read.used;
            read.node
        });
        let mut there: HashSet<[u32; 2]> = words.chunks(2).map(|n| [n[0], n[1]]).collect();
        for i in used..nodes {
            // The branch word of the node before is this node's number.
            let fork = loop {
                let fork = if i < FORKS {
                    [i as u32; 2]
                } else {
                    [0, 1].map(|_| random.within(1, i) as u32)
                };
                if there.insert(fork) {
                    break fork;
                }
            };
            words[2 * i..2 * i + 2].copy_from_slice(&fork);
        }
        Table {
            words,
            ten: ten.into(),
            long: nodes.min(FORKS) - 1,
        }
    }

    fn used(&self) -> usize {
        self.words.len() / 2
    }

    fn code(&self, node: usize) -> lazvorn::Given {
        lazvorn::code(&self.words, self.used(), node)
    }

    fn same(&self, node: usize) -> lazvorn::Same {
        lazvorn::same(&self.words, self.used(), node, 0)
    }

    /// The trees of ten digits have their codes, the long one has none, and none of them is the leaf.
    fn check(&self) {
        for (node, text) in self.ten.iter().zip(TEN) {
            let place = code::texts().iter().position(|other| other == text);
            assert!(place.is_some());
            assert_eq!(self.code(*node).given(), Ok(place));
        }
        assert_eq!(self.code(self.long).given(), Ok(None));
        for node in self.ten.iter().chain([&self.long]) {
            let same = self.same(*node);
            assert_eq!((same.refusal, same.equal), (0, 0));
        }
    }
}

/// A table, and the nodes to ask for in turn.
struct Asked {
    table: Table,
    ten: Vec<usize>,
    long: Vec<usize>,
}

impl Asked {
    fn new(random: &mut Random, nodes: usize) -> Self {
        let table = Table::new(random, nodes);
        let ten = orders(random, &table.ten, 64 * CALLS);
        let long = vec![table.long; CALLS];
        Asked { table, ten, long }
    }

    /// `same` and `code` on trees of ten digits, and `code` on the long one.
    fn asking(&self) -> [Contender<'_>; SIDE_BY_SIDE] {
        let code = |node| self.table.code(node).number;
        let same = |node| self.table.same(node).equal;
        [
            calling("`same`", &self.ten, same),
            calling("`code`, ten digits", &self.ten, code),
            calling("`code`, long text", &self.long, code),
        ]
    }
}

/// Prints how long the call for the long text is beside that for ten digits, and what a code adds to the checks of
/// the smallest table. In larger ones that is less than what the checks' own time changes by.
fn print_added(times: &[Times]) {
    println!("\n| Nodes | Long text to ten digits, times as long | Quartiles |");
    println!("|---|---|---|");
    for (nodes, times) in NODES.iter().zip(times.chunks(SIDE_BY_SIDE)) {
        let [low, middle, high] = times[2].speed_of(&times[1]);
        println!("| {nodes} | {middle:.2} | {low:.2} to {high:.2} |");
    }
    let [same, ten, long, ..] = times else {
        unreachable!("three contenders for each table");
    };
    println!("\n| At {} nodes, ns | Best | Median |", NODES[0]);
    println!("|---|---|---|");
    for (what, [best, median]) in [
        ("`code`, ten digits, less `same`", longer(ten, same)),
        ("`code`, long text, less `same`", longer(long, same)),
        ("`code`, ten digits less long text", longer(ten, long)),
    ] {
        println!("| {what} | {best:.1} | {median:.1} |");
    }
}

fn nodes() {
    let random = &mut Random::new(4);
    let asked = NODES.map(|nodes| Asked::new(random, nodes));
    asked.iter().for_each(|asked| asked.table.check());
    let contenders = asked.iter().flat_map(Asked::asking).collect();
    let times = rounds(contenders, ROUNDS);
    println!("\n### Codes of nodes\n");
    print_calls("Nodes", &NODES.map(|nodes| nodes.to_string()), &times);
    print_added(&times);
}

/// Measures texts of codes in the same rounds, then codes of nodes, and prints both.
pub fn codes() {
    texts();
    nodes();
}

#[cfg(test)]
mod tests {
    use super::*;

    /// The plain functions and the engine write the same texts, which are the model's.
    #[test]
    fn texts_are_the_same() {
        let values = values();
        check_texts(&values);
        for (code, text) in code::texts().iter().enumerate() {
            let mut out = [0; OUT];
            // The code is below `CODES`, and out has more bytes than a text.
            let digits = unsafe { unchecked(&values, code, &mut out) };
            assert_eq!(out[..digits], text[..]);
        }
    }

    /// The tables have their nodes, and a text is as long as its name says.
    #[test]
    fn tables_have_short_and_long_texts() {
        for nodes in NODES {
            let table = Table::new(&mut Random::new(4), nodes);
            table.check();
            assert_eq!(table.used(), nodes);
            let lengths = code::lengths(&table.words, nodes);
            assert!(table.ten.iter().all(|node| lengths[*node] == CODE_DIGITS));
            let forks = (nodes.min(FORKS) - 9) as u32;
            let doubled = 1_usize.checked_shl(forks).and_then(|n| n.checked_mul(11));
            let digits = doubled.map_or(usize::MAX, |n| n - 1);
            assert_eq!(lengths[table.long], digits);
        }
    }

    /// Each order has all numbers once.
    #[test]
    fn orders_are_orders() {
        let numbers: Vec<usize> = (0..CODES).collect();
        let all = orders(&mut Random::new(3), &numbers, ORDERS);
        let mut orders: Vec<Vec<usize>> = all.chunks(CODES).map(<[_]>::to_vec).collect();
        assert!(orders.windows(2).all(|two| two[0] != two[1]));
        orders.iter_mut().for_each(|order| order.sort());
        assert!(orders.iter().all(|order| *order == numbers));
    }
}
