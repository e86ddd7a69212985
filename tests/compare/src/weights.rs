//! `weight`, `grams`, `add_weights` and `compare_weights` beside the model and beside arithmetic on grams ([9]): pairs of
//! weights, turned into trees and back, compared and added, in tables with just enough room, with more, with too little
//! and with all that is wanted there; and calls with something wrong, or two things, of which the first is refused:
//! tables and nodes, trees that are near weights, grams and sums above the top, and too few free nodes.

use crate::lent::{different, Lent};
use crate::random::Random;
use crate::tables::{at_least, break_node, put_text, repeat_node, sow, text_of, WORDS};
use crate::weight_trees::{above_top, any_grams, Near, NEAR, PAIRS};
use model::weight::{self, MOST};
use model::Answer;

/// The most new nodes that a weight wants.
const NODES: usize = 19;

/// Once in so many times the longest table is lent where there may be more room.
const LONGEST: usize = 40;

/// A call of one of the operations, with the grams or the nodes that it is given.
#[derive(Clone, Copy, Debug)]
pub enum Call {
    Weight(usize),
    Grams(usize),
    Add(usize, usize),
    Compare(usize, usize),
}

/// Which operation is called.
#[derive(Clone, Copy, Debug, PartialEq, Eq)]
pub enum Operation {
    Weight,
    Grams,
    Add,
    Compare,
}

pub const OPERATIONS: [Operation; 4] = [
    Operation::Weight,
    Operation::Grams,
    Operation::Add,
    Operation::Compare,
];

impl Operation {
    /// The refusals that it can meet, in their order.
    pub fn refusals(self) -> &'static [usize] {
        match self {
            Operation::Weight => &[1, 2, 14, 8],
            Operation::Grams | Operation::Compare => &[1, 2, 3, 14],
            Operation::Add => &[1, 2, 3, 14, 8],
        }
    }
}

/// Two numbers of an answer, followed by zeros.
pub fn two([refusal, number]: [usize; 2]) -> Answer {
    [refusal, number, 0, 0, 0]
}

impl Call {
    fn operation(self) -> Operation {
        match self {
            Call::Weight(_) => Operation::Weight,
            Call::Grams(_) => Operation::Grams,
            Call::Add(..) => Operation::Add,
            Call::Compare(..) => Operation::Compare,
        }
    }

    /// What the model answers in a table with so many nodes in use.
    fn modelled(self, table: &mut [u32], used: usize) -> Answer {
        match self {
            Call::Weight(grams) => weight::weight(table, used, grams),
            Call::Grams(node) => two(weight::grams(table, used, node)),
            Call::Add(a, b) => weight::add_weights(table, used, a, b),
            Call::Compare(a, b) => two(weight::compare_weights(table, used, a, b)),
        }
    }

    /// What the model answers in a table whose nodes are all in use, with enough room added, and the table then, again
    /// with all nodes in use.
    fn grown(self, table: &[u32]) -> (Answer, Vec<u32>) {
        let mut grown = table.to_vec();
        grown.resize(table.len() + 2 * NODES, 0);
        let answer = self.modelled(&mut grown, table.len() / 2);
        // The third number is `used` only of a call that may make nodes.
        let end = match self {
            Call::Weight(_) | Call::Add(..) => answer[2],
            Call::Grams(_) | Call::Compare(..) => table.len() / 2,
        };
        grown.truncate(2 * end);
        (answer, grown)
    }
}

/// How often each operation gave each refusal, and 0 for success.
pub type Refusals = [[usize; 15]; 4];

/// Makes a call beside the model. Gives the model's answer, or the difference.
fn beside(
    refusals: &mut Refusals,
    lent: &Lent<u32>,
    used: usize,
    call: Call,
    engine: impl Fn(Call, &mut [u32], usize) -> Answer,
) -> Result<Answer, String> {
    let expected = lent.after(|table| call.modelled(table, used));
    let given = lent.after(|table| engine(call, table, used));
    refusals[call.operation() as usize][expected.0[0]] += 1;
    match different(&given, &expected) {
        None => Ok(expected.0),
        Some(wrong) => {
            let words = &expected.1[..lent.lent().min(400)];
            Err(format!(
                "{call:?}, {used} in use, {} words, {words:?} first after it\n{wrong}",
                lent.lent()
            ))
        }
    }
}

// ---- pairs of weights

/// How many free nodes a call that makes nodes finds: just enough, one fewer, any fewer, or more; or all that it wants
/// is in use already, and there are some or none.
#[derive(Clone, Copy, Debug, PartialEq, Eq)]
enum Room {
    Exact,
    OneLess,
    Fewer,
    More,
    There,
}

const ROOMS: [Room; 5] = [
    Room::Exact,
    Room::OneLess,
    Room::Fewer,
    Room::More,
    Room::There,
];

impl Room {
    /// The table with this room, and how many nodes are in use, where so many are in use in the table before a call
    /// and all are in `grown`, after it.
    fn lend(self, random: &mut Random, before: usize, grown: &[u32]) -> (Vec<u32>, usize) {
        let end = grown.len() / 2;
        let (used, nodes) = match self {
            Room::OneLess if end > before => (before, end - 1),
            Room::Fewer if end > before => (before, random.within(before, end - 1)),
            Room::More => (before, end + random.within(1, 30)),
            Room::There => (end, end + random.below(2) * random.below(9)),
            _ => (before, end),
        };
        let mut table = grown[..2 * used].to_vec();
        let words = 2 * nodes + random.below(2);
        lend_more(random, &mut table, words, grown);
        if self == Room::More && random.once_in(LONGEST) {
            table.resize(WORDS, 1);
        }
        (table, used)
    }
}

/// Words that are not in use, up to so many: any, small ones, or copies of these nodes.
fn lend_more(random: &mut Random, table: &mut Vec<u32>, words: usize, nodes: &[u32]) {
    let kind = random.below(3);
    while table.len() < words {
        match kind {
            0 => table.push(random.number() as u32),
            1 => table.push(random.below(20) as u32),
            _ => {
                let node = random.below(nodes.len() / 2);
                table.extend(&nodes[2 * node..2 * node + 2]);
            }
        }
    }
    table.truncate(words);
}

/// What came of a call that may make nodes: new ones, with room left or none; none, with room or in a full table; 8 in a
/// full table, or after new ones; 14, with room or in a full table.
#[derive(Clone, Copy, Debug, PartialEq, Eq)]
pub enum Met {
    New,
    NewToTheLast,
    Found,
    FoundInFull,
    NoPlace,
    Undone,
    Above,
    AboveInFull,
}

pub const MET: [Met; 8] = [
    Met::New,
    Met::NewToTheLast,
    Met::Found,
    Met::FoundInFull,
    Met::NoPlace,
    Met::Undone,
    Met::Above,
    Met::AboveInFull,
];

impl Met {
    fn of(answer: Answer, used: usize, capacity: usize) -> Self {
        let full = used == capacity;
        match answer {
            [14, ..] if full => Met::AboveInFull,
            [14, ..] => Met::Above,
            [8, ..] if full => Met::NoPlace,
            [8, ..] => Met::Undone,
            [_, _, end, ..] if end == used && full => Met::FoundInFull,
            [_, _, end, ..] if end == used => Met::Found,
            [_, _, end, ..] if end == capacity => Met::NewToTheLast,
            _ => Met::New,
        }
    }
}

/// What a weight is beside another.
pub const ORDERS: [&str; 3] = ["less", "equal", "greater"];

/// How many pairs were of each kind, what came of calls that may make nodes, how often each order was met, how many sums
/// were written and read as the same node, and how often each refusal was met.
#[derive(Default)]
pub struct Pairs {
    pub kinds: [usize; 10],
    pub met: [usize; 8],
    pub orders: [usize; 3],
    pub back: usize,
    pub refusals: Refusals,
}

impl Pairs {
    /// Compares all that is done with one pair of weights. `back` writes a node's tree and reads the text into the same
    /// table; it gives the text and Read's answer. Gives the difference.
    pub fn compare(
        &mut self,
        random: &mut Random,
        engine: impl Fn(Call, &mut [u32], usize) -> Answer,
        back: impl Fn(&[u32], usize, usize) -> (Vec<u8>, Answer),
    ) -> Option<String> {
        let pair = *random.pick(&PAIRS);
        self.kinds[pair as usize] += 1;
        let grams = pair.grams(random);
        let wrong = self.pair(random, grams, engine, back).err();
        wrong.map(|wrong| format!("{grams:?} grams, {wrong}"))
    }

    fn pair(
        &mut self,
        random: &mut Random,
        [a, b]: [usize; 2],
        engine: impl Fn(Call, &mut [u32], usize) -> Answer,
        back: impl Fn(&[u32], usize, usize) -> (Vec<u8>, Answer),
    ) -> Result<(), String> {
        let mut table = sown(random);
        let mut make = |call, grams| self.make(random, &mut table, call, grams, &engine);
        let first = make(Call::Weight(a), a)?;
        let second = make(Call::Weight(b), b)?;
        let sum = make(Call::Add(first, second), a + b)?;
        let order = 1 + usize::from(a > b) - usize::from(a < b);
        self.orders[order] += 1;
        let used = table.len() / 2;
        let mut words = table.clone();
        let length = table.len() + random.below(12);
        lend_more(random, &mut words, length, &table);
        if random.once_in(3 * LONGEST) {
            words.resize(WORDS, 1);
        }
        let lent = Lent::words(words);
        let mut look = |call, number| self.look(&lent, used, call, number, &engine);
        look(Call::Grams(first), a)?;
        look(Call::Grams(second), b)?;
        look(Call::Compare(first, second), order)?;
        if a + b > MOST {
            return Ok(());
        }
        look(Call::Grams(sum), a + b)?;
        self.back += 1;
        let (text, answer) = back(&table, used, sum);
        let same = text == weight::text(a + b) && answer == [0, sum, used, 0, 0];
        let shown = String::from_utf8_lossy(&text);
        same.then_some(()).ok_or(format!(
            "node {sum} of {used} is written as {shown}, which is read as {answer:?}"
        ))
    }

    /// Makes a call that may make nodes, in some room, and holds the tree that it gives to these grams. The table, whose
    /// nodes are all in use, then has the new ones. Gives the node, or 0 where the grams are above the top.
    fn make(
        &mut self,
        random: &mut Random,
        table: &mut Vec<u32>,
        call: Call,
        grams: usize,
        engine: impl Fn(Call, &mut [u32], usize) -> Answer,
    ) -> Result<usize, String> {
        let (large, grown) = call.grown(table);
        let room = *random.pick(&ROOMS);
        let (words, used) = room.lend(random, table.len() / 2, &grown);
        let (capacity, end) = (words.len() / 2, grown.len() / 2);
        let lent = Lent::words(words);
        let answer = beside(&mut self.refusals, &lent, used, call, engine)?;
        self.met[Met::of(answer, used, capacity) as usize] += 1;
        let known = match grams {
            0..=MOST if end > capacity => [8, 0, used, 0, 0],
            0..=MOST => [0, large[1], end, 0, 0],
            _ => [14, 0, used, 0, 0],
        };
        *table = grown;
        let right = grams > MOST || text_of(table, large[1]) == weight::text(grams);
        match right && answer == known {
            true => Ok(large[1]),
            false => Err(format!(
                "{call:?}: {known:?} by the grams, {answer:?} by the model"
            )),
        }
    }

    /// Makes a call that only reads the table, and holds it to this number.
    fn look(
        &mut self,
        lent: &Lent<u32>,
        used: usize,
        call: Call,
        number: usize,
        engine: impl Fn(Call, &mut [u32], usize) -> Answer,
    ) -> Result<(), String> {
        let answer = beside(&mut self.refusals, lent, used, call, engine)?;
        let known = two([0, number]);
        (answer == known).then_some(()).ok_or(format!(
            "{call:?}: {known:?} by the grams, {answer:?} by the model"
        ))
    }
}

/// A table of up to 20 random nodes, all of them in use.
fn sown(random: &mut Random) -> Vec<u32> {
    let used = random.below(21);
    let mut table = vec![0; 2 * used];
    sow(random, &mut table, used);
    table
}

// ---- calls with something wrong

/// What is wrong with a call: a table that is too long; too many nodes in use; a broken node; two equal ones; a node
/// that is not in use; a tree that is not a weight; grams or a sum above the top; too few free nodes.
#[derive(Clone, Copy, Debug, PartialEq, Eq)]
pub enum Wrong {
    Words,
    Used,
    Broken,
    Equal,
    Node,
    Weight,
    Top,
    Room,
}

pub const WRONG: [Wrong; 8] = [
    Wrong::Words,
    Wrong::Used,
    Wrong::Broken,
    Wrong::Equal,
    Wrong::Node,
    Wrong::Weight,
    Wrong::Top,
    Wrong::Room,
];

impl Wrong {
    fn refusal(self) -> usize {
        match self {
            Wrong::Words | Wrong::Used => 1,
            Wrong::Broken | Wrong::Equal => 2,
            Wrong::Node => 3,
            Wrong::Weight | Wrong::Top => 14,
            Wrong::Room => 8,
        }
    }

    /// Whether it can be wrong with a call of this operation.
    fn fits(self, operation: Operation) -> bool {
        match self {
            Wrong::Node | Wrong::Weight => operation != Operation::Weight,
            Wrong::Top => matches!(operation, Operation::Weight | Operation::Add),
            _ => operation.refusals().contains(&self.refusal()),
        }
    }
}

/// Two refusals of one call, in their order.
pub const TWO: [[usize; 2]; 9] = [
    [1, 2],
    [1, 3],
    [1, 14],
    [2, 3],
    [2, 14],
    [2, 8],
    [3, 14],
    [3, 8],
    [14, 8],
];

/// An operation with something wrong about its call, and at times a second thing, which is refused later.
#[derive(Clone, Copy, Debug)]
struct Case {
    operation: Operation,
    wrong: Wrong,
    besides: Option<Wrong>,
}

impl Case {
    /// All cases that there are.
    fn all() -> Vec<Self> {
        let mut all = Vec::new();
        for operation in OPERATIONS {
            for wrong in WRONG {
                for besides in [None].into_iter().chain(WRONG.map(Some)) {
                    all.push(Case {
                        operation,
                        wrong,
                        besides,
                    });
                }
            }
        }
        all.retain(Case::possible);
        all
    }

    fn possible(&self) -> bool {
        let fits = |wrong: Wrong| wrong.fits(self.operation);
        let Some(later) = self.besides else {
            return fits(self.wrong);
        };
        let together = match (self.wrong, later) {
            // Of what is too long or has too many in use nothing is said about free nodes.
            (Wrong::Words | Wrong::Used, Wrong::Room) => false,
            // Two nodes are needed for both, and there is no sum.
            (Wrong::Node, Wrong::Weight) => self.operation != Operation::Grams,
            (Wrong::Node, Wrong::Top) => false,
            _ => TWO.contains(&[self.wrong.refusal(), later.refusal()]),
        };
        together && fits(self.wrong) && fits(later)
    }

    fn has(&self, wrong: Wrong) -> bool {
        self.wrong == wrong || self.besides == Some(wrong)
    }

    fn alone(&self, wrong: Wrong) -> bool {
        self.wrong == wrong && self.besides.is_none()
    }

    /// The place of its two refusals, if it has two.
    fn two(&self) -> Option<usize> {
        let refusals = [self.wrong.refusal(), self.besides?.refusal()];
        TWO.iter().position(|two| *two == refusals)
    }
}

/// Cases of one kind; where a tree is not a weight, with the kind of tree, or any.
struct Kind {
    cases: Vec<Case>,
    near: Option<Near>,
}

/// The kinds of calls, each of which is made as often as another: each operation with one thing wrong; a table that is
/// too long, which takes time, with any, alone or not; each kind of tree that is not a weight, with any; and each two
/// refusals.
fn kinds() -> Vec<Kind> {
    let of = |near, take: &dyn Fn(&Case) -> bool| Kind {
        cases: Case::all().into_iter().filter(take).collect(),
        near,
    };
    let too_long = |case: &Case| case.wrong == Wrong::Words;
    let mut kinds = vec![of(None, &too_long)];
    for operation in OPERATIONS {
        let others = WRONG.iter();
        let others = others.filter(|wrong| ![Wrong::Words, Wrong::Weight].contains(wrong));
        kinds.extend(others.map(|wrong| {
            of(None, &|case| {
                case.operation == operation && case.alone(*wrong)
            })
        }));
    }
    kinds.extend(NEAR.map(|near| of(Some(near), &|case| case.alone(Wrong::Weight))));
    kinds.extend(
        (0..TWO.len()).map(|two| of(None, &|case| case.two() == Some(two) && !too_long(case))),
    );
    kinds.retain(|kind| !kind.cases.is_empty());
    kinds
}

/// What is asked: about so many grams, or about these nodes of a table with so many in use.
struct Asked {
    table: Vec<u32>,
    used: usize,
    grams: usize,
    nodes: [usize; 2],
}

impl Asked {
    /// Two weights in a table whose nodes are all in use. Their sum and the grams are above the top, or not.
    fn new(random: &mut Random, above: bool) -> Self {
        let pair = loop {
            let pair = random.pick(&PAIRS).grams(random);
            if (pair[0] + pair[1] > MOST) == above {
                break pair;
            }
        };
        let mut table = sown(random);
        let nodes = pair.map(|grams| put_text(&mut table, &weight::text(grams)));
        let grams = match above {
            true => above_top(random),
            false => any_grams(random),
        };
        Asked {
            used: table.len() / 2,
            table,
            grams,
            nodes,
        }
    }

    /// A call with this wrong about it, and the nodes with which something is wrong.
    fn wrong(random: &mut Random, case: Case, near: Near) -> (Self, [bool; 2]) {
        let mut asked = Asked::new(random, case.has(Wrong::Top));
        while case.wrong == Wrong::Room && asked.end(case.operation) == asked.used {
            asked = Asked::new(random, false);
        }
        let at = nodes_at(random, case);
        if case.has(Wrong::Weight) {
            let node = near.put(random, &mut asked.table);
            asked.used = asked.table.len() / 2;
            asked.set_nodes(at, node);
        }
        asked.lend(random, case);
        asked.spoil(random, case);
        if case.has(Wrong::Node) {
            let node = at_least(random, asked.used);
            let other = at.map(|at| at != case.has(Wrong::Weight));
            asked.set_nodes(other, node);
        }
        (asked, at)
    }

    fn call(&self, operation: Operation) -> Call {
        let [a, b] = self.nodes;
        match operation {
            Operation::Weight => Call::Weight(self.grams),
            Operation::Grams => Call::Grams(a),
            Operation::Add => Call::Add(a, b),
            Operation::Compare => Call::Compare(a, b),
        }
    }

    /// How many nodes are in use after a call with enough room.
    fn end(&self, operation: Operation) -> usize {
        self.call(operation).grown(&self.table).1.len() / 2
    }

    fn set_nodes(&mut self, at: [bool; 2], node: usize) {
        let nodes = self.nodes.iter_mut().zip(at);
        nodes.for_each(|(to, at)| *to = if at { node } else { *to });
    }

    /// Free nodes: fewer than are wanted, none, or more than enough.
    fn lend(&mut self, random: &mut Random, case: Case) {
        let nodes = match (case.wrong, case.has(Wrong::Room)) {
            (Wrong::Room, _) => random.within(self.used, self.end(case.operation) - 1),
            (_, true) => self.used,
            _ => self.used + NODES + random.below(9),
        };
        let in_use = self.table.clone();
        let words = 2 * nodes + random.below(2);
        lend_more(random, &mut self.table, words, &in_use);
    }

    /// Breaks the table, or has too many nodes in use or too many words.
    fn spoil(&mut self, random: &mut Random, case: Case) {
        if case.has(Wrong::Broken) {
            break_node(random, &mut self.table, self.used);
        }
        if case.has(Wrong::Equal) {
            repeat_node(random, &mut self.table, self.used);
        }
        if case.has(Wrong::Used) {
            self.used = at_least(random, self.table.len() / 2 + 1);
        }
        if case.has(Wrong::Words) {
            self.table.resize(WORDS + 1, 1);
        }
    }
}

/// With which nodes something is wrong: one of them, or both; where both a node and a tree are wrong, the tree's.
fn nodes_at(random: &mut Random, case: Case) -> [bool; 2] {
    let both = !(case.has(Wrong::Node) && case.has(Wrong::Weight));
    match random.below(3) {
        _ if case.operation == Operation::Grams => [true, true],
        0 if both => [true, true],
        1 => [true, false],
        _ => [false, true],
    }
}

/// Which of two nodes was wrong.
pub const PLACES: [&str; 3] = ["the first", "the second", "both"];

/// How many calls had each thing wrong first, each kind of tree that is not a weight and each two refusals, with which
/// of two nodes something was wrong, and how often each refusal was met.
pub struct Calls {
    kinds: Vec<Kind>,
    made: usize,
    pub wrong: [usize; 8],
    pub near: [usize; 11],
    pub two: [usize; 9],
    pub places: [usize; 3],
    pub refusals: Refusals,
}

impl Default for Calls {
    fn default() -> Self {
        Calls {
            kinds: kinds(),
            made: 0,
            wrong: [0; 8],
            near: [0; 11],
            two: [0; 9],
            places: [0; 3],
            refusals: Refusals::default(),
        }
    }
}

impl Calls {
    /// Compares one call with something wrong about it. Gives the difference.
    pub fn compare(
        &mut self,
        random: &mut Random,
        engine: impl Fn(Call, &mut [u32], usize) -> Answer,
    ) -> Option<String> {
        let kind = &self.kinds[self.made % self.kinds.len()];
        self.made += 1;
        let case = *random.pick(&kind.cases);
        let near = kind.near.unwrap_or(*random.pick(&NEAR));
        let (asked, at) = Asked::wrong(random, case, near);
        self.count(case, near, at);
        let call = asked.call(case.operation);
        let lent = Lent::words(asked.table);
        let known = case.wrong.refusal();
        let wrong = match beside(&mut self.refusals, &lent, asked.used, call, engine) {
            Err(wrong) => wrong,
            Ok(answer) if answer[0] == known => return None,
            Ok(answer) => format!("{call:?}: {known} as made, {answer:?} by the model"),
        };
        Some(format!("{case:?}, {wrong}"))
    }

    fn count(&mut self, case: Case, near: Near, at: [bool; 2]) {
        self.wrong[case.wrong as usize] += 1;
        if let Some(two) = case.two() {
            self.two[two] += 1;
        }
        if case.alone(Wrong::Weight) {
            self.near[near as usize] += 1;
        }
        let of_two = matches!(case.operation, Operation::Add | Operation::Compare);
        if of_two && (case.alone(Wrong::Weight) || case.alone(Wrong::Node)) {
            let places = [[true, false], [false, true], [true, true]];
            let place = places.iter().position(|place| *place == at);
            self.places[place.expect("one of them, or both")] += 1;
        }
    }
}

#[cfg(test)]
mod tests;
