//! A plain model of document 01's operations as the requests of document 02 that hold leave them,
//! written from the papers to be read beside them. It says what each call answers and what it leaves
//! in every word and byte it was lent. Trees are shared pointers, terms and applications are gone
//! through by recursion, and nothing is fast.
//!
//! Whoever calls it gives the thread a large stack: recursion goes as deep as trees and frames do.

use std::collections::{HashMap, HashSet};
use std::rc::Rc;

pub mod code;
pub mod load;
pub mod rule_text;
pub mod week;
pub mod weight;

/// All that a call may be lent.
#[derive(Clone, Debug, PartialEq, Eq)]
pub struct Memory {
    pub table: Vec<u32>,
    pub stack: Vec<u32>,
    pub out: Vec<u8>,
}

/// Refusal, node, used, steps and digits.
pub type Answer = [usize; 5];

/// The same of Apply and Run, and the uses of leaf, stem, drop, spread and triage ([5]).
pub type Counted = [usize; 10];

/// Of a labelled tree ([1]): refusal, the rule's node, used, 0, 0, the label's node.
pub type Parts = [usize; 6];

/// Of two nodes ([8]): refusal, 1 if their trees are equal.
pub type Same = [usize; 2];

/// Of a run that may stop ([14]): Run's refusal, and for a stop while applying the argument's place from 1,
/// the steps of the whole run and the rule wanted, from 1 for leaf to 5 for triage; else 0 for these.
pub type Stopped = [usize; 4];

/// Of what may be none ([6], [12]): refusal, 1 or 0 whether there is one, and its number.
pub type Given = [usize; 3];

/// How often each rule was used.
type Uses = [usize; 5];

fn counted(answer: Answer, uses: Uses) -> Counted {
    std::array::from_fn(|i| if i < 5 { answer[i] } else { uses[i - 5] })
}

/// A refusal's number.
type Refusal = usize;

/// A number, none, or a refusal, as an answer's numbers.
fn given(number: Result<Option<usize>, Refusal>) -> Given {
    match number {
        Ok(Some(number)) => [0, 1, number],
        Ok(None) => [0, 0, 0],
        Err(refusal) => [refusal, 0, 0],
    }
}

impl Memory {
    fn frames(&self) -> usize {
        self.stack.len() / 3
    }

    /// The checks for 1 and 2 that the operations share.
    fn check(&self, used: usize) -> Result<(), Refusal> {
        if self.stack.len() > 65_536 {
            return Err(1);
        }
        check_table(&self.table, used)
    }

    /// What 7 to 10 do to the nodes from `used` up to `end`, and to the stack.
    fn undo(&mut self, used: usize, end: usize) {
        self.table[2 * used..2 * end].fill(0);
        self.stack.fill(0);
    }
}

/// The same checks where no stack is lent. "Refusal 2 now also covers two equal used nodes." ([8])
fn check_table(table: &[u32], used: usize) -> Result<(), Refusal> {
    if table.len() > 131_072 || used > table.len() / 2 {
        return Err(1);
    }
    let mut nodes = HashSet::with_capacity(used);
    for i in 0..used {
        let (a, b) = (table[2 * i], table[2 * i + 1]);
        let broken = (a == 0 && b != 0) || a as usize > i || b as usize > i;
        if broken || !nodes.insert((a, b)) {
            return Err(2);
        }
    }
    Ok(())
}

/// A table in which each tree is made once ([8]).
struct Nodes<'a> {
    table: &'a mut [u32],
    used: usize,
    /// The used nodes by their words.
    of: HashMap<(usize, usize), usize>,
}

impl<'a> Nodes<'a> {
    /// A table that passed the checks.
    fn new(table: &'a mut [u32], used: usize) -> Self {
        let words = |i: usize| (table[2 * i] as usize, table[2 * i + 1] as usize);
        let of = (0..used).map(|i| (words(i), i)).collect();
        Nodes { table, used, of }
    }

    /// "When a node about to be made has both words equal to those of a used node, that node's number is
    /// taken instead." Else it is the next node, or 8 where the table is full.
    fn make(&mut self, first: usize, second: usize) -> Result<usize, Refusal> {
        if let Some(node) = self.of.get(&(first, second)) {
            return Ok(*node);
        }
        let node = self.used;
        if node == self.table.len() / 2 {
            return Err(8);
        }
        self.table[2 * node] = first as u32;
        self.table[2 * node + 1] = second as u32;
        self.of.insert((first, second), node);
        self.used += 1;
        Ok(node)
    }
}

fn refused(number: Refusal, used: usize) -> Answer {
    [number, 0, used, 0, 0]
}

/// "all 0 on refusal" ([5])
fn refused_uses(number: Refusal, used: usize) -> Counted {
    counted(refused(number, used), [0; 5])
}

// ---- trees and their text

/// A tree, with its node's number where it stands in a table.
pub struct Tree {
    node: usize,
    shape: Shape,
}

enum Shape {
    Leaf,
    Stem(Rc<Tree>),
    Fork(Rc<Tree>, Rc<Tree>),
}

fn tree(node: usize, shape: Shape) -> Rc<Tree> {
    Rc::new(Tree { node, shape })
}

/// The trees of all used nodes of a table that passed the checks.
fn trees(table: &[u32], used: usize) -> Vec<Rc<Tree>> {
    let mut found: Vec<Rc<Tree>> = Vec::with_capacity(used);
    for i in 0..used {
        let branch = |word: u32| found[word as usize - 1].clone();
        let shape = match (table[2 * i], table[2 * i + 1]) {
            (0, _) => Shape::Leaf,
            (p, 0) => Shape::Stem(branch(p)),
            (p, q) => Shape::Fork(branch(p), branch(q)),
        };
        found.push(tree(i, shape));
    }
    found
}

/// The trees of nodes, after 1, 2 and 3 for any of them.
fn node_trees<const N: usize>(
    table: &[u32],
    used: usize,
    nodes: [usize; N],
) -> Result<[Rc<Tree>; N], Refusal> {
    check_table(table, used)?;
    if nodes.iter().any(|node| *node >= used) {
        return Err(3);
    }
    let trees = trees(table, used);
    Ok(nodes.map(|node| trees[node].clone()))
}

/// A whole text, from the digit at `at` on: its tree and the place after it.
fn parse(text: &[u8], at: usize) -> Option<(Rc<Tree>, usize)> {
    match text.get(at)? {
        b'0' => Some((tree(0, Shape::Leaf), at + 1)),
        b'1' => {
            let (p, end) = parse(text, at + 1)?;
            Some((tree(0, Shape::Stem(p)), end))
        }
        b'2' => {
            let (p, middle) = parse(text, at + 1)?;
            let (q, end) = parse(text, middle)?;
            Some((tree(0, Shape::Fork(p, q)), end))
        }
        _ => None,
    }
}

/// The tree of a text that Read takes.
fn readable(text: &[u8]) -> Option<Rc<Tree>> {
    if text.len() > 65_535 {
        return None;
    }
    let (tree, end) = parse(text, 0)?;
    (end == text.len()).then_some(tree)
}

/// A text whose end may be missing, from the digit at `at` on: how many trees it lacks, one where
/// there is no digit, and the place after what is there.
fn lacking(text: &[u8], at: usize) -> Option<(usize, usize)> {
    let Some(digit) = text.get(at) else {
        return Some((1, at));
    };
    match digit {
        b'0' => Some((0, at + 1)),
        b'1' => lacking(text, at + 1),
        b'2' => {
            let (first, middle) = lacking(text, at + 1)?;
            let (second, end) = lacking(text, middle)?;
            Some((first + second, end))
        }
        _ => None,
    }
}

/// How many trees are missing at the end of a text, if it is the beginning of a whole one.
pub fn missing(text: &[u8]) -> Option<usize> {
    let (trees, end) = lacking(text, 0)?;
    (end == text.len()).then_some(trees)
}

/// The most trees pending while a tree's digits are taken last to first, where `before` are pending
/// already: its second branch comes first and is pending while the first branch comes.
fn pending(tree: &Tree, before: usize) -> usize {
    match &tree.shape {
        Shape::Leaf => before + 1,
        Shape::Stem(p) => pending(p, before),
        Shape::Fork(p, q) => pending(q, before).max(pending(p, before + 1)),
    }
}

/// Lays a tree, its digits last to first: the second branch, the first, then the node itself.
fn lay(nodes: &mut Nodes, tree: &Tree) -> Result<usize, Refusal> {
    match &tree.shape {
        Shape::Leaf => nodes.make(0, 0),
        Shape::Stem(p) => {
            let first = lay(nodes, p)? + 1;
            nodes.make(first, 0)
        }
        Shape::Fork(p, q) => {
            let second = lay(nodes, q)? + 1;
            let first = lay(nodes, p)? + 1;
            nodes.make(first, second)
        }
    }
}

/// Makes nodes: the answer is the node that `make` gives, and on 8 the words of those made are 0.
fn made(
    table: &mut [u32],
    used: usize,
    make: impl FnOnce(&mut Nodes) -> Result<usize, Refusal>,
) -> Answer {
    let mut nodes = Nodes::new(table, used);
    match make(&mut nodes) {
        Ok(node) => [0, node, nodes.used, 0, 0],
        Err(number) => {
            let end = nodes.used;
            table[2 * used..2 * end].fill(0);
            refused(number, used)
        }
    }
}

/// Lays a tree as Read does, where the frames suffice.
fn laid(memory: &mut Memory, used: usize, tree: &Tree) -> Answer {
    memory.stack.fill(0);
    made(&mut memory.table, used, |nodes| lay(nodes, tree))
}

pub fn read(memory: &mut Memory, used: usize, text: &[u8]) -> Answer {
    if let Err(number) = memory.check(used) {
        return refused(number, used);
    }
    let Some(tree) = readable(text) else {
        return refused(4, used);
    };
    if memory.frames() < pending(&tree, 0) {
        memory.stack.fill(0);
        return refused(9, used);
    }
    laid(memory, used, &tree)
}

/// A tree's digits into `text`, while `held` forks wait for their second branch.
fn digits(
    tree: &Tree,
    held: usize,
    frames: usize,
    room: usize,
    text: &mut Vec<u8>,
) -> Result<(), Refusal> {
    if text.len() == room {
        return Err(10);
    }
    match &tree.shape {
        Shape::Leaf => {
            text.push(b'0');
            Ok(())
        }
        Shape::Stem(p) => {
            text.push(b'1');
            digits(p, held, frames, room, text)
        }
        Shape::Fork(p, q) => {
            if held == frames {
                return Err(9);
            }
            text.push(b'2');
            digits(p, held + 1, frames, room, text)?;
            digits(q, held, frames, room, text)
        }
    }
}

/// A tree's text, if it has at most so many digits. No more are written, however many there are.
fn text_within(tree: &Tree, most: usize) -> Option<Vec<u8>> {
    let mut text = Vec::new();
    digits(tree, 0, usize::MAX, most, &mut text).ok()?;
    Some(text)
}

pub fn write(memory: &mut Memory, used: usize, node: usize) -> Answer {
    if memory.out.len() > 65_535 {
        return refused(1, used);
    }
    if let Err(number) = memory.check(used) {
        return refused(number, used);
    }
    if node >= used {
        return refused(3, used);
    }
    let tree = trees(&memory.table, used)[node].clone();
    let mut text = Vec::new();
    let written = digits(&tree, 0, memory.frames(), memory.out.len(), &mut text);
    memory.stack.fill(0);
    match written {
        Err(number) => refused(number, used),
        Ok(()) => {
            memory.out[..text.len()].copy_from_slice(&text);
            [0, 0, used, 0, text.len()]
        }
    }
}

// ---- rules

enum Term {
    Leaf,
    Apply(Rc<Term>, Rc<Term>),
    Abstract(Rc<Term>),
    Variable(usize),
}

/// The term at `at` under `around` abstractions, and the place after it.
fn term(bytes: &[u8], at: usize, around: usize) -> Option<(Term, usize)> {
    match bytes.get(at)? {
        0 => Some((Term::Leaf, at + 1)),
        1 => {
            let (function, middle) = term(bytes, at + 1, around)?;
            let (argument, end) = term(bytes, middle, around)?;
            Some((Term::Apply(Rc::new(function), Rc::new(argument)), end))
        }
        2 => {
            if around == 16 {
                return None;
            }
            let (body, end) = term(bytes, at + 1, around + 1)?;
            Some((Term::Abstract(Rc::new(body)), end))
        }
        3 => {
            let between = usize::from(*bytes.get(at + 1)?);
            (between < around).then_some((Term::Variable(between), at + 2))
        }
        _ => None,
    }
}

fn rule(bytes: &[u8]) -> Option<Term> {
    if bytes.len() > 4_096 || bytes.first() != Some(&2) {
        return None;
    }
    let (rule, end) = term(bytes, 0, 0)?;
    (end == bytes.len()).then_some(rule)
}

/// The leaves and variables of a term once its abstractions are translated, and how many of them are
/// the variable of each abstraction around it, the nearest first: "a term of k leaves and variables,
/// m of them x, becomes one of 5k − 2 + 2m".
fn size(term: &Term) -> (u128, Vec<u128>) {
    match term {
        Term::Leaf => (1, Vec::new()),
        Term::Variable(i) => {
            let mut of = vec![0; *i];
            of.push(1);
            (1, of)
        }
        Term::Apply(f, a) => {
            let ((k, mut of), (l, more)) = (size(f), size(a));
            if of.len() < more.len() {
                of.resize(more.len(), 0);
            }
            of.iter_mut().zip(more).for_each(|(m, n)| *m += n);
            (k + l, of)
        }
        Term::Abstract(body) => {
            let (k, mut of) = size(body);
            let m = if of.is_empty() { 0 } else { of.remove(0) };
            (5 * k - 2 + 2 * m, of)
        }
    }
}

fn leaf() -> Rc<Term> {
    Rc::new(Term::Leaf)
}

fn apply_term(f: Rc<Term>, a: Rc<Term>) -> Rc<Term> {
    Rc::new(Term::Apply(f, a))
}

/// Ka.
fn constant(a: Rc<Term>) -> Rc<Term> {
    apply_term(apply_term(leaf(), leaf()), a)
}

/// Δ(Δa)b.
fn spread_of(a: Rc<Term>, b: Rc<Term>) -> Rc<Term> {
    apply_term(apply_term(leaf(), apply_term(leaf(), a)), b)
}

/// The term with each abstraction translated, inner ones first.
fn translated(term: &Term) -> Rc<Term> {
    match term {
        Term::Leaf => leaf(),
        Term::Variable(i) => Rc::new(Term::Variable(*i)),
        Term::Apply(f, a) => apply_term(translated(f), translated(a)),
        Term::Abstract(body) => abstracted(&translated(body)),
    }
}

/// The nearest abstraction's variable abstracted from a term without abstractions.
fn abstracted(term: &Term) -> Rc<Term> {
    match term {
        Term::Variable(0) => spread_of(leaf(), apply_term(leaf(), leaf())),
        Term::Variable(i) => constant(Rc::new(Term::Variable(i - 1))),
        Term::Leaf => constant(leaf()),
        Term::Apply(u, v) => spread_of(abstracted(v), abstracted(u)),
        Term::Abstract(_) => unreachable!("inner abstractions are translated first"),
    }
}

/// The tree of a closed term in which no application needs more than the first two rules.
fn tree_of(term: &Term) -> Rc<Tree> {
    match term {
        Term::Leaf => tree(0, Shape::Leaf),
        Term::Apply(f, a) => {
            let a = tree_of(a);
            match &tree_of(f).shape {
                Shape::Leaf => tree(0, Shape::Stem(a)),
                Shape::Stem(p) => tree(0, Shape::Fork(p.clone(), a)),
                Shape::Fork(..) => unreachable!("nothing is left to evaluate"),
            }
        }
        _ => unreachable!("a rule is closed"),
    }
}

/// The text of a rule's tree, or none where the bytes are no rule or the tree has more than `most`
/// nodes.
pub fn tree_text(bytes: &[u8], most: usize) -> Option<Vec<u8>> {
    let rule = rule(bytes)?;
    if size(&rule).0 > most as u128 {
        return None;
    }
    let mut text = Vec::new();
    digits(
        &tree_of(&translated(&rule)),
        0,
        usize::MAX,
        usize::MAX,
        &mut text,
    )
    .ok()?;
    Some(text)
}

pub fn translate(memory: &mut Memory, used: usize, bytes: &[u8]) -> Answer {
    if let Err(number) = memory.check(used) {
        return refused(number, used);
    }
    let Some(rule) = rule(bytes) else {
        return refused(5, used);
    };
    // "Translate's frames go by the tree's size unshared" ([8])
    let (n, _) = size(&rule);
    if (memory.frames() as u128) < 2 * n {
        memory.stack.fill(0);
        return refused(9, used);
    }
    laid(memory, used, &tree_of(&translated(&rule)))
}

// ---- application

/// A use of a rule: its place in document 01's order, and whether it needs a frame.
struct Use {
    place: usize,
    frame: bool,
}

const fn rule_use(place: usize, frame: bool) -> Use {
    Use { place, frame }
}

const LEAF: Use = rule_use(0, false);
const STEM: Use = rule_use(1, false);
const DROP: Use = rule_use(2, false);
const SPREAD: Use = rule_use(3, true);
const TRIAGE: Use = rule_use(4, true);

/// What an application is counted against, and the trees of the used nodes.
struct Machine<'a> {
    nodes: Nodes<'a>,
    trees: Vec<Rc<Tree>>,
    frames: usize,
    limit: usize,
    uses: Uses,
}

/// Where applying stopped: the refusal, the steps taken before, and the place of the rule wanted.
struct Stop {
    number: Refusal,
    steps: usize,
    rule: usize,
}

impl Machine<'_> {
    /// A use that lacks what this number says.
    fn stop(&self, wanted: Use, number: Refusal) -> Stop {
        Stop {
            number,
            steps: self.steps(),
            rule: wanted.place,
        }
    }

    /// One use of a rule that makes nothing: 7, then 9 if it needs a frame beside `held`.
    fn step(&mut self, wanted: Use, held: usize) -> Result<(), Stop> {
        if self.steps() == self.limit {
            return Err(self.stop(wanted, 7));
        }
        if wanted.frame && held == self.frames {
            return Err(self.stop(wanted, 9));
        }
        self.uses[wanted.place] += 1;
        Ok(())
    }

    /// One use of a rule that makes a tree and needs no frame: 7, then 8.
    fn grow(&mut self, wanted: Use, shape: Shape) -> Result<Rc<Tree>, Stop> {
        if self.steps() == self.limit {
            return Err(self.stop(wanted, 7));
        }
        let place = wanted.place;
        match self.make(shape) {
            Err(number) => Err(self.stop(wanted, number)),
            Ok(tree) => {
                self.uses[place] += 1;
                Ok(tree)
            }
        }
    }

    fn steps(&self) -> usize {
        self.uses.iter().sum()
    }

    /// The tree of this shape, with its node.
    fn make(&mut self, shape: Shape) -> Result<Rc<Tree>, Refusal> {
        let (first, second) = match &shape {
            Shape::Leaf => (0, 0),
            Shape::Stem(p) => (p.node + 1, 0),
            Shape::Fork(p, q) => (p.node + 1, q.node + 1),
        };
        let node = self.nodes.make(first, second)?;
        if node == self.trees.len() {
            self.trees.push(tree(node, shape));
        }
        Ok(self.trees[node].clone())
    }

    /// f applied to n while `held` frames are held. The last application of spread and of triage
    /// holds none, so it takes another turn of the loop.
    fn apply(&mut self, f: Rc<Tree>, n: Rc<Tree>, held: usize) -> Result<Rc<Tree>, Stop> {
        let (mut f, mut n) = (f, n);
        loop {
            let (next, argument) = match &f.shape {
                Shape::Leaf => return self.grow(LEAF, Shape::Stem(n)),
                Shape::Stem(p) => return self.grow(STEM, Shape::Fork(p.clone(), n)),
                Shape::Fork(first, y) => match &first.shape {
                    Shape::Leaf => {
                        self.step(DROP, held)?;
                        return Ok(y.clone());
                    }
                    Shape::Stem(p) => {
                        self.step(SPREAD, held)?;
                        let v = self.apply(y.clone(), n.clone(), held + 1)?;
                        let w = self.apply(p.clone(), n, held + 1)?;
                        (v, w)
                    }
                    Shape::Fork(p, q) => {
                        self.step(TRIAGE, held)?;
                        (self.apply(n, p.clone(), held + 1)?, q.clone())
                    }
                },
            };
            (f, n) = (next, argument);
        }
    }
}

pub fn apply(
    memory: &mut Memory,
    used: usize,
    function: usize,
    argument: usize,
    limit: usize,
) -> Counted {
    if limit > 1_000_000 {
        return refused_uses(1, used);
    }
    if let Err(number) = memory.check(used) {
        return refused_uses(number, used);
    }
    if function >= used || argument >= used {
        return refused_uses(3, used);
    }
    match applied(memory, used, [function, argument], limit) {
        Err(stop) => refused_uses(stop.number, used),
        Ok(answer) => answer,
    }
}

/// Apply after its checks.
fn applied(
    memory: &mut Memory,
    used: usize,
    nodes: [usize; 2],
    limit: usize,
) -> Result<Counted, Stop> {
    let frames = memory.frames();
    let trees = trees(&memory.table, used);
    let [function, argument] = nodes.map(|node| trees[node].clone());
    let mut machine = Machine {
        nodes: Nodes::new(&mut memory.table, used),
        trees,
        frames,
        limit,
        uses: [0; 5],
    };
    let result = machine.apply(function, argument, 0);
    let (end, uses) = (machine.nodes.used, machine.uses);
    memory.stack.fill(0);
    if result.is_err() {
        memory.undo(used, end);
    }
    result.map(|tree| counted([0, tree.node, end, uses.iter().sum(), 0], uses))
}

// ---- labels

/// Label has no stack: the memory's stack and out bytes are not lent to it.
pub fn label(memory: &mut Memory, used: usize, rule: usize, label: usize) -> Answer {
    if let Err(number) = check_table(&memory.table, used) {
        return refused(number, used);
    }
    if rule >= used || label >= used {
        return refused(3, used);
    }
    made(&mut memory.table, used, |nodes| {
        labelled(nodes, rule + 1, label + 1)
    })
}

/// Makes a labelled tree of the branch words of rule and label.
fn labelled(nodes: &mut Nodes, rule: usize, label: usize) -> Result<usize, Refusal> {
    let leaf = nodes.make(0, 0)? + 1;
    let k = nodes.make(leaf, 0)? + 1;
    let kk = nodes.make(leaf, k)? + 1;
    let rule_stem = nodes.make(rule, 0)? + 1;
    let second = nodes.make(rule_stem, kk)? + 1;
    // "the sixth is the fork of the first and t, then its stem, then the whole" ([4])
    let kt = nodes.make(leaf, label)? + 1;
    let label_stem = nodes.make(kt, 0)? + 1;
    nodes.make(label_stem, second)
}

/// The nodes of f and of t where a tree is Δ(Δ(Kt))(Δ(Δf)(KK)) ([4]). K is ΔΔ, so Kt is the fork of a
/// leaf and t, and KK that of a leaf and a leaf's stem.
fn parts(tree: &Tree) -> Option<(usize, usize)> {
    let (first, second) = fork(tree)?;
    let (leaf, t) = fork(stem(first)?)?;
    let (first, kk) = fork(second)?;
    let f = stem(first)?;
    (has_text(leaf, b"0") && has_text(kk, b"2010")).then_some((f.node, t.node))
}

/// Whether a tree has this text, by no more digits than the text has.
fn has_text(tree: &Tree, text: &[u8]) -> bool {
    text_within(tree, text.len()).is_some_and(|written| written == text)
}

fn stem(tree: &Tree) -> Option<&Tree> {
    match &tree.shape {
        Shape::Stem(p) => Some(p),
        _ => None,
    }
}

fn fork(tree: &Tree) -> Option<(&Tree, &Tree)> {
    match &tree.shape {
        Shape::Fork(p, q) => Some((p, q)),
        _ => None,
    }
}

/// "It also takes a node number and gives the nodes of label and rule out of a labelled tree." ([1])
/// The table is only read, and nothing else is lent.
pub fn unlabel(table: &[u32], used: usize, node: usize) -> Parts {
    let refused = |number| [number, 0, used, 0, 0, 0];
    if let Err(number) = check_table(table, used) {
        return refused(number);
    }
    if node >= used {
        return refused(3);
    }
    match parts(&trees(table, used)[node]) {
        None => refused(11),
        Some((rule, label)) => [0, rule, used, 0, 0, label],
    }
}

// ---- equal trees

/// Whether two nodes, each of a table of its own, have the same tree. No pair of nodes is looked at
/// twice, however often branches are shared.
pub fn same_tree(a: (&[u32], usize), b: (&[u32], usize)) -> bool {
    let (mut pairs, mut seen) = (vec![(a.1, b.1)], HashSet::new());
    while let Some((x, y)) = pairs.pop() {
        if !seen.insert((x, y)) {
            continue;
        }
        for i in 0..2 {
            match (a.0[2 * x + i] as usize, b.0[2 * y + i] as usize) {
                (0, 0) => {}
                (0, _) | (_, 0) => return false,
                (p, q) => pairs.push((p - 1, q - 1)),
            }
        }
    }
    true
}

/// "Two node numbers are equal exactly when their trees are, and a new operation answers that after 1, 2
/// and 3." ([8]) The trees are compared, not the numbers. The table is only read.
pub fn same(table: &[u32], used: usize, a: usize, b: usize) -> Same {
    if let Err(number) = check_table(table, used) {
        return [number, 0];
    }
    if a >= used || b >= used {
        return [3, 0];
    }
    [0, usize::from(same_tree((table, a), (table, b)))]
}

// ---- packets

struct Packet<'a> {
    rule: &'a [u8],
    arguments: Vec<&'a [u8]>,
    limit: usize,
    label: Option<&'a [u8]>,
}

/// The field at `at` if its tag is `tag`: its value and the place after it.
fn field(packet: &[u8], at: usize, tag: u8) -> Option<(&[u8], usize)> {
    let head = packet.get(at..at + 3)?;
    let start = at + 3;
    let end = start + usize::from(head[1]) * 256 + usize::from(head[2]);
    let value = packet.get(start..end)?;
    (head[0] == tag).then_some((value, end))
}

fn packet_of(packet: &[u8]) -> Option<Packet<'_>> {
    if packet.len() > 16_384 {
        return None;
    }
    let (rule, mut at) = field(packet, 0, 1)?;
    let mut arguments = Vec::new();
    while let Some((text, end)) = field(packet, at, 2) {
        arguments.push(text);
        at = end;
    }
    // "Without tag 3 the limit becomes 100,000." ([2])
    let mut limit = 100_000;
    if let Some((value, end)) = field(packet, at, 3) {
        let [a, b, c, d] = value else { return None };
        limit = [a, b, c, d]
            .iter()
            .fold(0, |n, byte| n * 256 + usize::from(**byte));
        at = end;
    }
    // "A packet may end with one field of tag 4, a label's text." ([1])
    let mut label = None;
    if let Some((text, end)) = field(packet, at, 4) {
        label = Some(text);
        at = end;
    }
    (at == packet.len() && arguments.len() <= 8 && limit <= 1_000_000).then_some(Packet {
        rule,
        arguments,
        limit,
        label,
    })
}

/// What reads a packet: "a packet without tag 4 is 6" to `label_packet` alone ([1]).
#[derive(Clone, Copy, PartialEq)]
enum Reader {
    Run,
    LabelPacket,
}

/// 1 for lengths, 6, 5, then 4 for the arguments' texts, first to last, and for the label's after them.
fn checked<'a>(memory: &Memory, packet: &'a [u8], reader: Reader) -> Result<Packet<'a>, Refusal> {
    if memory.table.len() > 131_072 || memory.stack.len() > 65_536 || memory.out.len() > 65_535 {
        return Err(1);
    }
    let packet = packet_of(packet).ok_or(6usize)?;
    if reader == Reader::LabelPacket && packet.label.is_none() {
        return Err(6);
    }
    if rule(packet.rule).is_none() {
        return Err(5);
    }
    let mut texts = packet.arguments.iter().chain(&packet.label);
    if texts.any(|text| readable(text).is_none()) {
        return Err(4);
    }
    Ok(packet)
}

/// Run of a packet: a label whose text is whole changes nothing.
pub fn run(memory: &mut Memory, packet: &[u8]) -> Counted {
    run_to(memory, packet).0
}

/// "A tool runs a packet alone" and tells of a stop while applying; "for every other outcome it gives Run's
/// number alone" ([14]). It leaves what Run leaves.
pub fn stopped(memory: &mut Memory, packet: &[u8]) -> Stopped {
    run_to(memory, packet).1
}

/// Run, and where it stopped.
pub fn run_to(memory: &mut Memory, packet: &[u8]) -> (Counted, Stopped) {
    let packet = match checked(memory, packet, Reader::Run) {
        Ok(packet) => packet,
        Err(number) => return (refused_uses(number, 0), alone(number)),
    };
    let mut used = 0;
    match stages(memory, &packet, &mut used) {
        Ok(answer) => (answer, alone(0)),
        Err(stopped) => {
            memory.undo(0, used);
            (refused_uses(stopped[0], 0), stopped)
        }
    }
}

/// Run's number alone.
fn alone(number: Refusal) -> Stopped {
    [number, 0, 0, 0]
}

/// The operations in a packet's order. `used` is the count of nodes made by those that succeeded.
fn stages(memory: &mut Memory, packet: &Packet, used: &mut usize) -> Result<Counted, Stopped> {
    let rule = taken(translate(memory, 0, packet.rule), used).map_err(alone)?;
    let mut arguments = Vec::new();
    for text in &packet.arguments {
        let read = taken(read(memory, *used, text), used).map_err(alone)?;
        arguments.push(read[1]);
    }
    let (mut node, mut steps, mut uses) = (rule[1], 0, [0; 5]);
    for (i, argument) in arguments.into_iter().enumerate() {
        let applied = applied(memory, *used, [node, argument], packet.limit - steps);
        let answer =
            applied.map_err(|stop| [stop.number, i + 1, steps + stop.steps, stop.rule + 1])?;
        [node, *used] = [answer[1], answer[2]];
        steps += answer[3];
        uses = std::array::from_fn(|rule| uses[rule] + answer[5 + rule]);
    }
    let written = taken(write(memory, *used, node), used).map_err(alone)?;
    Ok(counted([0, 0, *used, steps, written[4]], uses))
}

fn taken(answer: Answer, used: &mut usize) -> Result<Answer, Refusal> {
    match answer[0] {
        0 => {
            *used = answer[2];
            Ok(answer)
        }
        number => Err(number),
    }
}

/// Where the labelling of a packet ends: at the checks of the packet, or at a stage.
#[derive(Clone, Copy, Debug, PartialEq, Eq)]
pub enum Stage {
    Checks,
    Translate,
    Read,
    Label,
    Write,
}

/// A packet's rule labelled: "Translate, Read of the label, Label, Write" ([1]). Arguments and step limit
/// are passed over.
pub fn label_packet(memory: &mut Memory, packet: &[u8]) -> Answer {
    label_packet_to(memory, packet).0
}

/// The same, and the stage at which it ends.
pub fn label_packet_to(memory: &mut Memory, packet: &[u8]) -> (Answer, Stage) {
    let packet = match checked(memory, packet, Reader::LabelPacket) {
        Ok(packet) => packet,
        Err(number) => return (refused(number, 0), Stage::Checks),
    };
    let (mut used, mut stage) = (0, Stage::Translate);
    let answer = match label_stages(memory, &packet, &mut used, &mut stage) {
        Ok(answer) => answer,
        Err(number) => {
            memory.undo(0, used);
            refused(number, 0)
        }
    };
    (answer, stage)
}

/// The operations in `label_packet`'s order. `used` is the count of nodes made by those that succeeded.
fn label_stages(
    memory: &mut Memory,
    packet: &Packet,
    used: &mut usize,
    stage: &mut Stage,
) -> Result<Answer, Refusal> {
    let rule = taken(translate(memory, 0, packet.rule), used)?[1];
    *stage = Stage::Read;
    let text = packet.label.expect("a label, as checked before");
    let tree = taken(read(memory, *used, text), used)?[1];
    *stage = Stage::Label;
    let node = taken(label(memory, *used, rule, tree), used)?[1];
    *stage = Stage::Write;
    let written = taken(write(memory, *used, node), used)?;
    Ok([0, 0, *used, 0, written[4]])
}
