//! Compares the engine with the second evaluator on packets, run and labelled, and with the model on
//! packets, on calls of each operation, on texts and their beginnings, on rule texts, on weeks of
//! windows, on loads, on short codes and on weights: answers and, but for weeks, every lent word and
//! byte. Each stop while applying is tried again with one more of what it names. Labelled rules are
//! held to the rules alone too, rule texts printed from random expressions to the expressions, loads
//! to what comes back when they are read and written, each code to that of its text, and weights to
//! arithmetic on grams and to what comes back when they are written and read. Prints each difference,
//! of rule texts, weeks, loads, codes and weights the first few, how often each refusal was met, how
//! many packets used each rule, what became of labels, how many runs stopped while applying and
//! where, how many of them were tried again and what became of them, how often each stage of a
//! labelling lacked room, how many calls had two equal nodes or no free node, what kinds of trees
//! were taken apart or compared, how many labelled rules ran beside a label, or were rules, that
//! never ended, how many weeks were of each kind and what became of the minutes asked about, how many
//! loads had each kind of count, out and seed and what became of them, what became of codes, and of
//! nodes asked for one, by what was wrong with the call and by how many digits their trees have, how
//! many pairs of weights were of each kind, what became of the nodes wanted for them and which was
//! the greater, and how many calls had which things wrong, one or two, and which trees that are no
//! weights. The exit status is 1 where anything differs, and where one of these that can be met was
//! met too seldom for the run to mean something.
//!
//! `compare [PACKETS [SEED]]`

mod beginnings;
mod calls;
mod labelled_rules;
mod labels;
mod rule_texts;
mod runs;
mod same;
mod unlabel;

use compare::codes::{self, SIZES, TEXTS_MET, WRONG};
use compare::loads::{self, COUNTS, OUTS, SEEDS};
use compare::packets::{self, WRONG_LABELS};
use compare::random::Random;
use compare::stops::{self, AGAIN, NUMBERS};
use compare::weeks::{self, KINDS, MET, REFUSED};
use compare::weight_trees::{NEAR, PAIRS};
use compare::weights::{self, two, Call, OPERATIONS, ORDERS, PLACES, TWO};
use compare::{add, answer_of, compared_of, given_of, grams_of, load_of, RULES};
use model::{Answer, Given, Memory};

/// How many runs of packets and how many calls of each operation a run compares if nothing else is
/// asked, and from how many expressions it prints rule texts.
const PACKETS: usize = 120_000;
const CALLS: usize = 40_000;
const EXPRESSIONS: usize = 20_000;

/// How many whole texts are cut to beginnings.
const BEGINNINGS: usize = 20_000;

/// How many rules are labelled and applied.
const LABELLED_RULES: usize = 4_000;

/// How many weeks are asked about, how many loads and how many nodes' codes are asked for, how many pairs
/// of weights are compared and how many calls with something wrong, and how many differences of each are
/// printed.
const WEEKS: usize = 20_000;
const LOADS: usize = 20_000;
const CODED_NODES: usize = 20_000;
const WEIGHT_PAIRS: usize = 20_000;
const WEIGHT_CALLS: usize = 42_000;
const SHOWN: usize = 20;

/// How often a packet that is run must meet each refusal from 4 to 10, in how many that succeed each
/// rule must be used, how often each kind of label must be met, how often a run must stop while applying
/// with each refusal, at each argument and wanting each rule, and be tried again with each outcome, how
/// often a labelling must meet each refusal and lack each thing that it can, how many calls of each kind
/// must be made, and how often a labelled rule must end, lack a step, have a label that never ends, and
/// never end itself.
const SELDOM: usize = 100;

/// How often rule texts with a known outcome, and rule texts with one byte changed, must succeed and
/// meet each of their refusals.
const SELDOM_TEXTS: usize = 1_000;

/// How many weeks must be of each kind, and how often a minute of a week must meet each outcome.
const SELDOM_WEEKS: usize = 500;

/// How many loads must be of each kind and meet each outcome, and how many must be written.
const SELDOM_LOADS: usize = 1_000;
const WRITTEN_LOADS: usize = 5_000;

/// How often a code must meet each outcome, and how many nodes must be asked for one with each thing wrong, meet each
/// outcome and have trees of each size.
const SELDOM_CODES: usize = 1_000;

/// How many pairs of weights must be of each kind and meet each outcome and order, how often each operation on weights
/// must meet each of its refusals, and how many calls must have each thing wrong, each two and each kind of tree.
const SELDOM_WEIGHTS: usize = 1_000;

/// How often each refusal was met, and 0 for success.
pub type Counts = [usize; 12];

/// The refusals that a labelling can meet after 1.
const LABELLING: [usize; 6] = [4, 5, 6, 8, 9, 10];

/// Words and bytes to fill lent memory with: small numbers among them, so that words which a call
/// fails to write may pass for branches.
pub struct Noise {
    words: Vec<u32>,
    bytes: Vec<u8>,
}

/// Room for the largest memory at any of many offsets.
const NOISE: usize = 131_073 + 4_096;

impl Noise {
    fn new(random: &mut Random) -> Self {
        let words = (0..NOISE).map(|_| match random.below(4) {
            0 => random.below(8) as u32,
            1 => random.below(5_000) as u32,
            _ => random.number() as u32,
        });
        let words = words.collect();
        let bytes = (0..NOISE).map(|_| random.number() as u8).collect();
        Noise { words, bytes }
    }

    /// Memory of these lengths, full of noise.
    pub fn memory(&self, random: &mut Random, table: usize, stack: usize, out: usize) -> Memory {
        let mut at = || random.below(4_096);
        let (t, s, o) = (at(), at(), at());
        Memory {
            table: self.words[t..t + table].to_vec(),
            stack: self.words[s..s + stack].to_vec(),
            out: self.bytes[o..o + out].to_vec(),
        }
    }
}

pub fn hexadecimal(bytes: &[u8]) -> String {
    bytes.iter().map(|byte| format!("{byte:02x}")).collect()
}

/// Where two memories differ first, if they do.
pub fn difference(engine: &Memory, model: &Memory) -> Option<String> {
    fn first<T: PartialEq + std::fmt::Debug>(part: &str, a: &[T], b: &[T]) -> Option<String> {
        let i = (0..a.len().max(b.len())).find(|&i| a.get(i) != b.get(i))?;
        let (a, b) = (a.get(i), b.get(i));
        Some(format!("{part}[{i}] is {a:?} and should be {b:?}"))
    }
    if engine == model {
        return None;
    }
    first("table", &engine.table, &model.table)
        .or_else(|| first("stack", &engine.stack, &model.stack))
        .or_else(|| first("out", &engine.out, &model.out))
}

fn print(what: &str, counts: &[usize], refusals: impl IntoIterator<Item = usize>) {
    let refusals = refusals.into_iter();
    let refusals: Vec<String> = refusals.map(|k| format!("{k}: {}", counts[k])).collect();
    let all: usize = counts.iter().sum();
    println!(
        "{what:<10} {all:>7} compared, {:>6} succeeded; refused {}",
        counts[0],
        refusals.join(", ")
    );
}

/// Compares rule texts; how many differ, and how many refusals were met too seldom.
fn compare_texts(random: &mut Random, noise: &Noise) -> usize {
    let outcome = rule_texts::compare(random, noise, EXPRESSIONS);
    let mut differences = outcome.differences;
    for (what, counts) in [("Rule text", outcome.known), ("changed", outcome.changed)] {
        print(what, &counts, rule_texts::REFUSALS);
        for number in [0].into_iter().chain(rule_texts::REFUSALS) {
            let count = counts[number];
            if count < SELDOM_TEXTS {
                println!("{what}: {number} was met {count} times: too seldom");
                differences += 1;
            }
        }
    }
    differences
}

/// What was met, and how often.
type Met = Vec<(String, usize)>;

/// Prints how often each of these was met, after a word; how many of them were met too seldom.
fn print_met(word: &str, met: &Met) -> usize {
    print_met_at_least(SELDOM, word, met)
}

/// The same where each must be met so often.
fn print_met_at_least(least: usize, word: &str, met: &Met) -> usize {
    let shown: Vec<String> = met.iter().map(|(what, n)| format!("{what}: {n}")).collect();
    println!("{:<10} {word} {}", "", shown.join(", "));
    let seldom = met.iter().filter(|(_, count)| *count < least);
    let seldom =
        seldom.inspect(|(what, n)| println!("{word} {what} was met {n} times: too seldom"));
    seldom.count()
}

/// How many of these refusals were met too seldom.
fn seldom(counts: &Counts, refusals: impl IntoIterator<Item = usize>) -> usize {
    let seldom = refusals
        .into_iter()
        .filter(|number| counts[*number] < SELDOM);
    let seldom = seldom.inspect(|number| {
        println!(
            "refusal {number} was met {} times: too seldom",
            counts[*number]
        );
    });
    seldom.count()
}

/// What came of packets, run and labelled.
#[derive(Default)]
struct Packets {
    runs: runs::Compared,
    labels: labels::Compared,
}

impl Packets {
    /// Compares packets until so many runs are compared.
    fn compared(random: &mut Random, noise: &Noise, packets: usize) -> Self {
        let mut compared = Packets::default();
        for case in packets::at_tops() {
            compared.runs.compare(random, noise, &case);
        }
        while compared.runs.packets() < packets {
            let case = packets::case(random);
            compared.runs.compare(random, noise, &case);
            compared.labels.compare(random, noise, &case);
        }
        compared
    }

    fn and(mut self, other: &Self) -> Self {
        self.runs.add(&other.runs);
        self.labels.add(&other.labels);
        self
    }

    /// Prints what came of them; how many differ, and how many refusals, rules and labels were met too
    /// seldom.
    fn print(&self) -> usize {
        let (runs, labels) = (&self.runs, &self.labels);
        let mut differences = runs.differences + labels.differences;
        print("Run", &runs.counts, 1..=10);
        differences += seldom(&runs.counts, 4..=10);
        let using = RULES.iter().zip(runs.using);
        let using = using.map(|(rule, n)| (rule.to_string(), n)).collect();
        differences += print_met("rules used by", &using);
        let wrong = WRONG_LABELS.iter().zip(runs.wrong_labels);
        let mut met = vec![("passed over".to_string(), runs.passed_over)];
        met.extend(wrong.map(|(label, n)| (format!("{} {label:?}", label.refusal()), n)));
        differences += print_met("labels", &met);
        differences += print_stops(&runs.stops);
        print("Labelled", &labels.counts, [1].into_iter().chain(LABELLING));
        differences += seldom(&labels.counts, [0].into_iter().chain(LABELLING));
        let lacked = labels::LACKS.iter().zip(labels.lacked);
        let lacked = lacked.map(|((stage, number), n)| (format!("{stage:?} {number}"), n));
        differences + print_met("refused by", &lacked.collect())
    }
}

/// Prints what came of stops while applying; how many of the kinds that are counted were met too seldom.
fn print_stops(stops: &stops::Compared) -> usize {
    let by_number = |counts: [usize; 3]| {
        let counts = NUMBERS.into_iter().zip(counts);
        counts.map(|(number, n)| (number.to_string(), n)).collect()
    };
    let places = (1..).zip(stops.places);
    let places = places.map(|(place, n)| (place.to_string(), n)).collect();
    let rules = RULES.into_iter().zip(stops.rules);
    let rules = rules.map(|(rule, n)| (rule.to_string(), n)).collect();
    let again = AGAIN.iter().zip(stops.again);
    let again = again.map(|(again, n)| (format!("{again:?}"), n)).collect();
    let seldom = print_met("stopped with", &by_number(stops.numbers))
        + print_met("stopped at argument", &places)
        + print_met("stopped wanting", &rules)
        + print_met("tried again with one more after", &by_number(stops.raised))
        + print_met("and then", &again);
    let tops: [usize; 3] = std::array::from_fn(|i| stops.numbers[i] - stops.raised[i]);
    let shown = NUMBERS.iter().zip(tops);
    let shown: Vec<String> = shown.map(|(number, n)| format!("{number}: {n}")).collect();
    println!("{:<10} at a top and not raised {}", "", shown.join(", "));
    let never = tops.iter().filter(|n| **n == 0).count();
    if never > 0 {
        println!("{never} tops were never met");
    }
    seldom + never
}

/// Compares calls of each operation; how many differ, how many refusals were never met, and how many kinds
/// of calls too seldom.
fn compare_calls(random: &mut Random, noise: &Noise) -> usize {
    let mut differences = 0;
    for operation in calls::OPERATIONS {
        let compared = calls::compare(random, noise, operation, CALLS);
        print(operation.name, &compared.counts, 1..=11);
        for number in operation.refusals {
            if compared.counts[*number] == 0 {
                println!("{}: refusal {number} was never met", operation.name);
                differences += 1;
            }
        }
        let kinds = operation.kinds.iter().zip(compared.kinds);
        let kinds = kinds.map(|(kind, n)| (kind.to_string(), n)).collect();
        differences += print_met("calls", &kinds);
        differences += compared.differences;
    }
    differences
}

/// Compares labelled rules with the rules alone; how many differ, and how many outcomes were met too
/// seldom.
fn compare_labelled_rules(random: &mut Random, noise: &Noise) -> usize {
    let outcome = labelled_rules::compare(random, noise, LABELLED_RULES);
    print("labelled", &outcome.counts, [7]);
    print("filed", &outcome.filed, [7]);
    let met = vec![
        ("labels without a tree".to_string(), outcome.endless_labels),
        ("rules without a tree".to_string(), outcome.endless_rules),
    ];
    let counts = [outcome.counts, outcome.filed];
    let seldom: usize = counts.iter().map(|counts| seldom(counts, [0, 7])).sum();
    outcome.differences + seldom + print_met("met", &met)
}

/// Compares texts and their beginnings; how many differ.
fn compare_beginnings(random: &mut Random, noise: &Noise) -> usize {
    let short = beginnings::short(random, noise);
    let completed = beginnings::completed(random, noise, BEGINNINGS);
    for (what, outcome) in [("short", &short), ("completed", &completed)] {
        print(what, &outcome.counts, [4, 8, 9]);
    }
    short.differences + completed.differences
}

/// How often each of these was met, by its name in the code.
fn named<T: std::fmt::Debug>(names: &[T], counts: &[usize]) -> Met {
    let names = names.iter().map(|name| format!("{name:?}"));
    names.zip(counts.iter().copied()).collect()
}

/// Prints the first of these differences; how many there are.
fn print_first(wrong: &[String]) -> usize {
    let first = wrong.iter().take(SHOWN);
    first.for_each(|difference| println!("{difference}"));
    wrong.len()
}

/// Compares weeks; how many minutes differ, and how many kinds and outcomes were met too seldom.
fn compare_weeks(random: &mut Random) -> usize {
    let window = |week: &[u32], day, minute| given_of(lazvorn::window(week, day, minute));
    let next = |week: &[u32], day, minute| given_of(lazvorn::next_window(week, day, minute));
    let (mut compared, mut wrong) = (weeks::Compared::default(), Vec::new());
    for _ in 0..WEEKS {
        wrong.extend(compared.compare(random, window, next));
    }
    let wrong = print_first(&wrong);
    let mut counts = [0; 14];
    counts[0] = compared.met[..2].iter().sum();
    counts[13] = compared.refused.iter().sum();
    print("Windows", &counts, [13]);
    let [taken, refused] = compared.unknown;
    let unknown = vec![
        ("taken".to_string(), taken),
        ("refused".to_string(), refused),
    ];
    let seldom = [
        ("weeks", named(&KINDS, &compared.kinds)),
        ("Changed and Noise", unknown),
        ("minutes met", named(&MET, &compared.met)),
        ("refused for", named(&REFUSED, &compared.refused)),
    ]
    .map(|(word, met)| print_met_at_least(SELDOM_WEEKS, word, &met));
    wrong + seldom.iter().sum::<usize>()
}

/// A text read by the engine into an empty table: the table, the stack and the answer, or the refusal. A node for
/// each digit and a frame for each leaf are enough, and at most half of the digits, rounded up, are leaves.
fn read_alone(text: &[u8]) -> Result<(Vec<u32>, Vec<u32>, lazvorn::Numbers), usize> {
    let digits = text.len();
    let (mut table, mut stack) = (vec![0; 2 * digits], vec![0; 3 * digits.div_ceil(2)]);
    let read = lazvorn::read(&mut table, 0, &mut stack, text);
    match read.refusal {
        0 => Ok((table, stack, read)),
        refusal => Err(refusal),
    }
}

/// A text read by the engine and written again, or the refusal.
fn read_back(text: &[u8]) -> Result<Vec<u8>, usize> {
    let (table, mut stack, read) = read_alone(text)?;
    let mut out = vec![0; text.len()];
    let written = lazvorn::write(&table, read.used, &mut stack, read.node, &mut out);
    out.truncate(written.digits);
    match written.refusal {
        0 => Ok(out),
        refusal => Err(refusal),
    }
}

/// Compares loads; how many differ, and how many kinds and outcomes were met too seldom.
fn compare_loads(random: &mut Random) -> usize {
    let generate = |seed, digits, out: &mut [u8]| load_of(lazvorn::generate(seed, digits, out));
    let mut compared = loads::Compared::default();
    let wrong = (0..LOADS).filter_map(|_| compared.compare(random, generate, read_back));
    let wrong: Vec<String> = wrong.collect();
    let wrong = print_first(&wrong);
    let [written, empty, too_few] = compared.met;
    let mut counts = [0; 11];
    counts[0] = written + empty;
    counts[10] = too_few;
    print("Loads", &counts, [10]);
    let seldom = [
        ("digits", named(&COUNTS, &compared.counts)),
        ("out bytes", named(&OUTS, &compared.outs)),
        ("seeds", named(&SEEDS, &compared.seeds)),
        ("loads met", named(&loads::MET, &compared.met)),
    ]
    .map(|(word, met)| print_met_at_least(SELDOM_LOADS, word, &met));
    let few = usize::from(written < WRITTEN_LOADS);
    if few > 0 {
        println!("{written} loads were written: too few");
    }
    wrong + seldom.iter().sum::<usize>() + few
}

/// A text read by the engine, and the code of its tree.
fn read_code(text: &[u8]) -> Given {
    match read_alone(text) {
        Ok((table, _, read)) => given_of(lazvorn::code(&table, read.used, read.node)),
        Err(refusal) => [refusal, 0, 0],
    }
}

/// Compares codes; how many differ, and how many kinds and outcomes were met too seldom.
fn compare_codes(random: &mut Random) -> usize {
    let code = |table: &mut [u32], used, node| given_of(lazvorn::code(table, used, node));
    let code_text = |code, out: &mut [u8]| given_of(lazvorn::code_text(code, out));
    let (mut texts, mut nodes) = (codes::Texts::default(), codes::Nodes::default());
    let mut wrong = texts.compare(random, code_text, read_code);
    wrong.extend((0..CODED_NODES).filter_map(|_| nodes.compare(random, code)));
    let wrong = print_first(&wrong);
    let [written, too_few, no_text] = texts.met;
    let mut counts = [0; 11];
    counts[0] = written + no_text;
    counts[10] = too_few;
    print("Code texts", &counts, [10]);
    let [found, none, refused @ ..] = nodes.met;
    let mut counts = [found + none, 0, 0, 0];
    counts[1..].copy_from_slice(&refused);
    print("Codes", &counts, 1..=3);
    let seldom = [
        ("codes met", named(&TEXTS_MET, &texts.met)),
        (
            "read again",
            vec![("the same code".to_string(), texts.again)],
        ),
        ("nodes met", named(&codes::MET, &nodes.met)),
        ("wrong", named(&WRONG, &nodes.wrong)),
        ("digits of trees", named(&SIZES, &nodes.sizes)),
    ]
    .map(|(word, met)| print_met_at_least(SELDOM_CODES, word, &met));
    wrong + seldom.iter().sum::<usize>()
}

/// What the engine answers to a call about weights.
fn weighed(call: Call, table: &mut [u32], used: usize) -> Answer {
    match call {
        Call::Weight(grams) => answer_of(lazvorn::weight(table, used, grams)),
        Call::Grams(node) => two(grams_of(lazvorn::grams(table, used, node))),
        Call::Add(a, b) => answer_of(lazvorn::add_weights(table, used, a, b)),
        Call::Compare(a, b) => two(compared_of(lazvorn::compare_weights(table, used, a, b))),
    }
}

/// The text that the engine writes of a weight, and what it answers when it reads that into the same table. Three
/// frames are enough: Read holds the rest of the list, the rest of a digit and a leaf.
fn written_and_read(table: &[u32], used: usize, node: usize) -> (Vec<u8>, Answer) {
    let (mut table, mut stack) = (table.to_vec(), [0; 9]);
    let mut text = vec![0; lazvorn::WEIGHT_DIGITS];
    let written = lazvorn::write(&table, used, &mut stack, node, &mut text);
    text.truncate(written.digits);
    let read = lazvorn::read(&mut table, used, &mut stack, &text);
    (text, answer_of(read))
}

/// Compares weights; how many differ, and how many kinds and outcomes were met too seldom.
fn compare_weights(random: &mut Random) -> usize {
    let (mut pairs, mut calls) = (weights::Pairs::default(), weights::Calls::default());
    let of_pairs =
        (0..WEIGHT_PAIRS).filter_map(|_| pairs.compare(random, weighed, written_and_read));
    let mut wrong: Vec<String> = of_pairs.collect();
    wrong.extend((0..WEIGHT_CALLS).filter_map(|_| calls.compare(random, weighed)));
    let wrong = print_first(&wrong);
    let mut seldom = 0;
    for operation in OPERATIONS {
        let i = operation as usize;
        let mut counts = pairs.refusals[i];
        add(&mut counts, &calls.refusals[i]);
        print(
            &format!("{operation:?}"),
            &counts,
            operation.refusals().iter().copied(),
        );
        let met = [0].iter().chain(operation.refusals());
        let met = met.map(|number| (number.to_string(), counts[*number]));
        seldom += print_met_at_least(SELDOM_WEIGHTS, "answered", &met.collect());
    }
    let shown = |names: &[&str], counts: &[usize]| {
        let names = names.iter().map(|name| name.to_string());
        names.zip(counts.iter().copied()).collect::<Met>()
    };
    let back = vec![("as the same node".to_string(), pairs.back)];
    let seldom_kinds = [
        ("pairs", named(&PAIRS, &pairs.kinds)),
        ("nodes wanted", named(&weights::MET, &pairs.met)),
        ("the first is", shown(&ORDERS, &pairs.orders)),
        ("sums written and read", back),
        ("wrong", named(&weights::WRONG, &calls.wrong)),
        ("refusals wanted", named(&TWO, &calls.two)),
        ("of two nodes wrong", shown(&PLACES, &calls.places)),
        ("no weights", named(&NEAR, &calls.near)),
    ]
    .map(|(word, met)| print_met_at_least(SELDOM_WEIGHTS, word, &met));
    wrong + seldom + seldom_kinds.iter().sum::<usize>()
}

/// Packets are compared in two threads beside everything else in a third, each from a seed of its own.
fn main() {
    let words: Vec<u64> = std::env::args()
        .skip(1)
        .map(|word| word.parse().expect("usage: compare [PACKETS [SEED]]"))
        .collect();
    let packets = words.first().map_or(PACKETS, |n| *n as usize);
    let seed = words.get(1).copied().unwrap_or(20_261_115);
    let noise = &Noise::new(&mut Random::new(seed));
    let of_packets =
        |seed, packets| move || Packets::compared(&mut Random::new(seed), noise, packets);
    let of_the_rest = || {
        let random = &mut Random::new(seed + 2);
        compare_calls(random, noise)
            + compare_labelled_rules(random, noise)
            + compare_texts(random, noise)
            + compare_beginnings(random, noise)
            + compare_weeks(random)
            + compare_loads(random)
            + compare_codes(random)
            + compare_weights(random)
    };
    // The model and the second evaluator recurse as deep as trees and frames go.
    let deep = || std::thread::Builder::new().stack_size(1 << 30);
    let half = packets / 2;
    let (packets, rest) = std::thread::scope(|scope| {
        let threads = [(seed + 1, half), (seed + 3, packets - half)].map(|(seed, packets)| {
            let of_packets = of_packets(seed, packets);
            deep().spawn_scoped(scope, of_packets).expect("a thread")
        });
        let rest = deep().spawn_scoped(scope, of_the_rest).expect("a thread");
        (threads.map(|thread| thread.join().ok()), rest.join().ok())
    });
    let ([Some(one), Some(other)], Some(rest)) = (packets, rest) else {
        std::process::exit(1);
    };
    let differences = one.and(&other).print() + rest;
    println!("{differences} differences");
    std::process::exit(i32::from(differences != 0));
}
