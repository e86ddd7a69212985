//! Read beside the model on every short text, on figure 1.1 of source 001, and on beginnings of whole
//! texts with digits after them: as many leaves as the beginning lacks trees complete it, and nothing
//! shorter does. Of a short text the different trees are known as the different texts within it.

use crate::calls::{both, Call};
use crate::{Counts, Noise};
use compare::answer_of;
use compare::random::Random;
use compare::trees;
use std::collections::HashSet;

/// The longest of the short texts, and what they are made of.
const SHORT: u32 = 8;
const BYTES: &[u8; 4] = b"0123";

/// The digits of figure 1.1 in source 001, line by line as the copy here has them. No tree is wanted
/// after the first 95 of the 575, so that these are a whole text and the figure is none.
const FIGURE: [&str; 8] = [
    "21210102120210210102121202011210102121212110200200201020112121202121010",
    "21010212110200200201020020020020212021202121102010201021212021212120212",
    "121212121212020021212120200212121202101021211020020020020020020112020212120",
    "210102120202021010212021010021211020020020020102011212020021212120200212121",
    "21202002121212020021212101021211020020020020020020111020020020020020102",
    "1200212120021010200201021212021202010212121212121202002121212020021212",
    "121102002002002002002011102002002010201121212110200200201020020021202110201",
    "0021212020021200020021212020200212020100200212110200200212101021010",
];
const FIGURE_WHOLE: usize = 95;

/// Reads a text into an empty table of so many nodes with so many frames.
fn read(random: &mut Random, noise: &Noise, text: &[u8], nodes: usize, frames: usize) -> Call {
    both(
        &noise.memory(random, 2 * nodes, 3 * frames, 0),
        || format!("text {}", String::from_utf8_lossy(text)),
        |m| answer_of(lazvorn::read(&mut m.table, 0, &mut m.stack, text)),
        |m| model::read(m, 0, text),
    )
}

/// Counts calls; prints those that differ.
#[derive(Default)]
pub struct Outcome {
    pub counts: Counts,
    pub differences: usize,
}

impl Outcome {
    fn add(&mut self, call: Call) {
        self.counts[call.refusal] += 1;
        if let Some(difference) = call.difference {
            self.differences += 1;
            println!("Read {difference}");
        }
    }

    /// A call whose refusal is known without the model.
    fn add_known(&mut self, call: Call, refusal: usize) {
        if call.refusal != refusal {
            self.differences += 1;
            println!(
                "Read: the model refuses with {}, not {refusal}",
                call.refusal
            );
        }
        self.add(call);
    }
}

/// How many trees have so many nodes: a stem has a tree of one node less, a fork two trees.
fn trees_of(nodes: usize) -> usize {
    match nodes {
        0 => 0,
        1 => 1,
        _ => {
            let forks = (1..nodes - 1).map(|first| trees_of(first) * trees_of(nodes - 1 - first));
            trees_of(nodes - 1) + forks.sum::<usize>()
        }
    }
}

/// The texts of the trees within a text, one from each digit on, if it is one whole text.
fn texts_within(text: &[u8]) -> Option<HashSet<&[u8]>> {
    let end = |start: usize| {
        let mut wanted = 1;
        for (i, digit) in text.iter().enumerate().skip(start) {
            wanted = wanted + usize::from(digit.checked_sub(b'0').filter(|d| *d < 3)?) - 1;
            if wanted == 0 {
                return Some(i + 1);
            }
        }
        None
    };
    (end(0)? == text.len()).then(|| {
        let starts = 0..text.len();
        let texts = starts.filter_map(|start| Some(&text[start..end(start)?]));
        texts.collect()
    })
}

/// Every text of at most 8 bytes, with five nodes and three frames: one text a tree. 2220000 lacks a
/// frame, and so does it with a stem put over one of its seven nodes; the others lack a node if they
/// have more than five different trees, and else succeed.
pub fn short(random: &mut Random, noise: &Noise) -> Outcome {
    const NODES: usize = 5;
    let mut outcome = Outcome::default();
    for length in 0..=SHORT {
        for number in 0..BYTES.len().pow(length) {
            let byte = |i: u32| BYTES[number / BYTES.len().pow(i) % BYTES.len()];
            let text: Vec<u8> = (0..length).map(byte).collect();
            let refusal = match texts_within(&text) {
                None => 4,
                Some(_) if without_stem(&text) == b"2220000" => 9,
                Some(texts) if texts.len() > NODES => 8,
                Some(_) => 0,
            };
            outcome.add_known(read(random, noise, &text, NODES, 3), refusal);
        }
    }
    let all: usize = (1..=8).map(trees_of).sum();
    let counts = outcome.counts;
    if [counts[0] + counts[8] + counts[9], counts[9]] != [all, 8] {
        outcome.differences += 1;
        println!("Read: there are not so many trees of at most 8 nodes: {counts:?}");
    }
    outcome
}

/// A text of eight digits without its first stem, and any other as it is.
fn without_stem(text: &[u8]) -> Vec<u8> {
    let mut text = text.to_vec();
    if let Some(stem) = text.iter().position(|digit| *digit == b'1') {
        text.remove(stem);
    }
    text
}

/// Figure 1.1 and its beginning that is whole; then beginnings of so many whole texts, each completed
/// by as many leaves as it lacks trees, and with one leaf too few, one too many, and other digits
/// that are too few.
pub fn completed(random: &mut Random, noise: &Noise, texts: usize) -> Outcome {
    let mut outcome = Outcome::default();
    let figure = FIGURE.concat();
    for (end, refusal) in [(FIGURE_WHOLE, 0), (FIGURE_WHOLE - 1, 4), (figure.len(), 4)] {
        let text = &figure.as_bytes()[..end];
        outcome.add_known(read(random, noise, text, 575, 575), refusal);
    }
    for _ in 0..texts {
        let mut text = trees::text(random);
        text.truncate(random.below(text.len() + 1));
        let missing = model::missing(&text).expect("the beginning of a whole text");
        let room = text.len() + missing + 1;
        let mut ways = vec![(vec![b'0'; missing], 0), (vec![b'0'; missing + 1], 4)];
        if missing > 0 {
            let few = random.below(missing);
            let digits = (0..few).map(|_| *random.pick(b"012")).collect();
            ways.extend([(vec![b'0'; missing - 1], 4), (digits, 4)]);
        }
        for (more, refusal) in ways {
            let text = [&text[..], &more[..]].concat();
            outcome.add_known(read(random, noise, &text, room, room), refusal);
        }
    }
    outcome
}
