//! Rule text: what a call and a byte of text cost at three lengths, that a short text does not pay for
//! a long one's arrays, and the engine beside a plain reader.

use crate::measure::{contender, rounds, Contender, Times};
use crate::{reader, ROUNDS};

/// The most that a byte may cost at one of the three lengths, as a ratio of what it costs at another.
const GOAL: f64 = 1.5;

/// The lengths, in bytes of text.
const LENGTHS: [usize; 3] = [500, 2_000, 8_000];

/// As many bytes as a rule has at most.
const ROOM: usize = 4_096;

/// A text, and how many bytes its term has.
struct Text {
    text: Vec<u8>,
    bytes: usize,
}

/// The leaf under one abstraction, in five bytes.
fn five() -> Text {
    Text {
        text: br"\x.^ ".to_vec(),
        bytes: 2,
    }
}

/// Names of eight letters applied to each other under one abstraction, as many as fit into so many
/// bytes, which spaces at the end fill.
fn names(length: usize) -> Text {
    const ABSTRACTION: &[u8] = br"\abcdefgh.";
    const NAME: &[u8] = b"abcdefgh ";
    // The last name needs no space after it.
    let names = (length + 1 - ABSTRACTION.len()) / NAME.len();
    let mut text = [ABSTRACTION, &NAME.repeat(names)].concat();
    text.resize(length, b' ');
    // The abstraction, an application fewer than names, and two bytes for each name.
    let bytes = 1 + (names - 1) + 2 * names;
    Text { text, bytes }
}

impl Text {
    /// The engine and the plain reader accept it and write the same bytes, as many as are expected.
    fn check(&self) {
        let (mut out, mut other_out) = (vec![0; ROOM], vec![0; ROOM]);
        let numbers = lazvorn::rule_text(&self.text, &mut out);
        assert_eq!((numbers.refusal, numbers.bytes), (0, self.bytes));
        let written = reader::rule_text(&self.text, &mut other_out);
        assert_eq!(written, Some(self.bytes));
        assert!(out == other_out);
    }

    fn by_engine(&self) -> Contender<'_> {
        let mut out = vec![0; ROOM];
        contender("engine", move || {
            let numbers = lazvorn::rule_text(&self.text, &mut out);
            assert_eq!((numbers.refusal, numbers.bytes), (0, self.bytes));
        })
    }

    fn by_reader(&self) -> Contender<'_> {
        let mut out = vec![0; ROOM];
        contender("plain Rust, one pass", move || {
            let written = reader::rule_text(&self.text, &mut out);
            assert_eq!(written, Some(self.bytes));
        })
    }
}

/// A number of a contender's times: the best or the median, in seconds for a call.
type Of = fn(&Times) -> f64;

const BOTH: [Of; 2] = [Times::best, Times::median];

/// Prints what a call and a byte of text cost.
fn costs(text: &Text, times: &Times) {
    let [best, median] = BOTH.map(|of| 1e9 * of(times));
    let length = text.text.len();
    let [best_byte, median_byte] = [best, median].map(|call| call / length as f64);
    println!(
        "| {length} | {} | {} | {best:.1} | {median:.1} | {best_byte:.2} | {median_byte:.2} |",
        text.bytes, times.name
    );
}

/// The cost of a byte where it is largest, as a ratio of where it is smallest.
fn flatness(times: [&Times; LENGTHS.len()], of: Of) -> f64 {
    let costs = times
        .iter()
        .zip(LENGTHS)
        .map(|(times, n)| of(times) / n as f64);
    let costs: Vec<f64> = costs.collect();
    let largest = costs.iter().copied().fold(0.0, f64::max);
    largest / costs.into_iter().fold(f64::INFINITY, f64::min)
}

/// Prints one contender's time as a ratio of another's: of the best of each, and round by round.
fn ratio(what: &str, other: &Times, engine: &Times) {
    let best = other.best() / engine.best();
    let [low, middle, high] = other.speed_of(engine);
    println!("| {what} | {best:.2} | {middle:.2} ({low:.2} to {high:.2}) | none |");
}

fn ratios(times: &[Times]) {
    let [five, short, middle, long, plain] = times else {
        unreachable!("a contender for each text, and the plain reader");
    };
    let [best, median] = BOTH.map(|of| flatness([short, middle, long], of));
    let met = if best <= GOAL { "met" } else { "missed" };
    println!("\n| Ratio | Best | Median | Goal |");
    println!("|---|---|---|---|");
    println!(
        "| ns a byte, largest of the three lengths to smallest | {best:.2} | {median:.2} | \
         at most {GOAL}: {met} |"
    );
    ratio("ns a call, 8,000 bytes to 5", long, five);
    let what = format!("speed beside {}, 2,000 bytes", plain.name);
    ratio(&what, plain, middle);
}

/// Measures all of it, in the same rounds, and prints it.
pub fn rule_text() {
    let mut texts = vec![five()];
    texts.extend(LENGTHS.map(names));
    texts.iter().for_each(Text::check);
    let middle = &texts[2];
    let mut contenders: Vec<Contender> = texts.iter().map(Text::by_engine).collect();
    contenders.push(middle.by_reader());
    let times = rounds(contenders, ROUNDS);
    println!("\n### Rule text\n");
    println!(
        "| Text, bytes | Term, bytes | By | ns a call, best | median | ns a byte, best | median |"
    );
    println!("|---|---|---|---|---|---|---|");
    for (text, times) in texts.iter().chain([middle]).zip(&times) {
        costs(text, times);
    }
    ratios(&times);
}

#[cfg(test)]
mod tests {
    use super::*;

    /// The texts have their lengths, and the engine and the plain reader agree on them.
    #[test]
    fn texts_are_rules() {
        assert_eq!(five().text.len(), 5);
        five().check();
        for length in LENGTHS {
            let text = names(length);
            assert_eq!(text.text.len(), length);
            text.check();
        }
    }

    /// The spaces at the end are fewer than another name would need.
    #[test]
    fn texts_are_full_of_names() {
        for length in LENGTHS {
            let text = names(length).text;
            let names = text.trim_ascii_end().len();
            assert!(length - names < " abcdefgh".len());
        }
    }
}
