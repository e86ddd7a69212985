//! Rule text beside the model, and both beside the expressions that texts were printed from: answers
//! and every out byte.

use crate::Noise;
use compare::random::Random;
use compare::texts;
use model::rule_text::{self, Expression, TextAnswer};

/// How often each refusal was met, and 0 for success.
pub type Counts = [usize; 13];

/// The refusals that a text can meet.
pub const REFUSALS: [usize; 3] = [5, 10, 12];

/// More out bytes than any rule has.
const AMPLE: usize = 4_100;

/// How many differences are printed.
const SHOWN: usize = 20;

/// An answer, and the out bytes after it.
type Answered = (TextAnswer, Vec<u8>);

/// What has been compared: the texts with a known outcome, the texts with one byte changed, and how
/// many of either differ.
#[derive(Default)]
pub struct Outcome {
    pub known: Counts,
    pub changed: Counts,
    pub differences: usize,
}

/// A text with what it is refused with where out is long enough, or 0, and the bytes of its term. They
/// may be missing where it is refused.
struct Known<'a> {
    text: &'a [u8],
    refusal: usize,
    bytes: &'a [u8],
}

impl Known<'_> {
    /// The answer with these out bytes, and what they become.
    fn expected(&self, out: &[u8]) -> Answered {
        let mut after = out.to_vec();
        if self.refusal != 0 {
            return ([self.refusal, 0], after);
        }
        match after.get_mut(..self.bytes.len()) {
            Some(place) => {
                place.copy_from_slice(self.bytes);
                ([0, self.bytes.len()], after)
            }
            None => ([10, 0], after),
        }
    }
}

fn by_engine(text: &[u8], out: &[u8]) -> Answered {
    let mut out = out.to_vec();
    let numbers = lazvorn::rule_text(text, &mut out);
    ([numbers.refusal, numbers.bytes], out)
}

fn by_model(text: &[u8], out: &[u8]) -> Answered {
    let mut out = out.to_vec();
    (rule_text::rule_text(text, &mut out), out)
}

impl Outcome {
    /// Counts an answer with its out bytes that is not as wanted, and prints it if it is one of the
    /// first.
    fn hold(&mut self, who: &str, text: &[u8], got: &Answered, wanted: &Answered) {
        if got == wanted {
            return;
        }
        self.differences += 1;
        if self.differences <= SHOWN {
            let place = (0..got.1.len()).find(|&i| got.1[i] != wanted.1[i]);
            println!(
                "rule text {}, {} out bytes\n{who}: {:?} and should be {:?}; out differs at {place:?}",
                text.escape_ascii(),
                wanted.1.len(),
                got.0,
                wanted.0
            );
        }
    }

    /// Compares the engine with what is known of a text: with out bytes that are just enough, one too
    /// few, more, and none. The model, which is slow, is compared on one of these.
    fn known(&mut self, random: &mut Random, noise: &Noise, known: &Known) {
        let enough = match known.bytes.len() {
            0 => random.within(1, AMPLE),
            bytes => bytes.min(AMPLE),
        };
        let lengths = [enough, enough - 1, enough + random.within(1, 40), 0];
        let modelled = random.below(lengths.len());
        for (i, length) in lengths.into_iter().enumerate() {
            let out = noise.memory(random, 0, 0, length).out;
            let wanted = known.expected(&out);
            let text = known.text;
            self.known[wanted.0[0]] += 1;
            self.hold("engine", text, &by_engine(text, &out), &wanted);
            if i == modelled {
                self.hold("model", text, &by_model(text, &out), &wanted);
            }
        }
    }

    /// Compares the engine with the model on a text of which nothing else is known.
    fn unknown(&mut self, random: &mut Random, noise: &Noise, text: &[u8]) {
        let ([refusal, written], bytes) = by_model(text, &[0; AMPLE]);
        let known = Known {
            text,
            refusal,
            bytes: &bytes[..written],
        };
        let enough = match written {
            0 => random.within(1, 200),
            bytes => bytes,
        };
        let length = match random.below(4) {
            0 => enough - 1,
            1 => enough + random.within(1, 40),
            _ => enough,
        };
        let out = noise.memory(random, 0, 0, length).out;
        let wanted = known.expected(&out);
        self.changed[wanted.0[0]] += 1;
        self.hold("engine", text, &by_engine(text, &out), &wanted);
    }

    /// One expression, printed in each way, and each of the texts with one byte changed.
    fn expression(&mut self, random: &mut Random, noise: &Noise, expression: &Expression) {
        let bytes = rule_text::term_bytes(expression);
        let is_rule = bytes[0] == 2 && bytes.len() <= 4_096 && texts::nested(expression) <= 16;
        for way in texts::WAYS {
            let text = texts::printed(random, expression, way);
            let refusal = if text.len() > 8_192 || texts::deepest(&text) > 32 {
                12
            } else if !is_rule {
                5
            } else {
                0
            };
            let known = Known {
                text: &text,
                refusal,
                bytes: &bytes,
            };
            self.known(random, noise, &known);
            let changed = texts::changed(random, &text);
            self.unknown(random, noise, &changed);
        }
    }

    /// A text at a border. The bytes of its term are the model's.
    fn border(&mut self, random: &mut Random, noise: &Noise, border: &texts::Border) {
        let ([_, written], bytes) = by_model(&border.text, &[0; AMPLE]);
        let known = Known {
            text: &border.text,
            refusal: border.refusal,
            bytes: &bytes[..written],
        };
        self.known(random, noise, &known);
    }
}

/// Compares the texts at the borders, and those of so many expressions.
pub fn compare(random: &mut Random, noise: &Noise, expressions: usize) -> Outcome {
    let mut outcome = Outcome::default();
    for border in texts::borders() {
        outcome.border(random, noise, &border);
    }
    for _ in 0..expressions {
        let expression = texts::expression(random);
        outcome.expression(random, noise, &expression);
    }
    outcome
}
