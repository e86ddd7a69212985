//! `generate` beside the model ([10]): counts of digits that a load has and that it has not, out bytes that are
//! just enough, more, one too few, none or any, and seeds at both ends of 32 bits.

use crate::lent::{different, After, OutBytes};
use crate::random::Random;
use model::load::{self, LoadAnswer};

/// The most digits of a load, and the most out bytes that are lent.
const MOST: usize = 4_095;
const BYTES: usize = 5_000;

/// How many digits are asked for.
#[derive(Clone, Copy, Debug, PartialEq, Eq)]
pub enum Count {
    Zero,
    One,
    Two,
    /// From 3 to 16, to 400 and to 4,094.
    Small,
    Middle,
    Large,
    /// 4,095 and 4,096.
    Most,
    OneMore,
    /// More than 4,096.
    Far,
}

pub const COUNTS: [Count; 9] = [
    Count::Zero,
    Count::One,
    Count::Two,
    Count::Small,
    Count::Middle,
    Count::Large,
    Count::Most,
    Count::OneMore,
    Count::Far,
];

impl Count {
    fn digits(self, random: &mut Random) -> usize {
        match self {
            Count::Zero => 0,
            Count::One => 1,
            Count::Two => 2,
            Count::Small => random.within(3, 16),
            Count::Middle => random.within(17, 400),
            Count::Large => random.within(401, MOST - 1),
            Count::Most => MOST,
            Count::OneMore => MOST + 1,
            Count::Far => far(random),
        }
    }
}

/// A count that is too large: by a little, in the bits above a count that is not, or by far.
fn far(random: &mut Random) -> usize {
    let inside = random.within(1, MOST);
    match random.below(5) {
        0 => random.within(MOST + 2, 2 * MOST),
        1 => inside + (random.within(1, 0xffff) << 16),
        2 => inside + (random.within(1, 0xffff) << 32),
        3 => usize::MAX - random.below(3),
        _ => (random.number() as usize).max(MOST + 2),
    }
}

/// How many out bytes are lent.
#[derive(Clone, Copy, Debug, PartialEq, Eq)]
pub enum Out {
    Enough,
    More,
    OneTooFew,
    Empty,
    Any,
}

pub const OUTS: [Out; 5] = [Out::Enough, Out::More, Out::OneTooFew, Out::Empty, Out::Any];

impl Out {
    fn bytes(self, random: &mut Random, digits: usize) -> usize {
        let enough = digits.min(BYTES);
        match self {
            Out::Enough => enough,
            Out::More => enough + random.within(1, 40),
            Out::OneTooFew => enough.saturating_sub(1),
            Out::Empty => 0,
            Out::Any => random.within(0, BYTES),
        }
    }
}

#[derive(Clone, Copy, Debug, PartialEq, Eq)]
pub enum Seed {
    Zero,
    One,
    AllOnes,
    Any,
}

pub const SEEDS: [Seed; 4] = [Seed::Zero, Seed::One, Seed::AllOnes, Seed::Any];

impl Seed {
    fn number(self, random: &mut Random) -> u32 {
        match self {
            Seed::Zero => 0,
            Seed::One => 1,
            Seed::AllOnes => u32::MAX,
            Seed::Any => random.number() as u32,
        }
    }
}

/// What came of a call: a load, an empty load, or 10.
#[derive(Clone, Copy, Debug, PartialEq, Eq)]
pub enum Met {
    Written,
    Empty,
    TooFew,
}

pub const MET: [Met; 3] = [Met::Written, Met::Empty, Met::TooFew];

/// What is asked: a seed, a count of digits, and the out bytes.
struct Asked {
    seed: u32,
    digits: usize,
    out: OutBytes,
}

impl Asked {
    fn new(random: &mut Random, seed: Seed, count: Count, out: Out) -> Self {
        let (seed, digits) = (seed.number(random), count.digits(random));
        let bytes = out.bytes(random, digits);
        let out = OutBytes::new(random, bytes);
        Asked { seed, digits, out }
    }

    /// What a function answers, and the bytes after it.
    fn answered(&self, generate: impl Fn(u32, usize, &mut [u8]) -> LoadAnswer) -> After<u8, 2> {
        let call = |out: &mut [u8]| generate(self.seed, self.digits, out);
        self.out.after(call)
    }
}

/// How many calls were of each kind, and how often each outcome was met.
#[derive(Default)]
pub struct Compared {
    pub counts: [usize; 9],
    pub outs: [usize; 5],
    pub seeds: [usize; 4],
    pub met: [usize; 3],
}

impl Compared {
    /// Compares `generate` with the model on one call, and holds `back`, which reads a text and writes it
    /// again, to what was written. Gives the difference.
    pub fn compare(
        &mut self,
        random: &mut Random,
        generate: impl Fn(u32, usize, &mut [u8]) -> LoadAnswer,
        back: impl Fn(&[u8]) -> Result<Vec<u8>, usize>,
    ) -> Option<String> {
        let (count, out) = (*random.pick(&COUNTS), *random.pick(&OUTS));
        // Half of the seeds are random, and the others each kind as often as another.
        let seed = match random.below(2) {
            0 => Seed::Any,
            _ => *random.pick(&SEEDS),
        };
        let asked = Asked::new(random, seed, count, out);
        let expected = asked.answered(load::generate);
        self.counts[count as usize] += 1;
        self.outs[out as usize] += 1;
        self.seeds[seed as usize] += 1;
        self.met[met(expected.0) as usize] += 1;
        let given = asked.answered(generate);
        let wrong = different(&given, &expected).or_else(|| {
            let load = &given.1[..given.0[1]];
            let back = Some(load).filter(|load| !load.is_empty()).map(back);
            let wrong = back.filter(|back| back.as_deref() != Ok(load));
            wrong.map(|back| format!("read and written back as {back:?}"))
        });
        let Asked { seed, digits, out } = asked;
        let bytes = out.lent();
        wrong.map(|wrong| format!("seed {seed}, {digits} digits, {bytes} out bytes\n{wrong}"))
    }
}

/// What an answer of the model tells.
fn met(answer: LoadAnswer) -> Met {
    match answer {
        [0, 0] => Met::Empty,
        [0, _] => Met::Written,
        _ => Met::TooFew,
    }
}

#[cfg(test)]
mod tests {
    use super::*;
    use std::cell::Cell;

    fn as_it_is(text: &[u8]) -> Result<Vec<u8>, usize> {
        Ok(text.to_vec())
    }

    /// On how many of 1,000 calls this differs from the model.
    fn differences(generate: impl Fn(u32, usize, &mut [u8]) -> LoadAnswer) -> usize {
        let (random, mut compared) = (&mut Random::new(10), Compared::default());
        let different = |_: &usize| compared.compare(random, &generate, as_it_is).is_some();
        (0..1_000).filter(different).count()
    }

    /// A wrong function is noticed if it differs on more than a few calls.
    fn noticed(what: &str, generate: impl Fn(u32, usize, &mut [u8]) -> LoadAnswer) {
        let different = differences(generate);
        assert!(different > 10, "{what}: {different}");
    }

    /// A generator in parts, of which a test changes one.
    #[derive(Clone, Copy)]
    struct Parts {
        begin: fn(u32) -> u64,
        next: fn(u64) -> u64,
        /// What is drawn, from the state before and the one after.
        draw: fn(u64, u64) -> u64,
        /// Whether so many trees can be exactly so many digits.
        possible: fn(usize, usize) -> bool,
        /// Which of the digits allowed a draw takes.
        place: fn(u64, usize) -> usize,
    }

    const RIGHT: Parts = Parts {
        begin: u64::from,
        next: |state| (state * 1_664_525 + 1_013_904_223) & 0xffff_ffff,
        draw: |_, after| after >> 16,
        possible: |trees, digits| match trees {
            0 => digits == 0,
            _ => trees <= digits,
        },
        place: |draw, allowed| draw as usize % allowed,
    };

    impl Parts {
        /// The digits of a load. A leaf is taken where no digit is allowed.
        fn load(&self, seed: u32, digits: usize) -> Vec<u8> {
            let (mut state, mut wanted) = ((self.begin)(seed), 1_usize);
            let mut text = Vec::new();
            for left in (0..digits).rev() {
                let before = state;
                state = (self.next)(state);
                let after = |digit: usize| (wanted + digit).saturating_sub(1);
                let allowed = (0..3).filter(|digit| (self.possible)(after(*digit), left));
                let allowed: Vec<usize> = allowed.collect();
                let draw = (self.draw)(before, state);
                let place = (self.place)(draw, allowed.len().max(1));
                let digit = allowed.get(place).copied().unwrap_or(0);
                wanted = after(digit);
                text.push(b'0' + digit as u8);
            }
            text
        }

        fn generate(&self, seed: u32, digits: usize, out: &mut [u8]) -> LoadAnswer {
            let answer = load::generate(seed, digits, out);
            out[..answer[1]].copy_from_slice(&self.load(seed, answer[1]));
            answer
        }
    }

    /// A generator with a wrong part is noticed.
    fn wrong_part(what: &str, change: fn(&mut Parts)) {
        let mut parts = RIGHT;
        change(&mut parts);
        noticed(what, |seed, digits, out: &mut [u8]| {
            parts.generate(seed, digits, out)
        });
    }

    /// The model and the parts, which find the digits allowed in another way.
    #[test]
    fn nothing_is_wrong() {
        assert_eq!(differences(load::generate), 0);
        let by_parts = |seed, digits, out: &mut [u8]| RIGHT.generate(seed, digits, out);
        assert_eq!(differences(by_parts), 0);
    }

    #[test]
    fn wrong_states() {
        wrong_part("the state is not kept to 32 bits", |parts| {
            parts.next = |state| state.wrapping_mul(1_664_525).wrapping_add(1_013_904_223);
        });
        wrong_part("the state has 31 bits", |parts| {
            parts.next = |state| (RIGHT.next)(state) & 0x7fff_ffff;
        });
        wrong_part("one less for the factor", |parts| {
            parts.next = |state| (state * 1_664_524 + 1_013_904_223) & 0xffff_ffff;
        });
        wrong_part("one more for what is added", |parts| {
            parts.next = |state| (state * 1_664_525 + 1_013_904_224) & 0xffff_ffff;
        });
        wrong_part("the sum is multiplied", |parts| {
            parts.next = |state| ((state + 1_013_904_223) * 1_664_525) & 0xffff_ffff;
        });
        wrong_part("the seed has 16 bits", |parts| {
            parts.begin = |seed| u64::from(seed & 0xffff);
        });
        wrong_part("the seed 0 is 1", |parts| {
            parts.begin = |seed| u64::from(seed.max(1));
        });
        wrong_part("two draws a digit", |parts| {
            parts.next = |state| (RIGHT.next)((RIGHT.next)(state));
        });
    }

    #[test]
    fn wrong_draws() {
        wrong_part("drawn before the state advances", |parts| {
            parts.draw = |before, _| before >> 16;
        });
        wrong_part("not divided", |parts| parts.draw = |_, after| after);
        wrong_part("the lower half", |parts| {
            parts.draw = |_, after| after & 0xffff;
        });
        wrong_part("divided by 32,768", |parts| {
            parts.draw = |_, after| after >> 15;
        });
        wrong_part("divided by 65,535", |parts| {
            parts.draw = |_, after| after / 65_535;
        });
        wrong_part("rounded up", |parts| {
            parts.draw = |_, after| after.div_ceil(65_536);
        });
        wrong_part("a state with a sign", |parts| {
            parts.draw = |_, after| (after as u32 as i32 >> 16).unsigned_abs().into();
        });
    }

    #[test]
    fn wrong_digits() {
        wrong_part("the remainder by three", |parts| {
            parts.place = |draw, allowed| (draw as usize % 3).min(allowed - 1);
        });
        wrong_part("descending order", |parts| {
            parts.place = |draw, allowed| allowed - 1 - draw as usize % allowed;
        });
        wrong_part("by the draw's size", |parts| {
            parts.place = |draw, allowed| (draw as usize * allowed) >> 16;
        });
        wrong_part("a tree that is whole too early", |parts| {
            parts.possible = |trees, digits| trees <= digits;
        });
        wrong_part("one tree more than digits", |parts| {
            parts.possible = |trees, digits| match trees {
                0 => digits == 0,
                _ => trees <= digits + 1,
            };
        });
        wrong_part("one tree fewer than digits", |parts| {
            parts.possible = |trees, digits| match trees {
                0 => digits == 0,
                1 => digits > 0,
                _ => trees < digits,
            };
        });
        wrong_part("no stems before the end", |parts| {
            parts.possible = |trees, digits| trees <= digits && (digits - trees) % 2 == 0;
        });
    }

    /// No draw where one digit is allowed is no difference: after such a place one is allowed at each.
    #[test]
    fn draws_that_decide_nothing() {
        let without = |seed: u32, digits: usize, out: &mut [u8]| {
            let answer = load::generate(seed, digits, out);
            let (mut state, mut wanted) = (u64::from(seed), 1);
            for (i, byte) in out[..answer[1]].iter_mut().enumerate() {
                let allowed = load::allowed(wanted, digits - 1 - i);
                if allowed.len() > 1 {
                    state = (RIGHT.next)(state);
                }
                *byte = allowed[(state >> 16) as usize % allowed.len()];
                wanted = wanted + usize::from(*byte) - usize::from(b'1');
            }
            answer
        };
        assert_eq!(differences(without), 0);
    }

    #[test]
    fn wrong_counts() {
        noticed(
            "4,096 digits are taken",
            |seed, digits, out: &mut [u8]| match out.get_mut(..digits) {
                Some(place) if digits == MOST + 1 => {
                    place.copy_from_slice(&RIGHT.load(seed, digits));
                    [0, digits]
                }
                _ => load::generate(seed, digits, out),
            },
        );
        noticed("4,095 digits are none", |seed, digits, out: &mut [u8]| {
            load::generate(seed, digits + usize::from(digits == MOST), out)
        });
        noticed("one digit is none", |seed, digits, out: &mut [u8]| {
            load::generate(seed, digits - usize::from(digits == 1), out)
        });
        noticed("no digits are one", |seed, digits, out: &mut [u8]| {
            load::generate(seed, digits.max(1), out)
        });
        noticed("a count has 16 bits", |seed, digits, out: &mut [u8]| {
            load::generate(seed, digits & 0xffff, out)
        });
        noticed("a count has 32 bits", |seed, digits, out: &mut [u8]| {
            load::generate(seed, digits & 0xffff_ffff, out)
        });
        noticed("10 comes first", |seed, digits, out: &mut [u8]| {
            if out.len() < digits {
                return [10, 0];
            }
            load::generate(seed, digits, out)
        });
    }

    #[test]
    fn wrong_out_bytes() {
        noticed(
            "too few are written in part",
            |seed, digits, out: &mut [u8]| {
                let answer = load::generate(seed, digits, out);
                if answer[0] == 10 {
                    out.copy_from_slice(&RIGHT.load(seed, digits)[..out.len()]);
                }
                answer
            },
        );
        noticed("just enough are too few", |seed, digits, out: &mut [u8]| {
            if out.len() == digits && digits > 0 {
                return [10, 0];
            }
            load::generate(seed, digits, out)
        });
        noticed(
            "one too few are enough",
            |seed, digits, out: &mut [u8]| match load::generate(seed, digits, out) {
                [10, 0] if out.len() + 1 == digits => {
                    out.copy_from_slice(&RIGHT.load(seed, digits)[..out.len()]);
                    [0, digits]
                }
                answer => answer,
            },
        );
    }

    #[test]
    fn wrong_bytes() {
        noticed("those past it are 0", |seed, digits, out: &mut [u8]| {
            let answer = load::generate(seed, digits, out);
            if answer[1] > 0 {
                out[answer[1]..].fill(0);
            }
            answer
        });
        noticed(
            "an empty load leaves zeros",
            |seed, digits, out: &mut [u8]| {
                let answer = load::generate(seed, digits, out);
                if answer == [0, 0] {
                    out.fill(0);
                }
                answer
            },
        );
        noticed("numbers for digits", |seed, digits, out: &mut [u8]| {
            let answer = load::generate(seed, digits, out);
            out[..answer[1]].iter_mut().for_each(|byte| *byte -= b'0');
            answer
        });
        noticed("right to left", |seed, digits, out: &mut [u8]| {
            let answer = load::generate(seed, digits, out);
            out[..answer[1]].reverse();
            answer
        });
    }

    #[test]
    fn wrong_answers() {
        let other_answer = |what, change: fn(LoadAnswer, usize) -> LoadAnswer| {
            noticed(what, |seed, digits, out: &mut [u8]| {
                change(load::generate(seed, digits, out), digits)
            });
        };
        other_answer("no digits", |[refusal, _], _| [refusal, 0]);
        other_answer("a digit less", |[refusal, digits], _| {
            [refusal, digits.saturating_sub(1)]
        });
        other_answer("digits with 10", |[refusal, digits], asked| {
            [refusal, if refusal == 10 { asked } else { digits }]
        });
        other_answer("9 for 10", |[refusal, digits], _| [refusal.min(9), digits]);
        other_answer("4 for an empty load", |answer, _| match answer {
            [0, 0] => [4, 0],
            answer => answer,
        });
    }

    /// The state of one call is not the seed of the next.
    #[test]
    fn a_state_that_is_kept() {
        let kept = Cell::new(0);
        noticed("a state that is kept", |seed, digits, out: &mut [u8]| {
            let answer = load::generate(seed ^ kept.get(), digits, out);
            kept.set(kept.get().wrapping_add(answer[1] as u32));
            answer
        });
    }

    /// A load that is refused, or comes back as another text, is noticed.
    #[test]
    fn loads_that_do_not_come_back() {
        type Back = fn(&[u8]) -> Result<Vec<u8>, usize>;
        let wrong: [Back; 2] = [|_| Err(4), |text| Ok([b"1", text].concat())];
        for back in wrong {
            let (random, mut compared) = (&mut Random::new(11), Compared::default());
            let wrong = (0..1_000).filter_map(|_| compared.compare(random, load::generate, back));
            assert_eq!(wrong.count(), compared.met[Met::Written as usize]);
        }
    }

    /// Each kind of count is what it is called, by what the model answers with each kind of out bytes.
    #[test]
    fn kinds_of_calls() {
        let random = &mut Random::new(12);
        for count in COUNTS {
            let inside = !matches!(count, Count::Zero | Count::OneMore | Count::Far);
            for out in OUTS {
                let asked = Asked::new(random, Seed::Any, count, out);
                let expected = match inside {
                    false => [0, 0],
                    true if asked.out.lent() < asked.digits => [10, 0],
                    true => [0, asked.digits],
                };
                assert_eq!(asked.answered(load::generate).0, expected);
            }
        }
    }
}
