//! What is applied to what.

use crate::evaluator::evaluator;
use compare::counted_of;
use compare::packets::Parts;

/// One application, ready to be made over and over: a call writes only nodes past `used` and the
/// stack, and leaves the stack zero.
pub struct Workload {
    pub name: &'static str,
    pub table: Vec<u32>,
    pub stack: Vec<u32>,
    pub used: usize,
    pub function: usize,
    pub argument: usize,
    pub limit: usize,
    /// A packet whose run ends in the same application.
    pub parts: Parts,
    pub answer: model::Counted,
}

const SELF: &[u8] = &[2, 1, 3, 0, 3, 0];
const STEM_OF_SELF: &[u8] = &[2, 1, 0, 1, 3, 0, 3, 0];
const IDENTITY: &[u8] = &[2, 3, 0];
const STEM: &[u8] = &[2, 1, 0, 3, 0];
const ZERO: &[u8] = &[2, 2, 3, 0];
const SUCCESSOR: &[u8] = &[2, 2, 2, 1, 3, 1, 3, 2];
/// λf.λn. n (λm. Δ(f f m)) Δ.
const COUNT: &[u8] = &[2, 2, 1, 1, 3, 0, 2, 1, 0, 1, 1, 3, 2, 3, 2, 3, 0, 0];

/// λf.λx. f applied n times to x.
fn times(n: usize) -> Vec<u8> {
    let mut rule = vec![2, 2];
    rule.extend([1, 3, 1].repeat(n));
    rule.extend([3, 0]);
    rule
}

fn text_of(rule: &[u8]) -> Vec<u8> {
    model::tree_text(rule, 10_000).expect("a rule of moderate size")
}

/// The text of what a rule gives on arguments.
fn applied(rule: &[u8], arguments: &[Vec<u8>]) -> Vec<u8> {
    let (mut table, mut stack, mut out) = (vec![0; 131_072], vec![0; 65_535], vec![0; 65_535]);
    let mut made = lazvorn::translate(&mut table, 0, &mut stack, rule);
    for text in arguments {
        let read = lazvorn::read(&mut table, made.used, &mut stack, text);
        let applied = lazvorn::apply(
            &mut table, read.used, &mut stack, made.node, read.node, 1_000_000,
        );
        made = applied.numbers();
        assert_eq!(made.refusal, 0);
    }
    let written = lazvorn::write(&table, made.used, &mut stack, made.node, &mut out);
    assert_eq!(written.refusal, 0);
    out.truncate(written.digits);
    out
}

/// The text of a number of successors of zero.
fn number(n: usize) -> Vec<u8> {
    let (mut table, mut stack, mut out) = (vec![0; 131_072], vec![0; 65_535], vec![0; 65_535]);
    let zero = lazvorn::translate(&mut table, 0, &mut stack, ZERO);
    let successor = lazvorn::translate(&mut table, zero.used, &mut stack, SUCCESSOR);
    let (mut node, mut used) = (zero.node, successor.used);
    for _ in 0..n {
        let applied = lazvorn::apply(&mut table, used, &mut stack, successor.node, node, 1_000);
        assert_eq!(applied.refusal, 0);
        (node, used) = (applied.node, applied.used);
    }
    let written = lazvorn::write(&table, used, &mut stack, node, &mut out);
    assert_eq!(written.refusal, 0);
    out.truncate(written.digits);
    out
}

impl Workload {
    fn new(
        name: &'static str,
        rule: &[u8],
        arguments: Vec<Vec<u8>>,
        limit: usize,
        (nodes, frames): (usize, usize),
    ) -> Workload {
        let (mut table, mut stack) = (vec![0; 2 * nodes], vec![0; 3 * frames]);
        let translated = lazvorn::translate(&mut table, 0, &mut stack, rule);
        assert_eq!(translated.refusal, 0, "{name}");
        let (mut function, mut used) = (translated.node, translated.used);
        let mut read = Vec::new();
        for text in &arguments {
            let numbers = lazvorn::read(&mut table, used, &mut stack, text);
            assert_eq!(numbers.refusal, 0, "{name}");
            used = numbers.used;
            read.push(numbers.node);
        }
        let (argument, before) = read.split_last().expect("an argument");
        for node in before {
            let applied = lazvorn::apply(&mut table, used, &mut stack, function, *node, limit);
            assert_eq!(applied.refusal, 0, "{name}");
            (function, used) = (applied.node, applied.used);
        }
        let parts = Parts {
            rule: rule.to_vec(),
            arguments,
            limit: Some(limit as u32),
            label: None,
        };
        let mut workload = Workload {
            name,
            table,
            stack,
            used,
            function,
            argument: *argument,
            limit,
            parts,
            answer: [0; 10],
        };
        workload.answer = workload.apply();
        workload
    }

    pub fn apply(&mut self) -> model::Counted {
        counted_of(lazvorn::apply(
            &mut self.table,
            self.used,
            &mut self.stack,
            self.function,
            self.argument,
            self.limit,
        ))
    }
}

/// The most nodes and frames.
const MOST: (usize, usize) = (65_536, 21_845);

/// λx. x x on itself, cut off by a step limit.
pub fn endless(limit: usize) -> Workload {
    Workload::new(
        "endless, cut by its limit",
        SELF,
        vec![text_of(SELF)],
        limit,
        MOST,
    )
}

/// λf. f f (λx. Δx) Δ on the rule that applies five times: a long evaluation of a packet with one
/// argument.
pub fn stems() -> Parts {
    Parts {
        rule: [&[2, 1, 1, 1, 3, 0, 3, 0], STEM, &[0]].concat(),
        arguments: vec![text_of(&times(5))],
        limit: Some(1_000_000),
        label: None,
    }
}

pub fn all() -> Vec<Workload> {
    let (three, five) = (times(3), times(5));
    vec![
        endless(100_000),
        Workload::new(
            "endless inside an application, cut by its limit",
            STEM_OF_SELF,
            vec![text_of(STEM_OF_SELF)],
            100_000,
            MOST,
        ),
        Workload::new(
            "long evaluation: 5 to the 5th stems",
            &five,
            vec![text_of(&five), text_of(STEM), b"0".to_vec()],
            1_000_000,
            MOST,
        ),
        Workload::new(
            "a self-evaluator on the evaluation of 3 to the 3rd stems",
            IDENTITY,
            vec![
                evaluator(),
                applied(&three, &[text_of(&three), text_of(STEM)]),
                b"0".to_vec(),
            ],
            1_000_000,
            MOST,
        ),
        Workload::new(
            "a fixpoint that counts to 200",
            COUNT,
            vec![text_of(COUNT), number(200)],
            1_000_000,
            MOST,
        ),
        Workload::new(
            "short call, 4 steps, little room",
            IDENTITY,
            vec![b"0".to_vec()],
            100,
            (64, 16),
        ),
        Workload::new(
            "short call, 4 steps, the program's room",
            IDENTITY,
            vec![b"0".to_vec()],
            10_000,
            (8_192, 4_096),
        ),
    ]
}

#[cfg(test)]
mod tests {
    use super::*;

    /// The self-evaluator, and it on itself, give what the program gives.
    #[test]
    fn self_evaluator_gives_what_the_program_gives() {
        let programs = [
            "0", "10", "200", "21010", "210100", "2100", "22000", "2201000",
        ];
        for program in programs {
            for argument in ["0", "10", "200", "2100"] {
                let [m, n] = [program, argument].map(|text| text.as_bytes().to_vec());
                let alone = applied(IDENTITY, &[m.clone(), n.clone()]);
                let once = applied(IDENTITY, &[evaluator(), m.clone(), n.clone()]);
                let twice = applied(IDENTITY, &[evaluator(), evaluator(), m, n]);
                assert_eq!(alone, once, "{program} {argument}");
                assert_eq!(alone, twice, "{program} {argument}");
            }
        }
    }
}
