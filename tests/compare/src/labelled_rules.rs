//! "Without resource limits, a labelled rule on an argument gives the rule's tree in exactly six more
//! steps, and has no tree where the rule has none." ([4]) Apply of a labelled rule beside the model and
//! beside Apply of the rule alone; and the labelled rule of a packet, filed as text and run, beside the
//! second evaluator. There is room for every step.

use crate::calls::apply_in;
use crate::runs::{line, run};
use crate::{Counts, Noise};
use compare::packets::{Parts, PROGRAM};
use compare::random::Random;
use compare::{counted_of, trees, LABEL_NODES, PAPERS};
use model::{same_tree, Counted, Memory};

/// How many more uses of leaf, stem, drop, spread and triage, and how many steps that is.
const MORE: [usize; 5] = [0, 1, 3, 2, 0];
const STEPS: usize = 6;

/// The step limit of a rule alone. Of one that does not end by then nothing is known but that.
const LIMIT: usize = 1_500;

/// λx. x, and the steps that it takes.
const SAME: &[u8] = &[2, 3, 0];
const SAME_STEPS: usize = 4;

/// What came of labelled rules: how often each refusal was met, and 0 for success; how many succeeded
/// whose label does not end on the argument; how many rules do not end on it; how often those that were
/// filed met each refusal; and how many differ.
#[derive(Default)]
pub struct Compared {
    pub counts: Counts,
    pub endless_labels: usize,
    pub endless_rules: usize,
    pub filed: Counts,
    pub differences: usize,
}

/// A table with the trees of a rule, a label and an argument, and room for each step of the labelled
/// rule to make a node and hold a frame.
struct Planted {
    memory: Memory,
    used: usize,
    rule: usize,
    label: usize,
    argument: usize,
}

/// The text of one of these rules.
fn text_of(random: &mut Random, rules: &[&[u8]]) -> Vec<u8> {
    let rule = *random.pick(rules);
    trees::text_of(rule)
}

/// A text of a rule that never ends on itself, and on most others of these, or of any tree.
fn text(random: &mut Random, any: impl Fn(&mut Random) -> Vec<u8>) -> Vec<u8> {
    if random.once_in(2) {
        text_of(random, trees::ENDLESS)
    } else {
        any(random)
    }
}

fn plant(random: &mut Random, noise: &Noise) -> Planted {
    let rule = if random.once_in(3) {
        text(random, trees::text)
    } else {
        text_of(random, trees::RULES)
    };
    let texts = [rule, text(random, trees::text), text(random, trees::text)];
    let digits: usize = texts.iter().map(Vec::len).sum();
    let room = digits + LABEL_NODES + LIMIT + STEPS + 1;
    let mut memory = noise.memory(random, 2 * room, 3 * room, 0);
    let mut used = 0;
    let [rule, label, argument] = texts.map(|text| {
        let read = model::read(&mut memory, used, &text);
        used = read[2];
        read[1]
    });
    Planted {
        memory,
        used,
        rule,
        label,
        argument,
    }
}

/// The engine's Apply.
fn applied(memory: &mut Memory, used: usize, nodes: [usize; 2], limit: usize) -> Counted {
    let [function, argument] = nodes;
    let (table, stack) = (&mut memory.table, &mut memory.stack);
    counted_of(lazvorn::apply(
        table, used, stack, function, argument, limit,
    ))
}

impl Compared {
    /// Labels a rule and applies it with just enough steps, one too few or one more. Where the rule alone
    /// lacks steps, the labelled one does with six more.
    fn check(&mut self, random: &mut Random, planted: &Planted) -> Option<String> {
        let Planted { used, argument, .. } = *planted;
        let mut alone = planted.memory.clone();
        let bare = applied(&mut alone, used, [planted.rule, argument], LIMIT);
        let mut labelled = planted.memory.clone();
        let made = lazvorn::label(&mut labelled.table, used, planted.rule, planted.label);
        let limit = match bare[0] {
            0 => random.near(bare[3] + STEPS),
            _ => LIMIT + STEPS,
        };
        let nodes = [made.node, argument];
        let call = apply_in(&labelled, made.used, nodes, limit);
        let answer = applied(&mut labelled, made.used, nodes, limit);
        self.counts[call.refusal] += 1;

        let fine = if bare[0] == 0 && limit >= bare[3] + STEPS {
            self.count_label(planted);
            let uses: [usize; 5] = std::array::from_fn(|rule| bare[5 + rule] + MORE[rule]);
            answer[0] == 0
                && answer[3] == bare[3] + STEPS
                && answer[5..] == uses
                && same_tree((&alone.table, bare[1]), (&labelled.table, answer[1]))
        } else {
            self.endless_rules += usize::from(bare[0] != 0);
            answer[0] == 7 && (bare[0] == 0 || bare[0] == 7)
        };
        let differs = format!("limit {limit}: {answer:?}, the rule alone {bare:?}");
        call.difference.or((!fine).then_some(differs))
    }

    fn count_label(&mut self, planted: &Planted) {
        let Planted { used, argument, .. } = *planted;
        let memory = &mut planted.memory.clone();
        let [refusal, ..] = model::apply(memory, used, planted.label, argument, LIMIT);
        self.endless_labels += usize::from(refusal == 7);
    }

    /// Labels a packet's rule, and runs λx. x on the labelled tree's text and the packet's argument, with
    /// just enough steps, one too few or one more.
    fn check_filed(&mut self, random: &mut Random) -> Option<String> {
        let [label, argument] = [(); 2].map(|()| text(random, |random| trees::tree(random, 40)));
        let rule = random.pick(trees::RULES).to_vec();
        let packet = packet_of(rule, vec![argument.clone()], LIMIT, Some(label));
        let alone = second::run(&packet, second::PROGRAM, PAPERS);
        let limit = match &alone {
            Ok(outcome) => random.near(enough(outcome.steps as usize)),
            Err(_) => enough(LIMIT),
        };
        let mut memory = Memory {
            table: vec![0; PROGRAM.table],
            stack: vec![0; PROGRAM.stack],
            out: vec![0; PROGRAM.out],
        };
        let (table, stack) = (&mut memory.table, &mut memory.stack);
        let digits = lazvorn::label_packet(table, stack, &mut memory.out, &packet).digits;
        let labelled = memory.out[..digits].to_vec();
        let packet = packet_of(SAME.to_vec(), vec![labelled, argument], limit, None);
        let answer = run(&mut memory, &packet);
        self.filed[answer[0]] += 1;
        let second = second::run(&packet, second::PROGRAM, PAPERS);
        let (ours, theirs) = (line(&answer, &memory.out), second::line(&second));
        let second = second.map(|outcome| (outcome.steps as usize, outcome.text));
        let differs = format!("filed, limit {limit}: {ours}, by the second {theirs}");
        (ours != theirs || second != filed(alone, limit)).then_some(differs)
    }

    fn add(&mut self, difference: Option<String>) {
        if let Some(difference) = difference {
            println!("a labelled rule, {difference}");
            self.differences += 1;
        }
    }
}

/// The steps of λx. x on a labelled rule, and of this on an argument on which the rule takes so many.
fn enough(steps: usize) -> usize {
    steps + SAME_STEPS + STEPS
}

/// Steps and text of that under a limit, where the rule alone came to this.
fn filed(
    alone: Result<second::Outcome, second::Refusal>,
    limit: usize,
) -> Result<(usize, String), second::Refusal> {
    let outcome = alone?;
    let steps = enough(outcome.steps as usize);
    if limit < steps {
        return Err(7);
    }
    Ok((steps, outcome.text))
}

fn packet_of(
    rule: Vec<u8>,
    arguments: Vec<Vec<u8>>,
    limit: usize,
    label: Option<Vec<u8>>,
) -> Vec<u8> {
    let limit = Some(limit as u32);
    Parts {
        rule,
        arguments,
        limit,
        label,
    }
    .packet()
}

/// Labels and applies so many rules, and files a quarter as many.
pub fn compare(random: &mut Random, noise: &Noise, rules: usize) -> Compared {
    let mut compared = Compared::default();
    for i in 0..rules {
        let planted = plant(random, noise);
        let difference = compared.check(random, &planted);
        compared.add(difference);
        if i % 4 == 0 {
            let difference = compared.check_filed(random);
            compared.add(difference);
        }
    }
    compared
}
