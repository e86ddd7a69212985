//! What the comparison, the program's test and the benchmark share: packets, rules, texts and rule
//! texts from a seeded generator, tables and out bytes to lend, an answer as a list of numbers or as a program's
//! line, stops tried again with one more of what they name, loads, weeks of windows, short codes and weights beside
//! the model, and which requests of document 02 hold.

pub mod codes;
pub mod lent;
pub mod loads;
pub mod packets;
pub mod random;
pub mod stops;
pub mod tables;
pub mod texts;
pub mod trees;
pub mod weeks;
pub mod weight_trees;
pub mod weights;

/// What the second evaluator goes by: document 01 and, of document 02, [2], [1], [4] and [8]. It tells
/// the uses of each rule ([5]) and where a run stopped ([14]) whatever holds.
pub const PAPERS: second::Papers = second::Papers {
    default_limit: 100_000,
    labels: true,
    constant_labels: true,
    shared: true,
};

/// "Eight nodes are needed" to label a rule ([4]); fewer of them are new, the leaf at least being there ([8]).
pub const LABEL_NODES: usize = 8;

/// What the second evaluator says of a packet's labelled rule, as the program `label_packet` prints it.
pub fn labelled_line(labelled: &Result<(usize, String), second::Refusal>) -> String {
    match labelled {
        Ok((used, text)) => format!("0 0 {used} {text}"),
        Err(number) => format!("{number} 0 0 -"),
    }
}

/// What the second evaluator says of where a packet's run stopped, as the models list it.
pub fn second_stopped(stopped: &second::Stopped) -> model::Stopped {
    let (place, steps, rule) = stopped.applying.unwrap_or_default();
    [usize::from(stopped.number), place, steps as usize, rule]
}

/// The names of the five rules, in document 01's order.
pub const RULES: [&str; 5] = ["leaf", "stem", "drop", "spread", "triage"];

/// Where a run stopped, as the program `stopped` prints it.
pub fn stopped_line([number, place, steps, rule]: model::Stopped) -> String {
    match rule {
        0 => number.to_string(),
        rule => format!("{number} {place} {steps} {}", RULES[rule - 1]),
    }
}

/// The numbers of an answer from the engine, as the models list them.
pub fn answer_of(numbers: lazvorn::Numbers) -> model::Answer {
    [
        numbers.refusal,
        numbers.node,
        numbers.used,
        numbers.steps,
        numbers.digits,
    ]
}

/// The same of an answer about a labelled tree, with the label's node.
pub fn parts_of(parts: lazvorn::Parts) -> model::Parts {
    [
        parts.refusal,
        parts.rule,
        parts.used,
        parts.steps,
        parts.digits,
        parts.label,
    ]
}

/// The same of an answer about two nodes.
pub fn same_of(same: lazvorn::Same) -> model::Same {
    [same.refusal, same.equal]
}

/// The same of an answer about where a run stopped.
pub fn stopped_of(stopped: lazvorn::Stopped) -> model::Stopped {
    [stopped.refusal, stopped.place, stopped.steps, stopped.rule]
}

/// The same of an answer about a load.
pub fn load_of(answer: lazvorn::LoadNumbers) -> model::load::LoadAnswer {
    [answer.refusal, answer.digits]
}

/// The same of an answer that gives a number or none.
pub fn given_of(answer: lazvorn::Given) -> model::Given {
    [answer.refusal, answer.found, answer.number]
}

/// The same of an answer about a weight's grams.
pub fn grams_of(answer: lazvorn::Grams) -> model::weight::Grams {
    [answer.refusal, answer.grams]
}

/// The same of an answer about two weights.
pub fn compared_of(answer: lazvorn::Compared) -> model::weight::Compared {
    [answer.refusal, answer.order]
}

/// The same of an answer of Apply or Run, with the uses of each rule.
pub fn counted_of(answer: lazvorn::Counted) -> model::Counted {
    let [refusal, node, used, steps, digits] = answer_of(answer.numbers());
    let uses = answer.uses;
    [
        refusal,
        node,
        used,
        steps,
        digits,
        uses.leaf,
        uses.stem,
        uses.drop,
        uses.spread,
        uses.triage,
    ]
}

/// Adds the numbers of one list to those of another.
pub fn add<const N: usize>(to: &mut [usize; N], numbers: &[usize; N]) {
    for (to, number) in to.iter_mut().zip(numbers) {
        *to += number;
    }
}
