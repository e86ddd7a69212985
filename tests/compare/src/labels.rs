//! `label_packet` beside the second evaluator and the model, on the packets that Run is compared on and
//! at the borders of the room that each stage needs.

use crate::runs::{kept, line, second_room, with_few_frames};
use crate::{difference, hexadecimal, Counts, Noise};
use compare::packets::{self, Case};
use compare::random::Random;
use compare::{add, answer_of, labelled_line, PAPERS};
use model::{Answer, Stage};

/// What each stage can lack. Write cannot lack a frame: the fork of the whole is held while the label is
/// written, which holds one frame less than its Read had, and beside it for one leaf the fork of that
/// leaf and the label; then the fork of the rule's stem and KK while the rule is written, for each of
/// whose nodes Translate had two frames.
pub const LACKS: [(Stage, usize); 6] = [
    (Stage::Translate, 8),
    (Stage::Translate, 9),
    (Stage::Read, 8),
    (Stage::Read, 9),
    (Stage::Label, 8),
    (Stage::Write, 10),
];

fn second_line(case: &Case) -> String {
    match second_room(case.room) {
        None => "1 0 0 -".to_string(),
        Some(room) => labelled_line(&second::labelled(&case.packet, room, PAPERS)),
    }
}

/// What came of packets: how often each refusal was met, and 0 for success; how often each stage lacked
/// each thing; and how many differ.
#[derive(Default)]
pub struct Compared {
    pub counts: Counts,
    pub lacked: [usize; LACKS.len()],
    pub differences: usize,
}

impl Compared {
    pub fn add(&mut self, other: &Self) {
        add(&mut self.counts, &other.counts);
        add(&mut self.lacked, &other.lacked);
        self.differences += other.differences;
    }

    /// Labels a case and adds what came of it. Gives the engine's answer.
    fn check(&mut self, random: &mut Random, noise: &Noise, case: &Case) -> Answer {
        let room = case.room;
        let before = noise.memory(random, room.table, room.stack, room.out);
        let mut engine = before.clone();
        let answer = answer_of(lazvorn::label_packet(
            &mut engine.table,
            &mut engine.stack,
            &mut engine.out,
            &case.packet,
        ));
        let mut expected = before.clone();
        let (modelled, stage) = model::label_packet_to(&mut expected, &case.packet);
        let refusal = modelled[0];
        self.counts[refusal] += 1;

        let mut wrong = Vec::new();
        if refusal != 0 && stage != Stage::Checks {
            match LACKS.iter().position(|lack| *lack == (stage, refusal)) {
                Some(lack) => self.lacked[lack] += 1,
                None => wrong.push(format!("{stage:?} cannot be refused with {refusal}")),
            }
        }
        let (ours, theirs) = (line(&answer, &engine.out), second_line(case));
        if ours != theirs {
            wrong.push(format!("engine: {ours}\nsecond: {theirs}"));
        }
        if answer != modelled {
            wrong.push(format!("engine: {answer:?}\nmodel:  {modelled:?}"));
        }
        wrong.extend(difference(&engine, &expected));
        if !kept(&before, &engine, &answer) {
            wrong.push("memory is not as the answer's number says".to_string());
        }
        if !wrong.is_empty() {
            println!("label_packet {}\nin {room:?}", hexadecimal(&case.packet));
            println!("{}", wrong.join("\n"));
            self.differences += 1;
        }
        answer
    }

    /// Compares on a case, and where it succeeds now and then at the borders of the room it needs.
    pub fn compare(&mut self, random: &mut Random, noise: &Noise, case: &Case) {
        let [refusal, _, used, _, digits] = self.check(random, noise, case);
        if refusal != 0 || case.parts.is_none() {
            return;
        }
        for _ in 0..random.below(4) {
            let case = packets::at_label_border(random, case, used, digits);
            self.check(random, noise, &case);
        }
        if random.once_in(4) {
            let enough = |case: &Case| second_line(case).starts_with("0 ");
            let case = with_few_frames(random, case, enough);
            self.check(random, noise, &case);
        }
    }
}
