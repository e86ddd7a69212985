//! Run and `stopped` beside the second evaluator and the model, and Run beside itself on the packet without
//! its label.

use crate::{difference, hexadecimal, Counts, Noise};
use compare::packets::{self, Case, Label, Parts, Room, WRONG_LABELS};
use compare::random::Random;
use compare::stops::{self, Ran};
use compare::{add, counted_of, second_stopped, stopped_of, PAPERS};
use model::{Counted, Memory, Stopped};

/// The line that the program would print for a run, and the uses of each rule.
type Told = (String, [usize; 5]);

/// The line that a program would print for an answer: refusal, steps, used and text.
pub fn line(answer: &[usize], out: &[u8]) -> String {
    let (refusal, used, steps, digits) = (answer[0], answer[2], answer[3], answer[4]);
    let text = if refusal == 0 {
        String::from_utf8_lossy(&out[..digits]).into_owned()
    } else {
        "-".to_string()
    };
    format!("{refusal} {steps} {used} {text}")
}

fn told(answer: &Counted, out: &[u8]) -> Told {
    let [_, _, _, _, _, uses @ ..] = *answer;
    (line(answer, out), uses)
}

/// The room that the second evaluator is told of, if no length is refused with 1.
pub fn second_room(room: Room) -> Option<second::Room> {
    let fits = room.table <= 131_072 && room.stack <= 65_536 && room.out <= 65_535;
    fits.then_some(second::Room {
        nodes: room.table / 2,
        frames: room.stack / 3,
        out: room.out,
    })
}

/// What the second evaluator tells of a run, and where it stopped. Of a refusal its number is all that it
/// tells, so that only a run that completes is run for its outcome too.
fn second_told(case: &Case) -> (Told, Stopped) {
    let Some(room) = second_room(case.room) else {
        return (("1 0 0 -".to_string(), [0; 5]), [1, 0, 0, 0]);
    };
    let stopped = second::stopped(&case.packet, room, PAPERS);
    let ran = match stopped.number {
        0 => second::run(&case.packet, room, PAPERS),
        number => Err(number),
    };
    let uses = ran.as_ref().map_or([0; 5], |outcome| outcome.uses);
    let told = (second::line(&ran), uses.map(|count| count as usize));
    (told, second_stopped(&stopped))
}

/// Whether a packet's run succeeds by the second evaluator.
fn second_succeeds(case: &Case) -> bool {
    let room = second_room(case.room);
    room.is_some_and(|room| second::run(&case.packet, room, PAPERS).is_ok())
}

/// Whether memory is as the paper says that every refusal and every success leaves it, where the table
/// was taken as empty. This knows of the answer alone, and the model, which fixes every word, is
/// compared besides.
pub fn kept(before: &Memory, after: &Memory, answer: &[usize]) -> bool {
    let (refusal, used, digits) = (answer[0], answer[2], answer[4]);
    let zero = after.stack.iter().all(|word| *word == 0);
    match refusal {
        0 => {
            zero && after.table[2 * used..] == before.table[2 * used..]
                && after.out[digits..] == before.out[digits..]
        }
        1..=6 => before == after,
        _ => {
            // Words set to 0 come first, then words as found.
            let same = before.table.iter().zip(&after.table).rev();
            let kept = same.take_while(|(b, a)| b == a).count();
            let rest = after.table.len() - kept;
            zero && before.out == after.out && after.table[..rest].iter().all(|word| *word == 0)
        }
    }
}

/// The engine's Run.
pub fn run(memory: &mut Memory, packet: &[u8]) -> Counted {
    counted_of(lazvorn::run(
        &mut memory.table,
        &mut memory.stack,
        &mut memory.out,
        packet,
    ))
}

/// The engine's `stopped`.
fn stopped(memory: &mut Memory, packet: &[u8]) -> Stopped {
    stopped_of(lazvorn::stopped(
        &mut memory.table,
        &mut memory.stack,
        &mut memory.out,
        packet,
    ))
}

/// The packet without its label, where "that text is whole and the packet keeps within 16,384 bytes".
fn without_label(case: &Case) -> Option<Vec<u8>> {
    let parts = case.parts.as_ref()?;
    let passed_over = case.label == Label::Whole && case.packet.len() <= 16_384;
    passed_over.then(|| {
        Parts {
            label: None,
            ..parts.clone()
        }
        .packet()
    })
}

/// What is wrong with an answer and with what it left, by the engine alone: memory, or another outcome of
/// the packet without its label.
fn alone(case: &Case, answer: &Counted, before: &Memory, after: &Memory) -> Vec<String> {
    let mut wrong = Vec::new();
    if !kept(before, after, answer) {
        wrong.push("memory is not as the answer's number says".to_string());
    }
    if let Some(packet) = without_label(case) {
        let mut memory = before.clone();
        if run(&mut memory, &packet) != *answer || memory != *after {
            wrong.push("the packet without its label has another outcome".to_string());
        }
    }
    wrong
}

/// What came of packets: how often each refusal was met, and 0 for success; in how many of those that
/// succeeded each rule was used; in how many the label was passed over, and in how many each kind of
/// wrong label met its refusal; what came of stops; and how many differ.
#[derive(Default)]
pub struct Compared {
    pub counts: Counts,
    pub using: [usize; 5],
    pub passed_over: usize,
    pub wrong_labels: [usize; WRONG_LABELS.len()],
    pub stops: stops::Compared,
    pub differences: usize,
}

impl Compared {
    pub fn packets(&self) -> usize {
        self.counts.iter().sum()
    }

    pub fn add(&mut self, other: &Self) {
        add(&mut self.counts, &other.counts);
        add(&mut self.using, &other.using);
        add(&mut self.wrong_labels, &other.wrong_labels);
        self.stops.add(&other.stops);
        self.passed_over += other.passed_over;
        self.differences += other.differences;
    }

    fn count(&mut self, case: &Case, modelled: &Counted) {
        let [refusal, _, _, _, _, uses @ ..] = *modelled;
        self.counts[refusal] += 1;
        self.using = std::array::from_fn(|rule| self.using[rule] + usize::from(uses[rule] > 0));
        if case.label == Label::Whole && refusal == 0 {
            self.passed_over += 1;
        }
        let wrong = WRONG_LABELS.iter().position(|label| *label == case.label);
        if let Some(kind) = wrong.filter(|_| case.label.refusal() == refusal) {
            self.wrong_labels[kind] += 1;
        }
    }

    /// Runs a case and adds what came of it. Gives the engine's answer, and where it stopped by the model.
    fn check(&mut self, random: &mut Random, noise: &Noise, case: &Case) -> (Counted, Stopped) {
        let room = case.room;
        let before = noise.memory(random, room.table, room.stack, room.out);
        let mut engine = before.clone();
        let answer = run(&mut engine, &case.packet);
        let mut expected = before.clone();
        let (modelled, model) = model::run_to(&mut expected, &case.packet);
        self.count(case, &modelled);

        let mut wrong = Vec::new();
        let ours = told(&answer, &engine.out);
        let (theirs, second) = second_told(case);
        if ours != theirs {
            wrong.push(format!("engine: {ours:?}\nsecond: {theirs:?}"));
        }
        if answer != modelled {
            wrong.push(format!("engine: {answer:?}\nmodel:  {modelled:?}"));
        }
        wrong.extend(difference(&engine, &expected));
        wrong.extend(alone(case, &answer, &before, &engine));
        let ran = Ran {
            packet: &case.packet,
            before: &before,
            left: &engine,
            second,
            model,
        };
        wrong.extend(self.stops.compare(stopped, random, &ran));
        if !wrong.is_empty() {
            println!("packet {}\nin {room:?}", hexadecimal(&case.packet));
            println!("{}", wrong.join("\n"));
            self.differences += 1;
        }
        (answer, model)
    }

    /// Compares on a case, and now and then where it succeeds at the borders of the room it needs, and where
    /// a node or a frame is lacking with too few steps for that use.
    pub fn compare(&mut self, random: &mut Random, noise: &Noise, case: &Case) {
        let (answer, [number, place, steps, _]) = self.check(random, noise, case);
        if case.parts.is_none() {
            return;
        }
        if matches!(number, 8 | 9) && place != 0 && random.once_in(2) {
            let case = packets::with_steps(random, case, steps);
            self.check(random, noise, &case);
        }
        let [refusal, _, used, steps, digits, ..] = answer;
        if refusal != 0 {
            return;
        }
        for _ in 0..random.below(4) {
            let case = packets::at_border(random, case, used, steps, digits);
            self.check(random, noise, &case);
        }
        if random.once_in(8) {
            let case = with_few_frames(random, case, second_succeeds);
            self.check(random, noise, &case);
        }
    }
}

/// A case that succeeds, with just enough frames by the second evaluator, or one too few.
pub fn with_few_frames(random: &mut Random, case: &Case, succeeds: impl Fn(&Case) -> bool) -> Case {
    let mut case = case.clone();
    let (mut few, mut enough) = (0, case.room.stack / 3);
    while few < enough {
        let middle = (few + enough) / 2;
        case.room.stack = 3 * middle;
        if succeeds(&case) {
            enough = middle;
        } else {
            few = middle + 1;
        }
    }
    case.room.stack = (3 * enough + 2).saturating_sub(random.below(4));
    case
}
