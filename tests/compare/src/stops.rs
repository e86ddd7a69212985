//! `stopped` beside the second evaluator, the model and Run, on one packet; and each stop while applying
//! tried again with one more of what it names ([14]).

use crate::random::Random;
use crate::{add, PAPERS};
use model::{Memory, Stopped};

/// The refusals of a stop while applying, in the order in which a use meets them.
pub const NUMBERS: [usize; 3] = [7, 8, 9];

/// The tops of what can be raised, and of a packet's bytes.
const LIMIT: u32 = 1_000_000;
const TABLE: usize = 131_072;
const STACK: usize = 65_536;
const BYTES: usize = 16_384;

/// Where the step limit's field stands in a packet with well-formed fields, or would stand: after the rule
/// and the arguments.
fn limit_place(packet: &[u8]) -> usize {
    let mut at = 0;
    while let Some([1 | 2, high, low]) = packet.get(at..at + 3) {
        at += 3 + usize::from(*high) * 256 + usize::from(*low);
    }
    at
}

/// The step limit that a packet names.
fn named_limit(packet: &[u8]) -> Option<u32> {
    match packet[limit_place(packet)..] {
        [3, 0, 4, a, b, c, d, ..] => Some(u32::from_be_bytes([a, b, c, d])),
        _ => None,
    }
}

/// The step limit that a packet is run under.
fn limit(packet: &[u8]) -> u32 {
    named_limit(packet).unwrap_or(PAPERS.default_limit)
}

/// The packet with this step limit: in its field, or in a new field of seven bytes before a label.
fn with_limit(packet: &[u8], limit: u32) -> Vec<u8> {
    let start = limit_place(packet);
    let end = start + named_limit(packet).map_or(0, |_| 7);
    let field = [&[3, 0, 4][..], &limit.to_be_bytes()].concat();
    [&packet[..start], &field, &packet[end..]].concat()
}

/// Adds words for one node or frame more, and at times words that are no whole one, up to a top; whether
/// there is room for it below the top.
fn lengthen(random: &mut Random, words: &mut Vec<u32>, each: usize, top: usize) -> bool {
    let enough = (words.len() / each + 1) * each;
    let length = random.within(enough, enough + each - 1).min(top);
    words.resize_with(length, || random.number() as u32);
    enough <= top
}

/// A packet and memory with one more of what a refusal names, and nothing else more, or none where that is
/// at its top.
fn raised(
    random: &mut Random,
    packet: &[u8],
    before: &Memory,
    number: usize,
) -> Option<(Vec<u8>, Memory)> {
    let (mut packet, mut memory) = (packet.to_vec(), before.clone());
    let allowed = match number {
        7 => {
            let more = limit(&packet) + 1;
            packet = with_limit(&packet, more);
            more <= LIMIT && packet.len() <= BYTES
        }
        8 => lengthen(random, &mut memory.table, 2, TABLE),
        _ => lengthen(random, &mut memory.stack, 3, STACK),
    };
    allowed.then_some((packet, memory))
}

/// What became of a run that was tried again with one more of what its stop named.
#[derive(Clone, Copy, Debug, PartialEq, Eq)]
pub enum Again {
    /// The same use lacks something later in the order 7, 8, 9.
    Later,
    /// Another stop, after more steps.
    Further,
    /// All applications ended: success, or Write lacks frames or out bytes.
    Ended,
}

pub const AGAIN: [Again; 3] = [Again::Later, Again::Further, Again::Ended];

/// "raising the named thing alone by one carries the run past that check, though the same use may then lack
/// something later in the order 7, 8, 9": none where it does not.
fn again(stop: &Stopped, after: &Stopped) -> Option<Again> {
    let [number, place, steps, _] = *stop;
    match *after {
        [0 | 9 | 10, 0, 0, 0] => Some(Again::Ended),
        _ if !is_stop(after) => None,
        _ if stop[1..] == after[1..] => (after[0] > number).then_some(Again::Later),
        _ => (after[2] > steps && after[1] >= place).then_some(Again::Further),
    }
}

/// Whether an answer is of the form of a stop while applying.
fn is_stop(answer: &Stopped) -> bool {
    matches!(answer, [7..=9, 1..=8, 0..=1_000_000, 1..=5])
}

/// A packet that was run: what was lent, what Run left of it, and where it stopped by the second evaluator
/// and by the model.
pub struct Ran<'a> {
    pub packet: &'a [u8],
    pub before: &'a Memory,
    pub left: &'a Memory,
    pub second: Stopped,
    pub model: Stopped,
}

/// What came of packets: the stops while applying by 7, 8 and 9, by the argument's place and by the rule
/// wanted; those by 7, 8 and 9 that were tried again, all others being at a top; and what became of these.
#[derive(Default)]
pub struct Compared {
    pub numbers: [usize; 3],
    pub places: [usize; 8],
    pub rules: [usize; 5],
    pub raised: [usize; 3],
    pub again: [usize; 3],
}

impl Compared {
    pub fn add(&mut self, other: &Self) {
        add(&mut self.numbers, &other.numbers);
        add(&mut self.places, &other.places);
        add(&mut self.rules, &other.rules);
        add(&mut self.raised, &other.raised);
        add(&mut self.again, &other.again);
    }

    /// Holds `stopped`, a function of memory and a packet, to what is expected of it. Gives each difference.
    pub fn compare(
        &mut self,
        stopped: impl Fn(&mut Memory, &[u8]) -> Stopped,
        random: &mut Random,
        ran: &Ran,
    ) -> Vec<String> {
        let mut memory = ran.before.clone();
        let answer = stopped(&mut memory, ran.packet);
        let mut wrong = Vec::new();
        for (who, expected) in [("second", ran.second), ("model", ran.model)] {
            if answer != expected {
                wrong.push(format!("stopped: {answer:?}\n{who}: {expected:?}"));
            }
        }
        if memory != *ran.left {
            wrong.push("stopped leaves other memory than Run".to_string());
        }
        if is_stop(&answer) {
            wrong.extend(self.try_again(stopped, random, ran, &answer));
        }
        wrong
    }

    /// Counts a stop and runs again with one more of what it names. Gives the difference, if there is one.
    fn try_again(
        &mut self,
        stopped: impl Fn(&mut Memory, &[u8]) -> Stopped,
        random: &mut Random,
        ran: &Ran,
        stop: &Stopped,
    ) -> Option<String> {
        let [number, place, steps, rule] = *stop;
        self.numbers[number - 7] += 1;
        self.places[place - 1] += 1;
        self.rules[rule - 1] += 1;
        let limit = limit(ran.packet);
        if number == 7 && steps != limit as usize {
            return Some(format!("stopped: {stop:?} under the limit {limit}"));
        }
        let (packet, mut memory) = raised(random, ran.packet, ran.before, number)?;
        self.raised[number - 7] += 1;
        let after = stopped(&mut memory, &packet);
        match again(stop, &after) {
            Some(again) => {
                self.again[again as usize] += 1;
                None
            }
            None => Some(format!("stopped: {stop:?}, with one more {after:?}")),
        }
    }
}

#[cfg(test)]
mod tests {
    use super::*;
    use crate::packets;

    /// λx. x x on the leaf, of 13 bytes, without a limit.
    const PAPER: &[u8] = b"\x01\x00\x06\x02\x01\x03\x00\x03\x00\x02\x00\x010";
    const LABEL: &[u8] = b"\x04\x00\x0210";

    fn limit_field(limit: [u8; 4]) -> Vec<u8> {
        [&[3, 0, 4][..], &limit].concat()
    }

    fn memory(table: usize, stack: usize) -> Memory {
        Memory {
            table: vec![7; table],
            stack: vec![7; stack],
            out: vec![7; 9],
        }
    }

    #[test]
    fn a_limit_is_raised_in_its_place() {
        let packet = |limit: Option<[u8; 4]>, label: &[u8]| {
            let limit = limit.map_or(Vec::new(), limit_field);
            [PAPER, &limit, label].concat()
        };
        let (random, before) = (&mut Random::new(1), &memory(5, 5));
        for label in [&b""[..], LABEL] {
            for (found, more) in [
                (None, [0, 1, 0x86, 0xa1]),
                (Some([0, 0, 0, 0xff]), [0, 0, 1, 0]),
                (Some([0, 0xf, 0x42, 0x3f]), [0, 0xf, 0x42, 0x40]),
            ] {
                let given = raised(random, &packet(found, label), before, 7);
                assert_eq!(given, Some((packet(Some(more), label), before.clone())));
            }
            let top = packet(Some([0, 0xf, 0x42, 0x40]), label);
            assert_eq!(raised(random, &top, before, 7), None);
        }
    }

    /// A packet of 16,377 bytes has room for a limit's field, and a longer one has none.
    #[test]
    fn a_limit_is_added_within_the_packets_bytes() {
        let (random, before) = (&mut Random::new(1), &memory(5, 5));
        let of_bytes = |bytes: usize| {
            let digits = bytes - 9;
            let head = [1, 0, 3, 2, 3, 0, 2, (digits >> 8) as u8, digits as u8];
            [&head[..], &vec![b'1'; digits - 1], b"0"].concat()
        };
        let longest = raised(random, &of_bytes(16_377), before, 7);
        assert_eq!(longest.expect("a packet").0.len(), 16_384);
        assert_eq!(raised(random, &of_bytes(16_378), before, 7), None);
    }

    #[test]
    fn nodes_and_frames_are_raised_by_one() {
        let random = &mut Random::new(1);
        for words in [0, 1, 2, 3, 7, 100, 131_069, 131_070, 131_071] {
            let (packet, more) =
                raised(random, PAPER, &memory(words, 4), 8).expect("one node more");
            assert_eq!(packet, PAPER);
            assert_eq!(more.table.len() / 2, words / 2 + 1);
            assert_eq!(more.table[..words], memory(words, 4).table);
            assert!(more.table.len() <= 131_072 && more.stack == [7; 4]);
        }
        assert_eq!(raised(random, PAPER, &memory(131_072, 4), 8), None);
        for words in [0, 1, 2, 3, 7, 100, 65_532, 65_533, 65_534] {
            let (packet, more) =
                raised(random, PAPER, &memory(4, words), 9).expect("one frame more");
            assert_eq!(packet, PAPER);
            assert_eq!(more.stack.len() / 3, words / 3 + 1);
            assert!(more.stack.len() <= 65_536 && more.table == [7; 4]);
        }
        assert_eq!(raised(random, PAPER, &memory(4, 65_535), 9), None);
        assert_eq!(raised(random, PAPER, &memory(4, 65_536), 9), None);
    }

    /// Of each pair of packets only the second stops at a top; they lack a step, a step, a node and a frame.
    #[test]
    fn packets_at_tops() {
        on_a_large_stack(|| {
            let random = &mut Random::new(1);
            let cases = packets::at_tops();
            assert_eq!(cases.len(), 8);
            for (i, case) in cases.into_iter().enumerate() {
                let before = memory(case.room.table, case.room.stack);
                let stop = model::stopped(&mut before.clone(), &case.packet);
                assert!(is_stop(&stop), "{i} {stop:?}");
                assert_eq!(stop[0], [7, 7, 8, 9][i / 2]);
                let more = raised(random, &case.packet, &before, stop[0]);
                assert_eq!(more.is_some(), i % 2 == 0, "{i}");
            }
        });
    }

    #[test]
    fn what_one_more_may_come_to() {
        let stop = [8, 2, 30, 1];
        for (after, expected) in [
            ([9, 2, 30, 1], Some(Again::Later)),
            ([8, 2, 30, 1], None),
            ([7, 2, 30, 1], None),
            ([8, 2, 31, 2], Some(Again::Further)),
            ([7, 3, 31, 1], Some(Again::Further)),
            ([8, 1, 31, 1], None),
            ([8, 2, 29, 1], None),
            ([8, 3, 30, 1], None),
            ([9, 2, 30, 4], None),
            ([8, 2, 31, 0], None),
            ([8, 2, 31, 6], None),
            ([0; 4], Some(Again::Ended)),
            ([9, 0, 0, 0], Some(Again::Ended)),
            ([10, 0, 0, 0], Some(Again::Ended)),
            ([8, 0, 0, 0], None),
            ([7, 0, 0, 0], None),
            ([1, 0, 0, 0], None),
            ([6, 0, 0, 0], None),
            ([0, 2, 31, 1], None),
        ] {
            assert_eq!(again(&stop, &after), expected, "{after:?}");
        }
        assert_eq!(again(&[9, 1, 3, 4], &[9, 1, 3, 4]), None);
        assert_eq!(again(&[7, 1, 3, 4], &[9, 1, 3, 4]), Some(Again::Later));
    }

    /// How many of some packets a `stopped` differs on, which is given what is right of each.
    fn differences(broken: impl Fn(&mut Memory, &[u8]) -> Stopped) -> usize {
        let (random, mut compared) = (&mut Random::new(8), Compared::default());
        let (mut different, mut stops) = (0, 0);
        for _ in 0..300 {
            let case = packets::nested(random);
            let mut left = memory(case.room.table, case.room.stack);
            let before = left.clone();
            let expected = model::stopped(&mut left, &case.packet);
            let ran = Ran {
                packet: &case.packet,
                before: &before,
                left: &left,
                second: expected,
                model: expected,
            };
            let wrong = compared.compare(&broken, random, &ran);
            different += usize::from(!wrong.is_empty());
            stops += usize::from(is_stop(&expected));
        }
        assert!(stops > 100, "{stops}");
        different
    }

    fn on_a_large_stack(test: fn()) {
        let thread = std::thread::Builder::new().stack_size(1 << 28);
        let done = thread.spawn(test).expect("a thread").join();
        assert!(done.is_ok());
    }

    /// The model passes, and each way of being wrong shows: another number, places from 0, one step too many,
    /// no steps of the first argument, which λx. x is applied to, the next rule, numbers alone, and places
    /// where there are none.
    #[test]
    fn what_is_wrong_differs() {
        on_a_large_stack(|| {
            assert_eq!(differences(model::stopped), 0);
            let changed = |change: fn(&mut Stopped)| {
                let different = differences(|memory, packet| {
                    let mut answer = model::stopped(memory, packet);
                    change(&mut answer);
                    answer
                });
                assert!(different > 20, "{different}");
            };
            changed(|answer| answer[0] = [0, 1, 2, 3, 4, 5, 6, 8, 9, 7, 10][answer[0]]);
            changed(|answer| answer[1] = answer[1].saturating_sub(1));
            changed(|answer| answer[2] += usize::from(answer[3] != 0));
            changed(|answer| answer[2] -= if answer[1] > 1 { 4 } else { 0 });
            changed(|answer| answer[3] = [0, 2, 3, 4, 5, 1][answer[3]]);
            changed(|answer| answer[1..].fill(0));
            changed(|answer| answer[1] = answer[1].max(1));
        });
    }

    /// Memory that is not as Run leaves it shows, whatever the answer.
    #[test]
    fn what_is_left_is_compared() {
        on_a_large_stack(|| {
            let left = |change: fn(&mut Memory)| {
                differences(|memory, packet| {
                    let answer = model::stopped(memory, packet);
                    change(memory);
                    answer
                })
            };
            assert_eq!(left(|memory| memory.stack[0] = 1), 300);
            assert_eq!(left(|memory| memory.table[0] = 1), 300);
            assert_eq!(left(|memory| memory.out[0] = 1), 300);
        });
    }

    /// One that is right but of no more use with one more of anything.
    #[test]
    fn a_stop_that_stays_is_a_difference() {
        for number in NUMBERS {
            let answer = [number, 1, 3, 4];
            let (before, packet) = (memory(40, 72), [PAPER, &limit_field([0, 0, 0, 3])].concat());
            let ran = Ran {
                packet: &packet,
                before: &before,
                left: &before,
                second: answer,
                model: answer,
            };
            let random = &mut Random::new(1);
            let mut compared = Compared::default();
            assert_eq!(compared.compare(|_, _| answer, random, &ran).len(), 1);
            assert_eq!(compared.raised.iter().sum::<usize>(), 1);
        }
    }

    /// A stop with 7 before the limit is reached.
    #[test]
    fn a_limit_that_is_not_reached_is_a_difference() {
        let (before, answer) = (memory(40, 72), [7, 1, 3, 3]);
        let ran = Ran {
            packet: PAPER,
            before: &before,
            left: &before,
            second: answer,
            model: answer,
        };
        let wrong = Compared::default().compare(|_, _| answer, &mut Random::new(1), &ran);
        assert_eq!(wrong.len(), 1);
    }
}
