//! `window` and `next_window` beside the model ([6]), on weeks that are sound, broken in each way on purpose,
//! changed in one number, or noise, at the borders of their windows, of days and of what may be asked.

use crate::random::Random;
use model::week::Week;
use model::Given;
use std::collections::BTreeSet;

/// How many numbers a week has, and how many minutes a day and a week.
const NUMBERS: usize = 84;
const DAY: usize = 1_440;
const WEEK: usize = 7 * DAY;

/// How many minutes are asked about in each week.
const ASKED: usize = 8;

/// First, end and packet of each place of a day, and of each day.
type Places = [[u32; 3]; 4];
type Days = [Places; 7];

/// What a week was made to be.
#[derive(Clone, Copy, Debug, PartialEq, Eq)]
pub enum Kind {
    Sound,
    Length,
    FirstIsEnd,
    FirstAboveEnd,
    EndAbove,
    PacketZero,
    PacketAbove,
    Overlap,
    Descend,
    UsedAfterUnused,
    PartlyZero,
    Changed,
    Noise,
}

pub const KINDS: [Kind; 13] = [
    Kind::Sound,
    Kind::Length,
    Kind::FirstIsEnd,
    Kind::FirstAboveEnd,
    Kind::EndAbove,
    Kind::PacketZero,
    Kind::PacketAbove,
    Kind::Overlap,
    Kind::Descend,
    Kind::UsedAfterUnused,
    Kind::PartlyZero,
    Kind::Changed,
    Kind::Noise,
];

impl Kind {
    /// What every day and minute of such a week meets, where that is known.
    fn refusal(self) -> Option<usize> {
        match self {
            Kind::Sound => Some(0),
            Kind::Changed | Kind::Noise => None,
            _ => Some(13),
        }
    }
}

// ---- weeks

/// A border, one of these other numbers, or any number of 32 bits above it.
fn above(random: &mut Random, border: u32, others: &[u32]) -> u32 {
    match random.below(4) {
        0 | 1 => border,
        2 => *random.pick(others),
        _ => random.within(border as usize, u32::MAX as usize) as u32,
    }
}

/// A day with so many windows, anywhere in it or close together.
fn places(random: &mut Random, windows: usize) -> Places {
    let span = *random.pick(&[8, 100, DAY]);
    let low = random.within(0, DAY - span);
    let mut borders = BTreeSet::new();
    while borders.len() < 2 * windows {
        borders.insert(random.within(low, low + span) as u32);
    }
    let borders: Vec<u32> = borders.into_iter().collect();
    let mut places = Places::default();
    for (place, border) in places.iter_mut().zip(borders.chunks(2)) {
        let packet = match random.below(4) {
            0 => 1,
            1 => 28,
            _ => random.within(1, 28),
        };
        *place = [border[0], border[1], packet as u32];
    }
    to_borders(random, &mut places[..windows]);
    places
}

/// Makes some windows last one minute, begin where the one before ends, or reach the day's ends.
fn to_borders(random: &mut Random, windows: &mut [[u32; 3]]) {
    for window in windows.iter_mut() {
        if random.once_in(4) {
            window[1] = window[0] + 1;
        }
    }
    for i in 1..windows.len() {
        if random.once_in(3) {
            windows[i][0] = windows[i - 1][1];
        }
    }
    if let Some(first) = windows.first_mut().filter(|_| random.once_in(4)) {
        first[0] = 0;
    }
    if let Some(last) = windows.last_mut().filter(|_| random.once_in(4)) {
        last[1] = DAY as u32;
    }
}

/// A week that is not broken: without windows, with some on one day, or with some on any.
fn sound(random: &mut Random) -> Days {
    let mut days = Days::default();
    match random.below(8) {
        0 => {}
        1 | 2 => {
            let windows = *random.pick(&[1, 1, 2, 3, 4]);
            days[random.below(7)] = places(random, windows);
        }
        _ => {
            let seldom = random.within(1, 4);
            for day in &mut days {
                let windows = random.below(5);
                if random.once_in(seldom) {
                    *day = places(random, windows);
                }
            }
        }
    }
    days
}

/// A day that is broken in this way alone, or also by what follows from it.
fn broken(random: &mut Random, kind: Kind) -> Places {
    let windows = match kind {
        Kind::Overlap | Kind::Descend => random.within(2, 4),
        Kind::UsedAfterUnused => random.within(1, 3),
        Kind::PartlyZero => random.below(4),
        _ => random.within(1, 4),
    };
    let mut day = places(random, windows);
    let at = random.below(windows.max(1));
    match kind {
        Kind::FirstIsEnd if random.once_in(2) => day[at][0] = day[at][1],
        Kind::FirstIsEnd => day[at][1] = day[at][0],
        Kind::FirstAboveEnd => day[at].swap(0, 1),
        Kind::EndAbove => day[windows - 1][1] = above(random, 1_441, &[1_442, 65_536 + 1_440]),
        Kind::PacketZero => day[at][2] = 0,
        Kind::PacketAbove => day[at][2] = above(random, 29, &[30, 256 + 28, 65_536 + 1]),
        Kind::Overlap => overlap(random, &mut day[..windows]),
        Kind::Descend => {
            let other = random.below(windows - 1);
            day.swap(at, other + usize::from(other >= at));
        }
        Kind::UsedAfterUnused => day[at..=windows].rotate_right(1),
        _ => {
            let place = random.within(windows, 3);
            day[place][random.below(3)] = above(random, 1, &[28, 1_440, 65_536]);
        }
    }
    day
}

/// Two windows next to each other share one minute, or more.
fn overlap(random: &mut Random, windows: &mut [[u32; 3]]) {
    let next = random.within(1, windows.len() - 1);
    let [first, end, _] = windows[next - 1];
    match random.below(3) {
        0 => windows[next - 1][1] = windows[next][0] + 1,
        1 => windows[next][0] = end - 1,
        _ => windows[next][0] = random.within(first as usize, end as usize - 1) as u32,
    }
}

/// One number of a sound week changed: to one more or less, 0, a small number or any.
fn changed(random: &mut Random) -> Vec<u32> {
    let mut numbers = sound(random).concat().concat();
    let used: Vec<usize> = (0..NUMBERS).filter(|i| numbers[*i] != 0).collect();
    let at = if used.is_empty() || random.once_in(4) {
        random.below(NUMBERS)
    } else {
        *random.pick(&used)
    };
    numbers[at] = match random.below(8) {
        0 => 0,
        1 => random.number() as u32,
        2 => random.within(0, DAY) as u32,
        3 => random.within(0, 30) as u32,
        _ => random.near(numbers[at] as usize) as u32,
    };
    numbers
}

/// Numbers of any size, most of them 0 at times.
fn noise(random: &mut Random) -> Vec<u32> {
    let seldom = *random.pick(&[1, 20, 80]);
    let number = |_| match random.below(4 * seldom) {
        0 => random.below(8) as u32,
        1 => random.below(30) as u32,
        2 => random.below(DAY + 2) as u32,
        3 => random.number() as u32,
        _ => 0,
    };
    (0..NUMBERS).map(number).collect()
}

/// A sound week that is cut, or has more numbers.
fn of_length(random: &mut Random) -> Vec<u32> {
    let mut numbers = sound(random).concat().concat();
    let length = match random.below(4) {
        0 => random.below(NUMBERS),
        1 => random.within(NUMBERS + 1, 200),
        _ => *random.pick(&[0, 12, 72, 81, 83, 85, 87, 96, 168]),
    };
    numbers.resize(length, 0);
    numbers
}

/// The numbers of a week of a kind.
fn week(random: &mut Random, kind: Kind) -> Vec<u32> {
    match kind {
        Kind::Length => return of_length(random),
        Kind::Changed => return changed(random),
        Kind::Noise => return noise(random),
        _ => {}
    }
    let mut days = sound(random);
    if kind != Kind::Sound {
        days[random.below(7)] = broken(random, kind);
    }
    days.concat().concat()
}

// ---- what is asked

/// A minute at a border of some window, or of the week where it has none: one before first, first, one
/// before end, or end.
fn at_border(random: &mut Random, numbers: &[u32]) -> (usize, usize) {
    let used = |place: &usize| numbers[3 * place + 1] != 0;
    let used: Vec<usize> = (0..numbers.len() / 3).filter(used).collect();
    let at = if used.is_empty() {
        0
    } else {
        let place = *random.pick(&used);
        place / 4 * DAY + numbers[3 * place + random.below(2)] as usize
    };
    let minute = (at + WEEK - random.below(2)) % WEEK;
    (minute / DAY, minute % DAY)
}

/// A day or a minute above what is allowed, or both.
fn beyond(random: &mut Random) -> (usize, usize) {
    let day = *random.pick(&[7, 8, 256, 1 << 32, usize::MAX]);
    let minute = *random.pick(&[1_440, 1_441, 65_536, 1 << 32, usize::MAX]);
    match random.below(5) {
        0 | 1 => (day, random.below(DAY)),
        2 | 3 => (random.below(7), minute),
        _ => (day, minute),
    }
}

fn asked(random: &mut Random, numbers: &[u32]) -> (usize, usize) {
    let day = random.below(7);
    match random.below(16) {
        0 => (day, 0),
        1 => (day, DAY - 1),
        2 | 3 => beyond(random),
        4..=6 => (day, random.below(DAY)),
        _ => at_border(random, numbers),
    }
}

// ---- what came of it

/// What a minute met in a week that was not refused, by its two answers.
#[derive(Clone, Copy, Debug, PartialEq, Eq)]
pub enum Met {
    /// A window holds the minute, or none does.
    Packet,
    NoPacket,
    /// The next window begins now, later on this day, on a later day, on an earlier day of the next week, on
    /// this day of the next week, or never.
    Now,
    ThisDay,
    LaterDay,
    NextWeek,
    ThisDayNextWeek,
    Never,
}

pub const MET: [Met; 8] = [
    Met::Packet,
    Met::NoPacket,
    Met::Now,
    Met::ThisDay,
    Met::LaterDay,
    Met::NextWeek,
    Met::ThisDayNextWeek,
    Met::Never,
];

/// When the next window begins, by the minutes until then.
fn when(day: usize, minute: usize, [_, found, minutes]: Given) -> Met {
    let begins = day * DAY + minute + minutes;
    match begins % WEEK / DAY {
        _ if found == 0 => Met::Never,
        _ if minutes == 0 => Met::Now,
        other if begins < WEEK && other == day => Met::ThisDay,
        _ if begins < WEEK => Met::LaterDay,
        other if other == day => Met::ThisDayNextWeek,
        _ => Met::NextWeek,
    }
}

/// Why a minute was refused: the week, or in a week that is sound the day or the minute.
#[derive(Clone, Copy, Debug, PartialEq, Eq)]
pub enum Refused {
    Week,
    Day,
    Minute,
}

pub const REFUSED: [Refused; 3] = [Refused::Week, Refused::Day, Refused::Minute];

/// What came of weeks: how many there were of each kind; of those of which nothing was known, how many were
/// taken and refused; and how often each outcome was met.
#[derive(Default)]
pub struct Compared {
    pub kinds: [usize; 13],
    pub unknown: [usize; 2],
    pub met: [usize; 8],
    pub refused: [usize; 3],
}

impl Compared {
    /// Compares `window` and `next`, functions of a week's numbers, a day and a minute, with the model on one
    /// week. Gives each difference.
    pub fn compare(
        &mut self,
        random: &mut Random,
        window: impl Fn(&[u32], usize, usize) -> Given,
        next: impl Fn(&[u32], usize, usize) -> Given,
    ) -> Vec<String> {
        let kind = if random.once_in(3) {
            Kind::Sound
        } else {
            *random.pick(&KINDS)
        };
        let numbers = week(random, kind);
        let model = Week::of(&numbers);
        let refusal = model.window(0, 0)[0];
        let mut wrong = Vec::from_iter(self.count_week(kind, refusal));
        for _ in 0..ASKED {
            let (day, minute) = asked(random, &numbers);
            let expected = [model.window(day, minute), model.next_window(day, minute)];
            let given = [window(&numbers, day, minute), next(&numbers, day, minute)];
            if given != expected {
                wrong.push(format!(
                    "day {day}, minute {minute}\nengine: {given:?}\nmodel:  {expected:?}"
                ));
            }
            self.count(refusal, day, minute, expected);
        }
        let of_week = |wrong| format!("{kind:?} week {numbers:?}, {wrong}");
        wrong.into_iter().map(of_week).collect()
    }

    /// Counts a week. Gives the difference where the model's refusal is not the known one.
    fn count_week(&mut self, kind: Kind, refusal: usize) -> Option<String> {
        self.kinds[kind as usize] += 1;
        match kind.refusal() {
            Some(known) if known != refusal => Some(format!("which is {known}; model: {refusal}")),
            Some(_) => None,
            None => {
                self.unknown[usize::from(refusal != 0)] += 1;
                None
            }
        }
    }

    /// Counts what a minute met, in a week that is refused or not.
    fn count(&mut self, refusal: usize, day: usize, minute: usize, answers: [Given; 2]) {
        let [window, next] = answers;
        if refusal != 0 || window[0] != 0 {
            let why = match (refusal, day) {
                (0, 0..=6) => Refused::Minute,
                (0, _) => Refused::Day,
                _ => Refused::Week,
            };
            self.refused[why as usize] += 1;
            return;
        }
        let held = [Met::NoPacket, Met::Packet][window[1]];
        self.met[held as usize] += 1;
        self.met[when(day, minute, next) as usize] += 1;
    }
}

#[cfg(test)]
mod tests {
    use super::*;

    fn model_window(numbers: &[u32], day: usize, minute: usize) -> Given {
        Week::of(numbers).window(day, minute)
    }

    fn model_next(numbers: &[u32], day: usize, minute: usize) -> Given {
        Week::of(numbers).next_window(day, minute)
    }

    /// On how many of 1,000 weeks these two differ from the model.
    fn differences(
        window: impl Fn(&[u32], usize, usize) -> Given,
        next: impl Fn(&[u32], usize, usize) -> Given,
    ) -> usize {
        let (random, mut compared) = (&mut Random::new(6), Compared::default());
        let different = |_: &usize| !compared.compare(random, &window, &next).is_empty();
        (0..1_000).filter(different).count()
    }

    /// A wrong answer is noticed if it differs on more than a few weeks.
    fn noticed(what: &str, different: usize) {
        assert!(different > 10, "{what}: {different}");
    }

    /// What is asked, which a wrong function changes before the model answers it.
    struct Asked {
        numbers: Vec<u32>,
        day: usize,
        minute: usize,
    }

    impl Asked {
        fn places(&mut self) -> impl Iterator<Item = &mut [u32]> {
            self.numbers.chunks_exact_mut(3)
        }

        fn days(&mut self) -> impl Iterator<Item = &mut [u32]> {
            self.numbers.chunks_exact_mut(12)
        }

        /// Each day's places in another order.
        fn sort<K: Ord>(&mut self, key: fn(&[u32]) -> K) {
            for day in self.days() {
                let mut places: Vec<&[u32]> = day.chunks(3).collect();
                places.sort_by_key(|place| key(place));
                let places = places.concat();
                day.copy_from_slice(&places);
            }
        }
    }

    /// A `window` and a `next_window` that answer something else than what is asked are noticed.
    fn other_question(what: &str, change: fn(&mut Asked)) {
        let changed = |numbers: &[u32], day, minute| {
            let numbers = numbers.to_vec();
            let mut asked = Asked {
                numbers,
                day,
                minute,
            };
            change(&mut asked);
            (Week::of(&asked.numbers), asked.day, asked.minute)
        };
        let window = |numbers: &[u32], day: usize, minute: usize| {
            let (week, day, minute) = changed(numbers, day, minute);
            week.window(day, minute)
        };
        let next = |numbers: &[u32], day: usize, minute: usize| {
            let (week, day, minute) = changed(numbers, day, minute);
            week.next_window(day, minute)
        };
        noticed(what, differences(window, model_next));
        noticed(what, differences(model_window, next));
    }

    #[test]
    fn the_model_is_as_the_model() {
        assert_eq!(differences(model_window, model_next), 0);
    }

    #[test]
    fn wrong_about_first_and_end() {
        other_question("end 1,441 is taken", |asked| {
            let ends = asked.places().filter(|place| place[1] == 1_441);
            ends.for_each(|place| place[1] = 1_440);
        });
        other_question("end 1,440 is refused", |asked| {
            let ends = asked.places().filter(|place| place[1] == 1_440);
            ends.for_each(|place| place[1] = 1_441);
        });
        other_question("first at end is an unused place", |asked| {
            let empty = asked.places().filter(|place| place[0] == place[1]);
            empty.for_each(|place| place.fill(0));
        });
        other_question("first above end is taken", |asked| {
            let turned = asked.places().filter(|place| place[0] > place[1]);
            turned.for_each(|place| place.swap(0, 1));
        });
        other_question("a window of one minute is refused", |asked| {
            let short = asked.places().filter(|p| p[1].wrapping_sub(p[0]) == 1);
            short.for_each(|place| place[1] -= 1);
        });
        other_question("numbers have 16 bits", |asked| {
            asked.numbers.iter_mut().for_each(|n| *n &= 0xffff);
        });
    }

    #[test]
    fn wrong_about_packets() {
        other_question("packet 29 is taken", |asked| {
            let packets = asked.places().filter(|place| place[2] == 29);
            packets.for_each(|place| place[2] = 28);
        });
        other_question("packet 28 is refused", |asked| {
            let packets = asked.places().filter(|place| place[2] == 28);
            packets.for_each(|place| place[2] = 29);
        });
        other_question("packet 0 is taken", |asked| {
            let packets = asked.places().filter(|place| place[1] != 0);
            packets.for_each(|place| place[2] = place[2].max(1));
        });
        other_question("packet 1 is refused", |asked| {
            let packets = asked.places().filter(|place| place[2] == 1);
            packets.for_each(|place| place[2] = 0);
        });
    }

    #[test]
    fn wrong_about_a_day() {
        other_question("an overlap of one minute is taken", |asked| {
            for day in asked.days() {
                for i in [3, 6, 9] {
                    let one = day[i] != 0 && day[i - 2].wrapping_sub(day[i]) == 1;
                    day[i] += u32::from(one);
                }
            }
        });
        other_question("windows that adjoin are refused", |asked| {
            for day in asked.days() {
                for i in [3, 6, 9] {
                    day[i] -= u32::from(day[i] != 0 && day[i - 2] == day[i]);
                }
            }
        });
        other_question("windows in any order are taken", |asked| {
            asked.sort(|place| (place == [0; 3], place[0]));
        });
        other_question("used after unused is taken", |asked| {
            asked.sort(|place| place == [0; 3]);
        });
        other_question("a place that begins with 0 is unused", |asked| {
            let unused = asked.places().filter(|place| place[0] == 0);
            unused.for_each(|place| place.fill(0));
        });
        other_question("a place without an end is unused", |asked| {
            let unused = asked.places().filter(|place| place[1] == 0);
            unused.for_each(|place| place.fill(0));
        });
        other_question("the fourth place is not there", |asked| {
            asked.days().for_each(|day| day[9..].fill(0));
        });
    }

    #[test]
    fn wrong_about_the_week() {
        other_question("only the day is checked", |asked| {
            let asked_day = asked.day;
            let others = asked.days().enumerate().filter(|(i, _)| *i != asked_day);
            for (_, day) in others {
                let alone = [&*day, &[0; 72]].concat();
                if Week::of(&alone).window(0, 0)[0] != 0 {
                    day.fill(0);
                }
            }
        });
        other_question("the last day is not there", |asked| {
            asked.days().skip(6).for_each(|day| day.fill(0));
        });
        other_question("the day after", |asked| {
            let days = asked.numbers.len() / NUMBERS;
            asked.numbers.rotate_left(12 * days);
        });
        other_question("shorter weeks are taken", |asked| {
            let length = asked.numbers.len().max(NUMBERS);
            asked.numbers.resize(length, 0);
        });
        other_question("longer weeks are taken", |asked| {
            asked.numbers.truncate(NUMBERS);
        });
    }

    #[test]
    fn wrong_about_day_and_minute() {
        other_question("day 7 is taken", |asked| {
            asked.day -= usize::from(asked.day == 7);
        });
        other_question("day 6 is refused", |asked| {
            asked.day += usize::from(asked.day == 6);
        });
        other_question("minute 1,440 is taken", |asked| {
            asked.minute -= usize::from(asked.minute == 1_440);
        });
        other_question("minute 1,439 is refused", |asked| {
            asked.minute += usize::from(asked.minute == 1_439);
        });
        other_question("a day has 32 bits", |asked| {
            asked.day &= 0xffff_ffff;
        });
        other_question("a minute has 32 bits", |asked| {
            asked.minute &= 0xffff_ffff;
        });
    }

    #[test]
    fn wrong_answers_of_window() {
        let other_answer = |what, change: fn(&Week, usize, usize) -> Given| {
            let window =
                |numbers: &[u32], day, minute: usize| change(&Week::of(numbers), day, minute);
            noticed(what, differences(window, model_next));
        };
        other_answer(
            "end belongs to the window",
            |week, day, minute| match week.window(day, minute) {
                [0, 0, _] => week.window(day, minute.saturating_sub(1)),
                answer => answer,
            },
        );
        other_answer(
            "first does not belong to it",
            |week, day, minute| match week.next_window(day, minute) {
                [0, 1, 0] => [0, 0, 0],
                _ => week.window(day, minute),
            },
        );
        other_answer("a number where there is none", |week, day, minute| {
            let [refusal, found, packet] = week.window(day, minute);
            [refusal, found, packet.max(1)]
        });
        other_answer("0 for the packet of every window", |week, day, minute| {
            let [refusal, found, _] = week.window(day, minute);
            [refusal, found, 0]
        });
        other_answer("12 for 13", |week, day, minute| {
            let [refusal, found, packet] = week.window(day, minute);
            [refusal.min(12), found, packet]
        });
    }

    #[test]
    fn wrong_answers_of_next_window() {
        let other_answer = |what: &str, change: &dyn Fn(Met, Given) -> Given| {
            let next =
                |numbers: &[u32], day: usize, minute: usize| match model_next(numbers, day, minute)
                {
                    [0, found, minutes] => {
                        let answer = [0, found, minutes];
                        change(when(day, minute, answer), answer)
                    }
                    refused => refused,
                };
            noticed(what, differences(model_window, next));
        };
        for none in &MET[2..7] {
            other_answer(&format!("never for {none:?}"), &|met, answer| {
                if met == *none {
                    [0, 0, 0]
                } else {
                    answer
                }
            });
        }
        other_answer("a week more for now", &|met, answer| match met {
            Met::Now => [0, 1, WEEK],
            _ => answer,
        });
        other_answer("0 for never", &|met, answer| match met {
            Met::Never => [0, 1, 0],
            _ => answer,
        });
        other_answer("a minute more", &|_, answer| {
            [0, answer[1], answer[2] + answer[1]]
        });
    }

    /// What begins now is passed over for what begins next.
    #[test]
    fn what_begins_now_is_next() {
        let next = |numbers: &[u32], day: usize, minute: usize| {
            let week = Week::of(numbers);
            match week.next_window(day, minute) {
                [0, 1, 0] => {
                    let after = (day * DAY + minute + 1) % WEEK;
                    let [_, _, minutes] = week.next_window(after / DAY, after % DAY);
                    [0, 1, minutes + 1]
                }
                answer => answer,
            }
        };
        noticed("what begins now", differences(model_window, next));
    }

    /// Each kind of week is what it is called, by the model, and is refused or taken for it.
    #[test]
    fn kinds_of_weeks() {
        let random = &mut Random::new(7);
        for kind in KINDS {
            for _ in 0..200 {
                let numbers = week(random, kind);
                let refusal = Week::of(&numbers).window(0, 0)[0];
                assert!(
                    kind.refusal().is_none_or(|known| known == refusal),
                    "{numbers:?}"
                );
                assert_eq!(kind == Kind::Length, numbers.len() != NUMBERS);
            }
        }
    }
}
