//! Grams to make weights of, one by one and in pairs, and trees that are near weights and are none ([9]).

use crate::random::Random;
use crate::tables::{double, odd_number, put_text};
use crate::trees;
use model::weight::{digits, grams_of, item, list, ITEMS, MOST};

/// The grams of these digits, lowest first.
fn grams(digits: [usize; ITEMS]) -> usize {
    let highest_first = digits.iter().rev();
    highest_first.fold(0, |grams, digit| 10 * grams + digit)
}

/// Grams of a weight: any, of few digits, or with many zeros and nines.
pub fn any_grams(random: &mut Random) -> usize {
    match random.below(3) {
        0 => random.within(0, MOST),
        1 => {
            let places = random.within(1, ITEMS);
            random.below(10_usize.pow(places as u32))
        }
        _ => grams(std::array::from_fn(|_| {
            let any = random.below(10);
            *random.pick(&[0, 9, any])
        })),
    }
}

/// Grams that no weight has: a little more than the most, numbers that a weight has if bits are lost, and any.
pub fn above_top(random: &mut Random) -> usize {
    match random.below(5) {
        0 => MOST + 1,
        1 => MOST + random.within(2, 20),
        2 => any_grams(random) + (1 << random.pick(&[30, 32, 48, 63])),
        3 => odd_number(random).max(MOST + 1),
        _ => random.within(MOST + 1, 2 * MOST),
    }
}

/// What two weights are beside each other.
#[derive(Clone, Copy, Debug, PartialEq, Eq)]
pub enum Pair {
    Any,
    /// Both below 100 grams.
    Small,
    /// One of them has none.
    Zero,
    Equal,
    OneDigit,
    /// The lower digits are all the other way round than the highest that differ.
    Crossed,
    /// A carry goes on wherever there is one.
    Carries,
    /// The sum is the most grams, one more, or any number above.
    AtTop,
    OneAbove,
    Above,
}

pub const PAIRS: [Pair; 10] = [
    Pair::Any,
    Pair::Small,
    Pair::Zero,
    Pair::Equal,
    Pair::OneDigit,
    Pair::Crossed,
    Pair::Carries,
    Pair::AtTop,
    Pair::OneAbove,
    Pair::Above,
];

impl Pair {
    pub fn grams(self, random: &mut Random) -> [usize; 2] {
        let a = any_grams(random);
        let some = a.max(1);
        let mut pair = match self {
            Pair::Any => [a, any_grams(random)],
            Pair::Small => [random.below(100), random.below(100)],
            Pair::Zero => [a, 0],
            Pair::Equal => [a, a],
            Pair::OneDigit => [a, other_digit(random, a)],
            Pair::Crossed => crossed(random, a),
            Pair::Carries => carries(random, a),
            Pair::AtTop => [a, MOST - a],
            Pair::OneAbove => [some, MOST + 1 - some],
            Pair::Above => [some, random.within(MOST + 1 - some, MOST)],
        };
        if random.once_in(2) {
            pair.reverse();
        }
        pair
    }
}

/// These grams with another digit in one place.
fn other_digit(random: &mut Random, a: usize) -> usize {
    let (mut digits, place) = (digits(a), random.below(ITEMS));
    digits[place] = (digits[place] + random.within(1, 9)) % 10;
    grams(digits)
}

/// Two weights with the digits of these grams above some place, at which the first has the higher digit; below it each
/// digit of the first is the lower.
fn crossed(random: &mut Random, above: usize) -> [usize; 2] {
    let place = random.within(1, ITEMS - 1);
    let (mut a, mut b) = (digits(above), digits(above));
    a[place] = random.within(1, 9);
    b[place] = random.below(a[place]);
    for i in 0..place {
        a[i] = random.below(9);
        b[i] = random.within(a[i] + 1, 9);
    }
    [a, b].map(grams)
}

/// Two weights whose digits are 9 together or more at each place but the highest, where they leave room for a carry.
fn carries(random: &mut Random, a: usize) -> [usize; 2] {
    let mut a = digits(a);
    let mut b = a.map(|digit| random.within(9 - digit, 9));
    a[ITEMS - 1] = random.below(5);
    b[ITEMS - 1] = random.below(5);
    [a, b].map(grams)
}

/// A tree that is near a weight and is none.
#[derive(Clone, Copy, Debug, PartialEq, Eq)]
pub enum Near {
    /// Eight items or fewer, ten or more.
    TooFew,
    TooMany,
    /// An item of ten K or more.
    Large,
    /// An item that is a stem, that has one under its K, or a fork there whose first branch is no leaf.
    StemItem,
    StemInItem,
    ForkInItem,
    /// A stem over a list, and one for its end.
    StemInList,
    End,
    /// A list before its item.
    Turned,
    /// Any other tree, and one with more digits than any memory holds.
    Other,
    Huge,
}

pub const NEAR: [Near; 11] = [
    Near::TooFew,
    Near::TooMany,
    Near::Large,
    Near::StemItem,
    Near::StemInItem,
    Near::ForkInItem,
    Near::StemInList,
    Near::End,
    Near::Turned,
    Near::Other,
    Near::Huge,
];

impl Near {
    /// Puts such a tree into a table whose nodes are all in use, the leaf among them; its node.
    pub fn put(self, random: &mut Random, table: &mut Vec<u32>) -> usize {
        if self == Near::Huge {
            return put_huge(random, table);
        }
        let text = self.text(random);
        put_text(table, &text)
    }

    /// The text of such a tree that is not huge.
    fn text(self, random: &mut Random) -> Vec<u8> {
        let (items, place) = (digits(any_grams(random)).map(item), random.below(ITEMS));
        let (before, after) = items.split_at(place);
        match self {
            Near::TooFew => {
                let fewer = most_often_one(random);
                let first = random.within(0, fewer);
                list(&items[first..ITEMS - fewer + first], b"0")
            }
            Near::TooMany => {
                let more = vec![item(random.below(10)); most_often_one(random)];
                list(&[before, &more, after].concat(), b"0")
            }
            Near::StemInList => list(before, &[b"1", &list(after, b"0")[..]].concat()),
            Near::End => {
                let stems = b"1".repeat(random.within(1, 3));
                list(&items, &[stems, item(random.below(10))].concat())
            }
            Near::Turned => turned(random, before, &after[1..]),
            Near::Other | Near::Huge => other(random),
            Near::Large | Near::StemItem | Near::StemInItem | Near::ForkInItem => {
                let wrong = vec![self.item(random)];
                list(&[before, &wrong, &after[1..]].concat(), b"0")
            }
        }
    }

    /// An item that no list of a weight has.
    fn item(self, random: &mut Random) -> Vec<u8> {
        let (times, inner) = (random.within(1, 9), item(random.below(10)));
        let k = b"20".repeat(times);
        match self {
            Near::StemItem => [b"1", &inner[..]].concat(),
            Near::StemInItem => [&k, &b"1"[..], &inner].concat(),
            Near::ForkInItem => {
                let first = *random.pick(&[&b"10"[..], b"200", b"20200", b"110"]);
                let k = &k[..2 * random.below(times)];
                [k, b"2", first, &inner].concat()
            }
            // Counts that are a digit's if they are kept to eight bits among them.
            _ => item(*random.pick(&[10, 10, 10 + times, 255 + times, 266])),
        }
    }
}

/// How many items a list has too few or too many.
fn most_often_one(random: &mut Random) -> usize {
    match random.below(3) {
        0 => random.within(1, ITEMS),
        _ => 1,
    }
}

/// A list with these items before and after a place at which the list stands before its item. The last item is not 0:
/// lists of zeros are digits too, so that the tree could be a weight.
fn turned(random: &mut Random, before: &[Vec<u8>], after: &[Vec<u8>]) -> Vec<u8> {
    let last = vec![item(random.within(1, 9))];
    let Some((_, after)) = after.split_last() else {
        return list(before, &[b"20", &last[0][..]].concat());
    };
    let rest = list(&[after, &last].concat(), b"0");
    list(
        before,
        &[&b"2"[..], &rest, &item(random.below(10))].concat(),
    )
}

/// Any tree that is not a weight.
fn other(random: &mut Random) -> Vec<u8> {
    loop {
        let text = match random.below(3) {
            0 => trees::text(random),
            1 => trees::tree(random, 12),
            _ => trees::tree(random, 60),
        };
        if grams_of(&text).is_none() {
            return text;
        }
    }
}

/// Adds a tree with more digits than any memory holds; then at times a list with it for its last item, and items
/// before it.
fn put_huge(random: &mut Random, table: &mut Vec<u32>) -> usize {
    double(random, table);
    let mut add = |words: fn(u32) -> [u32; 2]| {
        let last = table.len() as u32 / 2;
        table.extend(words(last));
        last as usize
    };
    if random.once_in(2) {
        add(|last| [last, 1]);
    }
    for _ in 0..random.below(ITEMS) {
        add(|last| [1, last]);
    }
    add(|last| [1, last])
}

#[cfg(test)]
mod tests {
    use super::*;
    use std::cmp::Ordering;

    #[test]
    fn grams_are_within_the_top_or_above() {
        let random = &mut Random::new(1);
        for _ in 0..2_000 {
            assert!(any_grams(random) <= MOST);
            assert!(above_top(random) > MOST);
            let some = any_grams(random);
            assert_eq!(grams(digits(some)), some);
        }
    }

    /// The places at which two weights differ, lowest first, with what the first has there beside the second.
    fn places([a, b]: [usize; 2]) -> Vec<Ordering> {
        let pairs = digits(a).into_iter().zip(digits(b));
        let orders = pairs.map(|(a, b)| a.cmp(&b));
        orders.filter(|order| order.is_ne()).collect()
    }

    /// At how many places two weights give a carry.
    fn carried([a, b]: [usize; 2]) -> usize {
        let powers = (1..=ITEMS).map(|places| 10_usize.pow(places as u32));
        powers.filter(|n| a % n + b % n >= *n).count()
    }

    /// Each pair is what it is called, both ways round.
    #[test]
    fn kinds_of_pairs() {
        let random = &mut Random::new(2);
        for _ in 0..500 {
            let [any, small, zero, equal, one, crossed, carries, top, one_above, above] =
                PAIRS.map(|pair| pair.grams(random));
            let all = [any, small, zero, equal, one, crossed, carries, top];
            assert!(all.concat().iter().all(|grams| *grams <= MOST));
            assert!(small.iter().all(|grams| *grams < 100));
            assert!(zero.contains(&0));
            assert_eq!(equal[0], equal[1]);
            assert_eq!(places(one).len(), 1);
            let mut lower = places(crossed);
            let highest = lower.pop().expect("a difference");
            assert!(!lower.is_empty());
            assert!(lower.iter().all(|order| *order == highest.reverse()));
            assert_eq!(crossed[0].cmp(&crossed[1]), highest);
            let pairs = digits(carries[0]).into_iter().zip(digits(carries[1]));
            assert!(pairs.take(ITEMS - 1).all(|(a, b)| a + b >= 9));
            assert!(carries[0] + carries[1] <= MOST);
            assert_eq!(top[0] + top[1], MOST);
            assert_eq!(one_above[0] + one_above[1], MOST + 1);
            assert!(above[0] + above[1] > MOST);
            assert!([one_above, above].concat().iter().all(|g| *g <= MOST));
        }
    }

    /// Carries go through all places at times, and through some.
    #[test]
    fn carries_of_pairs() {
        let random = &mut Random::new(3);
        let mut met = [0; ITEMS + 1];
        for _ in 0..2_000 {
            met[carried(Pair::Carries.grams(random))] += 1;
        }
        assert!(met[ITEMS - 1] > 500, "{met:?}");
        assert!(met[4..ITEMS - 1].iter().all(|times| *times > 10), "{met:?}");
        assert_eq!(met[ITEMS], 0);
    }

    /// No tree that is near a weight is one, whatever nodes are there before it.
    #[test]
    fn near_weights_are_none() {
        let random = &mut Random::new(4);
        for near in NEAR {
            for _ in 0..500 {
                let mut table = vec![0, 0];
                put_text(
                    &mut table,
                    &list(&digits(any_grams(random)).map(item), b"0"),
                );
                let node = near.put(random, &mut table);
                let used = table.len() / 2;
                let answer = model::weight::grams(&table, used, node);
                assert_eq!(answer, [14, 0], "{near:?} {table:?}");
            }
        }
    }
}
