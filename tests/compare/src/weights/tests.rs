//! Functions that are wrong in one thing, held to the comparison of weights: each is noticed.

use super::*;
use model::weight::{digits, item, list, ITEMS};
use model::Memory;
use std::ops::Range;

/// How many pairs a test makes at most, how many calls with something wrong after each, and on how many in all a wrong
/// function must differ.
const PAIRS_MADE: usize = 1_000;
const CALLS_MADE: usize = 5;
const NOTICED: usize = 5;

fn modelled(call: Call, table: &mut [u32], used: usize) -> Answer {
    call.modelled(table, used)
}

/// The same without a change of the table.
fn answered(call: Call, table: &[u32], used: usize) -> Answer {
    call.modelled(&mut table.to_vec(), used)
}

/// Reads a text into a table, with enough frames.
fn lay(table: &mut [u32], used: usize, text: &[u8]) -> Answer {
    let mut memory = Memory {
        table: table.to_vec(),
        stack: vec![0; 3 * text.len()],
        out: Vec::new(),
    };
    let answer = model::read(&mut memory, used, text);
    table.copy_from_slice(&memory.table);
    answer
}

/// The model's Write, and its Read of what is written.
fn written_and_read(table: &[u32], used: usize, node: usize) -> (Vec<u8>, Answer) {
    let text = text_of(table, node);
    let answer = lay(&mut table.to_vec(), used, &text);
    (text, answer)
}

/// The first differences from the model on pairs, and on calls with something wrong.
fn differences(engine: impl Fn(Call, &mut [u32], usize) -> Answer) -> Vec<String> {
    let random = &mut Random::new(9);
    let (mut pairs, mut calls) = (Pairs::default(), Calls::default());
    let mut wrong = Vec::new();
    for _ in 0..PAIRS_MADE {
        wrong.extend(pairs.compare(random, &engine, written_and_read));
        wrong.extend((0..CALLS_MADE).filter_map(|_| calls.compare(random, &engine)));
        if wrong.len() >= NOTICED {
            break;
        }
    }
    wrong
}

/// The operations that may make nodes, that are given nodes, and that are given two.
const MAKING: &[Operation] = &[Operation::Weight, Operation::Add];
const OF_NODES: &[Operation] = &[Operation::Grams, Operation::Add, Operation::Compare];
const OF_TWO: &[Operation] = &[Operation::Add, Operation::Compare];

/// A wrong function is noticed in each of these operations, where the others are right.
fn noticed(
    what: &str,
    operations: &[Operation],
    wrong: impl Fn(Call, &mut [u32], usize) -> Answer,
) {
    for of in operations {
        let engine = |call: Call, table: &mut [u32], used| match call.operation() == *of {
            true => wrong(call, table, used),
            false => call.modelled(table, used),
        };
        let different = differences(engine).len();
        assert!(different >= NOTICED, "{of:?}, {what}: {different}");
    }
}

/// Weights by the nodes of a table, in parts of which a test changes one.
#[derive(Clone, Copy)]
struct Parts {
    items: usize,
    /// The digit of so many K, if there is one.
    digit: fn(usize) -> Option<usize>,
    /// Whether a fork whose first branch has these words is K on the second.
    is_k: fn([u32; 2]) -> bool,
    /// Whether a node with these words is the end of an item, and of a list.
    ends_item: fn([u32; 2]) -> bool,
    ends_list: fn([u32; 2]) -> bool,
    /// The grams of digits in the order of the list.
    grams: fn(&[usize]) -> usize,
}

const RIGHT: Parts = Parts {
    items: 9,
    digit: |times| (times < 10).then_some(times),
    is_k: |first| first == [0, 0],
    ends_item: |words| words == [0, 0],
    ends_list: |words| words == [0, 0],
    grams: |digits| digits.iter().rev().fold(0, |grams, d| 10 * grams + d),
};

impl Parts {
    /// The digit of the item with this branch word.
    fn digit(&self, table: &[u32], mut item: u32) -> Option<usize> {
        let mut times = 0;
        loop {
            let [first, second] = words(table, item);
            if second == 0 || !(self.is_k)(words(table, first)) {
                break;
            }
            (item, times) = (second, times + 1);
        }
        let ends = (self.ends_item)(words(table, item));
        (self.digit)(times).filter(|_| ends)
    }

    /// The grams of a node's tree, if it is a weight.
    fn grams(&self, table: &[u32], node: usize) -> Option<usize> {
        let (mut rest, mut digits) = (node as u32 + 1, Vec::new());
        for _ in 0..self.items {
            let [first, second] = words(table, rest);
            if second == 0 {
                return None;
            }
            digits.push(self.digit(table, first)?);
            rest = second;
        }
        (self.ends_list)(words(table, rest)).then(|| (self.grams)(&digits))
    }

    /// What is answered where the grams of trees are found in this way.
    fn answer(&self, call: Call, table: &mut [u32], used: usize) -> Answer {
        let answer = answered(call, table, used);
        if [1, 2, 3].contains(&answer[0]) {
            return answer;
        }
        let grams = |node| self.grams(table, node);
        match call {
            Call::Weight(_) => call.modelled(table, used),
            Call::Grams(node) => two(grams(node).map_or([14, 0], |grams| [0, grams])),
            Call::Compare(a, b) => match (grams(a), grams(b)) {
                (Some(a), Some(b)) => two([0, 1 + usize::from(a > b) - usize::from(a < b)]),
                _ => two([14, 0]),
            },
            Call::Add(a, b) => match (grams(a), grams(b)) {
                (Some(a), Some(b)) => Call::Weight(a + b).modelled(table, used),
                _ => [14, 0, used, 0, 0],
            },
        }
    }
}

/// The words of the node with this branch word.
fn words(table: &[u32], word: u32) -> [u32; 2] {
    [0, 1].map(|i| table[2 * (word as usize - 1) + i])
}

/// The model, and weights by the nodes of a table.
#[test]
fn nothing_is_wrong() {
    let none: [String; 0] = [];
    assert_eq!(differences(modelled), none);
    let by_nodes = |call, table: &mut [u32], used| RIGHT.answer(call, table, used);
    assert_eq!(differences(by_nodes), none);
}

const WRONG_READINGS: [(&str, fn(&mut Parts)); 16] = [
    ("highest digit first", |parts| {
        parts.grams = |digits| digits.iter().fold(0, |grams, d| 10 * grams + d);
    }),
    ("eight items", |parts| parts.items = 8),
    ("ten items", |parts| parts.items = 10),
    ("the ninth item is not looked at", |parts| {
        (parts.items, parts.ends_list) = (8, |_| true);
    }),
    ("a tenth item is taken", |parts| parts.ends_list = |_| true),
    ("a stem ends a list", |parts| {
        parts.ends_list = |[_, second]| second == 0;
    }),
    ("a digit of ten is taken", |parts| {
        parts.digit = |times| (times <= 10).then_some(times);
    }),
    ("a digit of nine is not", |parts| {
        parts.digit = |times| (times < 9).then_some(times);
    }),
    ("a digit of nine or more is 9", |parts| {
        parts.digit = |times| Some(times.min(9));
    }),
    ("a digit of ten is 0", |parts| {
        parts.digit = |times| Some(times % 10);
    }),
    ("a digit has eight bits", |parts| {
        parts.digit = |times| Some(times % 256).filter(|digit| *digit < 10);
    }),
    ("nine is 8", |parts| {
        parts.digit = |times| (times < 10).then_some(times.min(8));
    }),
    ("any fork is K", |parts| parts.is_k = |_| true),
    ("a stem for the leaf of K", |parts| {
        parts.is_k = |[_, second]| second == 0;
    }),
    ("anything ends an item", |parts| {
        parts.ends_item = |_| true;
    }),
    ("a stem ends an item", |parts| {
        parts.ends_item = |[_, second]| second == 0;
    }),
];

#[test]
fn wrong_readings_of_trees() {
    for (what, change) in WRONG_READINGS {
        let mut parts = RIGHT;
        change(&mut parts);
        noticed(what, OF_NODES, |call, table, used| {
            parts.answer(call, table, used)
        });
    }
}

/// What two nodes' grams give, if both are weights in use in a sound table.
fn of_weights<T>(
    call: Call,
    table: &[u32],
    used: usize,
    give: impl FnOnce(usize, usize) -> T,
) -> Option<T> {
    let (Call::Add(a, b) | Call::Compare(a, b)) = call else {
        return None;
    };
    let [a, b] = [a, b].map(|node| weight::grams(table, used, node));
    (a[0] == 0 && b[0] == 0).then(|| give(a[1], b[1]))
}

/// The digits of two weights in one place.
fn at(place: usize, a: usize, b: usize) -> (usize, usize) {
    (digits(a)[place], digits(b)[place])
}

/// The sum without the carry out of this place.
fn without_carry(place: usize, a: usize, b: usize) -> usize {
    let power = 10_usize.pow(place as u32 + 1);
    let carry = usize::from(a % power + b % power >= power);
    a + b - carry * power
}

#[test]
fn wrong_sums() {
    let wrong: [(&str, fn(usize, usize) -> usize); 11] = [
        ("no carry", |a, b| {
            (0..ITEMS).fold(0, |sum, place| {
                let (a, b) = at(place, a, b);
                sum + (a + b) % 10 * 10_usize.pow(place as u32)
            })
        }),
        ("no carry out of the first place", |a, b| {
            without_carry(0, a, b)
        }),
        ("no carry out of the third", |a, b| without_carry(2, a, b)),
        ("no carry into the ninth", |a, b| without_carry(7, a, b)),
        ("a sum above the top loses its tenth digit", |a, b| {
            (a + b) % (MOST + 1)
        }),
        ("a sum above the top is the top", |a, b| (a + b).min(MOST)),
        ("one above the top is taken", |a, b| {
            a + b - usize::from(a + b == MOST + 1)
        }),
        ("the top is refused", |a, b| {
            a + b + usize::from(a + b == MOST)
        }),
        ("the first twice", |a, _| a + a),
        ("the second alone", |_, b| b),
        ("the difference", usize::abs_diff),
    ];
    for (what, sum) in wrong {
        noticed(
            what,
            &[Operation::Add],
            |call, table, used| match of_weights(call, table, used, sum) {
                Some(sum) => Call::Weight(sum).modelled(table, used),
                None => call.modelled(table, used),
            },
        );
    }
}

/// What one number is beside another.
fn order<T: PartialOrd>(a: T, b: T) -> usize {
    1 + usize::from(a > b) - usize::from(a < b)
}

#[test]
fn wrong_orders() {
    const COMPARE: &[Operation] = &[Operation::Compare];
    let wrong: [(&str, fn(usize, usize) -> usize); 11] = [
        ("less and greater swapped", |a, b| order(b, a)),
        ("the lowest digit decides", |a, b| {
            order(digits(a), digits(b))
        }),
        ("the lowest digit alone", |a, b| {
            let (a, b) = at(0, a, b);
            order(a, b)
        }),
        ("the highest digit alone", |a, b| {
            let (a, b) = at(ITEMS - 1, a, b);
            order(a, b)
        }),
        ("the lowest digit is not looked at", |a, b| {
            order(a / 10, b / 10)
        }),
        ("the highest digit is not looked at", |a, b| {
            order(a % 100_000_000, b % 100_000_000)
        }),
        ("by the texts", |a, b| {
            order(weight::text(a), weight::text(b))
        }),
        ("by the sums of the digits", |a, b| {
            let [a, b] = [a, b].map(|grams| digits(grams).iter().sum::<usize>());
            order(a, b)
        }),
        ("never equal", |a, b| 2 * usize::from(a > b)),
        ("one for greater", |a, b| usize::from(a > b)),
        ("one more", |a, b| order(a, b) + 1),
    ];
    for (what, order) in wrong {
        noticed(what, COMPARE, |call, table, used| {
            match of_weights(call, table, used, order) {
                Some(order) => two([0, order]),
                None => call.modelled(table, used),
            }
        });
    }
    noticed("by the nodes", COMPARE, |call, table, used| {
        match (call, answered(call, table, used)) {
            (Call::Compare(a, b), [0, ..]) => two([0, order(a, b)]),
            (_, answer) => answer,
        }
    });
}

/// A list's text with these items and end.
fn other_list(grams: usize, of: fn(usize) -> Vec<u8>, end: &[u8]) -> Vec<u8> {
    list(&digits(grams).map(of), end)
}

const WRONG_TREES: [(&str, fn(usize) -> Vec<u8>); 10] = [
    ("highest digit first", |grams| {
        let mut items = digits(grams).map(item);
        items.reverse();
        list(&items, b"0")
    }),
    ("eight digits", |grams| {
        list(&digits(grams).map(item)[..8], b"0")
    }),
    ("ten digits", |grams| other_list(grams, item, b"200")),
    ("no zeros after the highest digit", |grams| {
        let places = grams.checked_ilog10().map_or(0, |n| n as usize + 1);
        list(&digits(grams).map(item)[..places], b"0")
    }),
    ("digits of stems", |grams| {
        let stems = |digit| [b"1".repeat(digit), vec![b'0']].concat();
        other_list(grams, stems, b"0")
    }),
    ("digits of one K more", |grams| {
        other_list(grams, |digit| item(digit + 1), b"0")
    }),
    ("digits that begin at K", |grams| {
        let from_k = |digit| [b"20".repeat(digit), b"10".to_vec()].concat();
        other_list(grams, from_k, b"0")
    }),
    ("a stem for the end", |grams| other_list(grams, item, b"10")),
    ("one gram more", |grams| weight::text((grams + 1).min(MOST))),
    ("lists before items", |grams| {
        let items = digits(grams).map(item).concat();
        [b"2".repeat(ITEMS), b"0".to_vec(), items].concat()
    }),
];

/// The grams of the tree that a call makes, or lacks room for.
fn wanted(call: Call, table: &[u32], used: usize) -> Option<usize> {
    match (call, answered(call, table, used)) {
        (Call::Weight(grams), [0 | 8, ..]) => Some(grams),
        (Call::Add(..), [0 | 8, ..]) => of_weights(call, table, used, |a, b| a + b),
        _ => None,
    }
}

#[test]
fn wrong_trees() {
    for (what, text) in WRONG_TREES {
        noticed(what, MAKING, |call, table, used| {
            match wanted(call, table, used) {
                Some(grams) => lay(table, used, &text(grams)),
                None => call.modelled(table, used),
            }
        });
    }
}

/// Weights laid node by node, in parts of which a test changes one.
#[derive(Clone, Copy)]
struct Laying {
    /// Which nodes are looked at for an equal one, where so many were in use before the call, so many are now and there
    /// are so many in all.
    looked_at: fn(usize, usize, usize) -> Range<usize>,
    /// Whether two nodes with these words are taken for equal.
    equal: fn([u32; 2], [u32; 2]) -> bool,
    /// Whether the rest of a list is laid before its item.
    rest_first: bool,
}

const LAYING: Laying = Laying {
    looked_at: |_, now, _| 0..now,
    equal: |a, b| a == b,
    rest_first: true,
};

impl Laying {
    /// The branch word of the node with these words, where `now` are in use, or none where the table is full.
    fn make(&self, table: &mut [u32], used: usize, now: &mut usize, node: [u32; 2]) -> Option<u32> {
        let nodes = table.len() / 2;
        let mut looked_at = (self.looked_at)(used, *now, nodes);
        let found = looked_at.find(|i| (self.equal)(words(table, *i as u32 + 1), node));
        if let Some(found) = found {
            return Some(found as u32 + 1);
        }
        let place = table[..2 * nodes].get_mut(2 * *now..2 * *now + 2)?;
        place.copy_from_slice(&node);
        *now += 1;
        Some(*now as u32)
    }

    /// The branch word of the list of these digits.
    fn list(&self, make: &mut dyn FnMut([u32; 2]) -> Option<u32>, digits: &[usize]) -> Option<u32> {
        let Some((digit, rest)) = digits.split_first() else {
            return make([0, 0]);
        };
        let before = match self.rest_first {
            true => Some(self.list(make, rest)?),
            false => None,
        };
        let leaf = make([0, 0])?;
        let mut item = leaf;
        for _ in 0..*digit {
            item = make([leaf, item])?;
        }
        let rest = match before {
            Some(rest) => rest,
            None => self.list(make, rest)?,
        };
        make([item, rest])
    }

    fn answer(&self, call: Call, table: &mut [u32], used: usize) -> Answer {
        let Some(grams) = wanted(call, table, used) else {
            return call.modelled(table, used);
        };
        let mut now = used;
        let make = &mut |node| self.make(table, used, &mut now, node);
        match self.list(make, &digits(grams)) {
            Some(word) => [0, word as usize - 1, now, 0, 0],
            None => {
                table[2 * used..2 * now].fill(0);
                [8, 0, used, 0, 0]
            }
        }
    }
}

/// Nodes in another order, or not each tree once.
#[test]
fn wrong_nodes() {
    let right = |call, table: &mut [u32], used| LAYING.answer(call, table, used);
    assert_eq!(differences(right).len(), 0);
    let wrong: [(&str, fn(&mut Laying)); 8] = [
        ("each tree anew", |laying| laying.looked_at = |_, _, _| 0..0),
        ("new nodes are not looked at", |laying| {
            laying.looked_at = |used, _, _| 0..used;
        }),
        ("only new nodes are", |laying| {
            laying.looked_at = |used, now, _| used..now;
        }),
        ("nodes that are not in use are", |laying| {
            laying.looked_at = |_, _, nodes| 0..nodes;
        }),
        ("the last is not", |laying| {
            laying.looked_at = |_, now, _| 0..now.saturating_sub(1);
        }),
        ("by the second word", |laying| {
            laying.equal = |a, b| a[1] == b[1];
        }),
        ("leaves are not looked for", |laying| {
            laying.equal = |a, b| a == b && a != [0, 0];
        }),
        ("items before lists", |laying| laying.rest_first = false),
    ];
    for (what, change) in wrong {
        let mut laying = LAYING;
        change(&mut laying);
        noticed(what, MAKING, |call, table, used| {
            laying.answer(call, table, used)
        });
    }
}

/// What a call that may make nodes answers and leaves, and what it found.
struct Made<'a> {
    answer: Answer,
    table: &'a mut [u32],
    found: Vec<u32>,
    used: usize,
    call: Call,
}

impl Made<'_> {
    fn refusal(&self) -> usize {
        self.answer[0]
    }

    /// The table after the call with enough room.
    fn grown(&self) -> Vec<u32> {
        self.call.grown(&self.found[..2 * self.used]).1
    }
}

/// A call that may make nodes, whose answer or table is changed.
fn changed(what: &str, change: fn(&mut Made)) {
    noticed(what, MAKING, |call, table, used| {
        let found = table.to_vec();
        let answer = call.modelled(table, used);
        let mut made = Made {
            answer,
            table,
            found,
            used,
            call,
        };
        change(&mut made);
        made.answer
    });
}

#[test]
fn wrong_answers() {
    let wrong: [(&str, fn(&mut Answer)); 8] = [
        ("the node after it", |answer| {
            answer[1] += usize::from(answer[0] == 0);
        }),
        ("the first node", |answer| answer[1] = 0),
        ("the last node", |answer| match answer[0] {
            0 => answer[1] = answer[2] - 1,
            _ => {}
        }),
        ("one more used", |answer| {
            answer[2] += usize::from(answer[0] == 0);
        }),
        ("0 used on refusal", |answer| {
            answer[2] *= usize::from(answer[0] == 0);
        }),
        ("steps", |answer| answer[3] = 1),
        ("digits", |answer| answer[4] = 1),
        ("a node on refusal", |answer| {
            answer[1] = answer[1].max(answer[0]);
        }),
    ];
    for (what, change) in wrong {
        noticed(what, MAKING, |call, table, used| {
            let mut answer = call.modelled(table, used);
            change(&mut answer);
            answer
        });
    }
    changed("used as at entry", |made| made.answer[2] = made.used);
    changed("all used on 8", |made| {
        if made.refusal() == 8 {
            made.answer[2] = made.table.len() / 2;
        }
    });
    for refusal in [1, 2, 3, 14] {
        let looking = &[Operation::Grams, Operation::Compare];
        noticed("a number on refusal", looking, |call, table, used| {
            let mut answer = call.modelled(table, used);
            answer[1] += usize::from(answer[0] == refusal);
            answer
        });
    }
}

/// What is left in the table after a refusal.
#[test]
fn tables_after_a_refusal() {
    changed("not cleared", |made| {
        if made.refusal() == 8 {
            let (grown, nodes) = (made.grown(), made.table.len() / 2);
            made.table[..2 * nodes].copy_from_slice(&grown[..2 * nodes]);
        }
    });
    changed("the last word not cleared", |made| {
        let nodes = made.table.len() / 2;
        if made.refusal() == 8 && nodes > made.used {
            made.table[2 * nodes - 1] = made.grown()[2 * nodes - 1];
        }
    });
    changed("as found", |made| {
        if made.refusal() == 8 {
            made.table.copy_from_slice(&made.found);
        }
    });
    changed("the odd word cleared", |made| {
        if let (8, Some(last)) = (made.refusal(), made.table.last_mut()) {
            *last = 0;
        }
    });
    changed("one in use cleared", |made| {
        if made.refusal() == 8 && made.used > 1 {
            made.table[2 * made.used - 2..2 * made.used].fill(0);
        }
    });
    changed("cleared on 14", |made| {
        if made.refusal() == 14 {
            made.table[2 * made.used..].fill(0);
        }
    });
    changed("made before 14", |made| {
        if made.refusal() == 14 {
            let sum = Call::Weight(0).grown(&made.found[..2 * made.used]).1;
            let length = sum.len().min(made.table.len());
            made.table[..length].copy_from_slice(&sum[..length]);
        }
    });
}

/// What is left in the table after success.
#[test]
fn tables_after_success() {
    changed("the rest cleared", |made| {
        if made.refusal() == 0 {
            made.table[2 * made.answer[2]..].fill(0);
        }
    });
    changed("one word too many", |made| {
        let end = 2 * made.answer[2];
        if let (0, Some(word)) = (made.refusal(), made.table.get_mut(end)) {
            *word = word.wrapping_add(1);
        }
    });
    changed("one word too few", |made| {
        let end = 2 * made.answer[2];
        if made.refusal() == 0 && end > 2 * made.used {
            made.table[end - 1] = made.found[end - 1];
        }
    });
    changed("branches swapped", |made| {
        let end = 2 * made.answer[2];
        if made.refusal() == 0 && end > 2 * made.used {
            made.table.swap(end - 2, end - 1);
        }
    });
    let looking = &[Operation::Grams, Operation::Compare];
    noticed("a word is written", looking, |call, table, used| {
        let answer = call.modelled(table, used);
        if let (0, Some(last)) = (answer[0], table.last_mut()) {
            *last = last.wrapping_add(1);
        }
        answer
    });
}

/// Room that is asked for and not wanted, or not asked for.
#[test]
fn wrong_room() {
    let other_room = |what, refuses: fn(usize, usize, usize) -> bool| {
        noticed(what, MAKING, move |call, table, used| {
            let capacity = table.len() / 2;
            match answered(call, table, used) {
                [0, _, end, ..] if refuses(used, end, capacity) => [8, 0, used, 0, 0],
                _ => call.modelled(table, used),
            }
        });
    };
    other_room("19 nodes for every weight", |used, _, capacity| {
        capacity - used < NODES
    });
    other_room("a full table is refused", |used, _, capacity| {
        used == capacity
    });
    other_room("the last node is not taken", |used, end, capacity| {
        end > used && end == capacity
    });
    other_room("one free node is needed", |_, end, capacity| {
        end == capacity
    });
}

/// Refusals in another order than 1, 2, 3, 14, 8.
#[test]
fn refusals_in_another_order() {
    for [first, second] in TWO {
        let both = |of: &Operation| {
            let refusals = of.refusals();
            refusals.contains(&first) && refusals.contains(&second)
        };
        let operations: Vec<Operation> = OPERATIONS.into_iter().filter(both).collect();
        // Of one node alone there is no other that is no weight.
        let operations = match [first, second] {
            [3, 14] => OF_TWO,
            _ => &operations,
        };
        let what = format!("{second} before {first}");
        noticed(&what, operations, |call, table, used| {
            let answer = call.modelled(table, used);
            match answer[0] == first && is_refused(second, call, table, used) {
                true => [second, answer[1], answer[2], 0, 0],
                false => answer,
            }
        });
    }
}

/// Whether a call is refused with this number, whatever comes before it.
fn is_refused(number: usize, call: Call, table: &[u32], used: usize) -> bool {
    match number {
        2 => is_broken(table, used),
        3 => nodes_of(call).iter().any(|node| *node >= used),
        14 => not_weights(call, table, used),
        _ => used == table.len() / 2,
    }
}

/// The nodes that a call is given.
fn nodes_of(call: Call) -> Vec<usize> {
    match call {
        Call::Weight(_) => Vec::new(),
        Call::Grams(node) => vec![node],
        Call::Add(a, b) | Call::Compare(a, b) => vec![a, b],
    }
}

/// The nodes in use from the first on, up to one that is broken or equal to another.
fn sound(table: &[u32], used: usize) -> usize {
    let most = used.min(table.len().min(WORDS) / 2);
    let words = &table[..2 * most];
    let is_sound = |used: &usize| weight::grams(words, *used, usize::MAX) == [3, 0];
    (0..=most).rev().find(is_sound).unwrap_or(0)
}

fn is_broken(table: &[u32], used: usize) -> bool {
    let most = used.min(table.len().min(WORDS) / 2).min(400);
    weight::grams(&table[..2 * most], most, usize::MAX) == [2, 0]
}

/// Whether the grams are above the top, or a node's tree, as far as there is one, is not a weight.
fn not_weights(call: Call, table: &[u32], used: usize) -> bool {
    if let Call::Weight(grams) = call {
        return grams > MOST;
    }
    let mut nodes = nodes_of(call).into_iter().filter(|node| *node < used);
    nodes.any(|node| text_in_any(table, node).and_then(|text| weight::grams_of(&text)) == None)
}

/// The text of a node's tree in a table that may be broken, if there is one that a weight could have.
fn text_in_any(table: &[u32], node: usize) -> Option<Vec<u8>> {
    let (mut text, mut rest) = (Vec::new(), vec![node]);
    while let (Some(node), 0..weight::DIGITS) = (rest.pop(), text.len()) {
        let branches = table.chunks_exact(2).nth(node)?.iter();
        let branches = branches.rev().filter(|word| **word != 0);
        let before = rest.len();
        rest.extend(branches.map(|word| *word as usize - 1));
        text.push(b"012"[rest.len() - before]);
    }
    Some(text).filter(|_| rest.is_empty())
}

#[test]
fn wrong_refusals() {
    noticed(
        "a longer table is taken",
        &OPERATIONS,
        |call, table, used| {
            let length = table.len().min(WORDS);
            call.modelled(&mut table[..length], used)
        },
    );
    noticed(
        "the longest is refused",
        &OPERATIONS,
        |call, table, used| match (call, table.len()) {
            (Call::Weight(_) | Call::Add(..), WORDS) => [1, 0, used, 0, 0],
            (_, WORDS) => two([1, 0]),
            _ => call.modelled(table, used),
        },
    );
    noticed(
        "more in use than there are",
        &OPERATIONS,
        |call, table, used| {
            let fewer = used.min(table.len() / 2);
            call.modelled(table, fewer)
        },
    );
    noticed(
        "equal nodes are taken",
        &OPERATIONS,
        |call, table, used| match answered(call, table, used) {
            [2, ..] => call.modelled(table, sound(table, used)),
            _ => call.modelled(table, used),
        },
    );
    for (number, other) in [(14, 11), (14, 0), (3, 14), (2, 14), (1, 14)] {
        let what = format!("{other} for {number}");
        let operations = OPERATIONS.into_iter();
        let operations = operations.filter(|of| of.refusals().contains(&number));
        let operations: Vec<Operation> = operations.collect();
        noticed(&what, &operations, |call, table, used| {
            let mut answer = call.modelled(table, used);
            if answer[0] == number {
                answer[0] = other;
            }
            answer
        });
    }
}

/// Grams that `weight` takes for others, or refuses.
#[test]
fn wrong_grams() {
    let wrong: [(&str, fn(usize) -> usize); 4] = [
        ("32 bits", |grams| grams & 0xffff_ffff),
        ("31 bits", |grams| grams & 0x7fff_ffff),
        ("one above the top", |grams| {
            grams - usize::from(grams == MOST + 1)
        }),
        ("more than nine digits", |grams| grams % (MOST + 1)),
    ];
    for (what, other) in wrong {
        noticed(what, &[Operation::Weight], |call, table, used| match call {
            Call::Weight(grams) => Call::Weight(other(grams)).modelled(table, used),
            _ => call.modelled(table, used),
        });
    }
}

/// One of two nodes that is not checked: the other stands for it.
#[test]
fn one_node_unchecked() {
    let unchecked = |what, refusal: usize, other: fn(usize, usize) -> [usize; 2]| {
        noticed(what, OF_TWO, move |call, table, used| {
            let given = |[a, b]: [usize; 2]| match call {
                Call::Add(..) => Call::Add(a, b),
                _ => Call::Compare(a, b),
            };
            match (call, answered(call, table, used)) {
                (Call::Add(a, b) | Call::Compare(a, b), [first, ..]) if first == refusal => {
                    given(other(a, b)).modelled(table, used)
                }
                _ => call.modelled(table, used),
            }
        });
    };
    unchecked("the first node", 3, |_, b| [b, b]);
    unchecked("the second node", 3, |a, _| [a, a]);
    unchecked("the first tree", 14, |_, b| [b, b]);
    unchecked("the second tree", 14, |a, _| [a, a]);
}

/// A sum that is written as another text, or read as another node.
#[test]
fn sums_that_do_not_come_back() {
    type Back = fn(Vec<u8>, Answer) -> (Vec<u8>, Answer);
    let wrong: [(&str, Back); 5] = [
        ("another text", |_, answer| (weight::text(12_345), answer)),
        ("no text", |_, answer| (Vec::new(), answer)),
        ("another node", |text, [refusal, node, used, ..]| {
            (text, [refusal, node + 1, used, 0, 0])
        }),
        ("new nodes", |text, [refusal, node, used, ..]| {
            (text, [refusal, node, used + 1, 0, 0])
        }),
        ("refused", |text, [_, _, used, ..]| {
            (text, [9, 0, used, 0, 0])
        }),
    ];
    for (what, change) in wrong {
        let (random, mut pairs) = (&mut Random::new(9), Pairs::default());
        let back = |table: &[u32], used, node| {
            let (text, answer) = written_and_read(table, used, node);
            change(text, answer)
        };
        let different = |_: &usize| pairs.compare(random, modelled, back).is_some();
        let different = (0..100).filter(different).count();
        assert_eq!(different, pairs.back, "{what}");
        assert!(different > NOTICED, "{what}");
    }
}

/// Each call is what it is called, by what the model answers; there is one of each kind.
#[test]
fn kinds_of_calls() {
    let random = &mut Random::new(5);
    let all = Case::all();
    let (alone, two): (Vec<Case>, Vec<Case>) = all.iter().partition(|case| case.besides.is_none());
    // Eight of `add_weights`, and six of each other.
    assert_eq!(alone.len(), 26);
    let mut met = TWO.map(|_| 0);
    two.iter()
        .for_each(|case| met[case.two().expect("two")] += 1);
    assert!(met.iter().all(|cases| *cases > 0), "{met:?}");
    for case in all {
        for near in NEAR {
            let (asked, _) = Asked::wrong(random, case, near);
            let call = asked.call(case.operation);
            let answer = answered(call, &asked.table, asked.used);
            assert_eq!(answer[0], case.wrong.refusal(), "{case:?} {near:?}");
        }
    }
    // Nineteen with one operation and one thing wrong, too long tables, eleven trees and nine times two refusals.
    assert_eq!(kinds().len(), 19 + 1 + 11 + 9);
}
