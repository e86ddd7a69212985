//! "Where a plan got stuck" ([14]): the model against documents 01 and 02, each number worked out from them.
//! The rules are numbered from 1 in document 01's order: leaf, stem, drop, spread, triage.

use model::{run, stopped, Memory, Stopped};

const LEAF: usize = 1;
const STEM: usize = 2;
const DROP: usize = 3;
const SPREAD: usize = 4;
const TRIAGE: usize = 5;

fn field(tag: u8, value: &[u8]) -> Vec<u8> {
    [&[tag, 0, value.len() as u8], value].concat()
}

/// A packet, with a step limit if one is named.
fn packet(rule: &[u8], arguments: &[&str], limit: Option<u32>) -> Vec<u8> {
    let arguments = arguments.iter().flat_map(|text| field(2, text.as_bytes()));
    let limit = limit.map(|limit| field(3, &limit.to_be_bytes()));
    let fields = field(1, rule).into_iter().chain(arguments);
    fields.chain(limit.into_iter().flatten()).collect()
}

/// Where the packet stops with so many nodes, frames and out bytes. It must leave what Run leaves.
fn stops([nodes, frames, out]: [usize; 3], packet: &[u8]) -> Stopped {
    let mut memory = Memory {
        table: vec![77; 2 * nodes + 1],
        stack: vec![77; 3 * frames + 2],
        out: vec![77; out],
    };
    let mut left = memory.clone();
    let answer = stopped(&mut memory, packet);
    assert_eq!(run(&mut left, packet)[0], answer[0]);
    assert_eq!(memory, left);
    answer
}

/// λx. x x and λx. x.
const DOUBLE: &[u8] = &[2, 1, 3, 0, 3, 0];
const SAME: &[u8] = &[2, 3, 0];

/// λx. x x on the leaf: spread, then λx. x on the leaf twice, each spread, stem, leaf and drop, and then the
/// leaf on the leaf. The rule has five nodes, needs 24 frames to be translated, and the first stem makes 200.
#[test]
fn one_argument() {
    let limited = |limit| packet(DOUBLE, &["0"], Some(limit));
    let same = [SPREAD, STEM, LEAF, DROP];
    let rules = [&[SPREAD], &same[..], &same, &[LEAF]].concat();
    for (steps, rule) in rules.into_iter().enumerate() {
        let answer = stops([6, 24, 2], &limited(steps as u32));
        assert_eq!(answer, [7, 1, steps, rule]);
    }
    assert_eq!(stops([6, 24, 2], &limited(10)), [0; 4]);
    // "no free node: 8, at the third use", "limit 2 and no free node: 7 (with limit 3: 8)"
    assert_eq!(stops([5, 24, 2], &limited(10)), [8, 1, 2, STEM]);
    assert_eq!(stops([5, 24, 2], &limited(3)), [8, 1, 2, STEM]);
    assert_eq!(stops([5, 24, 2], &limited(2)), [7, 1, 2, STEM]);
}

/// λx. x x on itself, which never ends: spread and twice λx. x on it, nine steps a round.
#[test]
fn rounds_without_end() {
    let itself = ["212101021010"];
    let round = [SPREAD, SPREAD, STEM, LEAF, DROP, SPREAD, STEM, LEAF, DROP];
    for steps in [0, 8, 9, 1_000, 1_001, 2_003, 3_004] {
        let packet = packet(DOUBLE, &itself, Some(steps as u32));
        let answer = stops([8, 24, 2], &packet);
        assert_eq!(answer, [7, 1, steps, round[steps % 9]]);
    }
    // 100,000 is 9 * 11,111 + 1.
    let answer = stops([8, 24, 2], &packet(DOUBLE, &itself, None));
    assert_eq!(answer, [7, 1, 100_000, SPREAD]);
}

/// λx. x takes 4 steps to give t, makes Kt and Δt, and needs ten frames to be translated. Each 210 over a
/// tree is a spread that holds a frame while that tree is applied; 22000 is a triage.
#[test]
fn frames_of_the_second_argument() {
    let on = |levels, bottom, limit| {
        let text = "210".repeat(levels) + bottom;
        packet(SAME, &[&text, "0"], limit)
    };
    let room = [20, 10, 4];
    assert_eq!(stops(room, &on(11, "0", None)), [9, 2, 14, SPREAD]);
    assert_eq!(stops(room, &on(11, "0", Some(14))), [7, 2, 14, SPREAD]);
    assert_eq!(stops(room, &on(10, "22000", None)), [9, 2, 14, TRIAGE]);
    assert_eq!(stops(room, &on(10, "22000", Some(3))), [7, 1, 3, DROP]);
    assert_eq!(stops(room, &on(10, "0", None)), [0; 4]);
    assert_eq!(stops([20, 11, 4], &on(11, "0", None)), [0; 4]);
}

/// λx. x gives the leaf in 4 steps and makes 200, the fifth node after 0, 10, the rule and 110. The leaf on
/// 110 makes its stem, that on the leaf the fork of 110 and the leaf, and that is a spread. On leaves alone
/// the outcome is the leaf, 10, 200 and the leaf again, by leaf, stem and drop.
#[test]
fn places_count_from_1() {
    let on = |arguments: &[&str], limit| packet(SAME, arguments, limit);
    let texts = ["0", "110", "0", "0"];
    assert_eq!(stops([5, 10, 9], &on(&texts, None)), [8, 2, 4, LEAF]);
    assert_eq!(stops([6, 10, 9], &on(&texts, None)), [8, 3, 5, STEM]);
    assert_eq!(stops([9, 10, 9], &on(&texts, Some(6))), [7, 4, 6, SPREAD]);
    assert_eq!(stops([9, 10, 9], &on(&["0"; 8], Some(7))), [7, 5, 7, LEAF]);
    assert_eq!(
        stops([9, 10, 9], &on(&["0"; 8], Some(10))),
        [7, 8, 10, LEAF]
    );
}

/// Translate, Read and Write, and the checks before them, give Run's number alone.
#[test]
fn numbers_alone() {
    let paper = packet(DOUBLE, &["0"], None);
    for (room, number) in [
        ([4, 24, 2], 8),
        ([6, 23, 2], 9),
        ([6, 24, 1], 10),
        ([65_537, 24, 2], 1),
    ] {
        assert_eq!(stops(room, &paper), [number, 0, 0, 0]);
    }
    // Eleven trees are pending at most, and 110 is a fourth node.
    let deep = "2".repeat(10) + &"0".repeat(11);
    let on = |text: &str| packet(SAME, &[text], None);
    assert_eq!(stops([20, 10, 2], &on(&deep)), [9, 0, 0, 0]);
    assert_eq!(stops([3, 10, 2], &on("110")), [8, 0, 0, 0]);
    // The rule's text has five digits.
    assert_eq!(stops([9, 10, 4], &packet(SAME, &[], None)), [10, 0, 0, 0]);
    let broken = packet(SAME, &["0"; 9], None);
    for (packet, number) in [
        (broken, 6),
        (packet(&[2, 3, 1], &["0"], None), 5),
        (on("1"), 4),
    ] {
        assert_eq!(stops([20, 10, 2], &packet), [number, 0, 0, 0]);
    }
    // Write holds a frame for each of eleven forks in first branches: 212000 on N is the fork of N and a
    // leaf, and twice that on nine forks makes them.
    let g = "212000";
    let deep = "2".repeat(9) + &"0".repeat(10);
    let forks = packet(SAME, &[&format!("21{g}20{g}"), &deep], None);
    assert_eq!(stops([30, 10, 40], &forks), [9, 0, 0, 0]);
    assert_eq!(stops([30, 11, 40], &forks), [0; 4]);
}
