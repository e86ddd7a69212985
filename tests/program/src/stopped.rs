//! Sends packets to the built program `stopped`, at each border of what it reads and lends, and compares all
//! that it prints with the line that documents 01 and 02 give for the packet: Run's number alone, or for a
//! stop while applying the number, the argument's place, the steps of the whole run and the rule wanted. The
//! second evaluator must give the same. The room is that of the other program, whose test derives what the
//! packets need there.

use crate::{
    case, chain, in_two, labelled, limited, packet, same, stems, twice, Case, DOUBLE, LEAF, SAME,
};
use compare::{second_stopped, stopped_line, PAPERS};
use std::path::Path;

/// A packet whose line is Run's number alone.
fn alone(name: &'static str, packet: Vec<u8>, number: usize) -> Case {
    case(name, packet, number.to_string())
}

/// 6 for what is no packet, or has more than 16,384 bytes. λx. Δ drops its argument: 16,384 bytes succeed
/// where 8,189 nodes are used, and are 8 by Read where 16,376 are wanted.
fn lengths() -> Vec<Case> {
    let longest = packet(LEAF, &[&stems(16_376)]);
    let forks = packet(LEAF, &[&format!("1{}0", "20".repeat(8_187))]);
    assert_eq!([longest.len(), forks.len()], [16_384; 2]);
    let more_after_it = [&longest[..], b"0"].concat();
    let far_longer = [&longest[..], &[b'0'; 100_000]].concat();
    let paper = packet(DOUBLE, &["0"]);
    vec![
        alone("no byte", Vec::new(), 6),
        alone("one byte", vec![1], 6),
        alone("16,384 bytes", longest, 8),
        alone("16,384 bytes that succeed", forks.clone(), 0),
        alone("16,385 bytes", packet(LEAF, &[&stems(16_377)]), 6),
        alone("16,385 bytes, one of no field", more_after_it, 6),
        alone("far more bytes than are read", far_longer, 6),
        in_two(5, alone("two pieces", paper, 0)),
        in_two(9_000, alone("16,384 bytes in two pieces", forks, 0)),
    ]
}

/// What is no stop while applying: success, the checks, and 8, 9 and 10 of other operations. Translate of a
/// rule of 2,049 nodes and Read of 4,096 forks in first branches lack a frame.
///
/// Write: Δ(Δ(KΔ))Δ, 212000, on N is Δ on N, ΔN, on KΔ on N, the leaf: the fork of N and a leaf. Read just
/// lays 4,095 forks in first branches; a 4,096th has a frame in Write, and a 4,097th has none. λx. Δxx on a
/// text of n digits gives one of 2n + 1. The text here is of few nodes: stems over forks of 10, which are
/// three digits each and end in 10.
fn numbers_alone() -> Vec<Case> {
    let deep = |forks| "2".repeat(forks) + &"0".repeat(forks + 1);
    let g = "212000";
    let wide = |stems| "1".repeat(stems) + &"210".repeat(2_729) + "10";
    let fork = [2, 1, 1, 0, 3, 0, 3, 0];
    let on_forks = |function: &str| packet(SAME, &[function, &deep(4_095)]);
    assert_eq!(2 * wide(2).len() + 1, 16_383);
    vec![
        alone("the paper's packet", packet(DOUBLE, &["0"]), 0),
        alone("no arguments", packet(SAME, &[]), 0),
        alone("no arguments, no steps", limited(SAME, &[], 0), 0),
        alone("a text that is no tree", packet(LEAF, &["1"]), 4),
        alone("a label that is none", labelled(packet(LEAF, &[]), "1"), 4),
        alone("an open rule", packet(&[2, 3, 1], &["0"]), 5),
        alone("nine arguments", packet(SAME, &["0"; 9]), 6),
        alone("limit 1,000,001", limited(SAME, &["0"], 1_000_001), 6),
        alone("nodes by Read", packet(SAME, &[&stems(8_192)]), 8),
        alone("frames by Translate", packet(&chain(409, 3), &["0"]), 9),
        alone("frames by Read", packet(SAME, &[&deep(4_096)]), 9),
        alone("4,096 frames by Write", on_forks(g), 0),
        alone("4,097 frames by Write", on_forks(&twice(g)), 9),
        alone("16,383 digits", packet(&fork, &[&wide(2)]), 0),
        alone("16,385 digits", packet(&fork, &[&wide(3)]), 10),
    ]
}

/// λx. x x, Δ(ΔI)I: spread, then λx. x twice, each spread, stem, leaf and drop, and then the one outcome on
/// the other. On the leaf that is a leaf, the tenth use. On itself it is the same again, nine steps a round:
/// 1,000, 10,000, 100,000 and 1,000,000 steps are rounds and one step, and the next use is the second, a
/// spread; 1,002 are three steps more than rounds, and the next use is the fourth, a leaf.
fn steps() -> Vec<Case> {
    let paper = |name, limit, line| case(name, limited(DOUBLE, &["0"], limit), line);
    let itself: &[&str] = &["212101021010"];
    let endless = |name, limit, line| case(name, limited(DOUBLE, itself, limit), line);
    let label = labelled(limited(DOUBLE, &["0"], 9), "10");
    vec![
        paper("limit 0", 0, "7 1 0 spread"),
        paper("limit 1", 1, "7 1 1 spread"),
        paper("limit 2", 2, "7 1 2 stem"),
        paper("limit 3", 3, "7 1 3 leaf"),
        paper("limit 4", 4, "7 1 4 drop"),
        paper("limit 9", 9, "7 1 9 leaf"),
        paper("limit 10", 10, "0"),
        case("limit 9 and a label", label, "7 1 9 leaf"),
        endless("1,000 steps", 1_000, "7 1 1000 spread"),
        endless("1,002 steps", 1_002, "7 1 1002 leaf"),
        endless("10,000 steps", 10_000, "7 1 10000 spread"),
        endless("the most steps", 1_000_000, "7 1 1000000 spread"),
        case(
            "no limit named",
            packet(DOUBLE, itself),
            "7 1 100000 spread",
        ),
    ]
}

/// λx. x gives the leaf in 4 steps, the leaf on the leaf is 10, 10 on the leaf 200, and that drops what it is
/// applied to and gives the leaf: of eight leaves the eighth is applied by leaf, after 4 + 6 steps. On 22000,
/// Δ(ΔΔΔ)Δ, and a leaf, the fifth use is a triage.
fn arguments() -> Vec<Case> {
    let leaves = |name, limit, line| case(name, limited(SAME, &["0"; 8], limit), line);
    vec![
        leaves("the first of eight", 3, "7 1 3 drop"),
        leaves("the second of eight", 4, "7 2 4 leaf"),
        leaves("the third of eight", 5, "7 3 5 stem"),
        leaves("the fourth of eight", 6, "7 4 6 drop"),
        leaves("the last of eight", 10, "7 8 10 leaf"),
        leaves("all of eight", 11, "0"),
        case(
            "a triage",
            limited(SAME, &["22000", "0"], 4),
            "7 2 4 triage",
        ),
    ]
}

/// 8,192 nodes. λx. x on stems N of n digits uses n + 1 nodes, the stems with 0 and 10 among them and I, and
/// makes KN by the second use, a stem, and ΔN by the third, a leaf: 8,189 digits just fit. Where the limit is
/// reached at that use, 7 comes first.
fn nodes() -> Vec<Case> {
    let on = |digits| packet(SAME, &[&stems(digits)]);
    vec![
        case("8,192 nodes", on(8_189), "0"),
        case("8,193 nodes", on(8_190), "8 1 2 leaf"),
        case("8,194 nodes", on(8_191), "8 1 1 stem"),
        case(
            "8,193 nodes, limit 3",
            limited(SAME, &[&stems(8_190)], 3),
            "8 1 2 leaf",
        ),
        case(
            "8,193 nodes, limit 2",
            limited(SAME, &[&stems(8_190)], 2),
            "7 1 2 leaf",
        ),
    ]
}

/// 4,096 frames. λx. x on t takes 4 steps; each 210 of t, Δ(ΔΔ) over a tree, is then a spread that holds a
/// frame while that tree is applied. After 4,096 of them the next has none: 4,100 steps. A triage, 22000,
/// has none either, and a leaf needs none.
fn frames() -> Vec<Case> {
    let text = |levels, bottom: &str| "210".repeat(levels) + bottom;
    let on = |text: String| packet(SAME, &[&text, "0"]);
    let limited_on = |limit| limited(SAME, &[&text(4_097, "0"), "0"], limit);
    vec![
        case("4,096 frames", on(text(4_096, "0")), "0"),
        case("4,097 frames", on(text(4_097, "0")), "9 2 4100 spread"),
        case(
            "4,097 frames for a triage",
            on(text(4_096, "22000")),
            "9 2 4100 triage",
        ),
        case(
            "4,097 frames, limit 4,101",
            limited_on(4_101),
            "9 2 4100 spread",
        ),
        case(
            "4,097 frames, limit 4,100",
            limited_on(4_100),
            "7 2 4100 spread",
        ),
    ]
}

pub fn compare(stopped: &Path) -> bool {
    let parts = [
        lengths(),
        numbers_alone(),
        steps(),
        arguments(),
        nodes(),
        frames(),
    ];
    let cases: Vec<Case> = parts.into_iter().flatten().collect();
    let line = |case: &Case| {
        let stopped = second::stopped(&case.packet, second::PROGRAM, PAPERS);
        stopped_line(second_stopped(&stopped))
    };
    let wrong = cases
        .iter()
        .filter(|case| !same(stopped, case, &line(case)));
    let differences = wrong.count();
    println!(
        "{} packets to the program stopped, {differences} differences",
        cases.len()
    );
    differences == 0
}
