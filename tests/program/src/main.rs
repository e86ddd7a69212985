//! Sends packets to the built program, at each border of what it reads and lends, and compares all
//! that it prints with the line that documents 01 and 02 give for the packet. The comments derive each
//! line from the papers; the second evaluator, written from the papers too, must give the same. Then
//! texts go to the program that reads rule text, packets with labels to the one that labels rules, and
//! packets that stop to the one that tells where. The exit status is 1 where anything differs.
//!
//! `program LAZVORN RULE_TEXT LABEL_PACKET STOPPED`, in the gate those of `target/bin`.
//!
//! What the derivations use, with "used" for the nodes in use and "made" for the new ones of Apply:
//! - A rule of k leaves and variables under one abstraction, m of them its variable, is a tree of
//!   5k - 2 + 2m nodes, and Translate needs two frames for each.
//! - On one argument the engine takes the planner's steps and 2L + 5X - 1 more, L leaves and X
//!   variables in the body. I on N, for each variable, is ΔΔN on ΔN, which are KN and the stem of N.
//! - Each tree is one node ([8]): used are the different trees among those of the rule, of the
//!   arguments, and of the uses of leaf and stem.

mod label_packet;
mod rule_text;
mod stopped;

use compare::PAPERS;
use std::io::{ErrorKind, Write};
use std::path::{Path, PathBuf};
use std::process::{Command, Stdio};
use std::time::Duration;

/// The pause between two pieces of an input.
const PAUSE: Duration = Duration::from_millis(200);

/// What is sent: the packet, and where it is cut into two pieces, if it is.
struct Case {
    name: &'static str,
    packet: Vec<u8>,
    cut: Option<usize>,
    line: String,
}

fn case(name: &'static str, packet: Vec<u8>, line: impl Into<String>) -> Case {
    Case {
        name,
        packet,
        cut: None,
        line: line.into(),
    }
}

fn refused(name: &'static str, packet: Vec<u8>, number: usize) -> Case {
    case(name, packet, format!("{number} 0 0 -"))
}

/// A case whose packet is sent in two pieces.
fn in_two(cut: usize, case: Case) -> Case {
    Case {
        cut: Some(cut),
        ..case
    }
}

// ---- packets, rules and texts

fn field(tag: u8, value: &[u8]) -> Vec<u8> {
    let length = u16::try_from(value.len()).expect("a value of at most 65,535 bytes");
    [&[tag], &length.to_be_bytes()[..], value].concat()
}

/// A packet with the default step limit.
fn packet(rule: &[u8], arguments: &[&str]) -> Vec<u8> {
    let arguments = arguments.iter().flat_map(|text| field(2, text.as_bytes()));
    field(1, rule).into_iter().chain(arguments).collect()
}

fn limited(rule: &[u8], arguments: &[&str], limit: u32) -> Vec<u8> {
    [packet(rule, arguments), field(3, &limit.to_be_bytes())].concat()
}

/// A packet with a label at its end.
fn labelled(packet: Vec<u8>, text: &str) -> Vec<u8> {
    [packet, field(4, text.as_bytes())].concat()
}

/// λx. x x, λx. x and λx. Δ.
const DOUBLE: &[u8] = &[2, 1, 3, 0, 3, 0];
const SAME: &[u8] = &[2, 3, 0];
const LEAF: &[u8] = &[2, 0];

/// A stem of a stem and so on, with a leaf at the end: a text of n digits, with one tree pending.
fn stems(n: usize) -> String {
    "1".repeat(n - 1) + "0"
}

/// λx. Δ(Δ(.. (Δ(x(.. x)))) of k leaves and variables, `variables` of them x: the rule's tree has
/// 5k - 2 + 2 * variables nodes.
fn chain(k: usize, variables: usize) -> Vec<u8> {
    let mut rule = vec![2];
    for i in 0..k {
        if i + 1 < k {
            rule.push(1);
        }
        rule.extend(if i + variables < k { &[0][..] } else { &[3, 0] });
    }
    rule
}

/// Document 01's own lines that are no borders of what is lent: "The packet" and "Depot examples".
fn papers_lines() -> Vec<Case> {
    vec![
        case("the paper's packet", packet(DOUBLE, &["0"]), "0 10 6 10"),
        case("no arguments", packet(SAME, &[]), "0 0 3 21010"),
        case(
            "two arguments",
            packet(&[2, 2, 3, 1], &["0", "10"]),
            "0 11 8 0",
        ),
        refused("a text that is no tree", packet(LEAF, &["1"]), 4),
        refused("an open rule", packet(&[2, 3, 1], &[]), 5),
        refused(
            "a seventeenth abstraction",
            packet(&[[2; 17].to_vec(), vec![0]].concat(), &[]),
            5,
        ),
        refused("nine arguments", packet(SAME, &["0"; 9]), 6),
        refused("limit 9", limited(DOUBLE, &["0"], 9), 7),
    ]
}

/// "Anything else, or more than 16,384 bytes, is 6."
///
/// The rule λx. Δ takes 5 bytes and is KΔ, 200: two nodes. A text of 16,376 digits takes 3 + 16,376. Stems
/// are 16,376 different trees, for which 8,192 nodes are too few, which is 8. A stem over 8,187 forks, each
/// of a leaf and the next, ends in 200 itself: 8,186 forks and the stem are new, 8,189 nodes are used, and
/// the rule drops the argument. A program that takes in fewer bytes finds the text cut short, which is 6.
fn lengths() -> Vec<Case> {
    let longest = packet(LEAF, &[&stems(16_376)]);
    assert_eq!(longest.len(), 16_384);
    let forks = packet(LEAF, &[&format!("1{}0", "20".repeat(8_187))]);
    assert_eq!(forks.len(), 16_384);
    let whole_but_longer = packet(LEAF, &[&stems(16_377)]);
    let more_after_it = [&longest[..], b"0"].concat();
    let far_longer = [&longest[..], &[b'0'; 100_000]].concat();
    vec![
        refused("no byte", Vec::new(), 6),
        refused("16,384 bytes", longest.clone(), 8),
        case("16,384 bytes that succeed", forks.clone(), "0 1 8189 0"),
        refused("16,385 bytes, whole fields", whole_but_longer, 6),
        refused("16,385 bytes, the last one of no field", more_after_it, 6),
        refused("far more bytes than are read", far_longer, 6),
        in_two(5, case("two pieces", packet(DOUBLE, &["0"]), "0 10 6 10")),
        in_two(8_000, refused("16,384 bytes in two pieces", longest, 8)),
        in_two(9_000, case("forks in two pieces", forks, "0 1 8189 0")),
    ]
}

/// 16,384 out bytes. λx. Δ(Δ(Δxx)(Δxx)) on a text of n digits gives a text of 4n + 4, for the stem, the
/// fork, and two forks of x twice; with n = 4,095 that is 16,384. One stem more is one digit too many.
///
/// L = 4 and X = 4. The planner uses the leaf rule or the stem rule once for each of the 7 applications.
/// Steps: 7 + 2 * 4 + 5 * 4 - 1 = 34.
///
/// Abstraction gives, from the inside, Δ(ΔI)(KΔ) for Δx, Δ(ΔI) and this for Δxx, g; Δ(Δg)(KΔ), and
/// Δ(Δg) and this, h; Δ(Δh)(KΔ), the whole. Of the rule are 0, 10, I, KΔ, ΔI and the one for Δx, g, Δg,
/// two more forks, Δh and the whole: 12. The stems of x are 4,095 trees, with 0 and 10. Made are Kx, Δx,
/// Δxx, its stem, the fork of two of it, and the outcome. Used: 12 + 4,093 + 6 = 4,111.
fn out_bytes() -> Vec<Case> {
    let fork = [1, 1, 0, 3, 0, 3, 0];
    let fits = [&[2, 1, 0, 1, 1, 0], &fork[..], &fork[..]].concat();
    let too_long = [&[2, 1, 0], &fits[1..]].concat();
    let x = stems(4_095);
    let text = format!("122{x}{x}2{x}{x}");
    assert_eq!(text.len(), 16_384);
    vec![
        case(
            "16,384 digits",
            packet(&fits, &[&x]),
            format!("0 34 4111 {text}"),
        ),
        refused("16,385 digits", packet(&too_long, &[&x]), 10),
    ]
}

/// 8,192 nodes. λx. Δ is 200, two nodes, and drops its argument in 1 step, making none: stems of 8,191
/// digits, the leaf among them, just fit, and Read refuses 8,192. λx. x is 0, 10 and I, and makes KN and ΔN
/// in 4 steps: stems of 8,189 digits, 0 and 10 among them, just fit, and with 8,190 Apply lacks the last
/// node. A rule of 8,192 or 8,193 nodes lacks frames, which is 9: 5 * 1,638 - 2 + 2 * 2 = 8,192 and
/// 5 * 1,639 - 2 = 8,193. One that has its frames has at most 2,048 nodes.
fn nodes() -> Vec<Case> {
    let x = stems(8_189);
    vec![
        case(
            "8,192 nodes by Read",
            packet(LEAF, &[&stems(8_191)]),
            "0 1 8192 0",
        ),
        refused("8,193 nodes by Read", packet(LEAF, &[&stems(8_192)]), 8),
        case(
            "8,192 nodes by Apply",
            packet(SAME, &[&x]),
            format!("0 4 8192 {x}"),
        ),
        refused("8,193 nodes by Apply", packet(SAME, &[&stems(8_190)]), 8),
        refused("a rule of 8,192 nodes", packet(&chain(1_638, 2), &[]), 9),
        refused("a rule of 8,193 nodes", packet(&chain(1_639, 0), &[]), 9),
    ]
}

/// 4,096 frames, by Translate. A rule of 2,048 nodes needs 4,096: 5 * 410 - 2 = 2,048. From Δv, v the
/// chain that is one leaf shorter, abstraction gives Δ(Δv′)(KΔ): 21, the text of v′, 200. From the last
/// leaf it gives KΔ, 200. So each of 409 leaves adds a stem and a fork to 0 and 200: 820 different trees.
/// One node more, 5 * 409 - 2 + 2 * 3 = 2,049, needs two frames more.
fn frames_by_translate() -> Vec<Case> {
    let text = "21".repeat(409) + &"200".repeat(410);
    assert_eq!(text.len(), 2_048);
    vec![
        case(
            "4,096 frames by Translate",
            packet(&chain(410, 0), &[]),
            format!("0 0 820 {text}"),
        ),
        refused("4,098 frames by Translate", packet(&chain(409, 3), &[]), 9),
    ]
}

/// 4,096 frames, by Read: forks in first branches, with a leaf each in the second, leave as many trees
/// pending as there are leaves. With the rule λx. Δ, 200, the innermost fork is there: 4,095 forks use
/// 2 + 4,094 nodes. One fork more lacks a frame; with 8,180 stems in it it lacks nodes too, but 9 comes
/// first.
fn frames_by_read() -> Vec<Case> {
    let deep = |forks, inside: &str| "2".repeat(forks) + inside + &"0".repeat(forks + 1);
    let case_of = |text: &str| packet(LEAF, &[text]);
    vec![
        case(
            "4,096 frames by Read",
            case_of(&deep(4_095, "")),
            "0 1 4096 0",
        ),
        refused("4,097 frames by Read", case_of(&deep(4_096, "")), 9),
        refused(
            "4,097 frames by Read, and too many nodes",
            case_of(&deep(4_096, &"1".repeat(8_180))),
            9,
        ),
    ]
}

/// The tree of y twice: Δ(Δy)(Ky) on N is Ky on N, y on N, and then y on the outcome of that.
fn twice(y: &str) -> String {
    format!("21{y}20{y}")
}

/// 4,096 frames, by Apply: a tree that holds a frame at each of 4,096 levels, and one of 4,097.
///
/// Let T = Δ(ΔΔΔ)Δ, a triage, and a = K(KT). T on a is a on Δ, KT, and that on Δ, T: 3 steps, triage and
/// two drops. A level over f is Δ(Δ(Ka))f: on N, spread holds a frame during f on N, which gives T, and
/// during Ka on N, which gives a; then T is applied to a. So a level over an f that gives T gives T, in 5
/// steps more and with one frame more, and makes no node. At the bottom is KT, which needs no frame and
/// gives T in 1 step. So n levels on N hold n frames and take 5n + 1 steps; the triage of T holds one
/// where the spread has just let go of it.
///
/// A level is put over f by w = Δ(Δ(Ka)) on f, the stem rule, in 1 step and 1 node. c is w sixteen times,
/// by `twice` four times in the text.
///
/// t = Δ(Δ(ΔΔ))(Δ(ΔΔ)(KΔ)) on y gives Δ(Δy)(Ky), y twice. Spread; Δ(ΔΔ)(KΔ) on y is spread, drop, leaf
/// (Δy), leaf (Δ(Δy)); ΔΔ on y is stem (Ky); Δ(Δy) on Ky is stem: 7 steps, and Δy, Δ(Δy), Ky and the whole
/// are made.
///
/// The rule λx. x(x(x x)) is 0, 10, I, ΔI and three forks with I, of which two have a stem over them: 9
/// nodes. Of t are new 200, 210200, 110 and t: 4. Of c are new T, KT, a, Ka, Δ(Ka) and w, and then Δy, Ky
/// and y twice four times: 18. KT and the leaf are there. It is applied to t, c, KT and a leaf:
/// - to t: t on t is t twice, r; t on r is r twice, q; t on q is q twice. The planner takes 3 * 7 steps;
///   with L = 0 and X = 4 the engine takes 21 + 20 - 1 = 40. I on t makes Kt and Δt, t on t two more, and
///   the others four each: 12.
/// - to c: y twice takes 2 steps, spread and drop, beside those of y on both. t on one takes 7, so r
///   takes 2 + 2 * 7 = 16, q 2 + 2 * 16 = 34, and this 2 + 2 * 34 = 70, for 8 doublings with 4 nodes
///   each. The outcome is w 16 * 256 = 4,096 times.
/// - to KT: the 4,096 uses of the stem rule, and 2 steps for each of the 4,095 places where two are put
///   together: 4,096 + 2 * 4,095 = 12,286 steps and 4,096 nodes.
/// - to the leaf: 5 * 4,096 + 1 = 20,481 steps, no node, 4,096 frames, and T, 22000.
///
/// Steps: 40 + 70 + 12,286 + 20,481 = 32,877. Used: 9 + 4 + 18 + 12 + 32 + 4,096 = 4,171.
fn frames_by_apply() -> Vec<Case> {
    let rule = [2, 1, 3, 0, 1, 3, 0, 1, 3, 0, 3, 0];
    let t = "2110210200";
    let bottom = "2022000";
    let constant_a = "20202022000";
    let w = format!("11{constant_a}");
    let c = twice(&twice(&twice(&twice(&w))));
    let one_more = format!("21{constant_a}{bottom}");
    let line = "0 32877 4171 22000";
    let with = |bottom: &str, limit| limited(&rule, &[t, &c, bottom, "0"], limit);
    vec![
        case("4,096 frames by Apply", with(bottom, 1_000_000), line),
        refused("4,097 frames by Apply", with(&one_more, 1_000_000), 9),
        case("32,877 steps", with(bottom, 32_877), line),
        refused("one step too few", with(bottom, 32_876), 7),
    ]
}

/// 212101021010 on itself, which never ends: "[2]'s endless line gives 7 again" ([8]). Spread applies λx. x
/// to it twice and then it is applied to itself again. KN and ΔN are made in the first of these rounds, and
/// nothing after it, so that only the limit ends it, whatever it is.
///
/// M = λx. λy. x x (Δy) on itself and on a leaf makes ever more. M on M gives P = λy. M M (Δy) in s steps:
/// the body Δ(ΔE)(Δ(Δ(Kx))(Kx)), where E = Δ(ΔI)(KΔ) has ten leaves, has L = 18 and X = 2, the planner takes
/// 19 steps, and the engine 19 + 36 + 10 - 1 = 64. P on N is spread, spread, drop, drop, M on M, E on N in 7
/// steps, and P on ΔN: 75 steps a round. Of a round KN and ΔN are new, since N is a stem more each time.
/// 100,000 steps are less than 1,334 rounds and 2,668 of these; M's text has 102 digits and M on M takes 64
/// steps, which make no more nodes. So the default limit comes first; and within 4,096 rounds, 307,200
/// steps, the 8,192 nodes are used.
///
/// λx. ΔΔΔ(x x) on 212101021010: on paper ΔΔyz = y drops the part that never ends, and Δ is left; "an
/// unneeded part that never ends keeps Apply busy" ([11]).
fn endless() -> Vec<Case> {
    let on_itself = &["212101021010"];
    let with = |limit| limited(DOUBLE, on_itself, limit);
    let growing = [2, 2, 1, 1, 3, 1, 3, 1, 1, 0, 3, 0];
    let text =
        "2121212101021200200212121210102120020020020021212121200212002002121212120020021212002\
                00200200200200200";
    let arguments: &[&str] = &[text, "0"];
    let unneeded = [2, 1, 1, 1, 0, 0, 0, 1, 3, 0, 3, 0];
    vec![
        refused("a part that paper drops", packet(&unneeded, on_itself), 7),
        refused("one that never ends", packet(DOUBLE, on_itself), 7),
        refused("the same, 10,000 steps", with(10_000), 7),
        refused("the same, 1,000,000 steps", with(1_000_000), 7),
        refused("one that grows", packet(&growing, arguments), 7),
        refused(
            "the same, 307,264 steps",
            limited(&growing, arguments, 307_264),
            8,
        ),
    ]
}

/// "Without tag 3 the limit becomes 100,000." ([2]) Packets that take 50,000, 100,000 and 100,001 steps.
///
/// f is K0 put together by `twice` eight times. Twice takes 2 steps beside those of its two parts, so
/// with s steps for one part s + 2 doubles: K0 takes 1 step and f 3 * 2^8 - 2 = 766, on any tree. It
/// makes no node and gives 0. In the same way d + 4 doubles for d digits: f has 7 * 2^8 - 4 = 1,788. Its
/// trees are 0, 200, and Δy, Ky and y twice eight times.
///
/// The rule is λx. x(x(.. x(Δ(Δ(.. Δz))))), n times x and m times Δ before a closed z, on f. For z two
/// are taken:
/// - Δ, one leaf in no step.
/// - T(TΔ) for T = Δ(ΔΔΔ)Δ, 22000: eleven leaves. Each T takes 4 uses of the leaf rule or
///   the stem rule. T on 0 is 200 in 3 steps (document 01), and T on 200 is triage, drop
///   (200 on 0 is 0) and leaf (0 on 0 is 10), 3 steps. So 14 steps.
///
/// With l leaves and s steps for z: L = m + l and X = n, the planner takes 766n + m + s steps,
/// and the engine 766n + m + s + 2(m + l) + 5n - 1 = 771n + 3m + s + 2l - 1.
///
/// Abstraction puts a stem and a fork over what follows for each x and each Δ, the fork with I or with
/// KΔ, 200. From Δ itself it gives 200. From T(TΔ) it gives, beside 0 and 200: 1200; from ΔΔ a fork with
/// 200, from ΔΔΔ one with this, its stem, from Δ(ΔΔΔ) a fork with 200, from T one with this, from TΔ one
/// with this, its stem, and from the whole one with that from T: 9. With 0, 200, 10 and I the rule has
/// 2m + 2n + 4, and 9 more for T(TΔ). Of f are new all but 0, 200 and 1200, which is Δ(K0): 23. The uses
/// make Kf and Δf, and stems: m - 1 of them over 10, or for T(TΔ), which is 10, m, and T.
/// - n = 64, m = 207, T(TΔ): 49,344 + 621 + 35 = 50,000 steps; 546 + 9 + 23 + 2 + 207 + 1 = 788.
/// - n = 129, m = 180, Δ: 99,459 + 540 + 1 = 100,000 steps; 622 + 23 + 2 + 179 = 826.
/// - n = 129, m = 169, T(TΔ): 99,459 + 507 + 35 = 100,001; 600 + 9 + 23 + 2 + 169 + 1 = 804.
fn steps() -> Vec<Case> {
    let f = (0..8).fold("200".to_string(), |y, _| twice(&y));
    assert_eq!(f.len(), 1_788);
    let t = [1, 1, 0, 1, 1, 0, 0, 0, 0];
    let twice_t = [&[1], &t[..], &[1], &t[..], &[0]].concat();
    let rule = |n, m, z: &[u8]| [&[2], &[1, 3, 0].repeat(n)[..], &[1, 0].repeat(m), z].concat();
    let half = rule(64, 207, &twice_t);
    let whole = rule(129, 180, &[0]);
    let one_more = rule(129, 169, &twice_t);
    let on_f: &[&str] = &[&f];
    vec![
        case("50,000 steps", packet(&half, on_f), "0 50000 788 0"),
        refused("of 50,000 steps 10,000", limited(&half, on_f, 10_000), 7),
        case("100,000 steps", packet(&whole, on_f), "0 100000 826 0"),
        refused("100,001 steps", packet(&one_more, on_f), 7),
        case(
            "100,001 steps, named",
            limited(&one_more, on_f, 100_001),
            "0 100001 804 0",
        ),
    ]
}

/// "A packet may end with one field of tag 4, a label's text." ([1]) The line is that of the packet
/// without it, "where that text is whole and the packet keeps within 16,384 bytes".
///
/// A label takes no node: λx. Δ, 2 nodes, fills the table with stems of 8,191 digits, with a label beside it
/// as without; and with a label of 16,376 digits alone, of twice as many trees as there are nodes, it is a
/// packet of 16,384 bytes that succeeds. On eight leaves it is drop, leaf, stem, drop, leaf, stem, drop,
/// leaf: 8 steps, and of 0, 10 and 200 only 10 is new.
fn labels_passed_over() -> Vec<Case> {
    let whole = |name, packet, line| case(name, labelled(packet, "10"), line);
    let longest = labelled(packet(LEAF, &[]), &stems(16_376));
    assert_eq!(longest.len(), 16_384);
    let longer = labelled(packet(LEAF, &[]), &stems(16_377));
    vec![
        whole("a label", packet(DOUBLE, &["0"]), "0 10 6 10"),
        whole(
            "a label and a limit",
            limited(DOUBLE, &["0"], 10),
            "0 10 6 10",
        ),
        whole("a label, limit 9", limited(DOUBLE, &["0"], 9), "7 0 0 -"),
        whole("a label, no arguments", packet(SAME, &[]), "0 0 3 21010"),
        whole(
            "eight arguments, a label",
            packet(LEAF, &["0"; 8]),
            "0 8 3 10",
        ),
        whole(
            "a label, no free node",
            packet(LEAF, &[&stems(8_191)]),
            "0 1 8192 0",
        ),
        whole(
            "a label, a text too long",
            packet(LEAF, &[&stems(8_192)]),
            "8 0 0 -",
        ),
        case("16,384 bytes with a label", longest, "0 0 2 200"),
        refused("16,385 bytes with a label", longer, 6),
    ]
}

/// "checks that text after the arguments' texts" ([1]): 4, where nothing before it is refused.
fn labels_not_whole() -> Vec<Case> {
    let paper = || packet(DOUBLE, &["0"]);
    let broken_rule = || packet(&[2, 3, 1], &[]);
    vec![
        refused("a label that is not whole", labelled(paper(), "1"), 4),
        refused("an empty label", labelled(paper(), ""), 4),
        refused(
            "a broken argument, a label",
            labelled(packet(LEAF, &["1"]), "0"),
            4,
        ),
        refused(
            "a broken rule, a broken label",
            labelled(broken_rule(), "1"),
            5,
        ),
        refused(
            "two broken labels",
            labelled(labelled(broken_rule(), ""), ""),
            6,
        ),
    ]
}

/// 6: a second label, anything else after a label, or a ninth argument before it.
fn labels_out_of_place() -> Vec<Case> {
    let paper = || packet(DOUBLE, &["0"]);
    let label = || field(4, b"10");
    vec![
        refused("two labels", labelled(labelled(paper(), "10"), "10"), 6),
        refused(
            "a label before the limit",
            [paper(), label(), field(3, &[0, 0, 0, 10])].concat(),
            6,
        ),
        refused(
            "a label before an argument",
            [field(1, DOUBLE), label(), field(2, b"0")].concat(),
            6,
        ),
        refused(
            "a byte after a label",
            [paper(), label(), vec![0]].concat(),
            6,
        ),
        refused(
            "nine arguments, a label",
            labelled(packet(SAME, &["0"; 9]), "0"),
            6,
        ),
    ]
}

// ---- the program

/// All that the program prints for an input, sent in one piece or two.
fn printed(program: &Path, input: &[u8], cut: Option<usize>) -> std::io::Result<String> {
    let mut child = Command::new(program)
        .stdin(Stdio::piped())
        .stdout(Stdio::piped())
        .spawn()?;
    let mut pipe = child.stdin.take().expect("a pipe to the program");
    let (first, second) = input.split_at(cut.unwrap_or(0));
    for piece in [first, second] {
        // The program need not read more than tells it that a packet is too long.
        match pipe.write_all(piece).and_then(|()| pipe.flush()) {
            Err(error) if error.kind() != ErrorKind::BrokenPipe => return Err(error),
            _ => {}
        }
        if cut.is_some() {
            std::thread::sleep(PAUSE);
        }
    }
    drop(pipe);
    let output = child.wait_with_output()?;
    if !output.status.success() {
        return Ok(format!("ended with {}", output.status));
    }
    Ok(String::from_utf8_lossy(&output.stdout).into_owned())
}

/// The start of a line, which may be very long.
fn shown(line: &str) -> String {
    let start: String = line.chars().take(60).collect();
    format!("{start:?}, {} bytes", line.len())
}

/// Whether the program prints the line, and the second evaluator gives it.
fn same(program: &Path, case: &Case, second: &str) -> bool {
    let given = printed(program, &case.packet, case.cut).unwrap_or_else(|error| error.to_string());
    let wanted = format!("{}\n", case.line);
    if given != wanted {
        println!(
            "{}: printed {}, not {}",
            case.name,
            shown(&given),
            shown(&wanted)
        );
    }
    if second != case.line {
        println!(
            "{}: by the second evaluator {}, not {}",
            case.name,
            shown(second),
            shown(&case.line)
        );
    }
    given == wanted && second == case.line
}

fn compare(program: &Path) -> bool {
    let parts = [
        papers_lines(),
        lengths(),
        out_bytes(),
        nodes(),
        frames_by_translate(),
        frames_by_read(),
        frames_by_apply(),
        endless(),
        steps(),
        labels_passed_over(),
        labels_not_whole(),
        labels_out_of_place(),
    ];
    let cases: Vec<Case> = parts.into_iter().flatten().collect();
    let line = |case: &Case| second::line(&second::run(&case.packet, second::PROGRAM, PAPERS));
    let wrong = cases
        .iter()
        .filter(|case| !same(program, case, &line(case)));
    let differences = wrong.count();
    println!(
        "{} packets to the program, {differences} differences",
        cases.len()
    );
    differences == 0
}

fn main() {
    let paths: Vec<PathBuf> = std::env::args_os().skip(1).map(PathBuf::from).collect();
    let Ok([lazvorn, rule_text, label_packet, stopped]) = <[PathBuf; 4]>::try_from(paths) else {
        eprintln!("usage: program LAZVORN RULE_TEXT LABEL_PACKET STOPPED");
        std::process::exit(2);
    };
    let all = move || {
        compare(&lazvorn)
            & rule_text::compare(&lazvorn, &rule_text)
            & label_packet::compare(&lazvorn, &label_packet)
            & stopped::compare(&stopped)
    };
    // The second evaluator recurses as deep as trees and frames go.
    let thread = std::thread::Builder::new().stack_size(1 << 28);
    let same = thread.spawn(all).expect("a thread").join();
    if !matches!(same, Ok(true)) {
        std::process::exit(1);
    }
}
