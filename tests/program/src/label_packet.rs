//! Sends packets to the built program `label_packet`, at each border of what it reads and lends, and
//! compares all that it prints with the line that documents 01 and 02 give for the packet. The second
//! evaluator must give the same. Then labelled trees go to the other program as arguments.
//!
//! A rule f labelled with a text t of n digits is Δ(Δ(Kt))(Δ(Δf)(KK)): 2 1 20 t 2 1 f 2010. Each tree is one
//! node ([8]): used are the different trees of f and of t, and of Label's eight those that are not among
//! them. Write lacks no frame: it holds one beside those of t's forks, no more than Read had for the trees
//! pending, or beside those of f's, where Translate had two a node. Nor does Translate lack a node: a rule
//! that has its frames has at most 2,048.

use crate::{
    case, chain, field, labelled, limited, packet, printed, refused, same, stems, Case, DOUBLE,
    LEAF, SAME,
};
use compare::{labelled_line, PAPERS};
use std::path::Path;

/// Document 01's rule, 212101021010, labelled with 10. The rule is 0, 10, 21010, 121010 and itself. Label
/// makes KK, which is Kt too, Δf, Δ(Δf)(KK), Δ(Kt) and the whole.
const TEXT: &str = "212010212121010210102010";
const LINE: &str = "0 0 10 212010212121010210102010";

/// A variable whose abstraction lies outside the rule.
const OPEN_RULE: &[u8] = &[2, 3, 1];

/// "checks the packet alike, then passes over arguments": the step limit and what the rule would do with
/// them do not matter.
fn passed_over() -> Vec<Case> {
    let with_label = |name, packet| case(name, labelled(packet, "10"), LINE);
    vec![
        with_label("the paper's packet", packet(DOUBLE, &["0"])),
        with_label("no arguments", packet(DOUBLE, &[])),
        with_label("no steps", limited(DOUBLE, &["0"], 0)),
        with_label("most steps", limited(DOUBLE, &["0"], 1_000_000)),
        with_label("on itself", packet(DOUBLE, &["212101021010"])),
        with_label("eight arguments", packet(DOUBLE, &["0"; 8])),
        with_label(
            "an argument without a place",
            packet(DOUBLE, &[&stems(8_193)]),
        ),
    ]
}

/// "a packet without tag 4 is 6 to it", before 5 and 4; and 6 for fields that are out of place or broken.
fn broken_packets() -> Vec<Case> {
    let paper = || packet(DOUBLE, &["0"]);
    let (label, limit) = (|| field(4, b"10"), field(3, &[0, 0, 0, 10]));
    vec![
        refused("no label", paper(), 6),
        refused("no label, a limit", limited(DOUBLE, &["0"], 10), 6),
        refused("no label, an open rule", packet(OPEN_RULE, &[]), 6),
        refused("no label, a broken argument", packet(DOUBLE, &["1"]), 6),
        refused("a label alone", label(), 6),
        refused(
            "a label before the limit",
            [paper(), label(), limit].concat(),
            6,
        ),
        refused("two labels", [paper(), label(), label()].concat(), 6),
        refused(
            "an argument after it",
            [paper(), label(), field(2, b"0")].concat(),
            6,
        ),
        refused("a byte after it", [paper(), label(), vec![4]].concat(), 6),
        refused(
            "a label cut short",
            paper().into_iter().chain([4, 0, 2, b'1']).collect(),
            6,
        ),
        refused(
            "nine arguments",
            labelled(packet(DOUBLE, &["0"; 9]), "10"),
            6,
        ),
        refused(
            "limit 1,000,001",
            labelled(limited(DOUBLE, &[], 1_000_001), "10"),
            6,
        ),
    ]
}

/// 5, then 4 for the arguments and the label.
fn broken_values() -> Vec<Case> {
    let paper = || packet(DOUBLE, &["0"]);
    let open_rule = || packet(OPEN_RULE, &[]);
    vec![
        refused("an open rule", labelled(open_rule(), "10"), 5),
        refused(
            "an open rule, a broken label",
            labelled(open_rule(), "1"),
            5,
        ),
        refused("a label that is not whole", labelled(paper(), "1"), 4),
        refused("a label and a digit more", labelled(paper(), "00"), 4),
        refused("a byte that is no digit", labelled(paper(), "3"), 4),
        refused("an empty label", labelled(paper(), ""), 4),
        refused(
            "a broken argument",
            labelled(packet(DOUBLE, &["1"]), "10"),
            4,
        ),
        refused("both broken", labelled(packet(DOUBLE, &["1"]), "1"), 4),
    ]
}

/// 16,384 bytes: λx. Δ in 5, an argument of 16,371 digits in 3 + 16,371, the label 10 in 5. Used are 0 and
/// 200, 10, and five that Label makes, as above. A program that takes in fewer bytes finds the label missing.
fn lengths() -> Vec<Case> {
    let filled = |digits| labelled(packet(LEAF, &[&stems(digits)]), "10");
    let longest = filled(16_371);
    assert_eq!(longest.len(), 16_384);
    let line = "0 0 8 212010212002010";
    let in_two = Case {
        cut: Some(9_000),
        ..case("16,384 bytes in two pieces", longest.clone(), line)
    };
    let far_longer = [&longest[..], &[b'0'; 100_000]].concat();
    vec![
        refused("no byte", Vec::new(), 6),
        refused("16,385 bytes, whole fields", filled(16_372), 6),
        refused(
            "16,385 bytes, the last one of no field",
            [&longest[..], b"0"].concat(),
            6,
        ),
        refused("far more bytes than are read", far_longer, 6),
        case("16,384 bytes", longest, line),
        in_two,
    ]
}

/// 8,192 nodes. λx. Δ is 0 and 200. A label of stems brings one node for each digit but the leaf, K among
/// them, and Label makes KK, Δf, Δ(Δf)(KK), Kt, Δ(Kt) and the whole: 8,185 digits just fit. With 8,186
/// Label lacks a node, with 8,191, which Read just lays, all six, and 8,192 Read refuses.
///
/// A rule of 8,193 nodes lacks frames, two a node, and so does one of 2,049; one of 2,048 has them. That
/// one (`chain`, as in the other program's test) is 820 different trees; with the label 10, which is not
/// among them, Label makes five, as above.
fn nodes() -> Vec<Case> {
    let chained = |k, variables| labelled(packet(&chain(k, variables), &[]), "10");
    let rule = "21".repeat(409) + &"200".repeat(410);
    let most = stems(8_185);
    vec![
        case(
            "8,192 nodes",
            leaf(&most),
            format!("0 0 8192 2120{most}212002010"),
        ),
        refused("8,193 nodes", leaf(&stems(8_186)), 8),
        refused("a label of 8,191 stems", leaf(&stems(8_191)), 8),
        refused("a label of 8,192 stems", leaf(&stems(8_192)), 8),
        refused("a label of 16,376 stems", leaf(&stems(16_376)), 8),
        refused("a rule of 8,193 nodes", chained(1_639, 0), 9),
        refused("a rule of 2,049 nodes", chained(409, 3), 9),
        case(
            "a rule of 2,048 nodes",
            chained(410, 0),
            format!("0 0 826 21201021{rule}2010"),
        ),
    ]
}

/// 4,096 frames by Read: forks in first branches leave as many trees pending as there are leaves. The
/// innermost of 4,095 is 200: 2 + 4,094 nodes, and Label makes K too: 4,103. One fork more lacks a frame.
///
/// 16,384 out bytes: a label of 16,371 digits, a stem over 5,456 forks of 10, which end in 10, has a
/// labelled tree of 4 + 16,371 + 2 + 3 + 4 digits, and uses 2 + 1 + 5,456 + 1 nodes and six of Label. One
/// stem more is one digit too many.
fn frames_and_out_bytes() -> Vec<Case> {
    let deep = |forks| "2".repeat(forks) + &"0".repeat(forks + 1);
    let most = deep(4_095);
    let wide = |stems| "1".repeat(stems) + &"210".repeat(5_456) + "10";
    let text = format!("2120{}212002010", wide(1));
    assert_eq!(text.len(), 16_384);
    vec![
        case(
            "4,096 frames by Read",
            leaf(&most),
            format!("0 0 4103 2120{most}212002010"),
        ),
        refused("4,097 frames by Read", leaf(&deep(4_096)), 9),
        case("16,384 digits", leaf(&wide(1)), format!("0 0 5466 {text}")),
        refused("16,385 digits", leaf(&wide(2)), 10),
    ]
}

/// λx. Δ with this label.
fn leaf(label: &str) -> Vec<u8> {
    labelled(packet(LEAF, &[]), label)
}

/// The text that the program `label_packet` prints for a packet.
fn labelled_text(label_packet: &Path, packet: &[u8]) -> String {
    let line = printed(label_packet, packet, None).unwrap_or_else(|error| error.to_string());
    line.trim_end()
        .rsplit(' ')
        .next()
        .unwrap_or_default()
        .into()
}

/// A rule labelled by one program and run by the other: what is labelled, the labelled tree's text, and
/// the line of λx. x on this text and on the argument, under a step limit.
struct Labelled {
    name: &'static str,
    packet: Vec<u8>,
    text: String,
    argument: &'static str,
    limit: u32,
    line: &'static str,
}

impl Labelled {
    /// Whether both programs and the second evaluator give what is expected; prints where they do not.
    fn fine(&self, lazvorn: &Path, label_packet: &Path) -> bool {
        let text = labelled_text(label_packet, &self.packet);
        let packet = limited(SAME, &[&text, self.argument], self.limit);
        let run = case(self.name, packet, self.line);
        let second = second::line(&second::run(&run.packet, second::PROGRAM, PAPERS));
        if text != self.text {
            println!("{}: labelled {text} and not {}", self.name, self.text);
        }
        same(lazvorn, &run, &second) && text == self.text
    }
}

/// "Without resource limits, a labelled rule on an argument gives the rule's tree in exactly six more
/// steps" ([4]), whatever its label is.
///
/// λx. x is 0, 10 and I; on the labelled tree W it takes 4 steps and makes KW and ΔW. W spreads; Δ(Δf)(KK)
/// spreads, KK drops the argument and gives K, f takes its steps, and K on its tree is the stem rule; Kt
/// drops the argument; and the last application drops t: 6 steps beside f's.
///
/// λx. x x on the leaf takes 10 steps, makes 200, and gives 10, and K of that is KK. W brings KK, 121010,
/// the rule, its stem, Δ(Δf)(KK), Δ(Kt) and itself: 3 + 7 + 2 + 1 nodes.
///
/// KΔ drops its argument in 1 step, and K of the leaf is KΔ. Its label here, λx. x x, never ends on that
/// argument, itself, and is not run. W brings KK, 200, 1200, Δ(Δf)(KK), 121010, the label, Kt, Δ(Kt) and
/// itself: 3 + 9 + 2 nodes.
fn labelled_rules() -> Vec<Labelled> {
    let endless = "212101021010";
    let double = |name, limit, line| Labelled {
        name,
        packet: labelled(packet(DOUBLE, &["0"]), "10"),
        text: TEXT.into(),
        argument: "0",
        limit,
        line,
    };
    let leaf = |name, limit, line| Labelled {
        name,
        packet: labelled(packet(LEAF, &[]), endless),
        text: format!("2120{endless}212002010"),
        argument: endless,
        limit,
        line,
    };
    vec![
        double("a labelled rule, limit 20", 20, "0 20 13 10"),
        double("a labelled rule, limit 19", 19, "7 0 0 -"),
        leaf("an endless label, limit 11", 11, "0 11 14 0"),
        leaf("an endless label, limit 10", 10, "7 0 0 -"),
    ]
}

pub fn compare(lazvorn: &Path, label_packet: &Path) -> bool {
    let parts = [
        passed_over(),
        broken_packets(),
        broken_values(),
        lengths(),
        nodes(),
        frames_and_out_bytes(),
    ];
    let cases: Vec<Case> = parts.into_iter().flatten().collect();
    let line =
        |case: &Case| labelled_line(&second::labelled(&case.packet, second::PROGRAM, PAPERS));
    let wrong = cases
        .iter()
        .filter(|case| !same(label_packet, case, &line(case)));
    let differences = wrong.count();
    let runs = labelled_rules();
    let wrong_runs = runs.iter().filter(|run| !run.fine(lazvorn, label_packet));
    let more = wrong_runs.count();
    println!(
        "{} packets to the program label_packet, {differences} differences; {} labelled trees run, {more} differences",
        cases.len(),
        runs.len()
    );
    differences + more == 0
}
