//! The model's readers of labelled packets and trees against documents 01 and 02. The rule of document
//! 01's packet, 02 01 03 00 03 00, is 212101021010, five different trees: 0, 10, 21010, 121010 and itself;
//! its label here is 110, one more; so the labelled tree Δ(Δ(Kt))(Δ(Δf)(KK)) is
//! 2 1 20 110 2 1 212101021010 2010, with six more: KK, Δf, Δ(Δf)(KK), Kt, Δ(Kt) and itself.

use model::{apply, label, label_packet, label_packet_to, read, run, unlabel, write};
use model::{Memory, Stage};

const RULE: &[u8] = &[1, 0, 6, 2, 1, 3, 0, 3, 0];
const ARGUMENT: &[u8] = b"\x02\x00\x010";
const LIMIT: &[u8] = &[3, 0, 4, 0, 0, 0, 10];
const LABEL: &[u8] = b"\x04\x00\x03110";
const TEXT: &[u8] = b"2120110212121010210102010";

/// Memory that no operation has written to.
fn memory(nodes: usize, frames: usize, out: usize) -> Memory {
    Memory {
        table: vec![77; 2 * nodes + 1],
        stack: vec![77; 3 * frames + 2],
        out: vec![77; out],
    }
}

/// What 8, 9 and 10 leave where so many nodes were made.
fn undone(found: &Memory, nodes: usize) -> Memory {
    let mut memory = found.clone();
    memory.table[..2 * nodes].fill(0);
    memory.stack.fill(0);
    memory
}

/// "tree, steps and used are those of the packet without it"
#[test]
fn a_label_passed_over() {
    let runs = |parts: &[&[u8]]| {
        let mut memory = memory(6, 24, 3);
        (run(&mut memory, &parts.concat()), memory)
    };
    let without = runs(&[RULE, ARGUMENT]);
    assert_eq!(without.0, [0, 0, 6, 10, 2, 3, 2, 2, 3, 0]);
    assert_eq!(without.1.out[..], [b'1', b'0', 77]);
    assert_eq!(runs(&[RULE, ARGUMENT, LABEL]), without);
    assert_eq!(runs(&[RULE, ARGUMENT, LIMIT, LABEL]), without);
}

/// 6, 5, then 4 for the arguments and 4 for the label: each leaves memory as found.
#[test]
fn checks_in_order() {
    let open_rule: &[u8] = &[1, 0, 3, 2, 3, 1];
    let (empty, broken): (&[u8], &[u8]) = (&[4, 0, 0], b"\x04\x00\x0220");
    let wrong_argument = b"\x02\x00\x011";
    // The refusals of Run and of label_packet, 0 where there is none.
    let rows: [(&[&[u8]], usize, usize); 18] = [
        (&[RULE, LABEL], 0, 0),
        (&[RULE, LIMIT, LABEL], 0, 0),
        (&[RULE], 0, 6),
        (&[RULE, LIMIT], 0, 6),
        (&[RULE, LABEL, LIMIT], 6, 6),
        (&[RULE, LABEL, ARGUMENT], 6, 6),
        (&[RULE, LABEL, LABEL], 6, 6),
        (&[RULE, LABEL, &[0]], 6, 6),
        (&[LABEL, RULE], 6, 6),
        (&[RULE, empty], 4, 4),
        (&[RULE, broken], 4, 4),
        (&[RULE, wrong_argument, LABEL], 4, 4),
        (&[RULE, wrong_argument], 4, 6),
        (&[open_rule, LABEL], 5, 5),
        (&[open_rule, empty], 5, 5),
        (&[open_rule], 5, 6),
        (&[open_rule, LABEL, LABEL], 6, 6),
        (&[], 6, 6),
    ];
    for (parts, of_run, of_label_packet) in rows {
        let packet = parts.concat();
        for (number, labels) in [(of_run, false), (of_label_packet, true)] {
            let found = memory(60, 60, 60);
            let mut after = found.clone();
            let refusal = match labels {
                false => run(&mut after, &packet)[0],
                true => label_packet(&mut after, &packet)[0],
            };
            assert_eq!(refusal, number, "{packet:?}");
            assert!(number == 0 || after == found, "{packet:?}");
        }
    }
}

/// "Anything else, or more than 16,384 bytes, is 6.": the label is among the bytes.
#[test]
fn the_longest_packet() {
    let packet = |digits: usize| {
        let head = [2, (digits >> 8) as u8, digits as u8];
        let text = [vec![b'1'; digits - 1], vec![b'0']].concat();
        [&[1, 0, 2, 2, 0], &head[..], &text, LABEL].concat()
    };
    let [longest, longer] = [packet(16_370), packet(16_371)];
    assert_eq!(longest.len(), 16_384);
    // 0 and 200 of the rule, 10 and 110 of the label, and Label's six.
    let on_a_large_stack = move || {
        let refusal = |packet: &[u8]| label_packet(&mut memory(10, 6, 16), packet)[0];
        assert_eq!([refusal(&longest), refusal(&longer)], [0, 6]);
    };
    let thread = std::thread::Builder::new().stack_size(1 << 28);
    assert!(thread
        .spawn(on_a_large_stack)
        .expect("a thread")
        .join()
        .is_ok());
}

/// 5 nodes and 24 frames by Translate, 1 node by Read, 6 by Label, 25 digits by Write.
#[test]
fn the_stages_of_label_packet() {
    let packet = [RULE, ARGUMENT, LABEL].concat();
    let ends = |nodes, frames, out| {
        let found = memory(nodes, frames, out);
        let mut after = found.clone();
        let (answer, stage) = label_packet_to(&mut after, &packet);
        (answer, stage, found, after)
    };
    let (answer, stage, found, after) = ends(12, 24, 26);
    assert_eq!((answer, stage), ([0, 0, 12, 0, 25], Stage::Write));
    assert_eq!(after.out, [TEXT, &found.out[25..]].concat());
    assert!(after.stack.iter().all(|word| *word == 0));
    // The rule's five, the last its node; the label's one; Label's six; the last word is no node's.
    assert_eq!(after.table[..12], [0, 0, 1, 0, 2, 2, 3, 0, 4, 3, 2, 0]);
    assert_eq!(
        after.table[12..],
        [1, 2, 5, 0, 8, 7, 1, 6, 10, 0, 11, 9, 77]
    );
    for ([nodes, frames, out], number, stage, made) in [
        ([0, 24, 25], 8, Stage::Translate, 0),
        ([4, 24, 25], 8, Stage::Translate, 4),
        ([4, 23, 25], 9, Stage::Translate, 0),
        ([12, 23, 25], 9, Stage::Translate, 0),
        ([5, 24, 25], 8, Stage::Read, 5),
        ([6, 24, 25], 8, Stage::Label, 6),
        ([11, 24, 25], 8, Stage::Label, 11),
        ([12, 24, 24], 10, Stage::Write, 12),
        ([12, 24, 0], 10, Stage::Write, 12),
    ] {
        let (answer, at, found, after) = ends(nodes, frames, out);
        assert_eq!((answer, at), ([number, 0, 0, 0, 0], stage));
        assert_eq!(after, undone(&found, made));
    }
}

/// 9 by Read: 29 forks, each in the first branch, leave 30 trees pending, more than the rule's 24 frames.
/// They are 29 trees that are not there, and Label makes six.
#[test]
fn frames_of_the_label() {
    let text = [vec![b'2'; 29], vec![b'0'; 30]].concat();
    let packet = [RULE, &[4, 0, 59], &text].concat();
    for (nodes, frames, number, stage, made) in [
        (40, 29, 9, Stage::Read, 5),
        (33, 29, 9, Stage::Read, 5),
        (33, 30, 8, Stage::Read, 33),
        (39, 30, 8, Stage::Label, 39),
    ] {
        let found = memory(nodes, frames, 100);
        let mut after = found.clone();
        let (answer, at) = label_packet_to(&mut after, &packet);
        assert_eq!((answer[0], at), (number, stage));
        assert_eq!(after, undone(&found, made));
    }
    // Write holds one frame for the labelled tree's fork and 29 for the label's.
    assert_eq!(label_packet(&mut memory(40, 30, 100), &packet)[0], 0);
}

/// Rule and label come back out of a labelled tree that Read made and one that Label made.
#[test]
fn unlabelled() {
    let mut memory = memory(60, 30, 60);
    let [_, node, used, ..] = read(&mut memory, 0, TEXT);
    // Read's nodes: 0, 10 and KK; 21010, 121010 and the rule; Δf and Δ(Δf)(KK); 110, Kt, Δ(Kt) and the
    // whole.
    let answer = unlabel(&memory.table, used, node);
    assert_eq!(answer, [0, 5, 12, 0, 0, 8]);
    let [_, rule, .., tree] = answer;
    for (node, text) in [(rule, &b"212101021010"[..]), (tree, b"110")] {
        let digits = write(&mut memory, used, node)[4];
        assert_eq!(memory.out[..digits], *text);
    }
    // Of 21010, at node 3, the stem is there, and so is KK: Label makes four.
    let [_, node, used, ..] = label(&mut memory, used, 3, 5);
    assert_eq!(unlabel(&memory.table, used, node), [0, 3, 16, 0, 0, 5]);
    // 1, 2, 3, 11.
    assert_eq!(unlabel(&memory.table, 61, node), [1, 0, 61, 0, 0, 0]);
    assert_eq!(unlabel(&[0; 131_073], 1, 0), [1, 0, 1, 0, 0, 0]);
    assert_eq!(unlabel(&memory.table, 17, node), [2, 0, 17, 0, 0, 0]);
    assert_eq!(unlabel(&memory.table, used, used), [3, 0, 16, 0, 0, 0]);
    assert_eq!(unlabel(&memory.table, used, rule), [11, 0, 16, 0, 0, 0]);
    // Node 16 equal to node 15, and to node 0.
    memory.table.copy_within(30..32, 32);
    assert_eq!(unlabel(&memory.table, 17, node), [2, 0, 17, 0, 0, 0]);
    memory.table.copy_within(0..2, 32);
    assert_eq!(unlabel(&memory.table, 17, node), [2, 0, 17, 0, 0, 0]);
    assert_eq!(unlabel(&memory.table, 16, node), [0, 3, 16, 0, 0, 5]);
}

/// `unlabel` of a text's tree, read into an empty table.
fn unlabelled_text(text: &str) -> [usize; 6] {
    let mut memory = memory(60, 30, 0);
    let [refusal, node, used, ..] = read(&mut memory, 0, text.as_bytes());
    assert_eq!(refusal, 0, "{text}");
    unlabel(&memory.table, used, node)
}

/// 11 where one place of Δ(Δ(Kt))(Δ(Δf)(KK)) has another tree.
#[test]
fn other_forms() {
    let (f, t) = ("200", "10");
    // 0, 10 and KK, which is Kt too; 200; Δf and Δ(Δf)(KK); Δ(Kt) and the whole.
    let whole = unlabelled_text(&format!("2120{t}21{f}2010"));
    assert_eq!(whole, [0, 3, 8, 0, 0, 1]);
    for text in [
        // The whole: its stem, and its branches the other way round.
        format!("12120{t}21{f}2010"),
        format!("221{f}2010120{t}"),
        // Δ(Kt): Kt, and a fork of it.
        format!("220{t}21{f}2010"),
        format!("2220{t}021{f}2010"),
        // Kt: t, Δt, and KΔt, whose first branch is no leaf.
        format!("21{t}21{f}2010"),
        format!("211{t}21{f}2010"),
        format!("21210{t}21{f}2010"),
        // Δ(Δf)(KK): f, and Δf.
        format!("2120{t}{f}"),
        format!("2120{t}1{f}"),
        // Δf: f, and Kf. K before the rule and not before the label.
        format!("2120{t}2{f}2010"),
        format!("2120{t}220{f}2010"),
        format!("21{t}2120{f}2010"),
        // KK: Δ, K, KΔ, K(KΔ), ΔKΔ and ΔKK.
        format!("2120{t}21{f}0"),
        format!("2120{t}21{f}10"),
        format!("2120{t}21{f}200"),
        format!("2120{t}21{f}20200"),
        format!("2120{t}21{f}2100"),
        format!("2120{t}21{f}21010"),
    ] {
        assert_eq!(unlabelled_text(&text)[0], 11, "{text}");
    }
}

/// "trees labelled earlier are made again from their packets": Δ(Δt)(Δ(Δf)(KK)) is 11, unless t is Kx
/// for some x, which is then the label.
#[test]
fn labelled_earlier() {
    let earlier = |t: &str| unlabelled_text(&format!("21{t}212121010210102010"));
    for t in ["0", "10", "110", "2100", "21010", "212101021010"] {
        assert_eq!(earlier(t)[0], 11, "{t}");
    }
    // 0, 10 and KK; 21010, 121010 and the rule; Δf and Δ(Δf)(KK); 200, which is not there, or KK; its
    // stem and the whole.
    assert_eq!(earlier("200"), [0, 5, 11, 0, 0, 0]);
    assert_eq!(earlier("2010"), [0, 5, 10, 0, 0, 1]);
}

/// A table with the trees of these texts, and their nodes.
fn planted<const N: usize>(texts: [&str; N]) -> (Memory, [usize; N], usize) {
    let (mut memory, mut used) = (memory(1_200, 1_000, 0), 0);
    let nodes = texts.map(|text| {
        let [refusal, node, more, ..] = read(&mut memory, used, text.as_bytes());
        assert_eq!(refusal, 0, "{text}");
        used = more;
        node
    });
    (memory, nodes, used)
}

/// "a labelled rule on an argument gives the rule's tree in exactly six more steps": a stem, three drops
/// and two spreads, and at most one new node, K of the outcome. The label, λx. x x, never ends on the
/// argument, itself.
#[test]
fn six_more_steps() {
    // KΔ drops the argument, and K of the outcome is KΔ. λx. x gives the argument by a spread, a stem, a
    // leaf and a drop: KN and ΔN are new, but labelled with N it has KN, which is K of the outcome too.
    for (rule, uses, outcome, [new, new_labelled]) in [
        ("200", [0, 0, 1, 0, 0], 0, [0, 0]),
        ("21010", [1, 1, 1, 1, 0], 4, [2, 1]),
    ] {
        let (mut memory, [rule, tree], used) = planted([rule, "212101021010"]);
        let steps: usize = uses.iter().sum();
        let [leaf, stem, drop, spread, triage] = uses;
        let alone = apply(&mut memory.clone(), used, rule, tree, steps);
        assert_eq!(alone[..5], [0, outcome, used + new, steps, 0]);
        assert_eq!(alone[5..], uses);
        let [_, node, used, ..] = label(&mut memory, used, rule, tree);
        let labelled = apply(&mut memory.clone(), used, node, tree, steps + 6);
        assert_eq!(
            labelled[..5],
            [0, outcome, used + new_labelled, steps + 6, 0]
        );
        assert_eq!(
            labelled[5..],
            [leaf, stem + 1, drop + 3, spread + 2, triage]
        );
        assert_eq!(apply(&mut memory, used, node, tree, steps + 5)[0], 7);
    }
}

/// "has no tree where the rule has none"; and without K the label is worked out, here without end.
#[test]
fn endless() {
    let (mut memory, [endless, leaf, without], used) =
        planted(["212101021010", "0", "21212101021010212002010"]);
    assert_eq!(
        apply(&mut memory.clone(), used, without, endless, 1_000)[0],
        7
    );
    let [_, node, used, ..] = label(&mut memory, used, endless, leaf);
    assert_eq!(apply(&mut memory, used, node, endless, 1_000)[0], 7);
}
