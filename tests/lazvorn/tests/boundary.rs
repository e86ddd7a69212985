//! Nothing checks the declarations in `src/lib.rs` against the library. These tests call each
//! function with lengths and numbers that all differ, once with just enough of each and once with
//! one too few of each, so that an argument in another's place, or a length that is lost, shows.

use lazvorn::{
    Counted, Given, LoadNumbers, Numbers, Parts, Rule, Same, Stopped, TextNumbers, Uses, Week,
    Window, BROKEN, CODES, CODE_DIGITS, FRAMES, LIMITS, LOAD_DIGITS, NODE, NODES, NOT_LABELLED,
    OUT, PACKET, RULE, RULE_TEXT, STEPS, TEXT, WEEK,
};

/// Fills memory that is to be left as found, or overwritten.
const NOISE: u32 = 0xdead_beef;
const BYTE: u8 = 0xa5;

/// A table with three nodes in use, leaf, stem and fork of these, and `words` lent in all.
fn table(words: usize) -> Vec<u32> {
    let mut table = vec![NOISE; words];
    table[..6].copy_from_slice(&[0, 0, 1, 0, 1, 2]);
    table
}

/// The table and the stack of a call lie inside larger ones, so that a call that writes past a
/// length shows.
#[derive(Clone, Debug, PartialEq)]
struct Lent {
    table: Vec<u32>,
    stack: Vec<u32>,
    out: Vec<u8>,
}

const BEYOND: usize = 9;

impl Lent {
    fn new(words: usize, stack: usize, out: usize) -> Self {
        Lent {
            table: table(words + BEYOND),
            stack: vec![NOISE; stack + BEYOND],
            out: vec![BYTE; out + BEYOND],
        }
    }

    fn parts(&mut self) -> (&mut [u32], &mut [u32], &mut [u8]) {
        let (t, s, o) = (
            self.table.len() - BEYOND,
            self.stack.len() - BEYOND,
            self.out.len() - BEYOND,
        );
        (
            &mut self.table[..t],
            &mut self.stack[..s],
            &mut self.out[..o],
        )
    }

    fn nothing_beyond(&self) {
        fn beyond<T>(part: &[T]) -> &[T] {
            &part[part.len() - BEYOND..]
        }
        let found = self.as_found();
        assert_eq!(beyond(&self.table), beyond(&found.table));
        assert_eq!(beyond(&self.stack), beyond(&found.stack));
        assert_eq!(beyond(&self.out), beyond(&found.out));
    }

    fn stack_is_zero(&self) {
        assert!(self.stack[..self.stack.len() - BEYOND]
            .iter()
            .all(|w| *w == 0));
    }

    /// The same lengths, as nothing has been written yet.
    fn as_found(&self) -> Self {
        let [words, stack, out] = [self.table.len(), self.stack.len(), self.out.len()];
        Lent::new(words - BEYOND, stack - BEYOND, out - BEYOND)
    }

    /// What 7 to 10 leave where these nodes were made: their words and the stack are 0.
    fn is_undone(&self, nodes: std::ops::Range<usize>) {
        let mut undone = self.as_found();
        undone.table[2 * nodes.start..2 * nodes.end].fill(0);
        let stack = undone.stack.len() - BEYOND;
        undone.stack[..stack].fill(0);
        assert_eq!(*self, undone);
    }
}

fn refused(refusal: usize, used: usize) -> Numbers {
    Numbers {
        refusal,
        used,
        ..Numbers::default()
    }
}

fn refused_uses(refusal: usize, used: usize) -> Counted {
    Counted {
        refusal,
        used,
        ..Counted::default()
    }
}

fn read_in(words: usize, stack: usize, used: usize, text: &[u8]) -> (Numbers, Lent) {
    let mut lent = Lent::new(words, stack, 0);
    let (t, s, _) = lent.parts();
    let numbers = lazvorn::read(t, used, s, text);
    lent.nothing_beyond();
    (numbers, lent)
}

#[test]
fn read() {
    let call = read_in;
    // The fork of 110 and 10: leaf and stem are there, and 110 and the whole are new.
    let text = &b"211010101"[..6];
    let (numbers, lent) = call(10, 7, 3, text);
    assert_eq!(
        numbers,
        Numbers {
            node: 4,
            used: 5,
            ..Numbers::default()
        }
    );
    assert_eq!(lent.table[..10], [0, 0, 1, 0, 1, 2, 2, 0, 4, 2]);
    lent.stack_is_zero();
    // With room for one node it is made and cleared; 9 comes before a node is made.
    let (numbers, lent) = call(9, 7, 3, text);
    assert_eq!(numbers, refused(NODES, 3));
    lent.is_undone(3..4);
    let (numbers, lent) = call(9, 5, 3, text);
    assert_eq!(numbers, refused(FRAMES, 3));
    lent.is_undone(3..3);
    assert_eq!(call(10, 5, 3, text).0, refused(FRAMES, 3));
    assert_eq!(call(10, 7, 3, &b"211010101"[..4]).0, refused(TEXT, 3));
    assert_eq!(call(10, 7, 4, text).0, refused(BROKEN, 4));
    assert_eq!(call(10, 7, 6, text).0, refused(LIMITS, 6));
    assert_eq!(call(10, 7, usize::MAX, text).0, refused(LIMITS, usize::MAX));
}

/// In a full table every tree that is there is found.
#[test]
fn read_into_a_full_table() {
    for (text, node) in [(&b"0"[..], 0), (b"10", 1), (b"2010", 2)] {
        let found = Numbers {
            node,
            used: 3,
            ..Numbers::default()
        };
        assert_eq!(read_in(6, 7, 3, text).0, found);
    }
    assert_eq!(read_in(6, 7, 3, b"110").0, refused(NODES, 3));
}

#[test]
fn write() {
    let call = |words, stack, used, node, out| {
        let mut lent = Lent::new(words, stack, out);
        let (t, s, o) = lent.parts();
        let numbers = lazvorn::write(t, used, s, node, o);
        lent.nothing_beyond();
        assert_eq!(lent.table, table(words + BEYOND));
        (numbers, lent)
    };
    let (numbers, lent) = call(11, 4, 3, 2, 6);
    assert_eq!(
        numbers,
        Numbers {
            used: 3,
            digits: 4,
            ..Numbers::default()
        }
    );
    assert_eq!(lent.out[..6], [b'2', b'0', b'1', b'0', BYTE, BYTE]);
    lent.stack_is_zero();
    assert_eq!(call(11, 4, 3, 1, 6).0.digits, 2);
    assert_eq!(call(11, 4, 3, 2, 3).0, refused(OUT, 3));
    assert_eq!(call(11, 2, 3, 2, 6).0, refused(FRAMES, 3));
    assert_eq!(call(11, 4, 3, 3, 6).0, refused(NODE, 3));
    assert_eq!(call(11, 4, 5, 2, 6).0, refused(BROKEN, 5));
    assert_eq!(call(11, 4, 6, 2, 6).0, refused(LIMITS, 6));
    assert_eq!(call(11, 4, 3, 2, 65_536).0, refused(LIMITS, 3));
    assert_eq!(call(11, 4, 3, usize::MAX, 6).0, refused(NODE, 3));
}

#[test]
fn translate() {
    let call = |words, stack, used, bytes: &[u8]| {
        let mut lent = Lent::new(words, stack, 0);
        let (t, s, _) = lent.parts();
        let numbers = lazvorn::translate(t, used, s, bytes);
        lent.nothing_beyond();
        (numbers, lent)
    };
    // The rule 02 00, of three nodes, wants six frames.
    // Its leaf is there, and KΔ, 200, is new.
    let bytes = &[2, 0, 0, 0][..2];
    let (numbers, lent) = call(9, 20, 3, bytes);
    assert_eq!(
        numbers,
        Numbers {
            node: 3,
            used: 4,
            ..Numbers::default()
        }
    );
    assert_eq!(lent.table[..9], [0, 0, 1, 0, 1, 2, 1, 1, NOISE]);
    lent.stack_is_zero();
    let (numbers, lent) = call(7, 20, 3, bytes);
    assert_eq!(numbers, refused(NODES, 3));
    lent.is_undone(3..3);
    // 9 comes before 8, by the three nodes of the tree and not by the one that is new.
    assert_eq!(call(7, 17, 3, bytes).0, refused(FRAMES, 3));
    assert_eq!(call(9, 17, 3, bytes).0, refused(FRAMES, 3));
    assert_eq!(call(9, 20, 3, &[2, 0, 0][..3]).0, refused(RULE, 3));
    assert_eq!(call(9, 20, 3, &bytes[..1]).0, refused(RULE, 3));
    assert_eq!(call(9, 20, 4, bytes).0, refused(BROKEN, 4));
    assert_eq!(call(9, 20, 5, bytes).0, refused(LIMITS, 5));
}

fn apply_in(
    [words, stack]: [usize; 2],
    used: usize,
    [function, argument]: [usize; 2],
    limit: usize,
) -> (Counted, Lent) {
    let mut lent = Lent::new(words, stack, 0);
    let (t, s, _) = lent.parts();
    let numbers = lazvorn::apply(t, used, s, function, argument, limit);
    lent.nothing_beyond();
    (numbers, lent)
}

#[test]
fn apply() {
    let call = |words, stack, used, function, argument, limit| {
        apply_in([words, stack], used, [function, argument], limit)
    };
    // The stem on the fork makes the fork of the leaf and it.
    let (numbers, lent) = call(9, 5, 3, 1, 2, 1);
    assert_eq!(
        numbers,
        Counted {
            node: 3,
            used: 4,
            steps: 1,
            uses: Uses {
                stem: 1,
                ..Uses::default()
            },
            ..Counted::default()
        }
    );
    assert_eq!(lent.table[..9], [0, 0, 1, 0, 1, 2, 1, 3, NOISE]);
    lent.stack_is_zero();
    assert_eq!(call(9, 5, 3, 1, 2, 0).0, refused_uses(STEPS, 3));
    assert_eq!(call(7, 5, 3, 1, 2, 0).0, refused_uses(STEPS, 3));
    assert_eq!(call(7, 5, 3, 1, 2, 1).0, refused_uses(NODES, 3));
    assert_eq!(call(9, 5, 3, 3, 2, 1).0, refused_uses(NODE, 3));
    assert_eq!(call(9, 5, 3, 1, 3, 1).0, refused_uses(NODE, 3));
    assert_eq!(call(9, 5, 3, 1, 2, 1_000_001).0, refused_uses(LIMITS, 3));
    assert_eq!(call(9, 5, 4, 1, 2, 1).0, refused_uses(BROKEN, 4));
    assert_eq!(call(9, 65_537, 3, 1, 2, 1).0, refused_uses(LIMITS, 3));
}

#[test]
fn apply_without_a_new_node() {
    // The fork of the leaf and the stem drops the leaf it is applied to.
    let dropped = Counted {
        node: 1,
        used: 3,
        steps: 1,
        uses: Uses {
            drop: 1,
            ..Uses::default()
        },
        ..Counted::default()
    };
    assert_eq!(apply_in([9, 5], 3, [2, 0], 1).0, dropped);
    // The stem on the stem is the fork that is there: a full table has it.
    let found = Counted {
        node: 2,
        used: 3,
        steps: 1,
        uses: Uses {
            stem: 1,
            ..Uses::default()
        },
        ..Counted::default()
    };
    assert_eq!(apply_in([6, 5], 3, [1, 1], 1).0, found);
    assert_eq!(apply_in([9, 5], 3, [1, 1], 1).0, found);
    assert_eq!(apply_in([6, 5], 3, [1, 1], 0).0, refused_uses(STEPS, 3));
}

#[test]
fn label() {
    let call = |words, used, rule, label| {
        let mut lent = Lent::new(words, 0, 0);
        let (t, _, _) = lent.parts();
        let numbers = lazvorn::label(t, used, rule, label);
        lent.nothing_beyond();
        (numbers, lent)
    };
    // Leaf, K and KK are there, and five are new.
    let (numbers, lent) = call(17, 3, 1, 2);
    assert_eq!(
        numbers,
        Numbers {
            node: 7,
            used: 8,
            ..Numbers::default()
        }
    );
    assert_eq!(lent.table[..16], LABELLED);
    assert_eq!(lent.table[16], NOISE);
    for nodes in 3..8 {
        let (numbers, lent) = call(2 * nodes + 1, 3, 1, 2);
        assert_eq!(numbers, refused(NODES, 3));
        lent.is_undone(3..nodes);
    }
    // Of KK with K for a label Kt is KK, and Δ(Kt) is Δf: three are new.
    assert_eq!(call(12, 3, 2, 1).0.used, 6);
    assert_eq!(call(11, 3, 2, 1).0, refused(NODES, 3));
    assert_eq!(call(17, 3, 3, 2).0, refused(NODE, 3));
    assert_eq!(call(17, 3, 1, 3).0, refused(NODE, 3));
    assert_eq!(call(17, 4, 1, 2).0, refused(BROKEN, 4));
    assert_eq!(call(17, 9, 1, 2).0, refused(LIMITS, 9));
}

fn run_in([words, stack, out]: [usize; 3], packet: &[u8]) -> (Counted, Lent) {
    let mut lent = Lent::new(words, stack, out);
    let (t, s, o) = lent.parts();
    let numbers = lazvorn::run(t, s, o, packet);
    lent.nothing_beyond();
    (numbers, lent)
}

/// The paper's packet, of 13 bytes, and one byte more.
const PAPER: &[u8; 14] = b"\x01\x00\x06\x02\x01\x03\x00\x03\x00\x02\x00\x0100";

#[test]
fn run() {
    // The paper's packet: λx. x x on the leaf gives 10 in 10 steps and 6 nodes. The rule's tree
    // spreads, and so does λx. x on the leaf, twice; each of these takes a stem, a leaf and a drop,
    // and the last application is the leaf on the leaf. The rule's are 0, 10, 21010, 121010 and the
    // whole, and the stem makes 200.
    let (numbers, lent) = run_in([13, 73, 3], &PAPER[..13]);
    assert_eq!(
        numbers,
        Counted {
            used: 6,
            steps: 10,
            digits: 2,
            uses: Uses {
                leaf: 3,
                stem: 2,
                drop: 2,
                spread: 3,
                triage: 0,
            },
            ..Counted::default()
        }
    );
    assert_eq!(lent.out[..3], [b'1', b'0', BYTE]);
    assert_eq!(
        lent.table[..13],
        [0, 0, 1, 0, 2, 2, 3, 0, 4, 3, 1, 1, NOISE]
    );
    lent.stack_is_zero();
}

#[test]
fn run_refused() {
    let packet = &PAPER[..13];
    let undone = |room: [usize; 3], refusal, nodes| {
        let (numbers, lent) = run_in(room, packet);
        assert_eq!(numbers, refused_uses(refusal, 0));
        lent.is_undone(0..nodes);
    };
    // 8 by Apply and by Translate; 9 by Translate, before its 8; 10 by Write.
    undone([11, 73, 3], NODES, 5);
    undone([9, 73, 3], NODES, 4);
    undone([9, 71, 3], FRAMES, 0);
    undone([13, 71, 3], FRAMES, 0);
    undone([13, 73, 1], OUT, 6);
    let unchanged = |room: [usize; 3], packet: &[u8], refusal| {
        let (numbers, lent) = run_in(room, packet);
        assert_eq!(numbers, refused_uses(refusal, 0));
        assert_eq!(lent, lent.as_found());
    };
    unchanged([13, 73, 3], &PAPER[..14], PACKET);
    unchanged([13, 73, 3], &PAPER[..12], PACKET);
    unchanged([131_073, 73, 3], packet, LIMITS);
    unchanged([13, 65_537, 3], packet, LIMITS);
    unchanged([13, 73, 65_536], packet, LIMITS);
}

/// "tree, steps and used are those of the packet without it", and so are all lent words and bytes.
#[test]
fn run_passes_over_a_label() {
    let call = |packet: &[&[u8]]| {
        let mut lent = Lent::new(13, 73, 3);
        let (t, s, o) = lent.parts();
        let numbers = lazvorn::run(t, s, o, &packet.concat());
        (numbers, lent)
    };
    let packet = b"\x01\x00\x06\x02\x01\x03\x00\x03\x00\x02\x00\x010";
    let limit = b"\x03\x00\x04\x00\x00\x00\x0a";
    let label = b"\x04\x00\x0210";
    let without = call(&[packet]);
    assert_eq!((without.0.refusal, without.0.used), (0, 6));
    assert_eq!(call(&[packet, label]), without);
    assert_eq!(call(&[packet, limit, label]), without);
    let refused = |parts: &[&[u8]], number| {
        let (numbers, lent) = call(parts);
        assert_eq!(numbers, refused_uses(number, 0));
        assert_eq!(lent, lent.as_found());
    };
    // No digit, a fork that lacks a branch, and a byte that is none: not whole.
    refused(&[packet, b"\x04\x00\x00"], TEXT);
    refused(&[packet, b"\x04\x00\x0220"], TEXT);
    refused(&[packet, b"\x04\x00\x013"], TEXT);
    // At most one label, and nothing after it.
    refused(&[packet, label, limit], PACKET);
    refused(&[packet, label, label], PACKET);
    refused(&[packet, label, b"\x02\x00\x010"], PACKET);
    refused(&[packet, label, b"0"], PACKET);
    refused(&[packet, &label[..4]], PACKET);
    // 6 comes before 5, and 5 before 4.
    let open_rule = b"\x01\x00\x03\x02\x03\x01";
    refused(&[open_rule, b"\x04\x00\x00", b"\x04\x00\x00"], PACKET);
    refused(&[open_rule, b"\x04\x00\x00"], RULE);
}

/// A stop while applying.
fn stop(refusal: usize, place: usize, steps: usize, rule: Rule) -> Stopped {
    let rule = rule as usize;
    Stopped {
        refusal,
        place,
        steps,
        rule,
    }
}

/// Run's number alone.
fn alone(refusal: usize) -> Stopped {
    Stopped {
        refusal,
        ..Stopped::default()
    }
}

/// Calls `stopped`, and Run from the same start: the refusal and all that is lent must be the same.
fn stopped_in([words, stack, out]: [usize; 3], packet: &[u8]) -> (Stopped, Lent) {
    let mut lent = Lent::new(words, stack, out);
    let (t, s, o) = lent.parts();
    let stopped = lazvorn::stopped(t, s, o, packet);
    lent.nothing_beyond();
    let (ran, left) = run_in([words, stack, out], packet);
    assert_eq!(stopped.refusal, ran.refusal);
    assert_eq!(lent, left);
    (stopped, lent)
}

/// Holds a call to an answer from 7 to 10, and what it leaves to so many nodes made and cleared.
fn stops(room: [usize; 3], packet: &[u8], answer: Stopped, nodes: usize) {
    let (stopped, lent) = stopped_in(room, packet);
    assert_eq!(stopped, answer, "{room:?}");
    lent.is_undone(0..nodes);
}

/// A packet with this step limit named.
fn limited(packet: &[u8], limit: u8) -> Vec<u8> {
    [packet, &[3, 0, 4, 0, 0, 0, limit]].concat()
}

/// λx. x on these texts.
fn same_on(texts: &[&str]) -> Vec<u8> {
    let mut packet = vec![1, 0, 3, 2, 3, 0];
    for text in texts {
        packet.extend([2, 0, text.len() as u8]);
        packet.extend(text.as_bytes());
    }
    packet
}

#[test]
fn stopped_where_the_run_completes() {
    let (stopped, lent) = stopped_in([13, 73, 3], &PAPER[..13]);
    assert_eq!(stopped, alone(0));
    assert_eq!(stopped.wanted(), None);
    assert_eq!(lent.out[..3], [b'1', b'0', BYTE]);
    assert_eq!(
        lent.table[..13],
        [0, 0, 1, 0, 2, 2, 3, 0, 4, 3, 1, 1, NOISE]
    );
    lent.stack_is_zero();
    let most = [131_072, 65_536, 65_535];
    assert_eq!(stopped_in(most, &PAPER[..13]).0, alone(0));
}

/// The uses of the paper's packet in their order: Δ(ΔI)I on the leaf is spread; I on the leaf is spread, ΔΔ
/// on the leaf a stem, the leaf on the leaf a leaf, and 200 on 10 a drop; I on the leaf again; and the leaf
/// on the leaf. Five nodes are the rule's, and the first stem makes 200.
const PAPER_USES: [Rule; 10] = [
    Rule::Spread,
    Rule::Spread,
    Rule::Stem,
    Rule::Leaf,
    Rule::Drop,
    Rule::Spread,
    Rule::Stem,
    Rule::Leaf,
    Rule::Drop,
    Rule::Leaf,
];

#[test]
fn stopped_at_each_use() {
    let packet = &PAPER[..13];
    for (steps, rule) in PAPER_USES.into_iter().enumerate() {
        let nodes = if steps < 3 { 5 } else { 6 };
        let answer = stop(STEPS, 1, steps, rule);
        assert_eq!(answer.wanted(), Some(rule));
        let packet = limited(packet, steps as u8);
        stops([13, 73, 3], &packet, answer, nodes);
        // A label after the limit is passed over.
        let labelled = [&packet[..], b"\x04\x00\x0210"].concat();
        stops([13, 73, 3], &labelled, answer, nodes);
    }
    assert_eq!(stopped_in([13, 73, 3], &limited(packet, 10)).0, alone(0));
    // Without a sixth node 200 has no place. Where the limit is reached there too, 7 comes first.
    let full = [11, 73, 3];
    stops(full, packet, stop(NODES, 1, 2, Rule::Stem), 5);
    stops(full, &limited(packet, 3), stop(NODES, 1, 2, Rule::Stem), 5);
    stops(full, &limited(packet, 2), stop(STEPS, 1, 2, Rule::Stem), 5);
}

/// The uses of `EIGHT_ARGUMENTS` in their order, with the argument's place. In the fourth, triage is
/// followed by I on I and by I on the leaf, each as I on the leaf in the first.
const EIGHT_USES: [(usize, Rule); 19] = [
    (1, Rule::Spread),
    (1, Rule::Stem),
    (1, Rule::Leaf),
    (1, Rule::Drop),
    (2, Rule::Leaf),
    (3, Rule::Stem),
    (4, Rule::Triage),
    (4, Rule::Spread),
    (4, Rule::Stem),
    (4, Rule::Leaf),
    (4, Rule::Drop),
    (4, Rule::Spread),
    (4, Rule::Stem),
    (4, Rule::Leaf),
    (4, Rule::Drop),
    (5, Rule::Leaf),
    (6, Rule::Stem),
    (7, Rule::Drop),
    (8, Rule::Leaf),
];

/// The steps of all arguments count. Four nodes are there before the first use: 0, 10 and I of the rule, and
/// ΔIΔ of the second argument. The uses after 1, 4, 5, 8 and 9 steps make the others: 200, Δ(ΔIΔ), Δ(ΔIΔ)Δ,
/// KI and ΔI.
#[test]
fn stopped_at_each_of_eight_arguments() {
    let packet = packet_of_eight();
    let making = [1, 4, 5, 8, 9];
    for (steps, (place, rule)) in EIGHT_USES.into_iter().enumerate() {
        let nodes = 4 + making.iter().filter(|before| **before < steps).count();
        let answer = stop(STEPS, place, steps, rule);
        stops([18, 99, 2], &limited(&packet, steps as u8), answer, nodes);
    }
    let completed = stopped_in([18, 99, 2], &limited(&packet, 19)).0;
    assert_eq!(completed, alone(0));
    for (nodes, steps) in (4..).zip(making) {
        let (place, rule) = EIGHT_USES[steps];
        let answer = stop(NODES, place, steps, rule);
        stops([2 * nodes + 1, 99, 2], &packet, answer, nodes);
    }
}

/// So many times Δ(ΔΔ) over a tree. Each is a spread that holds a frame while the next is applied.
fn levels(times: usize, bottom: &str) -> String {
    "210".repeat(times) + bottom
}

/// λx. x is 0, 10 and I, and Translate needs ten frames for it. On t it gives t in 4 steps and makes Kt and
/// Δt. Then ten levels hold the ten frames, after 14 steps: what is next lacks one, an eleventh level by
/// spread, Δ(ΔΔΔ)Δ by triage.
#[test]
fn stopped_for_a_frame() {
    // Of t are new eleven forks: 3 + 11 + 2 nodes. KK is a 17th, made by a stem after the eleven spreads,
    // the leaf at the bottom and the leaf of the innermost level: after 4 + 11 + 2 steps.
    let eleven = same_on(&[&levels(11, "0"), "0"]);
    let spread = stop(FRAMES, 2, 14, Rule::Spread);
    stops([34, 30, 4], &eleven, spread, 16);
    stops([34, 32, 4], &limited(&eleven, 15), spread, 16);
    let no_step = stop(STEPS, 2, 14, Rule::Spread);
    stops([34, 30, 4], &limited(&eleven, 14), no_step, 16);
    stops([34, 33, 4], &limited(&eleven, 14), no_step, 16);
    stops([32, 33, 4], &eleven, stop(NODES, 2, 17, Rule::Stem), 16);
    assert_eq!(stopped_in([34, 33, 4], &eleven).0, alone(0));
    // Of this t are new ten forks, 200 and Δ(ΔΔΔ)Δ: 3 + 12 + 2 nodes.
    let ten = same_on(&[&levels(10, "22000"), "0"]);
    stops([50, 30, 4], &ten, stop(FRAMES, 2, 14, Rule::Triage), 17);
    assert_eq!(stopped_in([50, 33, 4], &ten).0, alone(0));
}

/// A stop of Translate, Read or Write is Run's number alone.
#[test]
fn stopped_before_or_after_applying() {
    let packet = &PAPER[..13];
    // Translate: twelve nodes want 24 frames, and five of them are different.
    stops([9, 71, 3], packet, alone(FRAMES), 0);
    stops([13, 71, 3], packet, alone(FRAMES), 0);
    stops([9, 73, 3], packet, alone(NODES), 4);
    stops([0, 73, 3], packet, alone(NODES), 0);
    // Read of ΔIΔ lacks a fourth node; six forks in first branches leave seven trees pending, where
    // Translate of λx. Δ, 0 and 200, needs six frames.
    stops([7, 99, 2], &packet_of_eight(), alone(NODES), 3);
    let deep = b"\x01\x00\x02\x02\x00\x02\x00\x0d2222220000000";
    stops([28, 20, 26], deep, alone(FRAMES), 2);
    // Write: the text has two digits.
    stops([13, 73, 1], packet, alone(OUT), 6);
    stops([13, 73, 0], packet, alone(OUT), 6);
}

/// g = Δ(Δ(KΔ))Δ on N is Δ on N, ΔN, applied to KΔ on N, the leaf: ΔNΔ, one fork more in first branches. On
/// nine of them, which leave ten trees pending, g twice makes eleven. Write holds a frame for each.
///
/// Nodes: 0, 10 and I; 200, Δ(KΔ) and g; Δg, Kg and the fork of these, G, g twice; eight forks beside 200;
/// KG and ΔG; ΔN and ΔNΔ, twice: 23.
#[test]
fn stopped_by_write_for_a_frame() {
    let g = "212000";
    let deep = "2".repeat(9) + &"0".repeat(10);
    let packet = same_on(&[&format!("21{g}20{g}"), &deep]);
    stops([46, 32, 23], &packet, alone(FRAMES), 23);
    assert_eq!(stopped_in([46, 33, 23], &packet).0, alone(0));
    stops([46, 33, 22], &packet, alone(OUT), 23);
}

#[test]
fn stopped_by_the_checks() {
    let unchanged = |room, packet: &[u8], refusal| {
        let (stopped, lent) = stopped_in(room, packet);
        assert_eq!(stopped, alone(refusal));
        assert_eq!(lent, lent.as_found());
    };
    let (room, packet) = ([13, 73, 3], &PAPER[..13]);
    unchanged([131_073, 73, 3], packet, LIMITS);
    unchanged([13, 65_537, 3], packet, LIMITS);
    unchanged([13, 73, 65_536], packet, LIMITS);
    unchanged([131_073, 73, 3], &[], LIMITS);
    unchanged(room, &PAPER[..14], PACKET);
    unchanged(room, &PAPER[..12], PACKET);
    unchanged(room, &[], PACKET);
    unchanged([0, 0, 0], &[], PACKET);
    // A limit of 1,000,001; an open rule; a text that is not whole, an argument's or a label's.
    let beyond = [packet, b"\x03\x00\x04\x00\x0f\x42\x41"].concat();
    unchanged(room, &beyond, PACKET);
    unchanged(room, b"\x01\x00\x03\x02\x03\x01\x02\x00\x010", RULE);
    unchanged(room, b"\x01\x00\x03\x02\x03\x00\x02\x00\x011", TEXT);
    unchanged(room, &[packet, b"\x04\x00\x00"].concat(), TEXT);
}

/// A packet of 14 bytes, and one byte more. The rule λx. Δ, 02 00, is KΔ, 200: of its three nodes two are
/// different, and Translate wants six frames. Its label is 10, whose leaf is there, and Label makes five.
const WITH_LABEL: &[u8; 15] = b"\x01\x00\x02\x02\x00\x02\x00\x010\x04\x00\x02100";

/// The answer of `label_packet` to this packet.
const LABELLED_RULE: Numbers = Numbers {
    refusal: 0,
    node: 0,
    used: 8,
    steps: 0,
    digits: 15,
};

fn label_packet_in([words, stack, out]: [usize; 3], packet: &[u8]) -> (Numbers, Lent) {
    let mut lent = Lent::new(words, stack, out);
    let (t, s, o) = lent.parts();
    let numbers = lazvorn::label_packet(t, s, o, packet);
    (numbers, lent)
}

/// Holds a call to a refusal; what it leaves.
fn refused_label_packet(room: [usize; 3], packet: &[u8], refusal: usize) -> Lent {
    let (numbers, lent) = label_packet_in(room, packet);
    assert_eq!(numbers, refused(refusal, 0));
    lent
}

#[test]
fn label_packet() {
    let packet = &WITH_LABEL[..14];
    let (numbers, lent) = label_packet_in([17, 20, 16], packet);
    assert_eq!(numbers, LABELLED_RULE);
    // The leaf, the rule's fork and the label's stem, which is K. Then KK, the rule's stem, its fork with
    // KK, the stem of Kt, which is KK, and the fork of this and the fork with KK.
    assert_eq!(lent.table[..6], [0, 0, 1, 1, 1, 0]);
    assert_eq!(lent.table[6..17], [1, 3, 2, 0, 5, 4, 4, 0, 7, 6, NOISE]);
    // 2 1, 2 0 and the label, 2 1 and the rule, KK; the byte past the text stays.
    assert_eq!(lent.out[..16], *b"212010212002010\xa5");
    lent.nothing_beyond();
    lent.stack_is_zero();
    assert_eq!(label_packet_in([16, 18, 15], packet).0, LABELLED_RULE);
    let most = [131_072, 65_536, 65_535];
    assert_eq!(label_packet_in(most, packet).0, LABELLED_RULE);
}

#[test]
fn label_packet_refused_by_its_stages() {
    let packet = &WITH_LABEL[..14];
    let undone = |room, refusal, nodes| {
        refused_label_packet(room, packet, refusal).is_undone(0..nodes);
    };
    // 8 by Label, by Read, by Translate; 9 by Translate, before its 8; 10 by Write, after all eight were
    // made.
    undone([15, 20, 16], NODES, 7);
    undone([7, 20, 16], NODES, 3);
    undone([5, 20, 16], NODES, 2);
    undone([3, 20, 16], NODES, 1);
    undone([0, 20, 16], NODES, 0);
    undone([3, 17, 16], FRAMES, 0);
    undone([17, 17, 16], FRAMES, 0);
    undone([17, 0, 16], FRAMES, 0);
    undone([17, 20, 14], OUT, 8);
    undone([17, 20, 0], OUT, 8);
    // 9 by Read: six forks, each in the first branch, leave seven trees pending. The innermost is the
    // rule's tree; the other five are new, and so are seven of Label's.
    let deep = [&packet[..9], b"\x04\x00\x0d2222220000000"].concat();
    refused_label_packet([28, 20, 26], &deep, FRAMES).is_undone(0..2);
    refused_label_packet([27, 21, 26], &deep, NODES).is_undone(0..13);
    assert_eq!(label_packet_in([28, 21, 26], &deep).0.used, 14);
}

#[test]
fn label_packet_refused_by_its_checks() {
    let packet = &WITH_LABEL[..14];
    let unchanged = |room, packet: &[u8], refusal| {
        let lent = refused_label_packet(room, packet, refusal);
        assert_eq!(lent, lent.as_found());
    };
    let room = [27, 20, 16];
    unchanged([131_073, 20, 16], packet, LIMITS);
    unchanged([27, 65_537, 16], packet, LIMITS);
    unchanged([27, 20, 65_536], packet, LIMITS);
    unchanged([131_073, 20, 16], &[], LIMITS);
    // A byte more or less, no label, no byte; without memory too.
    unchanged(room, WITH_LABEL, PACKET);
    unchanged(room, &packet[..13], PACKET);
    unchanged(room, &packet[..9], PACKET);
    unchanged(room, &[], PACKET);
    unchanged([0, 0, 0], &[], PACKET);
    // 6 comes before 5, also where only the label is missing, 5 before 4, and 4 before 8.
    unchanged(room, b"\x01\x00\x00", PACKET);
    unchanged(room, b"\x01\x00\x00\x04\x00\x00", RULE);
    unchanged(room, b"\x01\x00\x02\x02\x00\x04\x00\x00", TEXT);
    unchanged([0, 0, 0], b"\x01\x00\x02\x02\x00\x04\x00\x0220", TEXT);
    unchanged(
        room,
        b"\x01\x00\x02\x02\x00\x02\x00\x011\x04\x00\x010",
        TEXT,
    );
}

/// Node 7 is the rule at node 1, K, labelled with node 2, KK: Label makes the nodes from 3 on.
const LABELLED: [u32; 16] = [0, 0, 1, 0, 1, 2, 2, 0, 4, 3, 1, 3, 6, 0, 7, 5];

fn parts(rule: usize, used: usize, label: usize) -> Parts {
    Parts {
        rule,
        used,
        label,
        ..Parts::default()
    }
}

fn refused_parts(refusal: usize, used: usize) -> Parts {
    Parts {
        refusal,
        used,
        ..Parts::default()
    }
}

#[test]
fn unlabel() {
    // The words of a call lie before noise, which a length that is lost would reach.
    let call = |words: &[u32], length: usize, used, node| {
        let mut table = vec![NOISE; length.max(words.len()) + BEYOND];
        table[..words.len()].copy_from_slice(words);
        let before = table.clone();
        let parts = lazvorn::unlabel(&table[..length], used, node);
        assert_eq!(table, before);
        parts
    };
    // Δ(Kt) is node 6, Kt node 5 and t node 2; Δ(Δf)(KK) is node 4, Δf node 3 and f node 1; KK is node 2.
    assert_eq!(call(&LABELLED, 16, 8, 7), parts(1, 8, 2));
    assert_eq!(call(&LABELLED, 17, 8, 7), parts(1, 8, 2));
    assert_eq!(call(&LABELLED, 131_072, 8, 7), parts(1, 8, 2));
    for node in 0..7 {
        let refused = refused_parts(NOT_LABELLED, 8);
        assert_eq!(call(&LABELLED, 16, 8, node), refused, "{node}");
    }
    assert_eq!(call(&LABELLED, 131_073, 8, 7), refused_parts(LIMITS, 8));
    assert_eq!(call(&LABELLED, 17, 9, 7), refused_parts(LIMITS, 9));
    assert_eq!(call(&LABELLED, 15, 8, 7), refused_parts(LIMITS, 8));
    let most = usize::MAX;
    assert_eq!(call(&LABELLED, 16, most, 7), refused_parts(LIMITS, most));
    assert_eq!(call(&[], 0, 1, 0), refused_parts(LIMITS, 1));
    assert_eq!(call(&LABELLED, 18, 9, 7), refused_parts(BROKEN, 9));
    assert_eq!(call(&LABELLED, 18, 9, 9), refused_parts(BROKEN, 9));
    assert_eq!(call(&LABELLED, 16, 8, 8), refused_parts(NODE, 8));
    assert_eq!(call(&LABELLED, 16, 7, 7), refused_parts(NODE, 7));
    assert_eq!(call(&LABELLED, 16, 8, most), refused_parts(NODE, 8));
    assert_eq!(call(&[], 0, 0, 0), refused_parts(NODE, 0));
    // A node that the tree does not reach: broken, equal to another, and neither.
    let with = |words: [u32; 2]| [&LABELLED[..], &words].concat();
    for words in [[0, 1], [0, 0], [1, 2], [7, 5]] {
        let refused = refused_parts(BROKEN, 9);
        assert_eq!(call(&with(words), 18, 9, 7), refused, "{words:?}");
        assert_eq!(call(&with(words), 18, 8, 7), parts(1, 8, 2));
    }
    assert_eq!(call(&with([1, 1]), 18, 9, 7), parts(1, 9, 2));
}

/// `unlabel` of the last node of a table.
fn unlabel_last(words: &[u32]) -> Parts {
    lazvorn::unlabel(words, words.len() / 2, words.len() / 2 - 1)
}

/// Other words for a node of the form: of another kind, or with another branch.
const OTHER_WORDS: [(usize, [u32; 2]); 20] = [
    (7, [7, 0]),
    (7, [6, 5]),
    (7, [7, 7]),
    (7, [7, 4]),
    (6, [6, 6]),
    // Δ(ΔK) for Δ(Kt).
    (6, [4, 0]),
    (5, [4, 0]),
    (5, [5, 0]),
    // K and KK for the leaf of Kt.
    (5, [2, 3]),
    (5, [3, 3]),
    (4, [4, 0]),
    (4, [3, 3]),
    (4, [4, 2]),
    (3, [1, 1]),
    (3, [2, 2]),
    (3, [2, 3]),
    // KΔ, and K for the leaf, for KK.
    (2, [1, 1]),
    (2, [2, 2]),
    (2, [2, 1]),
    (1, [1, 1]),
];

#[test]
fn unlabel_by_the_form() {
    for (node, words) in OTHER_WORDS {
        let mut table = LABELLED;
        table[2 * node..2 * node + 2].copy_from_slice(&words);
        let refused = refused_parts(NOT_LABELLED, 8);
        assert_eq!(unlabel_last(&table), refused, "{node} {words:?}");
    }
}

/// A tree labelled earlier, without K before the label. It is of the form where the label is itself Kx:
/// then x is the label.
#[test]
fn unlabel_of_trees_labelled_earlier() {
    // Node 4 is Δ(Δf)(KK) for f = K. The stem of a leaf is K, and that of K is Δf.
    let of_rule = [0, 0, 1, 0, 1, 2, 2, 0, 4, 3];
    for stem in [2, 4] {
        let earlier = [&of_rule[..], &[stem, 5]].concat();
        let refused = refused_parts(NOT_LABELLED, 6);
        assert_eq!(unlabel_last(&earlier), refused, "{stem}");
    }
    // KK, node 2, is K of node 1; ΔK and Δ(ΔK)(KK) are K of nothing.
    let earlier = |label| [&of_rule[..], &[label, 0, 6, 5]].concat();
    assert_eq!(unlabel_last(&earlier(3)), parts(1, 7, 1));
    for label in [4, 5] {
        let refused = refused_parts(NOT_LABELLED, 7);
        assert_eq!(unlabel_last(&earlier(label)), refused, "{label}");
    }
}

#[test]
fn unlabel_where_nodes_are_shared() {
    // K is Δf and t too, and KK is Kt; then f and t are KK itself; then KK's stem is both Δf and Δ(Kt).
    let stem_shared = [0, 0, 1, 0, 1, 2, 2, 3, 3, 0, 5, 4];
    assert_eq!(unlabel_last(&stem_shared), parts(0, 6, 1));
    let of_kk = [0, 0, 1, 0, 1, 2, 3, 0, 4, 3, 1, 3, 6, 0, 7, 5];
    assert_eq!(unlabel_last(&of_kk), parts(2, 8, 2));
    let both_stems = [0, 0, 1, 0, 1, 2, 3, 0, 4, 3, 4, 5];
    assert_eq!(unlabel_last(&both_stems), parts(2, 6, 1));
    // Δ(Kt) made first, f and t the leaf; then with a second leaf, of which KK is made.
    let label_first = [0, 0, 1, 1, 2, 0, 1, 0, 1, 4, 4, 5, 3, 6];
    assert_eq!(unlabel_last(&label_first), parts(0, 7, 0));
    let two_leaves = [0, 0, 0, 0, 2, 0, 1, 3, 1, 0, 5, 4, 2, 2, 7, 0, 8, 6];
    assert_eq!(unlabel_last(&two_leaves), refused_parts(BROKEN, 9));
}

/// What Label makes, and what Read makes of the text of a labelled tree, is taken apart again.
#[test]
fn unlabel_after_label_and_after_read() {
    // Of the leaf with KK four are new.
    let mut table = table(22);
    let labelled = lazvorn::label(&mut table, 3, 0, 2);
    let unlabelled = lazvorn::unlabel(&table, labelled.used, labelled.node);
    assert_eq!(unlabelled, parts(0, 7, 2));
    // Read makes the leaf, K, KK, which is Kt too, the rule, Δf, Δ(Δf)(KK), Δ(Kt) and the whole.
    let (mut table, mut stack) = ([NOISE; 16], [NOISE; 9]);
    let read = lazvorn::read(&mut table, 0, &mut stack, b"212010212002010");
    assert_eq!((read.refusal, read.node), (0, 7));
    assert_eq!(lazvorn::unlabel(&table, 8, 7), parts(3, 8, 1));
}

/// λx. x x never ends on itself. As the label of λx. x it costs six steps and two frames, and λx. x gives
/// the argument in four steps and with one frame. Of KN, ΔN and KN again, where N is argument and label,
/// only ΔN is not there.
#[test]
fn apply_of_a_labelled_rule() {
    let (mut table, mut stack) = ([NOISE; 22], [NOISE; 9]);
    let rule = lazvorn::read(&mut table, 0, &mut stack, b"21010");
    let tree = lazvorn::read(&mut table, 3, &mut stack, b"212101021010");
    let labelled = lazvorn::label(&mut table, 5, rule.node, tree.node);
    assert_eq!((labelled.refusal, labelled.node, labelled.used), (0, 9, 10));
    let call = |words, stack, limit| {
        let (mut table, mut stack) = (table, vec![NOISE; stack]);
        lazvorn::apply(&mut table[..words], 10, &mut stack, 9, tree.node, limit)
    };
    let numbers = Counted {
        node: 4,
        used: 11,
        steps: 10,
        uses: Uses {
            leaf: 1,
            stem: 2,
            drop: 4,
            spread: 3,
            ..Uses::default()
        },
        ..Counted::default()
    };
    assert_eq!(call(22, 9, 10), numbers);
    assert_eq!(call(22, 9, 1_000_000), numbers);
    assert_eq!(call(22, 9, 9), refused_uses(STEPS, 10));
    assert_eq!(call(21, 9, 10), refused_uses(NODES, 10));
    assert_eq!(call(22, 8, 10), refused_uses(FRAMES, 10));
}

/// Arguments of λx. x, I, 21010, with the uses that each takes.
const EIGHT_ARGUMENTS: [(&str, [usize; 5]); 8] = [
    // I on the leaf gives the leaf: spread, then stem, leaf and drop.
    ("0", [1, 1, 1, 1, 0]),
    // The leaf on ΔIΔ gives its stem, and the stem on the leaf the fork Δ(ΔIΔ)Δ.
    ("2210100", [1, 0, 0, 0, 0]),
    ("0", [0, 1, 0, 0, 0]),
    // This on I is triage: I on I gives I, and I on the leaf gives the leaf.
    ("21010", [2, 2, 2, 2, 1]),
    // The leaf on the leaf gives ΔΔ, this on the leaf ΔΔΔ, which drops what it is applied to
    // and gives the leaf, and that on the leaf gives ΔΔ.
    ("0", [1, 0, 0, 0, 0]),
    ("0", [0, 1, 0, 0, 0]),
    ("0", [0, 0, 1, 0, 0]),
    ("0", [1, 0, 0, 0, 0]),
];

fn packet_of_eight() -> Vec<u8> {
    same_on(&EIGHT_ARGUMENTS.map(|(text, _)| text))
}

/// Five counts that all differ, summed over the arguments. Nine trees are made: 0, 10 and I of the rule; ΔIΔ
/// of an argument; then 200, Δ(ΔIΔ), Δ(ΔIΔ)Δ, KI and ΔI.
#[test]
fn uses_over_arguments() {
    let packet = packet_of_eight();
    let mut counts = [0; 5];
    for (_, uses) in EIGHT_ARGUMENTS {
        counts = std::array::from_fn(|i| counts[i] + uses[i]);
    }
    assert_eq!(counts, [6, 5, 4, 3, 1]);
    let [leaf, stem, drop, spread, triage] = counts;
    let mut lent = Lent::new(18, 99, 2);
    let (t, s, o) = lent.parts();
    let ran = lazvorn::run(t, s, o, &packet);
    lent.nothing_beyond();
    let expected = Counted {
        used: 9,
        steps: 19,
        digits: 2,
        uses: Uses {
            leaf,
            stem,
            drop,
            spread,
            triage,
        },
        ..Counted::default()
    };
    assert_eq!(ran, expected);
    assert_eq!(lent.out[..2], *b"10");
}

/// The words of a call lie before noise, which a length that is lost would reach.
#[test]
fn same() {
    let call = |words: &[u32], length: usize, used, a, b| {
        let mut table = vec![NOISE; length.max(words.len()) + BEYOND];
        table[..words.len()].copy_from_slice(words);
        let before = table.clone();
        let same = lazvorn::same(&table[..length], used, a, b);
        assert_eq!(table, before);
        same
    };
    let answer = |equal| Same { refusal: 0, equal };
    let refused = |refusal| Same { refusal, equal: 0 };
    for a in 0..8 {
        for b in 0..8 {
            let equal = answer(usize::from(a == b));
            assert_eq!(call(&LABELLED, 16, 8, a, b), equal, "{a} {b}");
            assert_eq!(call(&LABELLED, 131_072, 8, a, b), equal, "{a} {b}");
        }
    }
    assert_eq!(call(&LABELLED, 131_073, 8, 7, 7), refused(LIMITS));
    assert_eq!(call(&LABELLED, 17, 9, 7, 7), refused(LIMITS));
    assert_eq!(call(&LABELLED, 15, 8, 7, 7), refused(LIMITS));
    assert_eq!(call(&LABELLED, 16, usize::MAX, 7, 7), refused(LIMITS));
    assert_eq!(call(&[], 0, 1, 0, 0), refused(LIMITS));
    assert_eq!(call(&LABELLED, 18, 9, 7, 7), refused(BROKEN));
    assert_eq!(call(&LABELLED, 18, 9, 9, 9), refused(BROKEN));
    for [a, b] in [[8, 7], [7, 8], [8, 8], [usize::MAX, 7], [7, usize::MAX]] {
        assert_eq!(call(&LABELLED, 16, 8, a, b), refused(NODE), "{a} {b}");
    }
    assert_eq!(call(&LABELLED, 16, 7, 7, 6), refused(NODE));
    assert_eq!(call(&LABELLED, 16, 7, 6, 6), answer(1));
    assert_eq!(call(&[], 0, 0, 0, 0), refused(NODE));
    assert_eq!(call(&[NOISE], 1, 0, 0, 0), refused(NODE));
}

/// An operation on a table with so many nodes in use; its refusal.
type OnTable = fn(&mut Lent, usize) -> usize;

const ON_TABLES: [OnTable; 8] = [
    |lent, used| {
        let (t, s, _) = lent.parts();
        lazvorn::read(t, used, s, b"0").refusal
    },
    |lent, used| {
        let (t, s, o) = lent.parts();
        lazvorn::write(t, used, s, 0, o).refusal
    },
    |lent, used| {
        let (t, s, _) = lent.parts();
        lazvorn::translate(t, used, s, &[2, 0]).refusal
    },
    |lent, used| {
        let (t, s, _) = lent.parts();
        lazvorn::apply(t, used, s, 0, 0, 9).refusal
    },
    |lent, used| lazvorn::label(lent.parts().0, used, 0, 0).refusal,
    |lent, used| lazvorn::unlabel(lent.parts().0, used, 0).refusal,
    |lent, used| lazvorn::same(lent.parts().0, used, 0, 0).refusal,
    |lent, used| lazvorn::code(lent.parts().0, used, 0).refusal,
];

/// Two equal used nodes are 2 to every operation on a table, and all memory stays as found. Where the
/// second of them is past the used nodes there are no two.
#[test]
fn equal_used_nodes() {
    let equal = [[0, 0, 1, 0, 0, 0], [0, 0, 1, 0, 1, 0], [0, 0, 1, 1, 1, 1]];
    for words in equal {
        for (i, operation) in ON_TABLES.iter().enumerate() {
            let mut found = Lent::new(22, 20, 4);
            found.table[..6].copy_from_slice(&words);
            let mut lent = found.clone();
            assert_eq!(operation(&mut lent, 3), BROKEN, "{i} {words:?}");
            assert_eq!(lent, found, "{i} {words:?}");
            assert_ne!(operation(&mut lent, 2), BROKEN, "{i} {words:?}");
        }
    }
}

/// Calls `rule_text` with so many out bytes; what it answers, and the out bytes with those beyond.
fn rule_text_of(text: &[u8], out: usize) -> (TextNumbers, Vec<u8>) {
    let mut lent = Lent::new(6, 0, out);
    let (_, _, o) = lent.parts();
    let numbers = lazvorn::rule_text(text, o);
    lent.nothing_beyond();
    (numbers, lent.out)
}

/// Holds a call to a refusal that leaves the out bytes as found.
fn refused_text(text: &[u8], out: usize, refusal: usize) {
    let (numbers, after) = rule_text_of(text, out);
    assert_eq!(numbers, TextNumbers { refusal, bytes: 0 });
    assert_eq!(after, vec![BYTE; out + BEYOND]);
}

#[test]
fn rule_text() {
    // λf.λx. f x as a text of 11 bytes is a term of 7.
    let bytes = br"\f.\xy.f xyz";
    let text = &bytes[..11];
    let (numbers, out) = rule_text_of(text, 9);
    let written = TextNumbers {
        refusal: 0,
        bytes: 7,
    };
    assert_eq!(numbers, written);
    assert_eq!(out[..9], [2, 2, 1, 3, 1, 3, 0, BYTE, BYTE]);
    assert_eq!(rule_text_of(text, 7).0, written);
    refused_text(text, 6, OUT);
    refused_text(text, 0, OUT);
    // A byte more or less leaves a name that is unbound, two less a body that is f alone.
    refused_text(bytes, 9, RULE_TEXT);
    refused_text(&text[..10], 9, RULE_TEXT);
    assert_eq!(rule_text_of(&text[..9], 9).0.bytes, 4);
    refused_text(&text[..7], 9, RULE_TEXT);
    refused_text(b"", 9, RULE_TEXT);
    refused_text(b"^", 9, RULE);
}

#[test]
fn rule_text_refusals_in_order() {
    // 12 comes before 5, and 5 before 10.
    refused_text(b"x", 0, RULE_TEXT);
    refused_text(br"!\x.x", 0, RULE);
    refused_text(br"\x.x", 1, OUT);
    let spaced = |spaces| [&br"\x.x"[..], &b" ".repeat(spaces)].concat();
    assert_eq!(rule_text_of(&spaced(8_188), 5).0.bytes, 3);
    refused_text(&spaced(8_189), 5, RULE_TEXT);
    let wrapped = |depth| {
        let (open, close) = (b"(".repeat(depth), b")".repeat(depth));
        [&open, &br"\x.x"[..], &close].concat()
    };
    assert_eq!(rule_text_of(&wrapped(32), 5).0.bytes, 3);
    refused_text(&wrapped(33), 5, RULE_TEXT);
    let leaves = |count| [&br"\x."[..], &b"^".repeat(count)].concat();
    assert_eq!(rule_text_of(&leaves(2_048), 4_099).0.bytes, 4_096);
    refused_text(&leaves(2_048), 4_095, OUT);
    refused_text(&leaves(2_049), 4_099, RULE);
    let nested = |count| [&br"\x.".repeat(count)[..], b"x"].concat();
    assert_eq!(rule_text_of(&nested(16), 20).0.bytes, 18);
    refused_text(&nested(17), 20, RULE);
}

#[test]
fn rule_text_on_a_stack_of_1_mib() {
    let texts = || {
        let row = |start: &[u8], part: &[u8], times, end: &[u8]| {
            [start, &part.repeat(times), end].concat()
        };
        // The most abstractions that a text has room for, with a bound and an unbound name.
        refused_text(&row(b"", br"\a.", 2_730, b"a"), 9, RULE);
        refused_text(&row(b"", br"\a.", 2_730, b"b"), 9, RULE_TEXT);
        // Abstractions that stand apart nest deepest in the parser, and deeper still in parentheses.
        refused_text(&row(b"", br"\a.!", 2_047, b"a"), 9, RULE);
        refused_text(&row(&b"(".repeat(32), br"\a.!", 2_040, b""), 9, RULE_TEXT);
        // Texts of 8,192 bytes: operands, `!` and `>`.
        refused_text(&row(br"\x.", b"^", 8_189, b""), 9, RULE);
        refused_text(&row(br"\x.", b"!", 8_188, b"x"), 9, RULE);
        refused_text(&row(br"\x.x", b">x", 4_094, b""), 9, RULE);
        refused_text(&row(b"", b"(", 8_192, b""), 9, RULE_TEXT);
    };
    let thread = std::thread::Builder::new().stack_size(1 << 20);
    assert!(thread.spawn(texts).expect("a thread").join().is_ok());
}

extern "C" {
    fn lazvorn_generate(seed: u32, digits: usize, out: *mut u8, out_len: usize, answer: *mut usize);
    fn lazvorn_code(
        table: *const u32,
        table_len: usize,
        used: usize,
        node: usize,
        answer: *mut usize,
    );
    fn lazvorn_code_text(code: usize, out: *mut u8, out_len: usize, answer: *mut usize);
    fn lazvorn_window(
        week: *const u32,
        week_len: usize,
        day: usize,
        minute: usize,
        answer: *mut usize,
    );
    fn lazvorn_next_window(
        week: *const u32,
        week_len: usize,
        day: usize,
        minute: usize,
        answer: *mut usize,
    );
}

/// The N numbers that a call writes to its answer, with noise around them, which stays.
fn answered<const N: usize>(call: impl FnOnce(*mut usize)) -> [usize; N] {
    let noise = [usize::MAX - 1; BEYOND];
    let mut numbers = [&noise[..], &[usize::MAX - 1; N], &noise].concat();
    call(numbers[BEYOND..].as_mut_ptr());
    assert_eq!(numbers[..BEYOND], noise);
    assert_eq!(numbers[BEYOND + N..], noise);
    std::array::from_fn(|i| numbers[BEYOND + i])
}

fn given_of([refusal, found, number]: [usize; 3]) -> Given {
    Given {
        refusal,
        found,
        number,
    }
}

/// A function of the library that reads words and two numbers and gives a number or none, and its safe form.
type OnWords = (
    unsafe extern "C" fn(*const u32, usize, usize, usize, *mut usize),
    fn(&[u32], usize, usize) -> Given,
);

const WINDOW: OnWords = (lazvorn_window, lazvorn::window);
const NEXT_WINDOW: OnWords = (lazvorn_next_window, lazvorn::next_window);
const CODE: OnWords = (lazvorn_code, lazvorn::code);

/// Calls such a function with noise around the words and around the answer. Nothing but the answer's three
/// numbers may be written, and the safe form must answer the same.
fn ask((call, safe): OnWords, words: &[u32], first: usize, second: usize) -> Given {
    let noise = &[NOISE; BEYOND][..];
    let mut lent = [noise, words, noise].concat();
    let found = lent.clone();
    let answer = answered(|answer| unsafe {
        let words_at = lent.as_mut_ptr().add(BEYOND);
        call(words_at, words.len(), first, second, answer);
    });
    assert_eq!(lent, found);
    let answer = given_of(answer);
    assert_eq!(safe(words, first, second), answer);
    answer
}

/// An answer that gives a number.
fn given(number: usize) -> Given {
    given_of([0, 1, number])
}

/// An answer that gives none, or is refused.
fn none_given(refusal: usize) -> Given {
    given_of([refusal, 0, 0])
}

const NONE: Given = Given {
    refusal: 0,
    found: 0,
    number: 0,
};

/// The numbers of a week with windows on some days, each day's from its first place on.
fn week(days: &[(usize, &[[u32; 3]])]) -> Vec<u32> {
    let mut week = vec![0; 84];
    for (day, windows) in days {
        let windows = windows.concat();
        week[12 * day..12 * day + windows.len()].copy_from_slice(&windows);
    }
    week
}

/// A week is refused by both functions, whatever is asked.
fn is_refused(week: &[u32]) {
    for (day, minute) in [(0, 0), (3, 25), (6, 1_439), (7, 0), (0, 1_440)] {
        for function in [WINDOW, NEXT_WINDOW] {
            let answer = ask(function, week, day, minute);
            assert_eq!(answer, none_given(WEEK), "{day} {minute} {week:?}");
        }
    }
}

/// A week is taken by both functions.
fn is_taken(week: &[u32]) {
    for (day, minute) in [(0, 0), (3, 25), (6, 1_439)] {
        for function in [WINDOW, NEXT_WINDOW] {
            let answer = ask(function, week, day, minute);
            assert_eq!(answer.refusal, 0, "{day} {minute} {week:?}");
        }
    }
}

/// Days and minutes with the packet number, 0 where there is none, and the minutes to the next beginning.
const MINUTES: [(usize, usize, usize, usize); 37] = [
    // Windows from 0 to 1, 1 to 60, 100 to 200 and 1,439 to 1,440.
    (0, 0, 1, 0),
    (0, 1, 2, 0),
    (0, 2, 2, 98),
    (0, 59, 2, 41),
    (0, 60, 0, 40),
    (0, 99, 0, 1),
    (0, 100, 3, 0),
    (0, 101, 3, 1_338),
    (0, 199, 3, 1_240),
    (0, 200, 0, 1_239),
    (0, 1_438, 0, 1),
    (0, 1_439, 4, 0),
    // None, and on the next day from 600 to 601.
    (1, 0, 0, 2_040),
    (1, 1_439, 0, 601),
    (2, 599, 0, 1),
    (2, 600, 28, 0),
    (2, 601, 0, 839),
    // The whole day; then none for two days, and from 30 on the third.
    (3, 0, 9, 0),
    (3, 1, 9, 4_349),
    (3, 1_439, 9, 2_911),
    (4, 0, 0, 2_910),
    (5, 700, 0, 770),
    // From 30 to 90, 90 to 1,000 and 1,100 to 1,438; then from 0 on the first day.
    (6, 0, 0, 30),
    (6, 29, 0, 1),
    (6, 30, 5, 0),
    (6, 31, 5, 59),
    (6, 89, 5, 1),
    (6, 90, 6, 0),
    (6, 91, 6, 1_009),
    (6, 999, 6, 101),
    (6, 1_000, 0, 100),
    (6, 1_099, 0, 1),
    (6, 1_100, 7, 0),
    (6, 1_101, 7, 339),
    (6, 1_437, 7, 3),
    (6, 1_438, 0, 2),
    (6, 1_439, 0, 1),
];

#[test]
fn windows_of_a_week() {
    let week = week(&[
        (
            0,
            &[[0, 1, 1], [1, 60, 2], [100, 200, 3], [1_439, 1_440, 4]],
        ),
        (2, &[[600, 601, 28]]),
        (3, &[[0, 1_440, 9]]),
        (6, &[[30, 90, 5], [90, 1_000, 6], [1_100, 1_438, 7]]),
    ]);
    for (day, minute, packet, minutes) in MINUTES {
        let window = match packet {
            0 => NONE,
            packet => given(packet),
        };
        assert_eq!(ask(WINDOW, &week, day, minute), window, "{day} {minute}");
        let next = ask(NEXT_WINDOW, &week, day, minute);
        assert_eq!(next, given(minutes), "{day} {minute}");
    }
}

/// Windows by their days, and days and minutes with the minutes until the next of them begins.
type Beginnings = (
    &'static [(usize, &'static [[u32; 3]])],
    &'static [(usize, usize, usize)],
);

const BEGINNINGS: [Beginnings; 8] = [
    // Five days and 61 minutes are 7,261; two days and 600 minutes are 3,480.
    (
        &[(2, &[[600, 660, 4]]), (5, &[[60, 120, 8]])],
        &[(5, 60, 0), (5, 61, 10_080 - 7_261 + 3_480)],
    ),
    (
        &[(2, &[[600, 660, 4]]), (5, &[[60, 120, 8]])],
        &[(6, 0, 1_440 + 3_480), (6, 1_439, 3_481), (0, 0, 3_480)],
    ),
    // The only window of the week: before it on its day, at its first, and after that.
    (
        &[(4, &[[600, 700, 11]])],
        &[(4, 599, 1), (4, 600, 0), (4, 601, 10_080 - 1)],
    ),
    (
        &[(4, &[[600, 700, 11]])],
        &[(4, 700, 10_080 - 100), (4, 1_439, 10_080 - 839)],
    ),
    // On other days, four days and 600 minutes being 6,360.
    (
        &[(4, &[[600, 700, 11]])],
        &[
            (3, 1_439, 601),
            (5, 0, 9_240),
            (6, 1_439, 6_361),
            (0, 0, 6_360),
        ],
    ),
    // The first of two on the only day.
    (
        &[(2, &[[100, 200, 4], [300, 400, 5]])],
        &[(2, 101, 199), (2, 300, 0), (2, 301, 10_080 - 201)],
    ),
    // The first and the last minute of the week.
    (
        &[(0, &[[0, 1, 1]])],
        &[(0, 0, 0), (0, 1, 10_079), (6, 1_439, 1)],
    ),
    (
        &[(6, &[[1_439, 1_440, 1]])],
        &[(0, 0, 10_079), (6, 1_438, 1), (6, 1_439, 0)],
    ),
];

/// Past the week's end comes its first window again, and that may be one of this day that began earlier.
#[test]
fn next_window_past_the_weeks_end() {
    for (days, minutes) in BEGINNINGS {
        for (day, minute, minutes) in minutes {
            let next = ask(NEXT_WINDOW, &week(days), *day, *minute);
            assert_eq!(next, given(*minutes), "{day} {minute} {days:?}");
        }
    }
}

#[test]
fn a_week_without_windows() {
    for day in 0..7 {
        for minute in [0, 1, 720, 1_439] {
            assert_eq!(ask(WINDOW, &[0; 84], day, minute), NONE);
            assert_eq!(ask(NEXT_WINDOW, &[0; 84], day, minute), NONE);
        }
    }
}

/// Windows that no place may have: first, end and packet beyond their borders, each alone, and places that
/// are neither used nor unused.
const BROKEN_WINDOWS: [[u32; 3]; 25] = [
    [30, 30, 1],
    [31, 30, 1],
    [1_440, 1_440, 1],
    [1_439, 1_441, 1],
    [30, 1_441, 1],
    [1_440, 1_441, 1],
    [30, u32::MAX, 1],
    [u32::MAX, u32::MAX, 1],
    [u32::MAX, 31, 1],
    [u32::MAX, 0, 1],
    [65_536 + 30, 31, 1],
    [30, 65_536 + 31, 1],
    [30, 31, 0],
    [30, 31, 29],
    [30, 31, 256 + 1],
    [30, 31, 65_536 + 1],
    [30, 31, u32::MAX],
    // One or two zeros.
    [30, 0, 0],
    [0, 31, 0],
    [0, 0, 1],
    [0, 1, 0],
    [1, 0, 0],
    [30, 0, 1],
    [0, 0, 29],
    [0, 0, u32::MAX],
];

/// On every place of the week, after windows up to minute 30.
#[test]
fn each_place_of_a_week() {
    let before = [[0, 10, 27], [10, 20, 27], [20, 30, 27]];
    for place in 0..28 {
        let (day, used) = (place / 4, place % 4);
        let with = |window| week(&[(day, &[&before[..used], &[window]].concat())]);
        for window in [
            [30, 31, 1],
            [30, 1_440, 28],
            [1_439, 1_440, 2],
            [31, 33, 14],
        ] {
            let [first, end, packet] = window.map(|number| number as usize);
            let week = with(window);
            for minute in [first, end - 1] {
                assert_eq!(ask(WINDOW, &week, day, minute), given(packet));
            }
            assert_eq!(ask(NEXT_WINDOW, &week, day, first), given(0));
            assert_eq!(ask(NEXT_WINDOW, &week, day, 30), given(first - 30));
            is_taken(&week);
        }
        for window in BROKEN_WINDOWS {
            is_refused(&with(window));
        }
    }
}

/// Windows of a day ascend and do not overlap; they may adjoin.
#[test]
fn windows_of_each_day() {
    for day in 0..7 {
        let of = |windows: &[[u32; 3]]| week(&[(day, windows)]);
        let adjoining = [
            [0, 360, 1],
            [360, 720, 2],
            [720, 1_080, 3],
            [1_080, 1_440, 4],
        ];
        is_taken(&of(&adjoining));
        for i in 1..4 {
            // By one minute at the end of one, at the first of the next; then the same window twice, and two
            // in the other order.
            let with = |change: fn(&mut [[u32; 3]], usize)| {
                let mut windows = adjoining;
                change(&mut windows, i);
                of(&windows)
            };
            is_refused(&with(|windows, i| windows[i - 1][1] += 1));
            is_refused(&with(|windows, i| windows[i][0] -= 1));
            is_refused(&with(|windows, i| windows[i] = windows[i - 1]));
            is_refused(&with(|windows, i| windows.swap(i - 1, i)));
            is_taken(&with(|windows, i| windows[i - 1][1] -= 1));
            is_taken(&with(|windows, i| windows[i][0] += 1));
        }
        // One within the other, and a third that overlaps only the first.
        is_refused(&of(&[[10, 90, 1], [20, 30, 1]]));
        is_refused(&of(&[[20, 30, 1], [10, 90, 1]]));
        is_refused(&of(&[[10, 20, 1], [30, 40, 1], [15, 25, 1]]));
        is_refused(&of(&[[10, 20, 1], [30, 40, 1], [20, 30, 1]]));
        // Other days go by themselves.
        let other = (day + 1) % 7;
        is_taken(&week(&[(day, &[[20, 30, 1]]), (other, &[[10, 25, 1]])]));
    }
}

/// No used place comes after an unused one.
#[test]
fn unused_places() {
    let (window, unused) = ([20, 30, 1], [0; 3]);
    for day in 0..7 {
        let of = |windows: &[[u32; 3]]| week(&[(day, windows)]);
        is_taken(&of(&[window, unused, unused, unused]));
        is_taken(&of(&[[0, 1, 1], window, unused, unused]));
        is_refused(&of(&[unused, window]));
        is_refused(&of(&[unused, unused, window]));
        is_refused(&of(&[unused, unused, unused, window]));
        is_refused(&of(&[[0, 1, 1], unused, window]));
        is_refused(&of(&[[0, 1, 1], unused, unused, window]));
        is_refused(&of(&[[0, 1, 1], [1, 2, 1], unused, window]));
    }
}

/// Days up to 6 and minutes up to 1,439, of all the bits that a number has.
#[test]
fn days_and_minutes() {
    let week = week(&[(0, &[[0, 1_440, 3]]), (6, &[[1_439, 1_440, 5]])]);
    assert_eq!(ask(WINDOW, &week, 6, 1_439), given(5));
    assert_eq!(ask(NEXT_WINDOW, &week, 6, 1_439), given(0));
    let beyond = |border: usize| {
        let bits = [8, 16, 31, 32, 63].map(|bits| 1_usize << bits);
        let numbers = [&[border, border + 1, usize::MAX][..], &bits].concat();
        numbers.into_iter().filter(move |number| *number >= border)
    };
    for function in [WINDOW, NEXT_WINDOW] {
        for day in beyond(7) {
            assert_eq!(ask(function, &week, day, 0), none_given(WEEK), "{day}");
            assert_eq!(ask(function, &week, day, 1_440), none_given(WEEK), "{day}");
        }
        for minute in beyond(1_440) {
            assert_eq!(
                ask(function, &week, 0, minute),
                none_given(WEEK),
                "{minute}"
            );
            assert_eq!(
                ask(function, &week, 6, minute),
                none_given(WEEK),
                "{minute}"
            );
        }
        // Without windows there is as little to ask beyond the borders.
        assert_eq!(ask(function, &[0; 84], 7, 0), none_given(WEEK));
        assert_eq!(ask(function, &[0; 84], 0, 1_440), none_given(WEEK));
    }
}

/// A week is 84 numbers, whatever they and the ones after them are.
#[test]
fn lengths_of_weeks() {
    let numbers = [week(&[(0, &[[0, 1_440, 1]])]), week(&[])].concat();
    is_taken(&numbers[..84]);
    for length in [0, 1, 3, 12, 72, 81, 83, 85, 87, 96, 167, 168] {
        is_refused(&numbers[..length]);
        is_refused(&vec![0; length]);
    }
}

/// The week as a type of Rust: each window in its own three numbers.
#[test]
fn weeks_of_rust() {
    let mut week = Week::default();
    for (day, windows) in week.0.iter_mut().enumerate() {
        for (place, window) in windows.iter_mut().enumerate() {
            let first = (100 * place + 10 * day) as u32;
            let (end, packet) = (first + 5, (4 * day + place + 1) as u32);
            *window = Window { first, end, packet };
        }
    }
    let numbers = week.numbers();
    assert_eq!(numbers[..6], [0, 5, 1, 100, 105, 2]);
    assert_eq!(numbers[12..15], [10, 15, 5]);
    assert_eq!(numbers[81..], [360, 365, 28]);
    assert_eq!(week.window_at(0, 104), Ok(Some(2)));
    assert_eq!(week.window_at(0, 105), Ok(None));
    assert_eq!(week.window_at(5, 254), Ok(Some(23)));
    assert_eq!(week.next_window(0, 104), Ok(Some(96)));
    // The rest of the day.
    assert_eq!(week.next_window(6, 361), Ok(Some(1_079)));
    assert_eq!(Week::default().next_window(6, 361), Ok(None));
    assert_eq!(week.window_at(7, 0), Err(WEEK));
    assert_eq!(week.next_window(0, 1_440), Err(WEEK));
    week.0[3][1].packet = 29;
    assert_eq!(week.window_at(0, 104), Err(WEEK));
    assert_eq!(week.next_window(0, 104), Err(WEEK));
}

/// Calls a function with so many out bytes, with noise before and after them and around the answer. Nothing but the
/// out bytes and the answer's N numbers may be written. Gives the answer and the out bytes.
fn into_out<const N: usize>(
    out: usize,
    call: impl FnOnce(*mut u8, *mut usize),
) -> ([usize; N], Vec<u8>) {
    let mut lent = vec![BYTE; BEYOND + out + BEYOND];
    let answer = answered(|answer| call(lent[BEYOND..].as_mut_ptr(), answer));
    let (before, rest) = lent.split_at(BEYOND);
    let (bytes, after) = rest.split_at(out);
    assert_eq!([before, after], [&[BYTE; BEYOND]; 2]);
    (answer, bytes.to_vec())
}

/// Calls `generate` with so many out bytes. The safe form must do the same. Gives the answer and the out bytes.
fn generate_in(seed: u32, digits: usize, out: usize) -> (LoadNumbers, Vec<u8>) {
    let (answer, bytes) = into_out(out, |out_at, answer| unsafe {
        lazvorn_generate(seed, digits, out_at, out, answer)
    });
    let [refusal, digits_given] = answer;
    let answer = LoadNumbers {
        refusal,
        digits: digits_given,
    };
    let mut safe = vec![BYTE; out];
    assert_eq!(lazvorn::generate(seed, digits, &mut safe), answer);
    assert_eq!(safe, bytes);
    (answer, bytes)
}

/// A load of so many digits, with as many out bytes.
fn load(seed: u32, digits: usize) -> Vec<u8> {
    let (answer, text) = generate_in(seed, digits, digits);
    assert_eq!(answer, LoadNumbers { refusal: 0, digits }, "{seed}");
    text
}

/// A call that writes nothing: 10, or an empty load.
fn writes_nothing(seed: u32, digits: usize, out: usize, refusal: usize) {
    let (answer, bytes) = generate_in(seed, digits, out);
    assert_eq!(answer, LoadNumbers { refusal, digits: 0 }, "{digits} {out}");
    assert!(bytes.iter().all(|byte| *byte == BYTE), "{digits} {out}");
}

/// Seeds and loads of few digits, worked out from document 02, as all of these are. The seed 1 has those of 0
/// up to nine digits.
const SHORT_LOADS: [(u32, &[&str]); 3] = [
    (
        0,
        &[
            "0",
            "10",
            "110",
            "1110",
            "11110",
            "111200",
            "1112010",
            "11120110",
            "111201110",
            "1112011200",
            "11120112100",
            "111201121010",
        ],
    ),
    (
        1,
        &["111201110", "1112011110", "11120111110", "111201111200"],
    ),
    (
        u32::MAX,
        &[
            "0",
            "10",
            "200",
            "2100",
            "22000",
            "221000",
            "2200200",
            "22002010",
            "220022000",
            "2200221000",
            "22002220000",
            "220022200100",
        ],
    ),
];

/// Loads of forty digits, from seeds in which the upper bits, the lower ones or neither are 0.
const LOADS_OF_FORTY: [(u32, &str); 5] = [
    (12, "2101212001121202100121210212221201000000"),
    (65_535, "1111122101122022001010202120200112022000"),
    (65_536, "2122100201011222200200020122110212200000"),
    (1 << 31, "1112221022021200202120102012202120000000"),
    (123_456_789, "2210022200122001022012100111220022110010"),
];

#[test]
fn loads_of_few_digits() {
    let short = SHORT_LOADS.iter();
    let short = short.flat_map(|(seed, loads)| loads.iter().map(move |text| (*seed, *text)));
    for (seed, text) in short.chain(LOADS_OF_FORTY) {
        assert_eq!(load(seed, text.len()), text.as_bytes(), "{seed}");
    }
}

/// A number that changes with any byte: FNV-1a of 64 bits.
fn fingerprint(bytes: &[u8]) -> u64 {
    let add = |sum: u64, byte: &u8| (sum ^ u64::from(*byte)).wrapping_mul(0x100_0000_01b3);
    bytes.iter().fold(0xcbf2_9ce4_8422_2325, add)
}

/// A long load: seed, digits, how many of them are 0, 1 and 2, the first and last twenty, and the fingerprint.
type Long = (u32, usize, [usize; 3], &'static str, &'static str, u64);

const LONG_LOADS: [Long; 7] = [
    (
        0,
        4_095,
        [1_346, 1_404, 1_345],
        "11120112112101121100",
        "00222000000000000000",
        0xb259_5319_6a99_31f7,
    ),
    (
        1,
        4_095,
        [1_361, 1_374, 1_360],
        "11120111120120221222",
        "00000000000000000000",
        0x7b32_574d_5fbd_2be9,
    ),
    (
        u32::MAX,
        4_095,
        [1_360, 1_376, 1_359],
        "22002221212120222111",
        "20120000000000000000",
        0x5cce_0467_a060_7e9f,
    ),
    (
        2_026,
        4_095,
        [1_376, 1_344, 1_375],
        "12220220111120210102",
        "00000000000000000000",
        0x6377_0dae_bad9_d119,
    ),
    (
        0,
        4_094,
        [1_345, 1_405, 1_344],
        "11120112112101121100",
        "00022010000000000000",
        0x4bb0_dc18_4bba_20ee,
    ),
    (
        u32::MAX,
        1_000,
        [335, 331, 334],
        "22002221212120222111",
        "20000000000000000000",
        0x04d7_74b7_a29d_484a,
    ),
    // 256 trees are wanted at one place of this one.
    (
        176_411_936,
        4_095,
        [1_432, 1_232, 1_431],
        "21110202012110211122",
        "00000000000000000000",
        0x71b5_f348_67be_3f8f,
    ),
];

#[test]
fn loads_of_many_digits() {
    for (seed, digits, counts, first, last, number) in LONG_LOADS {
        let text = load(seed, digits);
        let count = |digit| text.iter().filter(|byte| **byte == digit).count();
        assert_eq!([b'0', b'1', b'2'].map(count), counts, "{seed} {digits}");
        assert_eq!(text[..20], *first.as_bytes(), "{seed} {digits}");
        assert_eq!(text[digits - 20..], *last.as_bytes(), "{seed} {digits}");
        assert_eq!(fingerprint(&text), number, "{seed} {digits}");
    }
}

/// A count outside 1 to 4,095 gives an empty load, however many out bytes there are.
#[test]
fn loads_that_are_empty() {
    let far = [16, 31, 32, 48, 63].map(|bits| (1_usize << bits) + 9);
    let near = [0, LOAD_DIGITS + 1, LOAD_DIGITS + 2, usize::MAX];
    for digits in [&near[..], &far].concat() {
        for seed in [0, 1, 12, u32::MAX] {
            for out in [0, 1, 8, 9, 4_094, 4_095, 4_096, 5_000] {
                writes_nothing(seed, digits, out, 0);
            }
        }
    }
}

/// As many out bytes as digits are enough, and those past them stay; one fewer is too few. There is no most.
#[test]
fn out_bytes_of_loads() {
    for seed in [0, 1, u32::MAX] {
        for digits in [1, 2, 3, 12, 100, 4_094, LOAD_DIGITS] {
            let text = load(seed, digits);
            for more in [1, 2, 70_000, 200_000] {
                let (answer, bytes) = generate_in(seed, digits, digits + more);
                assert_eq!(answer, LoadNumbers { refusal: 0, digits });
                assert_eq!(bytes[..digits], text);
                assert!(bytes[digits..].iter().all(|byte| *byte == BYTE));
            }
            for out in [0, digits / 2, digits - 1] {
                writes_nothing(seed, digits, out, OUT);
            }
        }
    }
}

/// The same seed and count give the same load, whatever was made in between.
#[test]
fn loads_made_twice() {
    let seeds = [0, 1, 12, u32::MAX];
    let loads = || seeds.map(|seed| [1, 12, 40, LOAD_DIGITS].map(|digits| load(seed, digits)));
    assert_eq!(loads(), loads());
}

/// Read takes a load into a table in which other trees are, with a node for each digit and a frame for each
/// two, and Write gives it back.
#[test]
fn loads_are_read() {
    let digits = (1..=60).chain([500, 4_094, LOAD_DIGITS]);
    for (i, digits) in digits.enumerate() {
        let text = load(NOISE.wrapping_mul(i as u32), digits);
        let mut lent = Lent::new(6 + 2 * digits, 3 * digits.div_ceil(2), digits);
        let (t, s, o) = lent.parts();
        let read = lazvorn::read(t, 3, s, &text);
        assert_eq!(read.refusal, 0, "{digits}");
        let written = lazvorn::write(t, read.used, s, read.node, o);
        assert_eq!((written.refusal, written.digits), (0, digits));
        assert_eq!(o, text);
        lent.nothing_beyond();
    }
}

/// Some codes and their texts, worked out from document 02, as all of these are: the first and the last of each
/// count of digits, and others.
const TEXTS_OF_CODES: [(usize, &str); 38] = [
    (0, "0"),
    (1, "10"),
    (2, "110"),
    (3, "200"),
    (4, "1110"),
    (5, "1200"),
    (6, "2010"),
    (7, "2100"),
    (8, "11110"),
    (11, "12100"),
    (12, "20110"),
    (14, "21010"),
    (16, "22000"),
    (17, "111110"),
    (24, "121100"),
    (27, "201200"),
    (36, "220100"),
    (37, "221000"),
    (38, "1111110"),
    (55, "1212000"),
    (63, "2020110"),
    (81, "2200200"),
    (88, "2220000"),
    (89, "11111110"),
    (131, "12200110"),
    (152, "20202100"),
    (214, "22201000"),
    (215, "22210000"),
    (216, "111111110"),
    (323, "122010200"),
    (377, "202110110"),
    (537, "222110000"),
    (538, "222200000"),
    (539, "1111111110"),
    (817, "1220201100"),
    (956, "2021200200"),
    (1_372, "2222010000"),
    (1_373, "2222100000"),
];

/// Texts of eleven digits: the first and the last by their values, others, and a stem over the last of ten.
const ELEVEN_DIGITS: [&str; 6] = [
    "11111111110",
    "12222100000",
    "20202112000",
    "20220020200",
    "22101021010",
    "22222000000",
];

/// Reads a text into a table with three nodes in use, and asks for the code of its tree.
fn code_of(text: &[u8]) -> Given {
    let mut table = table(6 + 2 * text.len());
    let mut stack = vec![NOISE; 3 * text.len()];
    let read = lazvorn::read(&mut table, 3, &mut stack, text);
    assert_eq!(read.refusal, 0);
    ask(CODE, &table, read.used, read.node)
}

/// Ten digits have a code, and eleven have none.
#[test]
fn codes_of_texts() {
    for (code, text) in TEXTS_OF_CODES {
        assert_eq!(code_of(text.as_bytes()), given(code), "{text}");
    }
    for text in ELEVEN_DIGITS {
        assert_eq!(code_of(text.as_bytes()), NONE, "{text}");
    }
    assert_eq!(code_of(b"212101021010"), NONE);
    assert_eq!(code_of(&[b"20".repeat(4_000), vec![b'0']].concat()), NONE);
}

/// The nodes of `LABELLED` are 0, 10, 2010, 110, 21102010, 202010, 1202010, and the whole of sixteen digits.
#[test]
fn codes_of_nodes() {
    let codes = [0, 1, 6, 2, 172, 28, 49].map(given);
    for length in [16, 17, 18, 131_072] {
        let mut table = vec![NOISE; length];
        table[..16].copy_from_slice(&LABELLED);
        for (node, code) in codes.into_iter().chain([NONE]).enumerate() {
            assert_eq!(ask(CODE, &table, 8, node), code, "{node}");
            // The nodes after it need not be in use.
            assert_eq!(ask(CODE, &table, node + 1, node), code, "{node}");
        }
    }
}

/// 1, 2 and 3 in this order, and the answer's other numbers 0.
#[test]
fn codes_refused() {
    let call = |words: &[u32], length: usize, used, node| {
        let mut table = vec![NOISE; length.max(words.len())];
        table[..words.len()].copy_from_slice(words);
        ask(CODE, &table[..length], used, node)
    };
    let most = usize::MAX;
    let [limits, broken, bad_node] = [LIMITS, BROKEN, NODE].map(none_given);
    assert_eq!(call(&LABELLED, 131_073, 8, 0), limits);
    assert_eq!(call(&LABELLED, 17, 9, 0), limits);
    assert_eq!(call(&LABELLED, 15, 8, 0), limits);
    assert_eq!(call(&LABELLED, 16, most, 0), limits);
    assert_eq!(call(&LABELLED, 16, 1 << 32, 0), limits);
    assert_eq!(call(&[], 0, 1, 0), limits);
    // Node 8 is noise: broken where it is in use, and nothing where it is not.
    assert_eq!(call(&LABELLED, 18, 9, 0), broken);
    assert_eq!(call(&LABELLED, 18, 8, 0), given(0));
    // 1 before 2 and 3, and 2 before 3.
    assert_eq!(call(&LABELLED, 131_073, 9, 9), limits);
    assert_eq!(call(&LABELLED, 19, 10, most), limits);
    assert_eq!(call(&LABELLED, 18, 9, 9), broken);
    assert_eq!(call(&LABELLED, 18, 9, most), broken);
    for node in [8, 9, 1 << 32, most] {
        assert_eq!(call(&LABELLED, 16, 8, node), bad_node, "{node}");
    }
    assert_eq!(call(&LABELLED, 16, 6, 6), bad_node);
    assert_eq!(call(&[], 0, 0, 0), bad_node);
    assert_eq!(call(&[NOISE], 1, 0, 0), bad_node);
    // A node that the tree does not reach: broken, equal to another, and neither.
    for words in [[0, 1], [0, 0], [1, 2], [9, 0], [1, 9]] {
        let with = [&LABELLED[..], &words].concat();
        assert_eq!(call(&with, 18, 9, 0), broken, "{words:?}");
        assert_eq!(call(&with, 18, 8, 0), given(0), "{words:?}");
    }
    assert_eq!(call(&[&LABELLED[..], &[1, 1]].concat(), 18, 9, 8), given(3));
}

/// Each node but the leaf is the fork of the one before it twice, so that node n has 2^(n + 1) - 1 digits. None is
/// given at once, also under stems, so that a count of digits that lost its upper bits is small, and in a table
/// that is full.
#[test]
fn codes_of_trees_that_are_long() {
    let doubled = |nodes: u32| (0..nodes).flat_map(|n| [n, n]).collect::<Vec<u32>>();
    for nodes in [4, 5, 9, 17, 32, 33, 64, 65, 100, 1_000, 65_536 - 11] {
        let mut table = doubled(nodes);
        for code in [(0, 0), (1, 3), (2, 81)] {
            assert_eq!(ask(CODE, &table, nodes as usize, code.0), given(code.1));
        }
        for stems in 0..12 {
            let used = table.len() / 2;
            assert_eq!(ask(CODE, &table, used, used - 1), NONE, "{nodes} {stems}");
            table.extend([used as u32, 0]);
        }
    }
    // Such a tree is the first branch of one, and the second of another.
    let mut table = doubled(80);
    table.extend([1, 80, 80, 1]);
    for node in 3..82 {
        assert_eq!(ask(CODE, &table, 82, node), NONE, "{node}");
    }
}

/// Calls `code_text` with so many out bytes. The safe form must do the same. Gives the answer and the out bytes.
fn code_text_in(code: usize, out: usize) -> (Given, Vec<u8>) {
    let (answer, bytes) = into_out(out, |out_at, answer| unsafe {
        lazvorn_code_text(code, out_at, out, answer)
    });
    let answer = given_of(answer);
    let mut safe = vec![BYTE; out];
    assert_eq!(lazvorn::code_text(code, &mut safe), answer);
    assert_eq!(safe, bytes);
    (answer, bytes)
}

/// The text of a code, with as many out bytes as are enough for any.
fn text_of(code: usize) -> Vec<u8> {
    let (answer, mut bytes) = code_text_in(code, CODE_DIGITS);
    assert_eq!((answer.refusal, answer.found), (0, 1), "{code}");
    assert!(bytes[answer.number..].iter().all(|byte| *byte == BYTE));
    bytes.truncate(answer.number);
    bytes
}

/// As many out bytes as digits are enough, and those past them stay; one fewer is too few, and all stay. There is
/// no most.
#[test]
fn texts_of_codes() {
    for (code, text) in TEXTS_OF_CODES {
        let digits = text.len();
        assert_eq!(text_of(code), text.as_bytes(), "{code}");
        for more in [0, 1, 2, 70_000] {
            let (answer, bytes) = code_text_in(code, digits + more);
            assert_eq!(answer, given(digits), "{code}");
            assert_eq!(bytes[..digits], *text.as_bytes(), "{code}");
            assert!(bytes[digits..].iter().all(|byte| *byte == BYTE), "{code}");
        }
        for out in 0..digits {
            let found = vec![BYTE; out];
            assert_eq!(code_text_in(code, out), (none_given(OUT), found), "{code}");
        }
    }
}

/// A code from 1,374 on has no text, however many out bytes there are, and they stay.
#[test]
fn codes_without_a_text() {
    let near = [CODES, CODES + 1, 58_563, 65_535, usize::MAX - 1, usize::MAX];
    let far = [11, 16, 31, 32, 48, 63].map(|bits| (1_usize << bits) + 14);
    for code in [near, far].concat() {
        for out in [0, 1, 4, 5, 9, 10, 11, 5_000] {
            assert_eq!(code_text_in(code, out), (NONE, vec![BYTE; out]), "{code}");
        }
    }
}

/// All 1,374 texts: how many digits are 0, 1 and 2, the sum of the values, which ascend, and the fingerprint of the
/// texts with a newline between each two. Each text's code is the one that it was written for.
#[test]
fn all_codes() {
    let texts: Vec<Vec<u8>> = (0..CODES).map(text_of).collect();
    let count = |digit| texts.concat().iter().filter(|byte| **byte == digit).count();
    assert_eq!([b'0', b'1', b'2'].map(count), [4_862, 4_476, 3_488]);
    let value = |text: &Vec<u8>| {
        text.iter()
            .fold(0, |n, byte| 3 * n + u32::from(byte - b'0'))
    };
    let values: Vec<u32> = texts.iter().map(value).collect();
    assert!(values.windows(2).all(|pair| pair[0] < pair[1]));
    assert_eq!(values.iter().sum::<u32>(), 42_212_778);
    assert_eq!(fingerprint(&texts.join(&b'\n')), 0x8fa0_d1da_12c0_cc0f);
    for (code, text) in texts.iter().enumerate() {
        assert_eq!(code_of(text), given(code));
    }
}

/// Every call with a table of so many words, on a packet with this rule. Each refusal but that of `unlabel`
/// is `refusal`, where nodes are to be made for the rule, else 0.
fn each_call(words: usize, rule: &[u8], refusal: usize) {
    let packet = [
        &[1, (rule.len() >> 8) as u8, rule.len() as u8],
        rule,
        &[4, 0, 1, b'0'],
    ]
    .concat();
    let (mut stack, mut out) = (vec![NOISE; 65_536], vec![BYTE; 65_535]);
    let mut lent = table(words);
    assert_eq!(
        lazvorn::translate(&mut lent, 3, &mut stack, rule).refusal,
        refusal
    );
    let mut lent = table(words);
    assert_eq!(lazvorn::read(&mut lent, 3, &mut stack, b"200").refusal, 0);
    assert_eq!(lazvorn::write(&lent, 3, &mut stack, 2, &mut out).refusal, 0);
    assert_eq!(lazvorn::apply(&mut lent, 3, &mut stack, 2, 1, 9).refusal, 0);
    assert_eq!(lazvorn::label(&mut lent, 3, 2, 1).refusal, 0);
    assert_eq!(lazvorn::unlabel(&lent, 3, 2).refusal, NOT_LABELLED);
    assert_eq!(lazvorn::same(&lent, 3, 2, 1).refusal, 0);
    assert_eq!(lazvorn::code(&lent, 3, 2), given(6));
    assert_eq!(lazvorn::code_text(CODES - 1, &mut out), given(CODE_DIGITS));
    assert_eq!(lazvorn::window(&[0; 84], 6, 1_439), NONE);
    assert_eq!(lazvorn::next_window(&[0; 84], 6, 1_439), NONE);
    assert_eq!(lazvorn::generate(1, LOAD_DIGITS, &mut out).refusal, 0);
    assert_eq!(
        lazvorn::run(&mut lent, &mut stack, &mut out, &packet).refusal,
        refusal
    );
    assert_eq!(
        lazvorn::stopped(&mut lent, &mut stack, &mut out, &packet).refusal,
        refusal
    );
    assert_eq!(
        lazvorn::label_packet(&mut lent, &mut stack, &mut out, &packet).refusal,
        refusal
    );
}

/// `stopped` with a table of so many words, on a packet with this rule, a leaf and no step. Unless nodes for
/// the rule are lacking it stops while applying: the rule's tree is a spread.
fn a_stop(words: usize, rule: &[u8], refusal: usize) {
    let head = [1, (rule.len() >> 8) as u8, rule.len() as u8];
    let packet = limited(&[&head, rule, &[2, 0, 1, b'0']].concat(), 0);
    let (mut stack, mut out) = (vec![NOISE; 65_536], vec![BYTE; 65_535]);
    let stopped = lazvorn::stopped(&mut table(words), &mut stack, &mut out, &packet);
    let expected = match refusal {
        0 => stop(STEPS, 1, 0, Rule::Spread),
        _ => alone(refusal),
    };
    assert_eq!(stopped, expected);
}

/// The stack that a thread itself needs.
const OWN: usize = 16 << 10;

/// The stack that include/lazvorn.h names for `code_text`.
#[test]
fn code_text_on_a_stack_of_8_kib() {
    let texts = || {
        let mut out = [BYTE; CODE_DIGITS];
        (0..CODES).all(|code| lazvorn::code_text(code, &mut out).found == 1)
    };
    let thread = std::thread::Builder::new().stack_size((8 << 10) + OWN);
    assert!(thread
        .spawn(texts)
        .expect("a thread")
        .join()
        .expect("texts"));
}

/// The stack that include/lazvorn.h names for each length of table.
#[test]
fn calls_on_the_stack_that_the_header_names() {
    // One abstraction over applications that nest to the right, as many as 4,096 bytes have room for.
    let deep = [&[2][..], &[1, 0].repeat(2_047), &[0]].concat();
    for (words, kib) in [
        (128, 12),
        (2_048, 12),
        (2_049, 64),
        (16_384, 64),
        (16_385, 400),
        (131_072, 400),
    ] {
        let deepest = if words < 16_384 { NODES } else { 0 };
        for (more, rule, refusal) in [(0, vec![2, 3, 0], 0), (1 << 20, deep.clone(), deepest)] {
            let calls = move || {
                each_call(words, &rule, refusal);
                a_stop(words, &rule, refusal);
            };
            let thread = std::thread::Builder::new().stack_size((kib << 10) + more + OWN);
            assert!(thread.spawn(calls).expect("a thread").join().is_ok());
        }
    }
}
