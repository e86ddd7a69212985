//! "Each tree once" ([8]): the model against documents 01 and 02, each number worked out from them. The
//! rule 02 01 03 00 03 00 is 212101021010, of five different trees; Read takes its digits last to first,
//! so that its nodes are 0, 10, 21010, 121010 and the whole.

use model::{apply, label, read, run, same, translate, unlabel, write, Memory};

const DOUBLE: &[u8] = &[2, 1, 3, 0, 3, 0];
const DOUBLE_TEXT: &[u8] = b"212101021010";
const DOUBLE_WORDS: [u32; 10] = [0, 0, 1, 0, 2, 2, 3, 0, 4, 3];

/// Memory with these words at the beginning of a table of so many nodes, and noise elsewhere.
fn memory(words: &[u32], nodes: usize, frames: usize) -> Memory {
    let mut table = vec![77; 2 * nodes + 1];
    table[..words.len()].copy_from_slice(words);
    Memory {
        table,
        stack: vec![77; 3 * frames + 2],
        out: vec![77; 40],
    }
}

/// What 7 to 10 leave where the nodes from `used` up to `end` were made.
fn undone(found: &Memory, used: usize, end: usize) -> Memory {
    let mut memory = found.clone();
    memory.table[2 * used..2 * end].fill(0);
    memory.stack.fill(0);
    memory
}

/// What success leaves: the words of the new nodes, and no stack.
fn grown(found: &Memory, used: usize, words: &[u32]) -> Memory {
    let mut memory = found.clone();
    memory.table[2 * used..2 * used + words.len()].copy_from_slice(words);
    memory.stack.fill(0);
    memory
}

/// Makes a call; what it answers, and what it leaves.
fn after<const N: usize>(
    found: &Memory,
    call: impl FnOnce(&mut Memory) -> [usize; N],
) -> ([usize; N], Memory) {
    let mut memory = found.clone();
    (call(&mut memory), memory)
}

fn field(tag: u8, value: &[u8]) -> Vec<u8> {
    [&[tag, 0, value.len() as u8], value].concat()
}

/// The lines that documents 01 and 02 give, in the program's room.
#[test]
fn lines_of_the_papers() {
    let line = |rule: &[u8], arguments: &[&[u8]]| {
        let arguments = arguments.iter().flat_map(|text| field(2, text));
        let packet: Vec<u8> = field(1, rule).into_iter().chain(arguments).collect();
        let mut memory = Memory {
            table: vec![77; 16_384],
            stack: vec![77; 12_288],
            out: vec![77; 16_384],
        };
        let [refusal, _, used, steps, digits, ..] = run(&mut memory, &packet);
        let text = String::from_utf8_lossy(&memory.out[..digits]).into_owned();
        format!("{refusal} {steps} {used} {text}")
    };
    assert_eq!(line(DOUBLE, &[b"0"]), "0 10 6 10");
    assert_eq!(line(&[2, 3, 0], &[b"0"]), "0 4 4 0");
    assert_eq!(line(&[2, 0], &[b"10"]), "0 1 3 0");
    assert_eq!(line(&[2, 2, 3, 1], &[b"0", b"10"]), "0 11 8 0");
    assert_eq!(line(&[2, 3, 0], &[]), "0 0 3 21010");
    // λx. x x on itself makes KN and ΔN for N itself in the first round, and nothing after it.
    assert_eq!(line(DOUBLE, &[DOUBLE_TEXT]), "7 0 0 ");
}

/// 9 comes before a node is made, 8 while they are made, and only where one is wanted that is not there.
#[test]
fn read_at_its_borders() {
    let reads = |found: &Memory, used, text: &[u8]| after(found, |m| read(m, used, text));
    // Three trees are pending at most: 21010, 10 and 0.
    let room = memory(&[], 5, 3);
    let made = grown(&room, 0, &DOUBLE_WORDS);
    assert_eq!(reads(&room, 0, DOUBLE_TEXT), ([0, 4, 5, 0, 0], made));
    for (nodes, frames, number, end) in [(4, 3, 8, 4), (0, 3, 8, 0), (4, 2, 9, 0), (5, 2, 9, 0)] {
        let found = memory(&[], nodes, frames);
        let (answer, left) = reads(&found, 0, DOUBLE_TEXT);
        assert_eq!(answer, [number, 0, 0, 0, 0]);
        assert_eq!(left, undone(&found, 0, end));
    }
    // In a full table what is there is found, also as a branch, and a new tree has no place.
    let full = memory(&DOUBLE_WORDS, 5, 3);
    for (text, node) in [("0", 0), ("10", 1), ("21010", 2), ("121010", 3)] {
        let (answer, left) = reads(&full, 5, text.as_bytes());
        assert_eq!((answer, left), ([0, node, 5, 0, 0], grown(&full, 5, &[])));
    }
    let (answer, left) = reads(&full, 5, b"200");
    assert_eq!((answer, left), ([8, 0, 5, 0, 0], undone(&full, 5, 5)));
    // The text 20200 wants 200 and itself: with one free node the first is made, and cleared.
    let one_free = memory(&DOUBLE_WORDS, 6, 3);
    let (answer, left) = reads(&one_free, 5, b"20200");
    assert_eq!((answer, left), ([8, 0, 5, 0, 0], undone(&one_free, 5, 6)));
}

/// A word past the used nodes is no node, whatever it is.
#[test]
fn free_words_are_not_searched() {
    let found = memory(&[0, 0, 1, 0, 1, 1], 4, 3);
    let (answer, left) = after(&found, |m| read(m, 1, b"200"));
    assert_eq!(answer, [0, 1, 2, 0, 0]);
    assert_eq!(left, grown(&found, 1, &[1, 1]));
    let (answer, _) = after(&memory(&[0, 0, 1], 1, 3), |m| read(m, 1, b"10"));
    assert_eq!(answer, [8, 0, 1, 0, 0]);
}

/// "Translate's frames go by the tree's size unshared": twelve nodes want 24 frames, though five are made.
#[test]
fn translate_at_its_borders() {
    for (nodes, frames, answer, end) in [
        (5, 24, [0, 4, 5, 0, 0], 5),
        (4, 24, [8, 0, 0, 0, 0], 0),
        (5, 23, [9, 0, 0, 0, 0], 0),
        (4, 23, [9, 0, 0, 0, 0], 0),
        (5, 10, [9, 0, 0, 0, 0], 0),
    ] {
        let found = memory(&[], nodes, frames);
        let (got, left) = after(&found, |m| translate(m, 0, DOUBLE));
        let cleared = if answer[0] == 8 { nodes } else { 0 };
        let wanted = match end {
            0 => undone(&found, 0, cleared),
            _ => grown(&found, 0, &DOUBLE_WORDS),
        };
        assert_eq!((got, left), (answer, wanted));
    }
    // λx. Δ is 200: of its two trees the leaf is there.
    let found = memory(&DOUBLE_WORDS, 6, 6);
    let (answer, left) = after(&found, |m| translate(m, 5, &[2, 0]));
    assert_eq!(answer, [0, 5, 6, 0, 0]);
    assert_eq!(left, grown(&found, 5, &[1, 1]));
    let full = memory(&DOUBLE_WORDS, 5, 24);
    let (answer, _) = after(&full, |m| translate(m, 5, DOUBLE));
    assert_eq!(answer, [0, 4, 5, 0, 0]);
    let (answer, _) = after(&full, |m| translate(m, 5, &[2, 0]));
    assert_eq!(answer, [8, 0, 5, 0, 0]);
}

/// Document 01's starred rows, worked out afresh: 10 steps, 1 new node, 2 frames. The uses are spread,
/// spread, stem (200 is new), leaf (10 is there), drop; spread, stem, leaf, drop; leaf.
#[test]
fn apply_at_its_borders() {
    let applied = |nodes, frames, limit| {
        let found = memory(&DOUBLE_WORDS, nodes, frames);
        let (answer, left) = after(&found, |m| apply(m, 5, 4, 0, limit));
        (answer, left, found)
    };
    let (answer, left, found) = applied(6, 2, 10);
    assert_eq!(answer, [0, 1, 6, 10, 0, 3, 2, 2, 3, 0]);
    assert_eq!(left, grown(&found, 5, &[1, 1]));
    for (nodes, frames, limit, number, end) in [
        (6, 2, 9, 7, 6),
        (5, 2, 10, 8, 5),
        (6, 1, 10, 9, 5),
        // The third use is the first that wants a node.
        (5, 2, 2, 7, 5),
        (5, 2, 3, 8, 5),
        (5, 0, 0, 7, 5),
        (5, 0, 3, 9, 5),
    ] {
        let (answer, left, found) = applied(nodes, frames, limit);
        assert_eq!(answer, [number, 0, 5, 0, 0, 0, 0, 0, 0, 0]);
        assert_eq!(left, undone(&found, 5, end));
    }
    // With 200 there no node is wanted that is not.
    let words = [&DOUBLE_WORDS[..], &[1, 1]].concat();
    let full = memory(&words, 6, 2);
    let (answer, left) = after(&full, |m| apply(m, 6, 4, 0, 10));
    assert_eq!(answer, [0, 1, 6, 10, 0, 3, 2, 2, 3, 0]);
    assert_eq!(left, grown(&full, 6, &[]));
}

/// The eight nodes in their order, of which those that are there are taken.
#[test]
fn label_at_its_borders() {
    let labels = |words: &[u32], used, nodes, [rule, tree]: [usize; 2]| {
        let found = memory(words, nodes, 0);
        let (answer, left) = after(&found, |m| label(m, used, rule, tree));
        (answer, left.table, found.table)
    };
    // Of the leaf with the leaf: K, KK, then Δf is K; its fork with KK; KΔ; its stem; the whole.
    let made = [0, 0, 1, 0, 1, 2, 2, 3, 1, 1, 5, 0, 6, 4];
    let (answer, left, _) = labels(&[0, 0], 1, 7, [0, 0]);
    assert_eq!(answer, [0, 6, 7, 0, 0]);
    assert_eq!(left[..14], made);
    for nodes in 1..7 {
        let (answer, left, mut found) = labels(&[0, 0], 1, nodes, [0, 0]);
        found[2..2 * nodes].fill(0);
        assert_eq!((answer, left), ([8, 0, 1, 0, 0], found));
    }
    // A second time all eight are there.
    let (answer, left, found) = labels(&made, 7, 7, [0, 0]);
    assert_eq!((answer, left), ([0, 6, 7, 0, 0], found));
}

/// "Refusal 2 now also covers two equal used nodes", wherever they are, and only used ones.
#[test]
fn equal_used_nodes() {
    let all = |words: &[u32], used, number| {
        let found = memory(words, 8, 6);
        let one = |(answer, left): (usize, Memory)| {
            assert_eq!(answer, number, "{words:?}");
            assert!(number == 0 || left == found);
        };
        let call = |f: &dyn Fn(&mut Memory) -> usize| {
            let mut memory = found.clone();
            one((f(&mut memory), memory));
        };
        call(&|m| read(m, used, b"0")[0]);
        call(&|m| write(m, used, 0)[0]);
        call(&|m| translate(m, used, &[2, 0])[0]);
        call(&|m| apply(m, used, 0, 0, 9)[0]);
        call(&|m| same(&m.table, used, 0, 0)[0]);
    };
    all(&[0, 0, 1, 0, 1, 1], 3, 0);
    all(&[0, 0, 0, 0], 2, 2);
    all(&[0, 0, 0, 0], 1, 0);
    all(&[0, 0, 1, 0, 1, 1, 1, 0], 4, 2);
    all(&[0, 0, 1, 0, 1, 1, 1, 1], 4, 2);
    all(&[0, 0, 1, 0, 1, 1, 0, 0], 4, 2);
    all(&[0, 0, 1, 0, 1, 1, 0, 0], 3, 0);
    // The same words the other way round, and one equal word, are other nodes.
    all(&[0, 0, 1, 0, 1, 2, 2, 1, 2, 0], 5, 0);
    let found = memory(&[0, 0, 1, 0, 1, 0], 20, 0);
    assert_eq!(label(&mut found.clone(), 3, 0, 0), [2, 0, 3, 0, 0]);
    assert_eq!(unlabel(&found.table, 3, 0), [2, 0, 3, 0, 0, 0]);
}

/// 1, 2, 3, then whether the trees are equal, which is whether the numbers are.
#[test]
fn same_trees() {
    for a in 0..5 {
        for b in 0..5 {
            let equal = usize::from(a == b);
            assert_eq!(same(&DOUBLE_WORDS, 5, a, b), [0, equal], "{a} {b}");
        }
    }
    assert_eq!(same(&DOUBLE_WORDS, 6, 0, 0), [1, 0]);
    assert_eq!(same(&[0; 131_073], 1, 0, 0), [1, 0]);
    assert_eq!(same(&[0; 131_072], 1, 0, 0), [0, 1]);
    assert_eq!(same(&[0, 1], 1, 5, 5), [2, 0]);
    assert_eq!(same(&[0, 0, 0, 0], 2, 0, 1), [2, 0]);
    assert_eq!(same(&DOUBLE_WORDS, 5, 5, 0), [3, 0]);
    assert_eq!(same(&DOUBLE_WORDS, 5, 0, 5), [3, 0]);
    assert_eq!(same(&DOUBLE_WORDS, 4, 4, 4), [3, 0]);
    assert_eq!(same(&[], 0, 0, 0), [3, 0]);
}
