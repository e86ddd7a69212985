//! "Weights as trees" ([9]): the model against document 02, sentence by sentence, each number worked out from it.

use model::weight::{add_weights, compare_weights, grams, grams_of, text, weight, DIGITS, MOST};
use model::{apply, missing, read, write, Memory};

/// Fills words that are not in use.
const NOISE: u32 = 77;

/// The digits of document 02, from 0 to 9: the leaf, and K on the one before.
const ITEMS: [&str; 10] = [
    "0",
    "200",
    "20200",
    "2020200",
    "202020200",
    "20202020200",
    "2020202020200",
    "202020202020200",
    "20202020202020200",
    "2020202020202020200",
];

/// The text of a list of these items.
fn list(items: &[&str]) -> Vec<u8> {
    let forks = items.iter().map(|item| format!("2{item}"));
    (forks.collect::<String>() + "0").into_bytes()
}

/// The text of a list of these digits, lowest first.
fn digits(digits: [usize; 9]) -> Vec<u8> {
    list(&digits.map(|digit| ITEMS[digit]))
}

/// Grams and their digits, lowest first.
const WEIGHTS: [(usize, [usize; 9]); 12] = [
    (0, [0, 0, 0, 0, 0, 0, 0, 0, 0]),
    (1, [1, 0, 0, 0, 0, 0, 0, 0, 0]),
    (9, [9, 0, 0, 0, 0, 0, 0, 0, 0]),
    (10, [0, 1, 0, 0, 0, 0, 0, 0, 0]),
    (999, [9, 9, 9, 0, 0, 0, 0, 0, 0]),
    (1_250, [0, 5, 2, 1, 0, 0, 0, 0, 0]),
    (100_000_000, [0, 0, 0, 0, 0, 0, 0, 0, 1]),
    (123_456_789, [9, 8, 7, 6, 5, 4, 3, 2, 1]),
    (987_654_321, [1, 2, 3, 4, 5, 6, 7, 8, 9]),
    (909_090_909, [9, 0, 9, 0, 9, 0, 9, 0, 9]),
    (999_999_998, [8, 9, 9, 9, 9, 9, 9, 9, 9]),
    (999_999_999, [9, 9, 9, 9, 9, 9, 9, 9, 9]),
];

/// A table with the trees of these texts, the nodes in use and the trees' nodes.
fn read_texts(texts: &[Vec<u8>]) -> (Vec<u32>, usize, Vec<usize>) {
    let digits: usize = texts.iter().map(Vec::len).sum();
    let mut memory = Memory {
        table: vec![NOISE; 2 * digits],
        stack: vec![NOISE; 3 * digits],
        out: Vec::new(),
    };
    let mut used = 0;
    let nodes = texts.iter().map(|text| {
        let [refusal, node, after, ..] = read(&mut memory, used, text);
        assert_eq!(refusal, 0);
        used = after;
        node
    });
    let nodes = nodes.collect();
    (memory.table, used, nodes)
}

/// A table with the weights of these grams, the nodes in use and the weights' nodes.
fn read_weights(all: &[usize]) -> (Vec<u32>, usize, Vec<usize>) {
    let texts: Vec<Vec<u8>> = all.iter().map(|grams| text(*grams)).collect();
    read_texts(&texts)
}

/// "a tree list of exactly nine decimal digits, lowest first. The empty list is Δ, an item before a list is their
/// fork"
#[test]
fn texts_of_weights() {
    for (number, items) in WEIGHTS {
        assert_eq!(text(number), digits(items), "{number}");
        assert_eq!(grams_of(&digits(items)), Some(number), "{number}");
        let sum: usize = items.iter().sum();
        assert_eq!(text(number).len(), 19 + 2 * sum, "{number}");
    }
    assert_eq!(text(0), b"2020202020202020200");
    assert_eq!(text(1), b"220020202020202020200");
    assert_eq!(text(1_250), b"20220202020200220200220020202020200");
    assert_eq!(text(MOST).len(), DIGITS);
}

/// "digit d is K applied d times starting at Δ": Apply makes each of the one before it.
#[test]
fn digits_by_applying_k() {
    let mut memory = Memory {
        table: vec![NOISE; 60],
        stack: vec![NOISE; 9],
        out: vec![0; 30],
    };
    let [_, k, mut used, ..] = read(&mut memory, 0, b"10");
    let mut node = 0;
    for item in ITEMS {
        let [refusal, .., written] = write(&mut memory, used, node);
        assert_eq!(refusal, 0);
        assert_eq!(memory.out[..written], *item.as_bytes());
        let applied = apply(&mut memory, used, k, node, 1);
        assert_eq!(applied[0], 0);
        [node, used] = [applied[1], applied[2]];
    }
}

/// "0 to 999,999.999 kilograms in whole grams": every number that a computer has is turned to a tree and back, or is
/// above the top.
#[test]
fn grams_to_trees_and_back() {
    let near = (0..9).flat_map(|place| {
        let power = 10_usize.pow(place);
        [power - 1, power, power + 1, 9 * power, 5 * power + 3]
    });
    let many = (0..500).map(|i| i * 1_999_999 % (MOST + 1));
    for number in near.chain(many).chain([MOST - 1, MOST]) {
        let mut table = [NOISE; 39];
        let [refusal, node, used, steps, written] = weight(&mut table, 0, number);
        assert_eq!([refusal, steps, written], [0; 3], "{number}");
        assert!((10..=19).contains(&used), "{number}");
        assert_eq!(grams(&table, used, node), [0, number]);
        assert!(table[2 * used..].iter().all(|word| *word == NOISE));
    }
    for above in [MOST + 1, MOST + 2, 1 << 32, (1 << 32) + 1, usize::MAX] {
        let mut table = [NOISE; 39];
        assert_eq!(weight(&mut table, 0, above), [14, 0, 0, 0, 0], "{above}");
        assert_eq!(table, [NOISE; 39]);
    }
}

/// Grams and the words that their weight has in an empty table: the digits of the text last to first, each tree once.
/// Lists of zeros are digits too, so that the nine zeros of 0 are the digit 9.
const LAID: [(usize, &[u32]); 4] = [
    (
        0,
        &[0, 0, 1, 1, 1, 2, 1, 3, 1, 4, 1, 5, 1, 6, 1, 7, 1, 8, 1, 9],
    ),
    // Six zeros, then 1, 0 and 2, whose items are there.
    (
        102,
        &[0, 0, 1, 1, 1, 2, 1, 3, 1, 4, 1, 5, 1, 6, 2, 7, 1, 8, 3, 9],
    ),
    // The digit 1 and its list; 2 and its list; six zeros; 3 and its list.
    (
        120_000_003,
        &[
            0, 0, 1, 1, 2, 1, 1, 2, 4, 3, 1, 5, 1, 6, 1, 7, 1, 8, 1, 9, 1, 10, 1, 4, 12, 11,
        ],
    ),
    // The digits up to 9, and nine lists.
    (
        999_999_999,
        &[
            0, 0, 1, 1, 1, 2, 1, 3, 1, 4, 1, 5, 1, 6, 1, 7, 1, 8, 1, 9, 10, 1, 10, 11, 10, 12, 10,
            13, 10, 14, 10, 15, 10, 16, 10, 17, 10, 18,
        ],
    ),
];

#[test]
fn words_of_weights() {
    for (number, words) in LAID {
        let used = words.len() / 2;
        let mut table = vec![NOISE; words.len() + 1];
        let answer = weight(&mut table, 0, number);
        assert_eq!(answer, [0, used - 1, used, 0, 0], "{number}");
        assert_eq!(table, [words, &[NOISE]].concat(), "{number}");
        // All of it is found again, also in a full table.
        let answer = weight(&mut table, used, number);
        assert_eq!(answer, [0, used - 1, used, 0, 0], "{number}");
        // With fewer nodes what was made is cleared, and a word that is no node's stays.
        for nodes in 0..used {
            let mut table = vec![NOISE; 2 * nodes + 1];
            assert_eq!(weight(&mut table, 0, number), [8, 0, 0, 0, 0]);
            assert_eq!(table, [&vec![0; 2 * nodes][..], &[NOISE]].concat());
        }
    }
}

/// "New nodes are wanted in the order in which Read would take them from the list's text."
#[test]
fn weights_as_read_lays_them() {
    let starts = [
        read_texts(&[]),
        read_texts(&[b"2010".to_vec()]),
        read_weights(&[1]),
        read_weights(&[999_999_999, 120_000_003]),
    ];
    for (start, used, _) in &starts {
        for (number, _) in WEIGHTS {
            for nodes in 0..20 {
                let mut table = start[..2 * used].to_vec();
                table.resize(2 * (used + nodes) + 1, NOISE);
                let mut memory = Memory {
                    table: table.clone(),
                    stack: vec![0; 9],
                    out: Vec::new(),
                };
                let answer = weight(&mut table, *used, number);
                assert_eq!(answer, read(&mut memory, *used, &text(number)));
                assert_eq!(table, memory.table);
            }
        }
    }
}

/// "adds two weights": grams whose sum is within the top, with no carry, some, and one through all places.
const SUMS: [[usize; 3]; 14] = [
    [0, 0, 0],
    [0, 1, 1],
    [1, 1, 2],
    [1, 9, 10],
    [5, 5, 10],
    [1_250, 999, 2_249],
    [123_456_789, 876_543_210, 999_999_999],
    [123_456_789, 111_111_111, 234_567_900],
    [499_999_999, 499_999_999, 999_999_998],
    [499_999_999, 500_000_000, 999_999_999],
    [99_999_999, 1, 100_000_000],
    [199_999_999, 800_000_000, 999_999_999],
    [999_999_998, 1, 999_999_999],
    [999_999_999, 0, 999_999_999],
];

#[test]
fn sums() {
    for [a, b, sum] in SUMS {
        for [a, b] in [[a, b], [b, a]] {
            let (found, used, nodes) = read_weights(&[a, b]);
            let mut table = found[..2 * used].to_vec();
            table.resize(2 * used + 39, NOISE);
            let mut other = table.clone();
            let answer = add_weights(&mut table, used, nodes[0], nodes[1]);
            assert_eq!(answer, weight(&mut other, used, sum), "{a} + {b}");
            assert_eq!(table, other, "{a} + {b}");
            assert_eq!(answer[0], 0, "{a} + {b}");
            assert_eq!(grams(&table, answer[2], answer[1]), [0, sum]);
            // "then 8": one node fewer than it makes.
            if answer[2] > used {
                table.truncate(2 * answer[2] - 1);
                let refused = add_weights(&mut table, used, nodes[0], nodes[1]);
                assert_eq!(refused, [8, 0, used, 0, 0], "{a} + {b}");
            }
        }
    }
}

/// "a sum above the top", "14 [..]; then 8": in a full table it is 14 too.
#[test]
fn sums_above_the_top() {
    let above = [
        [999_999_999, 1],
        [999_999_999, 999_999_999],
        [500_000_000, 500_000_000],
        [123_456_789, 876_543_211],
        [1, 999_999_999],
    ];
    for [a, b] in above {
        let (found, used, nodes) = read_weights(&[a, b]);
        for words in [2 * used, 2 * used + 1, 2 * used + 38] {
            let mut table = found[..2 * used].to_vec();
            table.resize(words, NOISE);
            let before = table.clone();
            let answer = add_weights(&mut table, used, nodes[0], nodes[1]);
            assert_eq!(answer, [14, 0, used, 0, 0], "{a} + {b}");
            assert_eq!(table, before);
        }
    }
}

/// "and compares them": each of these, which ascend, with each.
#[test]
fn comparisons() {
    let ascending = [
        0,
        1,
        2,
        9,
        10,
        11,
        19,
        90,
        91,
        199,
        200,
        99_999_999,
        100_000_000,
        100_000_001,
        123_456_789,
        199_999_999,
        200_000_000,
        987_654_321,
        999_999_998,
        999_999_999,
    ];
    let (table, used, nodes) = read_weights(&ascending);
    for (i, a) in nodes.iter().enumerate() {
        for (j, b) in nodes.iter().enumerate() {
            let order = 1 + usize::from(i > j) - usize::from(i < j);
            assert_eq!(compare_weights(&table, used, *a, *b), [0, order]);
        }
    }
}

/// "14, not a weight": texts of trees that are near one.
fn near_weights() -> Vec<Vec<u8>> {
    let others = [
        "10",
        "2010",
        "2100",
        "2200200",
        "20202020202020202010",
        "202020202020202020200",
        "22000",
    ];
    let mut near: Vec<Vec<u8>> = [0, 1, 8, 10, 11, 20]
        .iter()
        .map(|items| list(&vec!["0"; *items]))
        .collect();
    near.push(list(&["200"; 8]));
    near.push(list(&["200"; 10]));
    for place in 0..9 {
        for other in others {
            let mut items = ["200"; 9];
            items[place] = other;
            near.push(list(&items));
        }
        // A stem over the list from this place on.
        let (before, after) = (list(&vec!["200"; place]), list(&vec!["200"; 9 - place]));
        let before = &before[..before.len() - 1];
        near.push([before, b"1", &after].concat());
    }
    // The end is a stem; each list stands before its item; a leaf and a stem.
    let all = list(&["200"; 9]);
    near.push([&all[..all.len() - 1], b"10"].concat());
    near.push([b"2".repeat(9), b"0".to_vec(), b"200".repeat(9)].concat());
    near.extend([b"0".to_vec(), b"10".to_vec()]);
    near
}

#[test]
fn trees_that_are_not_weights() {
    for near in near_weights() {
        assert_eq!(missing(&near), Some(0));
        let shown = String::from_utf8_lossy(&near).into_owned();
        assert_eq!(grams_of(&near), None, "{shown}");
        let (table, used, nodes) = read_texts(&[text(5), near]);
        let [five, node] = [nodes[0], nodes[1]];
        assert_eq!(grams(&table, used, node), [14, 0], "{shown}");
        assert_eq!(grams(&table, used, five), [0, 5], "{shown}");
        for [a, b] in [[five, node], [node, five], [node, node]] {
            assert_eq!(compare_weights(&table, used, a, b), [14, 0], "{shown}");
            for words in [2 * used, table.len()] {
                let mut lent = table[..words].to_vec();
                let answer = add_weights(&mut lent, used, a, b);
                assert_eq!(answer, [14, 0, used, 0, 0], "{shown}");
                assert_eq!(lent, table[..words]);
            }
        }
    }
}

/// "14 [..] after 3; then 8", and 1 and 2 first: what the four answer in one place.
fn refusals(table: &[u32], used: usize, number: usize, [a, b]: [usize; 2]) -> [usize; 4] {
    let (mut one, mut other) = (table.to_vec(), table.to_vec());
    let laid = weight(&mut one, used, number);
    let added = add_weights(&mut other, used, a, b);
    for (answer, after) in [(laid, one), (added, other)] {
        if ![0, 8].contains(&answer[0]) {
            assert_eq!(after, table);
        }
        if answer[0] != 0 {
            assert_eq!(answer, [answer[0], 0, used, 0, 0]);
        }
    }
    let [back, compared] = [grams(table, used, a), compare_weights(table, used, a, b)];
    for answer in [back, compared] {
        assert!(answer[0] == 0 || answer[1] == 0);
    }
    [laid[0], back[0], added[0], compared[0]]
}

#[test]
fn refusals_in_order() {
    // Node 0 is the leaf, no weight, and the last is the weight of 0.
    let zero = LAID[0].1;
    let above = MOST + 1;
    let most = usize::MAX;
    assert_eq!(refusals(zero, 10, 0, [9, 9]), [0, 0, 0, 0]);
    assert_eq!(refusals(zero, 10, 1, [9, 9]), [8, 0, 0, 0]);
    assert_eq!(refusals(zero, 10, above, [9, 0]), [14, 0, 14, 14]);
    assert_eq!(refusals(zero, 10, 1, [0, 9]), [8, 14, 14, 14]);
    assert_eq!(refusals(zero, 10, 1, [0, 10]), [8, 14, 3, 3]);
    assert_eq!(refusals(zero, 10, above, [10, 0]), [14, 3, 3, 3]);
    assert_eq!(refusals(zero, 10, above, [most, most]), [14, 3, 3, 3]);
    assert_eq!(refusals(zero, 9, 0, [9, 9]), [0, 3, 3, 3]);
    assert_eq!(refusals(zero, 11, above, [most, 0]), [1; 4]);
    assert_eq!(refusals(zero, most, above, [most, 0]), [1; 4]);
    let broken = [&zero[..18], &[0, 1]].concat();
    assert_eq!(refusals(&broken, 10, above, [10, 0]), [2; 4]);
    assert_eq!(refusals(&broken, 10, 1, [9, 9]), [2; 4]);
    assert_eq!(refusals(&broken, 11, 1, [9, 9]), [1; 4]);
    let equal = [&zero[..18], &[1, 1]].concat();
    assert_eq!(refusals(&equal, 10, above, [10, 0]), [2; 4]);
    assert_eq!(refusals(&equal, 9, 0, [8, 8]), [0, 14, 14, 14]);
    let mut long = vec![0; 131_073];
    long[..20].copy_from_slice(zero);
    assert_eq!(refusals(&long, 10, 1, [9, 9]), [1; 4]);
    assert_eq!(refusals(&long[..131_072], 10, 1, [9, 9]), [0; 4]);
    assert_eq!(refusals(&[], 0, 0, [0, 0]), [8, 3, 3, 3]);
    assert_eq!(refusals(&[NOISE], 0, above, [0, 0]), [14, 3, 3, 3]);
    assert_eq!(refusals(&[], 1, above, [0, 0]), [1; 4]);
}
