//! "Short codes" ([12]): the model against document 02, sentence by sentence, each number worked out from it, and
//! against every number of at most eleven digits in base 3.

use model::code::{code, code_text, lengths, texts, value};
use model::{missing, read, Memory};

/// The digits of a number in base 3, without a 0 before them but for 0 itself.
fn in_base_3(number: usize) -> Vec<u8> {
    let digits = std::iter::successors(Some(number), |n| Some(n / 3).filter(|n| *n > 0));
    let mut text: Vec<u8> = digits.map(|n| b"012"[n % 3]).collect();
    text.reverse();
    text
}

/// Whether these are the digits of a whole tree.
fn whole(text: &[u8]) -> bool {
    missing(text) == Some(0)
}

/// A table with a text's tree, the nodes in use and the tree's node.
fn read_text(text: &[u8]) -> (Vec<u32>, usize, usize) {
    let mut memory = Memory {
        table: vec![77; 2 * text.len()],
        stack: vec![77; 3 * text.len()],
        out: Vec::new(),
    };
    let [refusal, node, used, ..] = read(&mut memory, 0, text);
    assert_eq!(refusal, 0);
    (memory.table, used, node)
}

/// What the code of a text's tree is.
fn code_of(text: &[u8]) -> [usize; 3] {
    let (table, used, node) = read_text(text);
    code(&table, used, node)
}

/// The first values and their texts: the leaf; its stem; two trees of three nodes, four of four and nine of five.
const FIRST: [(usize, &str); 17] = [
    (0, "0"),
    (3, "10"),
    (12, "110"),
    (18, "200"),
    (39, "1110"),
    (45, "1200"),
    (57, "2010"),
    (63, "2100"),
    (120, "11110"),
    (126, "11200"),
    (138, "12010"),
    (144, "12100"),
    (174, "20110"),
    (180, "20200"),
    (192, "21010"),
    (198, "21100"),
    (216, "22000"),
];

/// Others, with their codes: ΔI and KI; the first and the last of nine nodes; the first two and the last two of ten.
const OTHERS: [(usize, usize, &str); 8] = [
    (23, 435, "121010"),
    (65, 1_650, "2021010"),
    (216, 9_840, "111111110"),
    (538, 19_440, "222200000"),
    (539, 29_523, "1111111110"),
    (540, 29_529, "1111111200"),
    (1_372, 58_401, "2222010000"),
    (1_373, 58_563, "2222100000"),
];

/// "A text read as a base-3 number is its value".
#[test]
fn values_of_the_first_and_of_others() {
    let first = FIRST.into_iter().enumerate();
    let first = first.map(|(code, (value, text))| (code, value, text));
    for (place, number, text) in first.chain(OTHERS) {
        assert_eq!(texts()[place], text.as_bytes());
        assert_eq!(value(text.as_bytes()), number);
        assert_eq!(code_of(text.as_bytes()), [0, 1, place]);
    }
}

/// "A table holds the values of all trees of at most ten nodes, ascending, 1,374 of them".
#[test]
fn the_table_as_a_whole() {
    assert_eq!(texts().len(), 1_374);
    let of_length = |digits| texts().iter().filter(|text| text.len() == digits).count();
    let counts: Vec<usize> = (1..=10).map(of_length).collect();
    assert_eq!(counts, [1, 1, 2, 4, 9, 21, 51, 127, 323, 835]);
    let values: Vec<usize> = texts().iter().map(|text| value(text)).collect();
    assert!(values.windows(2).all(|pair| pair[0] < pair[1]));
    assert_eq!((values[0], values[1_373]), (0, 58_563));
    // The numbers of at most ten digits that are whole texts are these and no others.
    let numbers = (0..3_usize.pow(10)).filter(|number| whole(&in_base_3(*number)));
    assert_eq!(numbers.collect::<Vec<usize>>(), values);
}

/// "only the leaf begins with 0"
#[test]
fn texts_and_values() {
    for (place, text) in texts().iter().enumerate() {
        assert_eq!(text[0] == b'0', place == 0);
        assert_eq!(in_base_3(value(text)), *text);
    }
}

/// "none exactly when its text has more than ten digits": each tree of at most ten nodes has its place, and none of
/// the 2,188 of eleven nodes has one.
#[test]
fn codes_of_all_trees() {
    for (place, text) in texts().iter().enumerate() {
        assert_eq!(code_of(text), [0, 1, place]);
    }
    let eleven = (3_usize.pow(10)..3_usize.pow(11)).map(in_base_3);
    let eleven: Vec<Vec<u8>> = eleven.filter(|text| whole(text)).collect();
    assert_eq!(eleven.len(), 2_188);
    for text in eleven {
        assert_eq!(code_of(&text), [0, 0, 0]);
    }
}

/// A fork of the node before it twice, so many times, over the leaf: node n has 2^(n + 1) - 1 digits.
fn doubled(times: usize) -> Vec<u32> {
    (0..=times as u32).flat_map(|n| [n, n]).collect()
}

/// The texts of nodes 0 to 2 have 1, 3 and 7 digits, that of node 3 has 15; the last have more digits than a number
/// can be.
#[test]
fn texts_that_are_long() {
    let table = doubled(200);
    let short = [[0, 1, 0], [0, 1, 3], [0, 1, 81]];
    for (node, answer) in short.into_iter().enumerate() {
        assert_eq!(code(&table, 201, node), answer, "{node}");
    }
    for node in 3..201 {
        assert_eq!(code(&table, 201, node), [0, 0, 0], "{node}");
    }
    let lengths = lengths(&table, 201);
    assert_eq!(lengths[..4], [1, 3, 7, 15]);
    assert_eq!(lengths[19], (1 << 20) - 1);
    assert_eq!(lengths[62], usize::MAX / 2);
    assert!(lengths[63..].iter().all(|digits| *digits == usize::MAX));
}

/// "after 1, 2 and 3", in this order.
#[test]
fn refusals_of_code() {
    let table = doubled(2);
    assert_eq!(code(&table, 3, 2), [0, 1, 81]);
    assert_eq!(code(&table, 4, 2), [1, 0, 0]);
    assert_eq!(code(&table, usize::MAX, usize::MAX), [1, 0, 0]);
    assert_eq!(code(&[0; 131_072], 1, 0), [0, 1, 0]);
    assert_eq!(code(&[0; 131_073], 1, 0), [1, 0, 0]);
    assert_eq!(code(&[0; 131_073], 2, 5), [1, 0, 0]);
    assert_eq!(code(&[0, 1], 1, 0), [2, 0, 0]);
    assert_eq!(code(&[0, 1], 1, 1), [2, 0, 0]);
    assert_eq!(code(&[0, 0, 0, 0], 2, 0), [2, 0, 0]);
    assert_eq!(code(&[0, 0, 0, 0], 1, 0), [0, 1, 0]);
    assert_eq!(code(&table, 3, 3), [3, 0, 0]);
    assert_eq!(code(&table, 2, 2), [3, 0, 0]);
    assert_eq!(code(&[], 0, 0), [3, 0, 0]);
}

/// "a code's text, or none from 1,374 on, then 10 if out is shorter"
#[test]
fn texts_of_codes() {
    for (place, text) in texts().iter().enumerate() {
        for length in 0..=12 {
            let mut out = vec![b'-'; length];
            let answer = code_text(place, &mut out);
            if length < text.len() {
                assert_eq!(answer, [10, 0, 0]);
                assert!(out.iter().all(|byte| *byte == b'-'));
                continue;
            }
            assert_eq!(answer, [0, 1, text.len()]);
            assert!(out.starts_with(text));
            assert!(out[text.len()..].iter().all(|byte| *byte == b'-'));
        }
    }
    for outside in [1_374, 1_375, 65_535, 65_536, 1 << 32, usize::MAX] {
        for length in 0..=12 {
            let mut out = vec![b'-'; length];
            assert_eq!(code_text(outside, &mut out), [0, 0, 0]);
            assert!(out.iter().all(|byte| *byte == b'-'));
        }
    }
}
