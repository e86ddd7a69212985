//! "A load that can be made twice" ([10]): the model against document 02, sentence by sentence, each number
//! worked out from it, and against every text of a few digits.

use model::load::{allowed, generate};
use model::missing;
use std::collections::{BTreeMap, BTreeSet};

/// A load of so many digits, with an output that is as long.
fn load(seed: u32, digits: usize) -> String {
    let mut out = vec![b'-'; digits];
    assert_eq!(generate(seed, digits, &mut out), [0, digits]);
    String::from_utf8(out).expect("digits")
}

/// The states and draws of the seed 12, and the digits allowed and taken in a load of nine: "the next state is
/// state times 1,664,525 plus 1,013,904,223, kept to 32 bits", "divided by 65,536, rounded down".
const TWELVE: [(u64, usize, &str, char); 9] = [
    (1_033_878_523, 15_775, "12", '2'),
    (1_576_304_926, 24_052, "012", '1'),
    (154_760_677, 2_361, "012", '0'),
    (481_308_160, 7_344, "12", '1'),
    (1_639_270_751, 25_013, "12", '2'),
    (2_552_661_810, 38_950, "012", '1'),
    (2_216_934_633, 33_827, "01", '1'),
    (2_722_455_860, 41_541, "0", '0'),
    (2_630_064_899, 40_131, "0", '0'),
];

#[test]
fn one_load_draw_by_draw() {
    let (mut state, mut text) = (12, String::new());
    for (i, (next, draw, digits, digit)) in TWELVE.into_iter().enumerate() {
        assert_eq!((state * 1_664_525 + 1_013_904_223) % 4_294_967_296, next);
        assert_eq!(next / 65_536, draw as u64);
        let wanted = missing(text.as_bytes()).expect("a beginning");
        assert_eq!(allowed(wanted, 8 - i), digits.as_bytes());
        let taken = digits.as_bytes()[draw % digits.len()];
        assert_eq!(char::from(taken), digit);
        text.push(digit);
        state = next;
    }
    assert_eq!(load(12, 9), text);
    assert_eq!(text, "210121100");
}

/// Seeds and their loads of twenty digits and of forty. The longer one is no continuation of the shorter one,
/// since its digits may still become another tree where those of the shorter one may not.
const LOADS: [(u32, &str, &str); 7] = [
    (
        0,
        "11120112112101121000",
        "1112011211210112110012210102020202121000",
    ),
    (
        1,
        "11120111120120221000",
        "1112011112012022122201002010021110112100",
    ),
    (
        65_535,
        "11111221011220210000",
        "1111122101122022001010202120200112022000",
    ),
    (
        65_536,
        "21221002010112220000",
        "2122100201011222200200020122110212200000",
    ),
    (
        123_456_789,
        "22100222001220010200",
        "2210022200122001022012100111220022110010",
    ),
    (
        1 << 31,
        "11122210220212000000",
        "1112221022021200202120102012202120000000",
    ),
    (
        u32::MAX,
        "22002221212120000000",
        "2200222121212022211122200122000000000000",
    ),
];

#[test]
fn loads_of_seeds() {
    for (seed, twenty, forty) in LOADS {
        assert_eq!(load(seed, 20), twenty, "{seed}");
        assert_eq!(load(seed, 40), forty, "{seed}");
    }
}

/// Every text of so many digits.
fn texts(digits: u32) -> impl Iterator<Item = Vec<u8>> {
    let text = move |number: usize| (0..digits).map(move |i| b"012"[number / 3_usize.pow(i) % 3]);
    (0..3_usize.pow(digits)).map(move |number| text(number).collect())
}

/// The digits after each beginning of a whole text of so many digits.
fn continued(digits: u32) -> BTreeMap<Vec<u8>, BTreeSet<u8>> {
    let mut after: BTreeMap<Vec<u8>, BTreeSet<u8>> = BTreeMap::new();
    for text in texts(digits).filter(|text| missing(text) == Some(0)) {
        for (i, digit) in text.iter().enumerate() {
            after.entry(text[..i].to_vec()).or_default().insert(*digit);
        }
    }
    after
}

/// "A digit is allowed if the text can still become a whole tree of exactly n digits."
#[test]
fn digits_allowed() {
    for n in 1..=9 {
        for (text, digits) in continued(n) {
            let wanted = missing(&text).expect("a beginning");
            let left = n as usize - text.len() - 1;
            let digits: Vec<u8> = digits.into_iter().collect();
            assert_eq!(allowed(wanted, left), digits, "{n} {text:?}");
        }
    }
    // Where more trees are wanted than there are digits, none is allowed.
    for left in 0..9 {
        assert_eq!(allowed(left + 1, left), b"0");
        assert_eq!(allowed(left + 2, left), b"");
    }
}

/// "A load of n digits [..] draws once a digit, left to right, and takes the remainder by the number of digits
/// allowed there, in ascending order."
#[test]
fn short_loads() {
    for n in 1..=9 {
        let after = continued(n);
        for seed in (0..200).chain([1 << 16, 1 << 31, u32::MAX]) {
            let (mut state, mut text) = (u128::from(seed), Vec::new());
            for _ in 0..n {
                state = (state * 1_664_525 + 1_013_904_223) & 0xffff_ffff;
                let digits: Vec<u8> = after[&text].iter().copied().collect();
                text.push(digits[(state >> 16) as usize % digits.len()]);
            }
            assert_eq!(load(seed, n as usize).as_bytes(), text, "{seed} {n}");
        }
    }
}

/// Where one digit is allowed, one is allowed at each place after it. So the draws there decide nothing, and a
/// load does not tell whether they were made.
#[test]
fn one_digit_allowed() {
    for left in 1..500 {
        for wanted in 1..=left + 1 {
            if let [digit] = allowed(wanted, left)[..] {
                let wanted = wanted + usize::from(digit) - usize::from(b'1');
                assert_eq!(allowed(wanted, left - 1).len(), 1, "{wanted} {left}");
            }
        }
    }
}

/// "For any n outside, the load is empty, whatever the output."
#[test]
fn counts_outside() {
    for digits in [0, 4_096, 4_097, 65_537, 1 << 32, (1 << 32) + 9, usize::MAX] {
        for length in [0, 1, 9, 4_095, 4_096, 5_000] {
            let mut out = vec![b'-'; length];
            assert_eq!(generate(12, digits, &mut out), [0, 0]);
            assert!(out.iter().all(|byte| *byte == b'-'));
        }
    }
}

/// "Otherwise an output shorter than n gives 10 and stays as it was." What is past the load stays too.
#[test]
fn lengths_of_output() {
    for digits in [1, 2, 9, 100, 4_094, 4_095] {
        for length in [0, digits - 1] {
            let mut out = vec![b'-'; length];
            assert_eq!(generate(12, digits, &mut out), [10, 0]);
            assert!(out.iter().all(|byte| *byte == b'-'));
        }
        for more in [1, 2, 1_000] {
            let mut out = vec![b'-'; digits + more];
            assert_eq!(generate(12, digits, &mut out), [0, digits]);
            assert_eq!(out[..digits], *load(12, digits).as_bytes());
            assert!(out[digits..].iter().all(|byte| *byte == b'-'));
        }
    }
}

/// "Every nonempty load is a whole text".
#[test]
fn whole_texts() {
    for seed in [0, 1, 12, u32::MAX] {
        for digits in (1..=50).chain([1_000, 4_094, 4_095]) {
            let text = load(seed, digits);
            assert_eq!(missing(text.as_bytes()), Some(0), "{seed} {digits}");
        }
    }
}
