//! Weights as trees, of request [9] of document 02. A weight is its text: grams become one digit by digit and back,
//! and whatever is asked about weights is asked about grams.

use crate::{check_table, lay, made, node_trees, readable, refused, text_within, Answer, Refusal};
use std::cmp::Ordering;

/// Of a weight: refusal, grams.
pub type Grams = [usize; 2];

/// Of two weights: refusal, and 0 for less, 1 for equal, 2 for greater.
pub type Compared = [usize; 2];

/// "A weight is 0 to 999,999.999 kilograms in whole grams".
pub const MOST: usize = 999_999_999;

/// "exactly nine decimal digits"
pub const ITEMS: usize = 9;

/// The most digits that the text of a weight has: those of the most grams.
pub const DIGITS: usize = 181;

/// "nine decimal digits, lowest first"
pub fn digits(grams: usize) -> [usize; ITEMS] {
    std::array::from_fn(|place| grams / 10_usize.pow(place as u32) % 10)
}

/// "digit d is K applied d times starting at Δ": K on a tree is the fork of Δ and it, 20 before its text.
pub fn item(digit: usize) -> Vec<u8> {
    [&b"20".repeat(digit)[..], b"0"].concat()
}

/// A list of items that ends in some tree: "an item before a list is their fork".
pub fn list(items: &[Vec<u8>], end: &[u8]) -> Vec<u8> {
    let mut text = Vec::new();
    for item in items {
        text.push(b'2');
        text.extend(item);
    }
    text.extend(end);
    text
}

/// The text of a weight: "The empty list is Δ".
pub fn text(grams: usize) -> Vec<u8> {
    list(&digits(grams).map(item), b"0")
}

/// The grams whose weight has this text, if there are any.
pub fn grams_of(text: &[u8]) -> Option<usize> {
    let (mut rest, mut grams) = (text, 0);
    for place in 0..ITEMS {
        rest = rest.strip_prefix(b"2")?;
        let mut digit = 0;
        while let Some(more) = rest.strip_prefix(b"20") {
            (rest, digit) = (more, digit + 1);
        }
        rest = rest.strip_prefix(b"0").filter(|_| digit < 10)?;
        grams += digit * 10_usize.pow(place as u32);
    }
    (rest == b"0").then_some(grams)
}

/// So many grams as a weight, or 14: "a sum above the top", and grams above it, are no weight.
fn within(grams: usize) -> Result<usize, Refusal> {
    match grams {
        0..=MOST => Ok(grams),
        _ => Err(14),
    }
}

/// The grams of nodes' trees: 1, 2, 3 for any of them, then 14 for any.
fn weighed<const N: usize>(
    table: &[u32],
    used: usize,
    nodes: [usize; N],
) -> Result<[usize; N], Refusal> {
    let mut grams = [0; N];
    for (grams, tree) in grams.iter_mut().zip(node_trees(table, used, nodes)?) {
        let text = text_within(&tree, DIGITS);
        *grams = text.and_then(|text| grams_of(&text)).ok_or(14_usize)?;
    }
    Ok(grams)
}

/// Makes the weight of these grams: "New nodes are wanted in the order in which Read would take them from the list's
/// text." "Checks: 14 [..]; then 8."
fn turned(table: &mut [u32], used: usize, grams: Result<usize, Refusal>) -> Answer {
    match grams.and_then(within) {
        Err(number) => refused(number, used),
        Ok(grams) => {
            let tree = readable(&text(grams)).expect("a whole text");
            made(table, used, |nodes| lay(nodes, &tree))
        }
    }
}

/// "The library turns grams to trees". Nothing but the table is lent.
pub fn weight(table: &mut [u32], used: usize, grams: usize) -> Answer {
    let checked = check_table(table, used);
    turned(table, used, checked.map(|()| grams))
}

/// "and back". The table is only read.
pub fn grams(table: &[u32], used: usize, node: usize) -> Grams {
    match weighed(table, used, [node]) {
        Ok([grams]) => [0, grams],
        Err(number) => [number, 0],
    }
}

/// "adds two weights": "a customer's total in trees is the total on the invoice".
pub fn add_weights(table: &mut [u32], used: usize, a: usize, b: usize) -> Answer {
    let grams = weighed(table, used, [a, b]);
    turned(table, used, grams.map(|[a, b]| a + b))
}

/// "and compares them". The table is only read.
pub fn compare_weights(table: &[u32], used: usize, a: usize, b: usize) -> Compared {
    match weighed(table, used, [a, b]) {
        Err(number) => [number, 0],
        Ok([a, b]) => match a.cmp(&b) {
            Ordering::Less => [0, 0],
            Ordering::Equal => [0, 1],
            Ordering::Greater => [0, 2],
        },
    }
}
