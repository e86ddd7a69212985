//! Short codes, of request [12] of document 02. The trees of at most ten nodes are made of smaller ones, node by
//! node, and their texts are sorted by value; a code is a place among them.

use crate::{given, node_trees, text_within, tree, Given, Shape, Tree};
use std::rc::Rc;
use std::sync::OnceLock;

/// "all trees of at most ten nodes"
const MOST: usize = 10;

/// The trees of one node more than `fewer` has rows, where each row has the trees of so many nodes, from one on:
/// the leaf alone, or a stem over all the others, or a fork that shares them out.
fn one_more(fewer: &[Vec<Rc<Tree>>]) -> Vec<Rc<Tree>> {
    let Some(below) = fewer.last() else {
        return vec![tree(0, Shape::Leaf)];
    };
    let stems = below.iter().map(|p| tree(0, Shape::Stem(p.clone())));
    let mut all: Vec<Rc<Tree>> = stems.collect();
    let smaller = &fewer[..fewer.len() - 1];
    for (first, second) in smaller.iter().zip(smaller.iter().rev()) {
        let forks = first
            .iter()
            .flat_map(|p| second.iter().map(move |q| (p, q)));
        all.extend(forks.map(|(p, q)| tree(0, Shape::Fork(p.clone(), q.clone()))));
    }
    all
}

/// "A text read as a base-3 number is its value".
pub fn value(text: &[u8]) -> usize {
    let digit = |byte: &u8| usize::from(byte - b'0');
    text.iter().fold(0, |value, byte| 3 * value + digit(byte))
}

/// The texts of "all trees of at most ten nodes", by their values, "ascending".
pub fn texts() -> &'static [Vec<u8>] {
    static TEXTS: OnceLock<Vec<Vec<u8>>> = OnceLock::new();
    TEXTS.get_or_init(|| {
        let mut rows = Vec::new();
        for _ in 0..MOST {
            rows.push(one_more(&rows));
        }
        let short = |tree: &Rc<Tree>| text_within(tree, MOST).expect("at most ten nodes");
        let mut texts: Vec<Vec<u8>> = rows.concat().iter().map(short).collect();
        texts.sort_by_key(|text| value(text));
        texts
    })
}

/// "The library gives the code of a node's tree (after 1, 2 and 3), or none exactly when its text has more than ten
/// digits": "its place there, counting from 0". The table is only read.
pub fn code(table: &[u32], used: usize, node: usize) -> Given {
    let tree = node_trees(table, used, [node]);
    given(tree.map(|[tree]| {
        let text = text_within(&tree, MOST)?;
        texts().iter().position(|other| *other == text)
    }))
}

/// "and a code's text, or none from 1,374 on, then 10 if out is shorter". What is past the text stays.
pub fn code_text(code: usize, out: &mut [u8]) -> Given {
    let Some(text) = texts().get(code) else {
        return given(Ok(None));
    };
    let Some(place) = out.get_mut(..text.len()) else {
        return given(Err(10));
    };
    place.copy_from_slice(text);
    given(Ok(Some(text.len())))
}

/// How many digits the text of each used node of a sound table has, and the most that a number can be where there
/// are more.
pub fn lengths(table: &[u32], used: usize) -> Vec<usize> {
    let mut lengths: Vec<usize> = Vec::with_capacity(used);
    for node in table.chunks_exact(2).take(used) {
        let branches = node.iter().filter(|word| **word != 0);
        let digits = branches.map(|word| lengths[*word as usize - 1]);
        let digits = digits.fold(1, usize::saturating_add);
        lengths.push(digits);
    }
    lengths
}
