//! Sends texts to the built program `rule_text`, at each border of what it reads, and compares all that
//! it prints with the line that document 02 gives for the text. Then rules on truth values go the whole
//! way, from text to bytes to packet to line.

use crate::{packet, printed, shown};
use compare::PAPERS;
use std::path::Path;

/// A text as it is sent, and the line it gives.
struct Text {
    name: &'static str,
    input: Vec<u8>,
    line: String,
}

fn taken(name: &'static str, input: impl Into<Vec<u8>>, term: &[u8]) -> Text {
    let hexadecimal: String = term.iter().map(|byte| format!("{byte:02x}")).collect();
    let (input, line) = (input.into(), format!("0 {hexadecimal}\n"));
    Text { name, input, line }
}

fn refused(name: &'static str, input: impl Into<Vec<u8>>, number: usize) -> Text {
    let (input, line) = (input.into(), format!("{number} -\n"));
    Text { name, input, line }
}

// ---- terms in bytes, as documents 01 and 02 write them

fn applied(function: &[u8], argument: &[u8]) -> Vec<u8> {
    [&[1], function, argument].concat()
}

/// K = ΔΔ, I = Δ(ΔΔ)(ΔΔ), and Δ(Δx).
const K: &[u8] = &[1, 0, 0];
const I: &[u8] = &[1, 1, 0, 1, 0, 0, 1, 0, 0];

fn twice_stem(x: &[u8]) -> Vec<u8> {
    applied(&[0], &applied(&[0], x))
}

/// "and Δ(Δ(K(KI))), or Δ(Δ(KK))I, implies Δ(Δ(KK))", not "Δ(Δ(KK))(Δ(Δ(K(KI)))I)"
fn and() -> Vec<u8> {
    twice_stem(&applied(K, &applied(K, I)))
}

fn implies() -> Vec<u8> {
    twice_stem(&applied(K, K))
}

fn or() -> Vec<u8> {
    applied(&implies(), I)
}

fn not() -> Vec<u8> {
    applied(&implies(), &applied(&and(), I))
}

/// λp. λq. an operator's tree on p and q
fn rule_of(tree: &[u8]) -> Vec<u8> {
    let body = applied(&applied(tree, &[3, 1]), &[3, 0]);
    [&[2, 2], &body[..]].concat()
}

/// Each operator, and what names, spaces and a final newline do.
fn texts() -> Vec<Text> {
    let double = [2, 1, 3, 0, 3, 0];
    let negated = [&[2], &applied(&not(), &[3, 0])[..]].concat();
    vec![
        taken("the paper's rule", r"\x.x x", &double),
        taken("with a newline", "\\x.x x\n", &double),
        taken(
            "spaces and parentheses",
            r" \ abcdefgh . ((abcdefgh) abcdefgh) ",
            &double,
        ),
        taken("and", r"\p.\q.p&q", &rule_of(&and())),
        taken("or", r"\p.\q.p|q", &rule_of(&or())),
        taken("implies", r"\p.\q.p>q", &rule_of(&implies())),
        taken("not", r"\p.!p", &negated),
        refused("nothing", "", 12),
        refused("a newline", "\n", 12),
        refused("two newlines", "\\x.x\n\n", 12),
        refused("a newline inside", "\\x.\nx", 12),
        refused("an unbound name", r"\x.y", 12),
        refused("nine letters", r"\abcdefghi.^", 12),
        refused("no abstraction", "^", 5),
        refused("an application", r"(\x.x) ^", 5),
    ]
}

/// "text has at most 8,192 bytes", and one final newline is none of them; "Parentheses nest at most 32
/// deep"; a rule has at most 4,096 bytes, of which a leaf takes one, a variable two and each of n - 1
/// applications one.
fn borders() -> Vec<Text> {
    let padded = |n: usize| r"\x.x".to_string() + &" ".repeat(n - 4);
    let nested = |n: usize| format!(r"\x.{}x{}", "(".repeat(n), ")".repeat(n));
    let leaves = format!(r"\x.{}", "^".repeat(2_048));
    let longest = [&[2], &left_leaves(2_048)[..]].concat();
    vec![
        taken("8,192 bytes", padded(8_192), &[2, 3, 0]),
        taken(
            "8,192 bytes and a newline",
            padded(8_192) + "\n",
            &[2, 3, 0],
        ),
        refused("8,193 bytes", padded(8_193), 12),
        refused("8,193 bytes and a newline", padded(8_193) + "\n", 12),
        refused("8,192 bytes and two newlines", padded(8_192) + "\n\n", 12),
        refused("100,000 bytes", padded(100_000), 12),
        taken("32 parentheses", nested(32), &[2, 3, 0]),
        refused("33 parentheses", nested(33), 12),
        taken("a term of 4,096 bytes", leaves.clone(), &longest),
        refused("a term of 4,097 bytes", leaves + "x", 5),
    ]
}

/// Leaves applied from the left: ((ΔΔ)Δ)..
fn left_leaves(n: usize) -> Vec<u8> {
    [vec![1; n - 1], vec![0; n]].concat()
}

fn same(program: &Path, text: &Text) -> bool {
    let given = printed(program, &text.input, None).unwrap_or_else(|error| error.to_string());
    if given != text.line {
        let wanted = shown(&text.line);
        println!("{}: printed {}, not {wanted}", text.name, shown(&given));
    }
    given == text.line
}

/// The rule that the program prints for a text.
fn bytes_of(program: &Path, text: &str) -> Vec<u8> {
    let line = printed(program, text.as_bytes(), None).unwrap_or_default();
    let digits = line.trim_end().strip_prefix("0 ").unwrap_or_default();
    let pairs = digits.as_bytes().chunks(2);
    pairs
        .filter_map(|pair| u8::from_str_radix(std::str::from_utf8(pair).ok()?, 16).ok())
        .collect()
}

/// True is K and false is KI: their texts.
fn truth(value: bool) -> &'static str {
    if value {
        "10"
    } else {
        "2021010"
    }
}

/// Whether a text, read by one program and run by the other, ends in the truth value; all of the line is
/// the second evaluator's.
fn runs(programs: [&Path; 2], text: &str, values: &[bool], wanted: bool) -> bool {
    let [lazvorn, rule_text] = programs;
    let arguments: Vec<&str> = values.iter().map(|value| truth(*value)).collect();
    let packet = packet(&bytes_of(rule_text, text), &arguments);
    let given = printed(lazvorn, &packet, None).unwrap_or_else(|error| error.to_string());
    let second = second::line(&second::run(&packet, second::PROGRAM, PAPERS));
    let ends =
        given.starts_with("0 ") && given.trim_end().ends_with(&format!(" {}", truth(wanted)));
    let fine = ends && given == format!("{second}\n");
    if !fine {
        println!("{text} on {values:?}: printed {}", shown(&given));
    }
    fine
}

/// The tables of the four operators, and one rule with all of them.
fn tables(programs: [&Path; 2]) -> [usize; 2] {
    let mut counts = [0, 0];
    let mut row = |text: &str, values: &[bool], wanted: bool| {
        counts[0] += 1;
        counts[1] += usize::from(!runs(programs, text, values, wanted));
    };
    for p in [false, true] {
        row(r"\p.!p", &[p], !p);
        row(r"\p.!p > p | p & !p", &[p], p);
        for q in [false, true] {
            row(r"\p.\q.p & q", &[p, q], p && q);
            row(r"\p.\q.p | q", &[p, q], p || q);
            row(r"\p.\q.p > q", &[p, q], !p || q);
        }
    }
    counts
}

pub fn compare(lazvorn: &Path, rule_text: &Path) -> bool {
    let texts: Vec<Text> = texts().into_iter().chain(borders()).collect();
    let wrong = texts.iter().filter(|text| !same(rule_text, text)).count();
    let [rows, differing] = tables([lazvorn, rule_text]);
    println!(
        "{} texts to the program rule_text, {wrong} differences; {rows} from text to line, {differing} differences",
        texts.len()
    );
    wrong + differing == 0
}
