//! Rule texts: random closed expressions, the ways to print one, texts with one byte changed, and
//! texts at the borders of what request [3] allows.

use crate::random::Random;
use model::rule_text::Expression;

// ---- expressions

/// A leaf, or a variable of one of the abstractions around.
fn atom(random: &mut Random, around: usize) -> Expression {
    if around == 0 || random.once_in(4) {
        Expression::Leaf
    } else {
        Expression::Variable(random.below(around))
    }
}

/// A size for the left one of two parts of `size`: any, or one that leaves little on a side, so that
/// long rows of one operator come about too.
fn share(random: &mut Random, size: usize) -> usize {
    match random.below(4) {
        0 => 1,
        1 => size - 1,
        _ => random.within(1, size - 1),
    }
}

/// An expression of about `size` operators and operands under `around` abstractions, with at most
/// `nests` abstractions nested in it.
fn grow(random: &mut Random, size: usize, around: usize, nests: usize) -> Expression {
    if size < 2 {
        return atom(random, around);
    }
    let kind = random.below(12);
    if kind < 2 && nests > 0 {
        return grow(random, size - 1, around + 1, nests - 1).abstracted();
    }
    if kind < 4 {
        return grow(random, size - 1, around, nests).negated();
    }
    let left = share(random, size);
    let a = grow(random, left, around, nests);
    let b = grow(random, size - left, around, nests);
    match kind {
        4 | 5 => a.and(b),
        6 | 7 => a.or(b),
        8 | 9 => a.implies(b),
        _ => a.apply(b),
    }
}

fn size(random: &mut Random) -> usize {
    match random.below(40) {
        0 => random.within(100, 400),
        1..=6 => random.within(20, 100),
        _ => random.within(1, 20),
    }
}

/// Some abstractions, each the whole body of the one before, about 16 of them.
fn nested_rule(random: &mut Random) -> Expression {
    let around = random.near(16);
    let size = random.within(1, 10);
    let body = grow(random, size, around, 0);
    (0..around).fold(body, |body, _| body.abstracted())
}

/// A rule with a term of `bytes` bytes, which are many: a leaf adds two of them, a variable three.
pub fn large_rule(random: &mut Random, bytes: usize) -> Expression {
    let size = random.within(1, 60);
    let mut body = grow(random, size, 1, 15);
    let mut length = 1 + model::rule_text::term_bytes(&body).len();
    while length + 2 <= bytes {
        let by_variable = length + 3 == bytes || (length + 5 <= bytes && random.once_in(2));
        let (operand, more) = if by_variable {
            (Expression::Variable(0), 3)
        } else {
            (Expression::Leaf, 2)
        };
        body = body.apply(operand);
        length += more;
    }
    body.abstracted()
}

/// A closed expression: most often one whose term is a rule, else one that begins otherwise, or is at
/// a border of what a rule may be.
pub fn expression(random: &mut Random) -> Expression {
    let size = size(random);
    match random.below(40) {
        0..=2 => grow(random, size, 0, 16),
        3 => nested_rule(random),
        4 => {
            let bytes = random.near(4_096);
            large_rule(random, bytes)
        }
        5 => grow(random, size, 1, 16).abstracted(),
        _ => grow(random, size, 1, 15).abstracted(),
    }
}

/// How many abstractions are nested in an expression at most.
pub fn nested(expression: &Expression) -> usize {
    match expression {
        Expression::Leaf | Expression::Variable(_) => 0,
        Expression::Abstract(body) => 1 + nested(body),
        Expression::Not(a) => nested(a),
        Expression::Apply(a, b)
        | Expression::And(a, b)
        | Expression::Or(a, b)
        | Expression::Implies(a, b) => nested(a).max(nested(b)),
    }
}

// ---- printing

/// Which parentheses are printed: those that are needed, those around every part that is more than a
/// name or a leaf, or some around any part besides those that are needed.
#[derive(Clone, Copy, Debug)]
pub enum Parentheses {
    Fewest,
    All,
    Some,
}

/// Where spaces are printed: where two names would else join, or between any two tokens besides.
#[derive(Clone, Copy, Debug)]
pub enum Spaces {
    Fewest,
    Some,
}

/// The ways to print an expression.
pub const WAYS: [(Parentheses, Spaces); 6] = [
    (Parentheses::Fewest, Spaces::Fewest),
    (Parentheses::Fewest, Spaces::Some),
    (Parentheses::All, Spaces::Fewest),
    (Parentheses::All, Spaces::Some),
    (Parentheses::Some, Spaces::Fewest),
    (Parentheses::Some, Spaces::Some),
];

/// The levels of operators, loosest first, and that of an operand.
const IMPLIES: usize = 0;
const OR: usize = 1;
const AND: usize = 2;
const NOT: usize = 3;
const APPLICATION: usize = 4;
const OPERAND: usize = 5;

/// The level that an expression is of. An abstraction is an operand, where it may stand at all.
fn level(expression: &Expression) -> usize {
    match expression {
        Expression::Implies(..) => IMPLIES,
        Expression::Or(..) => OR,
        Expression::And(..) => AND,
        Expression::Not(_) => NOT,
        Expression::Apply(..) => APPLICATION,
        Expression::Leaf | Expression::Variable(_) | Expression::Abstract(_) => OPERAND,
    }
}

/// The abstractions around an abstraction that its body has variables of, 0 for the nearest.
fn outer(expression: &Expression, under: usize, found: &mut Vec<usize>) {
    match expression {
        Expression::Leaf => {}
        Expression::Variable(between) => found.extend(between.checked_sub(under)),
        Expression::Abstract(body) => outer(body, under + 1, found),
        Expression::Not(a) => outer(a, under, found),
        Expression::Apply(a, b)
        | Expression::And(a, b)
        | Expression::Or(a, b)
        | Expression::Implies(a, b) => {
            outer(a, under, found);
            outer(b, under, found);
        }
    }
}

/// A name of one to eight letters: one of few, or of few letters, or any.
fn name(random: &mut Random) -> Vec<u8> {
    let (longest, letters) = match random.below(3) {
        0 => (1, &b"abcz"[..]),
        1 => (8, &b"az"[..]),
        _ => (8, &b"abcdefghijklmnopqrstuvwxyz"[..]),
    };
    let length = random.within(1, longest);
    (0..length).map(|_| *random.pick(letters)).collect()
}

/// An expression while it is printed: its tokens so far, and the names of the abstractions around,
/// outermost first.
struct Printer<'a> {
    random: &'a mut Random,
    parentheses: Parentheses,
    tokens: Vec<Vec<u8>>,
    names: Vec<Vec<u8>>,
}

impl Printer<'_> {
    fn sign(&mut self, sign: u8) {
        self.tokens.push(vec![sign]);
    }

    /// A name for an abstraction: any but those of abstractions around that its body has variables
    /// of, and once in three times that of another one around.
    fn name_for(&mut self, body: &Expression) -> Vec<u8> {
        let mut found = Vec::new();
        outer(body, 1, &mut found);
        let of = |i: &usize| &self.names[self.names.len() - 1 - i];
        let taken: Vec<&Vec<u8>> = found.iter().map(of).collect();
        loop {
            let name = if !self.names.is_empty() && self.random.once_in(3) {
                self.random.pick(&self.names).clone()
            } else {
                name(self.random)
            };
            if !taken.contains(&&name) {
                return name;
            }
        }
    }

    /// Prints an expression where one of `wanted` level or tighter may stand. Unless it comes `last`
    /// in the text or in the parentheses around it, an abstraction may not.
    fn part(&mut self, expression: &Expression, wanted: usize, last: bool) {
        let is_abstraction = matches!(expression, Expression::Abstract(_));
        let is_atom = level(expression) == OPERAND && !is_abstraction;
        let needed = level(expression) < wanted || (is_abstraction && !last);
        let pairs = match self.parentheses {
            Parentheses::All if !is_atom => 1,
            Parentheses::Some if self.random.once_in(5) => self.random.within(1, 2),
            _ => usize::from(needed),
        };
        (0..pairs).for_each(|_| self.sign(b'('));
        self.bare(expression, last || pairs > 0);
        (0..pairs).for_each(|_| self.sign(b')'));
    }

    /// Prints an expression without parentheses around it.
    fn bare(&mut self, expression: &Expression, last: bool) {
        match expression {
            Expression::Leaf => self.sign(b'^'),
            Expression::Variable(between) => {
                let name = self.names[self.names.len() - 1 - between].clone();
                self.tokens.push(name);
            }
            Expression::Abstract(body) => self.abstraction(body),
            Expression::Not(a) => {
                self.sign(b'!');
                self.part(a, NOT, last);
            }
            Expression::Apply(f, a) => {
                self.part(f, APPLICATION, false);
                self.part(a, OPERAND, last);
            }
            Expression::And(a, b) => self.both((a, AND), b'&', (b, NOT), last),
            Expression::Or(a, b) => self.both((a, OR), b'|', (b, AND), last),
            Expression::Implies(a, b) => self.both((a, OR), b'>', (b, IMPLIES), last),
        }
    }

    /// Two operands, each with the level that is wanted of it, and the sign between them.
    fn both(&mut self, a: (&Expression, usize), sign: u8, b: (&Expression, usize), last: bool) {
        self.part(a.0, a.1, false);
        self.sign(sign);
        self.part(b.0, b.1, last);
    }

    fn abstraction(&mut self, body: &Expression) {
        let name = self.name_for(body);
        self.sign(b'\\');
        self.tokens.push(name.clone());
        self.sign(b'.');
        self.names.push(name);
        self.part(body, IMPLIES, true);
        self.names.pop();
    }
}

/// Tokens as a text, with spaces between them.
fn joined(random: &mut Random, tokens: &[Vec<u8>], spaces: Spaces) -> Vec<u8> {
    let mut text: Vec<u8> = Vec::new();
    let mut after_name = false;
    for token in tokens {
        let is_name = token[0].is_ascii_lowercase();
        text.resize(text.len() + some(random, spaces), b' ');
        if after_name && is_name && text.last() != Some(&b' ') {
            text.push(b' ');
        }
        text.extend(token);
        after_name = is_name;
    }
    text.resize(text.len() + some(random, spaces), b' ');
    text
}

/// How many spaces come before a token that needs none.
fn some(random: &mut Random, spaces: Spaces) -> usize {
    match spaces {
        Spaces::Some if random.once_in(3) => random.within(1, 3),
        _ => 0,
    }
}

/// A text that is to be read as this closed expression, with names of its own.
pub fn printed(
    random: &mut Random,
    expression: &Expression,
    (parentheses, spaces): (Parentheses, Spaces),
) -> Vec<u8> {
    let mut printer = Printer {
        random,
        parentheses,
        tokens: Vec::new(),
        names: Vec::new(),
    };
    printer.part(expression, IMPLIES, true);
    let tokens = printer.tokens;
    joined(random, &tokens, spaces)
}

/// How many parentheses of a text are open at most.
pub fn deepest(text: &[u8]) -> usize {
    let mut open = 0_usize;
    let mut most = 0;
    for byte in text {
        match byte {
            b'(' => open += 1,
            b')' => open = open.saturating_sub(1),
            _ => {}
        }
        most = most.max(open);
    }
    most
}

// ---- texts that may be wrong

/// A byte that means something, a letter, one of the text's own, or any.
fn byte(random: &mut Random, text: &[u8]) -> u8 {
    match random.below(16) {
        0..=7 => *random.pick(br"\.!&|>^() "),
        8 | 9 => *random.pick(b"abcz"),
        10..=14 if !text.is_empty() => *random.pick(text),
        _ => random.number() as u8,
    }
}

/// A text with one byte changed, inserted or removed.
pub fn changed(random: &mut Random, text: &[u8]) -> Vec<u8> {
    let mut text = text.to_vec();
    let at = random.below(text.len() + 1);
    let byte = byte(random, &text);
    match random.below(3) {
        0 if at < text.len() => text[at] = byte,
        1 if at < text.len() => drop(text.remove(at)),
        _ => text.insert(at, byte),
    }
    text
}

// ---- borders

/// A text at a border, with what it is refused with where out is long enough, or 0.
pub struct Border {
    pub text: Vec<u8>,
    pub refusal: usize,
}

/// A beginning, a part so many times, and an end.
fn row(start: &str, part: &str, times: usize, end: &str) -> Vec<u8> {
    [start, &part.repeat(times), end].concat().into_bytes()
}

/// A text in so many parentheses.
fn wrapped(times: usize, inside: &str) -> Vec<u8> {
    [&"(".repeat(times), inside, &")".repeat(times)]
        .concat()
        .into_bytes()
}

/// The longest texts, and those that are one byte longer.
fn lengths() -> Vec<(usize, Vec<u8>)> {
    vec![
        (0, row(r"\x.x", " ", 8_188, "")),
        (12, row(r"\x.x", " ", 8_189, "")),
        (0, row("", " ", 8_188, r"\x.x")),
        (12, row("", " ", 8_189, r"\x.x")),
        (0, row(r"\x.", " ", 8_188, "x")),
        (12, row("", " ", 8_192, "")),
        (12, row("", " ", 8_193, "")),
        (12, row("", "a", 8_192, "")),
        (12, row(r"\x.x", " ", 65_532, "")),
        (5, row(r"\x.", "^", 8_189, "")),
        (12, row(r"\x.", "^", 8_190, "")),
        (5, row(r"\x.x", " x", 4_094, "")),
        (5, row(r"\x.x", "&x", 4_094, "")),
        (5, row(r"\x.x", "|x", 4_094, "")),
        (5, row(r"\x.x", ">x", 4_094, "")),
        (5, row(r"\x.", "!", 8_188, "x")),
        (12, row(r"\x.", "!", 8_189, "")),
        (5, row("", "!", 8_188, r"\x.x")),
        (12, row(r"\x.", "!", 8_189, "x")),
        // The last of so many operands is missing or unbound.
        (12, row(r"\x.x", "&x", 4_093, "&")),
        (12, row(r"\x.x", ">x", 4_093, ">y")),
        (12, row(r"\x.x", ">x", 4_094, " ")),
    ]
}

/// Parentheses 32 and 33 deep, and ones that do not match.
fn depths() -> Vec<(usize, Vec<u8>)> {
    let beside = [wrapped(32, r"\x.x"), wrapped(32, r"\x.x")].concat();
    vec![
        (0, wrapped(1, r"\x.x")),
        (0, wrapped(32, r"\x.x")),
        (12, wrapped(33, r"\x.x")),
        (12, wrapped(34, r"\x.x")),
        (0, row(r"\x.", "(", 32, &["x", &")".repeat(32)].concat())),
        (12, row(r"\x.", "(", 33, &["x", &")".repeat(33)].concat())),
        (5, beside),
        (0, row(r"\x.^", "(x)", 500, "")),
        (12, wrapped(4_096, "")),
        (12, row("", "(", 8_192, "")),
        (12, row("", ")", 8_192, "")),
        (12, row("", "(", 32, r"\x.x")),
        (12, row(r"\x.x", ")", 1, "")),
        (12, row(r"\x.(x", ")", 2, "")),
    ]
}

/// Names of eight and of nine letters, unbound ones and ones that begin another.
fn names() -> Vec<(usize, Vec<u8>)> {
    let texts = [
        (0, r"\abcdefgh.abcdefgh"),
        (0, r"\zzzzzzzz.\a.zzzzzzzz a"),
        (12, r"\abcdefghi.abcdefghi"),
        (12, r"\abcdefgh.\i.abcdefghi"),
        (12, r"\abcdefgh.abcdefghabcdefgh"),
        (12, r"\abcdefghi.^"),
        (12, r"\x.y"),
        (12, r"\x.xx"),
        (12, r"\xx.x"),
        (12, r"(\x.x)x"),
        (12, r"\f.f(\x.x)x"),
        (12, "x"),
        (0, r"\x.\x.x"),
        (0, r"\x.(\x.x)x"),
        (0, r"\a.\z.a"),
        (12, r"\a.\z.az"),
        (12, r"\`.`"),
        (12, r"\{.{"),
        (12, r"\A.A"),
        (12, r"\Z.Z"),
        (12, r"\a0.a0"),
    ];
    texts.map(|(n, text)| (n, text.as_bytes().to_vec())).into()
}

/// Terms of 4,096 bytes and of 4,097, and abstractions nested 16 and 17 deep.
fn rules() -> Vec<(usize, Vec<u8>)> {
    vec![
        // A leaf more is two bytes, an abstraction one, a variable two.
        (0, row(r"\x.", "^", 2_048, "")),
        (0, row(r"\x.x", "^", 2_046, "")),
        (5, row(r"\x.x", "^", 2_047, "")),
        (5, row(r"\x.", "^", 2_049, "")),
        // `!` is an application to a tree of 22 leaves, which is 44 bytes.
        (0, row(r"\x.", "!", 93, "^^")),
        (5, row(r"\x.", "!", 93, "x^")),
        // `&` and `|` are two applications and a tree of 11 leaves, 23 bytes, and a leaf is one.
        (0, row(r"\x.^", "&^", 170, "^^^^^^^")),
        (5, row(r"\x.x", "&^", 170, "^^^^^^^")),
        (0, row(r"\x.^", "|^", 170, "^^^^^^^")),
        (5, row(r"\x.x", "|^", 170, "^^^^^^^")),
        // `>` is two applications and a tree of 6 leaves, 13 bytes.
        (0, row(r"\x.^", ">^", 292, "^^^")),
        (5, row(r"\x.x", ">^", 292, "^^^")),
        (0, row("", r"\a.", 16, "a")),
        (5, row("", r"\a.", 17, "a")),
        (12, row("", r"\a.", 16, "b")),
        (12, row("", r"\a.", 17, "b")),
        (0, row(r"\b.", r"\a.", 15, "b")),
        (5, row(r"\b.", r"\a.", 16, "b")),
        (0, row(r"\x.", r"(\y.y)", 100, r"\y.y")),
        (5, row("", r"\a.", 255, "a")),
        (5, row(r"\b.", r"\a.", 256, "b")),
        (5, row(r"\b.", r"\a.", 257, "b")),
        (5, row("", r"\a.", 2_730, "^")),
        (5, row("", r"\a.", 2_730, "a")),
        (5, row(r"\b.", r"\a.", 2_729, "b")),
        (12, row("", r"\a.", 2_730, "b")),
        (12, row("", r"\a.", 2_730, "")),
    ]
}

/// Short texts: those that do not begin with an abstraction, and those outside the grammar.
fn short() -> Vec<(usize, Vec<u8>)> {
    let texts: [(usize, &[u8]); 40] = [
        (0, br"\x.x"),
        (0, br" \ x . x "),
        (0, br"(\x.x)"),
        (0, br"\x.^"),
        (5, b"^"),
        (5, b"(^)"),
        (5, b"^^"),
        (5, br"!\x.x"),
        (5, br"!(\x.x)"),
        (5, br"!!\x.x"),
        (5, br"^\x.x"),
        (5, br"(\x.x)^"),
        (5, br"(\x.x)\x.x"),
        (5, br"(\x.x)&\x.x"),
        (5, br"^|\x.x"),
        (5, br"(\x.x)>\x.x"),
        (12, b""),
        (12, b" "),
        (12, b"()"),
        (12, br"\"),
        (12, br"\x"),
        (12, br"\x."),
        (12, br"\.x"),
        (12, br"\x x"),
        (12, br"\x y.x"),
        (12, br"\(x).x"),
        (12, br"\x.x!x"),
        (12, br"\x.x&"),
        (12, br"\x.&x"),
        (12, br"\x.x&&x"),
        (12, br"\x.x|>x"),
        (12, br"\x.x."),
        (12, b"\\x.x\n"),
        (12, b"\\x.\tx"),
        (12, b"\\x.x\0"),
        (12, b"\\x.x\x7f"),
        (12, b"\\x.x\x80"),
        (12, b"\\x.x\xa0"),
        (12, b"\\x.\xe1"),
        (12, b"\\\xf8.\xf8"),
    ];
    texts.map(|(n, text)| (n, text.to_vec())).into()
}

/// Every byte where an operand may stand, an operator may, and a token ends a text: only spaces and,
/// where they fit, a name and the leaf are taken.
fn single_bytes() -> Vec<(usize, Vec<u8>)> {
    let mut texts = Vec::new();
    for byte in 0..=255_u8 {
        let operand = if matches!(byte, b'x' | b'^') { 0 } else { 12 };
        let between = match byte {
            b' ' | b'&' | b'|' | b'>' | b'^' => 0,
            _ => 12,
        };
        let after = if matches!(byte, b' ' | b'^') { 0 } else { 12 };
        texts.push((operand, [br"\x.", &[byte][..]].concat()));
        texts.push((between, [br"\x.x", &[byte][..], b"x"].concat()));
        texts.push((after, [br"\x.x", &[byte][..]].concat()));
    }
    texts
}

/// Texts at every border.
pub fn borders() -> Vec<Border> {
    let texts = [
        lengths(),
        depths(),
        names(),
        rules(),
        short(),
        single_bytes(),
    ];
    let texts = texts.into_iter().flatten();
    texts
        .map(|(refusal, text)| Border { text, refusal })
        .collect()
}

#[cfg(test)]
mod tests {
    use super::*;
    use model::rule_text::{read, rule_text, term_bytes};

    fn on_a_large_stack(test: fn()) {
        let thread = std::thread::Builder::new().stack_size(1 << 28);
        let done = thread.spawn(test).expect("a thread").join();
        assert!(done.is_ok());
    }

    /// The places of matching parentheses in a text.
    fn pairs(text: &[u8]) -> Vec<(usize, usize)> {
        let (mut open, mut found) = (Vec::new(), Vec::new());
        for (at, byte) in text.iter().enumerate() {
            match byte {
                b'(' => open.push(at),
                b')' => found.extend(open.pop().map(|start| (start, at))),
                _ => {}
            }
        }
        found
    }

    #[test]
    fn texts_are_read_as_what_was_printed() {
        on_a_large_stack(|| {
            let mut random = Random::new(3);
            for _ in 0..2_000 {
                let expression = expression(&mut random);
                for way in WAYS {
                    let text = printed(&mut random, &expression, way);
                    if text.len() <= 8_192 && deepest(&text) <= 32 {
                        let same = read(&text).as_ref() == Some(&expression);
                        assert!(same, "{}", text.escape_ascii());
                    }
                }
            }
        });
    }

    #[test]
    fn no_pair_of_the_fewest_can_go() {
        on_a_large_stack(|| {
            let mut random = Random::new(4);
            for _ in 0..2_000 {
                let expression = grow(&mut random, 15, 0, 16);
                let way = (Parentheses::Fewest, Spaces::Fewest);
                let text = printed(&mut random, &expression, way);
                for (start, end) in pairs(&text) {
                    let mut fewer = text.clone();
                    (fewer[start], fewer[end]) = (b' ', b' ');
                    let differs = read(&fewer).as_ref() != Some(&expression);
                    assert!(differs, "{}", text.escape_ascii());
                }
            }
        });
    }

    /// Whether an abstraction of a text has the name of one around it.
    fn shadows(text: &[u8]) -> bool {
        let expression = read(text);
        let names = text.split(|byte| *byte == b'\\').skip(1);
        let names = names.filter_map(|part| part.split(|byte| *byte == b'.').next());
        let names: Vec<&[u8]> = names.collect();
        // All abstractions of the text are nested in one another.
        expression.is_some_and(|e| nested(&e) == names.len())
            && (1..names.len()).any(|i| names[..i].contains(&names[i]))
    }

    #[test]
    fn names_are_shadowed_and_of_every_length() {
        on_a_large_stack(|| {
            let mut random = Random::new(5);
            let mut shadowed = 0;
            for _ in 0..2_000 {
                let expression = grow(&mut random, 8, 1, 15).abstracted();
                let text = printed(&mut random, &expression, WAYS[0]);
                shadowed += usize::from(shadows(&text));
            }
            assert!(shadowed > 100, "{shadowed}");
            let mut lengths = [0; 9];
            (0..2_000).for_each(|_| lengths[name(&mut random).len()] += 1);
            assert!(lengths[1..].iter().all(|times| *times > 50), "{lengths:?}");
        });
    }

    #[test]
    fn large_rules_have_the_bytes_asked_for() {
        on_a_large_stack(|| {
            let mut random = Random::new(6);
            for bytes in 4_000..4_100 {
                let rule = large_rule(&mut random, bytes);
                assert_eq!(term_bytes(&rule).len(), bytes);
            }
        });
    }

    #[test]
    fn the_model_at_the_borders() {
        on_a_large_stack(|| {
            for Border { text, refusal } in borders() {
                let [answer, _] = rule_text(&text, &mut [0; 4_096]);
                assert_eq!(answer, refusal, "{}", text.escape_ascii());
            }
        });
    }
}
