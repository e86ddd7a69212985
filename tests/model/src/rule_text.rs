//! Rule text, of request [3] of document 02: tokens first, then a function for each level of
//! operators, then the term in bytes. An abstraction takes all that its body can take, which is
//! "reaches as far right as it can".
//!
//! Recursion goes as deep as abstractions, `!` and `>` nest, which a text of 8,192 bytes can do
//! thousands of times: whoever calls this gives the thread a large stack.

use crate::{rule, Refusal};

/// The most bytes of a text, and the most parentheses nested in it.
const LONGEST: usize = 8_192;
const DEEPEST: usize = 32;

/// What a text says. A variable counts the abstractions between it and its own.
#[derive(Clone, Debug, PartialEq, Eq)]
pub enum Expression {
    Leaf,
    Variable(usize),
    Apply(Box<Expression>, Box<Expression>),
    Abstract(Box<Expression>),
    Not(Box<Expression>),
    And(Box<Expression>, Box<Expression>),
    Or(Box<Expression>, Box<Expression>),
    Implies(Box<Expression>, Box<Expression>),
}

impl Expression {
    pub fn apply(self, argument: Expression) -> Self {
        Expression::Apply(Box::new(self), Box::new(argument))
    }

    pub fn abstracted(self) -> Self {
        Expression::Abstract(Box::new(self))
    }

    pub fn negated(self) -> Self {
        Expression::Not(Box::new(self))
    }

    pub fn and(self, other: Expression) -> Self {
        Expression::And(Box::new(self), Box::new(other))
    }

    pub fn or(self, other: Expression) -> Self {
        Expression::Or(Box::new(self), Box::new(other))
    }

    pub fn implies(self, other: Expression) -> Self {
        Expression::Implies(Box::new(self), Box::new(other))
    }
}

// ---- tokens

/// A name, or one of the other bytes that mean something: `\ . ! & | > ^ ( )`.
#[derive(Clone, Copy, PartialEq, Eq)]
enum Token<'a> {
    Name(&'a [u8]),
    Sign(u8),
}

/// The tokens of a text. A name is all of an unbroken run of letters, so a run of nine is none.
fn tokens(text: &[u8]) -> Option<Vec<Token<'_>>> {
    let mut found = Vec::new();
    let mut at = 0;
    while at < text.len() {
        let letters = text[at..]
            .iter()
            .take_while(|byte| byte.is_ascii_lowercase())
            .count();
        match (letters, text[at]) {
            (1..=8, _) => found.push(Token::Name(&text[at..at + letters])),
            (9.., _) => return None,
            (0, b' ') => {}
            (0, sign) if br"\.!&|>^()".contains(&sign) => found.push(Token::Sign(sign)),
            (0, _) => return None,
        }
        at += letters.max(1);
    }
    Some(found)
}

// ---- the grammar

/// Tokens while they are read: the place of the next one, the names of the abstractions around it,
/// outermost first, and the parentheses around it.
struct Reader<'a> {
    tokens: Vec<Token<'a>>,
    at: usize,
    names: Vec<&'a [u8]>,
    depth: usize,
}

impl<'a> Reader<'a> {
    fn next(&self) -> Option<Token<'a>> {
        self.tokens.get(self.at).copied()
    }

    /// Takes this sign if it is next.
    fn takes(&mut self, sign: u8) -> bool {
        let is_next = self.next() == Some(Token::Sign(sign));
        self.at += usize::from(is_next);
        is_next
    }

    /// `>` groups right.
    fn expression(&mut self) -> Option<Expression> {
        let left = self.or()?;
        if self.takes(b'>') {
            Some(left.implies(self.expression()?))
        } else {
            Some(left)
        }
    }

    /// `|` groups left.
    fn or(&mut self) -> Option<Expression> {
        let mut left = self.and()?;
        while self.takes(b'|') {
            left = left.or(self.and()?);
        }
        Some(left)
    }

    /// `&` groups left.
    fn and(&mut self) -> Option<Expression> {
        let mut left = self.not()?;
        while self.takes(b'&') {
            left = left.and(self.not()?);
        }
        Some(left)
    }

    /// `!` is repeatable, and not an operand of an application.
    fn not(&mut self) -> Option<Expression> {
        if self.takes(b'!') {
            Some(self.not()?.negated())
        } else {
            self.application()
        }
    }

    /// One operand or more, grouping left.
    fn application(&mut self) -> Option<Expression> {
        let mut left = self.operand()?;
        while self.operand_is_next() {
            left = left.apply(self.operand()?);
        }
        Some(left)
    }

    fn operand_is_next(&self) -> bool {
        match self.next() {
            Some(Token::Name(_)) => true,
            Some(Token::Sign(sign)) => br"^(\".contains(&sign),
            None => false,
        }
    }

    /// A name, the leaf, an expression in parentheses or an abstraction. What follows the body of an
    /// abstraction is nothing that could go on after an operand, so it is always a last one.
    fn operand(&mut self) -> Option<Expression> {
        let token = self.next()?;
        self.at += 1;
        match token {
            Token::Name(name) => self.variable(name),
            Token::Sign(b'^') => Some(Expression::Leaf),
            Token::Sign(b'(') => self.in_parentheses(),
            Token::Sign(b'\\') => self.abstraction(),
            Token::Sign(_) => None,
        }
    }

    /// "bound by the nearest abstraction of that name"
    fn variable(&self, name: &[u8]) -> Option<Expression> {
        let between = self.names.iter().rev().position(|around| *around == name)?;
        Some(Expression::Variable(between))
    }

    fn in_parentheses(&mut self) -> Option<Expression> {
        if self.depth == DEEPEST {
            return None;
        }
        self.depth += 1;
        let inside = self.expression()?;
        self.depth -= 1;
        self.takes(b')').then_some(inside)
    }

    fn abstraction(&mut self) -> Option<Expression> {
        let Some(Token::Name(name)) = self.next() else {
            return None;
        };
        self.at += 1;
        if !self.takes(b'.') {
            return None;
        }
        self.names.push(name);
        let body = self.expression()?;
        self.names.pop();
        Some(body.abstracted())
    }
}

/// The one reading of a text, or none where it is refused with 12.
pub fn read(text: &[u8]) -> Option<Expression> {
    if text.len() > LONGEST {
        return None;
    }
    let mut reader = Reader {
        tokens: tokens(text)?,
        at: 0,
        names: Vec::new(),
        depth: 0,
    };
    let expression = reader.expression()?;
    (reader.at == reader.tokens.len()).then_some(expression)
}

// ---- the term

/// The operators' trees, as terms in bytes.
struct Trees {
    and: Vec<u8>,
    or: Vec<u8>,
    implies: Vec<u8>,
    not: Vec<u8>,
}

/// A function on an argument, both in bytes.
fn on(function: &[u8], argument: &[u8]) -> Vec<u8> {
    [&[1], function, argument].concat()
}

fn trees() -> Trees {
    let leaf = &[0][..];
    // K = ΔΔ, I = Δ(ΔΔ)(ΔΔ).
    let k = &on(leaf, leaf)[..];
    let i = &on(&on(leaf, k), k)[..];
    // Δ(Δ(K(KI)))
    let and = on(leaf, &on(leaf, &on(k, &on(k, i))));
    // Δ(Δ(KK))
    let implies = on(leaf, &on(leaf, &on(k, k)));
    // Δ(Δ(KK))I
    let or = on(&implies, i);
    // Δ(Δ(KK))(Δ(Δ(K(KI)))I)
    let not = on(&implies, &on(&and, i));
    Trees {
        and,
        or,
        implies,
        not,
    }
}

/// The bytes of the term that an expression stands for. A count of abstractions that has no byte
/// becomes 255: no rule has abstractions nested so deep.
pub fn term_bytes(expression: &Expression) -> Vec<u8> {
    let mut bytes = Vec::new();
    put(expression, &trees(), &mut bytes);
    bytes
}

fn put(expression: &Expression, trees: &Trees, bytes: &mut Vec<u8>) {
    match expression {
        Expression::Leaf => bytes.push(0),
        Expression::Variable(between) => {
            bytes.extend([3, u8::try_from(*between).unwrap_or(u8::MAX)])
        }
        Expression::Apply(f, a) => {
            bytes.push(1);
            put(f, trees, bytes);
            put(a, trees, bytes);
        }
        Expression::Abstract(body) => {
            bytes.push(2);
            put(body, trees, bytes);
        }
        Expression::Not(a) => {
            bytes.push(1);
            bytes.extend(&trees.not);
            put(a, trees, bytes);
        }
        Expression::And(a, b) => put_both(&trees.and, a, b, trees, bytes),
        Expression::Or(a, b) => put_both(&trees.or, a, b, trees, bytes),
        Expression::Implies(a, b) => put_both(&trees.implies, a, b, trees, bytes),
    }
}

/// An operator's tree applied to its left operand, and that to its right one.
fn put_both(tree: &[u8], a: &Expression, b: &Expression, trees: &Trees, bytes: &mut Vec<u8>) {
    bytes.extend([1, 1]);
    bytes.extend(tree);
    put(a, trees, bytes);
    put(b, trees, bytes);
}

// ---- the operation

/// Refusal and bytes written.
pub type TextAnswer = [usize; 2];

/// The bytes of the rule that a text is: 12 before 5.
fn rule_of(text: &[u8]) -> Result<Vec<u8>, Refusal> {
    let bytes = term_bytes(&read(text).ok_or(12_usize)?);
    match rule(&bytes) {
        Some(_) => Ok(bytes),
        None => Err(5),
    }
}

/// Writes the rule that a text is to `out`. A refusal leaves `out` as found, and bytes past those
/// written stay.
pub fn rule_text(text: &[u8], out: &mut [u8]) -> TextAnswer {
    let bytes = match rule_of(text) {
        Ok(bytes) => bytes,
        Err(number) => return [number, 0],
    };
    match out.get_mut(..bytes.len()) {
        Some(place) => {
            place.copy_from_slice(&bytes);
            [0, bytes.len()]
        }
        None => [10, 0],
    }
}
