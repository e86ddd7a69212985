//! The operations in plain safe Rust, over the same words, with the same checks and the same effects
//! on memory: what a user would write instead of linking the engine, with a map of the standard library
//! by which each tree is made once. No call is inlined into the benchmark, as no call of the engine is.

use std::collections::HashMap;

pub type Answer = [usize; 5];

/// The same of Apply, and the uses of each rule.
pub type Counted = [usize; 10];

fn refused(number: usize, used: usize) -> Answer {
    [number, 0, used, 0, 0]
}

fn refused_uses(number: usize, used: usize) -> Counted {
    [number, 0, used, 0, 0, 0, 0, 0, 0, 0]
}

/// The used nodes by their words.
type Nodes = HashMap<(u32, u32), u32>;

/// Refusals 1 and 2.
fn check(table: &[u32], used: usize, stack: &[u32]) -> Result<Nodes, usize> {
    if table.len() > 131_072 || stack.len() > 65_536 || used > table.len() / 2 {
        return Err(1);
    }
    let mut nodes = Nodes::with_capacity(used);
    for (i, node) in table.chunks_exact(2).take(used).enumerate() {
        let (a, b) = (node[0], node[1]);
        let broken = (a == 0 && b != 0) || a as usize > i || b as usize > i;
        if broken || nodes.insert((a, b), i as u32).is_some() {
            return Err(2);
        }
    }
    Ok(nodes)
}

/// The node with these words, one that is there or the next; none where there is no place for it.
fn make(table: &mut [u32], made: &mut usize, nodes: &mut Nodes, words: (u32, u32)) -> Option<u32> {
    if let Some(node) = nodes.get(&words) {
        return Some(*node);
    }
    let node = *made;
    let place = table.get_mut(2 * node..2 * node + 2)?;
    place.copy_from_slice(&[words.0, words.1]);
    nodes.insert(words, node as u32);
    *made += 1;
    Some(node as u32)
}

/// The answer of an operation that made nodes from `used` up to `made`, and what is left of them.
fn answer(table: &mut [u32], used: usize, made: usize, node: Option<u32>) -> Answer {
    match node {
        Some(node) => [0, node as usize, made, 0, 0],
        None => {
            table[2 * used..2 * made].fill(0);
            refused(8, used)
        }
    }
}

/// The most trees pending in a text that is one whole tree.
fn most_pending(text: &[u8]) -> Option<usize> {
    if text.len() > 65_535 {
        return None;
    }
    let (mut pending, mut most) = (0usize, 0);
    for digit in text.iter().rev() {
        pending = match digit {
            b'0' => pending + 1,
            b'1' if pending > 0 => pending,
            b'2' if pending > 1 => pending - 1,
            _ => return None,
        };
        most = most.max(pending);
    }
    (pending == 1).then_some(most)
}

/// The node of a text's tree, whose digits are taken last to first.
fn lay_text(
    table: &mut [u32],
    made: &mut usize,
    nodes: &mut Nodes,
    stack: &mut [u32],
    text: &[u8],
) -> Option<u32> {
    let mut held = 0;
    for digit in text.iter().rev() {
        let (mut first, mut second) = (0, 0);
        if *digit != b'0' {
            held -= 1;
            first = stack[3 * held] + 1;
        }
        if *digit == b'2' {
            held -= 1;
            second = stack[3 * held] + 1;
        }
        stack[3 * held] = make(table, made, nodes, (first, second))?;
        held += 1;
    }
    Some(stack[0])
}

#[inline(never)]
pub fn read(table: &mut [u32], used: usize, stack: &mut [u32], text: &[u8]) -> Answer {
    let mut nodes = match check(table, used, stack) {
        Ok(nodes) => nodes,
        Err(number) => return refused(number, used),
    };
    let Some(most) = most_pending(text) else {
        return refused(4, used);
    };
    if stack.len() / 3 < most {
        stack.fill(0);
        return refused(9, used);
    }
    let mut made = used;
    let node = lay_text(table, &mut made, &mut nodes, stack, text);
    stack.fill(0);
    answer(table, used, made, node)
}

/// A load from a seed: refusal, and the digits written.
#[inline(never)]
pub fn generate(seed: u32, digits: usize, out: &mut [u8]) -> [usize; 2] {
    if !(1..=4_095).contains(&digits) {
        return [0, 0];
    }
    let Some(place) = out.get_mut(..digits) else {
        return [10, 0];
    };
    let (mut state, mut wanted) = (seed, 1);
    for (byte, left) in place.iter_mut().zip((0..digits as u32).rev()) {
        state = state.wrapping_mul(1_664_525).wrapping_add(1_013_904_223);
        // From a leaf, unless it would be the whole too early, to as many trees as digits are left.
        let low = u32::from(wanted == 1 && left > 0);
        let high = (left + 1 - wanted).min(2);
        let digit = low + (state >> 16) % (high - low + 1);
        wanted = wanted + digit - 1;
        *byte = b'0' + digit as u8;
    }
    [0, digits]
}

/// Goes through a tree's digits and hands each to `put`; how many there are, or what was lacking.
fn digits(
    table: &[u32],
    stack: &mut [u32],
    node: usize,
    room: usize,
    mut put: impl FnMut(usize, u8),
) -> Result<usize, usize> {
    let frames = stack.len() / 3;
    let (mut at, mut held, mut done) = (node, 0, 0);
    loop {
        if done == room {
            return Err(10);
        }
        let (a, b) = (table[2 * at], table[2 * at + 1]);
        if a == 0 {
            put(done, b'0');
            done += 1;
            if held == 0 {
                return Ok(done);
            }
            held -= 1;
            at = stack[3 * held] as usize;
            continue;
        }
        if b == 0 {
            put(done, b'1');
        } else {
            if held == frames {
                return Err(9);
            }
            put(done, b'2');
            stack[3 * held] = b - 1;
            held += 1;
        }
        done += 1;
        at = a as usize - 1;
    }
}

#[inline(never)]
pub fn write(table: &[u32], used: usize, stack: &mut [u32], node: usize, out: &mut [u8]) -> Answer {
    if out.len() > 65_535 {
        return refused(1, used);
    }
    if let Err(number) = check(table, used, stack) {
        return refused(number, used);
    }
    if node >= used {
        return refused(3, used);
    }
    // A refusal leaves the out bytes as they were, so the digits are gone through twice.
    let measured = digits(table, stack, node, out.len(), |_, _| {});
    let written = measured.and_then(|_| {
        let room = out.len();
        digits(table, stack, node, room, |i, digit| out[i] = digit)
    });
    stack.fill(0);
    match written {
        Ok(n) => [0, 0, used, 0, n],
        Err(number) => refused(number, used),
    }
}

#[inline(never)]
pub fn apply(
    table: &mut [u32],
    used: usize,
    stack: &mut [u32],
    function: usize,
    argument: usize,
    limit: usize,
) -> Counted {
    if limit > 1_000_000 {
        return refused_uses(1, used);
    }
    let mut nodes = match check(table, used, stack) {
        Ok(nodes) => nodes,
        Err(number) => return refused_uses(number, used),
    };
    if function >= used || argument >= used {
        return refused_uses(3, used);
    }
    let frames = stack.len() / 3;
    let (mut f, mut n) = (function, argument);
    let (mut made, mut held, mut steps) = (used, 0, 0);
    let (mut leaf, mut stem, mut drop, mut spread, mut triage) = (0, 0, 0, 0, 0);
    let ended = loop {
        if steps == limit {
            break Err(7);
        }
        let (a, b) = (table[2 * f] as usize, table[2 * f + 1] as usize);
        let v;
        if a == 0 || b == 0 {
            let words = if a == 0 {
                leaf += 1;
                (n as u32 + 1, 0)
            } else {
                stem += 1;
                (a as u32, n as u32 + 1)
            };
            let Some(node) = make(table, &mut made, &mut nodes, words) else {
                break Err(8);
            };
            v = node as usize;
        } else {
            let at = 2 * (a - 1);
            let (p, q) = (table[at] as usize, table[at + 1] as usize);
            if p == 0 {
                drop += 1;
                v = b - 1;
            } else {
                if held == frames {
                    break Err(9);
                }
                let frame = &mut stack[3 * held..3 * held + 3];
                held += 1;
                steps += 1;
                if q == 0 {
                    spread += 1;
                    frame.copy_from_slice(&[0, p as u32 - 1, n as u32]);
                    f = b - 1;
                } else {
                    triage += 1;
                    frame[..2].copy_from_slice(&[2, q as u32 - 1]);
                    f = n;
                    n = p - 1;
                }
                continue;
            }
        }
        steps += 1;
        if held == 0 {
            break Ok(v);
        }
        let frame = &mut stack[3 * held - 3..3 * held];
        match frame[0] {
            0 => {
                (f, n) = (frame[1] as usize, frame[2] as usize);
                frame[0] = 1;
                frame[1] = v as u32;
            }
            1 => {
                (f, n) = (frame[1] as usize, v);
                held -= 1;
            }
            _ => {
                (f, n) = (v, frame[1] as usize);
                held -= 1;
            }
        }
    };
    stack.fill(0);
    match ended {
        Ok(v) => [0, v, made, steps, 0, leaf, stem, drop, spread, triage],
        Err(number) => {
            table[2 * used..2 * made].fill(0);
            refused_uses(number, used)
        }
    }
}

// ---- Translate

enum Term {
    Leaf,
    Variable(usize),
    Apply(Box<Term>, Box<Term>),
    Abstract(Box<Term>),
}

fn parse(bytes: &mut &[u8], around: usize) -> Option<Term> {
    let (tag, rest) = bytes.split_first()?;
    *bytes = rest;
    match tag {
        0 => Some(Term::Leaf),
        1 => {
            let function = parse(bytes, around)?;
            let argument = parse(bytes, around)?;
            Some(Term::Apply(Box::new(function), Box::new(argument)))
        }
        2 if around < 16 => Some(Term::Abstract(Box::new(parse(bytes, around + 1)?))),
        3 => {
            let (index, rest) = bytes.split_first()?;
            *bytes = rest;
            let index = usize::from(*index);
            (index < around).then_some(Term::Variable(index))
        }
        _ => None,
    }
}

/// The leaves and variables of the translation, and how many are each variable.
fn size(term: &Term) -> (u64, [u64; 17]) {
    let mut of = [0; 17];
    match term {
        Term::Leaf => (1, of),
        Term::Variable(i) => {
            of[*i] = 1;
            (1, of)
        }
        Term::Apply(f, a) => {
            let ((k, fs), (l, gs)) = (size(f), size(a));
            for (sum, (f, g)) in of.iter_mut().zip(fs.iter().zip(gs)) {
                *sum = f + g;
            }
            (k + l, of)
        }
        Term::Abstract(body) => {
            let (k, inner) = size(body);
            of[..16].copy_from_slice(&inner[1..]);
            (5 * k - 2 + 2 * inner[0], of)
        }
    }
}

fn applied(f: Term, a: Term) -> Term {
    Term::Apply(Box::new(f), Box::new(a))
}

fn spread_of(a: Term, b: Term) -> Term {
    applied(applied(Term::Leaf, applied(Term::Leaf, a)), b)
}

fn constant(a: Term) -> Term {
    applied(applied(Term::Leaf, Term::Leaf), a)
}

fn translated(term: Term) -> Term {
    match term {
        Term::Apply(f, a) => applied(translated(*f), translated(*a)),
        Term::Abstract(body) => abstracted(translated(*body)),
        other => other,
    }
}

fn abstracted(term: Term) -> Term {
    match term {
        Term::Variable(0) => spread_of(Term::Leaf, applied(Term::Leaf, Term::Leaf)),
        Term::Variable(i) => constant(Term::Variable(i - 1)),
        Term::Apply(u, v) => spread_of(abstracted(*v), abstracted(*u)),
        other => constant(other),
    }
}

/// Lays the tree of a closed term, second branch first; its node.
fn lay(table: &mut [u32], made: &mut usize, nodes: &mut Nodes, term: &Term) -> Option<u32> {
    let words = match term {
        Term::Apply(f, a) => match &**f {
            Term::Apply(_, p) => {
                let second = lay(table, made, nodes, a)? + 1;
                (lay(table, made, nodes, p)? + 1, second)
            }
            _ => (lay(table, made, nodes, a)? + 1, 0),
        },
        _ => (0, 0),
    };
    make(table, made, nodes, words)
}

#[inline(never)]
pub fn translate(table: &mut [u32], used: usize, stack: &mut [u32], bytes: &[u8]) -> Answer {
    let mut nodes = match check(table, used, stack) {
        Ok(nodes) => nodes,
        Err(number) => return refused(number, used),
    };
    let mut rest = bytes;
    let rule = if bytes.len() <= 4_096 && bytes.first() == Some(&2) {
        parse(&mut rest, 0).filter(|_| rest.is_empty())
    } else {
        None
    };
    let Some(rule) = rule else {
        return refused(5, used);
    };
    let (n, _) = size(&rule);
    stack.fill(0);
    if ((stack.len() / 3) as u64) < 2 * n {
        return refused(9, used);
    }
    let mut made = used;
    let node = lay(table, &mut made, &mut nodes, &translated(rule));
    answer(table, used, made, node)
}
