//! A branch-first self-evaluator as a tree: applied to a program and an argument, it gives the tree
//! that the program gives on the argument. It has the cases of source 001, section 6.4, but recurses
//! by a wait of its own and has no `eager`, since branch-first an argument is evaluated anyway.

/// A term of leaves, named variables and applications.
#[derive(Clone)]
enum Term {
    Leaf,
    Variable(char),
    Application(Box<Term>, Box<Term>),
}

use Term::{Application, Leaf, Variable};

fn term(parts: &[&Term]) -> Term {
    let mut parts = parts.iter().map(|part| (*part).clone());
    let first = parts.next().expect("a part");
    parts.fold(first, |f, a| Application(Box::new(f), Box::new(a)))
}

fn constant(value: &Term) -> Term {
    term(&[&Leaf, &Leaf, value])
}

fn identity() -> Term {
    let k = term(&[&Leaf, &Leaf]);
    term(&[&Leaf, &k, &k])
}

fn has(t: &Term, x: char) -> bool {
    match t {
        Leaf => false,
        Variable(y) => *y == x,
        Application(f, a) => has(f, x) || has(a, x),
    }
}

/// Star abstraction (section 4.2): bracket abstraction with its two shortcuts.
fn star(x: char, t: &Term) -> Term {
    match t {
        Variable(y) if *y == x => identity(),
        t if !has(t, x) => constant(t),
        Application(f, a) if matches!(**a, Variable(y) if y == x) && !has(f, x) => (**f).clone(),
        Application(f, a) => {
            let stem = term(&[&Leaf, &star(x, a)]);
            term(&[&Leaf, &stem, &star(x, f)])
        }
        _ => unreachable!("a leaf has no variable"),
    }
}

fn stars(xs: &str, t: &Term) -> Term {
    xs.chars().rev().fold(t.clone(), |t, x| star(x, &t))
}

/// A term that waits for an argument before it applies f to a (section 4.4).
fn wait(f: &Term, a: &Term) -> Term {
    let inner = term(&[&Leaf, &term(&[&Leaf, &constant(a)]), &constant(f)]);
    term(&[&Leaf, &term(&[&Leaf, &identity()]), &inner])
}

/// Applies `leaf` to nothing, `stem` to the branch or `fork` to the two branches of an argument
/// (section 5.7), with the choice made before either side is evaluated.
fn triage(leaf: &Term, stem: &Term, fork: &Term) -> Term {
    let z = Variable('z');
    let zero = constant(&constant(&Leaf));
    let is_stem = term(&[&Leaf, &z, &Leaf, &zero]);
    let others = star('z', &term(&[&Leaf, &z, leaf, fork]));
    let branch = star('x', &constant(&term(&[stem, &Variable('x')])));
    let probed = term(&[&Leaf, &term(&[&z, &Leaf]), &Leaf, &branch]);
    let stems = constant(&constant(&star('z', &probed)));
    star('z', &term(&[&Leaf, &is_stem, &others, &stems, &z]))
}

/// The digits of a term without variables whose applications only make stems and forks.
fn text(t: &Term) -> Vec<u8> {
    let (mut head, mut arguments) = (t, Vec::new());
    while let Application(f, a) = head {
        arguments.push(a);
        head = f;
    }
    assert!(matches!(head, Leaf) && arguments.len() <= 2);
    let mut digits = vec![b'0' + arguments.len() as u8];
    for argument in arguments.iter().rev() {
        digits.extend(text(argument));
    }
    digits
}

/// The text of the self-evaluator.
pub fn evaluator() -> Vec<u8> {
    let [b, w, x, y, z] = ['b', 'w', 'x', 'y', 'z'].map(Variable);
    let first = term(&[&b, &y, &z]);
    let second = term(&[&b, &x, &z]);
    let on_leaf = stars("ybz", &y);
    let on_stem = stars("xybz", &term(&[&b, &first, &second]));
    let probed = term(&[&b, &z, &w]);
    let on_fork = stars("wxybz", &term(&[&b, &probed, &x]));
    let on_first = triage(&on_leaf, &on_stem, &on_fork);
    let f = Variable('f');
    let whole = stars("xy", &term(&[&on_first, &x, &y]));
    let same = constant(&f);
    let by_shape = triage(&same, &stars("x", &constant(&term(&[&Leaf, &x]))), &whole);
    let s = Variable('s');
    let again = wait(&s, &s);
    let step = stars("sf", &term(&[&by_shape, &f, &again]));
    text(&wait(&step, &step))
}
