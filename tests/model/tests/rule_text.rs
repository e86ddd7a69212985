//! The model's reader of rule text against document 02: each operator's tree, what each operator
//! means, how operators group, and one text or more for each refusal.

use model::rule_text::{read, rule_text, term_bytes, Expression};
use model::Memory;

/// Runs a test on a stack that the deepest text cannot fill.
fn on_a_large_stack(test: fn()) {
    let thread = std::thread::Builder::new().stack_size(1 << 28);
    let done = thread.spawn(test).expect("a thread").join();
    assert!(done.is_ok());
}

/// What a text is refused with where out is long enough, or 0.
fn refusal(text: &[u8]) -> usize {
    rule_text(text, &mut [0; 4_096])[0]
}

/// The bytes of the rule that a text is.
fn bytes(text: &str) -> Vec<u8> {
    let mut out = vec![0; 4_096];
    let [refusal, written] = rule_text(text.as_bytes(), &mut out);
    assert_eq!(refusal, 0, "{text}");
    out.truncate(written);
    out
}

fn leaves(expression: &Expression) -> usize {
    let term = term_bytes(expression);
    term.iter().filter(|byte| **byte == 0).count()
}

#[test]
fn leaves_of_the_trees() {
    let leaf = || Expression::Leaf;
    assert_eq!(leaves(&leaf().and(leaf())), 11 + 2);
    assert_eq!(leaves(&leaf().or(leaf())), 11 + 2);
    assert_eq!(leaves(&leaf().implies(leaf())), 6 + 2);
    assert_eq!(leaves(&leaf().negated()), 22 + 1);
}

#[test]
fn bytes_of_the_trees() {
    // K = ΔΔ is 1 0 0, and I = Δ(ΔΔ)(ΔΔ) is 1 1 0 100 100.
    let k = "100";
    let i = "110100100";
    // Δ(Δ(KK)) and Δ(Δ(K(KI))).
    let implies = format!("10101{k}{k}");
    let and = format!("10101{k}1{k}{i}");
    let term = |text| -> String {
        let bytes = bytes(text);
        bytes.iter().map(|byte| byte.to_string()).collect()
    };
    assert_eq!(term(r"\x.x&^"), format!("211{and}300"));
    assert_eq!(term(r"\x.x|^"), format!("2111{implies}{i}300"));
    assert_eq!(term(r"\x.x>^"), format!("211{implies}300"));
    assert_eq!(term(r"\x.!x"), format!("211{implies}1{and}{i}30"));
}

/// The text of what a rule gives on arguments.
fn given(rule: &[u8], arguments: &[&str]) -> String {
    let mut packet = vec![1, 0, rule.len() as u8];
    packet.extend(rule);
    for argument in arguments {
        packet.extend([2, 0, argument.len() as u8]);
        packet.extend(argument.bytes());
    }
    let mut memory = Memory {
        table: vec![0; 65_536],
        stack: vec![0; 65_535],
        out: vec![0; 100],
    };
    let answer = model::run(&mut memory, &packet);
    assert_eq!(answer[0], 0);
    String::from_utf8_lossy(&memory.out[..answer[4]]).into_owned()
}

#[test]
fn truth_of_the_operators() {
    on_a_large_stack(|| {
        // Section 5.5 of 001: true is K and false is KI.
        let text = |truth| if truth { "10" } else { "2021010" };
        for a in [false, true] {
            assert_eq!(given(&bytes(r"\x.!x"), &[text(a)]), text(!a));
            for b in [false, true] {
                let given = |rule| given(&bytes(rule), &[text(a), text(b)]);
                assert_eq!(given(r"\x.\y.x & y"), text(a && b));
                assert_eq!(given(r"\x.\y.x | y"), text(a || b));
                assert_eq!(given(r"\x.\y.x > y"), text(!a || b));
            }
        }
    });
}

#[test]
fn grouping() {
    let same = [
        (r"\x.\y.x y x", r"\x.\y.((x y) x)"),
        (r"\x.\y.!x y", r"\x.\y.!(x y)"),
        (r"\x.!!x", r"\x.!(!x)"),
        (r"\x.\y.!x & y", r"\x.\y.(!x) & y"),
        (r"\x.\y.x & y & x", r"\x.\y.(x & y) & x"),
        (r"\x.\y.x | y | x", r"\x.\y.(x | y) | x"),
        (r"\x.\y.x > y > x", r"\x.\y.x > (y > x)"),
        (r"\x.\y.x | y & x", r"\x.\y.x | (y & x)"),
        (r"\x.\y.x & y | x", r"\x.\y.(x & y) | x"),
        (r"\x.\y.x > y | x", r"\x.\y.x > (y | x)"),
        (r"\x.\y.x | y > x", r"\x.\y.(x | y) > x"),
        (r"\f.f \x.x f", r"\f.f (\x.(x f))"),
        (r"\a.a & \x.x | a", r"\a.a & (\x.(x | a))"),
        (r"\a.!\x.x > a", r"\a.!(\x.(x > a))"),
        (r"\a.a > \x.x > a", r"\a.a > (\x.(x > a))"),
    ];
    for (short, long) in same {
        assert_eq!(bytes(short), bytes(long), "{short}");
    }
    let differ = [
        (r"\x.\y.x y x", r"\x.\y.x (y x)"),
        (r"\x.\y.!x y", r"\x.\y.(!x) y"),
        (r"\x.\y.x & y & x", r"\x.\y.x & (y & x)"),
        (r"\x.\y.x | y | x", r"\x.\y.x | (y | x)"),
        (r"\x.\y.x > y > x", r"\x.\y.(x > y) > x"),
        (r"\f.f \x.x f", r"\f.f (\x.x) f"),
    ];
    for (one, other) in differ {
        assert_ne!(bytes(one), bytes(other), "{one}");
    }
}

#[test]
fn names() {
    assert_eq!(bytes(r"\x.\y.x y"), [2, 2, 1, 3, 1, 3, 0]);
    assert_eq!(bytes(r"\x.\x.x"), [2, 2, 3, 0]);
    assert_eq!(bytes(r"\x.(\x.x) x"), [2, 1, 2, 3, 0, 3, 0]);
    assert_eq!(bytes(r"\ab.\a.ab a"), [2, 2, 1, 3, 1, 3, 0]);
    assert_eq!(bytes(r"\abcdefgh.abcdefgh"), [2, 3, 0]);
    assert_eq!(bytes(r"  \ x  . x ^ "), [2, 1, 3, 0, 0]);
    assert_eq!(bytes(r"(\x.x)"), [2, 3, 0]);
    assert_eq!(read(b"^"), Some(Expression::Leaf));
}

#[test]
fn outside_the_grammar() {
    let texts = [
        "",
        " ",
        "x",
        r"\x.y",
        r"\x.xx",
        r"\x.",
        r"\x",
        r"\.x",
        r"\x x",
        r"\x y.x",
        r"\\x.x",
        r"\^.^",
        r"\(x).x",
        r"\x.(x",
        r"\x.x)",
        r"\x.()",
        r"\x.x &",
        r"\x.& x",
        r"\x.x ! x",
        r"\x.x !",
        r"\x.!",
        r"\x.x && x",
        r"\x.x & | x",
        r"\x.x > > x",
        r"\x.x . x",
        r"\x.x . ",
        "\\x.x\n",
        "\\x.\tx",
        r"\X.X",
        r"\x.x0",
        r"\x1.x",
        r"\x.x, x",
        r"(\x.x) x",
        r"\x.x (\y.y) y",
        r"\abcdefghi.abcdefghi",
        r"\abcdefgh.\i.abcdefghi",
        "\\x.x\0",
        "\\x.\u{e9}",
        r"\x.\y.xy",
    ];
    for text in texts {
        assert_eq!(refusal(text.as_bytes()), 12, "{text}");
    }
}

#[test]
fn no_rule() {
    for text in [
        r"^",
        r"^^",
        r"!\x.x",
        r"(\x.x)\x.x",
        r"^&^",
        r"^|\x.x",
        r"(\x.x)>^",
    ] {
        assert_eq!(refusal(text.as_bytes()), 5, "{text}");
    }
}

#[test]
fn out() {
    let call = |length| {
        let mut out = [7; 9];
        (rule_text(br"\x.x ^", &mut out[..length]), out)
    };
    assert_eq!(call(5), ([0, 5], [2, 1, 3, 0, 0, 7, 7, 7, 7]));
    assert_eq!(call(8), call(5));
    assert_eq!(call(4), ([10, 0], [7; 9]));
    assert_eq!(rule_text(br"\x.y", &mut []), [12, 0]);
    assert_eq!(rule_text(b"^", &mut []), [5, 0]);
}

#[test]
fn deep_texts() {
    on_a_large_stack(|| {
        let deep = |open: &str, times, end: &str| [&open.repeat(times), end].concat().into_bytes();
        assert_eq!(refusal(&deep(r"\a.", 2_730, "a")), 5);
        assert_eq!(refusal(&deep(r"\a.", 2_730, "b")), 12);
        assert_eq!(refusal(&deep("!", 8_000, r"\a.a")), 5);
        assert_eq!(refusal(&deep("^>", 4_000, r"\a.a")), 5);
        assert_eq!(refusal(&deep("(", 8_192, "")), 12);
    });
}
