//! Measures the engine beside a C loop, plain Rust and the second evaluator, and how its time grows.
//! Prints tables in Markdown, and writes the plot to the path it is given.
//!
//! `bench [PLOT.svg]`
//!
//! Or measures Apply, Read and Run beside another build of the library, and prints these tables alone:
//!
//! `bench --beside OTHER/target/staticlib/libffi.a`
//!
//! Or measures what the digits of loads cost, and prints that alone:
//!
//! `bench --loads`
//!
//! Or measures what codes cost, and prints that alone:
//!
//! `bench --codes`
//!
//! Or measures what making each tree once costs: Apply beside the C loop, how the time of a step grows with
//! the nodes, nodes that meet in one place of the index, and, if it is given, another build:
//!
//! `bench --sharing [OTHER/target/staticlib/libffi.a]`

mod beside;
mod c;
mod codes;
mod evaluator;
mod growing;
mod loads;
mod measure;
mod meeting;
mod places;
mod plain;
mod plot;
mod reader;
mod rule_text;
mod workloads;

use compare::packets::{self, Case};
use compare::random::Random;
use compare::trees;
use compare::{answer_of, PAPERS};
use measure::{contender, rounds, Contender, Times};
use places::PLACES;
use std::cell::RefCell;
use std::hint::black_box;
use workloads::Workload;

const ROUNDS: usize = 101;

/// Prints a row for each contender after the engine: the engine's speed beside it.
fn rows(what: &str, times: &[Times]) {
    let engine = &times[0];
    for other in &times[1..] {
        let [low, middle, high] = other.speed_of(engine);
        println!(
            "| {what} | {} | {:.3} | {:.3} | {middle:.2} | {low:.2} to {high:.2} |",
            other.name,
            1e6 * engine.median(),
            1e6 * other.median()
        );
    }
}

fn head(title: &str) {
    println!("\n### {title}\n");
    println!("| Work | Beside | Engine, µs | Other, µs | Speed | Quartiles |");
    println!("|---|---|---|---|---|---|");
}

fn apply() {
    println!("\n### Apply\n");
    for (i, workload) in workloads::all().into_iter().enumerate() {
        let (name, steps) = (workload.name, steps(&workload));
        let times = applied(workload);
        let engine = &times[0];
        if i == 0 {
            let others: Vec<&str> = times[1..].iter().map(|other| other.name).collect();
            println!("| Work | Steps | Engine, µs | {} |", others.join(" | "));
            println!("|{}", "---|".repeat(times.len() + 2));
        }
        let beside = times[1..].iter().map(|other| {
            let [low, middle, high] = other.speed_of(engine);
            format!("{middle:.2} ({low:.2} to {high:.2})")
        });
        let beside: Vec<String> = beside.collect();
        let engine = 1e6 * engine.median() / PLACES.len() as f64;
        println!(
            "| {name} | {steps} | {engine:.3} | {} |",
            beside.join(" | ")
        );
    }
}

fn steps(workload: &Workload) -> usize {
    // A refusal tells no steps: the model counts them where a limit is not what stopped it.
    match workload.answer[0] {
        0 => workload.answer[3],
        7 => workload.limit,
        _ => {
            let mut low = 0;
            let mut high = workload.limit;
            while low < high {
                let middle = (low + high) / 2;
                let mut table = workload.table.clone();
                let mut stack = workload.stack.clone();
                let numbers = lazvorn::apply(
                    &mut table,
                    workload.used,
                    &mut stack,
                    workload.function,
                    workload.argument,
                    middle,
                );
                if numbers.refusal == 7 {
                    low = middle + 1;
                } else {
                    high = middle;
                }
            }
            low - 1
        }
    }
}

/// A run of a contender is a call at each place of its code, and as many calls where it has one place.
fn applied(workload: Workload) -> Vec<Times> {
    let expected = workload.answer;
    let packet = workload.parts.packet();
    let room = second::Room {
        nodes: workload.table.len() / 2,
        frames: workload.stack.len() / 3,
        out: 65_535,
    };
    let (mut table, mut stack) = (workload.table.clone(), workload.stack.clone());
    let mut out = vec![0; 65_535];
    let ran = lazvorn::run(&mut table, &mut stack, &mut out, &packet);
    same_run(&ran, &out, &second::run(&packet, room, PAPERS));
    let cell = RefCell::new(workload);
    let mut contenders: Vec<Contender> = Vec::new();
    for (name, places) in c::applies() {
        let cell = &cell;
        contenders.push(contender(name, move || {
            for apply in places {
                assert_eq!(call(apply, &mut cell.borrow_mut()), expected);
            }
        }));
    }
    contenders.push(contender("safe Rust, same checks", || {
        for _ in PLACES {
            let w = &mut *cell.borrow_mut();
            let answer = plain::apply(
                &mut w.table,
                w.used,
                &mut w.stack,
                w.function,
                w.argument,
                w.limit,
            );
            assert_eq!(answer, expected);
        }
    }));
    contenders.push(contender("second evaluator, its whole run", || {
        for _ in PLACES {
            black_box(second::run(&packet, room, PAPERS).is_ok());
        }
    }));
    rounds(contenders, ROUNDS)
}

fn call(apply: c::Apply, w: &mut Workload) -> [usize; 10] {
    let mut answer = [0; 10];
    // The pointers and lengths are those of slices that nothing else borrows. The C loop trusts the
    // table and the numbers, which the engine has checked.
    unsafe {
        apply(
            w.table.as_mut_ptr(),
            w.table.len(),
            w.used,
            w.stack.as_mut_ptr(),
            w.stack.len(),
            w.function,
            w.argument,
            w.limit,
            &mut answer,
        )
    };
    answer
}

/// A tree's text of exactly so many digits.
fn text(random: &mut Random, digits: usize) -> Vec<u8> {
    let tree = trees::tree(random, digits);
    [vec![b'1'; digits - tree.len()], tree].concat()
}

/// A tree's text of exactly so many digits, an even number, that repeats itself: a processor foresees
/// each digit.
fn regular(digits: usize) -> Vec<u8> {
    [b"20".repeat(digits / 2 - 1), b"10".to_vec()].concat()
}

fn reading(text: &[u8]) -> Vec<Times> {
    let (mut table, mut stack) = (vec![0; 131_072], vec![0; 65_535]);
    let (mut other_table, mut other_stack) = (table.clone(), stack.clone());
    let read = lazvorn::read(&mut table, 0, &mut stack, text);
    let plain = plain::read(&mut other_table, 0, &mut other_stack, text);
    assert_eq!(answer_of(read), plain);
    assert!(table == other_table && stack == other_stack);
    rounds(
        vec![
            contender("engine", || {
                let again = lazvorn::read(&mut table, 0, &mut stack, text);
                assert_eq!(again, read);
            }),
            contender("plain Rust, same checks", || {
                let again = plain::read(&mut other_table, 0, &mut other_stack, text);
                assert_eq!(again, plain);
            }),
        ],
        ROUNDS,
    )
}

fn writing(text: &[u8]) -> Vec<Times> {
    let (mut table, mut stack) = (vec![0; 131_072], vec![0; 65_535]);
    let read = lazvorn::read(&mut table, 0, &mut stack, text);
    let (table, mut out) = (table, vec![0; 65_535]);
    let (mut other_stack, mut other_out) = (stack.clone(), out.clone());
    let written = lazvorn::write(&table, read.used, &mut stack, read.node, &mut out);
    let plain = plain::write(
        &table,
        read.used,
        &mut other_stack,
        read.node,
        &mut other_out,
    );
    assert_eq!(answer_of(written), plain);
    assert!(out == other_out && stack == other_stack);
    rounds(
        vec![
            contender("engine", || {
                let written = lazvorn::write(&table, read.used, &mut stack, read.node, &mut out);
                assert_eq!(written.digits, text.len());
            }),
            contender("plain Rust, same checks", || {
                let (node, used) = (read.node, read.used);
                let written = plain::write(&table, used, &mut other_stack, node, &mut other_out);
                assert_eq!(written[4], text.len());
            }),
        ],
        ROUNDS,
    )
}

/// The rule λx. x x .. x with so many variables.
fn wide_rule(variables: usize) -> Vec<u8> {
    let mut rule = vec![2];
    rule.extend(vec![1; variables - 1]);
    rule.extend([3, 0].repeat(variables));
    rule
}

/// The rule of so many nested abstractions over the leaf.
fn deep_rule(nested: usize) -> Vec<u8> {
    [vec![2; nested], vec![0]].concat()
}

fn translating(rule: &[u8]) -> (usize, Vec<Times>) {
    let (mut table, mut stack) = (vec![0; 131_072], vec![0; 65_535]);
    let (mut other_table, mut other_stack) = (table.clone(), stack.clone());
    let made = lazvorn::translate(&mut table, 0, &mut stack, rule);
    assert_eq!(made.refusal, 0);
    let plain = plain::translate(&mut other_table, 0, &mut other_stack, rule);
    assert_eq!(answer_of(made), plain);
    assert!(table == other_table && stack == other_stack);
    let times = rounds(
        vec![
            contender("engine", || {
                let translated = lazvorn::translate(&mut table, 0, &mut stack, rule);
                assert_eq!(translated, made);
            }),
            contender("plain Rust, same checks", || {
                let translated = plain::translate(&mut other_table, 0, &mut other_stack, rule);
                assert_eq!(translated, answer_of(made));
            }),
        ],
        ROUNDS,
    );
    (made.used, times)
}

fn texts_and_rules() {
    head("Read, Write and Translate");
    let mut random = Random::new(1);
    let texts = [
        ("random tree", text(&mut random, 60_000)),
        ("regular tree", regular(60_000)),
    ];
    for (what, text) in &texts {
        rows(&format!("Read, 60,000 digits, {what}"), &reading(text));
        rows(&format!("Write, 60,000 digits, {what}"), &writing(text));
    }
    for (what, rule) in [
        ("wide rule", wide_rule(1_365)),
        ("nested rule", deep_rule(5)),
        ("the paper's rule", vec![2, 1, 3, 0, 3, 0]),
    ] {
        let (nodes, times) = translating(&rule);
        let what = format!("Translate, {what}, {} bytes to {nodes} nodes", rule.len());
        rows(&what, &times);
    }
}

/// The second evaluator gives the engine's steps, nodes and text, or its refusal.
fn same_run(ran: &lazvorn::Counted, out: &[u8], second: &Result<second::Outcome, u8>) {
    match second {
        Ok(o) => {
            let text = &out[..ran.digits];
            assert_eq!(
                (ran.refusal, ran.steps, ran.used),
                (0, o.steps as usize, o.used)
            );
            assert_eq!(text, o.text.as_bytes());
        }
        Err(number) => assert_eq!(ran.refusal, usize::from(*number)),
    }
}

fn running(what: &str, cases: &[Case]) {
    let room = packets::PROGRAM;
    let (mut table, mut stack, mut out) =
        (vec![0; room.table], vec![0; room.stack], vec![0; room.out]);
    for case in cases {
        let ran = lazvorn::run(&mut table, &mut stack, &mut out, &case.packet);
        same_run(
            &ran,
            &out,
            &second::run(&case.packet, second::PROGRAM, PAPERS),
        );
    }
    let times = rounds(
        vec![
            contender("engine", || {
                for case in cases {
                    let ran = lazvorn::run(&mut table, &mut stack, &mut out, &case.packet);
                    black_box(ran);
                }
            }),
            contender("second evaluator", || {
                for case in cases {
                    black_box(second::run(&case.packet, second::PROGRAM, PAPERS).is_ok());
                }
            }),
        ],
        ROUNDS / 8,
    );
    rows(what, &times);
}

/// Packets as `compare` makes them.
fn compared() -> Vec<Case> {
    let mut random = Random::new(20_261_115);
    (0..2_000).map(|_| packets::case(&mut random)).collect()
}

fn packets() {
    head("Run");
    let cases = compared();
    running("2,000 packets as they are compared", &cases);
    let runs = |case: &&Case| second::run(&case.packet, second::PROGRAM, PAPERS).is_ok();
    let cases: Vec<Case> = cases.iter().filter(runs).cloned().collect();
    running(&format!("the {} of them that succeed", cases.len()), &cases);
}

// ---- growth

/// Memory to lend.
#[derive(PartialEq)]
struct Memory {
    table: Vec<u32>,
    stack: Vec<u32>,
    out: Vec<u8>,
}

/// The most words that a table may have, whole frames and the most out bytes.
fn memory() -> Memory {
    Memory {
        table: vec![0; 131_072],
        stack: vec![0; 65_535],
        out: vec![0; 65_535],
    }
}

/// A call of some size.
type Call = (usize, Box<dyn FnMut()>);

fn read_call(text: Vec<u8>) -> Call {
    let mut m = memory();
    let size = text.len();
    let call = move || {
        let read = lazvorn::read(&mut m.table, 0, &mut m.stack, &text);
        assert_eq!(read.refusal, 0);
    };
    (size, Box::new(call))
}

fn write_call(text: Vec<u8>) -> Call {
    let mut m = memory();
    let read = lazvorn::read(&mut m.table, 0, &mut m.stack, &text);
    let size = text.len();
    let call = move || {
        let written = lazvorn::write(&m.table, read.used, &mut m.stack, read.node, &mut m.out);
        assert_eq!(written.digits, text.len());
    };
    (size, Box::new(call))
}

fn translate_call(rule: Vec<u8>) -> Call {
    let mut m = memory();
    let made = lazvorn::translate(&mut m.table, 0, &mut m.stack, &rule);
    assert_eq!(made.refusal, 0);
    let call = move || {
        let translated = lazvorn::translate(&mut m.table, 0, &mut m.stack, &rule);
        assert_eq!(translated, made);
    };
    (made.used, Box::new(call))
}

fn apply_call(limit: usize) -> Call {
    let mut workload = workloads::endless(limit);
    let call = move || {
        black_box(workload.apply());
    };
    (limit, Box::new(call))
}

fn run_call(text: Vec<u8>) -> Call {
    let parts = packets::Parts {
        rule: vec![2, 3, 0],
        arguments: vec![text],
        limit: None,
        label: None,
    };
    let packet = parts.packet();
    let mut m = memory();
    let size = packet.len();
    let call = move || {
        let ran = lazvorn::run(&mut m.table, &mut m.stack, &mut m.out, &packet);
        assert_eq!(ran.refusal, 0);
    };
    (size, Box::new(call))
}

/// The time of each call, where all sizes take turns.
fn line(name: &'static str, calls: Vec<Call>) -> plot::Line {
    let sizes: Vec<usize> = calls.iter().map(|call| call.0).collect();
    let calls = calls.into_iter().map(|(_, run)| contender(name, run));
    let times = rounds(calls.collect(), ROUNDS);
    let points = sizes.iter().zip(&times);
    let points = points.map(|(&size, times)| (size as f64, times.median()));
    plot::Line {
        name,
        points: points.collect(),
    }
}

fn growth() -> Vec<plot::Line> {
    let mut random = Random::new(2);
    let digits = [500, 1_000, 2_000, 4_000, 8_000, 16_000, 32_000, 64_000];
    let steps = [1_000, 2_000, 4_000, 8_000, 16_000, 32_000, 64_000, 128_000];
    let variables = [25, 50, 100, 200, 400, 800, 1_365];
    let texts = digits.map(|n| text(&mut random, n));
    let read = texts.iter().cloned().map(read_call).collect();
    let write = texts.iter().cloned().map(write_call).collect();
    // A packet has at most 16,384 bytes.
    let run = texts.iter().take(6).cloned().map(run_call).collect();
    let translate = variables.map(|n| translate_call(wide_rule(n)));
    vec![
        line("Read (digits)", read),
        line("Write (digits)", write),
        line("Translate (nodes)", translate.into()),
        line("Apply (steps)", steps.map(apply_call).into()),
        line("Run (packet bytes)", run),
    ]
}

/// The slope of a line through the points, by least squares: what one more unit of size costs.
fn slope(points: &[(f64, f64)]) -> f64 {
    let n = points.len() as f64;
    let mean = |of: fn(&(f64, f64)) -> f64| points.iter().map(of).sum::<f64>() / n;
    let (x, y) = (mean(|p| p.0), mean(|p| p.1));
    let above: f64 = points.iter().map(|p| (p.0 - x) * (p.1 - y)).sum();
    let below: f64 = points.iter().map(|p| (p.0 - x) * (p.0 - x)).sum();
    above / below
}

fn print_growth(lines: &[plot::Line]) {
    println!("\n### How time grows with size\n");
    println!("| Operation | Size: µs for a call, ns for each unit more than the size before |");
    println!("|---|---|");
    for line in lines {
        let mut cells = Vec::new();
        let mut last: Option<(f64, f64)> = None;
        for &(size, seconds) in &line.points {
            let added = last.map_or(String::new(), |(s, t)| {
                format!(", {:.2}", 1e9 * (seconds - t) / (size - s))
            });
            cells.push(format!("{size}: {:.1}{added}", 1e6 * seconds));
            last = Some((size, seconds));
        }
        println!("| {} | {} |", line.name, cells.join(" · "));
    }
    println!("\n| Operation | ns a unit, lower half of the sizes | upper half |");
    println!("|---|---|---|");
    for line in lines {
        let middle = line.points.len() / 2;
        println!(
            "| {} | {:.2} | {:.2} |",
            line.name,
            1e9 * slope(&line.points[..=middle]),
            1e9 * slope(&line.points[middle..])
        );
    }
}

fn sharing(archive: Option<String>) {
    apply();
    growing::growing();
    meeting::meeting();
    if let Some(archive) = archive {
        beside::beside(archive.as_ref());
    }
}

fn bench() {
    let mut arguments = std::env::args().skip(1);
    let path = arguments.next();
    let archive = arguments.next();
    match path.as_deref() {
        Some("--beside") => {
            let archive = archive.expect("the other build's libffi.a");
            return beside::beside(archive.as_ref());
        }
        Some("--loads") => return loads::loads(),
        Some("--codes") => return codes::codes(),
        Some("--sharing") => return sharing(archive),
        _ => {}
    }
    apply();
    texts_and_rules();
    rule_text::rule_text();
    loads::loads();
    codes::codes();
    packets();
    let lines = growth();
    print_growth(&lines);
    if let Some(path) = path {
        let svg = plot::svg(
            "Time of one call by the size of its input",
            "digits, nodes, steps or bytes",
            &lines,
        );
        std::fs::write(&path, svg).expect("the plot is written");
    }
}

fn main() {
    // The second evaluator recurses as deep as trees and frames go.
    let thread = std::thread::Builder::new().stack_size(1 << 30);
    thread
        .spawn(bench)
        .expect("a thread")
        .join()
        .expect("the benchmark ends");
}
