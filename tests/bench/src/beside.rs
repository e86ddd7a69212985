//! This build of the library beside another, on Apply, on Read, and on Run of packets whose time goes to
//! different things. The other build may be one that makes a tree more than once: outcomes are compared on
//! refusal, steps and text, and not on nodes.
//!
//! The other build is the archive that `rt staticlib ffi` writes in a checkout of another commit:
//!
//! ```sh
//! git worktree add OTHER COMMIT && (cd OTHER && rt staticlib ffi)
//! ```
//!
//! Like this build's, it is linked into a shared object for each place of its code, so that two
//! builds of the same code are equally fast.

use crate::c::{Apply, Build, Make, Placed, Run};
use crate::measure::{contender, rounds, Times};
use crate::places::PLACES;
use crate::workloads::{self, Workload};
use crate::{compared, head, rows, text, Memory, ROUNDS};
use compare::packets::{Case, Parts, Room, MOST, PROGRAM};
use compare::random::Random;
use compare::PAPERS;
use std::cell::RefCell;
use std::hint::black_box;
use std::path::Path;

/// What every build tells alike: refusal, steps and text.
type Told = (usize, usize, Vec<u8>);

/// How many numbers a call is lent for its answer. A build from before [5] writes the first five.
const LENT: usize = 10;

/// Memory of so much room, with no word 0.
fn memory(room: Room) -> Memory {
    Memory {
        table: vec![u32::MAX; room.table],
        stack: vec![u32::MAX; room.stack],
        out: vec![u8::MAX; room.out],
    }
}

// ---- calls of a build
// In each the pointers and lengths are those of slices that nothing else borrows.

fn make(make: Make, m: &mut Memory, used: usize, bytes: &[u8]) -> [usize; 5] {
    let (table, stack) = (&mut m.table, &mut m.stack);
    let mut answer = [0; 5];
    unsafe {
        make(
            table.as_mut_ptr(),
            table.len(),
            used,
            stack.as_mut_ptr(),
            stack.len(),
            bytes.as_ptr(),
            bytes.len(),
            &mut answer,
        )
    };
    answer
}

fn apply(apply: Apply, m: &mut Memory, used: usize, nodes: [usize; 2], limit: usize) -> [usize; 5] {
    let (table, stack) = (&mut m.table, &mut m.stack);
    let mut answer = [0; LENT];
    unsafe {
        apply(
            table.as_mut_ptr(),
            table.len(),
            used,
            stack.as_mut_ptr(),
            stack.len(),
            nodes[0],
            nodes[1],
            limit,
            &mut answer,
        )
    };
    std::array::from_fn(|i| answer[i])
}

/// The text of a node.
fn written(build: &Build, m: &mut Memory, used: usize, node: usize) -> Vec<u8> {
    let mut answer = [0; 5];
    unsafe {
        (build.write[0])(
            m.table.as_ptr(),
            m.table.len(),
            used,
            m.stack.as_mut_ptr(),
            m.stack.len(),
            node,
            m.out.as_mut_ptr(),
            m.out.len(),
            &mut answer,
        )
    };
    assert_eq!(answer[0], 0, "a text that can be written");
    m.out[..answer[4]].to_vec()
}

fn run(run: Run, m: &mut Memory, case: &Case) -> [usize; 5] {
    let table = &mut m.table[..case.room.table];
    let stack = &mut m.stack[..case.room.stack];
    let out = &mut m.out[..case.room.out];
    let mut answer = [0; LENT];
    unsafe {
        run(
            table.as_mut_ptr(),
            table.len(),
            stack.as_mut_ptr(),
            stack.len(),
            out.as_mut_ptr(),
            out.len(),
            case.packet.as_ptr(),
            case.packet.len(),
            &mut answer,
        )
    };
    std::array::from_fn(|i| answer[i])
}

/// A row of two contenders' times, each of as many calls as there are places.
fn row(what: &str, mut times: Vec<Times>) {
    for seconds in times.iter_mut().flat_map(|times| &mut times.seconds) {
        *seconds /= PLACES.len() as f64;
    }
    rows(what, &times);
}

// ---- Apply

/// An application as a build comes to it, with its own node numbers.
struct Prepared {
    memory: Memory,
    used: usize,
    nodes: [usize; 2],
    limit: usize,
}

impl Prepared {
    /// The last application of a workload's packet, in the workload's room.
    fn new(build: &Build, workload: &Workload) -> Self {
        let room = Room {
            table: workload.table.len(),
            stack: workload.stack.len(),
            out: MOST.out,
        };
        let (mut memory, limit) = (memory(room), workload.limit);
        let [refusal, mut function, mut used, ..] =
            make(build.translate[0], &mut memory, 0, &workload.parts.rule);
        assert_eq!(refusal, 0, "{}", workload.name);
        let mut arguments = Vec::new();
        for text in &workload.parts.arguments {
            let read = make(build.read[0], &mut memory, used, text);
            assert_eq!(read[0], 0, "{}", workload.name);
            used = read[2];
            arguments.push(read[1]);
        }
        let (last, before) = arguments.split_last().expect("an argument");
        for argument in before {
            let nodes = [function, *argument];
            let applied = apply(build.apply[0], &mut memory, used, nodes, limit);
            assert_eq!(applied[0], 0, "{}", workload.name);
            (function, used) = (applied[1], applied[2]);
        }
        Prepared {
            memory,
            used,
            nodes: [function, *last],
            limit,
        }
    }

    fn call(&mut self, function: Apply) -> [usize; 5] {
        apply(
            function,
            &mut self.memory,
            self.used,
            self.nodes,
            self.limit,
        )
    }

    fn told(&mut self, build: &Build) -> Told {
        let [refusal, node, used, steps, _] = self.call(build.apply[0]);
        let text = match refusal {
            0 => written(build, &mut self.memory, used, node),
            _ => Vec::new(),
        };
        (refusal, steps, text)
    }
}

fn applies(builds: &[Build; 2]) {
    head("Apply beside another build");
    for workload in workloads::all() {
        let prepared = [0, 1].map(|i| RefCell::new(Prepared::new(&builds[i], &workload)));
        let told = [0, 1].map(|i| prepared[i].borrow_mut().told(&builds[i]));
        assert_eq!(told[0], told[1], "{}", workload.name);
        let contend = |name, i: usize| {
            let (prepared, apply) = (&prepared[i], builds[i].apply);
            contender(name, move || {
                for apply in apply {
                    black_box(prepared.borrow_mut().call(apply));
                }
            })
        };
        let contenders = vec![contend("engine", 0), contend("other build", 1)];
        row(workload.name, rounds(contenders, ROUNDS));
    }
}

// ---- Read

fn reads(builds: &[Build; 2]) {
    head("Read beside another build");
    let mut random = Random::new(1);
    let texts = [
        ("random tree", text(&mut random, 60_000)),
        ("regular tree", crate::regular(60_000)),
    ];
    for (what, text) in &texts {
        let memories = [0, 1].map(|_| RefCell::new(memory(MOST)));
        for (build, memory) in builds.iter().zip(&memories) {
            let m = &mut *memory.borrow_mut();
            let [refusal, node, used, ..] = make(build.read[0], m, 0, text);
            assert_eq!(refusal, 0, "{what}");
            assert!(written(build, m, used, node) == *text, "{what}");
        }
        let contend = |name, i: usize| {
            let (memory, read) = (&memories[i], builds[i].read);
            contender(name, move || {
                for read in read {
                    black_box(make(read, &mut memory.borrow_mut(), 0, text));
                }
            })
        };
        let contenders = vec![contend("engine", 0), contend("other build", 1)];
        let what = format!("Read, 60,000 digits, {what}");
        row(&what, rounds(contenders, ROUNDS));
    }
}

// ---- Run

/// What a run tells.
fn told(function: Run, case: &Case) -> Told {
    let mut m = memory(case.room);
    let [refusal, _, _, steps, digits] = run(function, &mut m, case);
    (refusal, steps, m.out[..digits].to_vec())
}

/// What a run tells, if each of these tells the same.
fn outcome(runs: &[Run], case: &Case) -> Option<Told> {
    let mut told = runs.iter().map(|run| told(*run, case));
    let first = told.next()?;
    told.all(|other| other == first).then_some(first)
}

/// The rule λx. x on eight arguments of so many digits, of which the first drops the others: few
/// steps, and eighteen stages over ever more nodes.
fn eight(digits: usize, room: Room) -> Case {
    let mut random = Random::new(3);
    let first = [b"20".repeat(7), text(&mut random, digits - 14)].concat();
    let mut arguments = vec![first];
    arguments.extend((1..8).map(|_| text(&mut random, digits)));
    let parts = Parts {
        rule: vec![2, 3, 0],
        arguments,
        limit: None,
        label: None,
    };
    Case::of(parts, room)
}

/// Packets that succeed, one a row.
fn single() -> [(&'static str, Case); 4] {
    let paper = Parts {
        rule: vec![2, 1, 3, 0, 3, 0],
        arguments: vec![b"0".to_vec()],
        limit: None,
        label: None,
    };
    [
        (
            "the paper's packet, the program's room",
            Case::of(paper, PROGRAM),
        ),
        (
            "eight arguments of 1,000 digits, the program's room",
            eight(1_000, PROGRAM),
        ),
        (
            "eight arguments of 1,500 digits, the most room",
            eight(1_500, MOST),
        ),
        (
            "one argument, 5 to the 5th stems, the most room",
            Case::of(workloads::stems(), MOST),
        ),
    ]
}

/// A case that builds from before [2] and [1] answer alike: its packet names a step limit, 10,000 where
/// it named none, and has no label. Damaged packets stay as they are, and are left out where they are
/// broken to some builds for their label alone.
fn older(case: Case) -> Option<Case> {
    if let Some(mut parts) = case.parts {
        parts.limit.get_or_insert(10_000);
        parts.label = None;
        return Some(Case::of(parts, case.room));
    }
    let without = second::Papers {
        labels: false,
        ..PAPERS
    };
    let refusal = |papers| second::run(&case.packet, second::PROGRAM, papers).err();
    (refusal(PAPERS) == refusal(without)).then_some(case)
}

/// Measures cases in both builds. A run of a contender is a call of each at each place of its code.
fn run_row(what: &str, [this, other]: [Placed<Run>; 2], cases: &[Case], turns: usize) {
    let cell = RefCell::new(memory(Room {
        table: MOST.table + 1,
        stack: MOST.stack + 1,
        out: MOST.out + 1,
    }));
    let contend = |name, runs: Placed<Run>| {
        let cell = &cell;
        contender(name, move || {
            for function in runs {
                for case in cases {
                    black_box(run(function, &mut cell.borrow_mut(), case));
                }
            }
        })
    };
    let contenders = vec![contend("engine", this), contend("other build", other)];
    row(what, rounds(contenders, turns));
}

fn runs(builds: &[Build; 2]) {
    let runs = [builds[0].run, builds[1].run];
    let all = runs.concat();
    head("Run beside another build");
    for (what, case) in single() {
        let (refusal, steps, _) = outcome(&all, &case).expect("the builds agree");
        assert_eq!(refusal, 0, "{what}");
        run_row(&format!("{what}: {steps} steps"), runs, &[case], ROUNDS);
    }
    // A packet that lacks nodes in the one build alone is left out.
    let cases = compared().into_iter().filter_map(older);
    let alike = cases.filter_map(|case| Some((outcome(&all, &case)?.0, case)));
    let alike: Vec<(usize, Case)> = alike.collect();
    let cases: Vec<Case> = alike.iter().map(|(_, case)| case.clone()).collect();
    let good = alike.into_iter().filter(|(refusal, _)| *refusal == 0);
    let good: Vec<Case> = good.map(|(_, case)| case).collect();
    let what = format!(
        "{} packets as they are compared, each in its room",
        cases.len()
    );
    run_row(&what, runs, &cases, ROUNDS / 8);
    let what = format!("the {} of them that succeed", good.len());
    run_row(&what, runs, &good, ROUNDS / 8);
}

/// Prints this build's speed beside that of an archive.
pub fn beside(archive: &Path) {
    let builds = [Build::this(), Build::other(archive)];
    applies(&builds);
    reads(&builds);
    runs(&builds);
}

#[cfg(test)]
mod tests {
    use super::*;

    /// Each packet of a row succeeds, at each place of the code alike.
    #[test]
    fn packets_succeed() {
        for (what, case) in single() {
            let told = outcome(&Build::this().run, &case);
            assert_eq!(told.map(|told| told.0), Some(0), "{what}");
        }
    }

    /// A workload as this build prepares it ends as its packet does.
    #[test]
    fn workloads_end_alike() {
        let build = Build::this();
        for workload in workloads::all() {
            let (refusal, steps, _) = Prepared::new(&build, &workload).told(&build);
            let answer = [workload.answer[0], workload.answer[3]];
            assert_eq!([refusal, steps], answer, "{}", workload.name);
        }
    }
}
