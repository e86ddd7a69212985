//! The engine's operations as safe Rust functions over the static library of the crate `ffi`.
//!
//! The library has no state and no heap: a caller lends a table, a stack and out bytes, and every
//! call leaves in them what documents 01 and 02 say. No call has a condition on its arguments:
//! lengths, counts and node numbers that do not fit are refused.

use std::cmp::Ordering;

/// The five numbers of an answer. A refusal has `used` as at entry (0 for `label_packet`) and 0 for the
/// numbers after it.
#[derive(Clone, Copy, Debug, Default, PartialEq, Eq)]
pub struct Numbers {
    /// 0 for success, else the refusal's number.
    pub refusal: usize,
    /// The node that was made or found.
    pub node: usize,
    /// The count of used nodes after the call.
    pub used: usize,
    /// The uses of the five rules.
    pub steps: usize,
    /// The digits written.
    pub digits: usize,
}

/// How often each of the five rules was used.
#[derive(Clone, Copy, Debug, Default, PartialEq, Eq)]
pub struct Uses {
    pub leaf: usize,
    pub stem: usize,
    pub drop: usize,
    pub spread: usize,
    pub triage: usize,
}

/// The ten numbers of an answer of Apply or Run: the five, and the uses of each rule, whose sum is
/// the steps. A refusal has `used` as at entry (0 for Run) and 0 for the numbers after it.
#[derive(Clone, Copy, Debug, Default, PartialEq, Eq)]
pub struct Counted {
    /// 0 for success, else the refusal's number.
    pub refusal: usize,
    /// The outcome's node; 0 for Run.
    pub node: usize,
    /// The count of used nodes after the call.
    pub used: usize,
    /// The uses of the five rules.
    pub steps: usize,
    /// The digits written; 0 for Apply.
    pub digits: usize,
    /// The uses of each rule.
    pub uses: Uses,
}

impl Counted {
    /// The five numbers that every operation on a table gives.
    pub fn numbers(&self) -> Numbers {
        Numbers {
            refusal: self.refusal,
            node: self.node,
            used: self.used,
            steps: self.steps,
            digits: self.digits,
        }
    }
}

/// One of the five rules, by its number in an answer of `stopped`.
#[derive(Clone, Copy, Debug, PartialEq, Eq)]
pub enum Rule {
    Leaf = 1,
    Stem = 2,
    Drop = 3,
    Spread = 4,
    Triage = 5,
}

impl Rule {
    /// The rule of a number from 1 to 5.
    pub fn of(number: usize) -> Option<Self> {
        let rules = [
            Rule::Leaf,
            Rule::Stem,
            Rule::Drop,
            Rule::Spread,
            Rule::Triage,
        ];
        rules.into_iter().find(|rule| *rule as usize == number)
    }

    pub fn name(self) -> &'static str {
        match self {
            Rule::Leaf => "leaf",
            Rule::Stem => "stem",
            Rule::Drop => "drop",
            Rule::Spread => "spread",
            Rule::Triage => "triage",
        }
    }
}

/// The four numbers of an answer of `stopped`. Those after the refusal are 0 for every outcome that is no
/// stop while applying.
#[derive(Clone, Copy, Debug, Default, PartialEq, Eq)]
pub struct Stopped {
    /// Run's refusal, 0 for success.
    pub refusal: usize,
    /// The place of the argument that was applied to, from 1 to 8.
    pub place: usize,
    /// The steps taken in the whole run.
    pub steps: usize,
    /// The number of the rule that was wanted next.
    pub rule: usize,
}

impl Stopped {
    /// The rule that was wanted, if this is a stop while applying.
    pub fn wanted(&self) -> Option<Rule> {
        Rule::of(self.rule)
    }
}

/// The six numbers of an answer of `unlabel`: the nodes of a labelled tree's rule and label. A refusal
/// has `used` as at entry and 0 for the others.
#[derive(Clone, Copy, Debug, Default, PartialEq, Eq)]
pub struct Parts {
    /// 0 for success, else the refusal's number.
    pub refusal: usize,
    /// The rule's node.
    pub rule: usize,
    /// The count of used nodes, as at entry.
    pub used: usize,
    /// 0: nothing is applied.
    pub steps: usize,
    /// 0: nothing is written.
    pub digits: usize,
    /// The label's node.
    pub label: usize,
}

/// The two numbers of an answer about two nodes. A refusal has 0 for the other.
#[derive(Clone, Copy, Debug, Default, PartialEq, Eq)]
pub struct Same {
    /// 0 for success, else the refusal's number.
    pub refusal: usize,
    /// 1 if the trees are equal, else 0.
    pub equal: usize,
}

/// The two numbers of an answer about a rule text. A refusal has 0 for the bytes.
#[derive(Clone, Copy, Debug, Default, PartialEq, Eq)]
pub struct TextNumbers {
    /// 0 for success, else the refusal's number.
    pub refusal: usize,
    /// The bytes written.
    pub bytes: usize,
}

/// The two numbers of an answer about a load. A refusal and an empty load have 0 for the digits.
#[derive(Clone, Copy, Debug, Default, PartialEq, Eq)]
pub struct LoadNumbers {
    /// 0 for success, else the refusal's number.
    pub refusal: usize,
    /// The digits written.
    pub digits: usize,
}

/// The two numbers of an answer about a weight's grams. A refusal has 0 for the grams.
#[derive(Clone, Copy, Debug, Default, PartialEq, Eq)]
pub struct Grams {
    /// 0 for success, else the refusal's number.
    pub refusal: usize,
    /// The grams, at most 999,999,999.
    pub grams: usize,
}

/// The two numbers of an answer about two weights. A refusal has 0 for the other, as less has.
#[derive(Clone, Copy, Debug, Default, PartialEq, Eq)]
pub struct Compared {
    /// 0 for success, else the refusal's number.
    pub refusal: usize,
    /// What the first is beside the second: 0 less, 1 equal, 2 greater.
    pub order: usize,
}

impl Compared {
    /// What the first weight is beside the second, or the refusal's number.
    pub fn ordering(&self) -> Result<Ordering, usize> {
        match self.refusal {
            0 => Ok(self.order.cmp(&1)),
            refusal => Err(refusal),
        }
    }
}

/// The three numbers of an answer that gives a number or none. Those after the refusal are 0 where there is none.
#[derive(Clone, Copy, Debug, Default, PartialEq, Eq)]
pub struct Given {
    /// 0 for success, else the refusal's number.
    pub refusal: usize,
    /// 1 if there is a number, else 0.
    pub found: usize,
    /// The packet number of `window`, the minutes of `next_window`, the code of `code`, the digits that
    /// `code_text` wrote.
    pub number: usize,
}

impl Given {
    /// The number, none where there is none, or the refusal's number.
    pub fn given(&self) -> Result<Option<usize>, usize> {
        match (self.refusal, self.found) {
            (0, 0) => Ok(None),
            (0, _) => Ok(Some(self.number)),
            (refusal, _) => Err(refusal),
        }
    }
}

/// A window has the minutes of its day from `first` on, up to `end` and without it. Three zeros are an
/// unused place.
#[derive(Clone, Copy, Debug, Default, PartialEq, Eq)]
pub struct Window {
    /// Below `end`.
    pub first: u32,
    /// At most 1,440.
    pub end: u32,
    /// From 1 to 28.
    pub packet: u32,
}

/// Seven days of at most four windows each. The windows of a day ascend and do not overlap, and unused
/// places come after them.
#[derive(Clone, Copy, Debug, Default, PartialEq, Eq)]
pub struct Week(pub [[Window; 4]; 7]);

/// How many numbers a week has.
pub const WEEK_NUMBERS: usize = 84;

/// The most digits that a load has.
pub const LOAD_DIGITS: usize = 4_095;

/// How many codes there are, and the most digits that the text of one has.
pub const CODES: usize = 1_374;
pub const CODE_DIGITS: usize = 10;

/// The most grams of a weight, the most digits that its text has, and the most new nodes that it wants.
pub const MOST_GRAMS: usize = 999_999_999;
pub const WEIGHT_DIGITS: usize = 181;
pub const WEIGHT_NODES: usize = 19;

/// Table or stack too long, `used` above the capacity, out bytes or step limit too large.
pub const LIMITS: usize = 1;
/// A used node is broken, or two used nodes are equal.
pub const BROKEN: usize = 2;
/// A node number is not below `used`.
pub const NODE: usize = 3;
/// A text is not one whole tree, or too long.
pub const TEXT: usize = 4;
/// Bytes, or the term of a rule text, are not a rule.
pub const RULE: usize = 5;
/// A packet is broken.
pub const PACKET: usize = 6;
/// The step limit is reached.
pub const STEPS: usize = 7;
/// A node that is not in the table is wanted, and the table is full.
pub const NODES: usize = 8;
/// Every frame is held.
pub const FRAMES: usize = 9;
/// The out bytes are full, or too few for a rule, a load or a code's text.
pub const OUT: usize = 10;
/// A tree is not of the labelled form.
pub const NOT_LABELLED: usize = 11;
/// A rule text is outside the grammar, has an unbound name, or is too long or too deep.
pub const RULE_TEXT: usize = 12;
/// A week is broken, a day above 6 or a minute above 1,439.
pub const WEEK: usize = 13;
/// A tree is not a weight, or grams or a sum are above 999,999,999.
pub const WEIGHT: usize = 14;

/// A slice crosses the boundary as a pointer and a length. Nothing checks these declarations
/// against the library, so `tests/boundary.rs` calls each with arguments that differ.
mod raw {
    extern "C" {
        pub fn lazvorn_read(
            table: *mut u32,
            table_len: usize,
            used: usize,
            stack: *mut u32,
            stack_len: usize,
            text: *const u8,
            text_len: usize,
            answer: *mut [usize; 5],
        );
        pub fn lazvorn_write(
            table: *const u32,
            table_len: usize,
            used: usize,
            stack: *mut u32,
            stack_len: usize,
            node: usize,
            out: *mut u8,
            out_len: usize,
            answer: *mut [usize; 5],
        );
        pub fn lazvorn_translate(
            table: *mut u32,
            table_len: usize,
            used: usize,
            stack: *mut u32,
            stack_len: usize,
            bytes: *const u8,
            bytes_len: usize,
            answer: *mut [usize; 5],
        );
        pub fn lazvorn_apply(
            table: *mut u32,
            table_len: usize,
            used: usize,
            stack: *mut u32,
            stack_len: usize,
            function: usize,
            argument: usize,
            limit: usize,
            answer: *mut [usize; 10],
        );
        pub fn lazvorn_label(
            table: *mut u32,
            table_len: usize,
            used: usize,
            rule: usize,
            label: usize,
            answer: *mut [usize; 5],
        );
        pub fn lazvorn_unlabel(
            table: *const u32,
            table_len: usize,
            used: usize,
            node: usize,
            answer: *mut [usize; 6],
        );
        pub fn lazvorn_same(
            table: *const u32,
            table_len: usize,
            used: usize,
            a: usize,
            b: usize,
            answer: *mut [usize; 2],
        );
        pub fn lazvorn_run(
            table: *mut u32,
            table_len: usize,
            stack: *mut u32,
            stack_len: usize,
            out: *mut u8,
            out_len: usize,
            packet: *const u8,
            packet_len: usize,
            answer: *mut [usize; 10],
        );
        pub fn lazvorn_stopped(
            table: *mut u32,
            table_len: usize,
            stack: *mut u32,
            stack_len: usize,
            out: *mut u8,
            out_len: usize,
            packet: *const u8,
            packet_len: usize,
            answer: *mut [usize; 4],
        );
        pub fn lazvorn_label_packet(
            table: *mut u32,
            table_len: usize,
            stack: *mut u32,
            stack_len: usize,
            out: *mut u8,
            out_len: usize,
            packet: *const u8,
            packet_len: usize,
            answer: *mut [usize; 5],
        );
        pub fn lazvorn_rule_text(
            text: *const u8,
            text_len: usize,
            out: *mut u8,
            out_len: usize,
            answer: *mut [usize; 2],
        );
        pub fn lazvorn_generate(
            seed: u32,
            digits: usize,
            out: *mut u8,
            out_len: usize,
            answer: *mut [usize; 2],
        );
        pub fn lazvorn_code(
            table: *const u32,
            table_len: usize,
            used: usize,
            node: usize,
            answer: *mut [usize; 3],
        );
        pub fn lazvorn_code_text(
            code: usize,
            out: *mut u8,
            out_len: usize,
            answer: *mut [usize; 3],
        );
        pub fn lazvorn_weight(
            table: *mut u32,
            table_len: usize,
            used: usize,
            grams: usize,
            answer: *mut [usize; 5],
        );
        pub fn lazvorn_grams(
            table: *const u32,
            table_len: usize,
            used: usize,
            node: usize,
            answer: *mut [usize; 2],
        );
        pub fn lazvorn_add_weights(
            table: *mut u32,
            table_len: usize,
            used: usize,
            a: usize,
            b: usize,
            answer: *mut [usize; 5],
        );
        pub fn lazvorn_compare_weights(
            table: *const u32,
            table_len: usize,
            used: usize,
            a: usize,
            b: usize,
            answer: *mut [usize; 2],
        );
        pub fn lazvorn_window(
            week: *const u32,
            week_len: usize,
            day: usize,
            minute: usize,
            answer: *mut [usize; 3],
        );
        pub fn lazvorn_next_window(
            week: *const u32,
            week_len: usize,
            day: usize,
            minute: usize,
            answer: *mut [usize; 3],
        );
    }
}

/// The numbers that `call` writes into the array it is given.
fn numbers(call: impl FnOnce(*mut [usize; 5])) -> Numbers {
    let mut answer = [usize::MAX; 5];
    call(&mut answer);
    let [refusal, node, used, steps, digits] = answer;
    Numbers {
        refusal,
        node,
        used,
        steps,
        digits,
    }
}

/// The same for Apply and Run.
fn counted(call: impl FnOnce(*mut [usize; 10])) -> Counted {
    let mut answer = [usize::MAX; 10];
    call(&mut answer);
    let [refusal, node, used, steps, digits, leaf, stem, drop, spread, triage] = answer;
    let uses = Uses {
        leaf,
        stem,
        drop,
        spread,
        triage,
    };
    Counted {
        refusal,
        node,
        used,
        steps,
        digits,
        uses,
    }
}

/// The same for what gives a number or none.
fn given(call: impl FnOnce(*mut [usize; 3])) -> Given {
    let mut answer = [usize::MAX; 3];
    call(&mut answer);
    let [refusal, found, number] = answer;
    Given {
        refusal,
        found,
        number,
    }
}

// In each function below the pointers and lengths are those of Rust slices, which are valid for as
// long as the call lasts, and the borrow checker keeps the ones that are written apart.

/// Reads a text into the table, with `used` nodes in use.
pub fn read(table: &mut [u32], used: usize, stack: &mut [u32], text: &[u8]) -> Numbers {
    numbers(|answer| unsafe {
        raw::lazvorn_read(
            table.as_mut_ptr(),
            table.len(),
            used,
            stack.as_mut_ptr(),
            stack.len(),
            text.as_ptr(),
            text.len(),
            answer,
        )
    })
}

/// Writes the tree of `node` as text.
pub fn write(
    table: &[u32],
    used: usize,
    stack: &mut [u32],
    node: usize,
    out: &mut [u8],
) -> Numbers {
    numbers(|answer| unsafe {
        raw::lazvorn_write(
            table.as_ptr(),
            table.len(),
            used,
            stack.as_mut_ptr(),
            stack.len(),
            node,
            out.as_mut_ptr(),
            out.len(),
            answer,
        )
    })
}

/// Translates a rule into the table.
pub fn translate(table: &mut [u32], used: usize, stack: &mut [u32], bytes: &[u8]) -> Numbers {
    numbers(|answer| unsafe {
        raw::lazvorn_translate(
            table.as_mut_ptr(),
            table.len(),
            used,
            stack.as_mut_ptr(),
            stack.len(),
            bytes.as_ptr(),
            bytes.len(),
            answer,
        )
    })
}

/// Applies the node `function` to the node `argument` in at most `limit` steps.
pub fn apply(
    table: &mut [u32],
    used: usize,
    stack: &mut [u32],
    function: usize,
    argument: usize,
    limit: usize,
) -> Counted {
    counted(|answer| unsafe {
        raw::lazvorn_apply(
            table.as_mut_ptr(),
            table.len(),
            used,
            stack.as_mut_ptr(),
            stack.len(),
            function,
            argument,
            limit,
            answer,
        )
    })
}

/// Labels the rule at node `rule` with the tree of node `label`: at most seven new nodes. On any argument
/// the labelled tree gives the rule's tree in six more steps; the label is not run.
pub fn label(table: &mut [u32], used: usize, rule: usize, label: usize) -> Numbers {
    numbers(|answer| unsafe {
        raw::lazvorn_label(table.as_mut_ptr(), table.len(), used, rule, label, answer)
    })
}

/// Takes the labelled tree of `node` apart: the nodes of its rule and of its label. A tree that was
/// labelled without K before the label is refused (unless that label is Kx for some x, which is then the
/// label); `label_packet` makes it again from its packet.
pub fn unlabel(table: &[u32], used: usize, node: usize) -> Parts {
    let mut answer = [usize::MAX; 6];
    unsafe { raw::lazvorn_unlabel(table.as_ptr(), table.len(), used, node, &mut answer) };
    let [refusal, rule, used, steps, digits, label] = answer;
    Parts {
        refusal,
        rule,
        used,
        steps,
        digits,
        label,
    }
}

/// Whether the nodes `a` and `b` have the same tree, however large it is.
pub fn same(table: &[u32], used: usize, a: usize, b: usize) -> Same {
    let mut answer = [usize::MAX; 2];
    unsafe { raw::lazvorn_same(table.as_ptr(), table.len(), used, a, b, &mut answer) };
    let [refusal, equal] = answer;
    Same { refusal, equal }
}

/// An exported function that reads a packet and writes N numbers.
type OnPacket<const N: usize> = unsafe extern "C" fn(
    *mut u32,
    usize,
    *mut u32,
    usize,
    *mut u8,
    usize,
    *const u8,
    usize,
    *mut [usize; N],
);

/// Calls such a function with what it is lent, each slice as a pointer and a count.
unsafe fn on_packet<const N: usize>(
    call: OnPacket<N>,
    table: &mut [u32],
    stack: &mut [u32],
    out: &mut [u8],
    packet: &[u8],
    answer: *mut [usize; N],
) {
    call(
        table.as_mut_ptr(),
        table.len(),
        stack.as_mut_ptr(),
        stack.len(),
        out.as_mut_ptr(),
        out.len(),
        packet.as_ptr(),
        packet.len(),
        answer,
    )
}

/// Runs a packet with the table taken as empty, and writes the outcome's text to `out`. The step limit
/// of a packet that names none is 100,000. A label is passed over, if its text is whole.
pub fn run(table: &mut [u32], stack: &mut [u32], out: &mut [u8], packet: &[u8]) -> Counted {
    counted(|answer| unsafe { on_packet(raw::lazvorn_run, table, stack, out, packet, answer) })
}

/// Runs a packet as `run` does, leaves the same in all that is lent, and tells where applying stopped.
pub fn stopped(table: &mut [u32], stack: &mut [u32], out: &mut [u8], packet: &[u8]) -> Stopped {
    let mut answer = [usize::MAX; 4];
    unsafe { on_packet(raw::lazvorn_stopped, table, stack, out, packet, &mut answer) };
    let [refusal, place, steps, rule] = answer;
    Stopped {
        refusal,
        place,
        steps,
        rule,
    }
}

/// Labels a packet's rule with its label, with the table taken as empty, and writes the labelled tree's
/// text to `out`. Arguments and step limit are passed over.
pub fn label_packet(
    table: &mut [u32],
    stack: &mut [u32],
    out: &mut [u8],
    packet: &[u8],
) -> Numbers {
    numbers(|answer| unsafe {
        on_packet(raw::lazvorn_label_packet, table, stack, out, packet, answer)
    })
}

/// Writes the rule that a rule text is, as a term in bytes, to `out`.
pub fn rule_text(text: &[u8], out: &mut [u8]) -> TextNumbers {
    let mut answer = [usize::MAX; 2];
    unsafe {
        raw::lazvorn_rule_text(
            text.as_ptr(),
            text.len(),
            out.as_mut_ptr(),
            out.len(),
            &mut answer,
        )
    };
    let [refusal, bytes] = answer;
    TextNumbers { refusal, bytes }
}

/// Makes a load from a seed and writes it to `out`: the text of a whole tree of so many digits, the same for
/// the same seed and count. A count outside 1 to 4,095 gives an empty load, whatever `out` is; then fewer bytes
/// than digits are 10, and `out` stays.
pub fn generate(seed: u32, digits: usize, out: &mut [u8]) -> LoadNumbers {
    let mut answer = [usize::MAX; 2];
    unsafe { raw::lazvorn_generate(seed, digits, out.as_mut_ptr(), out.len(), &mut answer) };
    let [refusal, digits] = answer;
    LoadNumbers { refusal, digits }
}

/// The code of the tree of `node`, its place among the trees of at most ten nodes in the order of their values;
/// none for a tree of more nodes, however large it is. A tree's value is its text as a number in base 3.
pub fn code(table: &[u32], used: usize, node: usize) -> Given {
    given(|answer| unsafe { raw::lazvorn_code(table.as_ptr(), table.len(), used, node, answer) })
}

/// Writes the text of a code to `out`, at most ten digits; the number given is how many. A code from 1,374 on has
/// none, whatever `out` is; then fewer bytes than digits are 10, and `out` stays.
pub fn code_text(code: usize, out: &mut [u8]) -> Given {
    given(|answer| unsafe { raw::lazvorn_code_text(code, out.as_mut_ptr(), out.len(), answer) })
}

/// Turns grams into a weight: the tree of the list of their nine decimal digits, lowest first. The empty list is the
/// leaf, an item before a list is their fork, and digit d is K applied d times starting at the leaf. New nodes are
/// those that `read` would make of its text, at most 19.
pub fn weight(table: &mut [u32], used: usize, grams: usize) -> Numbers {
    numbers(|answer| unsafe {
        raw::lazvorn_weight(table.as_mut_ptr(), table.len(), used, grams, answer)
    })
}

/// The grams of the weight of `node`.
pub fn grams(table: &[u32], used: usize, node: usize) -> Grams {
    let mut answer = [usize::MAX; 2];
    unsafe { raw::lazvorn_grams(table.as_ptr(), table.len(), used, node, &mut answer) };
    let [refusal, grams] = answer;
    Grams { refusal, grams }
}

/// Adds the weights of `a` and `b`: the node is that of the tree that `weight` makes of the sum of their grams.
pub fn add_weights(table: &mut [u32], used: usize, a: usize, b: usize) -> Numbers {
    numbers(|answer| unsafe {
        raw::lazvorn_add_weights(table.as_mut_ptr(), table.len(), used, a, b, answer)
    })
}

/// Compares the weights of `a` and `b` by their grams.
pub fn compare_weights(table: &[u32], used: usize, a: usize, b: usize) -> Compared {
    let mut answer = [usize::MAX; 2];
    unsafe { raw::lazvorn_compare_weights(table.as_ptr(), table.len(), used, a, b, &mut answer) };
    let [refusal, order] = answer;
    Compared { refusal, order }
}

/// The packet number of the window that holds a minute, in a week of 84 numbers: first, end and packet
/// of each place, day after day. Any other count of numbers is refused.
pub fn window(week: &[u32], day: usize, minute: usize) -> Given {
    given(|answer| unsafe { raw::lazvorn_window(week.as_ptr(), week.len(), day, minute, answer) })
}

/// The minutes until the next window begins, in a week as of `window`: 0 where one begins at this minute.
/// After the week's end come the windows of its days again, up to those of this day that began earlier.
pub fn next_window(week: &[u32], day: usize, minute: usize) -> Given {
    given(|answer| unsafe {
        raw::lazvorn_next_window(week.as_ptr(), week.len(), day, minute, answer)
    })
}

impl Week {
    /// The 84 numbers that `window` and `next_window` read.
    pub fn numbers(&self) -> [u32; WEEK_NUMBERS] {
        std::array::from_fn(|i| {
            let window = self.0[i / 12][i / 3 % 4];
            [window.first, window.end, window.packet][i % 3]
        })
    }

    /// The packet number of the window that holds a minute of a day, or the refusal's number.
    pub fn window_at(&self, day: usize, minute: usize) -> Result<Option<usize>, usize> {
        window(&self.numbers(), day, minute).given()
    }

    /// The minutes until the next window begins, or the refusal's number.
    pub fn next_window(&self, day: usize, minute: usize) -> Result<Option<usize>, usize> {
        next_window(&self.numbers(), day, minute).given()
    }
}
