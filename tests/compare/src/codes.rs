//! `code` and `code_text` beside the model ([12]): every code and many outside, with out bytes of each length up to
//! more than enough; nodes of trees of ten nodes, of eleven, of fewer and of more, also of trees whose text has
//! more than 2^20 digits, up to more than any memory holds, in tables that are sound and in tables that are refused.

use crate::lent::{different, OutBytes};
use crate::random::Random;
use crate::tables::{at_least, break_node, double, put_text, repeat_node, sow, WORDS};
use model::code::{self, lengths};
use model::{load, Given};

/// How many codes there are, and the most digits of a code's text.
const CODES: usize = 1_374;
const DIGITS: usize = 10;

/// Two more out bytes than any text has digits are the most that are lent.
const BYTES: usize = DIGITS + 2;

/// A text of more digits than these is a long one.
const LONG: usize = 1 << 20;

// ---- texts of codes

/// What came of a code: its text, too few out bytes, or none.
#[derive(Clone, Copy, Debug, PartialEq, Eq)]
pub enum TextMet {
    Written,
    TooFew,
    NoText,
}

pub const TEXTS_MET: [TextMet; 3] = [TextMet::Written, TextMet::TooFew, TextMet::NoText];

/// Codes that have no text: near the last one that has, numbers that are one if bits are lost, far ones and any.
fn outside(random: &mut Random) -> Vec<usize> {
    let mut codes: Vec<usize> = (CODES..CODES + 60).collect();
    for bits in [11, 16, 31, 32, 48, 63] {
        for inside in [0, 1, CODES - 1, random.below(CODES)] {
            codes.push(inside + (1 << bits));
        }
    }
    codes.extend((0..3).map(|less| usize::MAX - less));
    // The last of all values and the first of eleven digits.
    codes.extend([58_563, 59_049]);
    codes.extend((0..40).map(|_| (random.number() as usize).max(CODES)));
    codes
}

/// How often each outcome was met, and how many texts were read and gave their code again.
#[derive(Default)]
pub struct Texts {
    pub met: [usize; 3],
    pub again: usize,
}

impl Texts {
    /// Compares `code_text` with the model on every code and on others, each with out bytes of each length, and
    /// holds `again`, which reads a text and gives the code of its tree, to the code. Gives each difference.
    pub fn compare(
        &mut self,
        random: &mut Random,
        code_text: impl Fn(usize, &mut [u8]) -> Given,
        again: impl Fn(&[u8]) -> Given,
    ) -> Vec<String> {
        let mut wrong = Vec::new();
        for code in (0..CODES).chain(outside(random)) {
            for bytes in 0..=BYTES {
                let out = OutBytes::new(random, bytes);
                let expected = out.after(|out| code::code_text(code, out));
                let given = out.after(|out| code_text(code, out));
                self.met[text_met(expected.0) as usize] += 1;
                let different = different(&given, &expected);
                wrong.extend(different.map(|wrong| format!("code {code}, {bytes} bytes\n{wrong}")));
            }
            wrong.extend(self.read_again(code, &code_text, &again));
        }
        wrong
    }

    /// The difference between a code and that of its text, where there is one. The text is the one that
    /// `code_text` writes where there is enough room.
    fn read_again(
        &mut self,
        code: usize,
        code_text: impl Fn(usize, &mut [u8]) -> Given,
        again: impl Fn(&[u8]) -> Given,
    ) -> Option<String> {
        let mut out = [0; DIGITS];
        let [0, 1, digits] = code_text(code, &mut out) else {
            return None;
        };
        let text = out.get(..digits)?;
        let found = again(text);
        self.again += usize::from(found == [0, 1, code]);
        let text = String::from_utf8_lossy(text);
        (found != [0, 1, code]).then(|| format!("code {code} is {text}, whose code is {found:?}"))
    }
}

/// What an answer of the model tells.
fn text_met(answer: Given) -> TextMet {
    match answer {
        [0, 0, _] => TextMet::NoText,
        [0, ..] => TextMet::Written,
        _ => TextMet::TooFew,
    }
}

// ---- codes of nodes

/// How many digits the text of a node's tree has: fewer than ten, ten, eleven, more, or more than 2^20.
#[derive(Clone, Copy, Debug, PartialEq, Eq)]
pub enum Size {
    Fewer,
    Ten,
    Eleven,
    More,
    Long,
}

pub const SIZES: [Size; 5] = [Size::Fewer, Size::Ten, Size::Eleven, Size::More, Size::Long];

impl Size {
    fn of(digits: usize) -> Self {
        match digits {
            ..DIGITS => Size::Fewer,
            DIGITS => Size::Ten,
            11 => Size::Eleven,
            12..=LONG => Size::More,
            _ => Size::Long,
        }
    }

    /// A count of digits for a text that is to be read; a long one is made in another way.
    fn digits(self, random: &mut Random) -> usize {
        match self {
            Size::Fewer => random.within(1, DIGITS - 1),
            Size::Ten => DIGITS,
            Size::Eleven => DIGITS + 1,
            Size::More | Size::Long => {
                let most = *random.pick(&[DIGITS + 4, 60]);
                random.within(DIGITS + 2, most)
            }
        }
    }
}

/// What is wrong with a call, if anything: a table that is too long; too many nodes in use; a broken node; two equal
/// ones; a node that is not in use; or two of these, of which the first is refused.
#[derive(Clone, Copy, Debug, PartialEq, Eq)]
pub enum Wrong {
    Nothing,
    Words,
    Used,
    Broken,
    Equal,
    Node,
    UsedAndBroken,
    UsedAndNode,
    BrokenAndNode,
}

pub const WRONG: [Wrong; 9] = [
    Wrong::Nothing,
    Wrong::Words,
    Wrong::Used,
    Wrong::Broken,
    Wrong::Equal,
    Wrong::Node,
    Wrong::UsedAndBroken,
    Wrong::UsedAndNode,
    Wrong::BrokenAndNode,
];

impl Wrong {
    fn refusal(self) -> usize {
        match self {
            Wrong::Nothing => 0,
            Wrong::Words | Wrong::Used | Wrong::UsedAndBroken | Wrong::UsedAndNode => 1,
            Wrong::Broken | Wrong::Equal | Wrong::BrokenAndNode => 2,
            Wrong::Node => 3,
        }
    }
}

/// What came of a node: a code, none, or a refusal.
#[derive(Clone, Copy, Debug, PartialEq, Eq)]
pub enum Met {
    Code,
    NoCode,
    Refused1,
    Refused2,
    Refused3,
}

pub const MET: [Met; 5] = [
    Met::Code,
    Met::NoCode,
    Met::Refused1,
    Met::Refused2,
    Met::Refused3,
];

/// What an answer of the model tells.
fn met(answer: Given) -> Met {
    match answer {
        [0, 0, _] => Met::NoCode,
        [0, ..] => Met::Code,
        [1, ..] => Met::Refused1,
        [2, ..] => Met::Refused2,
        _ => Met::Refused3,
    }
}

/// What is asked: the code of a node of a table with so many nodes in use.
struct Asked {
    table: Vec<u32>,
    used: usize,
    node: usize,
}

impl Asked {
    /// A node of a sound table whose tree has this size, or any.
    fn new(random: &mut Random, size: Option<Size>) -> Self {
        let used = random.within(2, 30);
        let mut table = vec![0; 2 * used];
        sow(random, &mut table, used);
        let node = random.below(used);
        let mut asked = Asked { table, used, node };
        match size {
            None => {}
            Some(Size::Long) => asked.grow(random),
            Some(size) => asked.read(random, size),
        }
        asked.lend_more(random);
        asked
    }

    /// Reads a text of this size, whose tree's node is the one asked about, and at times another after it.
    fn read(&mut self, random: &mut Random, size: Size) {
        let (first, second) = (size.digits(random), random.below(20));
        let mut read = |digits: usize| {
            let mut text = vec![0; digits];
            load::generate(random.number() as u32, digits, &mut text);
            put_text(&mut self.table, &text)
        };
        self.node = read(first);
        if second > 0 {
            read(second);
        }
        self.used = self.table.len() / 2;
    }

    /// Adds a tree of many digits, and then a few nodes over it, so that a count of digits that lost its upper bits is
    /// a small one.
    fn grow(&mut self, random: &mut Random) {
        double(random, &mut self.table);
        for _ in 0..random.below(13) {
            let last = self.table.len() as u32 / 2;
            let over = [[last, 0], [last, 0], [last, 1], [1, last]];
            self.table.extend(random.pick(&over));
        }
        self.used = self.table.len() / 2;
        self.node = self.used - 1;
    }

    /// Words that are not in use, up to the most at times.
    fn lend_more(&mut self, random: &mut Random) {
        let more = random.below(12);
        self.table
            .extend((0..more).map(|_| random.below(20) as u32));
        if random.once_in(50) {
            self.table.resize(WORDS, 1);
        }
    }

    /// The call with this wrong about it.
    fn spoil(&mut self, random: &mut Random, wrong: Wrong) {
        match wrong {
            Wrong::Nothing => {}
            Wrong::Words => self.table.resize(WORDS + 1, 1),
            Wrong::Used => self.used = at_least(random, self.table.len() / 2 + 1),
            Wrong::Broken => break_node(random, &mut self.table, self.used),
            Wrong::Equal => repeat_node(random, &mut self.table, self.used),
            Wrong::Node => self.node = at_least(random, self.used),
            Wrong::UsedAndBroken => {
                self.spoil(random, Wrong::Broken);
                self.spoil(random, Wrong::Used);
            }
            Wrong::UsedAndNode => {
                self.spoil(random, Wrong::Used);
                self.spoil(random, Wrong::Node);
            }
            Wrong::BrokenAndNode => {
                self.spoil(random, Wrong::Broken);
                self.spoil(random, Wrong::Node);
            }
        }
    }
}

/// How many calls had each thing wrong, how often each outcome was met, and how many trees that were not refused had
/// each size.
#[derive(Default)]
pub struct Nodes {
    pub wrong: [usize; 9],
    pub met: [usize; 5],
    pub sizes: [usize; 5],
}

impl Nodes {
    /// Compares `code` with the model on one node. Gives the difference.
    pub fn compare(
        &mut self,
        random: &mut Random,
        code: impl Fn(&mut [u32], usize, usize) -> Given,
    ) -> Option<String> {
        let size = match random.below(6) {
            0 => None,
            _ => Some(*random.pick(&SIZES)),
        };
        let wrong = match random.below(2) {
            0 => Wrong::Nothing,
            _ => *random.pick(&WRONG[1..]),
        };
        let mut asked = Asked::new(random, size);
        asked.spoil(random, wrong);
        let Asked { table, used, node } = &asked;
        let expected = code::code(table, *used, *node);
        self.count(&asked, wrong, expected);
        let mut lent = table.clone();
        let given = code(&mut lent, *used, *node);
        let place = (0..table.len()).find(|&i| lent[i] != table[i]);
        let known = wrong.refusal();
        let right = given == expected && place.is_none() && expected[0] == known;
        (!right).then(|| {
            let words = &table[..table.len().min(400)];
            format!(
                "{wrong:?}, node {node}, {used} in use, {} words, {words:?} first\n\
                 engine: {given:?}; the table differs at {place:?}\n\
                 model:  {expected:?}; refusal {known} as made",
                table.len()
            )
        })
    }

    /// Counts a call, by what the model answers.
    fn count(&mut self, asked: &Asked, wrong: Wrong, answer: Given) {
        self.wrong[wrong as usize] += 1;
        self.met[met(answer) as usize] += 1;
        if answer[0] == 0 {
            let digits = lengths(&asked.table, asked.used)[asked.node];
            self.sizes[Size::of(digits) as usize] += 1;
        }
    }
}

#[cfg(test)]
mod tests {
    use super::*;
    use crate::tables;
    use model::code::value;

    /// How many calls of `code` a test makes.
    const CALLS: usize = 2_000;

    type CodeText = fn(usize, &mut [u8]) -> Given;

    fn model_code(table: &mut [u32], used: usize, node: usize) -> Given {
        code::code(table, used, node)
    }

    /// The code of a text's tree.
    fn model_again(text: &[u8]) -> Given {
        let place = code::texts().iter().position(|other| other == text);
        place.map_or([0, 0, 0], |place| [0, 1, place])
    }

    /// On how many calls this differs from the model.
    fn differences(code: impl Fn(&mut [u32], usize, usize) -> Given) -> usize {
        let (random, mut compared) = (&mut Random::new(12), Nodes::default());
        let different = |_: &usize| compared.compare(random, &code).is_some();
        (0..CALLS).filter(different).count()
    }

    /// A wrong `code` is noticed if it differs on more than a few calls.
    fn noticed(what: &str, code: impl Fn(&mut [u32], usize, usize) -> Given) {
        let different = differences(code);
        assert!(different > 10, "{what}: {different}");
    }

    /// The same with the model's answer changed.
    fn other_answer(what: &str, change: fn(Given) -> Given) {
        noticed(what, |table, used, node| {
            change(code::code(table, used, node))
        });
    }

    /// Where `code_text` and a text's code differ from the model.
    fn wrong_texts(
        code_text: impl Fn(usize, &mut [u8]) -> Given,
        again: impl Fn(&[u8]) -> Given,
    ) -> Vec<String> {
        Texts::default().compare(&mut Random::new(13), code_text, again)
    }

    /// A wrong `code_text` is noticed.
    fn noticed_text(what: &str, code_text: impl Fn(usize, &mut [u8]) -> Given) {
        assert_ne!(wrong_texts(code_text, model_again).len(), 0, "{what}");
    }

    /// The text of a node's tree, if the node is not refused and the text has at most so many digits.
    fn text_of(table: &[u32], used: usize, node: usize, most: usize) -> Option<Vec<u8>> {
        let taken = code::code(table, used, node)[0] == 0;
        if !taken || lengths(table, used)[node] > most {
            return None;
        }
        Some(tables::text_of(table, node))
    }

    /// A list of values and what is looked up in it, of which a test changes something.
    struct Values(Vec<usize>);

    impl Values {
        /// The numbers whose digits in base 3 are whole texts of at most ten digits.
        fn right() -> Self {
            let whole = |number: &usize| model::missing(&in_base_3(*number)) == Some(0);
            Values((0..3_usize.pow(10)).filter(whole).collect())
        }

        fn code_text(&self, code: usize, out: &mut [u8]) -> Given {
            let Some(value) = self.0.get(code) else {
                return [0, 0, 0];
            };
            let text = in_base_3(*value);
            match out.get_mut(..text.len()) {
                Some(place) => {
                    place.copy_from_slice(&text);
                    [0, 1, text.len()]
                }
                None => [10, 0, 0],
            }
        }

        fn again(&self, text: &[u8]) -> Given {
            let place = self.0.binary_search(&value(text));
            place.map_or([0, 0, 0], |place| [0, 1, place])
        }

        fn code(&self, table: &[u32], used: usize, node: usize) -> Given {
            match text_of(table, used, node, DIGITS) {
                Some(text) => self.again(&text),
                None => [code::code(table, used, node)[0], 0, 0],
            }
        }
    }

    /// The digits of a number in base 3, without a 0 before them but for 0 itself.
    fn in_base_3(number: usize) -> Vec<u8> {
        let mut text = vec![b"012"[number % 3]];
        let mut rest = number / 3;
        while rest > 0 {
            text.insert(0, b"012"[rest % 3]);
            rest /= 3;
        }
        text
    }

    /// The model, and the values that are found by testing numbers.
    #[test]
    fn nothing_is_wrong() {
        let none: [String; 0] = [];
        assert_eq!(differences(model_code), 0);
        assert_eq!(wrong_texts(code::code_text, model_again), none);
        let right = Values::right();
        let code = |table: &mut [u32], used, node| right.code(table, used, node);
        let code_text = |code, out: &mut [u8]| right.code_text(code, out);
        assert_eq!(differences(code), 0);
        assert_eq!(wrong_texts(code_text, |text| right.again(text)), none);
    }

    /// Wherever a single value is wrong, missing, there twice or in another's place, both functions tell.
    #[test]
    fn wrong_values() {
        let wrong_values = |what: &str, change: &dyn Fn(&mut Vec<usize>)| {
            let mut values = Values::right();
            change(&mut values.0);
            let by_text = wrong_texts(|code, out| values.code_text(code, out), model_again);
            let by_code = wrong_texts(code::code_text, |text| values.again(text));
            assert_ne!(by_text.len(), 0, "{what}");
            assert_ne!(by_code.len(), 0, "{what}");
        };
        for at in [0, 1, 2, 3, 700, CODES - 3, CODES - 2] {
            wrong_values("one more", &|values| values[at] += 1);
            wrong_values("missing", &|values| {
                values.remove(at);
            });
            wrong_values("twice", &|values| values.insert(at, values[at]));
            wrong_values("swapped", &|values| values.swap(at, at + 1));
        }
        wrong_values("without the last", &|values| values.truncate(CODES - 1));
        wrong_values("descending", &|values| values.reverse());
    }

    #[test]
    fn wrong_places() {
        other_answer("counted from 1", |[refusal, found, code]| {
            [refusal, found, code + found]
        });
        other_answer("the value", |[refusal, found, code]| {
            let value = value(&code::texts()[code]);
            [refusal, found, if found == 1 { value } else { code }]
        });
        other_answer("by the texts' letters", |answer| match answer {
            [0, 1, code] => {
                let text = &code::texts()[code];
                let before = code::texts().iter().filter(|other| *other < text);
                [0, 1, before.count()]
            }
            answer => answer,
        });
        noticed("the node's number", |table, used, node| {
            let [refusal, found, _] = code::code(table, used, node);
            [refusal, found, if found == 1 { node } else { 0 }]
        });
        noticed("branches in the other order", |table, used, node| {
            let mut turned = table.to_vec();
            let in_use = turned.chunks_exact_mut(2).take(used);
            in_use
                .filter(|node| node[1] != 0)
                .for_each(|node| node.swap(0, 1));
            code::code(&turned, used, node)
        });
    }

    #[test]
    fn wrong_about_sizes() {
        let other_size = |what, wrong: usize, answer: Given| {
            noticed(what, move |table, used, node| {
                match text_of(table, used, node, DIGITS + 2) {
                    Some(text) if text.len() == wrong => answer,
                    _ => code::code(table, used, node),
                }
            });
        };
        other_size("eleven digits have a code", DIGITS + 1, [0, 1, CODES]);
        other_size("twelve digits have a code", DIGITS + 2, [0, 1, 0]);
        other_size("ten digits have none", DIGITS, [0, 0, 0]);
        other_size("the leaf has none", 1, [0, 0, 0]);
        other_size("eleven digits are refused", DIGITS + 1, [10, 0, 0]);
        other_size("a code with none", DIGITS + 1, [0, 0, CODES]);
    }

    /// Counts of digits that lose their upper bits, so that a long text seems short.
    #[test]
    fn wrong_counts_of_digits() {
        for bits in [8, 16, 32, 64] {
            noticed("lost bits", move |table, used, node| {
                let answer = code::code(table, used, node);
                match (answer, digits_in(bits, table, used)) {
                    ([0, 0, _], lengths) if lengths[node] <= DIGITS as u64 => [0, 1, 0],
                    _ => answer,
                }
            });
        }
    }

    /// How many digits the text of each used node has, counted in so many bits.
    fn digits_in(bits: u32, table: &[u32], used: usize) -> Vec<u64> {
        let mask = u64::MAX >> (64 - bits);
        let mut lengths: Vec<u64> = Vec::new();
        for node in table.chunks_exact(2).take(used) {
            let branch = |word: u32| match word as usize {
                0 => 0,
                word => lengths.get(word - 1).copied().unwrap_or(0),
            };
            let digits = branch(node[0]).wrapping_add(branch(node[1]));
            lengths.push(digits.wrapping_add(1) & mask);
        }
        lengths
    }

    /// Refusals in another order than 1, 2, 3.
    #[test]
    fn refusals_in_another_order() {
        noticed("3 first", |table, used, node| match node >= used {
            true => [3, 0, 0],
            false => code::code(table, used, node),
        });
        noticed("3 before 2", |table, used, node| {
            match code::code(table, used, node) {
                [2, ..] if node >= used => [3, 0, 0],
                answer => answer,
            }
        });
        noticed("2 before 1", |table, used, node| {
            let fewer = used.min(table.len() / 2);
            let nodes = &table[..2 * fewer];
            match code::code(nodes, fewer, node) {
                [2, ..] => [2, 0, 0],
                _ => code::code(table, used, node),
            }
        });
    }

    #[test]
    fn wrong_refusals() {
        noticed("a longer table is taken", |table, used, node| {
            let length = table.len().min(WORDS);
            code::code(&table[..length], used, node)
        });
        noticed(
            "the longest table is refused",
            |table, used, node| match table.len() {
                WORDS => [1, 0, 0],
                _ => code::code(table, used, node),
            },
        );
        noticed("as many in use as there are", |table, used, node| {
            let fewer = used.min(table.len() / 2);
            code::code(table, fewer, node)
        });
        noticed(
            "checked up to the node",
            |table, used, node| match code::code(table, used, node) {
                [2, ..] if node < used => code::code(table, node + 1, node),
                answer => answer,
            },
        );
        other_answer("1 with a refusal", |[refusal, found, code]| {
            [refusal, found.max(refusal.min(1)), code]
        });
        other_answer("2 for 3", |[refusal, found, code]| {
            [refusal.min(2), found, code]
        });
    }

    #[test]
    fn a_table_that_is_written_to() {
        noticed("a node in use", |table, used, node| {
            let answer = code::code(table, used, node);
            if answer == [0, 0, 0] {
                table[1] = 7;
            }
            answer
        });
        noticed("the last word", |table, used, node| {
            let answer = code::code(table, used, node);
            if let Some(last) = table.last_mut() {
                *last = 77;
            }
            answer
        });
    }

    #[test]
    fn wrong_codes() {
        let wrong: [(&str, CodeText); 7] = [
            ("1,374 is taken", |code, out| {
                code::code_text(code - usize::from(code == CODES), out)
            }),
            ("1,373 is none", |code, out| {
                code::code_text(code + usize::from(code == CODES - 1), out)
            }),
            ("0 is none", |code, out| match code {
                0 => [0, 0, 0],
                code => code::code_text(code, out),
            }),
            ("counted from 1", |code, out| {
                code::code_text(code.wrapping_sub(1), out)
            }),
            ("a code has 16 bits", |code, out| {
                code::code_text(code & 0xffff, out)
            }),
            ("a code has 32 bits", |code, out| {
                code::code_text(code & 0xffff_ffff, out)
            }),
            ("a value for a code", |code, out| {
                let place = code::texts().iter().position(|text| value(text) == code);
                code::code_text(place.unwrap_or(CODES), out)
            }),
        ];
        for (what, code_text) in wrong {
            noticed_text(what, code_text);
        }
    }

    #[test]
    fn wrong_lengths_of_out() {
        let wrong: [(&str, CodeText); 4] = [
            ("10 comes first", |code, out| match out.len() {
                0 => [10, 0, 0],
                _ => code::code_text(code, out),
            }),
            (
                "ten bytes for every text",
                |code, out| match code::code_text(code, out) {
                    [0, 1, _] if out.len() < DIGITS => [10, 0, 0],
                    answer => answer,
                },
            ),
            (
                "just enough are too few",
                |code, out| match code::code_text(code, out) {
                    [0, 1, digits] if out.len() == digits => [10, 0, 0],
                    answer => answer,
                },
            ),
            ("too few are no text", |code, out| {
                match code::code_text(code, out) {
                    [10, ..] => [0, 0, 0],
                    answer => answer,
                }
            }),
        ];
        for (what, code_text) in wrong {
            noticed_text(what, code_text);
        }
    }

    /// What is written to too few out bytes.
    #[test]
    fn out_bytes_that_do_not_stay() {
        noticed_text("written in part", |code, out: &mut [u8]| {
            let answer = code::code_text(code, out);
            if answer[0] == 10 {
                out.copy_from_slice(&code::texts()[code][..out.len()]);
            }
            answer
        });
        noticed_text("cleared", |code, out: &mut [u8]| {
            let answer = code::code_text(code, out);
            if answer[0] == 10 {
                out.fill(0);
            }
            answer
        });
        noticed_text("cleared for no text", |code, out: &mut [u8]| {
            let answer = code::code_text(code, out);
            if answer == [0, 0, 0] {
                out.fill(0);
            }
            answer
        });
    }

    /// What is written to enough out bytes.
    #[test]
    fn wrong_bytes() {
        let written = |what, change: fn(&mut [u8], usize)| {
            noticed_text(what, |code, out: &mut [u8]| {
                let answer = code::code_text(code, out);
                if answer[1] == 1 {
                    change(out, answer[2]);
                }
                answer
            });
        };
        written("those past it are 0", |out, digits| out[digits..].fill(0));
        written("one past it is 0", |out, digits| {
            if let Some(byte) = out.get_mut(digits) {
                *byte = 0;
            }
        });
        written("ten digits, zeros first", |out, digits| {
            if let Some(place) = out.get_mut(..DIGITS) {
                place[..].rotate_right(DIGITS - digits);
                place[..DIGITS - digits].fill(b'0');
            }
        });
        written("numbers for digits", |out, digits| {
            out[..digits].iter_mut().for_each(|byte| *byte -= b'0');
        });
        written("right to left", |out, digits| out[..digits].reverse());
        // The value 0 has no digit but the one that is written for it.
        noticed_text("no digit for 0", |code, out: &mut [u8]| match code {
            0 => [0, 1, 0],
            code => code::code_text(code, out),
        });
    }

    #[test]
    fn wrong_answers_of_texts() {
        let other_answer = |what, change: fn(Given) -> Given| {
            noticed_text(what, |code, out: &mut [u8]| {
                change(code::code_text(code, out))
            });
        };
        other_answer("no digits", |[refusal, found, _]| [refusal, found, 0]);
        other_answer("ten digits", |[refusal, found, _]| {
            [refusal, found, DIGITS * found]
        });
        other_answer("a text with 10", |[refusal, found, digits]| {
            [refusal, found.max(refusal / 10), digits]
        });
        other_answer("4 for no text", |answer| match answer {
            [0, 0, 0] => [4, 0, 0],
            answer => answer,
        });
        other_answer("9 for 10", |[refusal, found, digits]| {
            [refusal.min(9), found, digits]
        });
    }

    /// A text that is refused, or has no code or another, is noticed for each code.
    #[test]
    fn texts_that_do_not_come_back() {
        let wrong: [fn(&[u8]) -> Given; 3] = [
            |_| [4, 0, 0],
            |_| [0, 0, 0],
            |text| model_again(text).map(|number| number + 1),
        ];
        for again in wrong {
            assert_eq!(wrong_texts(code::code_text, again).len(), CODES);
        }
        let mut texts = Texts::default();
        texts.compare(&mut Random::new(13), code::code_text, model_again);
        assert_eq!(texts.again, CODES);
    }

    /// Each call is what it is called, by what the model answers.
    #[test]
    fn kinds_of_calls() {
        let random = &mut Random::new(14);
        for wrong in WRONG {
            for size in SIZES {
                for _ in 0..20 {
                    let mut asked = Asked::new(random, Some(size));
                    let digits = lengths(&asked.table, asked.used)[asked.node];
                    assert_eq!(Size::of(digits), size);
                    asked.spoil(random, wrong);
                    let answer = code::code(&asked.table, asked.used, asked.node);
                    assert_eq!(answer[0], wrong.refusal(), "{wrong:?}");
                }
            }
        }
    }
}
