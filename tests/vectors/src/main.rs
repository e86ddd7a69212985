//! Runs a script of test vectors through the exported operations and compares the line that each
//! command gives with the line expected. Beside `src/` stand `script` and `expected`; both are made
//! from documents 01 and 02 and source 001, and not from what the engine gives. The exit status is 1
//! where a line differs, where lines are missing or left over, where a line of the script is no
//! command, and where the script has no command at all.
//!
//! A command stands on a line of its own, its fields parted by one blank each: a letter, numbers in
//! decimal, texts as they are, bytes in hexadecimal. A line that is empty or begins with # is passed
//! over. Bytes may stand in several fields, and N*BYTES is those bytes N times. Room that a command
//! does not name is ample: 65,536 nodes, 21,845 frames, 65,535 out bytes. Where an operation is
//! refused, the line is the refusal's number alone.
//!
//! ```text
//! r NODES FRAMES TEXT             Read into an empty table: 0, node, used, and the text that Write
//!                                 gives of the node
//! b NODES FRAMES BYTES            the same, the text in bytes
//! c NODES FRAMES COUNT PART TAIL  the same of PART, COUNT times, and TAIL: 0, node, used, digits, and
//!                                 1 if Write gives the same text, else 0
//! w FRAMES OUT TEXT               Read, then Write: 0, digits, text
//! s LEVELS FRAMES OUT             Write of a node whose branches are one node, whose branches are one
//!                                 node, and so on to a leaf: 0, digits
//! t NODES FRAMES BYTES            Translate into an empty table: 0, node, used, text
//! i NODES FRAMES TREE TREE ..     the first tree, by Read or by Translate, into a table that has the
//!                                 others in order, with so many nodes free: what r and t print
//! a NODES FRAMES LIMIT TREE ..    the first tree applied to the second, that to the third, and so on
//!                                 under one step limit, with so many nodes free: 0, steps, new
//!                                 nodes, text. A tree is a text, or a rule, x and its bytes
//! l NODES TREE TREE               Label of the first tree with the second, with so many nodes free:
//!                                 0, node, used, text
//! e TREE TREE ..                  `same` of the first two of these trees' nodes: 0, the nodes, and 1 if
//!                                 the trees are equal, else 0
//! n TREE                          `unlabel` of a tree's node: 0, the nodes of rule and label, and the
//!                                 texts of these
//! d TREE TREE                     Label of the first tree with the second, then `unlabel`: what n
//!                                 prints
//! f NODES FRAMES LIMIT TREE TREE TREE ..
//!                                 Label of the first tree with the second, and that applied to the
//!                                 third, and so on: what a prints
//! u LETTER USED A B WORD ..       in a table of these words, Read (r) of 0, Write (w) of node A,
//!                                 Translate (t) of 02 00, Apply (a) of A to B under the limit 100,
//!                                 Label (l) of A with B, `unlabel` (n) of A, `same` (e) of A and B: what
//!                                 the command of that letter prints, without the nodes of e
//! p BYTES                         Run of a packet with the room that the program lends: the
//!                                 program's line
//! k BYTES                         `label_packet` with this room: the line of the program of this name
//! o NODES FRAMES OUT BYTES        `label_packet` with so much room: 0, used, digits, text
//! v BYTES                         `label_packet` as by k, then `unlabel` of its text: what n prints
//! h NODES FRAMES LIMIT BYTES TREE ..
//!                                 `label_packet` as by k, the bytes in one field, then its text's tree
//!                                 applied to the next, and so on: what a prints
//! ```

use lazvorn::{Numbers, Parts, Same};

const SCRIPT: &str = include_str!("../script");
const EXPECTED: &str = include_str!("../expected");

/// How many differences are printed.
const SHOWN: usize = 10;

/// Ample room: the words of the largest table, of the most frames, and the most out bytes.
const TABLE: usize = 131_072;
const STACK: usize = 65_535;
const OUT: usize = 65_535;

/// Why a command ends early: an operation is refused, or the line is no command.
enum Early {
    Refused(usize),
    NoCommand,
}

type Answer<T> = Result<T, Early>;

fn accepted(numbers: Numbers) -> Answer<Numbers> {
    match numbers.refusal {
        0 => Ok(numbers),
        refusal => Err(Early::Refused(refusal)),
    }
}

// ---- fields of a line

fn number(field: &str) -> Answer<usize> {
    field.parse().map_err(|_| Early::NoCommand)
}

/// The bytes of a field in hexadecimal.
fn bytes_of(field: &str) -> Answer<Vec<u8>> {
    let byte = |pair: &[u8]| {
        let pair = std::str::from_utf8(pair).ok().filter(|p| p.len() == 2)?;
        u8::from_str_radix(pair, 16).ok()
    };
    let bytes: Option<Vec<u8>> = field.as_bytes().chunks(2).map(byte).collect();
    bytes.ok_or(Early::NoCommand)
}

/// The bytes of several fields, each in hexadecimal or N*BYTES.
fn gathered(fields: &[&str]) -> Answer<Vec<u8>> {
    let mut bytes = Vec::new();
    for field in fields {
        match field.split_once('*') {
            Some((count, part)) => bytes.extend(bytes_of(part)?.repeat(number(count)?)),
            None => bytes.extend(bytes_of(field)?),
        }
    }
    Ok(bytes)
}

/// The first words or bytes of memory, if there are so many.
fn lend<T>(memory: &mut [T], n: usize) -> Answer<&mut [T]> {
    memory.get_mut(..n).ok_or(Early::NoCommand)
}

// ---- operations and what is shown of their answers

/// The memory that is lent, with room for one node, one frame and one byte above what is allowed. A
/// command finds in it what the ones before it left.
struct Memory {
    table: Vec<u32>,
    stack: Vec<u32>,
    out: Vec<u8>,
}

impl Memory {
    fn new() -> Self {
        Memory {
            table: vec![0; TABLE + 2],
            stack: vec![0; STACK + 3],
            out: vec![0; OUT + 1],
        }
    }

    /// Read of a text into an empty table, with the nodes and frames of two fields.
    fn read(&mut self, nodes: &str, frames: &str, text: &[u8]) -> Answer<Numbers> {
        let table = lend(&mut self.table, 2 * number(nodes)?)?;
        let stack = lend(&mut self.stack, 3 * number(frames)?)?;
        accepted(lazvorn::read(table, 0, stack, text))
    }

    /// A tree into the table, with ample room.
    fn load(&mut self, used: usize, tree: &str) -> Answer<Numbers> {
        self.load_in([TABLE, STACK], used, tree)
    }

    /// A tree into the table, with so many words of table and stack: a text, or a rule, x and its bytes.
    fn load_in(&mut self, room: [usize; 2], used: usize, tree: &str) -> Answer<Numbers> {
        let table = lend(&mut self.table, room[0])?;
        let stack = lend(&mut self.stack, room[1])?;
        accepted(match tree.strip_prefix('x') {
            Some(rule) => lazvorn::translate(table, used, stack, &bytes_of(rule)?),
            None => lazvorn::read(table, used, stack, tree.as_bytes()),
        })
    }

    /// Several trees into an empty table: their nodes, and the count of used nodes.
    fn load_all(&mut self, trees: &[&str]) -> Answer<(Vec<usize>, usize)> {
        let (mut nodes, mut used) = (Vec::new(), 0);
        for tree in trees {
            let made = self.load(used, tree)?;
            nodes.push(made.node);
            used = made.used;
        }
        Ok((nodes, used))
    }

    /// The first out bytes as they are.
    fn shown(&self, digits: usize) -> String {
        String::from_utf8_lossy(&self.out[..digits]).into_owned()
    }

    /// A node's text, written with ample room; a minus and the number where Write is refused.
    fn text(&mut self, used: usize, node: usize) -> String {
        let (table, stack) = (&self.table[..TABLE], &mut self.stack[..STACK]);
        let written = lazvorn::write(table, used, stack, node, &mut self.out[..OUT]);
        match written.refusal {
            0 => self.shown(written.digits),
            refusal => format!("-{refusal}"),
        }
    }

    /// The line of an operation that makes nodes.
    fn made(&mut self, made: Numbers) -> Answer<String> {
        let made = accepted(made)?;
        let text = self.text(made.used, made.node);
        Ok(format!("0 {} {} {text}", made.node, made.used))
    }

    /// The line of Write.
    fn written(&self, written: Numbers) -> Answer<String> {
        let digits = accepted(written)?.digits;
        Ok(format!("0 {digits} {}", self.shown(digits)))
    }

    /// The line of `unlabel`.
    fn unlabelled(&mut self, parts: Parts) -> Answer<String> {
        if parts.refusal != 0 {
            return Err(Early::Refused(parts.refusal));
        }
        let [rule, label] = [parts.rule, parts.label].map(|node| self.text(parts.used, node));
        Ok(format!("0 {} {} {rule} {label}", parts.rule, parts.label))
    }

    /// The line of `same`, after the nodes where they are shown.
    fn compared(&self, nodes: &[usize], same: Same) -> Answer<String> {
        if same.refusal != 0 {
            return Err(Early::Refused(same.refusal));
        }
        let numbers = [&[0], nodes, &[same.equal]].concat();
        let numbers: Vec<String> = numbers.iter().map(usize::to_string).collect();
        Ok(numbers.join(" "))
    }

    /// The line of Apply, where `before` nodes were in use.
    fn applied(&mut self, before: usize, applied: Numbers) -> Answer<String> {
        let applied = accepted(applied)?;
        let text = self.text(applied.used, applied.node);
        Ok(format!(
            "0 {} {} {text}",
            applied.steps,
            applied.used - before
        ))
    }
}

// ---- commands

fn read_command(m: &mut Memory, nodes: &str, frames: &str, text: &[u8]) -> Answer<String> {
    let made = m.read(nodes, frames, text)?;
    m.made(made)
}

fn repeat_command(m: &mut Memory, nodes: &str, frames: &str, text: &str) -> Answer<String> {
    let read = m.read(nodes, frames, text.as_bytes())?;
    let written = m.text(read.used, read.node);
    let same = usize::from(written == text);
    Ok(format!(
        "0 {} {} {} {same}",
        read.node,
        read.used,
        written.len()
    ))
}

fn write_command(m: &mut Memory, frames: &str, out: &str, text: &str) -> Answer<String> {
    let read = m.load(0, text)?;
    let stack = lend(&mut m.stack, 3 * number(frames)?)?;
    let out = lend(&mut m.out, number(out)?)?;
    let written = lazvorn::write(&m.table[..TABLE], read.used, stack, read.node, out);
    m.written(written)
}

/// Node 0 is a leaf, and each further one a fork of the node before it twice.
fn share_command(m: &mut Memory, levels: &str, frames: &str, out: &str) -> Answer<String> {
    let last = number(levels)?;
    for (i, word) in lend(&mut m.table, 2 * (last + 1))?.iter_mut().enumerate() {
        *word = (i / 2) as u32;
    }
    let stack = lend(&mut m.stack, 3 * number(frames)?)?;
    let out = lend(&mut m.out, number(out)?)?;
    let written = lazvorn::write(&m.table[..TABLE], last + 1, stack, last, out);
    Ok(format!("0 {}", accepted(written)?.digits))
}

fn translate_command(m: &mut Memory, nodes: &str, frames: &str, rule: &[u8]) -> Answer<String> {
    let table = lend(&mut m.table, 2 * number(nodes)?)?;
    let stack = lend(&mut m.stack, 3 * number(frames)?)?;
    let made = lazvorn::translate(table, 0, stack, rule);
    m.made(made)
}

fn into_command(m: &mut Memory, room: [&str; 2], tree: &str, others: &[&str]) -> Answer<String> {
    let (_, used) = m.load_all(others)?;
    let words = [2 * (used + number(room[0])?), 3 * number(room[1])?];
    let made = m.load_in(words, used, tree)?;
    m.made(made)
}

fn same_command(m: &mut Memory, trees: &[&str]) -> Answer<String> {
    let (nodes, used) = m.load_all(trees)?;
    let [a, b, ..] = nodes[..] else {
        return Err(Early::NoCommand);
    };
    let same = lazvorn::same(&m.table[..TABLE], used, a, b);
    m.compared(&[a, b], same)
}

fn apply_command(m: &mut Memory, room: [&str; 3], trees: &[&str]) -> Answer<String> {
    let (nodes, before) = m.load_all(trees)?;
    let (first, arguments) = nodes.split_first().ok_or(Early::NoCommand)?;
    apply_all(m, room, before, *first, arguments)
}

/// A node applied to these in order, where `before` nodes are in use: the line of a.
fn apply_all(
    m: &mut Memory,
    room: [&str; 3],
    before: usize,
    function: usize,
    arguments: &[usize],
) -> Answer<String> {
    let [free, frames, limit] = [number(room[0])?, number(room[1])?, number(room[2])?];
    let mut all = Numbers {
        node: function,
        used: before,
        ..Numbers::default()
    };
    for argument in arguments {
        let table = lend(&mut m.table, 2 * (before + free))?;
        let stack = lend(&mut m.stack, 3 * frames)?;
        let left = limit - all.steps;
        let one = lazvorn::apply(table, all.used, stack, all.node, *argument, left);
        let one = accepted(one.numbers())?;
        let steps = all.steps + one.steps;
        all = Numbers { steps, ..one };
    }
    m.applied(before, all)
}

fn label_command(m: &mut Memory, free: &str, rule: &str, label: &str) -> Answer<String> {
    let (nodes, used) = m.load_all(&[rule, label])?;
    let table = lend(&mut m.table, 2 * (used + number(free)?))?;
    let made = lazvorn::label(table, used, nodes[0], nodes[1]);
    m.made(made)
}

fn unlabel_command(m: &mut Memory, tree: &str) -> Answer<String> {
    let read = m.load(0, tree)?;
    let parts = lazvorn::unlabel(&m.table[..TABLE], read.used, read.node);
    m.unlabelled(parts)
}

/// Several trees into an empty table, and Label of the first with the second, with ample room: what it
/// made, and the nodes of the other trees.
fn labelled(m: &mut Memory, trees: &[&str]) -> Answer<(Numbers, Vec<usize>)> {
    let (nodes, used) = m.load_all(trees)?;
    let [rule, label, others @ ..] = &nodes[..] else {
        return Err(Early::NoCommand);
    };
    let made = lazvorn::label(&mut m.table[..TABLE], used, *rule, *label);
    Ok((accepted(made)?, others.to_vec()))
}

fn both_ways_command(m: &mut Memory, rule: &str, label: &str) -> Answer<String> {
    let (made, _) = labelled(m, &[rule, label])?;
    let parts = lazvorn::unlabel(&m.table[..TABLE], made.used, made.node);
    m.unlabelled(parts)
}

fn label_and_apply_command(m: &mut Memory, room: [&str; 3], trees: &[&str]) -> Answer<String> {
    let (made, arguments) = labelled(m, trees)?;
    apply_all(m, room, made.used, made.node, &arguments)
}

fn words_command(m: &mut Memory, letter: &str, rest: &[&str]) -> Answer<String> {
    let [used, a, b, words @ ..] = rest else {
        return Err(Early::NoCommand);
    };
    let (used, a, b) = (number(used)?, number(a)?, number(b)?);
    let table = lend(&mut m.table, words.len())?;
    for (word, field) in table.iter_mut().zip(words) {
        *word = field.parse().map_err(|_| Early::NoCommand)?;
    }
    if letter == "n" {
        let parts = lazvorn::unlabel(table, used, a);
        return m.unlabelled(parts);
    }
    if letter == "e" {
        let same = lazvorn::same(table, used, a, b);
        return m.compared(&[], same);
    }
    let (stack, out) = (&mut m.stack[..STACK], &mut m.out[..OUT]);
    let answer = match letter {
        "r" => lazvorn::read(table, used, stack, b"0"),
        "w" => lazvorn::write(table, used, stack, a, out),
        "t" => lazvorn::translate(table, used, stack, &[2, 0]),
        "a" => lazvorn::apply(table, used, stack, a, b, 100).numbers(),
        "l" => lazvorn::label(table, used, a, b),
        _ => return Err(Early::NoCommand),
    };
    match letter {
        "w" => m.written(answer),
        "a" => m.applied(used, answer),
        _ => m.made(answer),
    }
}

/// The program's line of an answer about a packet.
fn line(m: &Memory, answer: Numbers) -> String {
    let text = match answer.refusal {
        0 => m.shown(answer.digits),
        _ => "-".to_string(),
    };
    format!("{} {} {} {text}", answer.refusal, answer.steps, answer.used)
}

fn packet_command(m: &mut Memory, packet: &[u8]) -> String {
    let (table, stack) = (&mut m.table[..16_384], &mut m.stack[..12_288]);
    let ran = lazvorn::run(table, stack, &mut m.out[..16_384], packet);
    line(m, ran.numbers())
}

/// `label_packet` with the room that the program lends.
fn label_packet(m: &mut Memory, packet: &[u8]) -> Numbers {
    let (table, stack) = (&mut m.table[..16_384], &mut m.stack[..12_288]);
    lazvorn::label_packet(table, stack, &mut m.out[..16_384], packet)
}

fn label_packet_command(m: &mut Memory, packet: &[u8]) -> String {
    let labelled = label_packet(m, packet);
    line(m, labelled)
}

/// The text of a packet's labelled rule.
fn labelled_text(m: &mut Memory, packet: &[u8]) -> Answer<String> {
    let digits = accepted(label_packet(m, packet))?.digits;
    Ok(m.shown(digits))
}

fn label_packet_and_unlabel_command(m: &mut Memory, packet: &[u8]) -> Answer<String> {
    let text = labelled_text(m, packet)?;
    unlabel_command(m, &text)
}

fn label_packet_and_apply_command(
    m: &mut Memory,
    room: [&str; 3],
    packet: &[u8],
    arguments: &[&str],
) -> Answer<String> {
    let text = labelled_text(m, packet)?;
    apply_command(m, room, &[&[&text[..]], arguments].concat())
}

fn label_packet_in_room_command(m: &mut Memory, room: [&str; 3], packet: &[u8]) -> Answer<String> {
    let [nodes, frames, out] = [number(room[0])?, number(room[1])?, number(room[2])?];
    let table = lend(&mut m.table, 2 * nodes)?;
    let stack = lend(&mut m.stack, 3 * frames)?;
    let out = lend(&mut m.out, out)?;
    let labelled = accepted(lazvorn::label_packet(table, stack, out, packet))?;
    let text = m.shown(labelled.digits);
    Ok(format!("0 {} {} {text}", labelled.used, labelled.digits))
}

fn command(m: &mut Memory, fields: &[&str]) -> Answer<String> {
    match *fields {
        ["r", nodes, frames, ref text @ ..] if text.len() < 2 => {
            read_command(m, nodes, frames, text.concat().as_bytes())
        }
        ["b", nodes, frames, ref bytes @ ..] => read_command(m, nodes, frames, &gathered(bytes)?),
        ["c", nodes, frames, count, part, tail] => {
            repeat_command(m, nodes, frames, &(part.repeat(number(count)?) + tail))
        }
        ["w", frames, out, text] => write_command(m, frames, out, text),
        ["s", levels, frames, out] => share_command(m, levels, frames, out),
        ["t", nodes, frames, ref bytes @ ..] => {
            translate_command(m, nodes, frames, &gathered(bytes)?)
        }
        ["a", nodes, frames, limit, ref trees @ ..] => {
            apply_command(m, [nodes, frames, limit], trees)
        }
        ["l", nodes, rule, label] => label_command(m, nodes, rule, label),
        ["i", nodes, frames, tree, ref others @ ..] => {
            into_command(m, [nodes, frames], tree, others)
        }
        ["e", ref trees @ ..] => same_command(m, trees),
        ["n", tree] => unlabel_command(m, tree),
        ["d", rule, label] => both_ways_command(m, rule, label),
        ["f", nodes, frames, limit, ref trees @ ..] => {
            label_and_apply_command(m, [nodes, frames, limit], trees)
        }
        ["u", letter, ref rest @ ..] => words_command(m, letter, rest),
        ["p", ref bytes @ ..] => Ok(packet_command(m, &gathered(bytes)?)),
        ["k", ref bytes @ ..] => Ok(label_packet_command(m, &gathered(bytes)?)),
        ["o", nodes, frames, out, ref bytes @ ..] => {
            label_packet_in_room_command(m, [nodes, frames, out], &gathered(bytes)?)
        }
        ["v", ref bytes @ ..] => label_packet_and_unlabel_command(m, &gathered(bytes)?),
        ["h", nodes, frames, limit, bytes, ref trees @ ..] => {
            label_packet_and_apply_command(m, [nodes, frames, limit], &bytes_of(bytes)?, trees)
        }
        _ => Err(Early::NoCommand),
    }
}

/// The line that a line of the script gives, or none where it is no command. A blank at its end parts
/// nothing from nothing.
fn answer(memory: &mut Memory, line: &str) -> Option<String> {
    let fields: Vec<&str> = line.strip_suffix(' ').unwrap_or(line).split(' ').collect();
    match command(memory, &fields) {
        Ok(line) => Some(line),
        Err(Early::Refused(number)) => Some(number.to_string()),
        Err(Early::NoCommand) => None,
    }
}

/// How many commands a script has, and each difference from the lines expected.
fn compare(script: &str, expected: &str) -> (usize, Vec<String>) {
    let mut memory = Memory::new();
    let mut expected = expected.lines();
    let (mut commands, mut differences) = (0, Vec::new());
    for (at, command) in script.lines().enumerate() {
        if command.is_empty() || command.starts_with('#') {
            continue;
        }
        commands += 1;
        let given = answer(&mut memory, command);
        let wanted = expected.next();
        if given.is_none() || given.as_deref() != wanted {
            differences.push(format!(
                "line {}: {command}\n  given:    {}\n  expected: {}",
                at + 1,
                given.as_deref().unwrap_or("nothing: this is no command"),
                wanted.unwrap_or("nothing: the lines are at an end"),
            ));
        }
    }
    differences.extend(expected.map(|line| format!("a line is left over: {line}")));
    if commands == 0 {
        differences.push("the script has no command".to_string());
    }
    (commands, differences)
}

fn main() {
    let (commands, differences) = compare(SCRIPT, EXPECTED);
    for difference in differences.iter().take(SHOWN) {
        println!("{difference}");
    }
    println!("{commands} vectors, {} differences", differences.len());
    if !differences.is_empty() {
        std::process::exit(1);
    }
}

#[cfg(test)]
mod tests {
    use super::compare;

    fn differences(script: &str, expected: &str) -> usize {
        compare(script, expected).1.len()
    }

    #[test]
    fn every_line_is_compared() {
        let (script, expected) = ("# Read\nr 6 6 10\n\nr 6 6 1\n", "0 1 2 10\n4\n");
        assert_eq!(compare(script, expected), (2, Vec::new()));
        assert_eq!(differences(script, "0 1 2 10\n0\n"), 1);
        assert_eq!(differences(script, "4\n0 1 2 10\n"), 2);
        assert_eq!(differences(script, "0 1 2 10\n"), 1);
        assert_eq!(differences(script, "0 1 2 10\n4\n4\n"), 1);
        assert_eq!(differences(script, ""), 2);
    }

    #[test]
    fn what_is_no_command_is_a_difference() {
        assert_eq!(differences("", ""), 1);
        assert_eq!(differences("# nothing\n\n", ""), 1);
        for line in [
            "x 6 6 10",
            "r six 6 10",
            "r 6",
            "t 6 6 020",
            "r 70000 6 10",
            "u x 0 0 0",
            "n",
            "d 0",
            "f 1 1 1 0",
            "o 1 1",
            "i 1 1",
            "e 0",
            "h 1 1 1",
            "a 1 1 1",
        ] {
            assert_eq!(differences(line, "4\n"), 1, "{line}");
        }
    }
}
