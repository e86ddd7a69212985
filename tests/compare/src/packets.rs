//! Packets and the memory that they are run in: valid, damaged, too long, endless, sharing and nested ones,
//! with labels and without, in the program's room, in little room, at the borders of the room that a packet
//! needs and of the room that it stops in.

use crate::random::Random;
use crate::trees;

/// The parts of a packet that is well formed as far as its fields go.
#[derive(Clone)]
pub struct Parts {
    pub rule: Vec<u8>,
    pub arguments: Vec<Vec<u8>>,
    pub limit: Option<u32>,
    pub label: Option<Vec<u8>>,
}

/// What the maker of a packet did about its label.
#[derive(Clone, Copy, Debug, PartialEq, Eq)]
pub enum Label {
    /// Nothing, or nothing that is known.
    Unknown,
    /// A whole text in its place.
    Whole,
    /// A text that is damaged, and most often not whole.
    Broken,
    /// A text of no bytes.
    Empty,
    /// A whole text before another field: the step limit, or any.
    Early,
    /// Two whole texts.
    Twice,
    /// A whole text with another field or bytes after it.
    Followed,
    /// A whole text that makes the packet longer than 16,384 bytes.
    TooLong,
}

/// The labels that a packet is refused for.
pub const WRONG_LABELS: [Label; 6] = [
    Label::Broken,
    Label::Empty,
    Label::Early,
    Label::Twice,
    Label::Followed,
    Label::TooLong,
];

impl Label {
    /// What a packet is refused with if nothing else is wrong with it, 0 for nothing.
    pub fn refusal(self) -> usize {
        match self {
            Label::Unknown | Label::Whole => 0,
            Label::Broken | Label::Empty => 4,
            Label::Early | Label::Twice | Label::Followed | Label::TooLong => 6,
        }
    }
}

/// Lengths of what is lent: words of the table, words of the stack, out bytes.
#[derive(Clone, Copy, Debug)]
pub struct Room {
    pub table: usize,
    pub stack: usize,
    pub out: usize,
}

/// The program's room.
pub const PROGRAM: Room = Room {
    table: 16_384,
    stack: 12_288,
    out: 16_384,
};

/// The most that may be lent.
pub const MOST: Room = Room {
    table: 131_072,
    stack: 65_536,
    out: 65_535,
};

#[derive(Clone)]
pub struct Case {
    pub packet: Vec<u8>,
    pub room: Room,
    /// The parts of the packet, where it was made of some and not damaged.
    pub parts: Option<Parts>,
    pub label: Label,
}

impl Case {
    /// A packet of these parts.
    pub fn of(parts: Parts, room: Room) -> Self {
        let label = match &parts.label {
            Some(text) if model::missing(text) == Some(0) => Label::Whole,
            _ => Label::Unknown,
        };
        Case {
            packet: parts.packet(),
            room,
            parts: Some(parts),
            label,
        }
    }
}

fn add_field(packet: &mut Vec<u8>, tag: u8, value: &[u8]) {
    packet.push(tag);
    packet.extend((value.len() as u16).to_be_bytes());
    packet.extend(value);
}

/// A field's tag and value.
type Field = (u8, Vec<u8>);

fn packet_of(fields: &[Field]) -> Vec<u8> {
    let mut packet = Vec::new();
    for (tag, value) in fields {
        add_field(&mut packet, *tag, value);
    }
    packet
}

impl Parts {
    fn fields(&self) -> Vec<Field> {
        let mut fields = vec![(1, self.rule.clone())];
        fields.extend(self.arguments.iter().map(|text| (2, text.clone())));
        fields.extend(self.limit.map(|limit| (3, limit.to_be_bytes().to_vec())));
        fields.extend(self.label.clone().map(|text| (4, text)));
        fields
    }

    pub fn packet(&self) -> Vec<u8> {
        packet_of(&self.fields())
    }

    /// A first argument that makes the packet so many bytes long. At most one other is left.
    fn lengthen(&mut self, bytes: usize) {
        self.arguments.truncate(1);
        self.arguments.insert(0, Vec::new());
        let rest = bytes - self.packet().len();
        self.arguments[0] = [vec![b'1'; rest - 1], vec![b'0']].concat();
    }
}

/// A step limit, or none.
fn limit(random: &mut Random) -> Option<u32> {
    match random.below(40) {
        0..=21 => None,
        22..=29 => Some(random.below(60) as u32),
        30..=37 => Some(random.below(3_000) as u32),
        38 => Some(random.within(3_000, 30_000) as u32),
        _ => Some(*random.pick(&[0, 999_999, 1_000_000])),
    }
}

/// A label's whole text, or none. Now and then it is deep in its first branches, so that Read wants
/// more frames than Translate.
fn label(random: &mut Random) -> Option<Vec<u8>> {
    match random.below(8) {
        0..=3 => None,
        4 => {
            let depth = random.below(200);
            Some([vec![b'2'; depth], vec![b'0'; depth + 1]].concat())
        }
        _ => Some(trees::text(random)),
    }
}

fn valid(random: &mut Random) -> Parts {
    let rule = if random.once_in(3) {
        trees::rule(random)
    } else {
        random.pick(trees::RULES).to_vec()
    };
    let most = *random.pick(&[0, 1, 1, 1, 2, 2, 2, 3, 3, 4, 8]);
    let arguments = (0..most).map(|_| trees::text(random)).collect();
    Parts {
        rule,
        arguments,
        limit: limit(random),
        label: label(random),
    }
}

/// A rule that never ends, on itself or on another such rule.
fn endless(random: &mut Random) -> Parts {
    let rule = random.pick(trees::ENDLESS).to_vec();
    let argument = if random.once_in(4) {
        let other = *random.pick(trees::ENDLESS);
        trees::text_of(other)
    } else {
        trees::text_of(&rule)
    };
    // Many of these use no new node after a while, so that only the limit ends them.
    let limit = match limit(random) {
        None if !random.once_in(8) => Some(random.below(3_000) as u32),
        limit => limit,
    };
    Parts {
        rule,
        arguments: vec![argument],
        limit,
        label: label(random),
    }
}

/// Rules that apply a rule several times, over one that makes two branches of one tree: the outcome's
/// text is far longer than its nodes are many.
fn sharing(random: &mut Random) -> Parts {
    let times = |random: &mut Random| random.pick(&trees::RULES[11..13]).to_vec();
    let double = trees::text_of(trees::RULES[9]);
    let mut arguments = Vec::new();
    for _ in 0..random.below(3) {
        let rule = times(random);
        arguments.push(trees::text_of(&rule));
    }
    arguments.push(double);
    let budget = random.within(1, 9);
    arguments.push(trees::tree(random, budget));
    Parts {
        rule: times(random),
        arguments,
        limit: random.once_in(4).then_some(50_000),
        label: label(random),
    }
}

/// Applications within applications, more of them than Translate needs frames, in a room for about as many.
/// λx. x gives back the first arguments, its own tree, and then a tree in which each 21p over another is a
/// spread that holds a frame while the other is applied.
pub fn nested(random: &mut Random) -> Case {
    let most = *random.pick(&[12, 30, 30, 300]);
    let levels = random.within(1, most);
    let level = *random.pick(&["210", "2110", "21200", "2122000"]);
    let mut text = level.repeat(levels).into_bytes();
    match random.below(3) {
        0 => text.extend(b"22000"),
        _ => {
            let budget = random.within(1, 9);
            text.extend(trees::tree(random, budget));
        }
    }
    let mut arguments = vec![b"21010".to_vec(); random.below(6)];
    arguments.push(text);
    for _ in 0..random.within(1, 2) {
        let budget = random.within(1, 9);
        arguments.push(trees::tree(random, budget));
    }
    let limit = random.once_in(4).then(|| random.below(4 * levels) as u32);
    let parts = Parts {
        rule: trees::RULES[0].to_vec(),
        arguments,
        limit,
        label: label(random),
    };
    let room = Room {
        stack: 3 * random.within(10, levels + 11) + random.below(3),
        ..PROGRAM
    };
    Case::of(parts, room)
}

/// Well-formed fields with values at the border of what a packet, a rule or a text may be.
fn large(random: &mut Random) -> Parts {
    let mut parts = valid(random);
    match random.below(4) {
        0 => parts.rule = trees::large_rule(random),
        // The packet's length is just below, at or above 16,384.
        1 => parts.lengthen(random.near(16_384)),
        2 => {
            let depth = random.within(1, 5_000);
            parts.arguments = vec![trees::deep(random, depth)];
        }
        _ => {
            let depth = random.within(1, 5_000);
            parts.label = Some(trees::deep(random, depth));
        }
    }
    parts
}

/// A packet that is refused for its label, unless its rule, which is wrong now and then, is refused
/// first.
fn wrong_label(random: &mut Random) -> (Vec<u8>, Label) {
    let mut parts = valid(random);
    if random.once_in(8) {
        parts.rule = trees::wrong_rule(random);
    }
    let text = trees::text(random);
    let wrong = *random.pick(&WRONG_LABELS);
    let mut after = Vec::new();
    match wrong {
        Label::Broken => parts.label = Some(trees::wrong_text(random)),
        Label::Empty => parts.label = Some(Vec::new()),
        Label::TooLong => {
            // Without its label the packet is not too long.
            let more = random.within(1, 3 + text.len());
            parts.label = Some(text);
            parts.lengthen(16_384 + more);
        }
        Label::Twice => {
            parts.label = Some(text);
            add_field(&mut after, 4, &trees::text(random));
        }
        Label::Followed => {
            parts.label = Some(text);
            add_field(&mut after, *random.pick(&[0, 1, 2, 5, 255]), b"0");
            if random.once_in(3) {
                after.truncate(random.within(1, 2));
            }
        }
        _ => {
            // Before the step limit, or before any other field.
            parts.limit.get_or_insert(3_000);
            parts.label = None;
            let mut fields = parts.fields();
            fields.insert(random.below(fields.len()), (4, text));
            return (packet_of(&fields), Label::Early);
        }
    }
    ([parts.packet(), after].concat(), wrong)
}

/// A packet with a step limit of another length, or above the greatest.
fn wrong_limit(random: &mut Random, mut parts: Parts) -> Vec<u8> {
    let value = *random.pick(&[&[0, 1, 0][..], &[0, 0, 0, 1, 0], &[0, 15, 66, 65], &[]]);
    let label = parts.label.take();
    parts.limit = None;
    let mut packet = parts.packet();
    add_field(&mut packet, 3, value);
    if let Some(text) = label {
        add_field(&mut packet, 4, &text);
    }
    packet
}

/// Bytes that begin as a packet, with a byte or a field changed.
fn damaged(random: &mut Random) -> Vec<u8> {
    let mut parts = valid(random);
    let mut packet = parts.packet();
    match random.below(12) {
        0 => packet.truncate(random.below(packet.len() + 1)),
        1 => packet.push(random.below(4) as u8),
        2 => {
            packet.remove(random.below(packet.len()));
        }
        3 => packet.insert(random.below(packet.len()), random.below(256) as u8),
        4 | 5 => {
            let at = random.below(packet.len());
            packet[at] = random.below(256) as u8;
        }
        6 => {
            let at = random.below(packet.len());
            packet[at] ^= 1 << random.below(8);
        }
        7 => packet = wrong_limit(random, parts),
        8 => {
            let tag = *random.pick(&[0, 1, 2, 3, 4, 255]);
            add_field(&mut packet, tag, b"0");
        }
        9 => {
            parts.arguments = vec![b"0".to_vec(); random.within(7, 10)];
            packet = parts.packet();
        }
        10 => {
            let mut other = Vec::new();
            let tag = *random.pick(&[0, 2, 3, 4]);
            add_field(&mut other, tag, &parts.rule);
            packet.splice(..0, other);
        }
        _ => packet.truncate(random.below(5)),
    }
    packet
}

fn room(random: &mut Random) -> Room {
    let mut room = match random.below(20) {
        0..=11 => PROGRAM,
        12 | 13 => Room {
            table: 2 * random.below(60),
            stack: 3 * random.below(120),
            out: random.below(12),
        },
        14..=17 => Room {
            table: 2 * random.below(3_000),
            stack: 3 * random.below(2_000),
            out: random.below(300),
        },
        18 => Room {
            table: 2 * random.below(20_000),
            stack: 3 * random.below(10_000),
            out: random.below(40_000),
        },
        _ if random.once_in(4) => MOST,
        _ => PROGRAM,
    };
    // Words that make up no whole node or frame.
    room.table += random.below(2);
    room.stack += random.below(3);
    if random.once_in(200) {
        match random.below(3) {
            0 => room.table = 131_073,
            1 => room.stack = 65_537,
            _ => room.out = 65_536,
        }
    }
    Room {
        table: room.table.min(131_073),
        stack: room.stack.min(65_537),
        out: room.out.min(65_536),
    }
}

/// The next case.
pub fn case(random: &mut Random) -> Case {
    let parts = match random.below(100) {
        0..=40 => valid(random),
        41..=44 => return nested(random),
        45..=50 => endless(random),
        51..=60 => sharing(random),
        61..=63 => large(random),
        64..=71 => {
            let mut parts = valid(random);
            parts.rule = trees::wrong_rule(random);
            parts
        }
        72..=79 => {
            let mut parts = valid(random);
            let wrong = trees::wrong_text(random);
            let at = random.below(parts.arguments.len() + 1);
            if parts.arguments.len() < 8 {
                parts.arguments.insert(at, wrong);
            }
            parts
        }
        number => {
            let (packet, label) = match number {
                80..=87 => wrong_label(random),
                _ => (damaged(random), Label::Unknown),
            };
            return Case {
                packet,
                room: room(random),
                parts: None,
                label,
            };
        }
    };
    Case::of(parts, room(random))
}

/// Packets that stop in pairs: one below the top of what they lack, and at the top.
///
/// - λx. x x on itself never ends and makes two nodes. Its packet has 24 bytes and a label, which fills it
///   so that a limit's field just fits in, or just not; or it names a limit.
/// - λx. x(x(x x)) on t, which gives y twice for y, doubles eight times. y is the leaf 256 times, and on a
///   leaf it makes 65,536 stems.
/// - λx. Δ(x x) on itself holds one frame more in each of its rounds, which take eleven steps.
pub fn at_tops() -> Vec<Case> {
    let endless = |digits: usize| {
        let label = [vec![b'1'; digits - 1], vec![b'0']].concat();
        let parts = on_itself(trees::ENDLESS[0], None, Some(label));
        Case::of(parts, PROGRAM)
    };
    let deep = on_itself(trees::ENDLESS[1], Some(1_000_000), None);
    let twice = |y: String| format!("21{y}20{y}");
    let leaves = (0..8).fold("0".to_string(), |y, _| twice(y));
    let stems = Parts {
        rule: vec![2, 1, 3, 0, 1, 3, 0, 1, 3, 0, 3, 0],
        arguments: ["2110210200", &leaves, "0"].map(Vec::from).to_vec(),
        limit: Some(1_000_000),
        label: None,
    };
    let in_table = |table| Case::of(stems.clone(), Room { table, ..MOST });
    let in_stack = |stack| Case::of(deep.clone(), Room { stack, ..MOST });
    let limited = |limit| Case::of(on_itself(trees::ENDLESS[0], Some(limit), None), PROGRAM);
    vec![
        endless(16_377 - 24 - 3),
        endless(16_378 - 24 - 3),
        limited(999_999),
        limited(1_000_000),
        in_table(131_071),
        in_table(131_072),
        in_stack(65_534),
        in_stack(65_535),
    ]
}

/// A rule on its own tree.
fn on_itself(rule: &[u8], limit: Option<u32>, label: Option<Vec<u8>>) -> Parts {
    Parts {
        rule: rule.to_vec(),
        arguments: vec![trees::text_of(rule)],
        limit,
        label,
    }
}

/// A case that succeeded with these numbers, run again with just enough of one thing, one too few of
/// it or one more, or with any part of the nodes or steps.
pub fn at_border(
    random: &mut Random,
    case: &Case,
    used: usize,
    steps: usize,
    digits: usize,
) -> Case {
    let mut case = case.clone();
    match random.below(8) {
        0 | 1 => case.room.table = nodes_near(random, used),
        2 => {
            let nodes = random.within(1, used);
            case.room.table = nodes_near(random, nodes);
        }
        3 | 4 => case.room.out = random.near(digits),
        number => {
            let steps = match number {
                5 => random.within(0, steps),
                _ => steps,
            };
            return with_steps(random, &case, steps);
        }
    }
    case
}

/// A case under a step limit of so many steps, one less or one more, where the packet's parts are known.
pub fn with_steps(random: &mut Random, case: &Case, steps: usize) -> Case {
    let mut case = case.clone();
    if let Some(parts) = &mut case.parts {
        parts.limit = Some(random.near(steps) as u32);
        case.packet = parts.packet();
    }
    case
}

/// A case whose labelling succeeded with these numbers, with just enough nodes for Translate, for the
/// label's Read, for Label or for a part of its nodes, or just enough out bytes for Write; one too few of
/// it or one more.
pub fn at_label_border(random: &mut Random, case: &Case, used: usize, digits: usize) -> Case {
    let mut case = case.clone();
    let [translated, read] = nodes_before_label(&case);
    match random.below(5) {
        0 => case.room.table = nodes_near(random, translated),
        1 => case.room.table = nodes_near(random, read),
        2 => {
            let nodes = random.within(read, used);
            case.room.table = nodes_near(random, nodes);
        }
        3 => case.room.table = nodes_near(random, used),
        _ => case.room.out = random.near(digits),
    }
    case
}

/// How many nodes the model uses after Translate and after the label's Read, in the room of a case whose
/// labelling succeeded.
fn nodes_before_label(case: &Case) -> [usize; 2] {
    let parts = case.parts.as_ref().expect("parts of a packet");
    let label = parts.label.as_ref().expect("a label");
    let mut memory = model::Memory {
        table: vec![0; case.room.table],
        stack: vec![0; case.room.stack],
        out: Vec::new(),
    };
    let translated = model::translate(&mut memory, 0, &parts.rule)[2];
    [translated, model::read(&mut memory, translated, label)[2]]
}

/// Words for so many nodes, one less or one more, and at times a word that is no node's.
fn nodes_near(random: &mut Random, nodes: usize) -> usize {
    2 * random.near(nodes) + random.below(2)
}
