//! A plain reader of rule text, written for speed and proved by nothing: one pass over the text, which
//! writes the term as it reads. It refuses what the engine refuses, without saying why, and may have
//! written by then. No call is inlined into the benchmark, as no call of the engine is.

/// The most bytes of a text, parentheses nested in it, bytes of a rule and abstractions nested in it.
const LONGEST: usize = 8_192;
const DEEPEST: usize = 32;
const LARGEST: usize = 4_096;
const NESTED: usize = 16;

/// What stands before the operands: the applications and the operator's tree.
const NOT: &[u8] = &[
    1, 1, 1, 0, 1, 0, 1, 1, 0, 0, 1, 0, 0, 1, 1, 0, 1, 0, 1, 1, 0, 0, 1, 1, 0, 0, 1, 1, 0, 1, 0, 0,
    1, 0, 0, 1, 1, 0, 1, 0, 0, 1, 0, 0,
];
const AND: &[u8] = &[
    1, 1, 1, 0, 1, 0, 1, 1, 0, 0, 1, 1, 0, 0, 1, 1, 0, 1, 0, 0, 1, 0, 0,
];
const OR: &[u8] = &[
    1, 1, 1, 1, 0, 1, 0, 1, 1, 0, 0, 1, 0, 0, 1, 1, 0, 1, 0, 0, 1, 0, 0,
];
const IMPLIES: &[u8] = &[1, 1, 1, 0, 1, 0, 1, 1, 0, 0, 1, 0, 0];

/// A text while it is read. `at` is never the place of a space, and the first `around` names are those
/// of the abstractions around it, outermost first.
struct Reader<'a> {
    text: &'a [u8],
    at: usize,
    names: [u64; NESTED],
    around: usize,
    open: usize,
    out: &'a mut [u8],
    end: usize,
}

impl Reader<'_> {
    // ---- the text

    /// The next byte, or 0 at the end, which begins nothing.
    fn next(&self) -> u8 {
        self.text.get(self.at).copied().unwrap_or(0)
    }

    fn skip_spaces(&mut self) {
        while self.next() == b' ' {
            self.at += 1;
        }
    }

    /// Takes this sign if it is next.
    fn takes(&mut self, sign: u8) -> bool {
        let is_next = self.next() == sign;
        if is_next {
            self.at += 1;
            self.skip_spaces();
        }
        is_next
    }

    /// Takes a name, of one to eight letters, as a number: a letter is never 0, so no two names are one.
    fn name(&mut self) -> Option<u64> {
        let start = self.at;
        let mut name = 0;
        while self.next().is_ascii_lowercase() {
            name = name << 8 | u64::from(self.next());
            self.at += 1;
        }
        let letters = self.at - start;
        self.skip_spaces();
        (1..=8).contains(&letters).then_some(name)
    }

    // ---- the term

    fn put(&mut self, bytes: &[u8]) -> Option<()> {
        let end = self.end + bytes.len();
        self.out.get_mut(self.end..end)?.copy_from_slice(bytes);
        self.end = end;
        Some(())
    }

    /// Puts these bytes so many times before what was written since `start`: what groups left is
    /// written when its operands have been counted.
    fn put_before(&mut self, start: usize, bytes: &[u8], times: usize) -> Option<()> {
        let added = bytes.len() * times;
        if added > self.out.len() - self.end {
            return None;
        }
        self.out.copy_within(start..self.end, start + added);
        for place in self.out[start..start + added].chunks_exact_mut(bytes.len()) {
            place.copy_from_slice(bytes);
        }
        self.end += added;
        Some(())
    }

    // ---- the grammar

    fn expression(&mut self) -> Option<()> {
        let start = self.end;
        self.or()?;
        if self.takes(b'>') {
            self.put_before(start, IMPLIES, 1)?;
            self.expression()?;
        }
        Some(())
    }

    fn or(&mut self) -> Option<()> {
        let (start, mut times) = (self.end, 0);
        self.and()?;
        while self.takes(b'|') {
            self.and()?;
            times += 1;
        }
        self.put_before(start, OR, times)
    }

    fn and(&mut self) -> Option<()> {
        let (start, mut times) = (self.end, 0);
        self.not()?;
        while self.takes(b'&') {
            self.not()?;
            times += 1;
        }
        self.put_before(start, AND, times)
    }

    fn not(&mut self) -> Option<()> {
        while self.takes(b'!') {
            self.put(NOT)?;
        }
        self.application()
    }

    fn application(&mut self) -> Option<()> {
        let (start, mut times) = (self.end, 0);
        self.operand()?;
        while matches!(self.next(), b'a'..=b'z' | b'^' | b'(' | b'\\') {
            self.operand()?;
            times += 1;
        }
        self.put_before(start, &[1], times)
    }

    fn operand(&mut self) -> Option<()> {
        match self.next() {
            b'a'..=b'z' => self.variable(),
            b'^' => {
                self.takes(b'^');
                self.put(&[0])
            }
            b'(' => self.in_parentheses(),
            b'\\' => self.abstraction(),
            _ => None,
        }
    }

    fn variable(&mut self) -> Option<()> {
        let name = self.name()?;
        let mut names = self.names[..self.around].iter().rev();
        let between = names.position(|around| *around == name)?;
        self.put(&[3, between as u8])
    }

    fn in_parentheses(&mut self) -> Option<()> {
        if self.open == DEEPEST {
            return None;
        }
        self.takes(b'(');
        self.open += 1;
        self.expression()?;
        self.open -= 1;
        self.takes(b')').then_some(())
    }

    fn abstraction(&mut self) -> Option<()> {
        self.takes(b'\\');
        let name = self.name()?;
        if !self.takes(b'.') {
            return None;
        }
        *self.names.get_mut(self.around)? = name;
        self.around += 1;
        self.put(&[2])?;
        self.expression()?;
        self.around -= 1;
        Some(())
    }
}

/// Writes the rule that a text is to `out`: how many bytes it has.
#[inline(never)]
pub fn rule_text(text: &[u8], out: &mut [u8]) -> Option<usize> {
    if text.len() > LONGEST {
        return None;
    }
    let room = out.len().min(LARGEST);
    let mut reader = Reader {
        text,
        at: 0,
        names: [0; NESTED],
        around: 0,
        open: 0,
        out: &mut out[..room],
        end: 0,
    };
    reader.skip_spaces();
    reader.expression()?;
    let is_rule = reader.at == text.len() && reader.out[0] == 2;
    is_rule.then_some(reader.end)
}

#[cfg(test)]
mod tests {
    use super::*;
    use compare::random::Random;
    use compare::texts;

    /// The engine's bytes, and this reader's.
    fn both(text: &[u8], room: usize) -> [Option<Vec<u8>>; 2] {
        let (mut out, mut other_out) = (vec![9; room], vec![9; room]);
        let numbers = lazvorn::rule_text(text, &mut out);
        let written = (numbers.refusal == 0).then_some(numbers.bytes);
        let other = rule_text(text, &mut other_out);
        [(written, out), (other, other_out)].map(|(written, out)| Some(out[..written?].to_vec()))
    }

    /// Asserts that the engine and this reader give the same; whether they give bytes.
    fn same(text: &[u8], room: usize) -> bool {
        let [engine, plain] = both(text, room);
        assert_eq!(engine, plain, "{} in {room}", text.escape_ascii());
        engine.is_some()
    }

    #[test]
    fn operators_give_the_engines_bytes() {
        for text in [
            r"\x.x",
            r"\x.!x",
            r"\x.\y.x & y",
            r"\x.\y.x | y",
            r"\x.\y.x > y",
            r"  \ x . \y.!!x & y & ^ | x y (x & y) | !(x > y) > x | y > ^ ",
            r"\abcdefgh.\a.abcdefgh a (\a.a abcdefgh ^) a",
            r"\f.f \x.x f & \y.y | f > !\x.f x",
            r"(\x.((x)))",
        ] {
            assert!(same(text.as_bytes(), 4_096), "{text}");
        }
    }

    #[test]
    fn random_texts_give_the_engines_bytes() {
        let mut random = Random::new(4);
        for _ in 0..500 {
            let expression = texts::expression(&mut random);
            for way in texts::WAYS {
                let text = texts::printed(&mut random, &expression, way);
                let changed = texts::changed(&mut random, &text);
                for room in [4_096, random.within(0, 100)] {
                    same(&text, room);
                    same(&changed, room);
                }
            }
        }
    }

    #[test]
    fn borders_give_the_engines_bytes() {
        for border in texts::borders() {
            let accepted = same(&border.text, 4_096);
            assert_eq!(accepted, border.refusal == 0);
        }
    }
}
