//! A load of nine digits from the seed 12, read into a table, written back, and made a second time.
//!
//! The state after 12 is 12 * 1,664,525 + 1,013,904,223 = 1,033,878,523, which gives the draw 15,775. The nine
//! draws are 15,775, 24,052, 2,361, 7,344, 25,013, 38,950, 33,827, 41,541 and 40,131. The digits allowed are
//! 12, 012, 012, 12, 12, 012, 01, 0 and 0, so that the remainders 1, 1, 0, 0, 1, 1, 1, 0 and 0 give 210121100.
//! Its different trees are 0, 10, 110, 21100, 121100 and the whole: six nodes. A load of 4,096 digits is empty,
//! and eight bytes are too few for nine digits.
use lazvorn::{generate, LOAD_DIGITS};

fn main() {
    let (mut table, mut stack) = ([0; 64], [0; 96]);
    let (mut load, mut back, mut again) = ([0; LOAD_DIGITS], [0; 9], [0; 9]);
    let made = generate(12, 9, &mut load);
    let text = &load[..made.digits];
    let read = lazvorn::read(&mut table, 0, &mut stack, text);
    let written = lazvorn::write(&table, read.used, &mut stack, read.node, &mut back);
    let second = generate(12, 9, &mut again);
    let refusals = [made.refusal, read.refusal, written.refusal, second.refusal];
    assert_eq!(refusals, [0; 4]);
    let [text, back, again] = [text, &back, &again].map(String::from_utf8_lossy);
    print!("seed 12: {text}, {} nodes, ", read.used);
    print!("written {back}, again {again}, ");
    let empty = generate(12, 4_096, &mut load);
    let short = generate(12, 9, &mut load[..8]);
    assert_eq!(empty.refusal, 0);
    print!("4096 digits: {}, ", empty.digits);
    println!("8 bytes: refusal {}", short.refusal);
}
