//! The code of a tree, and the text of that code; a tree without a code, a code without a text, and too few out
//! bytes.
//!
//! 21010 in base 3 is 192. Of the trees of at most ten nodes 14 have a smaller value: 0, 10, 110, 200, 1110, 1200,
//! 2010, 2100, 11110, 11200, 12010, 12100, 20110 and 20200, or 0, 3, 12, 18, 39, 45, 57, 63, 120, 126, 138, 144, 174
//! and 180. So its code is 14. The fork of two of it has eleven nodes, and no code. The last code is 1,373, and four
//! bytes are too few for five digits.
use lazvorn::{code_text, CODES, CODE_DIGITS};

/// The code of a text's tree, or none.
fn code_of(text: &[u8]) -> Result<Option<usize>, usize> {
    let (mut table, mut stack) = ([0; 64], [0; 96]);
    let read = lazvorn::read(&mut table, 0, &mut stack, text);
    assert_eq!(read.refusal, 0);
    lazvorn::code(&table, read.used, read.node).given()
}

fn main() -> Result<(), usize> {
    let mut out = [0; CODE_DIGITS];
    let code = code_of(b"21010")?.expect("a tree of five nodes");
    print!("21010: code {code}, ");
    let digits = code_text(code, &mut out).given()?.expect("a code");
    let text = String::from_utf8_lossy(&out[..digits]);
    print!("code {code}: {text}, ");
    let shown = |found: Option<usize>| found.map_or("none", |_| "some");
    print!("22101021010: {}, ", shown(code_of(b"22101021010")?));
    let past = code_text(CODES, &mut out).given()?;
    print!("code {CODES}: {}, ", shown(past));
    println!(
        "4 bytes: refusal {}",
        code_text(code, &mut out[..4]).refusal
    );
    Ok(())
}
