//! A rule from text to bytes to packet to line: p and not q, on true (K, 10) and false (KI, 2021010).

fn field(tag: u8, value: &[u8]) -> Vec<u8> {
    [&[tag, (value.len() >> 8) as u8, value.len() as u8], value].concat()
}

fn main() {
    let mut rule = [0; 4096];
    let read = lazvorn::rule_text(br"\p.\q.p & !q", &mut rule);
    assert_eq!(read.refusal, 0);
    let packet = [
        field(1, &rule[..read.bytes]),
        field(2, b"10"),
        field(2, b"2021010"),
    ]
    .concat();
    let (mut table, mut stack, mut out) = ([0; 16384], [0; 12288], [0; 16384]);
    let ran = lazvorn::run(&mut table, &mut stack, &mut out, &packet);
    let text = String::from_utf8_lossy(&out[..ran.digits]);
    println!("{} {} {} {}", ran.refusal, ran.steps, ran.used, text);
}
