//! Runs document 01's packet: the rule λx. x x on the leaf.
fn main() {
    let packet = b"\x01\x00\x06\x02\x01\x03\x00\x03\x00\x02\x00\x010";
    let (mut table, mut stack, mut out) = ([0; 16384], [0; 12288], [0; 16384]);
    let ran = lazvorn::run(&mut table, &mut stack, &mut out, packet);
    let text = String::from_utf8_lossy(&out[..ran.digits]);
    assert_eq!(ran.refusal, 0);
    println!("{} {} {} {}", ran.refusal, ran.steps, ran.used, text);
}
