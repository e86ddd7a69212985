//! What sort of work document 01's packet is: how often each rule was used.
fn main() {
    let packet = b"\x01\x00\x06\x02\x01\x03\x00\x03\x00\x02\x00\x010";
    let (mut table, mut stack, mut out) = ([0; 16384], [0; 12288], [0; 16384]);
    let ran = lazvorn::run(&mut table, &mut stack, &mut out, packet);
    assert_eq!(ran.refusal, 0);
    let uses = ran.uses;
    println!(
        "{} steps: leaf {} stem {} drop {} spread {} triage {}",
        ran.steps, uses.leaf, uses.stem, uses.drop, uses.spread, uses.triage
    );
}
