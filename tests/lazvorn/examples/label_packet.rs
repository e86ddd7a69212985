//! A packet's rule labelled with its label, and both out of the labelled tree's text again.
fn main() {
    let packet = b"\x01\x00\x06\x02\x01\x03\x00\x03\x00\x02\x00\x010\x04\x00\x0210";
    let (mut table, mut stack, mut out) = ([0; 16384], [0; 12288], [0; 16384]);
    let labelled = lazvorn::label_packet(&mut table, &mut stack, &mut out, packet);
    assert_eq!(labelled.refusal, 0);
    let text = out[..labelled.digits].to_vec();
    let read = lazvorn::read(&mut table, 0, &mut stack, &text);
    let parts = lazvorn::unlabel(&table, read.used, read.node);
    assert_eq!((read.refusal, parts.refusal), (0, 0));
    let mut written = |node| {
        let written = lazvorn::write(&table, parts.used, &mut stack, node, &mut out);
        String::from_utf8_lossy(&out[..written.digits]).into_owned()
    };
    let (rule, label) = (written(parts.rule), written(parts.label));
    let text = String::from_utf8_lossy(&text);
    println!("{text}: rule {rule}, label {label}");
}
