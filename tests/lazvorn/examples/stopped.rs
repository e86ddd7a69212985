//! A packet run in too little room, with one more of what each stop names until it completes.
//!
//! λx. x, 21010, on t and on the leaf, where t is eleven times Δ(ΔΔ) over a leaf. To lay t are used 0, 10,
//! the rule and eleven forks: 14 nodes. λx. x on t is spread, stem, leaf and drop, and makes Kt and Δt. Then
//! each level of t on the leaf is a spread that holds a frame: of the ten frames that Translate needs for
//! the rule, the eleventh lacks one, after 4 + 10 steps. Below them the leaf makes 10 of the leaf, which is
//! there, and so does each level. The innermost is then 10 on 10, a stem, after 4 + 11 + 2 steps, and KK is
//! the 17th node. The next drops 10 and gives 10, and so on in turns: 4 + 11 + 1 + 2 * 11 = 38 steps, of
//! which the last is a stem, and gives KK, 2010.

fn packet(limit: u8) -> Vec<u8> {
    let t = ["210".repeat(11), "0".into()].concat();
    let head = b"\x01\x00\x03\x02\x03\x00\x02\x00\x22";
    let tail = b"\x02\x00\x010\x03\x00\x04\x00\x00\x00";
    [&head[..], t.as_bytes(), tail, &[limit]].concat()
}

fn main() {
    let (mut table, mut stack, mut out) = (vec![0; 32], vec![0; 30], [0; 9]);
    let mut limit = 37;
    loop {
        let stop = lazvorn::stopped(&mut table, &mut stack, &mut out, &packet(limit));
        let Some(rule) = stop.wanted() else {
            assert_eq!(stop.refusal, 0);
            break;
        };
        let name = rule.name();
        print!("{} {} {} {name}, ", stop.refusal, stop.place, stop.steps);
        match stop.refusal {
            lazvorn::STEPS => limit += 1,
            lazvorn::NODES => table.extend([0; 2]),
            _ => stack.extend([0; 3]),
        }
    }
    let ran = lazvorn::run(&mut table, &mut stack, &mut out, &packet(limit));
    let text = String::from_utf8_lossy(&out[..ran.digits]);
    println!("{} {} {} {text}", ran.refusal, ran.steps, ran.used);
}
