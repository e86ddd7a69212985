//! Whether a rule's tree is the one of a text: λx. x x beside 212101021010 and beside 21010.
fn main() {
    let (mut table, mut stack) = ([0; 64], [0; 96]);
    let rule = lazvorn::translate(&mut table, 0, &mut stack, &[2, 1, 3, 0, 3, 0]);
    let whole = lazvorn::read(&mut table, rule.used, &mut stack, b"212101021010");
    let part = lazvorn::read(&mut table, whole.used, &mut stack, b"21010");
    assert_eq!((rule.refusal, whole.refusal, part.refusal), (0, 0, 0));
    for node in [whole.node, part.node] {
        let same = lazvorn::same(&table, part.used, rule.node, node);
        assert_eq!(same.refusal, 0);
        print!("{} and {node}: {}, ", rule.node, same.equal);
    }
    println!("{} used", part.used);
}
