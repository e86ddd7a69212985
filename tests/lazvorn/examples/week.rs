//! Which packet is run at a minute of a week, and how many minutes it is until the next window begins.
//!
//! Day 0 has packet 3 from 480 to 720 and packet 7 from 720 to 1,080, day 4 packet 28 from 600 to 1,440. Minute
//! 719 of day 0 is the last of packet 3, and one minute later packet 7 begins. 1,080 is no minute of packet 7,
//! and from there it is four days less 1,080 minutes and 600 minutes: 5,280. From minute 601 of day 4 it is
//! the rest of the day, 839, two days to the week's end, 2,880, and 480 minutes of day 0: 4,199. A week in
//! which packet 3 ends at 721 is broken, whatever is asked.
use lazvorn::{Week, Window};

/// A number, or a dash where there is none.
fn shown(number: Option<usize>) -> String {
    number.map_or("-".to_string(), |number| number.to_string())
}

fn main() -> Result<(), usize> {
    let window = |first, end, packet| Window { first, end, packet };
    let mut week = Week::default();
    week.0[0][0] = window(480, 720, 3);
    week.0[0][1] = window(720, 1_080, 7);
    week.0[4][0] = window(600, 1_440, 28);
    for (day, minute) in [(0, 719), (0, 720), (0, 1_080), (4, 601)] {
        let packet = week.window_at(day, minute)?;
        let next = week.next_window(day, minute)?;
        print!("{day} {minute}: {} {}, ", shown(packet), shown(next));
    }
    week.0[0][0].end = 721;
    println!("refusal {}", week.window_at(4, 601).unwrap_err());
    Ok(())
}
