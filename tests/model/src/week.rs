//! Windows of a week, of request [6] of document 02. Every minute of the week is marked with the packet
//! number of the window that holds it, and whether a window begins there; then minutes are looked up and
//! counted one by one.

use crate::{given, Given, Refusal};

/// The minutes of a day and of a week.
const DAY: usize = 1_440;
const WEEK: usize = 7 * DAY;

/// A minute of the week: the packet number of its window, if one holds it, and whether one begins here.
#[derive(Clone, Copy, Default)]
struct Minute {
    packet: Option<u8>,
    begins: bool,
}

/// All minutes of a week, or none where the week is broken.
pub struct Week(Option<Vec<Minute>>);

/// "Checks: 13, a broken week, day or minute, before all else."
const BROKEN: Refusal = 13;

/// Marks the minutes of a window. "Minutes run from 0 to 1,440, the first below the end; the first belongs
/// to the window, the end doesn't." As windows ascend and don't overlap, no minute from its first on is
/// marked before it.
fn mark(day: &mut [Minute], place: &[u32]) -> Result<(), Refusal> {
    let [first, end, packet] = [place[0], place[1], place[2]].map(|number| number as usize);
    if !(1..=28).contains(&packet) || end > DAY || first >= end {
        return Err(BROKEN);
    }
    if day[first..].iter().any(|minute| minute.packet.is_some()) {
        return Err(BROKEN);
    }
    for minute in &mut day[first..end] {
        minute.packet = Some(packet as u8);
    }
    day[first].begins = true;
    Ok(())
}

/// Marks the minutes of a day's four places. "An unused place is three zeros and comes after the used
/// ones."
fn mark_day(day: &mut [Minute], places: &[u32]) -> Result<(), Refusal> {
    let places: Vec<&[u32]> = places.chunks(3).collect();
    let unused = |place: &&[u32]| **place == [0, 0, 0];
    let used = places.iter().position(unused).unwrap_or(4);
    if !places[used..].iter().all(unused) {
        return Err(BROKEN);
    }
    places[..used].iter().try_for_each(|place| mark(day, place))
}

/// "A week is seven days of at most four windows each": 84 numbers, and no other count.
fn minutes(numbers: &[u32]) -> Result<Vec<Minute>, Refusal> {
    if numbers.len() != 7 * 4 * 3 {
        return Err(BROKEN);
    }
    let mut minutes = vec![Minute::default(); WEEK];
    for (day, places) in minutes.chunks_mut(DAY).zip(numbers.chunks(12)) {
        mark_day(day, places)?;
    }
    Ok(minutes)
}

impl Week {
    pub fn of(numbers: &[u32]) -> Self {
        Week(minutes(numbers).ok())
    }

    /// The minutes of the week, from the one that is asked about on to the one before it.
    fn from(&self, day: usize, minute: usize) -> Result<impl Iterator<Item = &Minute>, Refusal> {
        let minutes = self.0.as_ref().ok_or(BROKEN)?;
        if day > 6 || minute > 1_439 {
            return Err(BROKEN);
        }
        let (before, after) = minutes.split_at(day * DAY + minute);
        Ok(after.iter().chain(before))
    }

    /// "the packet number, or none exactly when no window holds that minute"
    pub fn window(&self, day: usize, minute: usize) -> Given {
        let now = self.from(day, minute).map(|mut minutes| minutes.next());
        given(now.map(|now| now.and_then(|minute| minute.packet).map(usize::from)))
    }

    /// "the minutes until the next window begins, wrapping once past the week's end; a window beginning now
    /// counts as 0, and a week without windows has none"
    pub fn next_window(&self, day: usize, minute: usize) -> Given {
        let minutes = self.from(day, minute);
        given(minutes.map(|mut minutes| minutes.position(|minute| minute.begins)))
    }
}
