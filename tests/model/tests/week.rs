//! "Opening windows" ([6]): the model against document 02, sentence by sentence, each number worked out from
//! it.

use model::week::Week;

/// First, end and packet.
type Window = [u32; 3];

/// The numbers of a week that has these windows: the day, and its windows from the first place on.
fn numbers(days: &[(usize, &[Window])]) -> Vec<u32> {
    let mut numbers = vec![0; 84];
    for (day, windows) in days {
        let windows = windows.concat();
        numbers[12 * day..12 * day + windows.len()].copy_from_slice(&windows);
    }
    numbers
}

fn week(days: &[(usize, &[Window])]) -> Week {
    Week::of(&numbers(days))
}

/// The answers of both about a minute.
fn answers(week: &Week, day: usize, minute: usize) -> [[usize; 3]; 2] {
    [week.window(day, minute), week.next_window(day, minute)]
}

const REFUSED: [[usize; 3]; 2] = [[13, 0, 0]; 2];

/// Whether a week is refused, on a minute of its first and of its last day; it must be on both or none.
fn refused(week: &Week) -> bool {
    let [first, last] = [answers(week, 0, 0), answers(week, 6, 1_439)];
    assert_eq!(first == REFUSED, last == REFUSED);
    first == REFUSED
}

/// "the first belongs to the window, the end doesn't", "or none exactly when no window holds that minute"
#[test]
fn minutes_of_windows() {
    let week = week(&[
        (1, &[[5, 7, 3], [7, 8, 28], [1_439, 1_440, 1]]),
        (2, &[[0, 1, 9]]),
    ]);
    for (day, minute, packet) in [
        (1, 4, None),
        (1, 5, Some(3)),
        (1, 6, Some(3)),
        (1, 7, Some(28)),
        (1, 8, None),
        (1, 1_438, None),
        (1, 1_439, Some(1)),
        (2, 0, Some(9)),
        (2, 1, None),
        (0, 5, None),
        (2, 5, None),
        (3, 0, None),
    ] {
        let expected = packet.map_or([0, 0, 0], |packet| [0, 1, packet]);
        assert_eq!(week.window(day, minute), expected, "{day} {minute}");
    }
}

/// "the minutes until the next window begins, wrapping once past the week's end; a window beginning now counts
/// as 0"
#[test]
fn minutes_until_the_next() {
    let week = week(&[(1, &[[5, 7, 3], [7, 8, 28]]), (4, &[[100, 1_440, 1]])]);
    for (day, minute, minutes) in [
        (0, 0, 1_445),
        (0, 1_439, 6),
        (1, 4, 1),
        (1, 5, 0),
        (1, 6, 1),
        (1, 7, 0),
        // The rest of the day, two days and 100 minutes.
        (1, 8, 1_432 + 2_880 + 100),
        (4, 100, 0),
        // The rest of the day, two days to the week's end, a day and 5 minutes.
        (4, 101, 1_339 + 2_880 + 1_445),
        (6, 1_439, 1 + 1_445),
    ] {
        assert_eq!(
            week.next_window(day, minute),
            [0, 1, minutes],
            "{day} {minute}"
        );
    }
}

/// The only window of a week begins again a week later, and so does the first of a day that has the only ones.
#[test]
fn the_same_window_a_week_later() {
    let one = week(&[(3, &[[600, 700, 2]])]);
    assert_eq!(one.next_window(3, 600), [0, 1, 0]);
    assert_eq!(one.next_window(3, 601), [0, 1, 10_079]);
    assert_eq!(one.next_window(3, 1_439), [0, 1, 10_080 - 839]);
    let two = week(&[(3, &[[600, 700, 2], [800, 900, 2]])]);
    assert_eq!(two.next_window(3, 601), [0, 1, 199]);
    assert_eq!(two.next_window(3, 801), [0, 1, 10_080 - 201]);
}

/// "a week without windows has none"
#[test]
fn no_windows() {
    for (day, minute) in [(0, 0), (3, 700), (6, 1_439)] {
        assert_eq!(answers(&week(&[]), day, minute), [[0, 0, 0]; 2]);
    }
}

/// "a packet number from 1 to 28", "Minutes run from 0 to 1,440, the first below the end", on every place of
/// the week.
#[test]
fn one_window() {
    let before = [[0, 1, 1], [1, 2, 1], [2, 3, 1]];
    for place in 0..28 {
        let (day, used) = (place / 4, place % 4);
        let with = |window| week(&[(day, &[&before[..used], &[window]].concat())]);
        for window in [[3, 4, 1], [3, 1_440, 28], [1_439, 1_440, 14]] {
            assert!(!refused(&with(window)), "{place} {window:?}");
        }
        for window in [
            [3, 1_441, 1],
            [1_440, 1_441, 1],
            [1_440, 1_440, 1],
            [3, u32::MAX, 1],
            [3, 3, 1],
            [4, 3, 1],
            [u32::MAX, 4, 1],
            [3, 4, 0],
            [3, 4, 29],
            [3, 4, u32::MAX],
            [3, 0, 0],
            [0, 4, 0],
            [0, 0, 1],
        ] {
            assert!(refused(&with(window)), "{place} {window:?}");
        }
    }
}

/// "Windows of a day ascend and don't overlap; the end of one may be the first of the next."
#[test]
fn windows_of_a_day() {
    for day in 0..7 {
        let of = |windows: &[Window]| refused(&week(&[(day, windows)]));
        assert!(!of(&[[10, 20, 1], [20, 30, 1], [30, 40, 1], [40, 50, 1]]));
        assert!(of(&[[10, 20, 1], [20, 30, 1], [30, 40, 1], [39, 50, 1]]));
        assert!(of(&[[10, 20, 1], [19, 30, 1]]));
        assert!(of(&[[10, 20, 1], [10, 20, 1]]));
        assert!(of(&[[10, 20, 1], [12, 18, 1]]));
        assert!(of(&[[12, 18, 1], [10, 20, 1]]));
        assert!(of(&[[20, 30, 1], [10, 20, 1]]));
        assert!(of(&[[10, 20, 1], [30, 40, 1], [20, 30, 1]]));
        // Windows of two days may stand in any order.
        let next = (day + 1) % 7;
        let days = [(day, &[[20, 30, 1]][..]), (next, &[[10, 25, 1]][..])];
        assert!(!refused(&week(&days)));
    }
}

/// "An unused place is three zeros and comes after the used ones."
#[test]
fn unused_places() {
    let (window, unused) = ([10, 20, 1], [0; 3]);
    for day in 0..7 {
        let of = |windows: &[Window]| refused(&week(&[(day, windows)]));
        assert!(!of(&[window, unused]));
        assert!(of(&[unused, window]));
        assert!(of(&[unused, unused, unused, window]));
        assert!(of(&[window, unused, [20, 30, 1]]));
        assert!(of(&[[0, 1, 1], [1, 2, 1], unused, [2, 3, 1]]));
    }
}

/// "Given day (0 to 6) and minute (0 to 1,439)"
#[test]
fn days_and_minutes() {
    let week = week(&[(6, &[[0, 1_440, 28]])]);
    assert_eq!(answers(&week, 6, 1_439), [[0, 1, 28], [0, 1, 8_641]]);
    for (day, minute) in [
        (7, 0),
        (0, 1_440),
        (7, 1_440),
        (usize::MAX, 0),
        (0, usize::MAX),
    ] {
        assert_eq!(answers(&week, day, minute), REFUSED);
    }
}

/// A week is 84 numbers.
#[test]
fn lengths() {
    let long = [numbers(&[(0, &[[0, 1_440, 1]])]), numbers(&[])].concat();
    assert!(!refused(&Week::of(&long[..84])));
    for length in [0, 1, 3, 12, 72, 81, 83, 85, 87, 96, 168] {
        assert!(refused(&Week::of(&long[..length])), "{length}");
    }
}
