//! Times by the thread's own clock, so that what other processes take of a shared machine is left
//! out, in rounds in which every contender has a turn, so that a slow spell meets all of them. The
//! order of the turns changes at random and a turn begins with a run that is not timed, so that what
//! one contender leaves in caches does not count against another.

use compare::random::Random;

const THREAD_CPU_TIME: i32 = 3;

extern "C" {
    fn clock_gettime(clock: i32, time: *mut [i64; 2]) -> i32;
}

/// The processor time of this thread in seconds.
fn clock() -> f64 {
    let mut time = [0; 2];
    // Linux's struct timespec is two 64-bit numbers on a 64-bit machine.
    let status = unsafe { clock_gettime(THREAD_CPU_TIME, &mut time) };
    assert_eq!(status, 0, "no clock of the thread's processor time");
    time[0] as f64 + time[1] as f64 * 1e-9
}

/// Something to time.
pub struct Contender<'a> {
    pub name: &'static str,
    pub run: Box<dyn FnMut() + 'a>,
}

pub fn contender<'a>(name: &'static str, run: impl FnMut() + 'a) -> Contender<'a> {
    Contender {
        name,
        run: Box::new(run),
    }
}

/// A contender's seconds for one run, round by round.
pub struct Times {
    pub name: &'static str,
    pub seconds: Vec<f64>,
}

/// The least that a turn lasts, in seconds: short runs are repeated within it.
const TURN: f64 = 0.002;

fn turn(contender: &mut Contender, repeats: usize) -> f64 {
    (contender.run)();
    let start = clock();
    for _ in 0..repeats {
        (contender.run)();
    }
    (clock() - start) / repeats as f64
}

/// Times every contender in each of so many rounds, each with its own count of repeats.
pub fn rounds(mut contenders: Vec<Contender>, rounds: usize) -> Vec<Times> {
    let repeats: Vec<usize> = contenders
        .iter_mut()
        .map(|contender| (TURN / turn(contender, 1).max(1e-9)).ceil().max(1.0) as usize)
        .collect();
    let mut times: Vec<Times> = contenders
        .iter()
        .map(|contender| Times {
            name: contender.name,
            seconds: Vec::new(),
        })
        .collect();
    let mut random = Random::new(1);
    let mut order: Vec<usize> = (0..contenders.len()).collect();
    for _ in 0..rounds {
        for k in (1..order.len()).rev() {
            order.swap(k, random.below(k + 1));
        }
        for &i in &order {
            times[i].seconds.push(turn(&mut contenders[i], repeats[i]));
        }
    }
    times
}

/// The number in the middle, and those at a quarter and at three quarters.
pub fn quartiles(numbers: impl Iterator<Item = f64>) -> [f64; 3] {
    let mut sorted: Vec<f64> = numbers.collect();
    sorted.sort_by(f64::total_cmp);
    [1, 2, 3].map(|k| sorted[(sorted.len() - 1) * k / 4])
}

impl Times {
    pub fn best(&self) -> f64 {
        self.seconds.iter().copied().fold(f64::INFINITY, f64::min)
    }

    pub fn median(&self) -> f64 {
        quartiles(self.seconds.iter().copied())[1]
    }

    /// How fast `engine` is beside these times, round by round: above 1, it is faster.
    pub fn speed_of(&self, engine: &Times) -> [f64; 3] {
        let pairs = self.seconds.iter().zip(&engine.seconds);
        quartiles(pairs.map(|(other, engine)| other / engine))
    }
}
