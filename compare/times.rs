//! How a time is taken, what is said of many times, and how a time is printed.

/// A point in time, as C has it.
#[repr(C)]
struct Clock {
    seconds: i64,
    nanoseconds: i64,
}

extern "C" {
    fn clock_gettime(which: i32, clock: *mut Clock) -> i32;
}

/// The clock that goes only while a processor works for this thread: with the one on the wall, a call that is long
/// enough to be interrupted would be charged for the work of others, and a short one would not.
const WORKED: i32 = 3;

/// The seconds that a processor has worked for this thread.
pub fn worked() -> f64 {
    let mut clock = Clock {
        seconds: 0,
        nanoseconds: 0,
    };
    let failed = unsafe { clock_gettime(WORKED, &mut clock) };
    assert!(failed == 0, "the processor's time cannot be read");
    clock.seconds as f64 + clock.nanoseconds as f64 / 1e9
}

/// A time is the least of so many rounds: others who use the computer only ever add to it.
pub const ROUNDS: u32 = 5;

/// A round has as many calls as take about so many seconds, since one call may be too short for the clock.
pub const ROUND: f64 = 0.0005;

/// It has no more calls than this, also where the clock did not move during the one that tells how many.
pub const MOST_CALLS: u32 = 10_000;

/// The last answer of so many calls, and the seconds that one of them took.
fn round(calls: u32, call: &mut impl FnMut() -> u64) -> (u64, f64) {
    let begin = worked();
    let mut answer = 0;
    for _ in 0..calls {
        answer = call();
    }
    (answer, (worked() - begin) / f64::from(calls))
}

/// The answer of a call, and the seconds that it takes. One call before the rounds tells how many calls they have; its
/// time counts for nothing else.
pub fn timed(mut call: impl FnMut() -> u64) -> (u64, f64) {
    let (mut answer, once) = round(1, &mut call);
    let calls = (ROUND / once).ceil().clamp(1.0, f64::from(MOST_CALLS)) as u32;
    let mut least = f64::INFINITY;
    for _ in 0..ROUNDS {
        let (again, seconds) = round(calls, &mut call);
        answer = again;
        least = least.min(seconds);
    }
    (answer, least)
}

/// The times of one planner on the tables of a family, in seconds.
#[derive(Default)]
pub struct Times {
    all: Vec<f64>,
}

impl Times {
    pub fn push(&mut self, seconds: f64) {
        self.all.push(seconds);
    }

    pub fn mean(&self) -> f64 {
        self.all.iter().sum::<f64>() / self.all.len() as f64
    }

    /// The middle one, or halfway between the middle two.
    pub fn median(&self) -> f64 {
        let mut all = self.all.clone();
        all.sort_by(f64::total_cmp);
        let (low, high) = ((all.len() - 1) / 2, all.len() / 2);
        (all[low] + all[high]) / 2.0
    }

    pub fn worst(&self) -> f64 {
        self.all.iter().copied().fold(0.0, f64::max)
    }

    /// How many times longer than the other's time, on each table.
    fn ratios<'a>(&'a self, other: &'a Times) -> impl Iterator<Item = f64> + 'a {
        self.all.iter().zip(&other.all).map(|(one, two)| one / two)
    }

    /// How many times longer than the other's time on the same table, where that is least.
    pub fn least_ratio(&self, other: &Times) -> f64 {
        self.ratios(other).fold(f64::INFINITY, f64::min)
    }

    /// The same, where it is most.
    pub fn most_ratio(&self, other: &Times) -> f64 {
        self.ratios(other).fold(0.0, f64::max)
    }
}

/// Microseconds below a millisecond, else milliseconds; three digits or more.
pub fn readable(seconds: f64) -> String {
    let (time, unit) = if seconds < 0.001 {
        (seconds * 1e6, "µs")
    } else {
        (seconds * 1e3, "ms")
    };
    let digits = match time {
        time if time < 10.0 => 2,
        time if time < 100.0 => 1,
        _ => 0,
    };
    format!("{:.*} {}", digits, time, unit)
}

/// How many times one time is another: three digits, fewer below 1.
pub fn ratio(times: f64) -> String {
    let digits = match times {
        times if times < 10.0 => 2,
        times if times < 100.0 => 1,
        _ => 0,
    };
    format!("{:.*}", digits, times)
}
