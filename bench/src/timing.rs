//! Medians of many runs, the two sides taking turns, by the processor time of this thread: what other programs on the machine do counts as little as it can.
use std::time::Duration;

/// For how long a row is timed, for how long one measurement of short runs is at least, and how many measurements there are at least.
const SPAN: Duration = Duration::from_millis(2000);
const SHORTEST: Duration = Duration::from_micros(200);
const FEWEST: usize = 7;

#[repr(C)]
struct Moment {
    seconds: i64,
    nanoseconds: i64,
}

/// `CLOCK_THREAD_CPUTIME_ID` of Linux.
const THREAD: i32 = 3;

extern "C" {
    fn clock_gettime(clock: i32, moment: *mut Moment) -> i32;
}

fn now() -> Duration {
    let mut moment = Moment { seconds: 0, nanoseconds: 0 };
    // SAFETY: the moment is a place for what the clock writes.
    let answer = unsafe { clock_gettime(THREAD, &mut moment) };
    assert_eq!(answer, 0, "the clock of this thread's processor time");
    Duration::new(moment.seconds as u64, moment.nanoseconds as u32)
}

fn median(mut times: Vec<f64>) -> f64 {
    times.sort_by(f64::total_cmp);
    times[times.len() / 2]
}

/// How long a run takes, over as many runs as make a measurement long enough; what they give is let go outside the time.
pub fn timed<T>(mut run: impl FnMut() -> T) -> f64 {
    let mut given = Vec::with_capacity(4096);
    let begun = now();
    loop {
        given.push(std::hint::black_box(run()));
        let count = given.len();
        // the clock is read after 1, 2, 4, .. runs
        if count.is_power_of_two() {
            let time = now() - begun;
            if time >= SHORTEST || count == 4096 {
                return time.as_secs_f64() * 1e6 / count as f64;
            }
        }
    }
}

/// How long one run takes, where it uses up what it is lent.
pub fn once<T>(run: impl FnOnce() -> T) -> f64 {
    let begun = now();
    let given = std::hint::black_box(run());
    let time = now() - begun;
    drop(given);
    time.as_secs_f64() * 1e6
}

/// Both medians, in microseconds.
pub fn compared(source: &mut dyn FnMut() -> f64, component: &mut dyn FnMut() -> f64) -> (f64, f64) {
    source();
    component();
    let (mut one, mut two) = (Vec::new(), Vec::new());
    let begun = now();
    while one.len() < FEWEST || now() - begun < SPAN {
        one.push(source());
        two.push(component());
    }
    (median(one), median(two))
}

/// Prints a row: both medians and the component's over slots.rs's.
pub fn row(name: &str, source: &mut dyn FnMut() -> f64, component: &mut dyn FnMut() -> f64) {
    let (one, two) = compared(source, component);
    println!("{name:<34} {one:>10.1}us {two:>10.1}us {:>7.2}", two / one);
}

/// A small generator, the same numbers in each run.
pub struct Random(pub u64);

impl Random {
    pub fn below(&mut self, n: u64) -> u64 {
        self.0 ^= self.0 << 13;
        self.0 ^= self.0 >> 7;
        self.0 ^= self.0 << 17;
        (self.0 >> 11) % n
    }
}
