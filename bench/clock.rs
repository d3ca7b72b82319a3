//! Measures how much processor time calls take. On a shared machine the time on the wall would be noise.

pub const RUNS: usize = 9;

/// A run has enough calls to take at least this long.
const SECONDS_A_RUN: f64 = 0.05;

/// The seconds per call of each run, from the shortest to the longest.
pub struct Runs(Vec<f64>);

impl Runs {
    pub fn median(&self) -> f64 {
        self.0[self.0.len() / 2]
    }

    pub fn best(&self) -> f64 {
        self.0[0]
    }
}

/// The runs of each call. The calls take turns, so that what slows the machine for a while slows all.
/// `seconds` makes a number of calls, and returns how long they took together.
pub fn measure<C: Copy>(calls: &[C], mut seconds: impl FnMut(C, u32) -> f64) -> Vec<Runs> {
    let counts: Vec<u32> = calls
        .iter()
        .map(|&call| count(|count| seconds(call, count)))
        .collect();
    let mut runs: Vec<Vec<f64>> = calls.iter().map(|_| Vec::new()).collect();
    for _ in 0..RUNS {
        for (i, &call) in calls.iter().enumerate() {
            runs[i].push(seconds(call, counts[i]) / f64::from(counts[i]));
        }
    }
    runs.into_iter().map(sorted).collect()
}

/// The number of calls in a run.
fn count(mut seconds: impl FnMut(u32) -> f64) -> u32 {
    let mut count = 1;
    while seconds(count) < SECONDS_A_RUN {
        count *= 2;
    }
    count
}

fn sorted(mut runs: Vec<f64>) -> Runs {
    runs.sort_by(|a, b| a.partial_cmp(b).expect("no time is a NaN"));
    Runs(runs)
}

pub fn shown(seconds: f64) -> String {
    match seconds {
        s if s < 1e-6 => format!("{:.0} ns", s * 1e9),
        s if s < 1e-3 => format!("{:.1} us", s * 1e6),
        s => format!("{:.1} ms", s * 1e3),
    }
}

/// `struct timespec` of 64-bit Linux.
#[repr(C)]
struct Time {
    seconds: i64,
    nanoseconds: i64,
}

/// `CLOCK_THREAD_CPUTIME_ID` of Linux.
const THREAD_TIME: i32 = 3;

extern "C" {
    fn clock_gettime(clock: i32, time: *mut Time) -> i32;
}

/// The processor time that this thread has had so far, the kernel's work for it included.
pub fn thread_seconds() -> f64 {
    let mut time = Time {
        seconds: 0,
        nanoseconds: 0,
    };
    // SAFETY: The function is the C library's, which std links, and writes no more than one `Time`.
    let status = unsafe { clock_gettime(THREAD_TIME, &mut time) };
    assert_eq!(status, 0, "this machine does not count a thread's time");
    time.seconds as f64 + time.nanoseconds as f64 / 1e9
}
