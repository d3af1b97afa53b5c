//! Two works timed in turn, so that whatever else the computer does hits both.
use std::ffi::c_int;

/// Median nanoseconds of one round of each work.
#[derive(Clone, Copy)]
pub struct Times {
    pub proved: f64,
    pub tuned: f64,
}

impl Times {
    pub fn ratio(self) -> f64 {
        self.proved / self.tuned
    }

    /// The share of one of so many parts.
    pub fn each(self, parts: usize) -> Times {
        Times {
            proved: self.proved / parts as f64,
            tuned: self.tuned / parts as f64,
        }
    }
}

#[repr(C)]
struct Timespec {
    seconds: i64,
    nanoseconds: i64,
}

unsafe extern "C" {
    fn clock_gettime(clock: c_int, time: *mut Timespec) -> c_int;
}

/// Linux's number of the clock that runs while this thread does.
const THREAD_CLOCK: c_int = 3;

/// Nanoseconds that this thread has had on a processor: neighbours on the computer do not count.
fn now() -> i64 {
    let mut time = Timespec {
        seconds: 0,
        nanoseconds: 0,
    };
    // Safety: the call writes one Timespec, which outlives it.
    let answer = unsafe { clock_gettime(THREAD_CLOCK, &mut time) };
    assert_eq!(answer, 0, "no clock for a thread");
    time.seconds * 1_000_000_000 + time.nanoseconds
}

/// How long a work takes; what it works on is made ready before.
pub fn timed(work: impl FnOnce()) -> i64 {
    let start = now();
    work();
    now() - start
}

fn median(mut times: Vec<i64>) -> f64 {
    times.sort_unstable();
    times[times.len() / 2] as f64
}

/// Each round times the proved machine's work once, then the tuned one's, then nothing at all, which is the clock's
/// own time and is taken off. The first rounds, a tenth, do not count.
pub fn race(
    rounds: usize,
    mut proved: impl FnMut() -> i64,
    mut tuned: impl FnMut() -> i64,
) -> Times {
    let mut times = [const { Vec::new() }; 3];
    for round in 0..rounds + rounds / 10 {
        let took = [proved(), tuned(), timed(|| ())];
        if round >= rounds / 10 {
            times
                .iter_mut()
                .zip(took)
                .for_each(|(all, one)| all.push(one));
        }
    }
    let [proved, tuned, clock] = times.map(median);
    Times {
        proved: (proved - clock).max(1.0),
        tuned: (tuned - clock).max(1.0),
    }
}
