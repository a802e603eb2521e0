//! Times of several jobs in turn: each round runs every job once, so that what slows the machine down slows all of them. A time is what
//! the thread had the processor for, so that it does not count while others run.
use std::hint::black_box;

pub const ROUNDS: usize = 80;

/// How long a job's turn takes at least, in nanoseconds.
const TURN: f64 = 1_000_000.0;

#[repr(C)]
struct Time {
    seconds: i64,
    nanoseconds: i64,
}

/// Linux's number of the clock that runs while the calling thread does.
const CLOCK_THREAD_CPUTIME_ID: i32 = 3;

extern "C" {
    fn clock_gettime(clock: i32, time: *mut Time) -> i32;
}

/// Nanoseconds that this thread has had the processor for.
fn thread_time() -> f64 {
    let mut time = Time { seconds: 0, nanoseconds: 0 };
    // The pointer is to a struct of C's form.
    let failed = unsafe { clock_gettime(CLOCK_THREAD_CPUTIME_ID, &mut time) };
    assert_eq!(failed, 0, "no clock for a thread's time");
    time.seconds as f64 * 1e9 + time.nanoseconds as f64
}

/// A quarter of the rounds is below the lower one, a quarter above the upper one.
#[derive(Clone, Copy)]
pub struct Quartiles {
    pub lower: f64,
    pub upper: f64,
}

/// Work to be timed, and how often it is done in one turn.
pub struct Job<'a> {
    work: Box<dyn FnMut() + 'a>,
    times: usize,
    turns: Vec<f64>,
}

impl<'a> Job<'a> {
    pub fn new<T>(mut work: impl FnMut() -> T + 'a) -> Job<'a> {
        let kept = move || {
            black_box(work());
        };
        let mut job = Job { work: Box::new(kept), times: 1, turns: Vec::new() };
        while job.turn() < TURN {
            job.times *= 2;
        }
        job
    }

    /// Nanoseconds of a turn.
    fn turn(&mut self) -> f64 {
        let start = thread_time();
        for _ in 0..self.times {
            (self.work)();
        }
        thread_time() - start
    }

    /// Nanoseconds of one time, by the turns.
    fn quartiles(&mut self) -> Quartiles {
        self.turns.sort_by(f64::total_cmp);
        let at = |quarters: usize| self.turns[self.turns.len() * quarters / 4] / self.times as f64;
        Quartiles { lower: at(1), upper: at(3) }
    }
}

/// The quartiles of the jobs, in their order.
pub fn quartiles(jobs: &mut [Job]) -> Vec<Quartiles> {
    for _ in 0..ROUNDS {
        for job in jobs.iter_mut() {
            let turn = job.turn();
            job.turns.push(turn);
        }
    }
    jobs.iter_mut().map(Job::quartiles).collect()
}
