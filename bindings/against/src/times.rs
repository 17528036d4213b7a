//! Two sides timed in turn, so that both meet the same weather.

use std::time::{Duration, Instant};

const BATCHES: usize = 25;
/// How long one batch should take on the slower side.
const BATCH: Duration = Duration::from_millis(4);

/// Makes a call so many times.
pub type Side = Box<dyn FnMut(u64)>;

pub struct Contest {
    pub name: &'static str,
    pub ours: Side,
    pub plain: Side,
}

/// The least time of a call over all batches, in nanoseconds.
pub struct Least {
    pub ours: f64,
    pub plain: f64,
}

fn timed(side: &mut Side, times: u64) -> Duration {
    let began = Instant::now();
    side(times);
    began.elapsed()
}

impl Contest {
    pub fn run(&mut self) -> Least {
        let times = self.times();
        let each = |time: Duration| time.as_secs_f64() * 1e9 / times as f64;
        let mut least = Least {
            ours: f64::INFINITY,
            plain: f64::INFINITY,
        };
        for _ in 0..BATCHES {
            least.ours = least.ours.min(each(timed(&mut self.ours, times)));
            least.plain = least.plain.min(each(timed(&mut self.plain, times)));
        }
        least
    }

    /// The same number of calls on both sides.
    fn times(&mut self) -> u64 {
        let mut times = 1;
        loop {
            let slower = timed(&mut self.ours, times).max(timed(&mut self.plain, times));
            if slower >= BATCH {
                return times;
            }
            times *= 2;
        }
    }
}
