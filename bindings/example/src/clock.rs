//! The host's clock.

use currentloom::Reading;
use std::time::{Duration, Instant, SystemTime, UNIX_EPOCH};

/// Readings count whole ticks from one instant that all hosts agreed on, so that they are less than
/// the skew apart. From then on only the monotonic clock is asked: "all clocks run at one rate".
pub struct Clock {
    zero: Instant,
    tick: Duration,
}

impl Clock {
    /// Reading 0 begins at that many milliseconds of Unix time. None if it has begun: "all there
    /// from its first tick".
    pub fn from_unix(milliseconds: u64, tick: Duration) -> Option<Clock> {
        let zero = UNIX_EPOCH + Duration::from_millis(milliseconds);
        let wait = zero.duration_since(SystemTime::now()).ok()?;
        let zero = Instant::now() + wait;
        Some(Clock { zero, tick })
    }

    /// The reading now; 0 also before its time.
    pub fn reading(&self) -> Reading {
        let since = Instant::now().saturating_duration_since(self.zero);
        Reading((since.as_nanos() / self.tick.as_nanos()) as u64)
    }

    /// How long it is until the clock gets to that reading.
    pub fn until(&self, reading: Reading) -> Duration {
        let ticks = u32::try_from(reading.0).unwrap_or(u32::MAX);
        (self.zero + self.tick * ticks).saturating_duration_since(Instant::now())
    }
}
