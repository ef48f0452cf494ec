//! Times of things done many times.
use std::time::{Duration, Instant};

/// How long one of many takes, from a count that takes about a millisecond.
pub struct Clock {
    count: u32,
    pub least: Duration,
}

impl Clock {
    pub fn new(job: &mut dyn FnMut()) -> Clock {
        let mut count = 1;
        while timed(count, job) < Duration::from_millis(1) {
            count *= 2;
        }
        Clock { count, least: Duration::MAX }
    }

    pub fn run(&mut self, job: &mut dyn FnMut()) {
        self.least = self.least.min(timed(self.count, job) / self.count);
    }
}

fn timed(count: u32, job: &mut dyn FnMut()) -> Duration {
    let begin = Instant::now();
    (0..count).for_each(|_| job());
    begin.elapsed()
}

/// The least time of each of two jobs, done by turns so that a slow moment of the machine meets both.
pub fn least_of_both(rounds: usize, one: &mut dyn FnMut(), other: &mut dyn FnMut()) -> [Duration; 2] {
    let mut clocks = [Clock::new(one), Clock::new(other)];
    for _ in 0..rounds {
        clocks[0].run(one);
        clocks[1].run(other);
    }
    clocks.map(|clock| clock.least)
}
