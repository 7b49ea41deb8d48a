//! Samples of both sides in turn, and their medians.

use std::time::Instant;

const SAMPLES: usize = 201;

/// What a piece of work takes on each of two sides, in seconds. The first is the archive and the second the
/// reference where nothing else is said.
pub struct Times {
    pub first: f64,
    pub second: f64,
}

impl Times {
    /// Medians of many samples; each sample is timed as a whole and holds so many pieces of work.
    pub fn take(pieces: usize, mut first: impl FnMut(), mut second: impl FnMut()) -> Times {
        let (mut firsts, mut seconds) = (Vec::new(), Vec::new());
        for _ in 0..SAMPLES {
            firsts.push(time(&mut first));
            seconds.push(time(&mut second));
        }
        let each = 1.0 / pieces as f64;
        Times { first: median(firsts) * each, second: median(seconds) * each }
    }

    /// The speed of the first by that of the second: above 1 the first is the faster.
    pub fn ratio(&self) -> f64 {
        self.second / self.first
    }
}

/// How many seconds some work takes.
fn time(work: &mut impl FnMut()) -> f64 {
    let start = Instant::now();
    work();
    start.elapsed().as_secs_f64()
}

fn median(mut times: Vec<f64>) -> f64 {
    times.sort_by(f64::total_cmp);
    times[times.len() / 2]
}
