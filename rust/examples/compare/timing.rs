//! Times of jobs that take turns, so that what else the machine does meets all of them.

use std::env;
use std::time::{Duration, Instant};

/// How often each job is timed.
const ROUNDS: usize = 40;

/// No round is shorter.
const ROUND: Duration = Duration::from_micros(300);

/// How long a job takes that is run `repeats` times.
fn round(repeats: u32, job: &mut dyn FnMut()) -> Duration {
    let start = Instant::now();
    (0..repeats).for_each(|_| job());
    start.elapsed()
}

/// The nanoseconds of one of the units of each job: the least of its rounds, in which the jobs take
/// turns.
#[allow(clippy::cast_precision_loss)] // (times are printed with three digits)
pub fn least<const N: usize>(units: usize, mut jobs: [&mut dyn FnMut(); N]) -> [f64; N] {
    let repeats = jobs.each_mut().map(|job| {
        let mut repeats = 1;
        while repeats < 1 << 20 && round(repeats, job) < ROUND {
            repeats *= 2;
        }
        repeats
    });
    let mut least = [f64::INFINITY; N];
    for _ in 0..ROUNDS {
        for ((job, repeats), least) in jobs.iter_mut().zip(repeats).zip(&mut least) {
            let time = round(repeats, job).as_nanos() as f64 / f64::from(repeats);
            *least = least.min(time / units as f64);
        }
    }
    least
}

/// Whether a job is among those that the program was given the names of, or it was given none.
pub fn is_asked(name: &str) -> bool {
    let mut names = env::args().skip(1).peekable();
    names.peek().is_none() || names.any(|it| it == name)
}
