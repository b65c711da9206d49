//! Repeated trials from printed seeds.

use crate::random::Random;

/// Names the first seed, 1 where it is not set.
pub const SEED_VARIABLE: &str = "SECOND_SEED";

/// Says how many times as many cases as usual a run takes, 1 where it is not set.
pub const FACTOR_VARIABLE: &str = "SECOND_FACTOR";

/// Runs the trial for this many seeds, or for more in a longer run. The seeds are printed, and a failure
/// prints the seed of its case.
pub fn cases(count: u64, mut trial: impl FnMut(&mut Random)) {
    let first = setting(SEED_VARIABLE);
    let last = first + count * setting(FACTOR_VARIABLE) - 1;
    println!("seeds {first} to {last}");
    for seed in first..=last {
        let _printed_on_failure = Seed(seed);
        trial(&mut Random::from_seed(seed));
    }
}

fn setting(variable: &str) -> u64 {
    match std::env::var(variable) {
        Ok(text) => text.parse().unwrap_or_else(|_| panic!("{variable} is no number: {text}")),
        Err(_) => 1,
    }
}

struct Seed(u64);

impl Drop for Seed {
    fn drop(&mut self) {
        if std::thread::panicking() {
            eprintln!("this case had the seed {}: set {SEED_VARIABLE}={} to start with it", self.0, self.0);
        }
    }
}
