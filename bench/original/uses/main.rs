//! Runs random programs over gpu-descriptor 0.3.2 (the original) and over the new crate, and compares their
//! transcripts: each device call, which sets a request gives, and why it is refused.
//!
//! Arguments: how many random programs, and the first seed.

mod counts;
mod device;
mod random;

mod there {
    use original as under_test;

    /// The original's runs end where it acts otherwise by design.
    const DEPARTS: bool = true;

    include!("program.rs");
}

mod here {
    use gpu_descriptor as under_test;

    /// The crate runs to the end.
    const DEPARTS: bool = false;

    include!("program.rs");
}

use counts::Counts;
use std::process::ExitCode;
use std::thread::{available_parallelism, scope};

fn main() -> ExitCode {
    let words = std::env::args().skip(1).map(|word| word.parse::<u64>().expect("a number"));
    let [programs, first] = words.collect::<Vec<_>>()[..] else {
        panic!("the arguments are how many programs, and the first seed");
    };
    let threads = available_parallelism().map_or(1, usize::from);
    // Each thread compares the programs of its share of the seeds.
    let compare = |share: usize| {
        let mut counts = Counts::default();
        for seed in (first..first + programs).skip(share).step_by(threads) {
            counts.compare(seed, || there::run(seed), || here::run(seed));
        }
        counts
    };
    let mut counts = Counts::default();
    scope(|scope| {
        let running: Vec<_> = (0..threads).map(|share| scope.spawn(move || compare(share))).collect();
        running.into_iter().for_each(|it| counts.add(it.join().expect("no thread panics")));
    });
    counts.end(programs)
}
