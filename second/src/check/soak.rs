//! Random rounds with fresh seeds until the time is over.

use super::rounds::{round, Tally};
use super::Found;
use std::io::{self, Write};
use std::path::Path;
use std::time::{Duration, Instant, SystemTime, UNIX_EPOCH};

/// Between two lines of progress.
const PROGRESS: Duration = Duration::from_secs(5);

/// Runs rounds for `seconds`. True if all agree.
pub fn soak(programs: &Path, seconds: u64, all: bool) -> bool {
    let found = Found::within(programs);
    let good = found.report(all);
    if found.present.is_empty() {
        return false;
    }
    let first_seed = SystemTime::now().duration_since(UNIX_EPOCH).map_or(1, |since| since.as_nanos() as u64);
    let start = Instant::now();
    let mut shown = start;
    let mut rounds = 0;
    let mut tally = Tally::default();
    println!("soak: {seconds} seconds from seed {first_seed}");
    while start.elapsed().as_secs() < seconds {
        let seed = first_seed.wrapping_add(rounds);
        if let Err(report) = round(&found, seed, &mut tally) {
            println!("DIFFERS at seed {seed} (again: second random {} {seed} 1)\n{report}", programs.display());
            return false;
        }
        rounds += 1;
        if shown.elapsed() >= PROGRESS {
            shown = Instant::now();
            println!("{}", progress(start, rounds, &tally));
            drop(io::stdout().flush());
        }
    }
    println!("{}, all agree", progress(start, rounds, &tally));
    good
}

fn progress(start: Instant, rounds: u64, tally: &Tally) -> String {
    format!("{:4} s: {rounds} rounds, {tally}", start.elapsed().as_secs())
}
