//! Rounds of one side after the other, and what they came to.

use crate::inputs;
use crate::work::Work;
use std::hint::black_box;
use std::time::{Duration, Instant};

const ROUNDS: usize = 15;
/// A side's time in a round, or a little more.
const LEAST: Duration = Duration::from_millis(100);

/// One thing that both can do.
pub struct Contest {
    pub what: &'static str,
    pub input: fn() -> Work,
    pub ours: fn(&mut Work) -> u64,
    pub second: fn(&mut Work) -> u64,
    /// What the second side is called.
    pub other: &'static str,
}

impl Contest {
    pub fn agree(&self) -> Result<(), String> {
        if self.other == "listing" || Work::agrees((self.input)(), (self.input)(), self.ours, self.second) {
            return Ok(());
        }
        Err(format!("{}: the two do not agree, so there is nothing to measure", self.what))
    }

    /// Prints packets, cycles or events a second for each side, and the ratio with its spread.
    pub fn hold(&self) -> Result<(), String> {
        self.agree()?;
        let mut work = (self.input)();
        let goes = goes_in(self.second, &mut work);
        let mut ours = Vec::new();
        let mut second = Vec::new();
        for round in 0..ROUNDS {
            // Each side goes first in every other round.
            if round % 2 == 0 {
                ours.push(self.rate(self.ours, goes, &mut work));
                second.push(self.rate(self.second, goes, &mut work));
            } else {
                second.push(self.rate(self.second, goes, &mut work));
                ours.push(self.rate(self.ours, goes, &mut work));
            }
        }
        let ratios: Vec<f64> = ours.iter().zip(&second).map(|(ours, second)| ours / second).collect();
        println!(
            "{}: ours {:.1} million a second, {} {:.1}; ratio {:.2}, from {:.2} to {:.2} in {ROUNDS} rounds",
            self.what,
            median(&ours) / 1e6,
            self.other,
            median(&second) / 1e6,
            median(&ratios),
            ratios.iter().copied().fold(f64::INFINITY, f64::min),
            ratios.iter().copied().fold(0.0, f64::max),
        );
        Ok(())
    }

    /// Packets, cycles or events a second.
    fn rate(&self, side: fn(&mut Work) -> u64, goes: u32, work: &mut Work) -> f64 {
        (f64::from(goes) * inputs::SIZE as f64) / timed(side, goes, work).as_secs_f64()
    }
}

/// How many goes take the least time of a round.
fn goes_in(side: fn(&mut Work) -> u64, work: &mut Work) -> u32 {
    let mut goes = 1;
    while timed(side, goes, work) < LEAST {
        goes *= 2;
    }
    goes
}

fn timed(side: fn(&mut Work) -> u64, goes: u32, work: &mut Work) -> Duration {
    let start = Instant::now();
    for _ in 0..goes {
        black_box(side(black_box(work)));
    }
    start.elapsed()
}

fn median(values: &[f64]) -> f64 {
    let mut sorted = values.to_vec();
    sorted.sort_by(f64::total_cmp);
    sorted[sorted.len() / 2]
}
