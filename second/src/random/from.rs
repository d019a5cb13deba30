//! Random arguments of `trace_list`: a cycle to start from, mostly one of the index.

use super::Rng;
use crate::page::INDEX_STEP;

const STEP: u32 = INDEX_STEP as u32;

/// What is no decimal number.
const NO_NUMBERS: [&str; 16] =
    ["", " ", "x", "-0", "+0", "-256", "+256", "0x100", "0x0", "100h", " 256", "256 ", "2_56", "25.6", "1e3", "--all"];

/// The argument, or at times the arguments, for a trace of so many cycles.
pub fn random_arguments(rng: &mut Rng, cycles: u32) -> Vec<String> {
    let mut arguments = vec![random_from(rng, cycles)];
    if rng.once_in(60) {
        arguments.push(random_from(rng, cycles));
    }
    arguments
}

fn random_from(rng: &mut Rng, cycles: u32) -> String {
    let entries = cycles.div_ceil(STEP);
    let cycle = u64::from(STEP * rng.below(entries.max(1)));
    let from = match rng.below(24) {
        0 => rng.pick(&NO_NUMBERS).to_string(),
        1 => rng.below(cycles + 2).to_string(),
        2 => (cycle + 1).to_string(),
        3 => (cycle + u64::from(STEP) - 1).to_string(),
        4 => (u64::from(STEP) * u64::from(entries + rng.below(2))).to_string(),
        5 => rng.pick(&[65_280u32, 65_536, 0x7FFF_FF00, 0x8000_0000, 0xFFFF_FF00, 0xFFFF_FFFF]).to_string(),
        // 2^32 more, and 2^64 more: what is left of them in fewer bits is a cycle.
        6 => (cycle + (1 << 32)).to_string(),
        7 => (u128::from(cycle) + (1 << 64)).to_string(),
        8 => cycles.to_string(),
        _ => cycle.to_string(),
    };
    if rng.once_in(12) {
        "0".repeat(rng.between(1, 40) as usize) + &from
    } else {
        from
    }
}
