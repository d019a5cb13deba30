//! Random traces with cycles of the index in them, and something going on at each of these marks.

use super::trace::{damage, valid_trace};
use super::Rng;
use crate::page::INDEX_STEP;

/// How many cycles about a mark are laid out.
const BEFORE: usize = 12;
const AFTER: usize = 22;

/// A trace of some hundred cycles, now and then of thousands; mostly valid.
pub fn marked_trace(rng: &mut Rng) -> Vec<u8> {
    let marks = if rng.once_in(12) { rng.between(5, 20) } else { rng.between(1, 3) } as usize;
    let mut trace = Vec::new();
    for mark in 1..=marks {
        fill(rng, &mut trace, INDEX_STEP * mark - BEFORE);
        trace.extend(about_a_mark(rng));
    }
    match rng.below(8) {
        // The mark is the first cycle that is not there, or the last that is, whatever goes on.
        0 => trace.truncate(INDEX_STEP * marks + rng.below(2) as usize),
        1 => fill(rng, &mut trace, INDEX_STEP * (marks + 1)),
        2 => fill(rng, &mut trace, INDEX_STEP * (marks + 1) + 1),
        3..=5 => {
            let length = trace.len() + rng.below(200) as usize;
            fill(rng, &mut trace, length);
        }
        _ => {}
    }
    if rng.percent(15) {
        damage(rng, &mut trace);
    }
    trace
}

/// Valid cycles up to a length.
fn fill(rng: &mut Rng, trace: &mut Vec<u8>, length: usize) {
    let more = valid_trace(rng, length - trace.len());
    trace.extend(more);
}

/// The cycles about a mark: what stands before it goes on or ends at the mark, with transfers before, over and after it.
fn about_a_mark(rng: &mut Rng) -> Vec<u8> {
    let before = any_pst(rng, 70);
    let at = if rng.percent(40) { before } else { any_pst(rng, 40) };
    let after = if rng.percent(50) { before } else { any_pst(rng, 50) };
    let mut psts = [before; BEFORE + AFTER];
    psts[BEFORE] = at;
    psts[BEFORE + 1..].fill(after);
    if rng.once_in(3) {
        // The run begins late.
        psts[..rng.below(BEFORE as u32 + 1) as usize].fill(0);
    }
    let mut place = BEFORE - rng.below(10) as usize;
    while place + 8 < psts.len() && rng.percent(75) {
        let bytes = rng.between(1, 4) as usize;
        psts[place] = 7 + bytes as u8;
        // The next marker stands on the last nibble's cycle or soon after.
        place += 2 * bytes + if rng.percent(60) { 0 } else { rng.below(3) as usize };
    }
    psts.iter().map(|pst| pst << 4 | rng.below(16) as u8).collect()
}

/// A PST that is no marker, so many in a hundred of a run.
fn any_pst(rng: &mut Rng, runs: u32) -> u8 {
    if rng.percent(runs) {
        rng.between(0xC, 0xF) as u8
    } else {
        rng.pick(&[0x0, 0x0, 0x1, 0x3, 0x4, 0x5, 0x7])
    }
}
