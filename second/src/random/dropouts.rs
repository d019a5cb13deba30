//! Random traces as long cables leave them: good ones, and what becomes of them on the way.

use super::marks::marked_trace;
use super::trace::valid_trace;
use super::Rng;
use crate::trace::TRACE_LIMIT;
use std::ops::Range;

/// A trace that was good once, mostly damaged; now and then about as long as a trace may be.
pub fn damaged_trace(rng: &mut Rng) -> Vec<u8> {
    let mut trace = good_trace(rng);
    if rng.percent(90) {
        for _ in 0..rng.pick(&[1, 1, 2, 3, 6]) {
            damage(rng, &mut trace);
        }
    }
    if rng.once_in(50) {
        let length = rng.pick(&[TRACE_LIMIT - 1, TRACE_LIMIT, TRACE_LIMIT, TRACE_LIMIT + 1]);
        stretch(&mut trace, length);
        if rng.percent(50) {
            // Nothing but changes: the longest list.
            trace.iter_mut().for_each(|byte| *byte = *byte % 16 + 0x20);
        }
    }
    trace
}

fn good_trace(rng: &mut Rng) -> Vec<u8> {
    let length = match rng.below(40) {
        0..=9 => return marked_trace(rng),
        10 => rng.below(4000),
        11..=24 => rng.below(14),
        _ => rng.below(300),
    };
    valid_trace(rng, length as usize)
}

/// The same cycles over and over up to a length.
fn stretch(trace: &mut Vec<u8>, length: usize) {
    if trace.is_empty() {
        trace.push(0);
    }
    *trace = trace.iter().copied().cycle().take(length).collect();
}

/// Something that happens to a trace on its way.
fn damage(rng: &mut Rng, trace: &mut Vec<u8>) {
    let part = part(rng, trace.len());
    match rng.below(14) {
        0 | 1 => flip(rng, &mut trace[part.start..part.start + part.len().min(1)], 8),
        2 => flip(rng, &mut trace[part], 4),
        3 => {
            let kept = trace.len() - part.len();
            trace.truncate(kept);
        }
        4 => drop(trace.drain(..part.len())),
        5 => drop(trace.drain(part)),
        6 => {
            let doubled = trace[part.clone()].to_vec();
            drop(trace.splice(part.end..part.end, doubled));
        }
        7 => trace[part].iter_mut().for_each(|byte| *byte = rng.word() as u8),
        8 => trace[part].iter_mut().for_each(|byte| *byte = *byte % 16 + 16 * rng.below(16) as u8),
        9 => {
            let stuck = 0x10 << rng.below(4);
            let high = rng.percent(50);
            trace[part].iter_mut().for_each(|byte| *byte = if high { *byte | stuck } else { *byte & !stuck });
        }
        10 => some(rng, &mut trace[part], &[0x8, 0x9, 0xA, 0xB]),
        11 => some(rng, &mut trace[part], &[0x2, 0x6]),
        12 => some(rng, &mut trace[part], &[0x2, 0x6, 0x8, 0x9, 0xA, 0xB]),
        _ => {
            // A transfer that the end may cut, with more in it.
            let last = trace.len() - rng.below(11).min(trace.len() as u32) as usize;
            some(rng, &mut trace[last..], &[0x0, 0x2, 0x6, 0x8, 0x9, 0xA, 0xB, 0xC]);
        }
    }
}

/// A few cycles or many, often the last ones.
fn part(rng: &mut Rng, length: usize) -> Range<usize> {
    let most = rng.pick(&[1, 4, 12, length as u32]);
    let count = rng.between(1, most.max(1)).min(length as u32);
    let start = if rng.once_in(4) { length as u32 - count } else { rng.below(length as u32 - count + 1) };
    start as usize..(start + count) as usize
}

/// Flips one bit in some of the cycles, one of the upper ones.
fn flip(rng: &mut Rng, cycles: &mut [u8], bits: u32) {
    let every = rng.pick(&[1, 4, 20]);
    for byte in cycles {
        if rng.once_in(every) {
            *byte ^= 0x80 >> rng.below(bits);
        }
    }
}

/// Makes the PST of some of the cycles one of these.
fn some(rng: &mut Rng, cycles: &mut [u8], psts: &[u8]) {
    let every = rng.pick(&[1, 2, 5]);
    for byte in cycles {
        if rng.once_in(every) {
            *byte = *byte % 16 + 16 * rng.pick(psts);
        }
    }
}
