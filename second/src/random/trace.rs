//! Random traces: valid ones as a processor might give them, and damaged ones.

use super::Rng;

/// A trace, valid or damaged.
pub fn random_trace(rng: &mut Rng) -> Vec<u8> {
    let length = match rng.below(40) {
        0 => rng.pick(&[65_535, 65_536, 65_537]),
        1 => rng.below(5000),
        2..=9 => rng.below(10),
        _ => rng.below(300),
    };
    let mut trace = match rng.below(10) {
        0 => (0..length).map(|_| rng.word() as u8).collect(),
        1 => (0..length).map(|_| unreserved(rng)).collect(),
        _ => valid_trace(rng, length as usize),
    };
    if rng.percent(35) && !trace.is_empty() {
        damage(rng, &mut trace);
    }
    trace
}

fn unreserved(rng: &mut Rng) -> u8 {
    rng.pick(&[0x0, 0x1, 0x3, 0x4, 0x5, 0x7, 0xC, 0xD, 0xE, 0xF]) << 4 | rng.below(16) as u8
}

/// A trace whose transfers all end within it.
pub fn valid_trace(rng: &mut Rng, length: usize) -> Vec<u8> {
    let markers = rng.pick(&[2, 4, 10]);
    let runs = rng.pick(&[20, 50, 80]);
    let mut trace: Vec<u8> = Vec::with_capacity(length);
    let mut due = 0;
    let mut run: u8 = 0xC;
    while trace.len() < length {
        let left = length - trace.len() - 1;
        let bytes = rng.between(1, 4) as usize;
        let pst = if due <= 1 && 2 * bytes <= left && rng.once_in(markers) {
            due = 2 * bytes + 1;
            7 + bytes as u8
        } else if rng.percent(runs) {
            if rng.once_in(6) {
                run = rng.between(0xC, 0xF) as u8;
            }
            run
        } else {
            rng.pick(&[0x0, 0x0, 0x1, 0x1, 0x3, 0x4, 0x5, 0x7])
        };
        due = due.saturating_sub(1);
        trace.push(pst << 4 | rng.below(16) as u8);
    }
    trace
}

pub fn damage(rng: &mut Rng, trace: &mut Vec<u8>) {
    let place = match rng.below(4) {
        0 => trace.len() - 1,
        1 => trace.len().saturating_sub(2),
        _ => rng.below(trace.len() as u32) as usize,
    };
    match rng.below(5) {
        0 => trace.truncate(place),
        1 => trace[place] = rng.pick(&[0x20, 0x6F]),
        2 => trace[place] = 0x80 + (rng.below(4) << 4) as u8,
        3 => trace.insert(place, rng.word() as u8),
        _ => trace[place] ^= 1 << rng.below(8),
    }
}
