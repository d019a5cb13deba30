//! Cycles of the index: transfers and runs over each of them, on the page and listed from there; and what FROM may be.

use super::Stored;
use crate::page::INDEX_STEP;
use crate::random::{marked_trace, Rng};
use crate::trace::TRACE_LIMIT;

pub fn all() -> Vec<Stored> {
    let mut stored = Vec::new();
    for marker in 0x8..=0xB {
        for run in RUNS {
            across(&mut stored, marker, run);
        }
    }
    lengths(&mut stored);
    words(&mut stored);
    mixed(&mut stored);
    stored
}

fn listed_from(name: &str, from: impl ToString, trace: &[u8]) -> Stored {
    Stored::new("list_from", format!("{name}-{}", from.to_string()), trace.to_vec())
}

/// What stands before a mark, and at it and after it.
struct Run {
    name: &'static str,
    before: u8,
    after: u8,
}

const RUNS: [Run; 4] = [
    Run { name: "no_run", before: 0x0, after: 0x1 },
    Run { name: "run_on", before: 0xD, after: 0xD },
    Run { name: "run_ends", before: 0xE, after: 0x0 },
    Run { name: "run_begins", before: 0x0, after: 0xF },
];

/// A trace in which the marker stands at each place from the mark itself to so far before it that its transfer is over.
fn across(stored: &mut Vec<Stored>, marker: u8, run: Run) {
    let nibbles = 2 * (usize::from(marker) - 7);
    let marks = nibbles + 2;
    let mut trace = Vec::new();
    for mark in 1..=marks {
        let place = INDEX_STEP * mark;
        trace.resize(place - 16, 0);
        trace.resize(place, run.before << 4);
        trace.resize(place + 16, run.after << 4);
        let first = place - (mark - 1);
        trace[first] = marker << 4;
        for nibble in 1..=nibbles {
            trace[first + nibble] |= nibble as u8;
        }
    }
    let name = format!("across_{marker:X}_{}", run.name);
    for mark in 0..=marks {
        stored.push(listed_from(&name, INDEX_STEP * mark, &trace));
    }
    stored.push(Stored::new("page", name, trace));
}

/// The last cycle that may be asked for, and the first that may not.
fn lengths(stored: &mut Vec<Stored>) {
    for cycles in [1, 255, 256, 257, 511, 512, 513, TRACE_LIMIT - 256, TRACE_LIMIT - 255, TRACE_LIMIT - 1, TRACE_LIMIT]
    {
        let trace = vec![0x10; cycles];
        let name = format!("length_{cycles}");
        let entries = cycles.div_ceil(INDEX_STEP);
        stored.push(listed_from(&name, INDEX_STEP * (entries - 1), &trace));
        stored.push(listed_from(&name, INDEX_STEP * entries, &trace));
    }
    stored.push(listed_from("length_0", 0, &[]));
    stored.push(listed_from("length_65537", 65_536, &[0; TRACE_LIMIT + 1]));
}

/// What FROM may be, on a trace that is listed and on one that is refused.
fn words(stored: &mut Vec<Stored>) {
    let mut readable = vec![0x10; 1000];
    readable[254..265].copy_from_slice(&[0xC0, 0xB0, 0xC1, 0xC2, 0xC3, 0xC4, 0x05, 0xC6, 0xC7, 0xC8, 0xC0]);
    let mut refused = readable.clone();
    refused[700] = 0x60;
    for from in [
        "", "0", "00", "256", "0256", "00000000000000000000256", "512", "768", "1024", "1", "128", "255", "257", "999",
        "1000", "65280", "65536", "2147483648", "4294967040", "4294967295", "4294967296", "4294967552",
        "18446744073709551616", "18446744073709551872", "x", "256x", "x256", "+256", "-256", "0x100", "100h", "1e3",
        "2_56", "256,", "--all", "FF00",
    ] {
        stored.push(listed_from("readable", from, &readable));
        stored.push(listed_from("refused", from, &refused));
    }
}

fn mixed(stored: &mut Vec<Stored>) {
    let mut rng = Rng::new(256);
    for place in 0..60 {
        let trace = marked_trace(&mut rng);
        let entries = trace.len().div_ceil(INDEX_STEP) as u32;
        let from = INDEX_STEP as u32 * rng.below(entries.max(1));
        stored.push(listed_from(&format!("marked_{place:02}"), from, &trace));
    }
}
