//! Traces with dropouts: every trace of the lister's again, markers at each place of each transfer, ends, damaged ones.

use super::{traces, Stored};
use crate::random::{damaged_trace, Rng};
use crate::trace::TRACE_LIMIT;

pub(super) const MARKERS: [u8; 4] = [0x8, 0x9, 0xA, 0xB];

/// The most nibbles that a transfer has.
const LONGEST_TRANSFER: usize = 8;

pub fn all() -> Vec<Stored> {
    let mut stored: Vec<Stored> = traces::all().into_iter().map(|stored| Stored { folder: "mend", ..stored }).collect();
    stored.extend(grouped().into_iter().chain(ends()).chain(long()).chain(damaged()).map(as_stored));
    stored
}

/// A trace and its name.
pub(super) type Named = (String, Vec<u8>);

fn as_stored((name, trace): Named) -> Stored {
    Stored::new("mend", name, trace)
}

fn nibbles(marker: u8) -> usize {
    2 * (usize::from(marker) - 7)
}

/// Cycles with these PSTs; DDATA counts on, so that a nibble that is lost shows.
fn cycles(psts: &[u8]) -> Vec<u8> {
    psts.iter().enumerate().map(|(cycle, pst)| pst << 4 | (cycle + 1) as u8 & 0xF).collect()
}

/// Groups of PSTs one behind the other, each with so many idle cycles that no transfer reaches the next one.
fn apart(groups: impl IntoIterator<Item = Vec<u8>>) -> Vec<u8> {
    let psts = groups.into_iter().flat_map(|mut group| {
        group.resize(group.len() + LONGEST_TRANSFER, 0);
        group
    });
    cycles(&psts.collect::<Vec<u8>>())
}

/// What may happen within a trace.
pub(super) fn grouped() -> Vec<Named> {
    let triples = |first: &[u8]| apart((0..0x1000u32).map(|n| [first, &digits(n)].concat()));
    let mut traces = vec![("triples".to_string(), triples(&[]))];
    for marker in MARKERS {
        traces.push((format!("triples_after_{marker:X}"), triples(&[marker])));
        traces.push((format!("soon_in_{marker:X}"), apart(soon(marker))));
        traces.push((format!("two_soon_in_{marker:X}"), apart(two_soon(marker))));
        traces.push((format!("run_in_{marker:X}"), apart(in_run(marker))));
    }
    traces
}

/// Three PSTs.
fn digits(n: u32) -> [u8; 3] {
    [n >> 8, n >> 4, n].map(|digit| (digit & 0xF) as u8)
}

/// A marker, and each marker and reserved PST at each place from right behind it to just behind its transfer.
fn soon(marker: u8) -> Vec<Vec<u8>> {
    let places = 1..=nibbles(marker) + 1;
    places.flat_map(|place| [0x2, 0x6, 0x8, 0x9, 0xA, 0xB].map(|pst| with(marker, 0, &[(place, pst)]))).collect()
}

/// The same with two of them.
fn two_soon(marker: u8) -> Vec<Vec<u8>> {
    let last = nibbles(marker) + 1;
    let places = (1..=last).flat_map(|one| (one + 1..=last).map(move |two| (one, two)));
    let psts = MARKERS.into_iter().chain([0x2]).flat_map(|one| MARKERS.map(|two| (one, two)));
    let psts: Vec<(u8, u8)> = psts.collect();
    places.flat_map(|(one, two)| psts.iter().map(move |&(a, b)| with(marker, 0, &[(one, a), (two, b)]))).collect()
}

/// The same as `soon`, over a run, which ends where a PST becomes 0.
fn in_run(marker: u8) -> Vec<Vec<u8>> {
    let places = 1..=nibbles(marker) + 1;
    places
        .flat_map(|place| [0x2, 0x8, 0xB].map(|pst| [vec![0xC], with(marker, 0xC, &[(place, pst)])].concat()))
        .collect()
}

/// A marker's PST and those of its transfer, with others at some places.
fn with(marker: u8, idle: u8, others: &[(usize, u8)]) -> Vec<u8> {
    let mut psts = vec![idle; nibbles(marker) + 2];
    psts[0] = marker;
    for &(place, pst) in others {
        psts[place] = pst;
    }
    psts
}

/// Traces that end so many cycles behind a marker, with this or that in between, and on the last nibble of another transfer.
pub(super) fn ends() -> Vec<Named> {
    let mut traces = Vec::new();
    for marker in MARKERS {
        for behind in 0..=nibbles(marker) {
            for (name, others) in
                [("", [0x0, 0x0]), ("_soon", [0x9, 0x8]), ("_reserved", [0x6, 0x2]), ("_run", [0xD, 0xD])]
            {
                let tail = (0..behind).map(|place| others[place % 2]);
                let psts: Vec<u8> = [0x1, marker].into_iter().chain(tail).collect();
                traces.push((format!("ends_{marker:X}_{behind}{name}"), cycles(&psts)));
            }
        }
        for before in MARKERS {
            let mut psts = vec![0; nibbles(before) + 1];
            psts[0] = before;
            psts[nibbles(before)] = marker;
            traces.push((format!("ends_{marker:X}_on_last_nibble_of_{before:X}"), cycles(&psts)));
        }
    }
    traces
}

/// The longest lists, and a trace that is too long for any.
pub(super) fn long() -> Vec<Named> {
    vec![
        ("all_reserved".to_string(), vec![0x2F; TRACE_LIMIT]),
        ("all_reserved_65535".to_string(), vec![0x60; TRACE_LIMIT - 1]),
        ("all_reserved_65537".to_string(), vec![0x60; TRACE_LIMIT + 1]),
        ("all_byte_markers".to_string(), vec![0x81; TRACE_LIMIT]),
        ("all_longword_markers".to_string(), vec![0xB2; TRACE_LIMIT]),
    ]
}

pub(super) fn damaged() -> Vec<Named> {
    let mut rng = Rng::new(5);
    let traces = std::iter::from_fn(|| Some(damaged_trace(&mut rng))).filter(|trace| (1..1500).contains(&trace.len()));
    traces.take(120).enumerate().map(|(place, trace)| (format!("damaged_{place:03}"), trace)).collect()
}
