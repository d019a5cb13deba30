//! Damaged traces through `mend`; what it makes of them through `trace_list` and back through `unmend`; spoilt lists.

use super::difference::{in_print, shown, try_expected, try_input, Difference};
use super::rounds::{shortest_trace, Tally};
use super::run::{run, run_on};
use super::{Found, Subject};
use crate::cycles::show_cycles;
use crate::desk;
use crate::random::{damaged_trace, spoilt_list, Rng};

const TRACES: usize = 20;
/// The spoilt lists of each trace.
const SPOILT: usize = 4;

/// The part of a round that is about mending. On a difference, shows the shortest trace it can find.
pub fn try_mending(found: &Found, rng: &mut Rng, tally: &mut Tally) -> Result<(), String> {
    let (mender, unmender) = (found.subject("mend", &[]), found.subject("unmend", &[]));
    if mender.is_none() && unmender.is_none() {
        return Ok(());
    }
    let mut before = Vec::new();
    for _ in 0..TRACES {
        let trace = damaged_trace(rng);
        try_damaged(found, &trace)?;
        tally.mended += 1;
        for seed in [(); SPOILT].map(|()| rng.draw()) {
            if let Some(unmender) = unmender {
                try_spoilt(unmender, seed, &trace, &before)?;
                tally.lists += 1;
            }
        }
        before = trace;
    }
    Ok(())
}

/// A way to try a trace.
type Trial = fn(&Found, &[u8]) -> Option<Difference>;

fn try_damaged(found: &Found, trace: &[u8]) -> Result<(), String> {
    let trials: [(&str, Trial); 3] = [
        ("mend differs", try_mend),
        ("what mend made is not listed", try_listing),
        ("what mend made is not put back", try_way_back),
    ];
    for (what, trial) in trials {
        if let Some(difference) = trial(found, trace) {
            let shortest = shortest_trace(trace, |trace| trial(found, trace).is_some());
            let difference = trial(found, &shortest).unwrap_or(difference);
            let cycles = show_cycles(&shortest);
            return Err(format!("{what}; the shortest trace found:\n    {cycles}\n{difference}"));
        }
    }
    Ok(())
}

fn try_mend(found: &Found, trace: &[u8]) -> Option<Difference> {
    try_input(found.subject("mend", &[])?, trace)
}

/// The mended trace must be readable, whatever it is.
fn try_listing(found: &Found, trace: &[u8]) -> Option<Difference> {
    let lister = found.subject("trace_list", &[])?;
    let mended = match mended(found, trace) {
        Ok(mended) => mended?,
        Err(message) => return Some(Difference::Failed(message)),
    };
    match run(lister, &mended.trace) {
        Ok(run) if run.output.starts_with(b"refused") => {
            Some(Difference::Failed(format!("trace_list says: {}", shown(Some(&run.output)))))
        }
        Ok(_) => None,
        Err(message) => Some(Difference::Failed(message)),
    }
}

/// What was printed and the mended trace must give the trace itself, to the byte.
fn try_way_back(found: &Found, trace: &[u8]) -> Option<Difference> {
    let unmender = found.subject("unmend", &[])?;
    let mended = match mended(found, trace) {
        Ok(mended) => mended?,
        Err(message) => return Some(Difference::Failed(message)),
    };
    let head = mended.list.split_inclusive(|&byte| byte == b'\n').next().unwrap_or_default();
    try_expected(unmender, &[mended.list.as_slice(), &mended.trace].concat(), &[b"un", head, trace].concat())
}

/// What `mend` under test, or this program where there is none, makes of a trace.
struct Mended {
    list: Vec<u8>,
    trace: Vec<u8>,
}

/// None if it is refused.
fn mended(found: &Found, trace: &[u8]) -> Result<Option<Mended>, String> {
    let mended = match found.subject("mend", &[]) {
        Some(mender) => {
            let left = run_on(mender, trace)?;
            Mended { list: left.errors, trace: left.output }
        }
        None => own(trace),
    };
    Ok((!mended.list.starts_with(b"refused")).then_some(mended))
}

fn own(mut trace: &[u8]) -> Mended {
    let mut mended = Mended { list: Vec::new(), trace: Vec::new() };
    desk::mend(&mut trace, &mut mended.trace, &mut mended.list).expect("a slice can be read and a vector written");
    mended
}

/// A list that is spoilt as this seed says.
fn try_spoilt(unmender: Subject, seed: u64, trace: &[u8], other: &[u8]) -> Result<(), String> {
    let input = |trace: &[u8]| spoilt_list(&mut Rng::new(seed), trace, other);
    let Some(difference) = try_input(unmender, &input(trace)) else {
        return Ok(());
    };
    let shortest = input(&shortest_trace(trace, |trace| try_input(unmender, &input(trace)).is_some()));
    let difference = try_input(unmender, &shortest).unwrap_or(difference);
    Err(format!("unmend differs; the shortest input found:\n    {}\n{difference}", in_print(&shortest)))
}
