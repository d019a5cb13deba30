//! Random scripts and traces through the programs under test: one round has one seed.

use super::difference::{shown, try_input, try_lines, Difference};
use super::mending::try_mending;
use super::shrink::{blank, shrink};
use super::{Found, Subject};
use crate::cycles::show_cycles;
use crate::desk::LINE_PROGRAMS;
use crate::page::INDEX_STEP;
use crate::random::{
    gateway_script, marked_trace, plain, random_arguments, random_script, random_trace, waits_file, Rng,
};
use std::fmt;
use std::path::Path;
use std::time::Duration;

/// How long each way to a shorter case is followed.
const SHRINK_TIME: Duration = Duration::from_secs(60);
const TRACES: usize = 20;
const SCENES: usize = 5;
const FILES: usize = 4;
/// The most lines that a file for `waits` has: some are short, so that the state behind each kind of line is seen.
const FILE_LINES: [u32; 3] = [10, 60, 200];

/// How many lines a round's script has.
fn script_length(program: &str) -> usize {
    match program {
        "stand_in" => 700,
        "pod" => 500,
        _ => 400,
    }
}

/// What a round has compared.
#[derive(Default)]
pub struct Tally {
    pub lines: usize,
    pub traces: usize,
    pub visits: usize,
    pub mended: usize,
    pub lists: usize,
    pub files: usize,
}

impl fmt::Display for Tally {
    fn fmt(&self, f: &mut fmt::Formatter<'_>) -> fmt::Result {
        let Tally { lines, traces, visits, mended, lists, files } = self;
        write!(f, "{lines} lines, {traces} traces, {visits} visits, {mended} mended traces, {lists} spoilt lists, ")?;
        write!(f, "{files} files at every W")
    }
}

/// Each program has its own stream of numbers, so that a missing one does not change the others.
fn stream(seed: u64, program: &str) -> Rng {
    let name = program.bytes().fold(0u64, |sum, byte| sum.wrapping_mul(31).wrapping_add(u64::from(byte)));
    let mut rng = Rng::new(seed ^ name.rotate_left(32));
    rng.draw();
    rng
}

/// One round over all programs found. On a difference, says which and shows the shortest case it can find.
pub fn round(found: &Found, seed: u64, tally: &mut Tally) -> Result<(), String> {
    for name in LINE_PROGRAMS {
        if let Some(subject) = found.subject(name, &[]) {
            try_script(subject, &mut stream(seed, name), tally)?;
        }
    }
    let (mut traces, mut arguments) = (stream(seed, "trace_list"), stream(seed, "list_from"));
    for place in 0..TRACES {
        let trace = if place % 2 == 0 { random_trace(&mut traces) } else { marked_trace(&mut traces) };
        let from = random_arguments(&mut arguments, trace.len() as u32);
        try_trace(found, &trace, &from)?;
        tally.traces += 1;
    }
    if let Some(subject) = found.subject("gateway", &[]) {
        let mut rng = stream(seed, "gateway");
        for _ in 0..SCENES {
            let visits = rng.between(1, 2) as usize;
            let script = gateway_script(&mut rng, visits);
            tally.visits += visits;
            try_whole(subject, script.into_iter().map(ended).collect())?;
        }
    }
    try_mending(found, &mut stream(seed, "mend"), tally)?;
    if let Some(subject) = found.subject("waits", &[]) {
        try_files(subject, &mut stream(seed, "waits"), tally)?;
    }
    Ok(())
}

fn ended(mut line: Vec<u8>) -> Vec<u8> {
    line.push(b'\n');
    line
}

fn try_script(subject: Subject, rng: &mut Rng, tally: &mut Tally) -> Result<(), String> {
    let lines = random_script(subject.name, rng, script_length(subject.name));
    tally.lines += lines.len();
    try_whole(subject, lines)
}

fn try_files(subject: Subject, rng: &mut Rng, tally: &mut Tally) -> Result<(), String> {
    for _ in 0..FILES {
        let most = rng.pick(&FILE_LINES);
        let length = rng.between(1, most) as usize;
        try_whole(subject, waits_file(rng, length))?;
        tally.files += 1;
    }
    Ok(())
}

/// A script of lines with their ends.
fn try_whole(subject: Subject, lines: Vec<Vec<u8>>) -> Result<(), String> {
    match try_lines(subject, &lines) {
        Some(difference) => Err(script_report(subject, lines, &difference)),
        None => Ok(()),
    }
}

/// A trace through the lister, from its first cycle and from another, and onto its page.
fn try_trace(found: &Found, trace: &[u8], from: &[String]) -> Result<(), String> {
    let from: Vec<&str> = from.iter().map(String::as_str).collect();
    for (name, arguments) in [("trace_list", &[][..]), ("trace_list", &from), ("page", &[])] {
        if let Some(subject) = found.subject(name, arguments) {
            if let Some(difference) = try_input(subject, trace) {
                return Err(trace_report(subject, trace, &difference));
            }
        }
    }
    Ok(())
}

fn script_report(subject: Subject, mut lines: Vec<Vec<u8>>, difference: &Difference) -> String {
    // Nothing after the line that shows the difference is needed to show it.
    if let Difference::Line { cause: Some((number, _)), .. } = difference {
        let head = lines[..(*number).min(lines.len())].to_vec();
        if try_lines(subject, &head).is_some() {
            lines = head;
        }
    }
    let fails = |lines: &[Vec<u8>]| try_lines(subject, lines).is_some();
    let shortest = shrink(&lines, SHRINK_TIME, fails);
    // What need not be typed as it is, is shown as it is mostly typed. The lines of a scene are not typed.
    let shortest = if subject.name == "gateway" {
        shortest
    } else {
        let plain: Vec<Vec<u8>> = shortest.iter().map(|line| plain(line)).collect();
        blank(&shortest, &plain, SHRINK_TIME, fails)
    };
    let difference =
        try_lines(subject, &shortest).map_or_else(|| difference.to_string(), |difference| difference.to_string());
    let script: String = shortest.iter().map(|line| format!("    {}\n", shown(Some(line)))).collect();
    format!("{} differs; the shortest script found:\n{script}{difference}", subject.name)
}

fn trace_report(subject: Subject, trace: &[u8], difference: &Difference) -> String {
    let (subject, trace) = earlier_start(subject, trace);
    let shortest = shortest_trace(trace, |trace| try_input(subject, trace).is_some());
    let difference =
        try_input(subject, &shortest).map_or_else(|| difference.to_string(), |difference| difference.to_string());
    let arguments: String = subject.arguments.iter().map(|argument| format!(" {argument:?}")).collect();
    let cycles = show_cycles(&shortest);
    format!("{}{arguments} differs; the shortest trace found:\n    {cycles}\n{difference}", subject.name)
}

/// The same listing with 256 cycles before it instead of more, if that differs too.
fn earlier_start<'a>(subject: Subject<'a>, trace: &'a [u8]) -> (Subject<'a>, &'a [u8]) {
    let earlier = Subject { arguments: &["256"], ..subject };
    let from = subject.arguments.first().and_then(|from| from.parse::<usize>().ok());
    let cut = from.and_then(|from| trace.get(from.checked_sub(INDEX_STEP)?..));
    match cut {
        Some(rest) if try_input(earlier, rest).is_some() => (earlier, rest),
        _ => (subject, trace),
    }
}

/// Makes those cycles idle that need not be what they are, then leaves out blocks between two entries of the index, then
/// cycles; of those that are left the nibbles become 0 that may.
pub(super) fn shortest_trace(trace: &[u8], fails: impl Fn(&[u8]) -> bool) -> Vec<u8> {
    let idle = blank(trace, &vec![0; trace.len()], SHRINK_TIME, &fails);
    let blocks: Vec<Vec<u8>> = idle.chunks(INDEX_STEP).map(<[u8]>::to_vec).collect();
    let blocks = shrink(&blocks, SHRINK_TIME, |blocks| fails(&blocks.concat()));
    let shortest = shrink(&blocks.concat(), SHRINK_TIME, &fails);
    let without_ddata: Vec<u8> = shortest.iter().map(|byte| byte & 0xF0).collect();
    blank(&shortest, &without_ddata, SHRINK_TIME, &fails)
}

/// `count` rounds from `seed` on. True if all agree.
pub fn random(programs: &Path, seed: u64, count: u64, all: bool) -> bool {
    let found = Found::within(programs);
    let good = found.report(all);
    let mut tally = Tally::default();
    for seed in (0..count).map(|place| seed.wrapping_add(place)) {
        if let Err(report) = round(&found, seed, &mut tally) {
            println!("DIFFERS at seed {seed}\n{report}");
            return false;
        }
    }
    println!("{count} rounds agree: {tally}");
    good
}
