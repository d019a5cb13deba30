//! `trace_list`: the trace lister, from the first cycle or from one of the index on.

use super::UNCLEAR;
use crate::page::{index_length, list_from, make_page, Entry, INDEX_STEP};
use crate::refusal::Refusal;
use crate::trace::{count_items, list_trace, TRACE_LIMIT};
use std::io::{self, Read, Write};

/// Reads a trace, one byte a cycle: one cycle more than a trace may have is enough to refuse it.
pub fn read_trace(input: &mut impl Read) -> io::Result<Vec<u8>> {
    let mut trace = Vec::new();
    input.take(TRACE_LIMIT as u64 + 1).read_to_end(&mut trace)?;
    Ok(trace)
}

/// Reads a trace and prints its listing or its refusal. With an argument the listing starts at that cycle; an argument that
/// is no cycle of an index is unclear whatever the trace, one beyond this trace's cycles only after the trace's refusals.
pub fn trace_list(arguments: &[&str], input: &mut impl Read, output: &mut impl Write) -> io::Result<()> {
    match asked(arguments) {
        None => writeln!(output, "{UNCLEAR}")?,
        Some(asked) => {
            let trace = read_trace(input)?;
            let listing = match asked {
                Asked::Whole => list_whole(&trace).map(Some),
                Asked::From(place) => list_rest(&trace, place),
            };
            match listing {
                Ok(Some(words)) => write_listing(trace.len(), &words, output)?,
                Ok(None) => writeln!(output, "{UNCLEAR}")?,
                Err(refusal) => writeln!(output, "{refusal}")?,
            }
        }
    }
    output.flush()
}

/// What the arguments ask for.
enum Asked {
    Whole,
    /// From the cycle of this entry of the index on.
    From(usize),
}

fn asked(arguments: &[&str]) -> Option<Asked> {
    match arguments {
        [] => Some(Asked::Whole),
        [from] => index_place(from).map(Asked::From),
        _ => None,
    }
}

/// The place in the index of a cycle as typed: decimal digits, any count of leading zeros, 32 bits, a multiple of 256.
fn index_place(word: &str) -> Option<usize> {
    if !word.bytes().all(|byte| byte.is_ascii_digit()) {
        return None;
    }
    let cycle = word.parse::<u32>().ok()? as usize;
    cycle.is_multiple_of(INDEX_STEP).then_some(cycle / INDEX_STEP)
}

fn list_whole(trace: &[u8]) -> Result<Vec<u32>, Refusal> {
    let mut words = vec![0; 2 * count_items(trace)?];
    list_trace(trace, &mut words)?;
    Ok(words)
}

/// The listing from an entry of the index on; none if the index has no such entry.
fn list_rest(trace: &[u8], place: usize) -> Result<Option<Vec<u32>>, Refusal> {
    let mut index = vec![Entry::default(); index_length(trace)];
    let page = make_page(trace, &mut index)?;
    let Some(entry) = index.get(place) else {
        return Ok(None);
    };
    let mut words = vec![0; 2 * (page.items - entry.items) as usize];
    list_from(trace, entry, &mut words)?;
    Ok(Some(words))
}

fn write_listing(cycles: usize, words: &[u32], output: &mut impl Write) -> io::Result<()> {
    writeln!(output, "trace cycles={cycles} items={}", words.len() / 2)?;
    for item in words.chunks_exact(2) {
        writeln!(output, "{} {} {}", item[0] / 16, item[0] % 16, item[1])?;
    }
    Ok(())
}
