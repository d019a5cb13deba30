//! The page of a trace (02, [2]): its counts, its rate, and an index from which a listing may start.

use crate::refusal::{Ground, Refusal};
use crate::trace::{Decoder, TRACE_LIMIT};

/// The index has an entry for each cycle that is a multiple of this.
pub const INDEX_STEP: usize = 256;

/// The codes that are instruction starts.
pub const STARTS: [usize; 4] = [1, 4, 5, 7];

/// What a trace comes to.
#[derive(Clone, PartialEq, Debug)]
pub struct Page {
    pub cycles: u32,
    pub items: u32,
    pub starts: u32,
    pub rate: Rate,
    /// The items of each code.
    pub codes: [Tally; 16],
}

/// The items of one code: how many, and the cycles of the first and the last; all zero where there is none.
#[derive(Clone, Copy, PartialEq, Eq, Default, Debug)]
pub struct Tally {
    pub count: u32,
    pub first: u32,
    pub last: u32,
}

/// The average cycles per instruction: all cycles over the starts, if anything started.
#[derive(Clone, Copy, PartialEq, Debug)]
pub enum Rate {
    None,
    CyclesPerStart(f64),
}

/// An entry of the index: a cycle, the items before it, and what the cycles before it hand over.
#[derive(Clone, Copy, PartialEq, Eq, Default, Debug)]
pub struct Entry {
    pub cycle: u32,
    pub items: u32,
    carried: Decoder,
}

impl Entry {
    /// The transfer under way: its marker, and its nibbles still due, with this cycle's.
    pub fn transfer(&self) -> Option<(u8, u32)> {
        (self.carried.due > 0).then_some((self.carried.marker, self.carried.due))
    }

    /// The run under way, C to F, also where this cycle ends it.
    pub fn run(&self) -> Option<u8> {
        (self.carried.run > 0).then_some(self.carried.run)
    }
}

/// How many entries the index of a trace has: one for each of the cycles 0, 256, 512 .. below its length.
pub fn index_length(trace: &[u8]) -> usize {
    trace.len().div_ceil(INDEX_STEP)
}

/// Makes the page of `trace` and puts its index at the front of `index`. Entries beyond the last needed stay, and a refusal
/// leaves them all: grounds 7, then the earliest of 8 and 9, then 10, then 11 for an index too short.
pub fn make_page(trace: &[u8], index: &mut [Entry]) -> Result<Page, Refusal> {
    if trace.len() > TRACE_LIMIT {
        return Err(Ground::TraceTooLong.into());
    }
    // The index is lent only once nothing can be refused any more, so that one pass is enough.
    let mut entries = Vec::with_capacity(index_length(trace));
    let mut codes = [Tally::default(); 16];
    let mut decoder = Decoder::new();
    let mut cycle = 0;
    for block in trace.chunks(INDEX_STEP) {
        entries.push(Entry { cycle, items: count(&codes), carried: decoder });
        for &byte in block {
            decoder.step(cycle, byte, |head, _| codes[head as usize % 16].add(cycle))?;
            cycle += 1;
        }
    }
    if decoder.due > 0 {
        return Err(Ground::TraceEndsInTransfer.into());
    }
    let lent = index.get_mut(..entries.len()).ok_or(Ground::BufferTooShort)?;
    lent.copy_from_slice(&entries);
    let starts = STARTS.iter().map(|&code| codes[code].count).sum();
    Ok(Page { cycles: cycle, items: count(&codes), starts, rate: Rate::of(cycle, starts), codes })
}

/// Lists `trace` from an entry of its index on, as `list_trace` lists the whole. Gives the number of these items; words
/// beyond the last stay, and a refusal leaves them all: the reader's own over the rest of the trace, then 11.
pub fn list_from(trace: &[u8], entry: &Entry, words: &mut [u32]) -> Result<usize, Refusal> {
    if trace.len() > TRACE_LIMIT {
        return Err(Ground::TraceTooLong.into());
    }
    let mut items = 0;
    walk_from(trace, entry, |_, _| items += 1)?;
    if words.len() / 2 < items {
        return Err(Ground::BufferTooShort.into());
    }
    let mut pairs = words.chunks_exact_mut(2);
    walk_from(trace, entry, |head, value| {
        if let Some([first, second]) = pairs.next() {
            *first = head;
            *second = value;
        }
    })?;
    Ok(items)
}

/// Hands the items from an entry's cycle on to `item`.
fn walk_from(trace: &[u8], entry: &Entry, mut item: impl FnMut(u32, u32)) -> Result<(), Refusal> {
    let mut decoder = entry.carried;
    for (cycle, &byte) in trace.iter().enumerate().skip(entry.cycle as usize) {
        decoder.step(cycle as u32, byte, &mut item)?;
    }
    if decoder.due > 0 {
        return Err(Ground::TraceEndsInTransfer.into());
    }
    Ok(())
}

fn count(codes: &[Tally; 16]) -> u32 {
    codes.iter().map(|tally| tally.count).sum()
}

impl Tally {
    #[inline]
    fn add(&mut self, cycle: u32) {
        if self.count == 0 {
            self.first = cycle;
        }
        self.count += 1;
        self.last = cycle;
    }
}

impl Rate {
    /// Both counts are exact as doubles, so the one division is rounded once.
    fn of(cycles: u32, starts: u32) -> Rate {
        if starts == 0 {
            return Rate::None;
        }
        Rate::CyclesPerStart(f64::from(cycles) / f64::from(starts))
    }
}
