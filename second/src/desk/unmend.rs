//! `unmend`: what `mend` printed and the mended trace behind it, made the trace as it was recorded.

use super::UNCLEAR;
use crate::mend::unmend as unmend_trace;
use crate::trace::TRACE_LIMIT;
use std::io::{self, Read, Write};

/// The longest input that is read.
pub const INPUT_LIMIT: usize = 700_000;

/// The answer to a list that is not that of the trace behind it.
const NOT_ITS_LIST: &str = "not-its-list";

/// The largest cycle and the largest PST.
const LAST_CYCLE: u32 = TRACE_LIMIT as u32 - 1;
const LAST_PST: u32 = 15;

/// Reads a list and a trace, writes the trace as it was recorded, and says how that went.
pub fn unmend(input: &mut impl Read, output: &mut impl Write, said: &mut impl Write) -> io::Result<()> {
    let mut bytes = Vec::new();
    // One byte more than an input may have is enough to know it.
    input.take(INPUT_LIMIT as u64 + 1).read_to_end(&mut bytes)?;
    match parse(&bytes) {
        None => writeln!(said, "{UNCLEAR}")?,
        Some(mended) => match mended.recorded() {
            None => writeln!(said, "{NOT_ITS_LIST}")?,
            Some(trace) => {
                output.write_all(&trace)?;
                output.flush()?;
                writeln!(said, "unmended cycles={} changed={}", trace.len(), mended.list.len())?;
            }
        },
    }
    said.flush()
}

/// A list, and the trace behind it.
struct Mended<'a> {
    cycles: usize,
    list: Vec<u32>,
    trace: &'a [u8],
}

impl Mended<'_> {
    /// The trace as it was recorded; none if the list is not that of the trace.
    fn recorded(&self) -> Option<Vec<u8>> {
        if self.trace.len() != self.cycles {
            return None;
        }
        unmend_trace(self.trace, &self.list)
    }
}

/// An input that begins with a list.
fn parse(input: &[u8]) -> Option<Mended<'_>> {
    if input.len() > INPUT_LIMIT {
        return None;
    }
    let mut text = Text(input);
    text.pass(b"mended cycles=")?;
    let cycles = text.number(TRACE_LIMIT as u32)? as usize;
    text.pass(b" changed=")?;
    let changed = text.number(TRACE_LIMIT as u32)?;
    text.pass(b"\n")?;
    let list = (0..changed).map(|_| text.change()).collect::<Option<Vec<u32>>>()?;
    Some(Mended { cycles, list, trace: text.0 })
}

/// What is still to be read.
struct Text<'a>(&'a [u8]);

impl Text<'_> {
    /// Passes over these bytes, which must come next.
    fn pass(&mut self, bytes: &[u8]) -> Option<()> {
        self.0 = self.0.strip_prefix(bytes)?;
        Some(())
    }

    /// One or more decimal digits, with any count of leading zeros, of this value at most.
    fn number(&mut self, most: u32) -> Option<u32> {
        let length = self.0.iter().take_while(|byte| byte.is_ascii_digit()).count();
        let (digits, rest) = self.0.split_at(length);
        self.0 = rest;
        if digits.is_empty() {
            return None;
        }
        // Limits are so small that a value below its limit has room for one more digit.
        digits.iter().try_fold(0, |value, digit| {
            let value = value * 10 + u32::from(digit - b'0');
            (value <= most).then_some(value)
        })
    }

    /// The line of a changed cycle, as the list's word.
    fn change(&mut self) -> Option<u32> {
        let cycle = self.number(LAST_CYCLE)?;
        self.pass(b" ")?;
        let pst = self.number(LAST_PST)?;
        self.pass(b"\n")?;
        Some(cycle * 16 + pst)
    }
}
