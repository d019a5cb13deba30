//! `mend`: a trace with dropouts made readable. The mended trace goes out raw, the list of what was changed as text.

use super::trace_list::read_trace;
use crate::mend::mend as mend_trace;
use std::io::{self, Read, Write};

/// Reads a trace, writes it mended, and prints the list of its changes or its refusal.
pub fn mend(input: &mut impl Read, output: &mut impl Write, list: &mut impl Write) -> io::Result<()> {
    let trace = read_trace(input)?;
    let mut mended = vec![0; trace.len()];
    let mut words = vec![0; trace.len()];
    match mend_trace(&trace, &mut mended, &mut words) {
        Ok(changed) => {
            output.write_all(&mended)?;
            output.flush()?;
            write_list(mended.len(), &words[..changed], list)?;
        }
        Err(refusal) => writeln!(list, "{refusal}")?,
    }
    list.flush()
}

fn write_list(cycles: usize, words: &[u32], list: &mut impl Write) -> io::Result<()> {
    writeln!(list, "mended cycles={cycles} changed={}", words.len())?;
    for word in words {
        writeln!(list, "{} {}", word / 16, word % 16)?;
    }
    Ok(())
}
