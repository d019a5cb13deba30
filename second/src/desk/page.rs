//! `page`: the page of a trace.

use super::trace_list::read_trace;
use crate::page::{index_length, make_page, Entry, Page, Rate};
use std::io::{self, Read, Write};

/// Reads a trace and prints its page or its refusal.
pub fn page(input: &mut impl Read, output: &mut impl Write) -> io::Result<()> {
    let trace = read_trace(input)?;
    let mut index = vec![Entry::default(); index_length(&trace)];
    match make_page(&trace, &mut index) {
        Ok(page) => write_page(&page, &index, output)?,
        Err(refusal) => writeln!(output, "{refusal}")?,
    }
    output.flush()
}

fn write_page(page: &Page, index: &[Entry], output: &mut impl Write) -> io::Result<()> {
    writeln!(output, "page cycles={} items={} starts={}", page.cycles, page.items, page.starts)?;
    match page.rate {
        Rate::None => writeln!(output, "rate none")?,
        Rate::CyclesPerStart(rate) => {
            writeln!(output, "rate {} bits {:016X}", two_places(page.cycles, page.starts), rate.to_bits())?;
        }
    }
    for (code, tally) in page.codes.iter().enumerate().filter(|(_, tally)| tally.count > 0) {
        writeln!(output, "code {code} count {} first {} last {}", tally.count, tally.first, tally.last)?;
    }
    for entry in index {
        writeln!(output, "{}", index_line(entry))?;
    }
    Ok(())
}

/// Cycles over starts to two places, half rounded up, from the two counts themselves.
fn two_places(cycles: u32, starts: u32) -> String {
    let hundredths = (200 * cycles + starts) / (2 * starts);
    format!("{}.{:02}", hundredths / 100, hundredths % 100)
}

fn index_line(entry: &Entry) -> String {
    let transfer = match entry.transfer() {
        Some((marker, due)) => format!("{marker} due {due}"),
        None => "none".to_string(),
    };
    let run = entry.run().map_or("none".to_string(), |code| code.to_string());
    format!("index {} items {} transfer {transfer} run {run}", entry.cycle, entry.items)
}
