//! The same answers at every wait setting (02, [10]; docs/waits.md): what requests come to at each W, side by side.

use std::io::{self, Write};

/// What a file of requests comes to at one W.
#[derive(Clone, PartialEq, Eq, Debug)]
pub struct Run {
    /// Each request's line with its answer, and last the state, told with `w=0`.
    pub lines: Vec<Vec<u8>>,
    /// The packets of all requests together.
    pub packets: usize,
    pub memory: Vec<u8>,
}

impl Run {
    /// What comes out otherwise here than in `first`, as it comes out here; none if only the packets do.
    fn difference_to(&self, first: &Run) -> Option<Vec<u8>> {
        self.other_line(first).or_else(|| self.other_byte(first))
    }

    fn other_line(&self, first: &Run) -> Option<Vec<u8>> {
        let place = first.lines.iter().zip(&self.lines).position(|(one, other)| one != other)?;
        Some(self.lines[place].clone())
    }

    fn other_byte(&self, first: &Run) -> Option<Vec<u8>> {
        let address = first.memory.iter().zip(&self.memory).position(|(one, other)| one != other)?;
        Some(format!("memory {address:08X} {:02X}", self.memory[address]).into_bytes())
    }
}

/// Writes the page of these runs, one for each W from 0 on.
pub fn write_page(runs: &[Run], output: &mut impl Write) -> io::Result<()> {
    let first = &runs[0];
    for line in &first.lines {
        write_line(line, output)?;
    }
    let mut all_same = true;
    for (w, run) in runs.iter().enumerate() {
        let outcome = match run.difference_to(first) {
            None => b"same".to_vec(),
            Some(difference) => {
                all_same = false;
                [b"differs: ", &difference[..]].concat()
            }
        };
        write!(output, "w {w:X} packets {} ", run.packets)?;
        write_line(&outcome, output)?;
    }
    write_line(if all_same { b"SAME" } else { b"DIFFERENT" }, output)
}

fn write_line(line: &[u8], output: &mut impl Write) -> io::Result<()> {
    output.write_all(line)?;
    output.write_all(b"\n")
}
