//! `waits`: a file of requests at every wait setting, and whether only the waiting changes.

use super::pod::outcome_words;
use super::{parse_request, Bench, UNCLEAR};
use crate::board::{Board, WAIT_LIMIT};
use crate::line::{gets_no_answer, lines, words, LINE_LIMIT};
use crate::talk::talk;
use crate::waits::{write_page, Run};
use std::io::{self, Read, Write};

/// The longest file that is taken.
pub const FILE_LIMIT: usize = 16_384;

/// Reads a file of requests and prints its page; or that it is too long, or which line is none.
pub fn waits(input: &mut impl Read, output: &mut impl Write) -> io::Result<()> {
    let mut file = Vec::new();
    // One byte more than a file may have is enough to know it.
    input.take(FILE_LIMIT as u64 + 1).read_to_end(&mut file)?;
    if file.len() > FILE_LIMIT {
        writeln!(output, "too long")?;
    } else {
        match run_at_each_w(&file) {
            Ok(runs) => write_page(&runs, output)?,
            Err(number) => writeln!(output, "{UNCLEAR} line {number}")?,
        }
    }
    output.flush()
}

/// What the lines of a file come to at each W; or the number of the first that is none, counted from 1.
fn run_at_each_w(file: &[u8]) -> Result<Vec<Run>, usize> {
    let lines = lines(file);
    (0..=WAIT_LIMIT).map(|w| run_at(w, &lines)).collect()
}

/// All lines, on a fresh board of this W with no bytes lent at first.
fn run_at(w: u32, lines: &[&[u8]]) -> Result<Run, usize> {
    let mut bench = Bench { board: Board::make(w).expect("W is not above 15"), memory: Vec::new() };
    let mut run = Run { lines: Vec::new(), packets: 0, memory: Vec::new() };
    for (place, line) in lines.iter().enumerate() {
        match take_line(&mut bench, line) {
            None => return Err(place + 1),
            Some(Taken::Request { answer, packets }) => {
                run.lines.push([line, &b": "[..], answer.as_bytes()].concat());
                run.packets += packets;
            }
            Some(Taken::Other) => {}
        }
    }
    // W itself is not compared.
    bench.board.wait = 0;
    run.lines.push(bench.state().into_bytes());
    run.memory = bench.memory;
    Ok(run)
}

/// A line that is taken.
enum Taken {
    /// What `talk` answers to it, the packets apart; one that is refused sends none.
    Request {
        answer: String,
        packets: usize,
    },
    Other,
}

/// Takes a line as `talk` does; none if it is none here.
fn take_line(bench: &mut Bench, line: &[u8]) -> Option<Taken> {
    if gets_no_answer(line) {
        return Some(Taken::Other);
    }
    if line.len() > LINE_LIMIT {
        return None;
    }
    let line = line.to_ascii_lowercase();
    let words = words(&line);
    if let [b"memory" | b"bytes", ..] = words[..] {
        return bench.answer_words(&words).map(|_| Taken::Other);
    }
    let request = parse_request(&words)?;
    Some(match talk(&mut bench.board, &mut bench.memory, &request) {
        Ok((outcome, packets)) => Taken::Request { answer: outcome_words(outcome), packets },
        Err(refusal) => Taken::Request { answer: refusal.to_string(), packets: 0 },
    })
}
