//! The morning's check: what the desk checks by eye (01, P1 to P9), run on this program's own board.

use super::stand_in::send_packet;
use super::{output_of, Program, Talk};
use crate::line::number;
use std::io::{self, Write};

/// What is run for a check and shown.
enum Shown {
    /// Lines of the desk's language, whose answers are shown.
    Lines(&'static [&'static str]),
    /// Recorded cycles, whose listing is shown.
    Trace(&'static [u8]),
}

/// A check: lines that prepare the bench, what is shown then, and what is due for it.
struct Check {
    name: &'static str,
    title: &'static str,
    prepares: &'static [&'static str],
    shown: Shown,
    due: &'static str,
}

const CHECKS: [Check; 9] = [
    Check {
        name: "P1",
        title: "READ of the longword at 4, with W 1",
        prepares: &["make 1", "memory 10", "bytes 0 000102030405060708090A0B0C0D0E0F"],
        shown: Shown::Lines(&["packet 1980", "packet 0", "packet 4", "packet 0", "packet 0", "packet 0"]),
        due: "reply 0FFFF, reply 10000, reply 10000, reply 10000, reply 00405, reply 00607",
    },
    Check {
        name: "P2",
        title: "then DUMP of a byte",
        prepares: &[],
        shown: Shown::Lines(&["packet 1D00", "packet 0", "packet 0"]),
        due: "reply 0FFFF, reply 10000, reply 00008",
    },
    Check {
        name: "P3",
        title: "CSR of a fresh board, read twice",
        prepares: &["make 0"],
        shown: Shown::Lines(&["rdmreg 0", "rdmreg 0"]),
        due: "value 01100000 packets 3, value 00100000 packets 3",
    },
    Check {
        name: "P4",
        title: "PC breakpoint at 1000 under mask F: at 1010, at 100E, then CSR",
        prepares: &["make 0", "wdmreg 8 1000", "wdmreg 9 F", "wdmreg 7 40002002", "go"],
        shown: Shown::Lines(&["event 1010", "event 100E", "rdmreg 0"]),
        due: "event level 0 halted 0 interrupt 0 pc none, event level 1 halted 1 interrupt 0 pc none, \
              value 24100000 packets 3",
    },
    Check {
        name: "P5",
        title: "two levels, the same event twice, CSR after each",
        prepares: &["make 0", "wdmreg 8 1000", "wdmreg D 2000", "wdmreg 6 5", "wdmreg 7 20042002", "go"],
        shown: Shown::Lines(&["event 1000 2000 5 0", "rdmreg 0", "event 1000 2000 5 0", "rdmreg 0"]),
        due: "event level 1 halted 0 interrupt 0 pc none, value 50100000 packets 3, \
              event level 2 halted 0 interrupt 0 pc none, value 60100000 packets 3",
    },
    Check {
        name: "P6",
        title: "byte READ at 0 without memory",
        prepares: &["make 0", "memory 0"],
        shown: Shown::Lines(&["packet 1900", "packet 0", "packet 0", "packet 0"]),
        due: "reply 0FFFF, reply 10000, reply 10000, reply 10001",
    },
    Check {
        name: "P7",
        title: "FILL after READ",
        prepares: &["make 0", "memory 10"],
        shown: Shown::Lines(&["packet 1900", "packet 0", "packet 0", "packet 1C00", "packet 0"]),
        due: "reply 0FFFF, reply 10000, reply 10000, reply 00000, reply 1FFFF",
    },
    Check {
        name: "P8",
        title: "the word 19C0",
        prepares: &["make 0"],
        shown: Shown::Lines(&["packet 19C0", "packet 0"]),
        due: "reply 0FFFF, reply 1FFFF",
    },
    Check {
        name: "P9",
        title: "the trace 10 50 90 04 03 02 11 F0 F0",
        prepares: &[],
        shown: Shown::Trace(&[0x10, 0x50, 0x90, 0x04, 0x03, 0x02, 0x11, 0xF0, 0xF0]),
        due: "trace cycles=9 items=5, 0 1 0, 1 5 0, 6 9 4660, 6 1 0, 7 15 0",
    },
];

/// The big letters, with the empty lines about them.
const GOOD: &str = "
 ####   ###    ###   ####
#      #   #  #   #  #   #
#  ##  #   #  #   #  #   #
#   #  #   #  #   #  #   #
 ####   ###    ###   ####

";

const BAD: &str = "
####    ###   ####
#   #  #   #  #   #
####   #####  #   #
#   #  #   #  #   #
####   #   #  ####

";

/// The desk in the morning: `talk`, and `stand_in`'s packets on the same bench.
#[derive(Default)]
struct MorningDesk {
    talk: Talk,
}

impl Program for MorningDesk {
    fn help(&self) -> &'static str {
        self.talk.help()
    }

    fn answer_words(&mut self, words: &[&[u8]]) -> Option<String> {
        match words {
            [b"packet", x] => Some(send_packet(&mut self.talk.bench, number(x)?)),
            _ => self.talk.answer_words(words),
        }
    }
}

impl MorningDesk {
    fn answers(&mut self, lines: &[&str]) -> Vec<String> {
        lines.iter().filter_map(|line| self.answer(line.as_bytes())).collect()
    }
}

/// The lines that the trace lister prints.
fn listing(trace: &[u8]) -> Vec<String> {
    let output = output_of("trace_list", trace).expect("a program's name");
    String::from_utf8_lossy(&output).lines().map(str::to_string).collect()
}

impl Check {
    /// What comes out, as it is shown.
    fn run(&self, desk: &mut MorningDesk) -> String {
        desk.answers(self.prepares);
        let shown = match self.shown {
            Shown::Lines(lines) => desk.answers(lines),
            Shown::Trace(trace) => listing(trace),
        };
        shown.join(", ")
    }

    /// Writes the check's lines; true if what came out is what is due.
    fn write(&self, came_out: &str, output: &mut impl Write) -> io::Result<bool> {
        let good = came_out == self.due;
        writeln!(output, "{} {}: {}", self.name, if good { "good" } else { "BAD" }, self.title)?;
        writeln!(output, "    {came_out}")?;
        if !good {
            writeln!(output, "    due: {}", self.due)?;
        }
        Ok(good)
    }
}

/// What came out for each check, in their order.
pub type CameOut = [String; CHECKS.len()];

/// Runs the checks on one bench that goes on from one to the next.
pub fn run_checks() -> CameOut {
    let mut desk = MorningDesk::default();
    CHECKS.map(|check| check.run(&mut desk))
}

/// Writes the page for what came out; true if all of it is good.
pub fn write_page(came_out: &CameOut, output: &mut impl Write) -> io::Result<bool> {
    let mut bad = 0;
    for (check, came_out) in CHECKS.iter().zip(came_out) {
        if !check.write(came_out, output)? {
            bad += 1;
        }
    }
    write_verdict(bad, output)?;
    output.flush()?;
    Ok(bad == 0)
}

/// The big letters and the last line.
fn write_verdict(bad: usize, output: &mut impl Write) -> io::Result<()> {
    let all = CHECKS.len();
    if bad == 0 {
        writeln!(output, "{GOOD}ALL {all} GOOD")
    } else {
        writeln!(output, "{BAD}{bad} BAD OF {all}: HAND OUT NO POD")
    }
}
