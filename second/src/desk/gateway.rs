//! `gateway`: the other side of the stand-in's language. It writes `packet X` lines and reads `reply X` lines; what it read
//! goes to standard error when the visit is over.

use super::UNCLEAR;
use crate::command::CONTROL_REGISTERS;
use crate::line::{gets_no_answer, number, read_line, words, LINE_LIMIT};
use crate::visit::{End, Item, Table, Visit};
use std::io::{self, BufRead, Write};

/// Makes the visit that the arguments ask for, and writes what it came to.
pub fn gateway(
    arguments: &[&str],
    input: &mut impl BufRead,
    output: &mut impl Write,
    results: &mut impl Write,
) -> io::Result<()> {
    let Some(table) = asked(arguments) else {
        writeln!(results, "{UNCLEAR}")?;
        return results.flush();
    };
    let mut visit = Visit::new(table);
    let mut line = Vec::new();
    while let Some(packet) = visit.next_packet() {
        // A packet that can't be sent has no reply.
        let reply = send(packet, output).and_then(|()| read_reply(input, &mut line));
        visit.take(reply.unwrap_or(None));
    }
    write_results(&visit, results)?;
    results.flush()
}

/// The table that the arguments ask for: none, or ADDRESS LONGWORDS.
fn asked(arguments: &[&str]) -> Option<Table> {
    match arguments {
        [] => Some(Table::NONE),
        [address, longwords] => Table::new(number(address.as_bytes())?, number(longwords.as_bytes())?),
        _ => None,
    }
}

fn send(packet: u32, output: &mut impl Write) -> io::Result<()> {
    writeln!(output, "packet {packet:05X}")?;
    output.flush()
}

/// The next line's reply; none if the line is no reply, or the input has ended. Empty lines and comments are no lines.
fn read_reply(input: &mut impl BufRead, line: &mut Vec<u8>) -> io::Result<Option<u32>> {
    while read_line(input, line)? {
        if !gets_no_answer(line) {
            return Ok(reply_of(line));
        }
    }
    Ok(None)
}

fn reply_of(line: &[u8]) -> Option<u32> {
    if line.len() > LINE_LIMIT {
        return None;
    }
    match &words(&line.to_ascii_lowercase())[..] {
        [b"reply", x] => number(x),
        _ => None,
    }
}

/// Writes what was read, or the one line that says why nothing was.
fn write_results(visit: &Visit, results: &mut impl Write) -> io::Result<()> {
    for &(item, noted) in visit.results() {
        match item {
            Item::Register(n) => {
                let kind = if n < 8 { 'd' } else { 'a' };
                writeln!(results, "register {kind}{} {noted}", n % 8)?;
            }
            Item::Control(place) => writeln!(results, "control {:03X} {noted}", CONTROL_REGISTERS[place])?,
            Item::Csr => writeln!(results, "csr {noted}")?,
            Item::Longword(k) => writeln!(results, "table {:08X} {noted}", visit.table().place(k))?,
        }
    }
    match visit.end() {
        Some(End::Read { packets }) => writeln!(results, "read packets {packets}"),
        Some(End::NotRead { packet, reason }) => writeln!(results, "not-read packet {packet} {reason}"),
        None => unreachable!("the visit is over"),
    }
}
