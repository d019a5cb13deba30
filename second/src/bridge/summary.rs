//! What a visitor sent and said, in few lines that determine all of it.

use super::text::escape;
use super::{Bridge, Sent};
use crate::command::CONTROL_REGISTERS;

/// How long a line of packets gets.
const COLUMNS: usize = 100;
/// So many that go on alike, or more, are shown as the first and the last of them.
const ALIKE: usize = 4;
/// What stands between the two.
const BETWEEN: &str = "..";

/// The lines for a visit: the packets, and what came on standard error.
pub fn visit_lines(bridge: &Bridge, results: &[u8]) -> Vec<String> {
    let mut lines = vec![format!("sent {}", bridge.sent.len())];
    lines.extend(wrapped(&packet_words(&units(&bridge.sent))));
    if bridge.ahead > 0 {
        lines.push("packets were sent ahead of the answers".to_string());
    }
    lines.extend(result_lines(results));
    lines
}

/// A line that was sent, and the NOPs that follow it. Before the first NOPs there may be none.
#[derive(Clone, PartialEq, Eq)]
struct Unit {
    sent: Option<Sent>,
    nops: usize,
}

impl Unit {
    /// `02180+2` is 02180, 00000, 00000.
    fn shown(&self) -> String {
        let sent = match &self.sent {
            None => String::new(),
            Some(Sent::Packet(packet)) => format!("{packet:05X}"),
            Some(Sent::Other(line)) => format!("\"{}\"", escape(line)),
        };
        match self.nops {
            0 => sent,
            nops => format!("{sent}+{nops}"),
        }
    }

    /// True if the other is the same with the next packet.
    fn rises_to(&self, other: &Unit) -> bool {
        match (&self.sent, &other.sent) {
            (Some(Sent::Packet(one)), Some(Sent::Packet(next))) => one + 1 == *next && self.nops == other.nops,
            _ => false,
        }
    }
}

fn units(sent: &[Sent]) -> Vec<Unit> {
    let mut units: Vec<Unit> = Vec::new();
    for sent in sent {
        match (sent, units.last_mut()) {
            (Sent::Packet(0), Some(unit)) => unit.nops += 1,
            (Sent::Packet(0), None) => units.push(Unit { sent: None, nops: 1 }),
            (sent, _) => units.push(Unit { sent: Some(sent.clone()), nops: 0 }),
        }
    }
    units
}

/// The units as words. The same many times is `(01D80+2)*255`, and those that rise are `02180+2 .. 0218F+2`.
fn packet_words(units: &[Unit]) -> Vec<String> {
    let mut words = Vec::new();
    let mut rest = units;
    while let [first, ..] = rest {
        let same = rest.iter().take_while(|unit| *unit == first).count();
        let rising = 1 + rest.windows(2).take_while(|pair| pair[0].rises_to(&pair[1])).count();
        let used = if same > 1 {
            words.push(format!("({})*{same}", first.shown()));
            same
        } else if rising >= ALIKE {
            words.push(format!("{} {BETWEEN} {}", first.shown(), rest[rising - 1].shown()));
            rising
        } else {
            words.push(first.shown());
            1
        };
        rest = &rest[used..];
    }
    words
}

fn wrapped(words: &[String]) -> Vec<String> {
    let mut lines: Vec<String> = Vec::new();
    for word in words {
        match lines.last_mut() {
            Some(line) if line.len() + 1 + word.len() <= COLUMNS => {
                line.push(' ');
                line.push_str(word);
            }
            _ => lines.push(format!("  {word}")),
        }
    }
    lines
}

/// Standard error line by line. Of lines that go on alike, in the order of the language and with the same to say, the first
/// and the last are shown.
fn result_lines(results: &[u8]) -> Vec<String> {
    let mut shown = Vec::new();
    let all: Vec<&[u8]> = results.split_inclusive(|&byte| byte == b'\n').collect();
    for alike in all.chunk_by(|line, next| next_line(line).is_some_and(|due| due.as_bytes() == *next)) {
        match alike {
            [first, .., last] if alike.len() >= ALIKE => {
                shown.extend([result_line(first), BETWEEN.to_string(), result_line(last)]);
            }
            few => shown.extend(few.iter().map(|line| result_line(line))),
        }
    }
    shown
}

fn result_line(line: &[u8]) -> String {
    match line.strip_suffix(b"\n") {
        Some(line) => escape(line),
        None => format!("{} (no line end)", escape(line)),
    }
}

/// The line that goes on after one: the next register, control register or longword, with the same to say.
fn next_line(line: &[u8]) -> Option<String> {
    let text = std::str::from_utf8(line).ok()?;
    let (kind, rest) = text.split_once(' ')?;
    let (name, noted) = rest.split_once(' ')?;
    let next = match kind {
        "register" => after(&registers(), name)?,
        "control" => after(&CONTROL_REGISTERS.map(|rc| format!("{rc:03X}")), name)?,
        "table" => format!("{:08X}", u32::from_str_radix(name, 16).ok()?.checked_add(4)?),
        _ => return None,
    };
    Some(format!("{kind} {next} {noted}"))
}

fn registers() -> Vec<String> {
    ["d", "a"].iter().flat_map(|kind| (0..8).map(move |n| format!("{kind}{n}"))).collect()
}

fn after(names: &[String], name: &str) -> Option<String> {
    let place = names.iter().position(|other| other == name)?;
    names.get(place + 1).cloned()
}
