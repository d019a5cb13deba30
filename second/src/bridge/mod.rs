//! A bridge for `gateway` under test: its packets go to this program's own board, and the answers come back through
//! whatever is wrong on the way. What it sends is recorded.

mod fault;
mod own;
mod scene;
mod summary;
mod text;

pub use fault::Fault;
pub use own::Own;
pub use scene::{play, played_output, Played};
pub use text::escape;

use crate::desk::{Program, StandIn};
use crate::line::{gets_no_answer, is_line_end};

/// A `gateway` that is run with arguments, at one end of a bridge.
pub trait Visitor {
    /// Runs it to its end and gives its standard error; or says why it came to no end.
    fn visit(&mut self, arguments: &[String], bridge: &mut Bridge) -> Result<Vec<u8>, String>;
}

/// A line that a visitor wrote.
#[derive(Clone, PartialEq, Eq, Debug)]
pub enum Sent {
    Packet(u32),
    /// No `packet X` of five upper-case digits and LF.
    Other(Vec<u8>),
}

/// What is written to a visitor for a line of it.
pub struct Answer {
    pub bytes: Vec<u8>,
    /// Its input ends after these bytes.
    pub ends: bool,
}

/// The far end of a visit: a board behind faults.
pub struct Bridge<'a> {
    stand_in: &'a mut StandIn,
    faults: &'a [Fault],
    sent: Vec<Sent>,
    /// The packets that went ahead of the answers.
    ahead: usize,
    /// The board's own answers, one for each packet.
    answers: Vec<String>,
    said: Said,
    ended: bool,
}

impl<'a> Bridge<'a> {
    pub fn new(stand_in: &'a mut StandIn, faults: &'a [Fault]) -> Bridge<'a> {
        let said = Said::default();
        Bridge { stand_in, faults, sent: Vec::new(), ahead: 0, answers: Vec::new(), said, ended: false }
    }

    /// Takes a line that the visitor wrote, with its end, and gives the answer.
    pub fn take_line(&mut self, line: &[u8]) -> Answer {
        let Some(packet) = packet_of(line) else {
            self.sent.push(Sent::Other(line.to_vec()));
            self.ended = true;
            return Answer { bytes: Vec::new(), ends: true };
        };
        self.sent.push(Sent::Packet(packet));
        let count = self.answers.len() + 1;
        for line in fault::deeds(self.faults, count) {
            self.stand_in.answer(line);
        }
        let answer = self.stand_in.answer(format!("packet {packet:X}").as_bytes());
        self.answers.push(answer.expect("a packet is answered"));
        if self.ended || fault::is_silent(self.faults, count) {
            self.ended = true;
            return Answer { bytes: Vec::new(), ends: true };
        }
        let bytes = fault::bytes(self.faults, count, &self.answers);
        self.said.say(&bytes);
        // A visitor that would wait for ever is told that there is no more.
        self.ended = self.said.lines < count;
        Answer { bytes, ends: self.ended }
    }

    /// True if the visitor must wait once it has sent the next packet: it has had no more answers than it has sent packets.
    pub fn must_wait_after_next(&self) -> bool {
        self.said.lines <= self.answers.len()
    }

    /// A line came where the visitor had to wait.
    pub fn note_ahead(&mut self) {
        self.ahead += 1;
    }

    pub fn packets(&self) -> usize {
        self.answers.len()
    }
}

/// The packet of a line that is exactly as the language has it.
fn packet_of(line: &[u8]) -> Option<u32> {
    let digits = line.strip_prefix(b"packet ")?.strip_suffix(b"\n")?;
    let upper = |byte: &u8| matches!(byte, b'0'..=b'9' | b'A'..=b'F');
    if digits.len() != 5 || !digits.iter().all(upper) {
        return None;
    }
    crate::line::number(digits)
}

/// What has been said to a visitor: how many lines that count, and the one that has no end yet.
#[derive(Default)]
struct Said {
    lines: usize,
    open: Vec<u8>,
}

impl Said {
    fn say(&mut self, bytes: &[u8]) {
        for &byte in bytes {
            if is_line_end(byte) {
                self.lines += usize::from(!gets_no_answer(&self.open));
                self.open.clear();
            } else {
                self.open.push(byte);
            }
        }
    }
}
