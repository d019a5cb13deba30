//! `stand_in`: the board.

use super::{Bench, Program};
use crate::line::number;

/// The bench, and packets through the port.
#[derive(Default)]
pub struct StandIn {
    pub bench: Bench,
}

impl StandIn {
    pub fn new() -> StandIn {
        StandIn::default()
    }
}

impl Program for StandIn {
    fn help(&self) -> &'static str {
        "help make memory bytes packet event breakpoint peek state help quit"
    }

    fn answer_words(&mut self, words: &[&[u8]]) -> Option<String> {
        match words {
            [b"packet", x] => Some(send_packet(&mut self.bench, number(x)?)),
            _ => self.bench.answer_words(words),
        }
    }
}

/// The answer to a packet through the port.
pub fn send_packet(bench: &mut Bench, packet: u32) -> String {
    let Bench { board, memory } = bench;
    match board.packet(memory, packet) {
        Ok(reply) => format!("reply {reply:05X}"),
        Err(refusal) => refusal.to_string(),
    }
}
