//! `talk`: both halves joined.

use super::pod::outcome_words;
use super::{parse_request, Bench, Program};
use crate::talk::talk;

/// The bench, and requests sent over its port.
#[derive(Default)]
pub struct Talk {
    pub bench: Bench,
}

impl Talk {
    pub fn new() -> Talk {
        Talk::default()
    }
}

impl Program for Talk {
    fn help(&self) -> &'static str {
        "help make memory bytes event breakpoint peek state \
         rdreg wdreg read.b read.w read.l write.b write.w write.l dump.b dump.w dump.l fill.b fill.w fill.l \
         go nop sync_pc rcreg wcreg rdmreg wdmreg help quit"
    }

    fn answer_words(&mut self, words: &[&[u8]]) -> Option<String> {
        let Some(request) = parse_request(words) else {
            return self.bench.answer_words(words);
        };
        let Bench { board, memory } = &mut self.bench;
        Some(match talk(board, memory, &request) {
            Ok((outcome, packets)) => format!("{} packets {packets}", outcome_words(outcome)),
            Err(refusal) => refusal.to_string(),
        })
    }
}
