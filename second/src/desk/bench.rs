//! The lines that `stand_in` and `talk` share: a board, its memory, and what the bench does to them.

use crate::board::{Board, Chain, Phase};
use crate::events::{Access, Event, Mark, Privilege};
use crate::line::{bytes, number, number_of_bits};
use std::fmt::Write;

/// The most that `memory` lends, so that ground 3 can be tried.
const LENT_LIMIT: u32 = 0x10010;
/// The most that `peek` shows.
const PEEK_LIMIT: u32 = 0x400;

/// A board and the memory lent to it.
pub struct Bench {
    pub board: Board,
    pub memory: Vec<u8>,
}

impl Bench {
    /// As `make 0` with no memory.
    pub fn new() -> Bench {
        Bench { board: Board::make(0).expect("W = 0 is not above 15"), memory: Vec::new() }
    }

    pub fn answer_words(&mut self, words: &[&[u8]]) -> Option<String> {
        match words {
            [b"make", w] => self.make(number(w)?),
            [b"memory", n] => self.lend(number(n)?),
            [b"bytes", a, hex] => self.put(number(a)?, &bytes(hex)?),
            [b"event", words @ ..] => self.event(event(words)?),
            [b"breakpoint"] => {
                let answer = self.board.breakpoint();
                Some(format!("breakpoint halted {} interrupt {}", u8::from(answer.halted), u8::from(answer.interrupt)))
            }
            [b"peek", a, n] => self.peek(number(a)?, number(n)?),
            [b"state"] => Some(self.state()),
            _ => None,
        }
    }

    fn make(&mut self, w: u32) -> Option<String> {
        Some(match Board::make(w) {
            Ok(board) => {
                self.board = board;
                "made".to_string()
            }
            Err(refusal) => refusal.to_string(),
        })
    }

    fn lend(&mut self, n: u32) -> Option<String> {
        if n > LENT_LIMIT {
            return None;
        }
        self.memory = vec![0; n as usize];
        Some(format!("memory {n:X}"))
    }

    /// The place of `n` bytes from `a` in the memory, if they are all there.
    fn place(&self, a: u32, n: usize) -> Option<std::ops::Range<usize>> {
        let start = a as usize;
        let end = start.checked_add(n)?;
        (end <= self.memory.len()).then_some(start..end)
    }

    fn put(&mut self, a: u32, bytes: &[u8]) -> Option<String> {
        let place = self.place(a, bytes.len())?;
        self.memory[place].copy_from_slice(bytes);
        Some(format!("bytes {:X}", bytes.len()))
    }

    fn event(&mut self, event: Event) -> Option<String> {
        let answer = match self.board.event(event) {
            Ok(answer) => answer,
            Err(refusal) => return Some(refusal.to_string()),
        };
        let mut text = format!(
            "event level {} halted {} interrupt {} pc {}",
            answer.level,
            u8::from(answer.halted),
            u8::from(answer.interrupt),
            match answer.pc {
                Some(pc) => format!("{pc:08X}"),
                None => "none".to_string(),
            }
        );
        // "a line without a mark is answered as before"
        if event.mark != Mark::Absent {
            write!(text, " ignored {}", u8::from(answer.ignored)).ok()?;
        }
        Some(text)
    }

    fn peek(&self, a: u32, n: u32) -> Option<String> {
        if !(1..=PEEK_LIMIT).contains(&n) {
            return None;
        }
        let mut answer = String::from("peek ");
        for byte in &self.memory[self.place(a, n as usize)?] {
            write!(answer, "{byte:02X}").ok()?;
        }
        Some(answer)
    }

    /// All that the board holds; nothing is read or cleared by it.
    pub(super) fn state(&self) -> String {
        const CONTROL_NAMES: [&str; 10] = ["cacr", "acr0", "acr1", "vbr", "macsr", "mask", "acc", "sr", "pc", "rambar"];
        let board = &self.board;
        let mut fields = vec![
            format!("w={:X}", board.wait),
            format!("halted={}", u8::from(board.halted)),
            format!("csr={:08X}", board.csr),
            format!("tdr={:08X}", board.tdr),
            format!("aatr={:04X}", board.aatr),
            format!("baar={:02X}", board.baar),
            format!("pbr={:08X}", board.pbr),
            format!("pbmr={:08X}", board.pbmr),
            format!("abhr={:08X}", board.abhr),
            format!("ablr={:08X}", board.ablr),
            format!("dbr={:08X}", board.dbr),
            format!("dbmr={:08X}", board.dbmr),
        ];
        for (n, value) in board.registers.iter().enumerate() {
            let kind = if n < 8 { 'd' } else { 'a' };
            fields.push(format!("{kind}{}={value:08X}", n % 8));
        }
        for (name, value) in CONTROL_NAMES.iter().zip(&board.control) {
            fields.push(format!("{name}={value:08X}"));
        }
        fields.push(format!("sync={}", u8::from(board.sync)));
        fields.push(match board.phase {
            Phase::Rest => "phase=rest".to_string(),
            Phase::Operands { left, .. } => format!("phase=operands:{left:X}"),
            Phase::Waiting { left, .. } => format!("phase=waiting:{left:X}"),
            Phase::Low { word } => format!("phase=low:{word:04X}"),
        });
        fields.push(match board.chain {
            Chain::None => "chain=none".to_string(),
            Chain::Dump => "chain=dump".to_string(),
            Chain::Fill => "chain=fill".to_string(),
        });
        fields.push(format!("pointer={:05X}", board.pointer));
        fields.push(format!("next={:05X}", board.next));
        fields.push(match board.fault {
            Some(address) => format!("fault={address:08X}"),
            None => "fault=none".to_string(),
        });
        format!("state {}", fields.join(" "))
    }
}

impl Default for Bench {
    fn default() -> Bench {
        Bench::new()
    }
}

/// The event of these words, those behind `event`: PC, an access or none, a mark or none.
fn event(words: &[&[u8]]) -> Option<Event> {
    let (numbers, mark) = match words {
        [numbers @ .., b"halt", privilege] => (numbers, Mark::Halt(privilege_named(privilege)?)),
        numbers => (numbers, Mark::Absent),
    };
    let (pc, access) = match numbers {
        [pc] => (pc, None),
        [pc, address, attribute, data] => (
            pc,
            Some(Access {
                address: number(address)?,
                attribute: number_of_bits(attribute, 8)? as u8,
                data: number(data)?,
            }),
        ),
        _ => return None,
    };
    Some(Event { pc: number(pc)?, access, mark })
}

fn privilege_named(word: &[u8]) -> Option<Privilege> {
    match word {
        b"user" => Some(Privilege::User),
        b"supervisor" => Some(Privilege::Supervisor),
        _ => None,
    }
}
