//! Scripts under construction: lines, and a program that hears each of them, so that the next one can be aimed.

use crate::board::{Board, Phase};
use crate::desk::{Bench, Pod, Program, StandIn, Talk};
use crate::line::is_line_end;

/// A line program that may have a bench to look at.
pub trait Listener: Program + Default {
    fn bench(&self) -> Option<&Bench>;
}

impl Listener for StandIn {
    fn bench(&self) -> Option<&Bench> {
        Some(&self.bench)
    }
}

impl Listener for Talk {
    fn bench(&self) -> Option<&Bench> {
        Some(&self.bench)
    }
}

impl Listener for Pod {
    fn bench(&self) -> Option<&Bench> {
        None
    }
}

/// Writes a script line by line.
#[derive(Default)]
pub struct Writer<P> {
    pub lines: Vec<Vec<u8>>,
    listener: P,
}

impl<P: Listener> Writer<P> {
    pub fn new() -> Writer<P> {
        Writer::default()
    }

    /// A line without its line end. A CR in it ends it and begins another.
    pub fn say(&mut self, line: impl Into<Vec<u8>>) {
        let line = line.into();
        for line in line.split(|&byte| is_line_end(byte)) {
            self.listener.answer(line);
        }
        self.lines.push(line);
    }

    pub fn comment(&mut self, text: &str) {
        self.say(format!("# {text}"));
    }

    pub fn bench(&self) -> &Bench {
        self.listener.bench().expect("this program has a bench")
    }

    pub fn board(&self) -> &Board {
        &self.bench().board
    }

    pub fn memory_length(&self) -> u32 {
        self.bench().memory.len() as u32
    }
}

impl Writer<StandIn> {
    pub fn packet(&mut self, packet: u32) {
        self.say(format!("packet {packet:X}"));
    }

    pub fn packets(&mut self, packets: &[u32]) {
        for &packet in packets {
            self.packet(packet);
        }
    }

    /// NOPs until the port is at rest.
    pub fn drain(&mut self) {
        while self.board().phase != Phase::Rest && self.bench().memory.len() <= crate::board::MEMORY_LIMIT {
            self.packet(0);
        }
    }

    /// A whole command: its words, NOPs until the port rests, and one that carries the closing reply out.
    pub fn command(&mut self, words: &[u32]) {
        self.packets(words);
        self.drain();
        self.packet(0);
    }

    /// WDMREG.
    pub fn debug(&mut self, n: u32, value: u32) {
        self.command(&[0x2C80 + n, value >> 16, value & 0xFFFF]);
    }
}

/// The lines of a script as a file; the last with or without its line end.
pub fn to_bytes(lines: &[Vec<u8>], last_ended: bool) -> Vec<u8> {
    let mut bytes = lines.join(&b'\n');
    if last_ended && !lines.is_empty() {
        bytes.push(b'\n');
    }
    bytes
}
