//! A program to talk to in tests: lines in, answers out.
#![allow(dead_code)]

use second::desk::{line_program, Program};

pub struct Desk(Box<dyn Program>);

impl Desk {
    pub fn new(name: &str) -> Desk {
        Desk(line_program(name).unwrap())
    }

    /// A stand-in with W and a memory of `n` bytes, byte i holding i.
    pub fn stand_in(w: u32, n: u32) -> Desk {
        Desk::new("stand_in").with(w, n)
    }

    pub fn talk(w: u32, n: u32) -> Desk {
        Desk::new("talk").with(w, n)
    }

    fn with(mut self, w: u32, n: u32) -> Desk {
        assert_eq!(self.say(&format!("make {w:X}")), "made");
        assert_eq!(self.say(&format!("memory {n:X}")), format!("memory {n:X}"));
        for start in (0..n).step_by(1024) {
            let end = n.min(start + 1024);
            let hex: String = (start..end).map(|i| format!("{:02X}", i as u8)).collect();
            self.say(&format!("bytes {start:X} {hex}"));
        }
        self
    }

    pub fn say(&mut self, line: &str) -> String {
        self.say_bytes(line.as_bytes()).expect("an answer")
    }

    pub fn say_bytes(&mut self, line: &[u8]) -> Option<String> {
        self.0.answer(line)
    }

    pub fn packet(&mut self, packet: u32) -> u32 {
        let answer = self.say(&format!("packet {packet:X}"));
        u32::from_str_radix(answer.strip_prefix("reply ").expect(&answer), 16).unwrap()
    }

    pub fn packets(&mut self, packets: &[u32]) -> Vec<u32> {
        packets.iter().map(|&packet| self.packet(packet)).collect()
    }

    /// Sends the words, then NOPs until the port is at rest, then one more: the closing reply.
    pub fn close(&mut self, words: &[u32]) -> u32 {
        self.packets(words);
        while self.state("phase") != "rest" {
            self.packet(0);
        }
        self.packet(0)
    }

    /// WDMREG.
    pub fn debug(&mut self, n: u32, value: u32) {
        assert_eq!(self.close(&[0x2C80 + n, value >> 16, value & 0xFFFF]), 0x0FFFF);
    }

    /// RDMREG CSR.
    pub fn csr(&mut self) -> u32 {
        let replies = self.packets(&[0x2D80, 0, 0]);
        replies[1] << 16 | replies[2]
    }

    pub fn go(&mut self) {
        assert_eq!(self.close(&[0x0C00]), 0x0FFFF);
    }

    /// One field of the state line.
    pub fn state(&mut self, name: &str) -> String {
        let answer = self.say("state");
        answer.split(' ').find_map(|field| field.strip_prefix(name)?.strip_prefix('=')).expect(name).to_string()
    }

    pub fn bstat(&mut self) -> char {
        self.state("csr").chars().next().unwrap()
    }

    /// Level, halted, interrupt, PC of an event.
    pub fn event(&mut self, arguments: &str) -> String {
        let answer = self.say(&format!("event {arguments}"));
        answer
            .strip_prefix("event ")
            .map(|rest| rest.replace("level ", "").replace("halted ", "").replace("interrupt ", "").replace("pc ", ""))
            .unwrap_or(answer)
    }
}

/// Cycles in hexadecimal.
pub fn cycles(text: &str) -> Vec<u8> {
    text.split_whitespace().map(|byte| u8::from_str_radix(byte, 16).unwrap()).collect()
}

/// Cycles in hexadecimal, where `20*3` is `20 20 20`.
pub fn trace(text: &str) -> Vec<u8> {
    let mut trace = Vec::new();
    for word in text.split_whitespace() {
        let (byte, count) = word.split_once('*').unwrap_or((word, "1"));
        trace.extend(cycles(byte).repeat(count.parse().unwrap()));
    }
    trace
}

/// The items of a trace as (cycle, code, value), or the refusal's number and cycle.
pub type Listing = Result<Vec<(u32, u32, u32)>, (u8, u32)>;

pub fn items(trace: &[u8]) -> Listing {
    let mut words = vec![0; 4 * trace.len()];
    match second::trace::list_trace(trace, &mut words) {
        Ok(count) => Ok(words[..2 * count].chunks(2).map(|item| (item[0] / 16, item[0] % 16, item[1])).collect()),
        Err(refusal) => Err((refusal.number(), refusal.cycle)),
    }
}
