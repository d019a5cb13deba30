//! Random scenes for `gateway`: a board with a history, what is wrong on the way, and a visit.

use super::aim::{hex, legal_word};
use super::breakpoints::event;
use super::noise::noise;
use super::stand_in::stand_in_script;
use super::Rng;
use crate::board::{Board, MEMORY_LIMIT};
use crate::bridge::escape;
use crate::desk::{Bench, StandIn};
use crate::script::Writer;
use crate::visit::{Table, Visit};

/// Reply words that mean something.
const WORDS: [u32; 8] = [0x0FFFF, 0x1FFFF, 0x10000, 0x10001, 0x10002, 0, 0x1FFFE, 0x20000];

/// Arguments that ask for no visit, or just do.
const ODD_ARGUMENTS: [&str; 20] = [
    " 0", " 1 1", " 0 10001", " 0 100000000", " FFFFFFFC 2", " FFFFFFFC 1", " FFFC0000 10000", " FFFC0004 10000",
    " 100000000 0", " \"\"", " \"\" \"\"", " 0 0 0", " G 1", " 0 -1", " 0x 1", " 4 0x", " \\x204 1", " 2 2",
    " 0x0 0X0", " --help",
];

/// The lines of some scenes, so many of them with a visit.
pub fn gateway_script(rng: &mut Rng, visits: usize) -> Vec<Vec<u8>> {
    let mut writer = Writer::<StandIn>::new();
    for _ in 0..visits {
        history(rng, &mut writer);
        visit(rng, &mut writer);
    }
    writer.lines
}

/// What happened before: a script for the stand-in, which may end within a command.
fn history(rng: &mut Rng, writer: &mut Writer<StandIn>) {
    let length = rng.pick(&[0, 8, 30, 60]);
    for line in stand_in_script(rng, length) {
        writer.say(line);
    }
    if writer.memory_length() as usize > MEMORY_LIMIT && rng.percent(90) {
        writer.say(format!("memory {:X}", rng.below(80)));
    }
    if rng.percent(25) {
        writer.drain();
        writer.packet(0x0C00);
    }
    if rng.percent(15) {
        writer.packet(u32::from(legal_word(rng)));
    }
}

fn visit(rng: &mut Rng, writer: &mut Writer<StandIn>) {
    let (address, longwords) = table(rng, writer.memory_length());
    let length = length_of(writer.bench(), address, longwords);
    if rng.percent(60) {
        for _ in 0..rng.pick(&[1, 1, 1, 2]) {
            for fault in fault(rng, writer.board(), length) {
                writer.lines.push(fault.into_bytes());
            }
        }
    }
    let arguments = match rng.below(20) {
        0 => rng.pick(&ODD_ARGUMENTS).to_string(),
        1..=6 => String::new(),
        _ => format!(" {} {}", hex(rng, address), hex(rng, longwords)),
    };
    // The listener makes no visits: what it aims at afterwards is what was before.
    writer.lines.push(format!("visit{arguments}").into_bytes());
    if rng.percent(40) {
        writer.lines.push(b"state".to_vec());
    }
}

/// A table within memory, over its end, beyond it, anywhere; about the ends of blocks too.
fn table(rng: &mut Rng, memory: u32) -> (u32, u32) {
    let address = match rng.below(8) {
        0..=2 => rng.below(memory + 1),
        3..=4 => memory.saturating_sub(rng.below(40)),
        5 => rng.word(),
        6 => 0u32.wrapping_sub(rng.between(1, 10) * 4),
        _ => 0,
    } & !3;
    let longwords = match rng.below(16) {
        0 => 0,
        1 => rng.pick(&[254, 255, 256, 257, 258, 300, 512, 513]),
        2 => rng.below(0x10001),
        _ => rng.below(12),
    };
    // A long memory is not read to its end.
    let longwords = if memory > 0x1000 { longwords.min(600) } else { longwords };
    let most = ((1 << 32) - u64::from(address)) / 4;
    (address, longwords.min(most.min(65_536) as u32))
}

/// How many packets the visit takes if nothing is wrong.
fn length_of(bench: &Bench, address: u32, longwords: u32) -> u32 {
    let mut bench = Bench { board: bench.board.clone(), memory: bench.memory.clone() };
    let mut visit = Visit::new(Table::new(address, longwords).unwrap_or(Table::NONE));
    let mut length = 0;
    while let Some(packet) = visit.next_packet() {
        visit.take(bench.board.packet(&mut bench.memory, packet).ok());
        length += 1;
    }
    length
}

fn place(rng: &mut Rng, length: u32) -> u32 {
    match rng.below(4) {
        0 => rng.between(1, length.min(30)),
        1 => length - rng.below(length.min(30)),
        _ => rng.between(1, length),
    }
}

fn word(rng: &mut Rng) -> u32 {
    match rng.below(4) {
        0 => rng.below(0x20000),
        _ => rng.pick(&WORDS),
    }
}

/// The lines of a fault.
fn fault(rng: &mut Rng, board: &Board, length: u32) -> Vec<String> {
    let at = place(rng, length);
    match rng.below(20) {
        0..=4 => {
            let from = if rng.once_in(3) { 1 } else { at };
            let earlier = if rng.once_in(2) { format!(" earlier {:05X}", word(rng)) } else { String::new() };
            let mut lag = vec![format!("from {from} lag {}{earlier}", rng.between(1, 24))];
            if rng.once_in(3) {
                lag.push(format!("from {} lag {}", from + rng.between(1, 12), rng.below(3)));
            }
            lag
        }
        5..=7 => vec![format!("at {at} answer reply {:05X}\\n", word(rng))],
        8..=9 => vec![format!("at {at} answer {}\\n", escape(&noise(rng, b"reply 0FFFF")))],
        10..=13 => {
            let from = if rng.once_in(2) { 1 } else { at };
            vec![format!("from {from} answer {}", typed(rng))]
        }
        // Not ready any more.
        14 => vec![format!("from {at} answer reply 10000\\n")],
        15 => vec![format!("from {at} answer reply {:05X}\\n", word(rng))],
        16 => vec![format!("at {at} answer reply {{X}}\\nreply {{X}}\\n")],
        17 => vec![format!("at {at} silent")],
        _ => {
            let line = match rng.below(6) {
                0..=1 => "breakpoint".to_string(),
                2 => format!("make {:X}", rng.below(16)),
                3 => format!("memory {:X}", rng.pick(&[0, 4, 0x20, 0x10000, 0x10001])),
                4 => format!("packet {:X}", legal_word(rng)),
                _ => event(rng, board),
            };
            vec![format!("at {at} do {line}")]
        }
    }
}

/// The reply as someone might type it.
fn typed(rng: &mut Rng) -> String {
    let lead = rng.pick(&["", "", " ", "\\t", " \\t ", "\\n", "# reply 0\\n", " \\t#\\r\\r\\n"]);
    let reply = rng.pick(&["reply", "REPLY", "Reply", "rEPLY"]);
    let gap = rng.pick(&[" ", " ", "\\t", "  ", " \\t "]);
    let prefix = rng.pick(&["", "", "0x", "0X", "0x000", "0000000000"]);
    let digits = rng.pick(&["{X}", "{x}"]);
    let trail = rng.pick(&["", "", " ", "\\t", " \\t"]);
    let end = rng.pick(&["\\n", "\\r", "\\r\\n", "\\n\\r", "\\r\\r\\n"]);
    format!("{lead}{reply}{gap}{prefix}{digits}{trail}{end}")
}
