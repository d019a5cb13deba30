//! Random files for `waits`: requests and the memory they find. Many words are illegal, so that commands are left half sent.

use super::aim::{datum, legal_word, memory_length, odd_word};
use super::fault::ask_access;
use super::noise::noise;
use super::pod::request;
use super::typing::typed_script;
use super::Rng;
use crate::board::Chain;
use crate::desk::{Talk, FILE_LIMIT};
use crate::line::LINE_LIMIT;
use crate::script::Writer;

/// The lines of a file, each with its end; the last may lack it. One file in three has a line that is none, or two.
pub fn waits_file(rng: &mut Rng, length: usize) -> Vec<Vec<u8>> {
    let mut lines = clear_lines(rng, length);
    if rng.once_in(3) {
        for _ in 0..rng.between(1, 2) {
            let line = stray_line(rng, &lines);
            lines.insert(rng.below(lines.len() as u32 + 1) as usize, line);
        }
    }
    let mut lines = typed_script(rng, lines);
    if rng.once_in(12) {
        fill_up(rng, &mut lines);
    }
    lines
}

/// Lines that are all taken, without their ends.
pub fn clear_lines(rng: &mut Rng, length: usize) -> Vec<Vec<u8>> {
    let mut writer = Writer::<Talk>::new();
    if rng.percent(90) {
        writer.say(format!("memory {:X}", memory_length(rng)));
    }
    // Nothing halts the processor again, so it is not let go too soon.
    let go = if rng.percent(50) { rng.below(length as u32) as usize } else { length };
    while writer.lines.len() < length {
        if writer.lines.len() >= go && writer.board().is_halted() {
            writer.say("go");
        }
        step(rng, &mut writer);
    }
    writer.lines.truncate(length);
    writer.lines
}

fn step(rng: &mut Rng, writer: &mut Writer<Talk>) {
    // Ground 3 is tried now and then, not for long.
    if writer.memory_length() > 65_536 && rng.once_in(3) {
        writer.say(format!("memory {:X}", rng.below(65_537)));
    }
    let length = writer.memory_length();
    match rng.below(100) {
        0..=34 => {
            // Ground 13 comes before ground 3.
            let wild = if length > 65_536 { 2 } else { 24 };
            let line = request(rng, length, wild);
            writer.say(if line == "go" { "nop".to_string() } else { line });
        }
        35..=49 => follow_chain(rng, writer),
        50..=62 => leave_half_sent(rng, writer),
        63..=74 => ask_access(rng, writer),
        75..=81 => put_bytes(rng, writer),
        82..=84 => writer.say(format!("memory {:X}", memory_length(rng))),
        85..=88 => writer.say(rng.pick(&["rdmreg 0", "rdmreg 0", "sync_pc", "nop", "rdreg 0"])),
        89..=91 => {
            let response = rng.pick(&[0, 0x2000, 0x4000_2002, 0x2004_2002, 0x2000_0000]);
            writer.say(format!("wdmreg {:X} {response:X}", rng.pick(&[0, 6, 7, 7])));
        }
        92..=96 => {
            let rc = rng.pick(&[0x000, 0x002, 0x003, 0x801, 0x80F, 0xC04, 0xFFF]);
            let value = datum(rng);
            let line = if rng.percent(50) { format!("wcreg {rc:X} {value:X}") } else { format!("rcreg {rc:X}") };
            writer.say(line);
        }
        _ => writer.say(rng.pick(&["", "# state", " ", "\t# make 1", "#"])),
    }
}

/// Along the chain that stands.
fn follow_chain(rng: &mut Rng, writer: &mut Writer<Talk>) {
    let suffix = rng.pick(&["b", "w", "l"]);
    let length = writer.memory_length();
    match writer.board().chain {
        Chain::Dump => writer.say(format!("dump.{suffix}")),
        Chain::Fill => writer.say(format!("fill.{suffix} {:X}", rng.below(0x100))),
        Chain::None if rng.percent(50) => writer.say(format!("read.{suffix} {:X}", rng.below(length.max(1)))),
        Chain::None => writer.say(format!("write.{suffix} {:X} {:X}", rng.below(length.max(1)), rng.below(0x100))),
    }
}

/// An illegal command word, whose first operand word is taken as a command: mostly one that has operands itself. Then
/// something that comes between, or nothing.
fn leave_half_sent(rng: &mut Rng, writer: &mut Writer<Talk>) {
    let word = match rng.below(8) {
        0 => odd_word(rng),
        1 => legal_word(rng),
        2 => 0x1800 + rng.pick(&[0x00, 0x40, 0x80]),
        3 => 0x1900 + rng.pick(&[0x00, 0x40, 0x80]),
        4 => rng.pick(&[0x2880, 0x2980]),
        5 => rng.pick(&[0x2080, 0x208F, 0x2C80, 0x2C86, 0x2C87]),
        6 => rng.pick(&[0x0001, 0x2180, 0x2D80]),
        _ => rng.pick(&[0x1C00, 0x1C80, 0x1D00, 0x1D80]),
    };
    let longword = u32::from(word) << 16 | u32::from(legal_word(rng));
    let running = !writer.board().is_halted();
    let filling = writer.board().chain == Chain::Fill;
    match rng.below(4) {
        0 if running => writer.say(format!("wdreg {:X} {longword:X}", rng.below(16))),
        1 if !filling => writer.say(format!("fill.w {word:X}")),
        2 if !filling => writer.say(format!("fill.l {longword:X}")),
        _ => writer.say(format!("wdmreg {:X} {longword:X}", rng.pick(&[1, 2, 3, 4, 0xA, 0xB, 0x10, 0x1F]))),
    }
    match rng.below(6) {
        0 => writer.say(format!("memory {:X}", memory_length(rng))),
        1 => put_bytes(rng, writer),
        2 => writer.say(rng.pick(&["rdreg 10", "fill.b 100", "rcreg 1000", "nop", "rdmreg 0"])),
        _ => {}
    }
}

/// Bytes that fit; where there is no memory, some is lent before.
fn put_bytes(rng: &mut Rng, writer: &mut Writer<Talk>) {
    if writer.memory_length() == 0 {
        writer.say(format!("memory {:X}", rng.between(1, 80)));
    }
    let length = writer.memory_length();
    let count = rng.between(1, length.min(12));
    let last = length - count;
    let address = if rng.percent(30) { last } else { rng.below(last.min(64) + 1) };
    let bytes: String = (0..count).map(|_| format!("{:02X}", rng.below(0x100))).collect();
    writer.say(format!("bytes {address:X} {bytes}"));
}

/// Lines of `talk` and `stand_in` that are none here, and some that are none anywhere.
const OTHER_LINES: [&str; 20] = [
    "make 0", "make F", "event 1000", "event 1000 0 5 0", "breakpoint", "peek 0 1", "state", "STATE", "packet 0",
    "help", "quit", "Quit", "build nop", "memory", "memory 10011", "bytes 0", "bytes FFFF0000 00", "dump.b 0",
    "rdreg 100000000", "nop nop",
];

/// A line that is none, mostly; or one of the file's spoilt, and then it may still be one.
fn stray_line(rng: &mut Rng, lines: &[Vec<u8>]) -> Vec<u8> {
    let line: &[u8] = match lines.get(rng.below(lines.len() as u32 + 1) as usize) {
        Some(line) if !line.is_empty() => line,
        _ => b"read.b 0",
    };
    match rng.below(10) {
        0..=5 => rng.pick(&OTHER_LINES).into(),
        // As long as a line may be, or just not.
        6 => {
            let blanks = vec![rng.pick(b" \t"); (LINE_LIMIT + rng.below(2) as usize).saturating_sub(line.len())];
            if rng.percent(50) {
                [&blanks, line].concat()
            } else {
                [line, &blanks].concat()
            }
        }
        _ => noise(rng, line),
    }
}

/// A comment before the last line, so that the file is as long as it may be, or just not.
fn fill_up(rng: &mut Rng, lines: &mut Vec<Vec<u8>>) {
    let length = FILE_LIMIT + rng.below(3) as usize - 1;
    let missing = length.saturating_sub(lines.concat().len());
    if missing >= 2 {
        let comment = [b"#".to_vec(), vec![b'-'; missing - 2], b"\n".to_vec()].concat();
        lines.insert(lines.len().saturating_sub(1), comment);
    }
}
