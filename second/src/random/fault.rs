//! Accesses at the edge of memory, and what keeps or clears the address that wasn't there (02, [4]): with `state` about them.

use super::aim::{command, control_register, legal_word, memory_length, odd_word, size};
use super::breakpoints::event;
use super::pod::request;
use super::stand_in::send;
use super::Rng;
use crate::command::Size;
use crate::desk::{StandIn, Talk};
use crate::script::Writer;

/// Lengths that words and longwords straddle, none at all, and the most.
const EDGE_LENGTHS: [u32; 16] = [0, 1, 2, 3, 4, 5, 6, 7, 9, 10, 11, 65_533, 65_534, 65_535, 65_536, 65_536];

fn edge_length(rng: &mut Rng) -> u32 {
    match rng.below(4) {
        0 => memory_length(rng),
        1 => rng.between(1, 80),
        _ => rng.pick(&EDGE_LENGTHS),
    }
}

/// An address about the end of memory, mostly; about 65,536, about 2^32, anywhere.
fn edge_address(rng: &mut Rng, length: u32) -> u32 {
    match rng.below(10) {
        0 => 65_536u32.wrapping_add(rng.below(8)).wrapping_sub(4),
        1..=2 => 0u32.wrapping_sub(rng.between(1, 9)),
        3 => rng.word(),
        _ => length.wrapping_add(rng.below(9)).wrapping_sub(4),
    }
}

/// Where a chain begins that soon comes to the end of memory.
fn chain_start(rng: &mut Rng, length: u32) -> u32 {
    length.saturating_sub(rng.between(1, 9))
}

fn suffix(size: Size) -> &'static str {
    match size {
        Size::Byte => "b",
        Size::Word => "w",
        Size::Long => "l",
    }
}

/// For `stand_in`: a bus error, mostly, and then what may keep its address and what may not.
pub fn stand_in_fault(rng: &mut Rng, writer: &mut Writer<StandIn>) {
    if rng.percent(30) {
        writer.say(format!("memory {:X}", edge_length(rng)));
    }
    writer.drain();
    access(rng, writer);
    for _ in 0..rng.between(1, 4) {
        if rng.percent(60) {
            writer.say("state");
        }
        go_on(rng, writer);
    }
    writer.say("state");
}

/// READ or WRITE at the edge, or a chain over it.
fn access(rng: &mut Rng, writer: &mut Writer<StandIn>) {
    let length = writer.memory_length();
    let writes = rng.percent(50);
    let chained = rng.percent(50);
    let (begin, next) = if writes { (0x1800, 0x1C00) } else { (0x1900, 0x1D00) };
    let address = if chained { chain_start(rng, length) } else { edge_address(rng, length) };
    let first = size(rng);
    let mut words = vec![begin + u32::from(first.field()), address >> 16, address & 0xFFFF];
    words.extend(data(rng, first, writes));
    send(rng, writer, &words, 80);
    if chained {
        for _ in 0..rng.between(1, 4) {
            let size = size(rng);
            let mut words = vec![next + u32::from(size.field())];
            words.extend(data(rng, size, writes));
            send(rng, writer, &words, 80);
        }
    }
}

/// The data words of a WRITE or a FILL; none of the others.
fn data(rng: &mut Rng, size: Size, writes: bool) -> Vec<u32> {
    let words = if writes { size.words() } else { 0 };
    (0..words).map(|_| rng.pick(&[0, 0, 1, 0x1900, 0x19C0, 0x5AA5])).collect()
}

fn go_on(rng: &mut Rng, writer: &mut Writer<StandIn>) {
    match rng.below(20) {
        0..=7 => writer.packet(0),
        8 => writer.packet(0x0001),
        9 => writer.packet(0x1_0000),
        10 => writer.packet(u32::from(legal_word(rng)) | 0x1_0000),
        11 => writer.packet(u32::from(odd_word(rng))),
        12..=13 => {
            let first = rng.pick(&[0, 0, 1, 0xFFFF]);
            let second = if first == 0 { rng.pick(&[0, 1, 3, 0x800, 0x1801]) } else { control_register(rng) };
            let words = [rng.pick(&[0x2980, 0x2880]), first, second, 0, 1];
            let count = if words[0] == 0x2980 { 3 } else { 5 };
            send(rng, writer, &words[..count], 80);
        }
        14 => {
            let words = command(rng, writer.bench());
            send(rng, writer, &words, 40);
        }
        // Dropped at its first operand.
        15 => writer.packets(&[rng.pick(&[0x1900, 0x1880, 0x2080, 0x2980]), 0x1_0000]),
        16 => {
            let line = if rng.percent(50) { event(rng, writer.board()) } else { "breakpoint".to_string() };
            writer.say(line);
        }
        17 => writer.say(format!("memory {:X}", edge_length(rng))),
        18 => writer.packet(0x2_0000),
        _ => access(rng, writer),
    }
}

/// For `talk`, the same.
pub fn talk_fault(rng: &mut Rng, writer: &mut Writer<Talk>) {
    if rng.percent(30) {
        writer.say(format!("memory {:X}", edge_length(rng)));
    }
    ask_access(rng, writer);
    for _ in 0..rng.between(1, 3) {
        if rng.percent(60) {
            writer.say("state");
        }
        ask_on(rng, writer);
    }
    writer.say("state");
}

/// READ or WRITE at the edge, or a chain over it, as requests.
pub fn ask_access(rng: &mut Rng, writer: &mut Writer<Talk>) {
    let length = writer.memory_length();
    let writes = rng.percent(50);
    let chained = rng.percent(50);
    let address = if chained { chain_start(rng, length) } else { edge_address(rng, length) };
    let first = suffix(size(rng));
    let byte = rng.below(0x100);
    writer.say(if writes {
        format!("write.{first} {address:X} {byte:X}")
    } else {
        format!("read.{first} {address:X}")
    });
    if chained {
        for _ in 0..rng.between(1, 4) {
            let next = suffix(size(rng));
            let byte = rng.below(0x100);
            writer.say(if writes { format!("fill.{next} {byte:X}") } else { format!("dump.{next}") });
        }
    }
}

fn ask_on(rng: &mut Rng, writer: &mut Writer<Talk>) {
    match rng.below(16) {
        0..=6 => writer.say("nop"),
        7 => writer.say("sync_pc"),
        8 => writer.say(format!("rcreg {:X}", rng.pick(&[0, 1, 3, 0x800, 0xFFF]))),
        9 => writer.say(format!("wcreg {:X} 1", rng.pick(&[0, 1, 3, 0x800, 0xFFF]))),
        10 => writer.say(rng.pick(&["dump.b", "fill.b 0", "fill.w 1", "fill.l 19000000", "rdmreg 1"])),
        11 => writer.say(rng.pick(&["rdreg 10", "write.b 0 100", "make 10"])),
        12 => {
            let line = if rng.percent(50) { event(rng, writer.board()) } else { "breakpoint".to_string() };
            writer.say(line);
        }
        13 => writer.say(format!("memory {:X}", edge_length(rng))),
        14 => {
            let line = request(rng, writer.memory_length(), 24);
            writer.say(line);
        }
        _ => ask_access(rng, writer),
    }
}
