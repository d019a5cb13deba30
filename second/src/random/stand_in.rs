//! Random scripts for `stand_in`.

use super::aim::{command, legal_word, memory_length, odd_word};
use super::breakpoints::{breakpoint_setup, event, is_armed};
use super::fault::stand_in_fault;
use super::halt::{near_mark, stand_in_halt};
use super::noise::{bench_line, noise};
use super::Rng;
use crate::desk::StandIn;
use crate::script::Writer;

pub fn stand_in_script(rng: &mut Rng, length: usize) -> Vec<Vec<u8>> {
    let mut writer = Writer::<StandIn>::new();
    if rng.percent(80) {
        begin(rng, &mut writer);
    }
    while writer.lines.len() < length {
        step(rng, &mut writer);
    }
    writer.lines.truncate(length);
    writer.lines
}

/// A fresh board and a memory with something in it.
fn begin(rng: &mut Rng, writer: &mut Writer<StandIn>) {
    let w = match rng.below(4) {
        0 => rng.below(16),
        _ => rng.below(3),
    };
    writer.say(format!("make {w:X}"));
    writer.say(format!("memory {:X}", memory_length(rng)));
    let length = writer.memory_length();
    for start in [0, length.saturating_sub(32)] {
        let n = (length - start).min(32);
        if n > 0 {
            let hex: String = (0..n).map(|_| format!("{:02X}", rng.below(0x100))).collect();
            writer.say(format!("bytes {start:X} {hex}"));
        }
    }
}

fn step(rng: &mut Rng, writer: &mut Writer<StandIn>) {
    // Ground 3 is tried now and then, not for long.
    if writer.memory_length() > 65_536 && rng.once_in(3) {
        writer.say(format!("memory {:X}", rng.below(65_537)));
    }
    match rng.below(120) {
        0..=44 => send_command(rng, writer),
        45..=49 => {
            for words in breakpoint_setup(rng) {
                send(rng, writer, &words, 200);
            }
        }
        50..=63 => send_events(rng, writer),
        64..=69 => stand_in_halt(rng, writer),
        70..=89 => {
            let line = bench_line(rng, writer.bench());
            writer.say(line);
        }
        90..=98 => {
            let line =
                if rng.percent(50) { bench_line(rng, writer.bench()) } else { format!("packet {:X}", legal_word(rng)) };
            writer.say(noise(rng, line.as_bytes()));
        }
        99..=101 => writer.packet(rng.below(0x2_0000)),
        102 => {
            let wide = rng.pick(&[0x2_0000, 0x2_0001, 0x3_0000, 0xFFFF_FFFF, 0x8000_0000]);
            writer.packet(wide);
        }
        103..=117 => stand_in_fault(rng, writer),
        118 => {
            let line = near_mark(rng, writer.board());
            writer.say(line);
        }
        _ => begin(rng, writer),
    }
}

fn send_command(rng: &mut Rng, writer: &mut Writer<StandIn>) {
    let words = command(rng, writer.bench());
    send(rng, writer, &words, 40);
}

/// Sends the words of a command, one in `spoil` of them spoilt, and goes on until the port rests, mostly.
pub fn send(rng: &mut Rng, writer: &mut Writer<StandIn>, words: &[u32], spoil: u32) {
    for &word in words {
        if rng.once_in(spoil) {
            match rng.below(4) {
                0 => writer.packet(u32::from(odd_word(rng))),
                1 => writer.packet(rng.below(0x2_0000)),
                _ => writer.packet(word | 0x1_0000),
            }
        } else {
            writer.packet(word);
        }
        if rng.once_in(60) {
            let line = bench_line(rng, writer.bench());
            writer.say(line);
        }
    }
    if rng.once_in(12) {
        return;
    }
    while !writer.board().is_at_rest() && writer.memory_length() <= 65_536 {
        // Where input is ignored anything may stand; where an operand is due it becomes one.
        let packet = match rng.below(8) {
            0 => rng.below(0x2_0000),
            1 => u32::from(legal_word(rng)),
            _ => 0,
        };
        writer.packet(packet);
        if rng.once_in(60) {
            let line = bench_line(rng, writer.bench());
            writer.say(line);
        }
    }
    for _ in 0..rng.below(3) {
        writer.packet(0);
    }
}

fn send_events(rng: &mut Rng, writer: &mut Writer<StandIn>) {
    for _ in 0..rng.between(1, 4) {
        if !is_armed(writer.board()) && rng.percent(50) {
            writer.drain();
            for words in breakpoint_setup(rng) {
                writer.packets(&words);
            }
        }
        if writer.board().is_halted() && rng.percent(95) {
            writer.drain();
            writer.packet(0x0C00);
        }
        let line = event(rng, writer.board());
        writer.say(line);
        if rng.once_in(8) {
            writer.say("state");
        }
    }
    if rng.once_in(6) {
        writer.say("breakpoint");
    }
}
