//! Random scripts for `talk`.

use super::aim::memory_length;
use super::breakpoints::{debug_value, event, is_armed};
use super::fault::talk_fault;
use super::halt::{near_mark, talk_halt};
use super::noise::{bench_line, noise};
use super::pod::request;
use super::Rng;
use crate::board::Chain;
use crate::desk::Talk;
use crate::script::Writer;

pub fn talk_script(rng: &mut Rng, length: usize) -> Vec<Vec<u8>> {
    let mut writer = Writer::<Talk>::new();
    begin(rng, &mut writer);
    while writer.lines.len() < length {
        step(rng, &mut writer);
    }
    writer.lines.truncate(length);
    writer.lines
}

fn begin(rng: &mut Rng, writer: &mut Writer<Talk>) {
    writer.say(format!("make {:X}", rng.below(16)));
    writer.say(format!("memory {:X}", memory_length(rng)));
}

fn step(rng: &mut Rng, writer: &mut Writer<Talk>) {
    // Ground 3 is tried now and then, not for long.
    if writer.memory_length() > 65_536 && rng.once_in(3) {
        writer.say(format!("memory {:X}", rng.below(65_537)));
    }
    let length = writer.memory_length();
    match rng.below(121) {
        0..=39 => {
            // Ground 13 comes before ground 3.
            let wild = if length > 65_536 { 2 } else { 24 };
            let line = request(rng, length, wild);
            writer.say(line);
        }
        40..=54 => {
            // Along the chain that stands.
            let suffix = rng.pick(&["b", "w", "l"]);
            match writer.board().chain {
                Chain::Dump => writer.say(format!("dump.{suffix}")),
                Chain::Fill => writer.say(format!("fill.{suffix} {:X}", rng.below(0x100))),
                Chain::None => writer.say(format!("read.{suffix} {:X}", rng.below(length.max(1)))),
            }
        }
        55..=58 => breakpoint_setup(rng, writer),
        59..=79 => {
            if !is_armed(writer.board()) && rng.percent(40) {
                breakpoint_setup(rng, writer);
            }
            if writer.board().is_halted() && rng.percent(90) {
                writer.say("go");
            }
            let line = event(rng, writer.board());
            writer.say(line);
        }
        80..=93 => {
            let line = bench_line(rng, writer.bench());
            writer.say(line);
        }
        94..=102 => {
            let line = request(rng, length, 24);
            writer.say(noise(rng, line.as_bytes()));
        }
        103..=107 => talk_fault(rng, writer),
        108..=117 => talk_halt(rng, writer),
        118 => {
            let line = near_mark(rng, writer.board());
            writer.say(line);
        }
        119 => {
            let line = bench_line(rng, writer.bench());
            writer.say(noise(rng, line.as_bytes()));
        }
        _ => begin(rng, writer),
    }
}

fn breakpoint_setup(rng: &mut Rng, writer: &mut Writer<Talk>) {
    for n in [0x06, 0x08, 0x09, 0x0C, 0x0D, 0x0E, 0x0F, 0x00, 0x07] {
        if rng.percent(30) || n == 0x07 {
            writer.say(format!("wdmreg {n:X} {:X}", debug_value(rng, n)));
        }
    }
}
