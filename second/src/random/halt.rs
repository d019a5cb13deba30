//! Events marked as HALT (02, [6]), UHE set and cleared, and a look at CSR soon after; marks that are none.

use super::aim::command;
use super::breakpoints::{breakpoint_setup, csr_value, debug_value, unmarked_event};
use super::Rng;
use crate::board::Board;
use crate::desk::{StandIn, Talk};
use crate::script::Writer;

/// What stands at the end of an event: a mark in so many of a hundred, mostly in user mode; or nothing.
pub fn mark(rng: &mut Rng, percent: u32) -> &'static str {
    if !rng.percent(percent) {
        ""
    } else if rng.once_in(3) {
        " halt supervisor"
    } else {
        " halt user"
    }
}

/// Ends of an event line that are no mark, or only just.
const NEAR_MARKS: [&[u8]; 38] = [
    b" halt", b" user", b" supervisor", b" halt halt", b" user halt", b" supervisor halt", b" halt user user",
    b" halt user halt user", b" halt supervisor halt user", b" halt supervisor halt supervisor",
    b" halt user supervisor", b" halt halt user", b" halt user 0", b" 0 halt user", b" halt supervisor 0", b" halt 0",
    b" halt 1", b" halt 0x0", b" haltuser", b"halt user", b" halts user", b" hal user", b" halt users", b" halt use",
    b" halt superviso", b" halt supervisors", b" halt superviser", b" halt none", b" 0xhalt user", b" halt 0xuser",
    b" halt\xA0user", b" halt\x0Buser", b" halt,user", b" halt user #", b" halt #user", b"\thalt \tuser\t",
    b" HALT SUPERVISOR", b" Halt\tUser",
];

/// A line with a mark that is none, or only just: spelt otherwise, incomplete, doubled, in the middle.
pub fn near_mark(rng: &mut Rng, board: &Board) -> Vec<u8> {
    let line = unmarked_event(rng, board);
    if rng.once_in(4) {
        let mark = rng.pick(&["halt user", "halt supervisor", "halt"]);
        let mut words: Vec<&str> = line.split(' ').collect();
        words.insert(rng.below(words.len() as u32) as usize, mark);
        return words.join(" ").into_bytes();
    }
    [line.as_bytes(), rng.pick(&NEAR_MARKS)].concat()
}

/// A trigger that most events fire, at one level or two; mostly it halts.
fn trigger_by_pc(rng: &mut Rng) -> u32 {
    rng.pick(&[0, 1, 1, 1, 2, 3]) << 30 | rng.pick(&[0x2002, 0x2002, 0x2002_2002])
}

/// An event of a program that runs HALT, seldom one with a mark that is none.
fn event_line(rng: &mut Rng, board: &Board) -> Vec<u8> {
    if rng.once_in(8) {
        return near_mark(rng, board);
    }
    let line = unmarked_event(rng, board);
    (line + mark(rng, 85)).into_bytes()
}

/// For `stand_in`: a program that runs HALT, with what else may halt it or hand something out, and a look at what it did.
pub fn stand_in_halt(rng: &mut Rng, writer: &mut Writer<StandIn>) {
    writer.drain();
    if rng.percent(70) {
        let csr = csr_value(rng);
        writer.packets(&[0x2C80, csr >> 16, csr & 0xFFFF]);
    }
    match rng.below(4) {
        0 => {
            for words in breakpoint_setup(rng) {
                writer.packets(&words);
            }
        }
        1..=2 => {
            let tdr = trigger_by_pc(rng);
            writer.packets(&[0x2C87, tdr >> 16, tdr & 0xFFFF]);
        }
        _ => {}
    }
    for _ in 0..rng.between(1, 4) {
        writer.drain();
        if rng.percent(25) {
            writer.packet(0x0001);
        }
        if writer.board().is_halted() && rng.percent(95) {
            writer.packet(0x0C00);
        }
        if rng.once_in(6) {
            // A command stays under way.
            let words = command(rng, writer.bench());
            let sent = rng.between(1, words.len() as u32) as usize;
            writer.packets(&words[..sent]);
        }
        let line = event_line(rng, writer.board());
        writer.say(line);
        look(rng, writer);
    }
}

fn look(rng: &mut Rng, writer: &mut Writer<StandIn>) {
    match rng.below(10) {
        0..=2 => writer.packets(&[0x2D80, 0, 0]),
        3..=5 => writer.say("state"),
        // GO clears HALT; it is illegal where nothing has halted.
        6 => writer.packets(&[0x0C00, 0x2D80, 0, 0]),
        7 => writer.say("breakpoint"),
        8 => writer.packets(&[0x2180, 0]),
        _ => {
            // UHE alone is turned round.
            let csr = writer.board().csr ^ 0x400;
            writer.packets(&[0x2C80, csr >> 16, csr & 0xFFFF]);
        }
    }
}

/// For `talk`, the same.
pub fn talk_halt(rng: &mut Rng, writer: &mut Writer<Talk>) {
    if rng.percent(70) {
        writer.say(format!("wdmreg 0 {:X}", csr_value(rng)));
    }
    match rng.below(4) {
        0 => {
            for n in [0x08, 0x09, 0x07] {
                writer.say(format!("wdmreg {n:X} {:X}", debug_value(rng, n)));
            }
        }
        1..=2 => writer.say(format!("wdmreg 7 {:X}", trigger_by_pc(rng))),
        _ => {}
    }
    for _ in 0..rng.between(1, 3) {
        if rng.percent(25) {
            writer.say("sync_pc");
        }
        if writer.board().is_halted() && rng.percent(95) {
            writer.say("go");
        }
        let line = event_line(rng, writer.board());
        writer.say(line);
        match rng.below(8) {
            0..=3 => writer.say("rdmreg 0"),
            4 => writer.say("state"),
            5 => writer.say("go"),
            6 => writer.say("breakpoint"),
            _ => writer.say(format!("wdmreg 0 {:X}", writer.board().csr ^ 0x400)),
        }
    }
}
