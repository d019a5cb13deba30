//! Request [8] of 02: each of the 65,536 words as a command word at rest; DUMP, FILL and their neighbours in chains.

use super::sequences::send;
use super::Stored;
use crate::command::CONTROL_REGISTERS;
use crate::desk::StandIn;
use crate::packets::ILLEGAL;
use crate::script::Writer;

pub fn all() -> Vec<Stored> {
    vec![
        Stored::script("stand_in", "every_word_halted", &every_word(HALTED)),
        Stored::script("stand_in", "every_word_running", &every_word(RUNNING)),
    ]
}

/// The board that takes the words.
#[derive(Clone, Copy)]
struct Setting {
    name: &'static str,
    halted: bool,
    w: u32,
}

const HALTED: Setting = Setting { name: "halted", halted: true, w: 0 };
const RUNNING: Setting = Setting { name: "running", halted: false, w: 2 };

/// What begins a chain.
const CHAINS: [(&str, &[u32]); 2] = [("READ", &[0x1900, 0, 4]), ("WRITE", &[0x1800, 0, 4, 0xF4])];

fn every_word(setting: Setting) -> Vec<Vec<u8>> {
    let mut s = Writer::<StandIn>::new();
    set_up(&mut s, setting);
    for upper in 0..0x100 {
        s.comment(&format!("Words {upper:02X}xx, {}", setting.name));
        for lower in 0..0x100 {
            take(&mut s, setting, upper << 8 | lower);
        }
    }
    for (begin, words) in CHAINS {
        for upper in (0..0x100).filter(|&upper| is_near_a_chain(upper)) {
            s.comment(&format!("{begin}, then a word {upper:02X}xx, {}", setting.name));
            for lower in (0..0x100).filter(|lower| matches!(upper, 0x1C | 0x1D) || [0x00, 0x40, 0x80].contains(lower)) {
                send(&mut s, words);
                take(&mut s, setting, upper << 8 | lower);
            }
        }
    }
    s.packet(0);
    show(&mut s);
    s.lines
}

/// The upper bytes of FILL and DUMP, 1C and 1D, and those with one other bit.
fn is_near_a_chain(upper: u32) -> bool {
    ((upper ^ 0x1C) & 0xFE).count_ones() <= 1
}

/// A board whose registers, control registers, debug registers and bytes of memory all differ.
fn set_up(s: &mut Writer<StandIn>, setting: Setting) {
    s.comment(&format!(
        "A {} board with W = {}, each register and byte with a value of its own",
        setting.name, setting.w
    ));
    s.say(format!("make {:X}", setting.w));
    s.say("memory 10");
    s.say("bytes 0 A0A1A2A3A4A5A6A7A8A9AAABACADAEAF");
    for n in 0..16 {
        send(s, &[0x2080 + n, 0xD000 + n, 0x0100 * n + 1]);
    }
    for rc in CONTROL_REGISTERS.map(u32::from) {
        send(s, &[0x2880, 0, rc, 0xC000 + (rc >> 8), rc]);
    }
    // AATR before BAAR, which it loads.
    for n in [0x00, 0x06, 0x05, 0x07, 0x08, 0x09, 0x0C, 0x0D, 0x0E, 0x0F] {
        send(s, &[0x2C80 + n, 0x89AB, 0xCDE0 + n]);
    }
    if !setting.halted {
        send(s, &[0x0C00]);
    }
    s.packet(0);
    show(s);
}

/// "Any other word .. is illegal: the next reply is 0x1FFFF and the port is at rest": the next word shows it. A legal
/// one has its operands, and what it did is shown.
fn take(s: &mut Writer<StandIn>, setting: Setting, word: u32) {
    s.packet(word);
    if s.board().next == ILLEGAL {
        return;
    }
    s.packets(&operands(word));
    s.drain();
    s.packet(0);
    show(s);
    if s.board().is_halted() != setting.halted {
        set_up(s, setting);
    }
}

/// The operand words that 01's table gives a word, with data that stand nowhere else.
fn operands(word: u32) -> Vec<u32> {
    match word {
        0x1900 | 0x1940 | 0x1980 => vec![0, 7],
        0x1800 | 0x1840 => vec![0, 7, 0xB1B2],
        0x1880 => vec![0, 7, 0xB3B4, 0xB5B6],
        0x1C00 | 0x1C40 => vec![0xF5F6],
        0x1C80 => vec![0xF7F8, 0xF9FA],
        0x2080..=0x208F | 0x2C80..=0x2C9F => vec![0xE000 + (word & 0xFF), word],
        0x2980 => vec![0, 0x801],
        0x2880 => vec![0, 0x801, 0xC1C2, 0xC3C4],
        _ => vec![],
    }
}

fn show(s: &mut Writer<StandIn>) {
    s.say("state");
    s.say("peek 0 10");
}

#[cfg(test)]
mod tests {
    use super::*;
    use crate::desk::Program;
    use std::collections::BTreeSet;

    /// The words taken at rest, once the processor is as it shall be, and those of them that were legal at least once.
    fn words(setting: Setting) -> (BTreeSet<u32>, BTreeSet<u32>) {
        let mut program = StandIn::new();
        let (mut taken, mut legal) = (BTreeSet::new(), BTreeSet::new());
        for line in every_word(setting) {
            let board = &program.bench.board;
            let counts = board.is_at_rest() && board.is_halted() == setting.halted;
            program.answer(&line);
            let line = String::from_utf8(line).unwrap();
            if let (true, Some(word)) = (counts, line.strip_prefix("packet ")) {
                let word = u32::from_str_radix(word, 16).unwrap();
                taken.insert(word);
                if program.bench.board.next != ILLEGAL {
                    legal.insert(word);
                }
            }
        }
        (taken, legal)
    }

    /// 01's table has 60 words: 16 each of RDREG and WDREG, 3 each of READ, WRITE, DUMP and FILL, 10 of WDMREG, and GO,
    /// NOP, SYNC_PC, RCREG, WCREG, RDMREG. 35 of them are for a halted processor.
    #[test]
    fn every_word_is_taken_and_those_of_the_table_are_legal() {
        for (setting, count) in [(HALTED, 60), (RUNNING, 60 - 35)] {
            let (taken, legal) = words(setting);
            assert!(taken.into_iter().eq(0..0x1_0000), "{}", setting.name);
            assert_eq!(legal.len(), count, "{}", setting.name);
        }
    }
}
