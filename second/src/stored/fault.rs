//! Request [4] of 02: the lowest address that isn't there, for every command, size and alignment about the end of memory, and
//! what keeps and clears it.

use super::unclear::REQUESTS;
use super::Stored;
use crate::command::{Size, CONTROL_REGISTERS};
use crate::desk::{StandIn, Talk};
use crate::script::Writer;

pub fn all() -> Vec<Stored> {
    vec![
        Stored::script("stand_in", "fault_w0", &accesses(0, &LENGTHS)),
        Stored::script("stand_in", "fault_w2", &accesses(2, &FEW_LENGTHS)),
        Stored::script("stand_in", "fault_chained_w0", &chained(0, &LENGTHS)),
        Stored::script("stand_in", "fault_chained_w1", &chained(1, &FEW_LENGTHS)),
        Stored::script("stand_in", "fault_other_memory", &other_memory()),
        Stored::script("stand_in", "fault_until", &until()),
        Stored::script("stand_in", "fault_words", &words_at_rest()),
        Stored::script("stand_in", "fault_control", &control()),
        Stored::script("talk", "fault_w0", &requests(0, &LENGTHS)),
        Stored::script("talk", "fault_wF", &requests(15, &FEW_LENGTHS)),
        Stored::script("talk", "fault_until", &until_requests()),
    ]
}

/// Memory that is all multiples of 4 and not, none at all, and the most.
const LENGTHS: [u32; 11] = [0, 1, 2, 3, 4, 5, 6, 7, 65_534, 65_535, 65_536];
const FEW_LENGTHS: [u32; 4] = [0, 3, 6, 65_536];

/// READ, WRITE, DUMP and FILL.
#[derive(Clone, Copy)]
enum Kind {
    Read,
    Write,
    Dump,
    Fill,
}

/// The command and operand words; the address is that of READ and WRITE.
fn words(kind: Kind, size: Size, address: u32) -> Vec<u32> {
    let (word, addressed, data) = match kind {
        Kind::Read => (0x1900, true, false),
        Kind::Write => (0x1800, true, true),
        Kind::Dump => (0x1D00, false, false),
        Kind::Fill => (0x1C00, false, true),
    };
    let mut words = vec![word + u32::from(size.field())];
    if addressed {
        words.extend([address >> 16, address & 0xFFFF]);
    }
    if data {
        words.extend([0xA1A2, 0xB1B2].iter().take(usize::from(size.words())));
    }
    words
}

/// The addresses about the end of a memory, and the last ones of all.
fn addresses(length: u32) -> Vec<u32> {
    let mut addresses: Vec<u32> = (0..7).map(|i| (length + i).wrapping_sub(4)).collect();
    if FEW_LENGTHS.contains(&length) {
        addresses.extend([0x8000_0003, 0xFFFF_FFFF]);
    }
    addresses
}

/// A command until its work is done; what carries its reply out is the next packet.
fn act(s: &mut Writer<StandIn>, words: &[u32]) {
    s.packets(words);
    s.drain();
}

fn accesses(w: u32, lengths: &[u32]) -> Vec<Vec<u8>> {
    let mut s = Writer::<StandIn>::new();
    s.say(format!("make {w:X}"));
    for &length in lengths {
        for size in Size::ALL {
            for (name, kind) in [("READ", Kind::Read), ("WRITE", Kind::Write)] {
                s.comment(&format!("{length} bytes of memory: {name} {size:?} about its end, W = {w}"));
                s.say(format!("memory {length:X}"));
                for address in addresses(length) {
                    act(&mut s, &words(kind, size, address));
                    s.say("state");
                }
            }
        }
    }
    s.lines
}

fn chained(w: u32, lengths: &[u32]) -> Vec<Vec<u8>> {
    let mut s = Writer::<StandIn>::new();
    s.say(format!("make {w:X}"));
    for &length in lengths.iter().filter(|&&length| length > 0) {
        for size in Size::ALL {
            for (name, begin, next) in [("DUMP", Kind::Read, Kind::Dump), ("FILL", Kind::Write, Kind::Fill)] {
                s.comment(&format!("{length} bytes of memory: {name} {size:?} over its end, W = {w}"));
                s.say(format!("memory {length:X}"));
                for back in 1..=length.min(3) {
                    act(&mut s, &words(begin, Size::Byte, length - back));
                    // Until there is an address, and one more, which is illegal.
                    while s.board().fault().is_none() {
                        act(&mut s, &words(next, size, 0));
                    }
                    s.say("state");
                    act(&mut s, &words(next, size, 0)[..1]);
                    s.say("state");
                }
            }
        }
    }
    s.lines
}

/// The work uses the memory lent with its packet, which may end anywhere about the pointer or the address.
fn other_memory() -> Vec<Vec<u8>> {
    let mut s = Writer::<StandIn>::new();
    for size in Size::ALL {
        for (begin, next) in [(Kind::Read, Kind::Dump), (Kind::Write, Kind::Fill)] {
            for pointer in [5, 8] {
                s.comment(&format!("Other memory under a chain, its pointer {pointer}, {size:?}"));
                s.say("make 0");
                for length in [0, 4, 5, 6, 7, 8, 9, 11] {
                    s.say("memory 10");
                    act(&mut s, &words(begin, Size::Byte, pointer - 1));
                    s.say(format!("memory {length:X}"));
                    act(&mut s, &words(next, size, 0));
                    s.say("state");
                }
            }
        }
        for kind in [Kind::Read, Kind::Write] {
            s.comment(&format!("Other memory while a command waits, at 6, {size:?}"));
            s.say("make 2");
            for (first, second) in [(16, 0), (5, 7), (7, 5), (65_537, 6), (6, 65_536)] {
                s.say("memory 10");
                s.packets(&words(kind, size, 6));
                s.say(format!("memory {first:X}"));
                s.packet(0);
                s.say("state");
                s.say(format!("memory {second:X}"));
                s.drain();
                s.say("state");
            }
        }
    }
    s.lines
}

/// What may follow a bus error: a name and lines.
fn following() -> Vec<(String, Vec<String>)> {
    let packets = |packets: &[u32]| packets.iter().map(|packet| format!("packet {packet:X}")).collect::<Vec<_>>();
    let mut following: Vec<(String, Vec<String>)> = [
        ("NOP", &[0x0000][..]),
        ("ten NOPs", &[0; 10]),
        ("SYNC_PC", &[0x0001]),
        ("NOP with C", &[0x10000]),
        ("SYNC_PC with C", &[0x10001]),
        ("all ones", &[0x1FFFF]),
        ("an illegal word", &[0x19C0]),
        ("an illegal word, all ones", &[0xFFFF]),
        ("RDMREG of no register", &[0x2D81]),
        ("WDMREG of no register", &[0x2C81]),
        ("GO", &[0x0C00]),
        ("RDREG", &[0x2180]),
        ("RDREG, NOP ignored", &[0x2180, 0]),
        ("RDREG, SYNC_PC ignored", &[0x2180, 1]),
        ("WDREG under way", &[0x2080, 0]),
        ("WDREG", &[0x2080, 0, 0]),
        ("WDREG dropped", &[0x2080, 0, 0x10000]),
        ("RDMREG", &[0x2D80]),
        ("WDMREG", &[0x2C8E, 1, 1]),
        ("RCREG", &[0x2980, 0, 0x801]),
        ("WCREG", &[0x2880, 0, 0x801, 0, 0]),
        ("RCREG of no register", &[0x2980, 0, 0x003]),
        ("WCREG of no register", &[0x2880, 0, 0x003, 0, 0]),
        ("READ under way", &[0x1980]),
        ("READ dropped", &[0x1980, 0, 0x10000]),
        ("READ", &[0x1980, 0, 4]),
        ("WRITE", &[0x1840, 0, 4, 0]),
        ("DUMP", &[0x1D00]),
        ("FILL", &[0x1C00]),
        ("READ at a higher address", &[0x1900, 0xFFFF, 0xFFFF]),
        ("WRITE at a lower address", &[0x1880, 0, 7, 0, 0]),
        ("packets that are refused", &[0x20000, 0x20001, 0xFFFF_FFFF]),
    ]
    .iter()
    .map(|(name, words)| (name.to_string(), packets(words)))
    .collect();
    for lines in [
        &["event 1000"][..],
        &["event 1001"],
        &["event 1000 0 60 0"],
        &["breakpoint"],
        &["memory 0"],
        &["memory 10000"],
        &["memory 10001", "packet 1", "packet 0", "memory 6"],
        &["bytes 0 FF"],
        &["peek 0 1"],
        &["make 10"],
        &["make 1"],
        &["packet 100000000", "packet", "packets 1"],
        &["help"],
    ] {
        following.push((lines[0].to_string(), lines.iter().map(|line| line.to_string()).collect()));
    }
    following
}

fn until() -> Vec<Vec<u8>> {
    let mut s = Writer::<StandIn>::new();
    // 6 bytes, and what isn't there is 6, 8, 6 and 6.
    let begins: [(&str, Vec<Vec<u32>>); 4] = [
        ("READ", vec![words(Kind::Read, Size::Long, 4)]),
        ("WRITE", vec![words(Kind::Write, Size::Word, 9)]),
        ("DUMP", vec![words(Kind::Read, Size::Byte, 5), words(Kind::Dump, Size::Byte, 0)]),
        ("FILL", vec![words(Kind::Write, Size::Byte, 5), words(Kind::Fill, Size::Long, 0)]),
    ];
    for (place, (name, lines)) in following().iter().enumerate() {
        for (running, w, (begin, commands)) in [(false, 0, &begins[place % 2]), (true, 3, &begins[2 + place % 2])] {
            let processor = if running { "running" } else { "halted" };
            s.comment(&format!("{begin} with a bus error, then {name}; W = {w}, {processor}"));
            s.say(format!("make {w:X}"));
            s.say("memory 6");
            if running {
                s.command(&[0x0C00]);
            }
            for words in commands {
                act(&mut s, words);
            }
            if w > 0 {
                s.packet(0);
            }
            s.say("state");
            for line in lines {
                s.say(line.as_str());
                s.say("state");
            }
            s.drain();
            s.say("state");
            s.packet(0);
            s.say("state");
        }
    }
    s.lines
}

/// Words about NOP's and the table's, with C and without, each after a bus error of its own.
fn words_at_rest() -> Vec<Vec<u8>> {
    let mut s = Writer::<StandIn>::new();
    let mut all: Vec<u32> = (0..=16).map(|bit| 1 << bit).collect();
    all.extend([0x0000, 0x0003, 0xFFFF]);
    for word in [0x0C00, 0x2080, 0x218F, 0x2880, 0x2980, 0x2C80, 0x2C87, 0x2D80] {
        all.extend([word, word + 1]);
    }
    for word in [0x1800, 0x1900, 0x1C00, 0x1D00] {
        all.extend([word, word + 0x40, word + 0x80, word + 0xC0]);
    }
    all.extend(all.clone().iter().map(|word| word | 0x10000));
    all.sort_unstable();
    all.dedup();
    s.comment("Every word but NOP's clears the address, and NOP's word with C does too");
    for word in all {
        s.say("make 0");
        act(&mut s, &words(Kind::Read, Size::Byte, 0x1_2340 + (word & 0xF)));
        s.packet(word);
        s.say("state");
    }
    s.lines
}

fn control() -> Vec<Vec<u8>> {
    let mut s = Writer::<StandIn>::new();
    let mut registers: Vec<(u32, u32)> = vec![(0, 0), (0, 1), (0, 0x800), (0, 0x1801), (0, 0xFFFF), (0xFFFF, 0)];
    registers.extend(CONTROL_REGISTERS.map(|rc| (1, u32::from(rc))));
    for w in [0, 3] {
        s.comment(&format!("RCREG and WCREG with a bus error on a fresh board, and after READ's; W = {w}"));
        s.say(format!("make {w:X}"));
        s.say("memory 0");
        s.say("state");
        for &(first, second) in &registers {
            for words in [&[0x2980, first, second][..], &[0x2880, first, second, 0, 0]] {
                act(&mut s, words);
                s.say("state");
            }
        }
        for &(first, second) in registers.iter().step_by(3) {
            for control in [&[0x2980, first, second][..], &[0x2880, first, second, 0, 0]] {
                act(&mut s, &words(Kind::Read, Size::Byte, second));
                s.say("state");
                s.packet(control[0]);
                s.say("state");
                act(&mut s, &control[1..]);
                s.say("state");
                s.packet(0);
                s.say("state");
            }
        }
    }
    s.lines
}

const SUFFIXES: [&str; 3] = ["b", "w", "l"];

fn requests(w: u32, lengths: &[u32]) -> Vec<Vec<u8>> {
    let mut s = Writer::<Talk>::new();
    s.say(format!("make {w:X}"));
    for &length in lengths {
        for size in SUFFIXES {
            s.comment(&format!("{length} bytes of memory: read.{size} and write.{size} about its end, W = {w}"));
            s.say(format!("memory {length:X}"));
            for address in addresses(length) {
                s.say(format!("read.{size} {address:X}"));
                s.say("state");
                s.say(format!("write.{size} {address:X} 5A"));
                s.say("state");
            }
            s.comment(&format!("{length} bytes of memory: dump.{size} and fill.{size} over its end, W = {w}"));
            for back in 1..=length.min(2) {
                for (begin, next) in [("read.b", format!("dump.{size}")), ("write.b", format!("fill.{size} A5"))] {
                    let datum = if begin == "write.b" { " 5A" } else { "" };
                    s.say(format!("{begin} {:X}{datum}", length - back));
                    while s.board().fault().is_none() {
                        s.say(next.as_str());
                    }
                    s.say("state");
                    s.say("nop");
                    s.say("state");
                }
            }
        }
    }
    s.lines
}

fn until_requests() -> Vec<Vec<u8>> {
    let mut s = Writer::<Talk>::new();
    let others = [
        "rcreg 3", "rcreg 0", "wcreg 3 0", "rdmreg 1", "wdmreg 1 19000000", "read.b FFFFFFFF", "write.l 7 0",
        "fill.w 1900", "fill.w 1", "fill.l 19000000", "rdreg 10", "write.b 0 100", "event 1000", "breakpoint",
        "memory 4", "memory 10001", "peek 0 1", "make 10", "make 2",
    ];
    for (processor, w) in [("halted", 0), ("running", 5)] {
        s.comment(&format!("After a bus error each request, and other lines; W = {w}, {processor}"));
        for request in REQUESTS.iter().chain(&others) {
            s.say(format!("make {w:X}"));
            s.say("memory 6");
            if processor == "running" {
                s.say("go");
            }
            s.say("read.l 5");
            s.say(*request);
            s.say("state");
            s.say("memory 6");
            s.say("nop");
            s.say("state");
        }
    }
    s.lines
}
