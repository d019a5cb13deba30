//! Chains of READ and DUMP, WRITE and FILL, and what ends them.

use super::Stored;
use crate::command::Size;
use crate::desk::StandIn;
use crate::script::Writer;

pub fn all() -> Vec<Stored> {
    vec![Stored::script("stand_in", "chains", &chains()), Stored::script("stand_in", "chains_sizes", &sizes())]
}

fn fresh(s: &mut Writer<StandIn>, w: u32) {
    s.say(format!("make {w:X}"));
    s.say("memory 20");
    s.say("bytes 0 000102030405060708090A0B0C0D0E0F101112131415161718191A1B1C1D1E1F");
}

/// What may stand between the beginning of a chain and its next command: a name and packets.
fn between() -> Vec<(&'static str, Vec<u32>)> {
    vec![
        ("nothing", vec![]),
        ("a NOP", vec![0x0000]),
        ("three NOPs", vec![0, 0, 0]),
        ("a NOP with C", vec![0x10000]),
        ("SYNC_PC", vec![0x0001]),
        ("GO", vec![0x0C00]),
        ("RDREG", vec![0x2180]),
        ("WDREG", vec![0x2080, 0, 0]),
        ("RCREG", vec![0x2980, 0, 0x801]),
        ("RCREG of no register", vec![0x2980, 0, 0x800]),
        ("WCREG", vec![0x2880, 0, 0x801, 0, 0]),
        ("RDMREG", vec![0x2D80]),
        ("RDMREG of no register", vec![0x2D81]),
        ("WDMREG", vec![0x2C8E, 0, 0]),
        ("WDMREG of no register", vec![0x2C81]),
        ("an illegal word", vec![0x19C0]),
        ("READ", vec![0x1900, 0, 0x10]),
        ("READ with a bus error", vec![0x1900, 0, 0x20]),
        ("READ dropped", vec![0x1900, 0x10000]),
        ("WRITE", vec![0x1800, 0, 0x10, 0x77]),
        ("WRITE with a bus error", vec![0x1800, 0, 0x20, 0x77]),
        ("WRITE dropped", vec![0x1800, 0, 0, 0x10077]),
        ("DUMP", vec![0x1D00]),
        ("DUMP with C", vec![0x11D00]),
        ("FILL", vec![0x1C00, 0x66]),
        ("FILL with C", vec![0x11C00]),
        ("FILL dropped", vec![0x1C00, 0x10066]),
    ]
}

fn chains() -> Vec<Vec<u8>> {
    let mut s = Writer::<StandIn>::new();
    s.comment("DUMP and FILL of each size on a fresh board");
    for size in Size::ALL {
        fresh(&mut s, 1);
        s.command(&[0x1D00 + u32::from(size.field())]);
        s.command(&[0x1C00 + u32::from(size.field())]);
        s.say("state");
    }
    let begins: [(&str, &[u32]); 2] = [("READ", &[0x1980, 0, 4]), ("WRITE", &[0x1840, 0, 4, 0x5152])];
    for (begin, words) in begins {
        for (name, packets) in between() {
            for w in [0, 2] {
                s.comment(&format!("{begin}, then {name}, then DUMP and FILL; W = {w}"));
                for next in [&[0x1D00][..], &[0x1C40, 0x6162][..]] {
                    fresh(&mut s, w);
                    s.command(words);
                    s.command(&packets);
                    s.command(next);
                    s.command(next);
                    s.say("peek 0 14");
                }
                s.say("state");
            }
        }
    }
    s.comment("A NOP alone leaves the chain: no packet between that is a command word");
    fresh(&mut s, 0);
    s.packets(&[0x1900, 0, 0, 0x1D00, 0x1D00, 0x1D00, 0x1D40, 0x1D80, 0x1FFFF, 0x1D00, 0x1D00, 0]);
    s.say("state");
    s.comment("Events, halts, the breakpoint input and refusals leave the chain");
    fresh(&mut s, 1);
    s.command(&[0x0C00]);
    s.command(&[0x1940, 0, 2]);
    for line in [
        "event 1000", "event 1001", "event 1000 0 60 0", "breakpoint", "breakpoint", "event 1000", "packet 20000",
        "make 10", "memory 10001", "packet 1D00", "memory 20",
    ] {
        s.say(line);
        s.say("state");
    }
    s.command(&[0x1D00]);
    s.comment("The bench writes under the chain: a DUMP reads what stands when its work is done");
    fresh(&mut s, 2);
    s.command(&[0x1900, 0, 0]);
    s.packet(0x1D80);
    s.say("bytes 0 F0F1F2F3");
    s.packet(0);
    s.say("bytes 0 E0E1E2E3");
    s.packet(0);
    s.say("bytes 0 D0D1D2D3");
    s.packets(&[0, 0, 0]);
    s.say("state");
    s.comment("A word in the place of the upper result's packet is ignored, and ends no chain");
    for ignored in [0x0000, 0x0001, 0x0C00, 0x10000, 0x1D00, 0x1C00, 0x19C0, 0x1FFFF] {
        fresh(&mut s, 0);
        s.packets(&[0x1980, 0, 0, ignored, 0x1D40, 0, 0]);
        s.say("state");
        fresh(&mut s, 2);
        s.packets(&[0x1980, 0, 0, ignored, ignored, ignored, 0x1D40, ignored, ignored, 0, 0]);
        s.say("state");
    }
    s.lines
}

fn sizes() -> Vec<Vec<u8>> {
    let mut s = Writer::<StandIn>::new();
    for begin in Size::ALL {
        for first in Size::ALL {
            for second in Size::ALL {
                for address in [0, 1, 2, 3, 5] {
                    s.comment(&format!("READ {begin:?} at {address}, DUMP {first:?}, DUMP {second:?}, DUMP Byte"));
                    fresh(&mut s, 0);
                    s.command(&[0x1900 + u32::from(begin.field()), 0, address]);
                    for size in [first, second, Size::Byte] {
                        s.command(&[0x1D00 + u32::from(size.field())]);
                    }
                    s.comment(&format!("WRITE {begin:?} at {address}, FILL {first:?}, FILL {second:?}, FILL Byte"));
                    let long = |size: Size, words: &mut Vec<u32>, value: u32| {
                        if size == Size::Long {
                            words.push(value ^ 0x0F0F);
                        }
                        words.push(value);
                    };
                    let mut words = vec![0x1800 + u32::from(begin.field()), 0, address];
                    long(begin, &mut words, 0xA1A2);
                    s.command(&words);
                    for (turn, size) in [first, second, Size::Byte].into_iter().enumerate() {
                        let mut words = vec![0x1C00 + u32::from(size.field())];
                        long(size, &mut words, 0xB1B2 + 0x1010 * turn as u32);
                        s.command(&words);
                    }
                    s.say("peek 0 18");
                }
            }
        }
        s.say("state");
    }
    s.lines
}
