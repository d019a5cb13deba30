//! Boundaries of memory and address, and the grounds that lines can reach through them.

use super::Stored;
use crate::command::Size;
use crate::desk::StandIn;
use crate::script::Writer;

const LENGTHS: [u32; 12] = [0, 1, 2, 3, 4, 5, 15, 16, 17, 65_534, 65_535, 65_536];

pub fn all() -> Vec<Stored> {
    vec![
        Stored::script("stand_in", "boundaries", &boundaries()),
        Stored::script("stand_in", "boundaries_chained", &chained()),
        Stored::script("stand_in", "refusals", &refusals()),
    ]
}

/// Addresses about the end of a memory, about 65,536 and about 2^32.
fn addresses(length: u32) -> Vec<u32> {
    let mut addresses: Vec<u32> = (0..7).map(|i| length.wrapping_add(i).wrapping_sub(5)).collect();
    addresses.extend([0, 1, 0xFFFC, 0xFFFF, 0x1_0000, 0x1_0001, 0x8000_0000]);
    addresses.extend([0xFFFF_FFFB, 0xFFFF_FFFC, 0xFFFF_FFFD, 0xFFFF_FFFE, 0xFFFF_FFFF]);
    addresses.sort_unstable();
    addresses.dedup();
    addresses
}

/// Marks the last bytes of memory so that a read shows where it was.
fn mark_end(s: &mut Writer<StandIn>) {
    let length = s.memory_length();
    let n = length.min(8);
    if n > 0 {
        let hex: String = (0..n).map(|i| format!("{:02X}", 0xA0 + i)).collect();
        s.say(format!("bytes {:X} {hex}", length - n));
    }
}

fn peek_end(s: &mut Writer<StandIn>) {
    let length = s.memory_length();
    let n = length.min(8);
    if n > 0 {
        s.say(format!("peek {:X} {n:X}", length - n));
    }
}

fn boundaries() -> Vec<Vec<u8>> {
    let mut s = Writer::<StandIn>::new();
    for length in LENGTHS {
        for size in Size::ALL {
            let field = u32::from(size.field());
            s.comment(&format!("{length} bytes of memory: READ and WRITE {size:?} about its end"));
            s.say(format!("make {:X}", length % 2));
            s.say(format!("memory {length:X}"));
            mark_end(&mut s);
            for address in addresses(length) {
                s.command(&[0x1900 + field, address >> 16, address & 0xFFFF]);
            }
            s.say("state");
            for address in addresses(length) {
                let mut words = vec![0x1800 + field, address >> 16, address & 0xFFFF];
                if size == Size::Long {
                    words.push(0x5152);
                }
                words.push(0x5354);
                s.command(&words);
                peek_end(&mut s);
            }
            s.say("state");
        }
    }
    s.lines
}

fn chained() -> Vec<Vec<u8>> {
    let mut s = Writer::<StandIn>::new();
    for length in LENGTHS.into_iter().filter(|&length| length > 0) {
        for size in Size::ALL {
            let field = u32::from(size.field());
            s.comment(&format!("{length} bytes of memory: DUMP {size:?} over its end"));
            s.say(format!("make {:X}", length % 3));
            s.say(format!("memory {length:X}"));
            mark_end(&mut s);
            let start = length.saturating_sub(6);
            s.command(&[0x1900, 0, start]);
            for _ in 0..7 {
                s.command(&[0x1D00 + field]);
            }
            s.say("state");
            s.comment(&format!("{length} bytes of memory: FILL {size:?} over its end"));
            s.command(&[0x1800, 0, start, 0xEE]);
            for turn in 0..7 {
                let mut words = vec![0x1C00 + field, 0x6000 + turn];
                if size == Size::Long {
                    words.push(0x7000 + turn);
                }
                s.command(&words);
                peek_end(&mut s);
            }
            s.say("state");
        }
    }
    s.comment("A memory that shrinks and grows under a chain: the work uses the memory lent with its packet");
    for lent in [0, 1, 7, 8, 9, 0x1_0000] {
        s.say("make 2");
        s.say("memory 10");
        s.say("bytes 0 000102030405060708090A0B0C0D0E0F");
        s.command(&[0x1980, 0, 4]);
        s.packet(0x1D00);
        s.packet(0);
        s.say(format!("memory {lent:X}"));
        s.packet(0);
        s.packet(0);
        s.say("state");
        s.say("memory 10");
        s.packets(&[0x1880, 0, 4, 0x1122, 0x3344, 0]);
        s.say(format!("memory {lent:X}"));
        s.packets(&[0, 0]);
        s.say("state");
    }
    s.lines
}

fn refusals() -> Vec<Vec<u8>> {
    let mut s = Writer::<StandIn>::new();
    s.comment("Ground 2: W above 15; the old board is kept");
    for w in [0u32, 1, 14, 15, 16, 17, 255, 0x8000_0000, 0xFFFF_FFFF] {
        s.say(format!("make {w:X}"));
        s.say("state");
    }
    s.comment("Ground 1: a packet above 1FFFF, in every phase; nothing is altered");
    s.say("make 2");
    s.say("memory 10");
    s.say("bytes 0 000102030405060708090A0B0C0D0E0F");
    let wide = ["1FFFF", "20000", "20001", "3FFFF", "80000000", "FFFFFFFF"];
    for packet in wide {
        s.say(format!("packet {packet}"));
        s.say("state");
    }
    s.packet(0);
    for word in [0x1980, 0, 4, 0, 0, 0, 0] {
        s.packet(word);
        for packet in &wide[1..] {
            s.say(format!("packet {packet}"));
        }
        s.say("state");
    }
    s.comment("Ground 3: memory longer than 65,536, in every phase, judged before ground 1");
    for length in [0x1_0001, 0x1_000F, 0x1_0010] {
        s.say("make 2");
        for word in [0x1980, 0, 4, 0, 0, 0, 0] {
            s.say(format!("memory {length:X}"));
            s.say("packet 0");
            s.say("packet 1D00");
            s.say("packet 20000");
            s.say("packet FFFFFFFF");
            s.say("state");
            s.say("memory 10000");
            s.packet(word);
        }
        s.say(format!("memory {length:X}"));
        s.say("event 1000");
        s.say("breakpoint");
        s.say("make 1");
        s.say("state");
        s.say("memory 10");
    }
    s.comment("Ground 4: an event while halted, before 5 and 6");
    s.say("make 0");
    for event in ["0", "1", "0 0 0 0", "0 0 60 0", "1 0 E0 0"] {
        s.say(format!("event {event}"));
    }
    s.say("state");
    s.comment("Ground 5: odd PC, before 6; ground 6: size field 11");
    s.command(&[0x0C00]);
    for event in [
        "1", "FFFFFFFF", "1 0 60 0", "1 0 0 0", "0 0 60 0", "0 0 7F 0", "0 0 E0 0", "0 0 FF 0", "0 0 5F 0", "0 0 3F 0",
        "0 0 9F 0",
    ] {
        s.say(format!("event {event}"));
    }
    s.say("state");
    s.comment("Refused events leave a pending SYNC_PC and an armed trigger");
    s.debug(0x07, 0x2002);
    s.command(&[0x0001]);
    s.say("event 1");
    s.say("event 0 0 60 0");
    s.say("state");
    s.say("event 0");
    s.say("event 0");
    s.say("state");
    s.lines
}
