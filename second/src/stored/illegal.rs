//! Words that are no command, and words that are.

use super::Stored;
use crate::desk::StandIn;
use crate::script::Writer;

pub fn all() -> Vec<Stored> {
    vec![
        Stored::script("stand_in", "words_halted", &words(true)),
        Stored::script("stand_in", "words_running", &words(false)),
    ]
}

/// Each upper byte with the lower bytes at which the table begins, ends or has a gap.
fn words(halted: bool) -> Vec<Vec<u8>> {
    let mut s = Writer::<StandIn>::new();
    s.say("memory 10");
    s.say("bytes 0 000102030405060708090A0B0C0D0E0F");
    let edges: [u32; 13] = [0x00, 0x01, 0x02, 0x40, 0x41, 0x7F, 0x80, 0x8F, 0x90, 0x9F, 0xA0, 0xC0, 0xFF];
    let state = if halted { "halted" } else { "running" };
    for upper in 0..0x100 {
        s.comment(&format!("Words {:02X}xx, {state}", upper));
        let all = matches!(upper, 0x20 | 0x21 | 0x2C | 0x2D) && halted;
        let used = matches!(upper, 0x00 | 0x0C | 0x18..=0x1D | 0x20..=0x2D);
        for lower in 0..0x100 {
            let near = (0x78..0xA8).contains(&lower);
            if !(edges.contains(&lower) && (used || lower % 0x40 == 0) || all && near) {
                continue;
            }
            if s.board().is_halted() != halted {
                if halted {
                    s.say("breakpoint");
                } else {
                    s.packet(0x0C00);
                }
            }
            s.packet(upper << 8 | lower);
            s.drain();
        }
        if used {
            s.say("state");
        }
    }
    s.packet(0);
    s.lines
}
