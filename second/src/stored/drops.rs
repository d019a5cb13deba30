//! C at each place of each command.

use super::Stored;
use crate::desk::StandIn;
use crate::script::Writer;

pub fn all() -> Vec<Stored> {
    [0, 1, 3].into_iter().map(|w| Stored::script("stand_in", format!("drops_w{w}"), &drops(w))).collect()
}

/// Each command with its operands, and how to make it legal first.
fn commands() -> Vec<(&'static str, Vec<u32>, Vec<u32>)> {
    let read = vec![0x1900, 0, 0];
    let write = vec![0x1800, 0, 0, 0x5A];
    vec![
        ("RDREG", vec![], vec![0x2181]),
        ("WDREG", vec![], vec![0x2081, 0x1111, 0x2222]),
        ("READ byte", vec![], vec![0x1900, 0, 1]),
        ("READ word", vec![], vec![0x1940, 0, 2]),
        ("READ longword", vec![], vec![0x1980, 0, 4]),
        ("WRITE byte", vec![], vec![0x1800, 0, 1, 0xAB]),
        ("WRITE word", vec![], vec![0x1840, 0, 2, 0xABCD]),
        ("WRITE longword", vec![], vec![0x1880, 0, 4, 0xABCD, 0xEF01]),
        ("DUMP byte", read.clone(), vec![0x1D00]),
        ("DUMP word", read.clone(), vec![0x1D40]),
        ("DUMP longword", read, vec![0x1D80]),
        ("FILL byte", write.clone(), vec![0x1C00, 0xCD]),
        ("FILL word", write.clone(), vec![0x1C40, 0xCDEF]),
        ("FILL longword", write, vec![0x1C80, 0x1234, 0x5678]),
        ("GO", vec![], vec![0x0C00]),
        ("NOP", vec![], vec![0x0000]),
        ("SYNC_PC", vec![], vec![0x0001]),
        ("RCREG", vec![], vec![0x2980, 0, 0x80F]),
        ("WCREG", vec![], vec![0x2880, 0, 0x80F, 0x3333, 0x4444]),
        ("RDMREG", vec![], vec![0x2D80]),
        ("WDMREG", vec![], vec![0x2C88, 0x5555, 0x6666]),
    ]
}

fn drops(w: u32) -> Vec<Vec<u8>> {
    let mut s = Writer::<StandIn>::new();
    for (name, before, words) in commands() {
        s.comment(&format!("{name} with C at each packet, past its end too; W = {w}"));
        let packets = words.len() + w as usize + 3;
        for place in 0..packets {
            s.say(format!("make {w:X}"));
            s.say("memory 10");
            s.say("bytes 0 000102030405060708090A0B0C0D0E0F");
            if !before.is_empty() {
                s.command(&before);
            }
            for at in 0..packets {
                let word = words.get(at).copied().unwrap_or(0);
                s.packet(if at == place { word | 0x10000 } else { word });
            }
            s.say("peek 0 8");
        }
        s.say("state");
        s.comment(&format!("{name} with every data bit beside C in an ignored packet; W = {w}"));
        s.say(format!("make {w:X}"));
        s.say("memory 10");
        if !before.is_empty() {
            s.command(&before);
        }
        s.packets(&words);
        while !s.board().is_at_rest() {
            s.packet(0x1FFFF);
        }
        s.packets(&[0, 0]);
        s.say("state");
    }
    s.lines
}
