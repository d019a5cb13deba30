//! Every command at every size, for every W.

use super::Stored;
use crate::command::{Size, CONTROL_REGISTERS};
use crate::desk::StandIn;
use crate::script::Writer;

pub fn all() -> Vec<Stored> {
    (0..16).map(|w| Stored::script("stand_in", format!("commands_w{w:X}"), &commands(w))).collect()
}

fn commands(w: u32) -> Vec<Vec<u8>> {
    let mut s = Writer::<StandIn>::new();
    s.comment(&format!("Every command with W = {w}."));
    s.say(format!("make {w:X}"));
    s.say("memory 40");
    s.say("bytes 0 000102030405060708090A0B0C0D0E0F101112131415161718191A1B1C1D1E1F");
    s.say("state");
    registers(&mut s);
    control_registers(&mut s);
    reads(&mut s);
    writes(&mut s);
    debug_registers(&mut s);
    without_operands(&mut s);
    while_running(&mut s);
    s.lines
}

fn registers(s: &mut Writer<StandIn>) {
    s.comment("WDREG and WAREG, then RDREG and RAREG, each register");
    for n in 0..16 {
        s.command(&[0x2080 + n, 0xD000 + n, 0x0100 * n + 1]);
    }
    for n in 0..16 {
        s.command(&[0x2180 + n]);
    }
    s.say("state");
}

fn control_registers(s: &mut Writer<StandIn>) {
    s.comment("WCREG, then RCREG, each listed register");
    for rc in CONTROL_REGISTERS.map(u32::from) {
        s.command(&[0x2880, 0, rc, 0xC000 + (rc >> 8), rc]);
    }
    for rc in CONTROL_REGISTERS.map(u32::from) {
        s.command(&[0x2980, 0, rc]);
    }
    s.say("state");
    s.comment("RCREG and WCREG of registers that are not listed, and with a first operand word not zero");
    for (first, rc) in
        [(0, 0x000), (0, 0x003), (0, 0x802), (0, 0xC05), (0, 0xFFF), (0, 0x1801), (1, 0x801), (0x8000, 0x002)]
    {
        s.command(&[0x2980, first, rc]);
        s.command(&[0x2880, first, rc, 0x1234, 0x5678]);
    }
    s.say("state");
}

fn reads(s: &mut Writer<StandIn>) {
    for size in Size::ALL {
        let field = u32::from(size.field());
        s.comment(&format!("READ {size:?} at each alignment, then DUMP of each size"));
        for address in 0..5 {
            s.command(&[0x1900 + field, 0, address]);
        }
        for next in Size::ALL {
            s.command(&[0x1900 + field, 0, 8]);
            s.command(&[0x1D00 + u32::from(next.field())]);
            s.command(&[0x1D00 + u32::from(next.field())]);
        }
        s.say("state");
    }
    s.comment("A command word in the packet that carries the closing reply out");
    s.packets(&[0x1940, 0, 2]);
    s.drain();
    s.packet(0x1D40);
    s.drain();
    s.packet(0x1D80);
    s.drain();
    s.packet(0x1D00);
    s.drain();
    s.packet(0x2180);
    s.drain();
    s.packet(0);
    s.say("state");
}

fn writes(s: &mut Writer<StandIn>) {
    for size in Size::ALL {
        let field = u32::from(size.field());
        s.comment(&format!("WRITE {size:?} at each alignment, then FILL of each size"));
        let data = |value: u32| match size {
            Size::Byte | Size::Word => vec![value],
            Size::Long => vec![0xA0A0, value],
        };
        for address in 0x20..0x25 {
            let words = [vec![0x1800 + field, 0, address], data(0xB100 + address)].concat();
            s.command(&words);
            s.say("peek 20 8");
        }
        for next in Size::ALL {
            s.command(&[vec![0x1800 + field, 0, 0x30], data(0xC1C2)].concat());
            for turn in 0..2 {
                let fill = match next {
                    Size::Byte | Size::Word => vec![0xE0E0 + turn],
                    Size::Long => vec![0xF0F0 + turn, 0xF1F1],
                };
                s.command(&[vec![0x1C00 + u32::from(next.field())], fill].concat());
            }
            s.say("peek 30 10");
        }
        s.say("state");
    }
}

fn debug_registers(s: &mut Writer<StandIn>) {
    s.comment("WDMREG of each register, and RDMREG of CSR");
    for n in [0x08, 0x09, 0x0C, 0x0D, 0x0E, 0x0F, 0x05, 0x06, 0x07, 0x00] {
        s.debug(n, 0x89AB_CDE0 + n);
    }
    s.say("state");
    s.command(&[0x2D80]);
    s.say("state");
    s.command(&[0x2D80]);
    s.debug(0x00, 0);
    s.debug(0x07, 0);
    s.say("state");
}

fn without_operands(s: &mut Writer<StandIn>) {
    s.comment("NOP, SYNC_PC, GO");
    s.packets(&[0, 0, 1, 1, 0]);
    s.say("state");
    s.packets(&[0x0C00, 0]);
    s.say("state");
}

fn while_running(s: &mut Writer<StandIn>) {
    s.comment("While running: memory and debug registers go on, commands for a halted processor are illegal");
    s.command(&[0x1980, 0, 0]);
    s.command(&[0x1D40]);
    s.command(&[0x1880, 0, 0, 0x1122, 0x3344]);
    s.command(&[0x1C40, 0x5566]);
    s.command(&[0x2D80]);
    for word in [0x2180, 0x218F, 0x2080, 0x208F, 0x0C00, 0x2980, 0x2880] {
        s.command(&[word]);
    }
    s.say("event 1000");
    s.say("breakpoint");
    s.command(&[0x2180]);
    s.say("state");
}
