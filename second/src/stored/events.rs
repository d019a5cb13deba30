//! CSR, its flags, the breakpoint input, single step and SYNC_PC.

use super::Stored;
use crate::desk::StandIn;
use crate::script::Writer;

pub fn all() -> Vec<Stored> {
    vec![
        Stored::script("stand_in", "csr_and_debug_registers", &csr()),
        Stored::script("stand_in", "halts_and_sync_pc", &halts()),
    ]
}

fn csr() -> Vec<Vec<u8>> {
    let mut s = Writer::<StandIn>::new();
    s.comment("CSR: each bit written alone, then all but it");
    for bit in 0..32 {
        s.debug(0x00, 1 << bit);
        s.command(&[0x2D80]);
        s.debug(0x00, !(1 << bit));
        s.command(&[0x2D80]);
    }
    s.say("state");
    s.comment("AATR and BAAR: each bit written alone");
    for bit in 0..32 {
        s.debug(0x06, 1 << bit);
        s.say("state");
        s.debug(0x05, 1 << bit);
        s.say("state");
    }
    s.comment("The 32-bit debug registers: each bit written alone");
    for n in [0x07, 0x08, 0x09, 0x0C, 0x0D, 0x0E, 0x0F] {
        for bit in [0, 1, 15, 16, 30, 31] {
            s.debug(n, 1 << bit);
            s.say("state");
        }
    }
    s.comment("TDR: BSTAT is 1 with level 1's EBL, else 0; CSR read at 0 and 1 leaves it");
    for tdr in [0u32, 0x2000, 0x2000_0000, 0x2000_2000, 0xFFFF_FFFF, 0xFFFF_DFFF, 0xDFFF_FFFF] {
        s.debug(0x07, tdr);
        s.say("state");
        s.command(&[0x2D80]);
        s.say("state");
    }
    s.lines
}

fn halts() -> Vec<Vec<u8>> {
    let mut s = Writer::<StandIn>::new();
    for csr in [0, 0x10, 0x4_0000, 0x4_0010] {
        s.comment(&format!("CSR {csr:X}: the breakpoint input while halted and while running"));
        s.say("make 1");
        s.debug(0x00, csr);
        s.say("breakpoint");
        s.command(&[0x2D80]);
        s.say("breakpoint");
        s.command(&[0x0C00]);
        s.say("state");
        s.say("breakpoint");
        s.say("state");
        s.say("breakpoint");
        s.say("event 1000");
        s.say("state");
        s.command(&[0x2D80]);
        for response in 0..4 {
            s.comment(&format!("CSR {csr:X}, response {response}: an event that fires, one that does not, SYNC_PC"));
            for trigger in [0x2002_u32, 0x2002_2002] {
                s.say("make 0");
                s.debug(0x00, csr);
                s.debug(0x08, 0x1000);
                s.debug(0x07, response << 30 | trigger);
                s.command(&[0x0001]);
                for pc in ["1002", "1000", "1000", "1000", "FFFFFFFE"] {
                    if s.board().is_halted() {
                        s.command(&[0x0C00]);
                    }
                    s.say(format!("event {pc}"));
                    s.say("state");
                }
                s.command(&[0x2D80]);
                s.command(&[0x2D80]);
                s.say("state");
            }
        }
    }
    s.comment("SYNC_PC: pending over GO, halts, reads and refused events; several count once");
    s.say("make 0");
    s.command(&[0x0001]);
    s.command(&[0x0001]);
    s.say("event 1000");
    s.command(&[0x2D80]);
    s.command(&[0x0C00]);
    s.say("event 1001");
    s.say("breakpoint");
    s.command(&[0x0C00]);
    s.say("event 1000 0 60 0");
    s.say("state");
    s.say("event DEADBEEE");
    s.say("event DEADBEEE");
    s.say("state");
    s.comment("GO clears TRG, HALT and BKPT, and leaves BSTAT; a second halt sets a flag beside the first");
    s.debug(0x08, 0x1000);
    s.debug(0x07, 0x4000_2002);
    s.say("event 1000");
    s.say("state");
    s.command(&[0x0C00]);
    s.say("state");
    s.say("breakpoint");
    s.command(&[0x2D80]);
    s.say("state");
    s.lines
}
