//! Every comparator, group, level, T and response.

use super::Stored;
use crate::desk::StandIn;
use crate::script::Writer;

pub fn all() -> Vec<Stored> {
    vec![
        Stored::script("stand_in", "firing_groups", &groups()),
        Stored::script("stand_in", "firing_data", &data()),
        Stored::script("stand_in", "firing_masks", &masks()),
        Stored::script("stand_in", "firing_levels", &levels()),
    ]
}

pub(super) const EBL: u32 = 1 << 13;
pub(super) const EPC: u32 = 1 << 1;
const EAL: u32 = 1 << 2;
pub(super) const EAR: u32 = 1 << 3;
pub(super) const DI: u32 = 1 << 5;
pub(super) const T_1: u32 = 1 << 14;
pub(super) const T_2: u32 = 1 << 15;

/// A running board with PBR 1000, ABLR 2000, ABHR 2010, DBR 11223344, AATR 0005.
pub(super) fn running(s: &mut Writer<StandIn>) {
    s.say("make 0");
    for (n, value) in [(0x08, 0x1000), (0x0D, 0x2000), (0x0C, 0x2010), (0x0E, 0x1122_3344), (0x06, 0x0005)] {
        s.packets(&[0x2C80 + n, value >> 16, value & 0xFFFF]);
    }
    s.packets(&[0x0C00, 0]);
}

/// Arms TDR without waiting for the reply.
pub(super) fn arm(s: &mut Writer<StandIn>, tdr: u32) {
    s.packets(&[0x2C87, tdr >> 16, tdr & 0xFFFF]);
}

fn groups() -> Vec<Vec<u8>> {
    let mut s = Writer::<StandIn>::new();
    running(&mut s);
    for pc_bits in 0..4 {
        for address_bits in 0..8u32 {
            for t in [0, T_1] {
                let tdr = EBL | pc_bits | address_bits << 2 | t;
                s.comment(&format!("Level 1, TDR {tdr:X}: PC and address, agreeing and not"));
                for pc in ["1000", "1002"] {
                    arm(&mut s, tdr);
                    s.say(format!("event {pc}"));
                    for address in ["1FFF", "2000", "2001", "2010", "2011"] {
                        for attribute in ["5", "4"] {
                            if s.board().bstat() != 1 {
                                arm(&mut s, tdr);
                            }
                            s.say(format!("event {pc} {address} {attribute} 0"));
                        }
                    }
                }
            }
        }
    }
    for pc_bits in [0, EPC, EPC | 1] {
        for address_bits in [0, 1, 2, 4, 7u32] {
            for t in [0, T_1, T_2, T_1 | T_2] {
                let tdr = (EBL | pc_bits | address_bits << 2) << 16 | EBL | EPC | t;
                s.comment(&format!("Level 2, TDR {tdr:X}: PC and address, agreeing and not"));
                for event in [
                    "1000", "1002", "1000 2000 5 0", "1002 2000 5 0", "1000 2011 5 0", "1002 2011 5 0", "1000 2000 4 0",
                ] {
                    arm(&mut s, tdr);
                    s.say("event 1000");
                    s.say(format!("event {event}"));
                }
            }
        }
    }
    s.say("state");
    s.comment("An empty range, the whole range, and ranges at the ends of the address space");
    for (low, high) in [
        (0x2001, 0x2000),
        (0, 0xFFFF_FFFF),
        (0, 0),
        (0xFFFF_FFFF, 0xFFFF_FFFF),
        (0xFFFF_FFFF, 0),
        (0x7FFF_FFFF, 0x8000_0000),
    ] {
        s.debug(0x0D, low);
        s.debug(0x0C, high);
        for bits in [EAL, EAR, 1 << 4] {
            for address in
                ["0", "1", "2000", "2001", "7FFFFFFE", "7FFFFFFF", "80000000", "80000001", "FFFFFFFE", "FFFFFFFF"]
            {
                arm(&mut s, EBL | bits);
                s.say(format!("event 0 {address} 5 0"));
            }
        }
    }
    s.say("state");
    s.lines
}

fn data() -> Vec<Vec<u8>> {
    let mut s = Writer::<StandIn>::new();
    running(&mut s);
    s.debug(0x06, 0xFF05);
    let sizes = [("longword", 0x05), ("byte", 0x25), ("word", 0x45)];
    for bit in (6..=12).rev() {
        for inverted in [0, DI] {
            for (name, attribute) in sizes {
                s.comment(&format!("Comparator bit {bit}, DI {}, {name} at each address", u8::from(inverted != 0)));
                for offset in 0..4 {
                    for data in [0x1122_3344_u32, 0x1122_3300, 0x0022_3344, 0x1122_FF44, 0x11FF_3344, 0] {
                        arm(&mut s, EBL | EAR | 1 << bit | inverted);
                        s.say(format!("event 0 {:X} {attribute:X} {data:X}", 0x2000 + offset));
                    }
                }
            }
        }
    }
    s.comment("Level 2's comparators");
    for bit in (6..=12).rev() {
        for inverted in [0, DI] {
            for data in [0x1122_3344_u32, 0x1122_3300, 0x1122_0044, 0x1100_3344, 0x0022_3344, 0] {
                arm(&mut s, (EBL | EAR | 1 << bit | inverted) << 16 | EBL | EPC);
                s.say("event 1000");
                s.say(format!("event 0 2000 5 {data:X}"));
            }
        }
    }
    s.comment("Several comparators: some agrees, or with DI some does not");
    for first in 6..=12 {
        for second in first + 1..=12 {
            for inverted in [0, DI] {
                for data in [0x1122_3344_u32, 0x1122_3300, 0x0022_3344, 0] {
                    arm(&mut s, EBL | EAL | 1 << first | 1 << second | inverted);
                    s.say(format!("event 0 2000 5 {data:X}"));
                }
            }
        }
    }
    s.comment("DI without a comparator, and comparators without an address bit");
    for tdr in
        [EBL | EAL | DI, EBL | DI, EBL | 0x1FC0, EBL | 0x1FC0 | EPC, EBL | 0x1FC0 | EPC | T_1, EBL | 0x1FE0 | EPC]
    {
        for event in ["1000", "1002", "1000 2000 5 11223344", "1002 2000 5 0", "1000 2000 5 0"] {
            arm(&mut s, tdr);
            s.say(format!("event {event}"));
        }
    }
    s.say("state");
    s.lines
}

fn masks() -> Vec<Vec<u8>> {
    let mut s = Writer::<StandIn>::new();
    running(&mut s);
    s.comment("PBMR: each bit masked, and the same bit of the PC turned round");
    for bit in 0..32 {
        for mask in [0, 1u32 << bit, !(1u32 << bit)] {
            s.packets(&[0x2C89, mask >> 16, mask & 0xFFFF]);
            arm(&mut s, EBL | EPC);
            s.say(format!("event {:X}", (0x1000 ^ (1u32 << bit)) & !1));
        }
    }
    s.comment("An odd PBR");
    s.debug(0x08, 0x1001);
    for mask in [0, 1] {
        s.debug(0x09, mask);
        for tdr in [EBL | EPC, EBL | EPC | 1] {
            arm(&mut s, tdr);
            s.say("event 1000");
        }
    }
    s.comment("AATR: each attribute bit masked, and the same bit turned round");
    for bit in 0..8 {
        for mask in [0, 1u32 << bit, 0xFF ^ (1u32 << bit)] {
            for wanted in [0x05u32, 0x9A] {
                s.debug(0x06, mask << 8 | wanted);
                arm(&mut s, EBL | EAL);
                s.say(format!("event 0 2000 {:X} 0", wanted ^ (1 << bit)));
                arm(&mut s, EBL | EAL);
                s.say(format!("event 0 2000 {wanted:X} 0"));
            }
        }
    }
    s.debug(0x06, 0x0005);
    s.comment("DBMR: each data bit masked, and the same bit turned round, for each comparator");
    for comparator in 6..=12 {
        for bit in (0..32).step_by(if comparator == 12 { 1 } else { 3 }) {
            for mask in [0, 1u32 << bit] {
                s.packets(&[0x2C8F, mask >> 16, mask & 0xFFFF]);
                arm(&mut s, EBL | EAL | 1 << comparator);
                s.say(format!("event 0 2000 5 {:X}", 0x1122_3344 ^ (1u32 << bit)));
            }
        }
    }
    s.comment("A comparator whose lanes are all masked always agrees");
    for mask in [0xFFFF_FFFFu32, 0xFFFF, 0xFFFF_0000, 0xFF, 0xFF00, 0xFF_0000, 0xFF00_0000] {
        s.debug(0x0F, mask);
        for comparator in 6..=12 {
            for inverted in [0, DI] {
                arm(&mut s, EBL | EAL | 1 << comparator | inverted);
                s.say("event 0 2000 5 EEDDCCBB");
            }
        }
    }
    s.say("state");
    s.lines
}

fn levels() -> Vec<Vec<u8>> {
    let mut s = Writer::<StandIn>::new();
    for response in 0..4 {
        for enabled in 0..4 {
            let tdr = response << 30 | (enabled >> 1) << 29 | EPC << 16 | (enabled & 1) << 13 | EPC;
            s.comment(&format!("TDR {tdr:X}: events until nothing more fires, CSR after each, then armed again"));
            running(&mut s);
            arm(&mut s, tdr);
            s.say("state");
            for event in ["1002", "1000", "1002", "1000", "1000"] {
                if s.board().is_halted() {
                    s.packet(0x0C00);
                }
                s.say(format!("event {event}"));
                s.say("state");
            }
            s.command(&[0x2D80]);
            s.say("state");
            if s.board().is_halted() {
                s.packet(0x0C00);
            }
            s.say("event 1000");
            arm(&mut s, tdr);
            s.say("event 1000");
            s.command(&[0x2D80]);
            s.say("event 1000");
            s.say("state");
        }
    }
    s.comment("Level 1 by PC, then level 2 by address and data; one event fires one level at most");
    running(&mut s);
    arm(&mut s, 0x4000_0000 | (EBL | EAL | 1 << 12) << 16 | EBL | EPC);
    for event in
        ["1002 2000 5 11223344", "1000 2000 5 11223344", "1000", "1000 2000 5 11223345", "1002 2000 5 11223344"]
    {
        s.say(format!("event {event}"));
        s.say("state");
    }
    s.lines
}
