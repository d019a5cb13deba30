//! Request [1] of 02: which comparators count, for every size, address, set of comparators and what the other lanes hold.

use super::firing::{arm, running, DI, EAR, EBL, EPC, T_1, T_2};
use super::Stored;
use crate::board::bstat;
use crate::desk::StandIn;
use crate::script::Writer;

pub fn all() -> Vec<Stored> {
    vec![
        Stored::script("stand_in", "firing_lanes", &sets()),
        Stored::script("stand_in", "firing_lanes_masked", &masked()),
        Stored::script("stand_in", "firing_lanes_level_2", &level_2()),
        Stored::script("stand_in", "firing_lanes_groups", &groups()),
    ]
}

/// Longwords, bytes and words at each address modulo 4: attribute, address and lanes carried.
const PLACES: [(u32, u32, u32); 12] = [
    (0x05, 0x2000, 0xFFFF_FFFF),
    (0x05, 0x2001, 0xFFFF_FFFF),
    (0x05, 0x2002, 0xFFFF_FFFF),
    (0x05, 0x2003, 0xFFFF_FFFF),
    (0x25, 0x2000, 0xFF00_0000),
    (0x25, 0x2001, 0x00FF_0000),
    (0x25, 0x2002, 0x0000_FF00),
    (0x25, 0x2003, 0x0000_00FF),
    (0x45, 0x2000, 0xFFFF_0000),
    (0x45, 0x2001, 0xFFFF_0000),
    (0x45, 0x2002, 0x0000_FFFF),
    (0x45, 0x2003, 0x0000_FFFF),
];

/// What `running` puts into DBR.
const DBR: u32 = 0x1122_3344;
/// Each lane agrees, none does, and one of each half.
const CARRIED: [u32; 3] = [DBR, !DBR, 0x11DD_CC44];
/// The lanes not carried: zero, what DBR asks for, and something else.
const OTHERS: [u32; 3] = [0, DBR, !DBR];

/// Every access with its data, each once.
fn accesses() -> Vec<String> {
    let mut accesses = Vec::new();
    for (attribute, address, lanes) in PLACES {
        for carried in CARRIED {
            for others in OTHERS {
                let access = format!("{address:X} {attribute:X} {:X}", carried & lanes | others & !lanes);
                if !accesses.contains(&access) {
                    accesses.push(access);
                }
            }
        }
    }
    accesses
}

/// The bits of every set of comparators that has this many.
fn sets_of(counts: &[u32]) -> impl Iterator<Item = u32> + '_ {
    (0..0x80_u32).filter(|set| counts.contains(&set.count_ones())).map(|set| set << 6)
}

/// A running board that takes any attribute.
fn any_attribute() -> Writer<StandIn> {
    let mut s = Writer::new();
    running(&mut s);
    s.debug(0x06, 0xFF05);
    s
}

/// Arms TDR again unless a level is still waited for.
fn keep_armed(s: &mut Writer<StandIn>, tdr: u32) {
    if !matches!(s.board().bstat(), bstat::WAITING_LEVEL_1 | bstat::WAITING_LEVEL_2) {
        arm(s, tdr);
    }
}

fn sets() -> Vec<Vec<u8>> {
    let mut s = any_attribute();
    let accesses = accesses();
    for set in sets_of(&[0, 1, 2, 3, 4, 5, 6, 7]) {
        for inverted in [0, DI] {
            let level = EBL | EAR | set | inverted;
            s.comment(&format!("TDR {level:X} at level 1 and 2 alike, whichever waits: every size, address and data"));
            arm(&mut s, level << 16 | level);
            for access in &accesses {
                keep_armed(&mut s, level << 16 | level);
                s.say(format!("event 0 {access}"));
            }
        }
    }
    s.say("state");
    s.lines
}

fn masked() -> Vec<Vec<u8>> {
    let mut s = any_attribute();
    for (attribute, address, lanes) in PLACES {
        for mask in [!lanes, lanes, 0xFFFF_FFFF, 0x00FF_00FF] {
            s.comment(&format!(
                "DBMR {mask:X}, attribute {attribute:X} at {address:X}: single comparators, pairs and all"
            ));
            s.debug(0x0F, mask);
            for set in sets_of(&[1, 2, 7]) {
                for inverted in [0, DI] {
                    let tdr = EBL | EAR | set | inverted;
                    arm(&mut s, tdr);
                    for carried in CARRIED {
                        keep_armed(&mut s, tdr);
                        s.say(format!("event 0 {address:X} {attribute:X} {:X}", carried & lanes | !DBR & !lanes));
                    }
                }
            }
        }
    }
    s.say("state");
    s.lines
}

fn level_2() -> Vec<Vec<u8>> {
    let mut s = any_attribute();
    let accesses = accesses();
    for set in sets_of(&[1, 2, 7]) {
        for inverted in [0, DI] {
            let tdr = (EBL | EAR | set | inverted) << 16 | EBL | EPC;
            s.comment(&format!("TDR {tdr:X}: level 1 by PC, then every size, address and data at level 2"));
            arm(&mut s, tdr);
            for access in &accesses {
                keep_armed(&mut s, tdr);
                if s.board().bstat() == bstat::WAITING_LEVEL_1 {
                    s.say("event 1000");
                }
                s.say(format!("event 0 {access}"));
            }
        }
    }
    s.say("state");
    s.lines
}

fn groups() -> Vec<Vec<u8>> {
    let mut s = any_attribute();
    for set in sets_of(&[1, 7]) {
        for inverted in [0, DI] {
            for t in [0, T_1 | T_2] {
                let level = EBL | EPC | EAR | set | inverted;
                let tdr = level << 16 | level | t;
                s.comment(&format!("TDR {tdr:X}: the PC agrees and not, at each size and address, at both levels"));
                for (attribute, address, _) in PLACES {
                    for data in [DBR, !DBR] {
                        for pc in ["1002", "1000"] {
                            arm(&mut s, tdr);
                            let event = format!("event {pc} {address:X} {attribute:X} {data:X}");
                            s.say(event.clone());
                            // What fires at both levels: PC, address and data agree, or with DI the data do not.
                            let both = if inverted == 0 { DBR } else { !DBR };
                            if s.board().bstat() == bstat::WAITING_LEVEL_1 {
                                s.say(format!("event 1000 2000 5 {both:X}"));
                            }
                            s.say(event);
                        }
                    }
                }
            }
        }
    }
    s.say("state");
    s.lines
}
