//! Random breakpoint registers, and events near what they hold.

use super::aim::hex;
use super::halt::mark;
use super::Rng;
use crate::board::{bstat, Board};

/// The registers that WDMREG takes.
pub const DEBUG_REGISTERS: [u32; 10] = [0x00, 0x05, 0x06, 0x07, 0x08, 0x09, 0x0C, 0x0D, 0x0E, 0x0F];

/// The size field of an attribute byte: longword, byte, word.
const SIZES: [u8; 3] = [0x00, 0x20, 0x40];
/// What a byte or a word may stand on.
const LANES: [u32; 6] = [0xFF, 0xFF00, 0xFF_0000, 0xFF00_0000, 0xFFFF, 0xFFFF_0000];

/// WDMREG with a value that its register may well be given.
pub fn debug_write(rng: &mut Rng) -> Vec<u32> {
    let n = rng.pick(&DEBUG_REGISTERS);
    debug_write_to(rng, n)
}

fn debug_write_to(rng: &mut Rng, n: u32) -> Vec<u32> {
    let value = debug_value(rng, n);
    vec![0x2C80 + n, value >> 16, value & 0xFFFF]
}

/// A value for a debug register. Few different ones, so that comparisons often agree.
pub fn debug_value(rng: &mut Rng, n: u32) -> u32 {
    match n {
        0x00 => csr_value(rng),
        0x05 => rng.below(0x200),
        0x06 => attribute_trigger(rng),
        0x07 => trigger(rng),
        0x08 => match rng.below(5) {
            0 => rng.word(),
            1 => 0xFFFF_FFFE,
            2 => 0x1001,
            _ => 0x1000,
        },
        0x09 => match rng.below(6) {
            0 => 0xF,
            1 => 0xFFFF_FFFF,
            2 => 1,
            3 => rng.sparse(),
            _ => 0,
        },
        0x0C => match rng.below(6) {
            0 => rng.word(),
            1 => 0xFFFF_FFFF,
            2 => 0x1FFF,
            _ => 0x2000 + rng.below(32),
        },
        0x0D => match rng.below(6) {
            0 => rng.word(),
            1 => 0,
            _ => 0x2000 + rng.below(16),
        },
        0x0E => match rng.below(4) {
            0 => rng.word(),
            1 => rng.pick(&LANES) & rng.word(),
            2 => 0,
            _ => 0x1122_3344,
        },
        0x0F => match rng.below(7) {
            0 => 0xFFFF_FFFF,
            1 => rng.pick(&LANES),
            // All but what an access may carry.
            2..=3 => !rng.pick(&LANES),
            4 => rng.sparse(),
            _ => 0,
        },
        _ => rng.word(),
    }
}

/// SSM, BKD and UHE, each set or clear, at times with the bits beside UHE; or anything.
pub fn csr_value(rng: &mut Rng) -> u32 {
    if rng.once_in(6) {
        return rng.word();
    }
    let mut value = 0;
    for (bit, often) in [(0x10, 25), (0x4_0000, 30), (0x400, 50)] {
        if rng.percent(often) {
            value |= bit;
        }
    }
    if rng.once_in(4) {
        value |= rng.pick(&[0x200, 0x800, 0xA00]);
    }
    value
}

fn attribute_trigger(rng: &mut Rng) -> u32 {
    let mask = match rng.below(5) {
        0 => 0xFF,
        1..=2 => 0x60,
        3 => rng.below(0x100),
        _ => 0,
    };
    let size = u32::from(rng.pick(&SIZES));
    let rest = rng.pick(&[0x05, 0x85, 0x01, 0x1F, 0x9A]);
    let upper = if rng.once_in(8) { rng.word() << 16 } else { 0 };
    upper | mask << 8 | size | rest
}

/// One level's bits of TDR.
fn level(rng: &mut Rng, enabled: u32) -> u32 {
    let mut bits = 0;
    if rng.percent(enabled) {
        bits |= 1 << 13;
    }
    if rng.percent(60) {
        bits |= 1 << 1;
    }
    if rng.percent(25) {
        bits |= 1;
    }
    if rng.percent(60) {
        bits |= rng.between(1, 7) << 2;
    }
    if rng.percent(50) {
        bits |= 1 << rng.between(6, 12);
    }
    if rng.percent(20) {
        bits |= rng.below(0x80) << 6;
    }
    if rng.percent(30) {
        bits |= 1 << 5;
    }
    bits
}

/// One level's bits of TDR by address and data, mostly alone, so that one or two comparators decide; wide ones more often.
fn data_level(rng: &mut Rng) -> u32 {
    let first = 1 << rng.pick(&[12, 12, 12, 11, 11, 10, 10, 9, 8, 7, 6]);
    let second = if rng.percent(40) { 1 << rng.between(6, 12) } else { 0 };
    let inverted = if rng.percent(40) { 1 << 5 } else { 0 };
    let pc = if rng.percent(40) { rng.below(4) } else { 0 };
    1 << 13 | first | second | inverted | rng.between(1, 3) << 2 | pc
}

fn trigger(rng: &mut Rng) -> u32 {
    let levels = match rng.below(20) {
        0 => return rng.word(),
        1..=5 => data_level(rng) | level(rng, 50) << 16,
        6..=8 => level(rng, 90) | data_level(rng) << 16,
        _ => level(rng, 90) | level(rng, 50) << 16,
    };
    levels | rng.below(4) << 14 | rng.below(4) << 30
}

/// WDMREG commands that set up the breakpoint registers, TDR last.
pub fn breakpoint_setup(rng: &mut Rng) -> Vec<Vec<u32>> {
    let mut commands = Vec::new();
    for n in [0x06, 0x08, 0x09, 0x0C, 0x0D, 0x0E, 0x0F, 0x00] {
        if rng.percent(40) {
            commands.push(debug_write_to(rng, n));
        }
    }
    commands.push(debug_write_to(rng, 0x07));
    commands
}

/// An event near what the breakpoint registers hold, at times with a mark.
pub fn event(rng: &mut Rng, board: &Board) -> String {
    unmarked_event(rng, board) + mark(rng, 35)
}

/// An event near what the breakpoint registers hold: agreeing with them, or all but for one field, or only by chance.
pub fn unmarked_event(rng: &mut Rng, board: &Board) -> String {
    let wanted = board.aatr.to_be_bytes()[1];
    let (mut pc, mut address, mut attribute, mut data) = (board.pbr & !1, board.ablr, wanted, board.dbr);
    match rng.below(8) {
        0..=2 => {}
        3 => pc = near_pc(rng, board),
        4 => address = near_address(rng, board),
        5 => attribute = near_attribute(rng, board),
        6 => data = near_data(rng, board),
        _ => {
            pc = near_pc(rng, board);
            address = near_address(rng, board);
            attribute = near_attribute(rng, board);
            data = near_data(rng, board);
        }
    }
    // Any size agrees where both its bits are masked.
    if board.aatr & 0x6000 == 0x6000 && rng.percent(60) {
        attribute = attribute & !0x60 | rng.pick(&SIZES);
    }
    if attribute & 0x60 == 0x60 && rng.percent(80) {
        attribute &= rng.pick(&[0x9F, 0xBF, 0xDF]);
    }
    let pc = hex(rng, pc);
    if rng.percent(20) {
        return format!("event {pc}");
    }
    // A ninth bit is too wide for its place.
    let ninth = if rng.once_in(60) { 0x100 } else { 0 };
    let attribute = hex(rng, ninth | u32::from(attribute));
    format!("event {pc} {} {attribute} {}", hex(rng, address), hex(rng, data))
}

fn near_pc(rng: &mut Rng, board: &Board) -> u32 {
    match rng.below(8) {
        0..=1 => (board.pbr ^ rng.bit()) & !1,
        2..=3 => (board.pbr ^ (rng.word() & board.pbmr)) & !1,
        4 => board.pbr,
        5 => rng.word(),
        _ => board.pbr.wrapping_add(rng.pick(&[2, 0x10, 0xFFFF_FFFE])) & !1,
    }
}

fn near_address(rng: &mut Rng, board: &Board) -> u32 {
    match rng.below(10) {
        0 => board.abhr,
        1 => board.ablr.wrapping_sub(1),
        2 => board.ablr.wrapping_add(1),
        3 => board.abhr.wrapping_sub(1),
        4 => board.abhr.wrapping_add(1),
        5 => rng.word(),
        6 => rng.pick(&[0, 1, 2, 3, 0xFFFF_FFFF]),
        _ => board.ablr.wrapping_add(rng.below(16)),
    }
}

fn near_attribute(rng: &mut Rng, board: &Board) -> u8 {
    let [mask, wanted] = board.aatr.to_be_bytes();
    match rng.below(4) {
        0 => wanted ^ (rng.word() as u8 & mask),
        1 => wanted ^ (1 << rng.below(8)),
        2 => rng.word() as u8,
        _ => wanted & !0x60 | rng.pick(&SIZES),
    }
}

fn near_data(rng: &mut Rng, board: &Board) -> u32 {
    match rng.below(6) {
        0..=2 => board.dbr ^ rng.bit(),
        3 => board.dbr ^ (rng.word() & board.dbmr),
        4 => rng.word(),
        _ => 0,
    }
}

/// True if a level of the trigger may fire.
pub fn is_armed(board: &Board) -> bool {
    matches!(board.bstat(), bstat::WAITING_LEVEL_1 | bstat::WAITING_LEVEL_2)
}
