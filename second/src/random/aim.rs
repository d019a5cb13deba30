//! Where random numbers are aimed: at the edges of memory, at the breakpoint registers, at legal command words.

use super::breakpoints::{debug_write, DEBUG_REGISTERS};
use super::Rng;
use crate::board::Chain;
use crate::command::{Size, CONTROL_REGISTERS};
use crate::desk::Bench;

const MEMORY_LENGTHS: [u32; 16] = [0, 1, 2, 3, 4, 5, 7, 8, 15, 16, 17, 64, 65_535, 65_536, 65_536, 65_537];

/// A number as someone might type it.
pub fn hex(rng: &mut Rng, value: u32) -> String {
    let digits = if rng.once_in(12) { format!("{value:x}") } else { format!("{value:X}") };
    if rng.once_in(12) {
        "0".repeat(rng.between(1, 12) as usize) + &digits
    } else {
        digits
    }
}

pub fn memory_length(rng: &mut Rng) -> u32 {
    match rng.below(10) {
        0..=4 => rng.pick(&MEMORY_LENGTHS),
        5 => rng.below(0x10011),
        _ => rng.between(1, 80),
    }
}

/// An address: near 0, near the end of memory, near 65,536, near 2^32, inside, anywhere.
pub fn address(rng: &mut Rng, memory_length: u32) -> u32 {
    match rng.below(16) {
        0..=2 => rng.below(8),
        3..=6 => memory_length.wrapping_add(rng.below(10)).wrapping_sub(7),
        7 => 65_536u32.wrapping_add(rng.below(8)).wrapping_sub(5),
        8 => 0u32.wrapping_sub(rng.between(1, 8)),
        9 => rng.word(),
        10 => rng.pick(&[0x0001_0000, 0x8000_0000, 0x7FFF_FFFC, 0x0100_0000]) + rng.below(8),
        _ => rng.below(memory_length.max(1)),
    }
}

/// A 32-bit datum.
pub fn datum(rng: &mut Rng) -> u32 {
    match rng.below(8) {
        0 => rng.pick(&[0, 1, 0xFF, 0x100, 0xFFFF, 0x1_0000, 0x7FFF_FFFF, 0x8000_0000, 0xFFFF_FFFF]),
        1 => rng.sparse(),
        2 => u32::from(legal_word(rng)) << 16 | u32::from(legal_word(rng)),
        _ => rng.word(),
    }
}

pub fn control_register(rng: &mut Rng) -> u32 {
    match rng.below(8) {
        0 => rng.below(0x1000),
        1 => u32::from(rng.pick(&CONTROL_REGISTERS)) ^ (1 << rng.below(12)),
        _ => u32::from(rng.pick(&CONTROL_REGISTERS)),
    }
}

pub fn size(rng: &mut Rng) -> Size {
    rng.pick(&Size::ALL)
}

/// A command word of the table, legal in some state.
pub fn legal_word(rng: &mut Rng) -> u16 {
    let kind = rng.pick(&[0x1800, 0x1900, 0x1C00, 0x1D00]);
    match rng.below(16) {
        0..=7 => kind + size(rng).field(),
        8 => 0x2080 + rng.below(16) as u16,
        9 => 0x2180 + rng.below(16) as u16,
        10 => 0x2880,
        11 => 0x2980,
        12 => 0x2C80 + rng.pick(&DEBUG_REGISTERS) as u16,
        13 => 0x2D80,
        14 => 0x0C00,
        _ => rng.below(2) as u16,
    }
}

/// The words just outside the table's ranges.
const EDGE_WORDS: [u16; 16] = [
    0x0002, 0x0BFF, 0x0C01, 0x1801, 0x1901, 0x207F, 0x2090, 0x217F, 0x2190, 0x2881, 0x2981, 0x2C7F, 0x2CA0, 0x2D7F,
    0x2DA0, 0xFFFF,
];

/// A word that is illegal in most states or all.
pub fn odd_word(rng: &mut Rng) -> u16 {
    match rng.below(8) {
        6..=7 => rng.pick(&EDGE_WORDS),
        0 => 0x2C80 + rng.below(32) as u16,
        1 => 0x2D80 + rng.below(32) as u16,
        2 => legal_word(rng) ^ (1 << rng.below(16)),
        3 => rng.pick(&[0x1800, 0x1900, 0x1C00, 0x1D00]) + 0xC0,
        4 => legal_word(rng).wrapping_add(1),
        _ => rng.word() as u16,
    }
}

fn long(words: &mut Vec<u32>, value: u32) {
    words.push(value >> 16);
    words.push(value & 0xFFFF);
}

fn data(rng: &mut Rng, words: &mut Vec<u32>, size: Size) {
    let value = datum(rng);
    match size {
        Size::Byte | Size::Word => words.push(value & 0xFFFF),
        Size::Long => long(words, value),
    }
}

/// A command word and all of its operands, aimed by what the bench holds.
pub fn command(rng: &mut Rng, bench: &Bench) -> Vec<u32> {
    let size = size(rng);
    let field = u32::from(size.field());
    let length = bench.memory.len() as u32;
    let chained = rng.percent(60);
    let mut words = Vec::new();
    match (bench.board.chain, rng.below(42)) {
        (Chain::Dump, _) if chained => words.push(0x1D00 + field),
        (Chain::Fill, _) if chained => {
            words.push(0x1C00 + field);
            data(rng, &mut words, size);
        }
        (_, 0..=7) => {
            words.push(0x1900 + field);
            long(&mut words, address(rng, length));
        }
        (_, 8..=14) => {
            words.push(0x1800 + field);
            long(&mut words, address(rng, length));
            data(rng, &mut words, size);
        }
        (_, 15) => words.push(0x1D00 + field),
        (_, 16) => {
            words.push(0x1C00 + field);
            data(rng, &mut words, size);
        }
        (_, 17..=19) => {
            words.push(0x2080 + rng.below(16));
            long(&mut words, datum(rng));
        }
        (_, 20..=21) => words.push(0x2180 + rng.below(16)),
        (_, 22..=24) => {
            words.push(0x2880);
            control_operand(rng, &mut words);
            long(&mut words, datum(rng));
        }
        (_, 25..=26) => {
            words.push(0x2980);
            control_operand(rng, &mut words);
        }
        (_, 27..=29) => words.push(0x2D80),
        (_, 30..=32) => words = debug_write(rng),
        (_, 33..=34) => words.push(0x0000),
        (_, 35) => words.push(0x0001),
        (_, 36) => words.push(0x0C00),
        (_, 37..=40) => words.push(u32::from(odd_word(rng))),
        _ => words.push(u32::from(legal_word(rng))),
    }
    words
}

fn control_operand(rng: &mut Rng, words: &mut Vec<u32>) {
    words.push(if rng.once_in(12) { rng.pick(&[1, 0x8000, 0x0801, 0xFFFF]) } else { 0 });
    words.push(if rng.once_in(16) { rng.below(0x1_0000) } else { control_register(rng) });
}
