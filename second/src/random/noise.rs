//! Lines that are none of the language, or only just.

use super::aim::{address, hex, memory_length};
use super::breakpoints::event;
use super::Rng;
use crate::desk::Bench;
use crate::line::LINE_LIMIT;

/// What is nearly `help` or `quit`, and other lines that are none. `quit` itself would end the script.
const OTHER_LINES: [&[u8]; 11] =
    [b"help 0", b"help me", b"quit 0", b"QUIT now", b"quits", b"#quit", b"bye", b"unclear", b"\0", b"\x0B", b"\xFF"];

/// Numbers about the edges of what is one.
const OTHER_NUMBERS: [&[u8]; 18] = [
    b"100000000", b"FFFFFFFF", b"100", b"", b"1FFFF", b"20000", b"0x1", b"0X1f", b"0x", b"0X", b"0x0x1", b"00x1",
    b"x1", b"0x-1", b"0xG", b"0x100000000", b"0x00000000000000001", b"0XFFFFFFFF",
];

/// A comment, an empty line, or `line` spoilt in one of many ways. A spoilt line may still be clear, and one with a CR in it
/// is two.
pub fn noise(rng: &mut Rng, line: &[u8]) -> Vec<u8> {
    match rng.below(29) {
        0 => Vec::new(),
        1 => b"# a comment".to_vec(),
        2 => [rng.pick::<&[u8]>(&[b"#", b" #", b"\t#", b" \t # "]), line].concat(),
        3 => rng.pick::<&[u8]>(&[b" ", b"\t", b" \t  ", b"\r", b"\r \r"]).to_vec(),
        4 => rng.pick(&OTHER_LINES).to_vec(),
        5 => [rng.pick::<&[u8]>(&[b" ", b"\t", b"\x0B", b"\0", b"\xC2\xA0"]), line].concat(),
        6 => [line, rng.pick::<&[u8]>(&[b" ", b"\t", b"\x0C", b"\0", b" #", b" # x", b"#"])].concat(),
        7 => [line, b"\r"].concat(),
        8 => [line, b" 0"].concat(),
        9 => replace_first_space(line, rng.pick::<&[u8]>(&[b"  ", b"\t", b" \t "])),
        10 => replace_first_space(line, rng.pick::<&[u8]>(&[b"\x0B", b"\xA0", b",", b"\r", b"\0"])),
        11 => replace_first_space(line, b""),
        12 => line.to_ascii_uppercase(),
        13 => drop_last_word(line),
        14 => [line, rng.pick::<&[u8]>(&[b"00000000", b"FFFFFFFF", b"F", b"G", b"-", b"\xC3\xA9"])].concat(),
        15 => replace_last_word(line, rng.pick(&OTHER_NUMBERS)),
        16 => stretch_to(line, LINE_LIMIT + rng.below(3) as usize - 1),
        17 => stretch_to(b"packet 0", LINE_LIMIT + rng.below(2) as usize),
        18 => [b"#".as_slice(), &vec![b'-'; LINE_LIMIT + rng.below(3) as usize - 1]].concat(),
        19 => vec![b'x'; LINE_LIMIT + rng.below(8000) as usize],
        20 => spoil_byte(rng, line),
        21 => remove_byte(rng, line),
        22 => (0..rng.between(1, 20)).map(|_| rng.word() as u8).filter(|&byte| byte != b'\n').collect(),
        23 => insert(rng, line, b" \t"),
        24 => insert(rng, line, b"0xX#:."),
        25 => widen(rng, line),
        26 => after_blanks(rng, line),
        27 => rng.pick::<&[u8]>(&[b"help", b"HELP", b"\thelp "]).to_vec(),
        _ => {
            let mut line = stretch_to(line, line.len() + 1 + rng.below(20) as usize);
            line.make_ascii_lowercase();
            line
        }
    }
}

fn replace_first_space(line: &[u8], with: &[u8]) -> Vec<u8> {
    match line.iter().position(|&byte| byte == b' ') {
        Some(space) => [&line[..space], with, &line[space + 1..]].concat(),
        None => line.to_vec(),
    }
}

fn last_word(line: &[u8]) -> usize {
    line.iter().rposition(|&byte| byte == b' ').map_or(0, |space| space + 1)
}

fn drop_last_word(line: &[u8]) -> Vec<u8> {
    line[..last_word(line).saturating_sub(1)].to_vec()
}

fn replace_last_word(line: &[u8], with: &[u8]) -> Vec<u8> {
    [&line[..last_word(line)], with].concat()
}

/// Zeros before the last word until the line has this length.
fn stretch_to(line: &[u8], length: usize) -> Vec<u8> {
    let zeros = vec![b'0'; length.saturating_sub(line.len())];
    let (head, tail) = line.split_at(last_word(line));
    [head, &zeros, tail].concat()
}

/// Blanks before the line, between two words or behind it until it is as long as a line may be, or just not.
fn widen(rng: &mut Rng, line: &[u8]) -> Vec<u8> {
    let length = LINE_LIMIT + rng.below(3) as usize - 1;
    let blanks = vec![rng.pick(b" \t"); length.saturating_sub(line.len())];
    let place = rng.pick(&[0, last_word(line), line.len()]);
    let (head, tail) = line.split_at(place);
    [head, &blanks, tail].concat()
}

/// Something behind more blanks than a line may have, or just not.
fn after_blanks(rng: &mut Rng, line: &[u8]) -> Vec<u8> {
    let more = rng.pick(&[0, 1, 2, 5000]);
    let blanks = vec![rng.pick(b" \t"); LINE_LIMIT - 1 + more];
    let tail = rng.pick(&[b"".as_slice(), b"#", b"# x", b"x", b"quit", line]);
    // `quit` is too long even behind the fewest.
    [&blanks, tail].concat()
}

/// One of these bytes somewhere in the line.
fn insert(rng: &mut Rng, line: &[u8], bytes: &[u8]) -> Vec<u8> {
    let mut line = line.to_vec();
    line.insert(rng.below(line.len() as u32 + 1) as usize, rng.pick(bytes));
    line
}

fn spoil_byte(rng: &mut Rng, line: &[u8]) -> Vec<u8> {
    let mut line = line.to_vec();
    let place = rng.below(line.len() as u32) as usize;
    line[place] = match rng.word() as u8 {
        b'\n' => b'\r',
        byte => byte,
    };
    line
}

fn remove_byte(rng: &mut Rng, line: &[u8]) -> Vec<u8> {
    let mut line = line.to_vec();
    line.remove(rng.below(line.len() as u32) as usize);
    line
}

/// A line for the bench: `bytes`, `peek`, `state`, `memory`, `make`, `event`, `breakpoint`.
pub fn bench_line(rng: &mut Rng, bench: &Bench) -> String {
    let length = bench.memory.len() as u32;
    match rng.below(64) {
        0 => format!("make {}", hex_of(rng, 18)),
        1 => {
            let n = match rng.below(8) {
                0 => rng.pick(&[0x10010, 0x10011, 0x20000]),
                _ => memory_length(rng),
            };
            format!("memory {}", hex(rng, n))
        }
        2..=9 => {
            let a = address(rng, length);
            let n = match rng.below(12) {
                0 => rng.between(1, 2040),
                _ => rng.between(1, 12),
            };
            let lower = rng.once_in(6);
            let bytes: String = (0..n)
                .map(|_| match (rng.below(0x100), lower) {
                    (byte, true) => format!("{byte:02x}"),
                    (byte, false) => format!("{byte:02X}"),
                })
                .collect();
            format!("bytes {} {bytes}", hex(rng, a))
        }
        10..=24 => {
            let (a, n) = match rng.below(8) {
                0 => (address(rng, length), rng.pick(&[0, 1, 0x3FF, 0x400, 0x401])),
                1..=3 => (0, length.clamp(1, 0x20)),
                4..=5 => (length.saturating_sub(0x10), length.clamp(1, 0x10)),
                _ => (address(rng, length), rng.between(1, 8)),
            };
            format!("peek {} {}", hex(rng, a), hex(rng, n))
        }
        25..=40 => "state".to_string(),
        41..=46 => "breakpoint".to_string(),
        _ => event(rng, &bench.board),
    }
}

fn hex_of(rng: &mut Rng, below: u32) -> String {
    let value = rng.below(below);
    hex(rng, value)
}
