//! Random scripts for `pod`, and random requests.

use super::aim::{address, control_register, datum, hex, odd_word, size};
use super::noise::noise;
use super::Rng;
use crate::command::Size;

pub fn pod_script(rng: &mut Rng, length: usize) -> Vec<Vec<u8>> {
    (0..length).map(|_| pod_line(rng)).collect()
}

fn pod_line(rng: &mut Rng) -> Vec<u8> {
    let request = request(rng, 64, 8);
    let line = if rng.percent(25) {
        format!("build {request}")
    } else {
        format!("read {request} :{}", replies(rng, &request))
    };
    if rng.once_in(8) {
        noise(rng, line.as_bytes())
    } else {
        line.into_bytes()
    }
}

/// A request as it is typed, once in `wild` times with a field out of its range.
pub fn request(rng: &mut Rng, memory_length: u32, wild: u32) -> String {
    let size = size(rng);
    let suffix = match size {
        Size::Byte => "b",
        Size::Word => "w",
        Size::Long => "l",
    };
    let a = address(rng, memory_length);
    let a = hex(rng, a);
    let data = field(rng, wild, size_limit(size));
    let value = datum(rng);
    let value = hex(rng, value);
    let register = field(rng, wild, 15);
    let n = if rng.percent(50) {
        field(rng, wild, 31)
    } else {
        let n = rng.pick(&[0, 5, 6, 7, 8, 9, 0xC, 0xD, 0xE, 0xF]);
        hex(rng, n)
    };
    let rc = if rng.once_in(wild) {
        field(rng, 2, 0xFFF)
    } else {
        let rc = control_register(rng);
        hex(rng, rc)
    };
    match rng.below(26) {
        0..=1 => format!("rdreg {register}"),
        2..=3 => format!("wdreg {register} {value}"),
        4..=6 => format!("read.{suffix} {a}"),
        7..=9 => format!("write.{suffix} {a} {data}"),
        10..=12 => format!("dump.{suffix}"),
        13..=15 => format!("fill.{suffix} {data}"),
        16 => "go".to_string(),
        17 => "nop".to_string(),
        18 => "sync_pc".to_string(),
        19..=20 => format!("rcreg {rc}"),
        21..=22 => format!("wcreg {rc} {value}"),
        23 => format!("rdmreg {}", if rng.percent(50) { "0".to_string() } else { n }),
        _ => format!("wdmreg {n} {value}"),
    }
}

fn size_limit(size: Size) -> u32 {
    match size {
        Size::Byte => 0xFF,
        Size::Word => 0xFFFF,
        Size::Long => 0xFFFF_FFFF,
    }
}

/// A field up to `limit`, or once in `wild` times beyond it.
fn field(rng: &mut Rng, wild: u32, limit: u32) -> String {
    let value = if rng.once_in(wild) {
        match rng.below(4) {
            0 => limit.wrapping_add(1),
            1 => rng.word(),
            2 => 0xFFFF_FFFF,
            _ => limit,
        }
    } else if limit == 0xFFFF_FFFF {
        datum(rng)
    } else {
        match rng.below(4) {
            0 => limit,
            1 => 0,
            _ => rng.below(limit + 1),
        }
    };
    hex(rng, value)
}

/// Replies that the request can have, damaged now and then; each with a space before it.
fn replies(rng: &mut Rng, request: &str) -> String {
    let name = request.split(' ').next().unwrap_or(request);
    let mut words = vec![0x10000; rng.below(5) as usize];
    match rng.below(8) {
        0 => words.push(0x10001),
        1 => words.push(0x1FFFF),
        _ => match name {
            "read.b" | "dump.b" => words.push(rng.below(0x100)),
            "read.w" | "dump.w" => words.push(rng.below(0x1_0000)),
            "read.l" | "dump.l" | "rdreg" | "rcreg" | "rdmreg" => {
                words.push(rng.below(0x1_0000));
                words.push(rng.below(0x1_0000));
            }
            _ => words.push(0xFFFF),
        },
    }
    for _ in 0..rng.below(3) {
        words.push(stray(rng));
    }
    match rng.below(6) {
        0 => words.truncate(rng.below(words.len() as u32 + 1) as usize),
        1 => {
            let place = rng.below(words.len() as u32) as usize;
            words[place] = stray(rng);
        }
        2 => {
            let place = rng.below(words.len() as u32 + 1) as usize;
            words.insert(place, stray(rng));
        }
        _ => {}
    }
    words.iter().map(|&word| format!(" {}", hex(rng, word))).collect()
}

fn stray(rng: &mut Rng) -> u32 {
    match rng.below(10) {
        0 => 0x10000,
        1 => 0x10001,
        2 => 0x1FFFF,
        3 => rng.pick(&[0x10002, 0x1FFFE, 0x18000, 0x1FF00]),
        4 => rng.pick(&[0x20000, 0xFFFF_FFFF, 0x2_0000 + 0xFFFF]),
        5 => rng.pick(&[0xFFFF, 0xFFFE, 0xFF, 0x100, 0]),
        6 => rng.word(),
        7 => u32::from(odd_word(rng)),
        _ => rng.below(0x2_0000),
    }
}
