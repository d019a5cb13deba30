//! Every request with its words, and with good and damaged replies.

use super::unclear::REQUESTS;
use super::Stored;
use crate::random::{pod_script, Rng};

pub fn all() -> Vec<Stored> {
    vec![
        Stored::script("pod", "build", &builds()),
        Stored::script("pod", "read", &reads()),
        Stored::script("pod", "read_mixed", &mixed()),
    ]
}

const VALUES: [u32; 12] =
    [0, 1, 0xFF, 0x100, 0x7FFF, 0xFFFF, 0x1_0000, 0x1234_5678, 0x7FFF_FFFF, 0x8000_0000, 0xFFFF_0000, 0xFFFF_FFFF];

fn builds() -> Vec<Vec<u8>> {
    let mut lines = Vec::new();
    let mut say = |text: String| lines.push(text.into_bytes());
    for name in ["rdreg", "wdreg"] {
        say(format!("# {name}: registers 0 to 15, and beyond"));
        let tail = if name == "wdreg" { " 89ABCDEF" } else { "" };
        for r in (0u32..=20).chain([0xFF, 0x1_0000, 0xFFFF_FFFF]) {
            say(format!("build {name} {r:X}{tail}"));
        }
    }
    say("# wdreg, wcreg, wdmreg: 32 bits of data".to_string());
    for value in VALUES {
        say(format!("build wdreg 3 {value:X}"));
        say(format!("build wcreg 801 {value:X}"));
        say(format!("build wdmreg 7 {value:X}"));
    }
    for size in ["b", "w", "l"] {
        say(format!("# read.{size}, write.{size}, dump.{size}, fill.{size}: addresses and data"));
        say(format!("build dump.{size}"));
        for value in VALUES {
            say(format!("build read.{size} {value:X}"));
            say(format!("build write.{size} {value:X} 5A"));
            say(format!("build write.{size} 10 {value:X}"));
            say(format!("build write.{size} FFFFFFFF {value:X}"));
            say(format!("build fill.{size} {value:X}"));
        }
    }
    say("# rcreg and wcreg: Rc 0 to FFF, listed or not, and beyond".to_string());
    for rc in (0u32..=16)
        .chain([0x801, 0x804, 0x805, 0x806, 0x80E, 0x80F, 0xC04, 0xFFE, 0xFFF, 0x1000, 0x1801, 0x1_0000, 0xFFFF_FFFF])
    {
        say(format!("build rcreg {rc:X}"));
        say(format!("build wcreg {rc:X} 12345678"));
    }
    say("# rdmreg and wdmreg: n 0 to 31, listed or not, and beyond".to_string());
    for n in (0u32..=40).chain([0xFF, 0xFFFF_FFFF]) {
        say(format!("build rdmreg {n:X}"));
        say(format!("build wdmreg {n:X} 12345678"));
    }
    say("# go, nop, sync_pc".to_string());
    for name in ["go", "nop", "sync_pc"] {
        say(format!("build {name}"));
    }
    lines
}

const OUT_OF_RANGE: [&str; 12] = [
    "rdreg 10", "wdreg 10 2", "write.b 0 100", "write.w 0 10000", "fill.b 100", "fill.w 10000", "rcreg 1000",
    "wcreg 1000 1", "rdmreg 20", "wdmreg 20 1", "rdreg FFFFFFFF", "rdmreg 100",
];

const FIRST: [&str; 20] = [
    "0", "1", "7F", "80", "FF", "100", "1FF", "1234", "8000", "FFFE", "FFFF", "10000", "10001", "10002", "100FF",
    "18000", "1FFFE", "1FFFF", "20000", "FFFFFFFF",
];

fn reads() -> Vec<Vec<u8>> {
    let mut lines = Vec::new();
    let mut say = |text: String| lines.push(text.into_bytes());
    for request in REQUESTS {
        say(format!("# {request}: no reply, not ready, each first word, each second word, words after the result"));
        say(format!("read {request} :"));
        for n in 1..=17 {
            say(format!("read {request} :{}", " 10000".repeat(n)));
        }
        for first in FIRST {
            say(format!("read {request} : {first}"));
            say(format!("read {request} : 10000 {first}"));
            say(format!("read {request} : 10000 10000 10000 {first} {first}"));
            say(format!("read {request} : {first} 20000"));
            say(format!("read {request} : 20000 {first}"));
            say(format!("read {request} : 10002 {first}"));
        }
        for second in FIRST {
            say(format!("read {request} : 12 {second}"));
            say(format!("read {request} : 10000 FFFF {second} 20000"));
            say(format!("read {request} : 10000 0 {second}"));
            say(format!("read {request} : 0 0 {second}"));
        }
    }
    for request in OUT_OF_RANGE {
        say(format!("# {request}: ground 13 before all else"));
        for replies in ["", " FFFF", " 0 0", " 10000", " 10001", " 1FFFF", " 10002", " 20000", " FFFFFFFF"] {
            say(format!("read {request} :{replies}"));
        }
    }
    lines
}

fn mixed() -> Vec<Vec<u8>> {
    let mut lines = vec![b"# Requests in and out of range, with good and damaged replies, mixed".to_vec()];
    lines.extend(pod_script(&mut Rng::new(5307), 6000));
    lines.retain(|line| line.len() < 200);
    lines
}
