//! Conversations with `talk`: every request, chains, stray words, refusals.

use super::Stored;
use crate::command::CONTROL_REGISTERS;
use crate::desk::Talk;
use crate::script::Writer;

pub fn all() -> Vec<Stored> {
    let mut stored: Vec<Stored> =
        (0..16).map(|w| Stored::script("talk", format!("requests_w{w:X}"), &requests(w))).collect();
    stored.push(Stored::script("talk", "stray_words", &stray_words()));
    stored.push(Stored::script("talk", "lessons", &lessons()));
    stored.push(Stored::script("talk", "refusals", &refusals()));
    stored
}

fn fresh(s: &mut Writer<Talk>, w: u32) {
    s.say(format!("make {w:X}"));
    s.say("memory 20");
    s.say("bytes 0 000102030405060708090A0B0C0D0E0F101112131415161718191A1B1C1D1E1F");
}

fn requests(w: u32) -> Vec<Vec<u8>> {
    let mut s = Writer::<Talk>::new();
    s.comment(&format!("Registers, W = {w}"));
    fresh(&mut s, w);
    for r in 0..16 {
        s.say(format!("wdreg {r:X} {:X}", 0x1111_1111u32 * r));
        s.say(format!("rdreg {r:X}"));
    }
    s.comment("Control registers, listed and not");
    for rc in CONTROL_REGISTERS {
        s.say(format!("wcreg {rc:X} {rc:X}0000{rc:03X}"));
        s.say(format!("rcreg {rc:X}"));
    }
    for rc in [0, 3, 0x800, 0xFFF] {
        s.say(format!("wcreg {rc:X} 1"));
        s.say(format!("rcreg {rc:X}"));
    }
    s.comment("Memory");
    for size in ["b", "w", "l"] {
        for a in ["0", "1", "2", "3", "1C", "1E", "1F", "20", "10000", "FFFFFFFD"] {
            s.say(format!("read.{size} {a}"));
            s.say(format!("dump.{size}"));
            s.say(format!("dump.{size}"));
            s.say("nop");
            s.say(format!("dump.{size}"));
            s.say(format!("write.{size} {a} 5A"));
            s.say(format!("fill.{size} A5"));
            s.say("nop");
            s.say(format!("fill.{size} 69"));
            s.say("peek 0 20");
        }
    }
    s.say("state");
    s.comment("Debug registers, listed and not");
    for n in 0..32 {
        s.say(format!("wdmreg {n:X} {:X}", 0xF00 + n));
    }
    for n in 0..32 {
        s.say(format!("rdmreg {n:X}"));
    }
    s.say("state");
    s.comment("Chains that are none");
    for line in [
        "dump.b", "fill.b 0", "fill.w 0", "fill.l 0", "read.b 0", "fill.b 0", "dump.b", "write.b 0 0", "dump.b",
        "fill.b 0", "sync_pc", "read.b 0", "sync_pc", "dump.b",
    ] {
        s.say(line);
    }
    s.comment("While running");
    s.say("wdmreg 0 0");
    s.say("go");
    for line in [
        "go", "rdreg 0", "wdreg 0 1", "rcreg 801", "wcreg 801 1", "read.l 0", "dump.l", "write.l 0 1", "fill.l 2",
        "rdmreg 0", "event 1000", "breakpoint", "rdreg 0", "rdmreg 0", "state",
    ] {
        s.say(line);
    }
    s.lines
}

fn stray_words() -> Vec<Vec<u8>> {
    let mut s = Writer::<Talk>::new();
    let strays: [u32; 24] = [
        0x0000, 0x0001, 0x0C00, 0x1800, 0x1840, 0x1880, 0x1900, 0x1940, 0x1980, 0x1C00, 0x1C80, 0x1D00, 0x1D80, 0x2080,
        0x2180, 0x2880, 0x2980, 0x2C80, 0x2C86, 0x2C87, 0x2D80, 0x2D81, 0x19C0, 0xFFFF,
    ];
    for w in [0, 1, 5] {
        for stray in strays {
            s.comment(&format!(
                "An operand word that is the command word {stray:04X} goes in after an illegal word; W = {w}"
            ));
            fresh(&mut s, w);
            for request in ["fill.w", "fill.l"] {
                let value = if request == "fill.l" { stray << 16 | 0x1980 } else { stray };
                s.say(format!("{request} {value:X}"));
                s.say("read.b 0");
                s.say("dump.w");
            }
            s.say(format!("wdmreg 1 {:X}", stray << 16));
            s.say("rdmreg 0");
            s.say("breakpoint");
            s.say("go");
            s.say(format!("wdreg 1 {:X}", stray << 16 | 0x0C00));
            s.say("state");
            s.say("nop");
            s.say("go");
            s.say(format!("wdreg 1 {:X}", stray << 16 | 0x0C00));
            s.say("breakpoint");
            s.say("rdreg 1");
            s.say("peek 0 8");
            s.say("state");
        }
    }
    s.comment("RCREG and WCREG while running: the stray word is zero, a NOP");
    fresh(&mut s, 2);
    s.say("go");
    s.say("read.b 0");
    s.say("rcreg 801");
    s.say("dump.b");
    s.say("read.b 0");
    s.say("wcreg 801 1");
    s.say("state");
    s.lines
}

fn lessons() -> Vec<Vec<u8>> {
    let mut s = Writer::<Talk>::new();
    for (title, lines) in [
        ("P1 and P2", &["make 1", "memory 10", "bytes 0 000102030405060708090A0B0C0D0E0F", "read.l 4", "dump.b"][..]),
        ("P3", &["make 0", "rdmreg 0", "rdmreg 0"]),
        (
            "P4",
            &[
                "make 0", "wdmreg 8 1000", "wdmreg 9 F", "wdmreg 7 40002002", "go", "event 1010", "event 100E",
                "rdmreg 0",
            ],
        ),
        (
            "P5",
            &[
                "make 0", "wdmreg 6 5", "wdmreg 8 2000", "wdmreg D 3000", "wdmreg 7 20042002", "go",
                "event 2000 3000 5 0", "state", "event 2000 3000 5 0", "state",
            ],
        ),
        ("P6", &["memory 0", "make 0", "read.b 0"]),
        ("P7", &["memory 10", "make 0", "read.b 0", "fill.b 0"]),
        (
            "A slot table is read",
            &[
                "memory 40", "make 3", "bytes 0 00000010000000200000003000000000", "read.l 0", "dump.l", "dump.l",
                "dump.l", "nop", "dump.l",
            ],
        ),
        (
            "A block is filled and looked at",
            &[
                "write.l 20 DEADBEEF", "fill.l CAFEBABE", "fill.w 1234", "fill.b 56", "peek 20 10", "read.l 20",
                "dump.l", "dump.l",
            ],
        ),
        (
            "A program is stepped",
            &[
                "make 2", "wcreg 80F 1000", "wdmreg 0 10", "go", "event 1000", "rdreg 0", "go", "event 1002",
                "sync_pc", "go", "event 1004", "rdmreg 0", "wdmreg 0 0", "go", "event 1006", "breakpoint", "rdmreg 0",
            ],
        ),
    ] {
        s.comment(title);
        for line in lines {
            s.say(*line);
        }
    }
    s.lines
}

fn refusals() -> Vec<Vec<u8>> {
    let mut s = Writer::<Talk>::new();
    let good = [
        "rdreg 0", "wdreg 0 1", "read.b 0", "write.l 0 1", "dump.b", "fill.b 1", "go", "nop", "sync_pc", "rcreg 801",
        "wcreg 801 1", "rdmreg 0", "wdmreg 8 1",
    ];
    let wild = [
        "rdreg 10", "wdreg 10 1", "write.b 0 100", "write.w 0 10000", "fill.b 100", "fill.w 10000", "rcreg 1000",
        "wcreg 1000 1", "rdmreg 20", "wdmreg 20 1", "rdreg FFFFFFFF",
    ];
    s.comment("Ground 13: nothing is sent");
    fresh(&mut s, 1);
    s.say("read.b 0");
    for request in wild {
        s.say(request);
    }
    s.say("state");
    s.say("dump.b");
    s.comment("Ground 3: nothing is sent; 13 before 3");
    for length in ["10001", "10010"] {
        s.say(format!("memory {length}"));
        for request in good.iter().chain(&wild) {
            s.say(*request);
        }
        s.say("state");
        s.say("memory 20");
        s.say("dump.b");
    }
    s.comment("Ground 3 while a stray READ is under way");
    s.say("fill.w 1980");
    s.say("state");
    s.say("memory 10001");
    s.say("nop");
    s.say("state");
    s.say("memory 20");
    s.say("nop");
    s.say("state");
    s.comment("Grounds 2, 4, 5, 6");
    for line in
        ["make 10", "make F", "event 0", "go", "event 1", "event 0 0 60 0", "event 1 0 60 0", "event 0 0 0 0", "state"]
    {
        s.say(line);
    }
    s.lines
}
