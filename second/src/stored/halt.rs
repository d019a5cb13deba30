//! Request [6] of 02: events marked as HALT, beside everything else that an event may do, and the lines that say so.

use super::firing::{EBL, EPC};
use super::typed::ways;
use super::unclear::{spoilt, REQUESTS};
use super::Stored;
use crate::desk::{StandIn, Talk};
use crate::script::{Listener, Writer};

pub fn all() -> Vec<Stored> {
    vec![
        Stored::script("stand_in", "halt_together", &together()),
        Stored::script("stand_in", "halt_csr_bits", &csr_bits()),
        Stored::script("stand_in", "halt_sequences", &sequences()),
        Stored::script("stand_in", "halt_phases_w0", &phases(0)),
        Stored::script("stand_in", "halt_phases_w2", &phases(2)),
        Stored::script("stand_in", "halt_refusals", &refusals()),
        Stored::script("stand_in", "halt_words", &words_in_any_order::<StandIn>("packet C00", 6)),
        Stored::script("stand_in", "halt_typed", &typed::<StandIn>("packet C00")),
        Stored::script("talk", "halt_words", &words_in_any_order::<Talk>("go", 5)),
        Stored::script("talk", "halt_typed", &typed::<Talk>("go")),
        Stored::script("talk", "halt_requests_w0", &requests(0)),
        Stored::script("talk", "halt_requests_wF", &requests(15)),
    ]
}

/// What may stand at the end of an event.
const MARKS: [&str; 3] = ["", " halt user", " halt supervisor"];

const UHE: u32 = 1 << 10;
const BKD: u32 = 1 << 18;
const SSM: u32 = 1 << 4;

/// Where the trigger stands before the event, which is at PBR.
#[derive(Clone, Copy, Debug)]
enum Trigger {
    Off,
    /// Level 1 is tried and does not fire.
    NotHere,
    /// Level 1 fires, and there is no level 2.
    Level1,
    /// Level 1 fires, and level 2 is waited for.
    Level1Of2,
    Level2,
    /// Level 1 has fired before.
    Fired,
}

const TRIGGERS: [Trigger; 6] =
    [Trigger::Off, Trigger::NotHere, Trigger::Level1, Trigger::Level1Of2, Trigger::Level2, Trigger::Fired];

impl Trigger {
    fn tdr(self) -> u32 {
        let here = EBL | EPC;
        match self {
            Trigger::Off => 0,
            // EPC turned round: the PC agrees, so it does not hold.
            Trigger::NotHere => here | 1,
            Trigger::Level1 | Trigger::Fired => here,
            Trigger::Level1Of2 | Trigger::Level2 => here << 16 | here,
        }
    }

    /// Whether an event at PBR has gone before.
    fn has_begun(self) -> bool {
        matches!(self, Trigger::Level2 | Trigger::Fired)
    }
}

/// GO if the processor is halted.
fn keep_running(s: &mut Writer<StandIn>) {
    if s.board().is_halted() {
        s.packet(0x0C00);
    }
}

/// WDMREG without waiting for the reply.
fn write(s: &mut Writer<StandIn>, n: u32, value: u32) {
    s.packets(&[0x2C80 + n, value >> 16, value & 0xFFFF]);
}

fn together() -> Vec<Vec<u8>> {
    let mut s = Writer::<StandIn>::new();
    write(&mut s, 0x08, 0x1000);
    let mut place = 0;
    for bits in 0..8 {
        let csr = [UHE, SSM, BKD].iter().enumerate().map(|(place, bit)| bit * (bits >> place & 1)).sum();
        for trigger in TRIGGERS {
            for response in 0..4 {
                s.comment(&format!(
                    "CSR {csr:X}, trigger {trigger:?}, response {response}: each mark, SYNC_PC, access"
                ));
                write(&mut s, 0x00, csr);
                for mark in MARKS {
                    for sync in [false, true] {
                        for access in ["", " 2000 5 0"] {
                            write(&mut s, 0x07, response << 30 | trigger.tdr());
                            keep_running(&mut s);
                            if trigger.has_begun() {
                                s.say("event 1000");
                                keep_running(&mut s);
                            }
                            if sync {
                                s.packet(0x0001);
                            }
                            s.say(format!("event 1000{access}{mark}"));
                            s.say("state");
                            look_further(&mut s, place);
                            place += 1;
                        }
                    }
                }
            }
        }
    }
    s.say("state");
    s.lines
}

/// One of the ways to go on after an event: CSR is read, the breakpoint input is asserted, or nothing.
fn look_further(s: &mut Writer<StandIn>, place: usize) {
    match place % 5 {
        0 => s.command(&[0x2D80]),
        1 => {
            s.command(&[0x2D80]);
            s.say("state");
        }
        2 => {
            keep_running(s);
            s.say("state");
        }
        3 => {
            s.say("breakpoint");
            s.say("state");
        }
        _ => {}
    }
}

fn csr_bits() -> Vec<Vec<u8>> {
    let mut s = Writer::<StandIn>::new();
    for bit in 0..32 {
        for csr in [1 << bit, !(1 << bit), 1 << bit | UHE, !(1 << bit) & !SSM, !(1 << bit) & !UHE & !SSM] {
            s.comment(&format!("CSR {csr:X}: each mark"));
            write(&mut s, 0x00, csr);
            for mark in MARKS {
                keep_running(&mut s);
                s.say(format!("event 1000{mark}"));
                s.command(&[0x2D80]);
            }
            s.say("state");
        }
    }
    s.lines
}

/// What may happen to a running board, with a name.
const STEPS: [(&str, &[&str]); 10] = [
    ("HALT in user mode", &["event 1000 halt user"]),
    ("HALT in supervisor mode", &["event 1000 halt supervisor"]),
    ("HALT elsewhere", &["event 1002 halt user"]),
    ("no HALT", &["event 1000"]),
    ("the breakpoint input", &["breakpoint"]),
    ("GO", &["packet C00", "packet 0"]),
    ("CSR read", &["packet 2D80", "packet 0", "packet 0"]),
    ("UHE set", &["packet 2C80", "packet 0", "packet 400"]),
    ("UHE clear", &["packet 2C80", "packet 0", "packet 0"]),
    ("a breakpoint that halts", &["packet 2C87", "packet 4000", "packet 2002"]),
];

fn sequences() -> Vec<Vec<u8>> {
    let mut s = Writer::<StandIn>::new();
    for first in STEPS {
        for second in STEPS {
            s.comment(&format!("{}, {}, then each", first.0, second.0));
            for third in STEPS {
                s.say("make 0");
                write(&mut s, 0x08, 0x1000);
                s.packet(0x0C00);
                for step in [first, second, third] {
                    for line in step.1 {
                        s.say(*line);
                    }
                }
                s.say("state");
                s.say("event 1000 halt user");
                s.command(&[0x2D80]);
            }
        }
    }
    s.lines
}

/// Commands of every kind, all of their words.
const COMMANDS: [&[u32]; 14] = [
    &[0x0000],
    &[0x0001],
    &[0x0C00],
    &[0x2180],
    &[0x2081, 0x1234, 0x5678],
    &[0x1980, 0, 4],
    &[0x1840, 0, 4, 0xA1A2],
    &[0x1900, 0, 0x20],
    &[0x2980, 0, 0x801],
    &[0x2880, 0, 0x801, 1, 2],
    &[0x2D80],
    &[0x2C80, 0, 0x400],
    &[0x2C87, 0x4000, 0x2002],
    &[0x19C0],
];

/// An event between any two packets of a command, in a running board and in one that HALT has halted before.
fn phases(w: u32) -> Vec<Vec<u8>> {
    let mut s = Writer::<StandIn>::new();
    for words in COMMANDS {
        for mark in MARKS {
            s.comment(&format!("{:04X} with its operands: an event{mark} at each packet, W = {w}", words[0]));
            let packets = words.len() + w as usize + 2;
            for place in 0..packets {
                s.say(format!("make {w:X}"));
                s.say("memory 10");
                s.packet(0x0C00);
                if place % 2 == 1 {
                    s.say("event 0 halt supervisor");
                }
                for (at, &packet) in words.iter().chain(&vec![0; packets - words.len()]).enumerate() {
                    if at == place {
                        s.say(format!("event 0{mark}"));
                    }
                    s.packet(packet);
                }
                s.say("state");
            }
        }
    }
    s.lines
}

fn refusals() -> Vec<Vec<u8>> {
    let mut s = Writer::<StandIn>::new();
    for csr in [0, UHE, SSM, UHE | SSM] {
        s.comment(&format!("CSR {csr:X}: grounds 4, 5 and 6 in their order, each mark; SYNC_PC pending"));
        for halted in [true, false] {
            s.say("make 0");
            write(&mut s, 0x00, csr);
            write(&mut s, 0x07, 0x4000_2002);
            s.packets(&[0x0001, 0]);
            for pc in ["1001", "FFFFFFFF", "1000", "1002"] {
                for access in [" 2000 60 0", " 2000 7F 0", " 2000 FF FFFFFFFF", " 2000 5 0", ""] {
                    for mark in MARKS {
                        if halted && !s.board().is_halted() {
                            s.say("breakpoint");
                        } else if !halted {
                            keep_running(&mut s);
                        }
                        s.say(format!("event {pc}{access}{mark}"));
                    }
                    s.say("state");
                }
            }
        }
    }
    s.lines
}

/// Every line of so many words of a few, and of fewer. What may follow `event` is a number and the words of a mark.
fn words_in_any_order<P: Listener>(go: &str, most: u32) -> Vec<Vec<u8>> {
    const WORDS: [&str; 4] = ["0", "halt", "user", "supervisor"];
    let mut s = Writer::<P>::new();
    for count in 0..=most {
        s.comment(&format!("event and {count} words, in any order"));
        for choice in 0..4usize.pow(count) {
            if s.board().is_halted() {
                s.say(go);
            }
            let words = (0..count).map(|place| WORDS[choice / 4usize.pow(place) % 4]);
            s.say(words.fold("event".to_string(), |line, word| line + " " + word));
        }
    }
    s.say("state");
    s.lines
}

/// Lines with a mark, and those made by leaving a word out, doubling it, putting another in its place or after it.
fn typed<P: Listener>(go: &str) -> Vec<Vec<u8>> {
    let mut s = Writer::<P>::new();
    for line in ["event 1000 halt user", "event 1000 2000 5 0 halt supervisor", "event 1000 2000 5 0 halt user"] {
        let mut others: Vec<Vec<u8>> = spoilt(line);
        others.extend(ways(line).into_iter().map(String::into_bytes));
        others.extend(words_changed(line));
        others.extend((0..=line.len()).flat_map(|place| {
            [" ", "\t", "\r", "h"].map(|byte| format!("{}{byte}{}", &line[..place], &line[place..]).into_bytes())
        }));
        others.extend((0..line.len()).map(|place| format!("{}{}", &line[..place], &line[place + 1..]).into_bytes()));
        s.comment(&format!("{line}: typed in other ways, and spoilt"));
        for other in others {
            if s.board().is_halted() {
                s.say(go);
            }
            s.say(other);
        }
        s.say("state");
    }
    s.lines
}

fn words_changed(line: &str) -> Vec<Vec<u8>> {
    const OTHERS: [&str; 14] = [
        "halt", "user", "supervisor", "halts", "Halt", "USER", "usr", "users", "superviser", "super", "0", "0x0", "#",
        "none",
    ];
    let words: Vec<&str> = line.split(' ').collect();
    let mut changed = Vec::new();
    for place in 1..=words.len() {
        let (head, tail) = words.split_at(place);
        changed.push([&head[..place - 1], tail].concat());
        for other in OTHERS {
            changed.push([head, &[other], tail].concat());
            changed.push([&head[..place - 1], &[other], tail].concat());
        }
    }
    changed.into_iter().map(|words| words.join(" ").into_bytes()).collect()
}

fn requests(w: u32) -> Vec<Vec<u8>> {
    let mut s = Writer::<Talk>::new();
    for (csr, mark) in [(0, MARKS[0]), (0, MARKS[1]), (UHE, MARKS[1]), (0, MARKS[2]), (UHE | SSM, MARKS[2])] {
        s.comment(&format!("CSR {csr:X}, an event{mark}, then each request; W = {w}"));
        for request in REQUESTS {
            s.say(format!("make {w:X}"));
            s.say("memory 20");
            s.say(format!("wdmreg 0 {csr:X}"));
            s.say("go");
            s.say(format!("event 1000{mark}"));
            s.say(request);
            s.say("state");
            s.say("rdmreg 0");
            s.say(format!("event 1000{mark}"));
            s.say("rdmreg 0");
        }
    }
    s.lines
}
