//! Scenes for `gateway`: every W, every place within every command, tables about blocks and the end of memory, a lag or
//! another answer at every packet, replies as people type them, arguments.

use super::Stored;
use crate::command::CONTROL_REGISTERS;
use crate::desk::StandIn;
use crate::random::{gateway_script, Rng};
use crate::script::Writer;
use crate::visit::{Table, Visit};

pub fn all() -> Vec<Stored> {
    let mut stored = Vec::new();
    for w in 0..16 {
        stored.push(Stored::script("gateway", format!("registers_w{w:X}"), &registers(w)));
    }
    for w in [0, 1, 15] {
        stored.push(Stored::script("gateway", format!("half_sent_w{w:X}"), &half_sent(w)));
    }
    stored.push(Stored::script("gateway", "tables", &tables()));
    stored.push(Stored::script("gateway", "long_table", &long_table()));
    stored.push(Stored::script("gateway", "lag_from_the_start", &lag_from_the_start()));
    for (name, w, running, step) in [("w0", 0, false, 1), ("w3", 3, false, 2), ("running", 0, true, 7)] {
        stored.push(Stored::script("gateway", format!("lag_{name}"), &lag_at_each(w, running, step)));
        stored.push(Stored::script("gateway", format!("answers_{name}"), &answers_at_each(w, running, step)));
    }
    stored.push(Stored::script("gateway", "typed", &typed()));
    stored.push(Stored::script("gateway", "arguments", &arguments()));
    for seed in 1..=12 {
        let lines = gateway_script(&mut Rng::new(seed), 4);
        stored.push(Stored::script("gateway", format!("mixed_{seed:02}"), &lines));
    }
    stored
}

/// A line that only a bridge understands.
fn tell(s: &mut Writer<StandIn>, line: impl Into<String>) {
    s.lines.push(line.into().into_bytes());
}

/// Bytes that differ from place to place.
fn fill_memory(s: &mut Writer<StandIn>, length: u32) {
    s.say(format!("memory {length:X}"));
    for start in (0..length).step_by(0x400) {
        let place = start..length.min(start + 0x400);
        let hex: String = place.map(|at| format!("{:02X}", (at * 7 + at / 256) as u8)).collect();
        s.say(format!("bytes {start:X} {hex}"));
    }
}

fn fresh(s: &mut Writer<StandIn>, w: u32, memory: u32) {
    s.say(format!("make {w:X}"));
    fill_memory(s, memory);
}

/// Each register holds a value of its own.
fn fill_registers(s: &mut Writer<StandIn>) {
    for n in 0..16 {
        s.command(&[0x2080 + n, 0xD000 + n, 0x1111 * n]);
    }
    for rc in CONTROL_REGISTERS.map(u32::from) {
        s.command(&[0x2880, 0, rc, 0xC000 + rc, rc]);
    }
}

fn registers(w: u32) -> Vec<Vec<u8>> {
    let mut s = Writer::new();
    s.comment(&format!("Registers with values of their own, W = {w}: halted, running, halted by the breakpoint input"));
    fresh(&mut s, w, 0x30);
    fill_registers(&mut s);
    tell(&mut s, "visit 8 6");
    tell(&mut s, "visit 28 6");
    s.command(&[0x0C00]);
    tell(&mut s, "visit 8 6");
    tell(&mut s, "visit 30 1");
    s.say("breakpoint");
    tell(&mut s, "visit");
    s.say("state");
    s.lines
}

/// Commands with all their operand words, and what must stand before a DUMP or a FILL.
fn commands() -> Vec<(Vec<u32>, Vec<u32>)> {
    let mut commands: Vec<(Vec<u32>, Vec<u32>)> = [
        &[0x2183][..],
        &[0x2085, 0x1234, 0x5678],
        &[0x0C00],
        &[0x0001],
        &[0x2980, 0, 0x801],
        &[0x2980, 0, 0x800],
        &[0x2880, 0, 0xC04, 0xABCD, 0xEF01],
        &[0x2D80],
        &[0x2C80, 0x0004, 0x0010],
        &[0xFFFF],
        &[0x11980],
        &[0x1980, 0, 0x10004],
        &[0x1900, 0, 5],
        &[0x1940, 0, 6],
        &[0x1980, 0, 4],
        &[0x1980, 0x8000, 0],
        &[0x1800, 0, 5, 0xA5],
        &[0x1840, 0, 6, 0xA5A5],
        &[0x1880, 0, 4, 0xA5A5, 0x5A5A],
        &[0x1880, 0x8000, 0, 0xA5A5, 0x5A5A],
    ]
    .map(|words| (Vec::new(), words.to_vec()))
    .into();
    for size in [0x00, 0x40, 0x80] {
        commands.push((vec![0x1980, 0, 4], vec![0x1D00 + size]));
    }
    for words in [&[0x1C00, 0xA5][..], &[0x1C40, 0xA5A5], &[0x1C80, 0xA5A5, 0x5A5A]] {
        commands.push((vec![0x1880, 0, 4, 0x1122, 0x3344], words.to_vec()));
    }
    commands
}

fn half_sent(w: u32) -> Vec<Vec<u8>> {
    let mut s = Writer::new();
    for (before, words) in commands() {
        s.comment(&format!("{:05X} and so many of its packets, W = {w}", words[0]));
        // All of its words, the first and the last packets that it waits, and its results.
        let waits = w as usize;
        let sent = (1..=words.len() + waits + 2).filter(|&sent| {
            let waited = sent.saturating_sub(words.len());
            waited <= 1 || waited >= waits
        });
        for sent in sent {
            fresh(&mut s, w, 0x10);
            if !before.is_empty() {
                s.command(&before);
            }
            for place in 0..sent {
                s.packet(words.get(place).copied().unwrap_or(0));
            }
            tell(&mut s, "visit 4 2");
            s.say("peek 0 10");
        }
    }
    s.lines
}

fn tables() -> Vec<Vec<u8>> {
    let mut s = Writer::new();
    for length in [0u32, 1, 3, 4, 5, 8, 0x3FC, 0x3FF, 0x400, 0x403, 0x404, 0x804] {
        s.comment(&format!("A memory of {length:X}"));
        fresh(&mut s, length % 3, length);
        for address in [0, 4, length & !3, (length & !3).saturating_sub(4), 0x1_0000, 0x8000_0000, 0xFFFF_FFFC] {
            let longwords = if address == 0xFFFF_FFFC { 1 } else { 3 };
            tell(&mut s, format!("visit {address:X} {longwords:X}"));
        }
        for longwords in [0xFF, 0x100, 0x101, 0x201] {
            tell(&mut s, format!("visit 0 {longwords:X}"));
        }
    }
    s.lines
}

fn long_table() -> Vec<Vec<u8>> {
    let mut s = Writer::new();
    s.comment("4,096 longwords, and the memory's end after them");
    fresh(&mut s, 0, 0x4000);
    tell(&mut s, "visit 0 1001");
    s.lines
}

fn lag_from_the_start() -> Vec<Vec<u8>> {
    let mut s = Writer::new();
    s.comment("Late by 1 to 24 packets from the start, with this or that before");
    for by in 1..=24 {
        for (earlier, w) in [(0x0FFFF, by % 16), (0x1FFFF, 15)] {
            for begun in [&[0x0C00][..], &[0xFFFF], &[0x1880]] {
                s.say(format!("make {w:X}"));
                s.packets(begun);
                tell(&mut s, format!("from 1 lag {by} earlier {earlier:05X}"));
                tell(&mut s, "visit");
            }
        }
    }
    s.lines
}

/// The board that is lagged, or whose answers are spoilt, at each packet; and how many packets a visit to it has.
fn scene(s: &mut Writer<StandIn>, w: u32, running: bool) -> usize {
    fresh(s, w, 0x10);
    fill_registers(s);
    if running {
        s.command(&[0x0C00]);
    }
    let mut visit = Visit::new(Table::new(4, 4).expect("a table"));
    let (mut board, mut memory) = (s.board().clone(), s.bench().memory.clone());
    let mut packets = 0;
    while let Some(packet) = visit.next_packet() {
        visit.take(board.packet(&mut memory, packet).ok());
        packets += 1;
    }
    packets
}

fn lag_at_each(w: u32, running: bool, step: usize) -> Vec<Vec<u8>> {
    let mut s = Writer::new();
    s.comment(&format!("A lag that begins at each packet, or at each of {step}, and stays; W = {w}"));
    let packets = scene(&mut s, w, running);
    for (place, from) in (1..=packets).step_by(step).enumerate() {
        tell(&mut s, format!("from {from} lag {}", 1 + place % 19));
        tell(&mut s, "visit 4 4");
    }
    s.lines
}

fn answers_at_each(w: u32, running: bool, step: usize) -> Vec<Vec<u8>> {
    const ANSWERS: [&str; 19] = [
        "reply 20000\\n", "reply 0FFFF\\n", "reply 1FFFF\\n", "reply 10000\\n", "reply 10001\\n", "reply 10002\\n",
        "reply 00000\\n", "reply 0FFFE\\n", "unclear\\n", "refused 3 at 0\\n", "", "reply {X}", "\\n\\n", "# {X}\\n",
        "reply {X}\\nreply {X}\\n", "reply\\n{X}\\n", "reply {X}0\\n", "reply FFFFFFFF\\n", "reply 1{X}000\\n",
    ];
    let mut s = Writer::new();
    s.comment(&format!("Another answer at each packet, or at each of {step}; W = {w}"));
    let packets = scene(&mut s, w, running);
    for (place, at) in (1..=packets).step_by(step).enumerate() {
        tell(&mut s, format!("at {at} answer {}", ANSWERS[place % ANSWERS.len()]));
        tell(&mut s, "visit 4 4");
        // Not ready any more, or silent.
        match place % 4 {
            0 => tell(&mut s, format!("from {at} answer reply 10000\\n")),
            2 => tell(&mut s, format!("at {at} silent")),
            _ => continue,
        }
        tell(&mut s, "visit 4 4");
    }
    s.lines
}

fn typed() -> Vec<Vec<u8>> {
    let mut s = Writer::new();
    s.comment("Every reply typed in one way");
    fresh(&mut s, 1, 8);
    for end in ["\\n", "\\r", "\\r\\n", "\\n\\r", "\\r\\r\\n", "\\n\\n\\n", " \\r", "\\t\\r\\n", "\\r#\\r", "\\r \\n"] {
        for reply in ["reply {X}", "REPLY {x}", "\\tReply\\t0x{X}", "  rEPLY  0X000{x}\\t "] {
            tell(&mut s, format!("from 1 answer {reply}{end}"));
            tell(&mut s, "visit 4 2");
        }
    }
    s.comment("One reply typed in another");
    for reply in [
        "reply\\x0B{X}", "reply\\xA0{X}", "reply\\x00{X}", "\\x00reply {X}", "reply {X}\\x00", "\\x0Creply {X}",
        "reply {X} #", "#reply {X}", "reply #{X}", "reply {X}h", "reply ${X}", "reply x{X}", "reply 0x",
        "reply 0x0x{X}", "reply 00x{X}", "reply +{X}", "reply -{X}", "reply: {X}", "reply={X}", "reply {X},",
        "replies {X}", "rep ly {X}", "reply {X} {X}", "{X}", "{X} reply", "reply", "packet {X}",
        "reply 000000000000000000{X}", "reply 100000000", "reply FFFFFFFF", "reply 1FFFFFFFF",
        "\\xEF\\xBB\\xBFreply {X}", "help", "quit", "bye", "reply\\r{X}", "repl\\xFF {X}", "reply \\xEF\\xBC\\x90",
    ] {
        for at in [3, 30] {
            tell(&mut s, format!("at {at} answer {reply}\\n"));
            tell(&mut s, "visit");
        }
    }
    s.comment("Lines of 4,095, 4,096 and 4,097 bytes, and longer ones that do not count");
    for length in [4095usize, 4096, 4097, 8192, 65_536] {
        let fill = length - "reply 0FFFF".len();
        let (blanks, zeros) = (" ".repeat(fill), "0".repeat(fill));
        for text in [
            format!("{blanks}reply {{X}}\\n"),
            format!("reply{blanks} {{X}}\\n"),
            format!("reply {{X}}{blanks}\\n"),
            format!("reply {zeros}{{X}}\\n"),
            format!("#{blanks}\\nreply {{X}}\\n"),
            format!("{blanks}\\nreply {{X}}\\n"),
            format!("{blanks}#\\nreply {{X}}\\n"),
            format!("{blanks}x\\nreply {{X}}\\n"),
        ] {
            tell(&mut s, format!("at 30 answer {text}"));
            tell(&mut s, "visit");
        }
    }
    s.lines
}

fn arguments() -> Vec<Vec<u8>> {
    let mut s = Writer::new();
    s.comment("Arguments of every kind; silence shows that a visit has begun");
    let addresses =
        ["0", "4", "0x8", "0X000c", "1", "2", "3", "FFFFFFFC", "fffffffc", "FFFFFFFF", "FFFC0000", "FFFC0004"];
    let longwords = ["0", "1", "2", "0xA", "10000", "10001", "FFFFFFFF", "40000000"];
    for address in addresses {
        for longwords in longwords {
            tell(&mut s, "at 1 silent");
            tell(&mut s, format!("visit {address} {longwords}"));
        }
    }
    let odd = [
        "\"\"", "\\x20", "x", "0x", "0xG", "-0", "+0", "100000000", "00000000000000000", "0x0x0", "--", "-", "--all",
        "h", "0h", "$0", "0.", "\\t0", "0\\n", "\\xC3\\xA9", "..", "help",
    ];
    for odd in odd {
        for arguments in [odd.to_string(), format!("{odd} 0"), format!("0 {odd}"), format!("0 0 {odd}")] {
            tell(&mut s, "at 1 silent");
            tell(&mut s, format!("visit {arguments}"));
        }
    }
    s.lines
}
