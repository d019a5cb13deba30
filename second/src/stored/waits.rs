//! Files for `waits`: every request, accesses about the end of memory, commands left half sent, lines that are none, lengths.

use super::unclear::{clear, spoilt, REQUESTS};
use super::Stored;
use crate::command::CONTROL_REGISTERS;
use crate::desk::FILE_LIMIT;
use crate::line::LINE_LIMIT;
use crate::random::{clear_lines, typed_script, waits_file, Rng};

pub fn all() -> Vec<Stored> {
    let mut stored = Vec::new();
    every_request(&mut stored);
    after_each_request(&mut stored);
    about_the_end_of_memory(&mut stored);
    half_sent(&mut stored);
    other_lines(&mut stored);
    spoilt_lines(&mut stored);
    line_numbers(&mut stored);
    line_lengths(&mut stored);
    file_lengths(&mut stored);
    mixed(&mut stored);
    stored
}

fn push(stored: &mut Vec<Stored>, name: impl Into<String>, input: impl Into<Vec<u8>>) {
    stored.push(Stored::new("waits", name, input.into()));
}

fn file(lines: &[impl AsRef<str>]) -> String {
    lines.iter().map(|line| format!("{}\n", line.as_ref())).collect()
}

/// Memory with bytes that differ.
const PREPARED: [&str; 2] = ["memory 20", "bytes 0 000102030405060708090A0B0C0D0E0F101112131415161718191A1B1C1D1E1F"];

fn prepared(lines: &[impl AsRef<str>]) -> String {
    file(&PREPARED) + &file(lines)
}

fn every_request(stored: &mut Vec<Stored>) {
    let mut registers: Vec<String> = Vec::new();
    for r in 0..16 {
        registers.extend([format!("wdreg {r:X} {:X}", 0x1111_1111u32 * r), format!("rdreg {r:X}")]);
    }
    push(stored, "registers", prepared(&registers));
    let mut control: Vec<String> = Vec::new();
    for rc in CONTROL_REGISTERS.into_iter().chain([0x000, 0x003, 0x800, 0x80D, 0xFFF]) {
        control.extend([format!("wcreg {rc:X} {:X}", 0x1_0001 * u32::from(rc)), format!("rcreg {rc:X}")]);
    }
    push(stored, "control_registers", prepared(&control));
    let mut debug: Vec<String> = (0..32).map(|n| format!("wdmreg {n:X} {:X}", 0x2000_2F00 + n)).collect();
    debug.extend((0..32).map(|n| format!("rdmreg {n:X}")));
    push(stored, "debug_registers", prepared(&debug));
    let mut memory: Vec<String> = Vec::new();
    for size in ["b", "w", "l"] {
        for a in ["0", "1", "2", "3", "1C", "1E", "1F", "20", "10000", "FFFFFFFD"] {
            memory.extend([format!("read.{size} {a}"), format!("dump.{size}"), format!("dump.{size}")]);
            memory.extend(["nop".to_string(), format!("dump.{size}"), format!("write.{size} {a} 5A")]);
            memory.extend([format!("fill.{size} A5"), "nop".to_string(), format!("fill.{size} 69")]);
        }
    }
    push(stored, "memory", prepared(&memory));
    let ranges = [
        "rdreg F", "rdreg 10", "wdreg F FFFFFFFF", "wdreg 10 0", "write.b 0 FF", "write.b 0 100", "write.w 0 FFFF",
        "write.w 0 10000", "write.l 0 FFFFFFFF", "fill.b FF", "fill.b 100", "fill.w FFFF", "fill.w 10000",
        "fill.l FFFFFFFF", "rcreg FFF", "rcreg 1000", "wcreg FFF 1", "wcreg 1000 1", "rdmreg 1F", "rdmreg 20",
        "wdmreg 1F 1", "wdmreg 20 1", "rdreg FFFFFFFF",
    ];
    push(stored, "ranges", prepared(&ranges));
    push(stored, "ranges_without_memory", file(&["memory 10001"]) + &file(&ranges));
    push(stored, "requests", prepared(&REQUESTS));
    push(stored, "requests_running", prepared(&["go"]) + &file(&REQUESTS));
}

/// The state and the memory behind each request, on a fresh board, within each chain, and while the processor runs.
fn after_each_request(stored: &mut Vec<Stored>) {
    for (name, before) in
        [("fresh", "sync_pc"), ("dumping", "read.w 5"), ("filling", "write.w 6 ABCD"), ("running", "go")]
    {
        for request in REQUESTS.into_iter().chain(["rcreg 0", "wcreg 0 1"]) {
            let place = request.replace([' ', '.'], "_");
            push(stored, format!("after_{name}_{place}"), prepared(&[before, request]));
        }
    }
}

/// An access of each size and kind about the end of each memory is the last of its file, so that its state is seen.
fn about_the_end_of_memory(stored: &mut Vec<Stored>) {
    for length in [0u32, 1, 2, 3, 4, 6, 7, 65_535, 65_536] {
        let mut all = vec![format!("memory {length:X}")];
        for size in ["b", "w", "l"] {
            for back in 0..5 {
                let a = length.saturating_sub(back);
                all.extend([format!("read.{size} {a:X}"), format!("dump.{size}"), format!("write.{size} {a:X} 7F")]);
                all.extend([format!("fill.{size} {:X}", 0x81 + back), "nop".to_string(), format!("fill.{size} 1")]);
            }
            let last = length.saturating_sub(1);
            for (kind, request) in [
                ("read", format!("read.{size} {last:X}\ndump.{size}")),
                ("write", format!("write.{size} {last:X} 5A\nfill.{size} A5")),
                ("read_beyond", format!("read.{size} {:X}", length + 9)),
                ("write_beyond", format!("write.{size} {length:X} 99\nnop")),
            ] {
                push(stored, format!("end_of_{length}_{kind}_{size}"), file(&[&all[0], &request]));
            }
        }
        push(stored, format!("end_of_{length}"), file(&all));
    }
}

/// Each word as the first operand word of an illegal command, left where it is, and brought to rest by what follows.
fn half_sent(stored: &mut Vec<Stored>) {
    let words: [u32; 24] = [
        0x0000, 0x0001, 0x0C00, 0x1800, 0x1840, 0x1880, 0x1900, 0x1940, 0x1980, 0x1C00, 0x1C80, 0x1D00, 0x1D80, 0x2080,
        0x218F, 0x2880, 0x2980, 0x2C80, 0x2C86, 0x2C87, 0x2D80, 0x2D81, 0x19C0, 0xFFFF,
    ];
    for word in words {
        let first = [
            format!("fill.l {word:X}1980"),
            format!("wdmreg 1 {word:X}0C00"),
            format!("go\nwdreg 3 {word:X}1900"),
            format!("read.b 0\nfill.w {word:X}"),
        ];
        for (place, illegal) in first.iter().enumerate() {
            push(stored, format!("half_sent_{word:04X}_{place}"), prepared(&[illegal]));
        }
        let mut all = Vec::new();
        for illegal in first.iter().cycle().skip(3).take(4) {
            for then in [
                "dump.b", "fill.b 66", "rdreg 0", "read.l 4", "write.l 4 89ABCDEF", "memory 3\nnop", "bytes 0 FF\nnop",
                "rdreg 10\nnop", "memory 10001\nnop\nmemory 8", "rdmreg 0", "wcreg 801 1", "memory 20\nrcreg 801",
            ] {
                all.extend([illegal.as_str(), then]);
            }
        }
        push(stored, format!("half_sent_{word:04X}"), prepared(&all));
    }
}

/// Lines of `talk` and `stand_in` that are none here, one that lends too much, and bytes that do not fit.
fn other_lines(stored: &mut Vec<Stored>) {
    for line in [
        "make 0", "make 10", "event 1000", "event 1001", "event 1000 0 5 0", "event 1000 halt user", "breakpoint",
        "peek 0 1", "peek 20 1", "state", "packet 0", "packet 20000", "help", "quit", "memory 10011", "bytes 1F 0102",
        "bytes 20 01",
    ] {
        let name = line.replace(' ', "_");
        push(stored, format!("other_{name}"), prepared(&["go", line, "nop", line]));
        push(stored, format!("other_{name}_last"), prepared(&["read.b 0", "nop"]) + line);
    }
}

/// Some lines spoilt in each way, a file for each: the first line that is none ends it. All lines typed in ways that are taken.
fn spoilt_lines(stored: &mut Vec<Stored>) {
    let known = ["bytes 0 0A1B", "memory 20", "write.l 0 1", "dump.b", "rdreg 1"];
    for line in known {
        for (place, text) in spoilt(line).into_iter().enumerate() {
            let name = line.split(' ').next().unwrap_or(line).replace('.', "_");
            let input = [b"memory 20\nread.b 0\n", &text[..], b"\nnop\n"].concat();
            push(stored, format!("spoilt_{name}_{place:02}"), input);
        }
    }
    let mut taken = b"memory 20\n".to_vec();
    for line in clear("talk").into_iter().filter(|line| known.contains(line) || REQUESTS.contains(line)) {
        for way in [line.to_ascii_uppercase(), format!("\t{line} "), line.replace(' ', " \t "), format!("  {line}")] {
            taken.extend_from_slice(&[way.as_bytes(), b"\n"].concat());
        }
        // HEX is no number.
        if !line.starts_with("bytes") {
            taken.extend_from_slice(format!("{}\n", line.replace(' ', " 0x0")).as_bytes());
        }
    }
    push(stored, "typed", taken);
}

/// A line that is none behind every two line ends.
fn line_numbers(stored: &mut Vec<Stored>) {
    let ends = [("lf", "\n"), ("cr", "\r"), ("crlf", "\r\n"), ("lfcr", "\n\r"), ("crcrlf", "\r\r\n")];
    for (one, first) in ends {
        for (other, second) in ends {
            let text = format!("nop{first}# x{second}\t{first}go{second}{second}{first}nop{first}state{second}state");
            push(stored, format!("number_{one}_{other}"), text.clone());
            push(stored, format!("ends_{one}_{other}"), text.replace("state", "rdmreg 0"));
        }
    }
    for (name, text) in [
        ("first", "state"),
        ("first_cr", "state\r"),
        ("behind_empty_lines", "\n\n\r\r\n \nquit\nstate\n"),
        ("last_unended", "nop\r\nnop\rnop\nnop\n\rx"),
        ("hundreds", &("nop\n".repeat(998) + "help\n")),
        ("thousands", &("\r\n".repeat(8000) + "make 1")),
    ] {
        push(stored, format!("number_{name}"), text);
    }
}

/// Lines of so many bytes about the limit, by zeros, by blanks, as comments and as blanks alone.
fn line_lengths(stored: &mut Vec<Stored>) {
    for length in [LINE_LIMIT - 1, LINE_LIMIT, LINE_LIMIT + 1, 2 * LINE_LIMIT] {
        for (name, head, filler, tail) in [
            ("zeros", "read.b ", "0", "7"),
            ("prefix", "fill.b 0x", "0", "7"),
            ("before", "", " ", "nop"),
            ("between", "rdreg", "\t", "1"),
            ("behind", "nop", " ", ""),
            ("comment", "#", "-", "nop"),
            ("late_comment", "", "\t", "# nop"),
            ("blanks", "", " ", ""),
            ("memory", "memory ", "0", "40"),
            ("bytes", "bytes ", "0", " AB"),
            ("letters", "", "x", ""),
        ] {
            let line = format!("{head}{}{tail}", filler.repeat(length - head.len() - tail.len()));
            push(stored, format!("line_{length}_{name}"), file(&["memory 10", "write.b 6 5A", &line, "nop"]));
        }
    }
}

/// Files of so many bytes about the limit.
fn file_lengths(stored: &mut Vec<Stored>) {
    for length in [FILE_LIMIT - 1, FILE_LIMIT, FILE_LIMIT + 1, 2 * FILE_LIMIT, 70_000] {
        let comment = |head: &str, tail: &str| {
            format!("{head}#{}{tail}", "-".repeat(length - head.len() - tail.len() - 1)).into_bytes()
        };
        push(stored, format!("file_{length}"), comment("memory 10\n", "\nwrite.l 4 DEADBEEF\n"));
        push(stored, format!("file_{length}_unended"), comment("rdmreg 0\r", "\r\nrdmreg 0"));
        push(stored, format!("file_{length}_unclear_first"), comment("state\n", "\n"));
        push(stored, format!("file_{length}_unclear_last"), comment("nop\n", "\nquit"));
        push(stored, format!("file_{length}_line_ends"), "\n".repeat(length));
        push(stored, format!("file_{length}_nops"), "nop\n".repeat(length / 4 + 1)[..length].to_string());
        let dumps = "dump.l\n".repeat(length / 7 + 1);
        push(
            stored,
            format!("file_{length}_dumps"),
            ["memory 8000\nread.l 0\n", &dumps].concat()[..length].to_string(),
        );
    }
}

fn mixed(stored: &mut Vec<Stored>) {
    let mut rng = Rng::new(10);
    for place in 0..60 {
        let length = 20 + 5 * place;
        let lines = clear_lines(&mut rng, length);
        push(stored, format!("mixed_{place:02}"), typed_script(&mut rng, lines).concat());
    }
    for place in 0..60 {
        push(stored, format!("mixed_short_{place:02}"), waits_file(&mut rng, 1 + place / 4).concat());
    }
    for place in 0..30 {
        push(stored, format!("mixed_stray_{place:02}"), waits_file(&mut rng, 40 + place).concat());
    }
}
