//! Lines at the edges of the language.

use super::Stored;
use crate::line::LINE_LIMIT;
use crate::script::to_bytes;

pub fn all() -> Vec<Stored> {
    let mut stored = Vec::new();
    for program in ["stand_in", "pod", "talk"] {
        let lines = lines(program);
        stored.push(Stored::new(program, "unclear", to_bytes(&lines, true)));
        let last: &[u8] = if program == "pod" { b"build go" } else { b"state" };
        let head = b"# The last line has no line end.\n".to_vec();
        stored.push(Stored::new(program, "no_last_line_end", [head, last.to_vec()].concat()));
        stored.push(Stored::new(program, "only_line_ends", b"\n\n\n\r\r\r\n\r\n\n\r".to_vec()));
        stored.push(Stored::new(program, "only_blanks", b" \n\t\r  \t \r\n\t\t\n ".to_vec()));
        stored.push(Stored::new(program, "empty", Vec::new()));
    }
    stored
}

/// Every request.
pub const REQUESTS: [&str; 21] = [
    "rdreg 1", "wdreg 1 2", "read.b 0", "read.w 0", "read.l 0", "write.b 0 1", "write.w 0 1", "write.l 0 1", "dump.b",
    "dump.w", "dump.l", "fill.b 1", "fill.w 1", "fill.l 1", "go", "nop", "sync_pc", "rcreg 801", "wcreg 801 1",
    "rdmreg 0", "wdmreg 8 1",
];

/// Clear lines of each program, to be spoilt.
pub fn clear(program: &str) -> Vec<&'static str> {
    let bench =
        ["make 0", "memory 20", "bytes 0 0A1B", "event 1000", "event 1000 0 5 0", "breakpoint", "peek 0 2", "state"];
    match program {
        "stand_in" => [&bench[..], &["packet 0"]].concat(),
        "talk" => [&bench[..], &REQUESTS[..]].concat(),
        _ => vec![
            "build rdreg 1", "build write.l 0 1", "build go", "build dump.b", "read go : FFFF", "read read.l 0 : 1 2",
            "read rdmreg 0 :", "read wcreg 801 1 : 10000 10001",
        ],
    }
}

pub(super) fn spoilt(line: &str) -> Vec<Vec<u8>> {
    let first = line.split(' ').next().unwrap_or(line);
    let mut texts = vec![
        line.to_string(),
        format!(" {line}"),
        format!("{line} "),
        format!("{line}\r"),
        format!("{line}\t"),
        format!("{line}\0"),
        format!("{line} 0"),
        format!("{line} 0 0"),
        format!("{line}G"),
        format!("{line} #"),
        line.to_ascii_uppercase(),
        line.to_ascii_lowercase(),
        first.to_string(),
        format!("{first} "),
        format!("{first}x"),
        line.replace(' ', "  "),
        line.replace(' ', "\t"),
        line.replace(' ', ""),
        line.replace(' ', ","),
        line.replace(' ', " 0x"),
        line.replace(' ', " +"),
        line.replace(' ', " -"),
        line.replace(' ', " 00000000000"),
        line.replace(' ', " 100000000"),
        line.replace(' ', " FFFFFFFFF"),
        line.replace(' ', " \u{e9}"),
        line.replace('0', "\u{ff10}"),
        line.replace('0', "O"),
        line.replace('1', "l"),
        line.replace('1', ""),
        line.replace('0', ""),
        line[..line.len() - 1].to_string(),
        line[1..].to_string(),
        format!("#{line}"),
        format!("\u{feff}{line}"),
    ];
    texts.dedup();
    texts.into_iter().map(String::into_bytes).collect()
}

/// A line of this length: the last word stretched with zeros.
fn stretched(line: &str, length: usize) -> Vec<u8> {
    let (head, tail) = line.rsplit_once(' ').expect("a line with a number");
    let zeros = "0".repeat(length - line.len());
    format!("{head} {zeros}{tail}").into_bytes()
}

fn lines(program: &str) -> Vec<Vec<u8>> {
    let mut lines: Vec<Vec<u8>> = Vec::new();
    let comment = |lines: &mut Vec<Vec<u8>>, text: &str| lines.push(format!("# {text}").into_bytes());
    comment(&mut lines, "No answer: an empty line, and lines that begin with #");
    for text in ["", "#", "##", "# ", "#state", "#\r", "#\0", "#\u{e9}"] {
        lines.push(text.as_bytes().to_vec());
    }
    lines.push([b"#".as_slice(), &[0xFF, 0xFE, 0x80]].concat());
    lines.push([b"#".as_slice(), &[b'-'; LINE_LIMIT]].concat());
    lines.push([b"#".as_slice(), &[b'-'; 2 * LINE_LIMIT]].concat());
    comment(&mut lines, "Spaces, control bytes, bytes beyond ASCII, other words");
    for text in
        [" ", "  ", " #", "\r", "\t", "\0", "\x0B", "\x7F", "0", "-", ":", "help", "unclear", "quit 0", "state state"]
    {
        lines.push(text.as_bytes().to_vec());
    }
    lines.push(vec![0xFF]);
    lines.push(vec![0x80, 0x81]);
    for byte in (0..=255u8).filter(|&byte| byte != b'\n' && byte != b'#') {
        lines.push(vec![byte]);
    }
    for line in clear(program) {
        comment(&mut lines, &format!("{line}, clear and spoilt"));
        lines.extend(spoilt(line));
    }
    comment(&mut lines, "Every byte in the place of a digit");
    let before = match program {
        "stand_in" => "packet ",
        "pod" => "build rdreg ",
        _ => "rdreg ",
    };
    for byte in (0..=255u8).filter(|&byte| byte != b'\n') {
        lines.push([before.as_bytes(), &[byte]].concat());
    }
    comment(&mut lines, "Lines of 4,095, 4,096 and 4,097 bytes, and much longer ones");
    let longest: &[&str] = match program {
        "stand_in" => &["packet 0", "make 0", "memory 20", "event 1000", "peek 0 1", "event 0 0 0 0"],
        "pod" => &["build rdreg 1", "build rdreg 10", "read go : FFFF", "read rdreg 0 : 0"],
        _ => &["make 0", "memory 20", "rdreg 1", "rdreg 10", "write.b 0 1", "wdmreg 8 1"],
    };
    for line in longest {
        for length in [LINE_LIMIT - 1, LINE_LIMIT, LINE_LIMIT + 1] {
            lines.push(stretched(line, length));
        }
    }
    if program == "pod" {
        comment(&mut lines, "As many reply words as a line has room for, and one more");
        for length in [LINE_LIMIT - 1, LINE_LIMIT, LINE_LIMIT + 1] {
            let mut line = b"read nop :".to_vec();
            while line.len() + 6 <= length {
                line.extend_from_slice(b" 10000");
            }
            line.resize(length, b'0');
            lines.push(line);
        }
    } else {
        comment(&mut lines, "As many bytes as a line has room for, and one digit more or less");
        lines.push(b"memory 800".to_vec());
        for length in [LINE_LIMIT - 1, LINE_LIMIT, LINE_LIMIT + 1, LINE_LIMIT + 2] {
            let mut line = b"bytes 0 ".to_vec();
            line.resize(length, b'5');
            lines.push(line);
            lines.push(b"peek 0 2".to_vec());
        }
        bench_edges(&mut lines);
    }
    for length in [LINE_LIMIT, LINE_LIMIT + 1, 8_191, 8_192, 8_193, 20_000] {
        lines.push(vec![b'x'; length]);
    }
    lines
}

fn bench_edges(lines: &mut Vec<Vec<u8>>) {
    let mut say = |text: &str| lines.push(text.as_bytes().to_vec());
    say("# memory: up to 10010");
    for n in [
        "0", "1", "FFFF", "10000", "10001", "1000F", "10010", "10011", "20000", "FFFFFFFF", "100000000",
        "000000000000010010",
    ] {
        say(&format!("memory {n}"));
    }
    for length in ["0", "1", "10", "400", "10010"] {
        say(&format!("# bytes and peek where they fit and where they don't, {length} bytes of memory"));
        say(&format!("memory {length}"));
        for a in ["0", "1", "F", "10", "3FF", "400", "1000E", "1000F", "10010", "FFFFFFFE", "FFFFFFFF", "100000000"] {
            say(&format!("bytes {a} A1"));
            say(&format!("bytes {a} B2c3"));
            for n in ["0", "1", "2", "10"] {
                say(&format!("peek {a} {n}"));
            }
        }
        say("peek 0 400");
        say("peek 0 401");
        say("peek 0 FFFFFFFF");
    }
    say("# bytes: two digits each, at least one byte");
    say("memory 10");
    for hex in [
        "", "0", "00", "000", "0000", "0g", "g0", "aAbB", "AaBb", "0x", "00 00", "0\r",
        "0000000000000000000000000000000000", "00000000000000000000000000000000",
    ] {
        say(&format!("bytes 0 {hex}"));
    }
    say("peek 0 10");
    say("# event: one number or four, ATTRIBUTE of 8 bits, the others of 32");
    for event in [
        "", " 0", " 0 0", " 0 0 0", " 0 0 0 0", " 0 0 0 0 0", " FFFFFFFE FFFFFFFF 9F FFFFFFFF", " 100000000",
        " 0 100000000 0 0", " 0 0 100 0", " 0 0 0 100000000", " 0 0 0000000009f 0", " 0 0 FF 0",
    ] {
        say(&format!("event{event}"));
    }
    say("state");
}
