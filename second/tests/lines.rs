//! The line language (desk-language.md): what is clear, what is not, and where lines end.

mod common;
use common::Desk;
use second::desk::{converse, line_program, output_of, LINE_PROGRAMS};
use second::line::lines;
use std::io::BufReader;

fn unclear(desk: &mut Desk, line: &[u8]) {
    let before = desk.say("state");
    assert_eq!(desk.say_bytes(line).as_deref(), Some("unclear"), "{}", line.escape_ascii());
    assert_eq!(desk.say("state"), before);
}

#[test]
fn empty_lines_and_comments_get_no_answer() {
    let mut desk = Desk::stand_in(0, 16);
    let before = desk.say("state");
    let long_comment = [b"#".as_slice(), &[b'x'; 5000]].concat();
    let late_comment = [&[b' '; 5000], b"# packet 0".as_slice()].concat();
    for line in [
        b"".as_slice(),
        b"#",
        b"##",
        b"# packet 0",
        b"#packet 0",
        b"#\xFF",
        &long_comment,
        b" ",
        b"\t",
        b"  ",
        b" \t \t",
        &[b'\t'; 5000],
        b" #",
        b"\t#",
        b" \t # packet 0",
        &late_comment,
    ] {
        assert_eq!(desk.say_bytes(line), None, "{}", line.escape_ascii());
    }
    assert_eq!(desk.say("state"), before);
    assert_eq!(output_of("stand_in", b"\n\n#x\n\r\r\n \n\t\r # x\r").unwrap(), b"");
}

#[test]
fn lines_that_are_none_of_the_language() {
    let mut desk = Desk::stand_in(0, 16);
    for line in [
        b"state 0".as_slice(),
        b"state # x",
        b"state#",
        b"\x0Bstate",
        b"state\x0C",
        b"\xA0state",
        b"\xC2\xA0state",
        b"packet",
        b"packet ",
        b"packet 0 0",
        b"packet 0\t0",
        b"packet0",
        b"pack et 0",
        b"packet\x0B0",
        b"packet -1",
        b"packet +1",
        b"packet G",
        b"packet 0\0",
        b"packet \xC3\xA9",
        b"packet 100000000",
        b"packet 1_0",
        b"packets 0",
        b"make",
        b"make 100000000",
        b"make 0 0",
        b"memory",
        b"memory 10011",
        b"memory 100000000",
        b"bytes",
        b"bytes 0",
        b"bytes 0 ",
        b"bytes 0 0",
        b"bytes 0 000",
        b"bytes 0 0G",
        b"bytes 0 00 00",
        b"bytes 0 00\t00",
        b"bytes 10 00",
        b"bytes F 0000",
        b"bytes FFFFFFFF 00",
        b"bytes 100000000 00",
        b"event",
        b"event 0 0",
        b"event 0 0 0",
        b"event 0 0 0 0 0",
        b"event 0 0 100 0",
        b"event 100000000",
        b"breakpoint 0",
        b"breakpoints",
        b"peek 0",
        b"peek 0 0",
        b"peek 0 11",
        b"peek 10 1",
        b"peek 1 10",
        b"peek 0 401",
        b"peek FFFFFFFF 1",
        b"peek 0 1 1",
        b"go",
        b"read.b 0",
        b"build go",
        b"\xEF\xBB\xBFstate",
        b"\0",
        // A Kelvin sign is no k, though its small letter is one.
        "pac\u{212A}et 0".as_bytes(),
    ] {
        unclear(&mut desk, line);
    }
}

#[test]
fn blanks_part_words_and_do_not_count_about_them() {
    let mut desk = Desk::stand_in(0, 16);
    for line in
        ["packet 2D80", " packet 2D80", "packet 2D80 ", "packet  2D80", "packet\t2D80", "\t \tpacket \t 2D80\t\t "]
    {
        assert_eq!(desk.say(line), "reply 0FFFF", "{line:?}");
        assert_eq!(desk.say("\tpacket   0 "), if line == "packet 2D80" { "reply 00110" } else { "reply 00010" });
        assert_eq!(desk.say("  packet\t\t0"), "reply 00000");
    }
    assert_eq!(desk.say("bytes\t\t3   0A0B\t"), "bytes 2");
    assert_eq!(desk.say("  peek  3\t2"), "peek 0A0B");
    let mut pod = Desk::new("pod");
    assert_eq!(pod.say("\tbuild  rdreg\t1 "), "words 02181");
    assert_eq!(pod.say(" read  rdreg\t1   :\t12 \t 34\t"), "value 00120034 used 2");
    assert_eq!(pod.say("read nop : "), "not-yet used 0");
    assert_eq!(Desk::new("talk").say(" wdreg\t 1  \t2 "), "complete packets 4");
}

#[test]
fn case_does_not_matter() {
    let mut desk = Desk::stand_in(0, 16);
    let state = desk.say("state");
    assert_eq!(desk.say("STATE"), state);
    assert_eq!(desk.say("sTaTe"), state);
    assert_eq!(desk.say("Packet 2d80"), "reply 0FFFF");
    assert_eq!(desk.say("PEEK a 2"), "peek 0A0B");
    assert_eq!(desk.say("Bytes A fFeE"), "bytes 2");
    assert_eq!(desk.say("MEMORY aB"), "memory AB");
    assert_eq!(desk.say("Make F"), "made");
    assert_eq!(desk.say("BREAKPOINT"), "breakpoint halted 0 interrupt 0");
    assert_eq!(desk.say("EVENT 0"), "refused 4 at 0");
    let mut pod = Desk::new("pod");
    assert_eq!(pod.say("BUILD READ.L aB"), "words 01980 00000 000AB");
    assert_eq!(pod.say("Read Sync_PC : FFff"), "complete used 1");
    assert_eq!(pod.say("READ Dump.W : AbCd"), "value 0000ABCD used 1");
    let mut talk = Desk::new("talk");
    assert_eq!(talk.say("RDMREG 0"), "value 01100000 packets 3");
    assert_eq!(talk.say("Go"), "complete packets 2");
}

#[test]
fn numbers() {
    let mut desk = Desk::stand_in(0, 16);
    assert_eq!(desk.say("packet 00000000000012"), "reply 0FFFF");
    assert_eq!(desk.say("packet fFfFfFfF"), "refused 1 at 0");
    assert_eq!(desk.say("make 000000000000000f"), "made");
    assert_eq!(desk.say("make 0000000000000010"), "refused 2 at 0");
    assert_eq!(desk.say("memory 0000a"), "memory A");
    assert_eq!(desk.say("bytes 0 aBcD"), "bytes 2");
    assert_eq!(desk.say("peek 0 2"), "peek ABCD");
    desk.packets(&[0x0C00]);
    assert_eq!(desk.event("000000000fffffffe 0 000000000FF 0"), "refused 6 at 0");
    assert_eq!(desk.event("000000000fffffffe 0 0000000009F 0"), "0 0 0 none");
}

#[test]
fn numbers_with_0x_before_them() {
    let mut desk = Desk::stand_in(0, 16);
    assert_eq!(desk.say("make 0x10"), "refused 2 at 0");
    assert_eq!(desk.say("make 0X0f"), "made");
    assert_eq!(desk.say("memory 0x000000000000000000001F"), "memory 1F");
    assert_eq!(desk.say("bytes 0x1D aBcD"), "bytes 2");
    assert_eq!(desk.say("peek 0X1d 0x2"), "peek ABCD");
    assert_eq!(desk.say("packet 0x0C00"), "reply 0FFFF");
    assert_eq!(desk.say("packet 0xFFFFFFFF"), "refused 1 at 0");
    assert_eq!(desk.event("0xFFFFFFFE 0x0 0x9F 0xFFFFFFFF"), "0 0 0 none");
    for line in [
        "packet 0x", "packet 0X", "packet x", "packet x1", "packet 00x1", "packet 1x1", "packet 0x0x1", "packet 0xx1",
        "packet 0x+1", "packet +0x1", "packet -0x1", "packet 0x 1", "packet 0 x1", "packet 0xG", "packet 0x_1",
        "packet 0h", "packet $1", "packet #1", "packet 0x100000000", "packet 0x00000100000000",
        "event 0x0 0x0 0x100 0x0", "memory 0x10011", "bytes 0x0 0x00", "bytes 0 0X00", "bytes 0 0x", "bytes 0 000x00",
        "peek 0x0 0x",
    ] {
        unclear(&mut desk, line.as_bytes());
    }
    let mut pod = Desk::new("pod");
    assert_eq!(pod.say("build write.l 0x4 0XDEADbeef"), "words 01880 00000 00004 0DEAD 0BEEF");
    assert_eq!(pod.say("read rdreg 0xF : 0x10000 0x1 0X2"), "value 00010002 used 3");
    assert_eq!(pod.say("build rdreg 0x10"), "refused 13 at 0");
    assert_eq!(pod.say("read nop : 0x20000"), "refused 1 at 0");
    assert_eq!(pod.say("read nop : FFFF 0x"), "unclear");
    assert_eq!(pod.say("build 0xrdreg 1"), "unclear");
}

#[test]
fn help_is_one_line_and_takes_no_number() {
    for (program, help) in [
        ("stand_in", "help make memory bytes packet event breakpoint peek state help quit"),
        ("pod", "help build read help quit"),
        (
            "talk",
            "help make memory bytes event breakpoint peek state rdreg wdreg read.b read.w read.l write.b write.w write.l \
             dump.b dump.w dump.l fill.b fill.w fill.l go nop sync_pc rcreg wcreg rdmreg wdmreg help quit",
        ),
    ] {
        let mut desk = Desk::new(program);
        for line in ["help", "HELP", "Help", " \thelp\t "] {
            assert_eq!(desk.say(line), help);
        }
        for line in ["help 0", "help help", "help make", "help me", "help#", "help # x", "helps", "hel p", "?"] {
            assert_eq!(desk.say(line), "unclear", "{program}: {line}");
        }
    }
}

#[test]
fn help_names_the_first_words_of_clear_lines() {
    let numbers = ["", " 0", " 0 00", " 0 1", " go", " go :"];
    for program in LINE_PROGRAMS {
        let help = Desk::new(program).say("help");
        for word in help.split(' ') {
            let clear = |numbers: &&str| {
                let script = format!("memory 10\n{word}{numbers}");
                let output = String::from_utf8(output_of(program, script.as_bytes()).unwrap()).unwrap();
                output.lines().last() != Some("unclear")
            };
            assert!(numbers.iter().any(clear), "{program}: {word}");
        }
    }
}

#[test]
fn quit_ends_the_program() {
    for program in LINE_PROGRAMS {
        for quit in
            ["quit", "QUIT", "Quit\n", "\t quit \n", "quit\nhelp\nquit\n", "quit\rhelp", "quit\r\nhelp\r\n", "quit\nx"]
        {
            let script = format!("help 0\n{quit}");
            assert_eq!(output_of(program, script.as_bytes()).unwrap(), b"unclear\nbye\n", "{program}: {quit:?}");
        }
        for line in ["quit 0", "quit quit", "quit now", "quits", "qu it", "quit #", "#quit", "bye", "exit", "0xquit"] {
            let script = format!("{line}\nquit 0\n");
            let answers: &[u8] = if line == "#quit" { b"unclear\n" } else { b"unclear\nunclear\n" };
            assert_eq!(output_of(program, script.as_bytes()).unwrap(), answers, "{program}: {line}");
        }
    }
}

#[test]
fn a_line_ends_with_lf_or_with_cr() {
    let answers = b"reply 0FFFF\nreply 00110\nunclear\nreply 00000\n";
    for script in [
        "packet 2D80\npacket 0\nx\npacket 0\n",
        "packet 2D80\npacket 0\nx\npacket 0",
        "packet 2D80\rpacket 0\rx\rpacket 0\r",
        "packet 2D80\rpacket 0\rx\rpacket 0",
        "packet 2D80\r\npacket 0\r\nx\r\npacket 0\r\n",
        "packet 2D80\n\rpacket 0\r\r\nx\r\n\npacket 0\n\n",
        "\rpacket 2D80\rpacket 0\nx\r\npacket 0\r",
        "#\rpacket 2D80\n# packet 0\r\npacket 0\r\t#x\nx \r \n packet 0\t\r\n",
    ] {
        assert_eq!(output_of("stand_in", script.as_bytes()).unwrap(), answers, "{script:?}");
    }
    // A CR parts no words.
    assert_eq!(output_of("stand_in", b"packet\r0\n").unwrap(), b"unclear\nunclear\n");
}

#[test]
fn lines_are_counted_as_an_editor_counts_them() {
    let counted: [&[u8]; 7] = [b"a", b"b", b"", b"c", b"", b"", b"d "];
    assert_eq!(lines(b"a\r\nb\n\rc\r\r\n\nd "), counted);
    assert_eq!(lines(b"a\r\n"), [b"a".as_slice(), b""]);
}

#[test]
fn the_length_of_a_line() {
    let mut desk = Desk::stand_in(0, 0x1000);
    let hex = "5A".repeat(2044);
    let longest = format!("bytes 0 {hex}");
    assert_eq!(longest.len(), 4096);
    assert_eq!(desk.say(&longest), "bytes 7FC");
    unclear(&mut desk, format!("bytes 00 {hex}").as_bytes());
    let zeros = "0".repeat(4096 - "packet ".len());
    assert_eq!(desk.say(&format!("packet {zeros}")), "reply 0FFFF");
    unclear(&mut desk, format!("packet {zeros}0").as_bytes());
    unclear(&mut desk, &vec![b'x'; 1_000_000]);
}

#[test]
fn blanks_count_in_the_length_of_a_line() {
    let mut desk = Desk::stand_in(0, 0x1000);
    for blank in [" ", "\t"] {
        let blanks = blank.repeat(4096 - "packet 0".len());
        for line in [format!("{blanks}packet 0"), format!("packet 0{blanks}"), format!("packet {blanks}0")] {
            assert_eq!(line.len(), 4096);
            assert_eq!(desk.say(&line), "reply 0FFFF");
            unclear(&mut desk, format!("{line}{blank}").as_bytes());
            unclear(&mut desk, format!("{blank}{line}").as_bytes());
        }
    }
    let zeros = "0".repeat(4096 - "packet 0x".len());
    assert_eq!(desk.say(&format!("packet 0x{zeros}")), "reply 0FFFF");
    unclear(&mut desk, format!("packet 0x{zeros}0").as_bytes());
    assert_eq!(
        desk.say(&format!("help{}", " ".repeat(4092))),
        "help make memory bytes packet event breakpoint peek state help quit"
    );
    unclear(&mut desk, format!("help{}", " ".repeat(4093)).as_bytes());
}

#[test]
fn the_line_end_is_not_counted_and_the_last_may_lack_it() {
    let zeros = "0".repeat(4096 - "packet ".len());
    for end in ["\n", "\r", "\r\n"] {
        let script = format!("packet {zeros}{end}packet {zeros}0{end}packet {zeros}");
        let answers = b"reply 0FFFF\nunclear\nreply 0FFFF\n";
        assert_eq!(output_of("stand_in", script.as_bytes()).unwrap(), answers);
        assert_eq!(output_of("stand_in", (script + end).as_bytes()).unwrap(), answers);
    }
    assert_eq!(output_of("stand_in", b"").unwrap(), b"");
    assert_eq!(output_of("stand_in", b"packet 0\n ").unwrap(), b"reply 0FFFF\n");
    assert_eq!(output_of("stand_in", b"packet 0\nx").unwrap(), b"reply 0FFFF\nunclear\n");
    assert_eq!(output_of("stand_in", b"quit 0\nquit").unwrap(), b"unclear\nbye\n");
}

#[test]
fn a_line_is_the_same_however_its_bytes_come_in() {
    let blanks = |n: usize| " \t".repeat(n / 2);
    let script = [
        "packet 2D80\r\npacket 0\rx\n".to_string(),
        // Empty lines and comments of any length, and lines that are too long, of blanks but for one byte.
        format!("{}\n{}# x\r", blanks(4096), blanks(4096)),
        format!("{}\n{}#\r\n", blanks(20_000), blanks(20_000)),
        format!("{}x\n{}x\r", blanks(4096), blanks(20_000)),
        format!("x{}\r\nx{}#\n", blanks(4096), blanks(20_000)),
        format!("packet 0{}\r", blanks(4088)),
        format!("packet 0{}\r\n", blanks(4090)),
        format!("{}quit\nquit\r\nstate\n", blanks(4094)),
    ]
    .concat();
    let answers = [
        "reply 0FFFF", "reply 00110", "unclear", "unclear", "unclear", "unclear", "unclear", "reply 00000", "unclear",
        "unclear", "bye", "",
    ];
    for capacity in [1, 2, 3, 7, 4095, 4096, 4097, 4098, 8192, 1 << 20] {
        let mut output = Vec::new();
        let mut input = BufReader::with_capacity(capacity, script.as_bytes());
        converse(line_program("stand_in").unwrap().as_mut(), &mut input, &mut output).unwrap();
        assert_eq!(String::from_utf8(output).unwrap(), answers.join("\n"), "{capacity}");
    }
}

#[test]
fn memory_is_the_benchs_own() {
    let mut desk = Desk::stand_in(0, 0);
    assert_eq!(desk.say("memory 10010"), "memory 10010");
    assert_eq!(desk.say("bytes 1000F AA"), "bytes 1");
    assert_eq!(desk.say("peek 1000F 1"), "peek AA");
    assert_eq!(desk.say("make 1"), "made");
    assert_eq!(desk.say("peek 1000F 1"), "peek AA", "memory is kept");
    assert_eq!(desk.say("memory 10010"), "memory 10010");
    assert_eq!(desk.say("peek 1000F 1"), "peek 00", "zero bytes are lent from now on");
    assert_eq!(desk.say("peek 0 400"), format!("peek {}", "00".repeat(0x400)));
}

#[test]
fn the_fresh_state() {
    let registers: String = ('0'..='7').map(|n| format!("d{n}=00000000 ")).collect::<String>()
        + &('0'..='7').map(|n| format!("a{n}=00000000 ")).collect::<String>();
    assert_eq!(
        Desk::new("stand_in").say("state"),
        format!(
            "state w=0 halted=1 csr=01100000 tdr=00000000 aatr=0005 baar=05 pbr=00000000 pbmr=00000000 abhr=00000000 \
             ablr=00000000 dbr=00000000 dbmr=00000000 {registers}cacr=00000000 acr0=00000000 acr1=00000000 \
             vbr=00000000 macsr=00000000 mask=00000000 acc=00000000 sr=00000000 pc=00000000 rambar=00000000 sync=0 \
             phase=rest chain=none pointer=00000 next=0FFFF fault=none"
        )
    );
}

#[test]
fn requests() {
    for line in [
        "build", "build ", "build read", "build read.b", "build read.x 0", "build read. 0", "build read b 0",
        "build read .b 0", "build go 0", "build dump.b 0", "build .b", "build b", "build go.b", "build rdreg.b 0",
        "build rdreg 100000000", "build write.b 0", "build wcreg 0", "build sync-pc", "build help", "build quit",
        "build build go", "read", "read go", "read go:", "read go :FFFF", "read go: FFFF", "read go : : FFFF",
        "read : FFFF", "read go : 100000000", "read go : FFFF 100000000", "read go : FFFF x", "read help :", "go",
        "state", "packet 0", "make 0",
    ] {
        assert_eq!(Desk::new("pod").say(line), "unclear", "{line}");
    }
    for line in [
        "packet 0", "build go", "read go :", "go 0", "read.b", "read.b 0 0", "read .b 0", "rdreg", "g o",
        "read.b 100000000",
    ] {
        assert_eq!(Desk::new("talk").say(line), "unclear", "{line}");
    }
}
