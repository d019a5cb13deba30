//! `gateway`, the program: its arguments, the lines it reads, and what it writes where.

mod common;
use common::Desk;
use second::desk::gateway;
use second::visit::{Table, Visit};
use std::process::{Command, Stdio};

const SECOND: &str = env!("CARGO_BIN_EXE_second");

/// What a run wrote to standard output and to standard error.
#[derive(PartialEq, Eq, Debug)]
struct Ran {
    output: String,
    results: String,
}

fn run(arguments: &[&str], mut input: &[u8]) -> Ran {
    let (mut output, mut results) = (Vec::new(), Vec::new());
    gateway(arguments, &mut input, &mut output, &mut results).unwrap();
    let text = |bytes| String::from_utf8(bytes).unwrap();
    Ran { output: text(output), results: text(results) }
}

/// The packets of a visit to a stand-in, and its replies.
fn conversation(desk: &mut Desk, table: Table) -> (Vec<u32>, Vec<u32>) {
    let mut visit = Visit::new(table);
    let (mut packets, mut replies) = (Vec::new(), Vec::new());
    while let Some(packet) = visit.next_packet() {
        packets.push(packet);
        replies.push(desk.packet(packet));
        visit.take(replies.last().copied());
    }
    (packets, replies)
}

/// The replies of a fresh stand-in to a visit without a table, each on a line that `typed` writes.
fn typed(typed: impl Fn(usize, u32) -> String) -> Vec<u8> {
    let (_, replies) = conversation(&mut Desk::stand_in(0, 0), Table::NONE);
    replies.iter().enumerate().map(|(place, &reply)| typed(place, reply)).collect::<String>().into_bytes()
}

fn plainly(_: usize, reply: u32) -> String {
    format!("reply {reply:05X}\n")
}

#[test]
fn packets_go_out_and_results_come_last() {
    let table = Table::new(4, 8).unwrap();
    let (packets, replies) = conversation(&mut Desk::stand_in(1, 0x10), table);
    let input: String = replies.iter().map(|reply| format!("reply {reply:05X}\n")).collect();
    let ran = run(&["4", "8"], input.as_bytes());
    assert_eq!(ran.output, packets.iter().map(|packet| format!("packet {packet:05X}\n")).collect::<String>());
    assert!(ran.output.starts_with("packet 00000\n"));
    let mut results = String::new();
    for name in ["d0", "d1", "d2", "d3", "d4", "d5", "d6", "d7", "a0", "a1", "a2", "a3", "a4", "a5", "a6", "a7"] {
        results += &format!("register {name} 00000000\n");
    }
    for number in ["002", "004", "005", "801", "804", "805", "806", "80E", "80F", "C04"] {
        results += &format!("control {number} 00000000\n");
    }
    results += "csr 01100000\n\
                table 00000004 04050607\n\
                table 00000008 08090A0B\n\
                table 0000000C 0C0D0E0F\n\
                table 00000010 bus-error\n\
                read packets 200\n";
    assert_eq!(ran.results, results);
}

#[test]
fn a_running_processor_has_no_registers() {
    let mut desk = Desk::stand_in(0, 0);
    desk.go();
    let (_, replies) = conversation(&mut desk, Table::NONE);
    let input: String = replies.iter().map(|reply| format!("reply {reply:05X}\n")).collect();
    let Ran { results, .. } = run(&[], input.as_bytes());
    assert!(results.starts_with("register d0 illegal\nregister d1 illegal\n"), "{results}");
    assert!(results.contains("register a7 illegal\ncontrol 002 illegal\n"), "{results}");
    assert!(results.ends_with("control C04 illegal\ncsr 00100000\nread packets 727\n"), "{results}");
}

#[test]
fn what_the_arguments_may_be() {
    let input = typed(plainly);
    let asked = |arguments: &[&str]| run(arguments, &input);
    let read = asked(&[]);
    assert!(read.results.ends_with("read packets 149\n"));
    for arguments in
        [["0", "0"], ["FFFFFFFC", "0"], ["fffffffc", "00"], ["0x4", "0X0"], ["000000000000000000000000004", "0x00"]]
    {
        assert_eq!(asked(&arguments), read, "{arguments:?}");
    }
    // With a table these replies are too few: the visit is begun.
    for arguments in [["0", "10000"], ["FFFFFFFC", "1"], ["FFFC0000", "10000"], ["0x10", "0xa"]] {
        assert_eq!(asked(&arguments).results, "not-read packet 150 no-reply\n", "{arguments:?}");
    }
    let unclear = Ran { output: String::new(), results: "unclear\n".to_string() };
    for arguments in [
        &["0"][..],
        &[""],
        &["0", "0", "0"],
        &["", ""],
        &["0", ""],
        &["", "0"],
        &["1", "1"],
        &["2", "0"],
        &["FFFFFFFF", "0"],
        &["0", "10001"],
        &["0", "FFFFFFFF"],
        &["0", "100000000"],
        &["100000000", "0"],
        &["FFFFFFFC", "2"],
        &["FFFC0004", "10000"],
        &["80000000", "40000000"],
        &["G", "0"],
        &["0", "x"],
        &["0x", "0"],
        &["0", "-1"],
        &["+4", "1"],
        &[" 4", "1"],
        &["4", "1 "],
        &["4 1"],
        &["--all"],
        &["--help", "0"],
    ] {
        assert_eq!(asked(arguments), unclear, "{arguments:?}");
    }
}

#[test]
fn replies_as_people_type_them() {
    let read = run(&[], &typed(plainly));
    assert!(read.results.ends_with("read packets 149\n"));
    let ways: [fn(usize, u32) -> String; 9] = [
        |_, reply| format!("reply {reply:05X}\r"),
        |_, reply| format!("reply {reply:05X}\r\n"),
        |_, reply| format!("REPLY {reply:05x}\n"),
        |_, reply| format!("Reply 0x{reply:X}\n"),
        |_, reply| format!("\t reply \t 0X000000000000{reply:X}\t \n"),
        |_, reply| format!("# reply 12345\n\n \t\n\t# {reply}\nreply {reply:X}\n"),
        |_, reply| format!("{}reply {reply:05X}\n", " ".repeat(4096 - 11)),
        |_, reply| format!("#{}\nreply {reply:05X}\n", "-".repeat(5000)),
        |place, reply| format!("reply {reply:X}{}", ["\n", "\r", "\r\n", "\n\r", "\r\r\n"][place % 5]),
    ];
    for (way, typing) in ways.into_iter().enumerate() {
        assert_eq!(run(&[], &typed(typing)), read, "{way}");
    }
    // The last line has no end.
    let mut unended = typed(plainly);
    unended.pop();
    assert_eq!(run(&[], &unended), read);
}

#[test]
fn what_comes_after_the_last_reply_is_not_read() {
    let mut input = typed(plainly);
    let read = run(&[], &input);
    input.extend_from_slice(b"reply 20000\nrubbish");
    assert_eq!(run(&[], &input), read);
}

#[test]
fn a_line_that_is_no_reply_ends_the_visit() {
    for line in [
        "reply", "reply 0FFFF 0", "reply 0FFFF #", "reply 100000000", "reply 0x", "reply G", "reply -1", "reply0FFFF",
        "replyx 0", "packet 0", "0FFFF", "reply 0F\0FF", "\u{a0}reply 0", "unclear", "refused 3 at 0", "help", "quit",
        "x #", "reply\x0B0FFFF",
    ] {
        for place in [1, 20, 22, 23, 25, 26, 148, 149] {
            let input = typed(|at, reply| if at + 1 == place { format!("{line}\n") } else { plainly(at, reply) });
            let ran = run(&[], &input);
            assert_eq!(ran.results, format!("not-read packet {place} no-reply\n"), "{line:?}");
            assert_eq!(ran.output.lines().count(), place, "{line:?}");
        }
    }
}

#[test]
fn a_line_too_long_is_no_reply() {
    for (length, end) in [(4095, None), (4096, None), (4097, Some(30)), (20_000, Some(30))] {
        let input = typed(|at, reply| match at + 1 {
            30 => format!("{:width$}\n", format!("reply {reply:05X}"), width = length),
            _ => plainly(at, reply),
        });
        let ran = run(&[], &input);
        match end {
            None => assert!(ran.results.ends_with("read packets 149\n")),
            Some(packet) => assert_eq!(ran.results, format!("not-read packet {packet} no-reply\n")),
        }
    }
}

#[test]
fn the_end_of_the_input_is_no_reply() {
    assert_eq!(
        run(&[], b""),
        Ran { output: "packet 00000\n".to_string(), results: "not-read packet 1 no-reply\n".to_string() }
    );
    assert_eq!(run(&[], b"# nothing\n\n\r\r\n \t").results, "not-read packet 1 no-reply\n");
    let input = typed(plainly);
    for replies in [1, 24, 25, 70, 148] {
        let ran = run(&[], &input[..replies * "reply 0FFFF\n".len()]);
        assert_eq!(ran.results, format!("not-read packet {} no-reply\n", replies + 1));
        assert_eq!(ran.output.lines().count(), replies + 1);
    }
}

#[test]
fn a_word_too_wide_is_named_as_one() {
    for (word, reason) in [("1FFFF", "late"), ("20000", "word"), ("FFFFFFFF", "word"), ("100000000", "no-reply")] {
        let input = typed(|at, reply| match at + 1 {
            21 => format!("reply {word}\n"),
            _ => plainly(at, reply),
        });
        assert_eq!(run(&[], &input).results, format!("not-read packet 21 {reason}\n"));
    }
}

#[test]
fn an_output_that_is_closed_is_no_reply() {
    struct Closed;
    impl std::io::Write for Closed {
        fn write(&mut self, _: &[u8]) -> std::io::Result<usize> {
            Err(std::io::ErrorKind::BrokenPipe.into())
        }
        fn flush(&mut self) -> std::io::Result<()> {
            Ok(())
        }
    }
    let mut results = Vec::new();
    gateway(&[], &mut &typed(plainly)[..], &mut Closed, &mut results).unwrap();
    assert_eq!(results, b"not-read packet 1 no-reply\n");
}

#[test]
fn two_processes_joined_by_pipes() {
    for (arguments, last) in [
        (&[][..], "csr 01100000\nread packets 149\n"),
        (&["0", "3"], "csr 01100000\ntable 00000000 bus-error\nread packets 177\n"),
    ] {
        let mut board =
            Command::new(SECOND).arg("stand_in").stdin(Stdio::piped()).stdout(Stdio::piped()).spawn().unwrap();
        let ran = Command::new(SECOND)
            .arg("gateway")
            .args(arguments)
            .stdin(board.stdout.take().unwrap())
            .stdout(board.stdin.take().unwrap())
            .stderr(Stdio::piped())
            .output()
            .unwrap();
        assert_eq!(ran.status.code(), Some(0));
        assert!(String::from_utf8(ran.stderr).unwrap().ends_with(last));
        assert!(board.wait().unwrap().success());
    }
}

#[test]
fn the_exit_status_says_nothing_of_the_visit() {
    for (arguments, said) in
        [(&[][..], "not-read packet 1 no-reply\n"), (&["0"], "unclear\n"), (&["--all"], "unclear\n")]
    {
        let ran = Command::new(SECOND).arg("gateway").args(arguments).stdin(Stdio::null()).output().unwrap();
        assert_eq!(ran.status.code(), Some(0));
        assert_eq!(String::from_utf8(ran.stderr).unwrap(), said);
    }
}
