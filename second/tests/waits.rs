//! The same answers at every wait setting (02, [10]; docs/waits.md): what `waits` prints, and that it is what `talk` says.

use second::board::Board;
use second::desk::{self, output_of, parse_request, FILE_LIMIT};
use second::line::{gets_no_answer, lines, words, LINE_LIMIT};
use second::pod::{Outcome, Reader, Request};
use second::random::{clear_lines, typed_script, waits_file, Rng};
use second::talk::talk;
use second::waits::{write_page, Run};
use std::io;

/// The state of a fresh board but for its end.
const FRESH: &str = "state w=0 halted=1 csr=01100000 tdr=00000000 aatr=0005 baar=05 pbr=00000000 pbmr=00000000 \
    abhr=00000000 ablr=00000000 dbr=00000000 dbmr=00000000 d0=00000000 d1=00000000 d2=00000000 d3=00000000 d4=00000000 \
    d5=00000000 d6=00000000 d7=00000000 a0=00000000 a1=00000000 a2=00000000 a3=00000000 a4=00000000 a5=00000000 \
    a6=00000000 a7=00000000 cacr=00000000 acr0=00000000 acr1=00000000 vbr=00000000 macsr=00000000 mask=00000000 \
    acc=00000000 sr=00000000 pc=00000000 rambar=00000000 sync=0 ";

fn printed(file: impl AsRef<[u8]>) -> String {
    String::from_utf8(output_of("waits", file.as_ref()).unwrap()).unwrap()
}

/// The line of a W and its packets; `same`, as long as nothing else is said.
fn w_line(w: usize, packets: usize) -> String {
    format!("w {w:X} packets {packets} same\n")
}

#[test]
fn the_page_of_the_paper() {
    let page = printed("memory 10\nwrite.l 4 12345678\nread.w 6\ndump.b\nfill.b 7\n");
    let mut expected = String::from("write.l 4 12345678: complete\nread.w 6: value 00005678\n");
    expected += "dump.b: value 00000000\nfill.b 7: illegal\n";
    expected += &format!("{FRESH}phase=rest chain=none pointer=00009 next=1FFFF fault=none\n");
    for (w, packets) in [14, 17, 20, 23, 26, 29, 32, 35, 38, 41, 44, 47, 50, 53, 56, 59].into_iter().enumerate() {
        expected += &w_line(w, packets);
    }
    expected += "SAME\n";
    assert_eq!(page, expected);
}

#[test]
fn a_file_without_a_request() {
    let mut expected = format!("{FRESH}phase=rest chain=none pointer=00000 next=0FFFF fault=none\n");
    (0..16).for_each(|w| expected += &w_line(w, 0));
    expected += "SAME\n";
    for file in ["", "\n", "\r\n\r", "# nop", "memory 10\nbytes 0 01", "\t \n  # x\n", "memory 10010"] {
        assert_eq!(printed(file), expected, "{file:?}");
    }
}

#[test]
fn lines_that_are_none() {
    for line in [
        "make 0", "make F", "make 10", "event 1000", "event 1000 0 5 0", "event 1000 halt user", "breakpoint",
        "peek 0 1", "state", "packet 0", "help", "quit", "HELP", "Quit", "build nop", "read nop : FFFF", "waits", "x",
        "read.b", "read.b 0 0", "read 0", "read.x 0", "dump.b 0", "rdreg 100000000", "rdreg 0x", "rdreg -1", "nop #",
        "nop\0", "memory", "memory 10011", "memory 10 10", "bytes 0", "bytes 0 0", "bytes 0 0x00", "bytes 10 00",
        "bytes F 0000", "bytes FFFFFFFF 00", "memory\x0B10", "nop nop", "\u{a0}nop", "write.b 0",
    ] {
        assert_eq!(printed(format!("memory 10\n{line}\nnop\n")), "unclear line 2\n", "{line:?}");
        assert_eq!(printed(line), "unclear line 1\n", "{line:?}");
        let clear = format!("memory 10\n# {line}\nnop\n");
        assert!(printed(clear).ends_with("SAME\n"), "{line:?}");
    }
}

#[test]
fn the_first_that_is_none_counts() {
    assert_eq!(printed("nop\nstate\nquit\nx"), "unclear line 2\n");
    assert_eq!(printed("memory 4\nbytes 0 01020304\nmemory 3\nbytes 0 01020304\nstate\n"), "unclear line 4\n");
    assert_eq!(printed("bytes 0 01\nmemory 4\n"), "unclear line 1\n", "what is lent later does not count");
}

#[test]
fn lines_are_counted_as_an_editor_does() {
    for (file, number) in [
        ("x", 1),
        ("x\r\nx", 1),
        ("\nx", 2),
        ("\rx", 2),
        ("\r\nx", 2),
        ("\n\rx", 3),
        ("\r\rx", 3),
        ("\n\nx", 3),
        ("\r\r\nx", 3),
        ("\r\n\r\nx", 3),
        ("\r\n\rx", 3),
        ("\r\n\nx", 3),
        ("nop\r\n\r\n# c\r \n\tnop\rnop\n\rx", 8),
        ("# a\n# b\n\n\nnop\nstate", 6),
    ] {
        assert_eq!(printed(file), format!("unclear line {number}\n"), "{file:?}");
    }
    assert_eq!(printed("\r\n".repeat(8191) + "x"), "unclear line 8192\n");
    assert_eq!(printed("\n".repeat(16_383) + "x"), "unclear line 16384\n");
}

#[test]
fn the_ends_of_lines_are_no_part_of_them() {
    let page = printed("memory 8\nwrite.l 4 89ABCDEF\nread.w 6\n");
    assert!(page.starts_with("write.l 4 89ABCDEF: complete\nread.w 6: value 0000CDEF\nstate "), "{page}");
    for end in ["\r", "\r\n", "\n\r", "\n\n", "\n# c\r"] {
        for last in [end, ""] {
            assert_eq!(printed(format!("memory 8{end}write.l 4 89ABCDEF{end}read.w 6{last}")), page, "{end:?}");
        }
    }
}

#[test]
fn a_request_is_shown_as_it_was_typed() {
    let page = printed("MEMORY 0x8\n\tWrite.L  0X4 89abCDEF \n  Read.w\t0x0006\nDUMP.B");
    let shown: Vec<&str> = page.lines().take(3).collect();
    assert_eq!(shown, ["\tWrite.L  0X4 89abCDEF : complete", "  Read.w\t0x0006: value 0000CDEF", "DUMP.B: bus-error"]);
}

#[test]
fn a_line_of_4096_bytes_is_taken_and_one_of_4097_is_not() {
    for (head, filler, tail) in [("read.b ", "0", "1"), ("", " ", "nop"), ("nop", "\t", ""), ("memory ", "0", "8")] {
        let line = |length: usize| format!("{head}{}{tail}", filler.repeat(length - head.len() - tail.len()));
        assert!(printed(line(LINE_LIMIT)).ends_with("SAME\n"), "{head}");
        assert_eq!(printed(line(LINE_LIMIT + 1)), "unclear line 1\n", "{head}");
    }
    for silent in ["#".to_string() + &"x".repeat(9000), " ".repeat(9000), "\t".repeat(9000) + "#x"] {
        assert!(printed(format!("{silent}\nnop")).starts_with("nop: complete\n"));
    }
}

#[test]
fn a_file_of_16384_bytes_is_taken_and_one_of_16385_is_not() {
    assert_eq!(FILE_LIMIT, 16_384);
    let long = |head: &str, tail: &str, length: usize| {
        format!("{head}#{}{tail}", "-".repeat(length - head.len() - tail.len() - 1))
    };
    for (head, tail, taken) in
        [("", "\nnop", "nop: complete\n"), ("nop\r\n", "", "nop: complete\n"), ("", "\nx", "unclear line 2\n")]
    {
        assert!(printed(long(head, tail, FILE_LIMIT)).starts_with(taken));
        assert_eq!(printed(long(head, tail, FILE_LIMIT + 1)), "too long\n");
        assert_eq!(printed(long(head, tail, 100_000)), "too long\n");
    }
    assert_eq!(printed("x".to_string() + &"\n".repeat(FILE_LIMIT)), "too long\n", "before anything else");
    let nops = printed("nop\n".repeat(4096));
    assert!(nops.contains("\nw F packets 8192 same\nSAME\n"), "every request is sent");
    let mut endless = Vec::new();
    desk::waits(&mut io::repeat(b'\n'), &mut endless).unwrap();
    assert_eq!(endless, b"too long\n", "not read to its end");
}

/// What comes out at one W by what `talk` prints: the lines, the packets and the memory.
fn told_by_talk(w: u32, file: &[u8]) -> Run {
    let heads = lines(file).into_iter().filter(|line| !gets_no_answer(line));
    let length = heads.clone().fold(0, |length, line| match &words(&line.to_ascii_lowercase())[..] {
        [b"memory", n] => second::line::number(n).unwrap(),
        _ => length,
    });
    let mut script = [format!("make {w:X}\n").as_bytes(), file, b"\nstate\n"].concat();
    for start in (0..length).step_by(0x400) {
        script.extend_from_slice(format!("peek {start:X} {:X}\n", (length - start).min(0x400)).as_bytes());
    }
    let output = String::from_utf8(output_of("talk", &script).unwrap()).unwrap();
    let mut answers = output.lines();
    assert_eq!(answers.next(), Some("made"));
    let mut run = Run { lines: Vec::new(), packets: 0, memory: Vec::new() };
    for (head, answer) in heads.zip(answers.by_ref()) {
        let (outcome, packets) = answer.split_once(" packets ").unwrap_or((answer, "0"));
        match outcome.split(' ').next().unwrap() {
            "memory" | "bytes" => continue,
            "value" | "complete" | "bus-error" | "illegal" | "refused" => {}
            _ => panic!("{answer}"),
        }
        run.lines.push([head, &b": "[..], outcome.as_bytes()].concat());
        run.packets += packets.parse::<usize>().unwrap();
    }
    let state = answers.next().unwrap();
    let rest = state.strip_prefix(&format!("state w={w:X} ")).expect(state);
    run.lines.push(format!("state w=0 {rest}").into_bytes());
    for answer in answers {
        run.memory.extend(second::line::bytes(answer.strip_prefix("peek ").unwrap().as_bytes()).unwrap());
    }
    assert_eq!(run.memory.len(), length as usize);
    run
}

/// Runs that are the same at every W but for the packets, told by `talk`.
fn check_with_talk(file: &[u8]) {
    let runs: Vec<Run> = (0..16).map(|w| told_by_talk(w, file)).collect();
    let shown = String::from_utf8_lossy(file);
    let mut expected = [runs[0].lines.join(&b'\n'), b"\n".to_vec()].concat();
    for (w, run) in runs.iter().enumerate() {
        assert_eq!((&run.lines, &run.memory), (&runs[0].lines, &runs[0].memory), "W = {w}\n{shown}");
        expected.extend_from_slice(w_line(w, run.packets).as_bytes());
    }
    expected.extend_from_slice(b"SAME\n");
    assert!(output_of("waits", file).unwrap() == expected, "{shown}");
}

#[test]
fn the_answers_at_each_w_are_those_of_talk() {
    for file in [
        "memory 10\nwrite.l 4 12345678\nread.w 6\ndump.b\nfill.b 7",
        "fill.l 19800000",
        "memory 8\nfill.l 18800000\nmemory 2\nnop\nread.l 0",
        "go\nwdreg 3 0C000000\nrcreg 801\nwcreg 801 1\nrdmreg 0\nrdmreg 0",
        "memory 10001\nnop\nrdreg 10\nmemory 10000\nwrite.b FFFF 1\nfill.b 1",
        "wdmreg 1 2D800000",
    ] {
        check_with_talk(file.as_bytes());
    }
    let mut rng = Rng::new(1);
    for place in 0..400 {
        let lines = clear_lines(&mut rng, 1 + place / 5);
        check_with_talk(&typed_script(&mut rng, lines).concat());
    }
}

#[test]
fn a_line_is_none_where_talk_says_so_and_where_it_is_no_request() {
    let mut rng = Rng::new(2);
    let mut unclear = 0;
    for _ in 0..1500 {
        let length = rng.between(1, 12) as usize;
        let file = waits_file(&mut rng, length).concat();
        let page = output_of("waits", &file).unwrap();
        // The first word of a line, and what `talk` answers to it behind those before.
        let mut program = desk::Talk::new();
        let none = lines(&file).into_iter().position(|line| {
            let answer = desk::Program::answer(&mut program, line);
            let line = line.to_ascii_lowercase();
            let first = words(&line).first().map(|word| word.to_vec()).unwrap_or_default();
            let others: [&[u8]; 7] = [b"make", b"event", b"breakpoint", b"peek", b"state", b"help", b"quit"];
            answer.as_deref() == Some("unclear") || (answer.is_some() && others.contains(&&first[..]))
        });
        let shown = String::from_utf8_lossy(&page);
        match none {
            _ if file.len() > FILE_LIMIT => assert_eq!(shown, "too long\n"),
            Some(place) => assert_eq!(shown, format!("unclear line {}\n", place + 1)),
            None => assert!(shown.ends_with("\nSAME\n"), "{shown}"),
        }
        unclear += usize::from(none.is_some());
    }
    assert!(unclear > 200, "{unclear}");
}

/// A list of requests with no illegal word at W = 0, of up to so many lines.
fn legal_lines(rng: &mut Rng, length: usize) -> Vec<Vec<u8>> {
    let mut kept: Vec<Vec<u8>> = Vec::new();
    for line in clear_lines(rng, length) {
        kept.push(line);
        let answers = output_of("talk", &kept.join(&b'\n')).unwrap();
        if answers.split(|&byte| byte == b'\n').any(|answer| answer.starts_with(b"illegal ")) {
            kept.pop();
        }
    }
    kept
}

#[test]
fn where_every_word_is_legal_each_request_that_waits_takes_w_packets_more() {
    let mut rng = Rng::new(3);
    let mut waiting_in_all = 0;
    for place in 0..150 {
        let file = legal_lines(&mut rng, 5 + place / 3).join(&b'\n');
        let page = String::from_utf8(output_of("waits", &file).unwrap()).unwrap();
        let requests: Vec<&str> = page.lines().take_while(|line| !line.starts_with("state ")).collect();
        assert!(page.ends_with("\nSAME\n") && !page.contains(": illegal\n"), "{page}");
        let waits = |line: &&&str| {
            let name = line.split_ascii_whitespace().next().unwrap().trim_end_matches(':').to_ascii_lowercase();
            let memory = ["read.", "write.", "dump.", "fill."].iter().any(|begin| name.starts_with(begin));
            (memory || ["rcreg", "wcreg"].contains(&name.as_str())) && !line.contains(": refused ")
        };
        let waiting = requests.iter().filter(waits).count();
        let packets: Vec<usize> = page
            .lines()
            .filter(|line| line.starts_with("w "))
            .map(|line| line.split(' ').nth(3).unwrap().parse().unwrap())
            .collect();
        let expected: Vec<usize> = (0..16).map(|w| packets[0] + w * waiting).collect();
        assert_eq!(packets, expected, "{page}");
        waiting_in_all += waiting;
    }
    assert!(waiting_in_all > 1000, "{waiting_in_all}");
}

/// Sixteen runs that are the same but for the packets, with changes of some, as a page without the lines above those of W.
fn page_of(change: impl Fn(usize, &mut Run)) -> String {
    let line = |text: &str| text.as_bytes().to_vec();
    let mut runs: Vec<Run> = (0..16)
        .map(|w| Run {
            lines: vec![line("read.b 0: value 00000001"), line("nop: complete"), line("state w=0 halted=1")],
            packets: 7 + w,
            memory: vec![1, 2, 3, 4],
        })
        .collect();
    for (w, run) in runs.iter_mut().enumerate() {
        change(w, run);
    }
    let mut page = Vec::new();
    write_page(&runs, &mut page).unwrap();
    String::from_utf8(page).unwrap()
}

/// The page of `page_of` with other endings of the lines of some W.
fn expected_page(ends: &[(usize, &str)]) -> String {
    let mut page = String::from("read.b 0: value 00000001\nnop: complete\nstate w=0 halted=1\n");
    for w in 0..16 {
        match ends.iter().find(|(other, _)| *other == w) {
            Some((_, end)) => page += &format!("w {w:X} packets {end}\n"),
            None => page += &w_line(w, 7 + w),
        }
    }
    let same = ends.iter().all(|(_, end)| end.ends_with(" same"));
    page + if same { "SAME\n" } else { "DIFFERENT\n" }
}

#[test]
fn runs_that_are_the_same() {
    assert_eq!(page_of(|_, _| {}), expected_page(&[]));
    let other_packets = page_of(|w, run| run.packets = if w == 5 { 123_456 } else { run.packets });
    assert_eq!(other_packets, expected_page(&[(5, "123456 same")]));
}

#[test]
fn a_run_that_is_different_is_told_by_what_comes_out_first() {
    let other = |run: &mut Run, place: usize, text: &str| run.lines[place] = text.as_bytes().to_vec();
    for w in 1..16 {
        let page = page_of(|at, run| {
            if at == w {
                other(run, 1, "nop: illegal");
            }
        });
        assert_eq!(page, expected_page(&[(w, &format!("{} differs: nop: illegal", 7 + w))]), "a line");
        let page = page_of(|at, run| {
            if at == w {
                other(run, 2, "state w=0 halted=0");
            }
        });
        assert_eq!(page, expected_page(&[(w, &format!("{} differs: state w=0 halted=0", 7 + w))]), "the state");
        let page = page_of(|at, run| {
            if at == w {
                run.memory = vec![1, 2, 0xAB, 0];
            }
        });
        assert_eq!(page, expected_page(&[(w, &format!("{} differs: memory 00000002 AB", 7 + w))]), "memory alone");
        let page = page_of(|at, run| {
            if at == w {
                (run.packets, run.memory) = (0, vec![0x0F, 2, 3, 4]);
                other(run, 0, "read.b 0: value 0000000F");
                other(run, 2, "state w=0 halted=0");
            }
        });
        assert_eq!(page, expected_page(&[(w, "0 differs: read.b 0: value 0000000F")]), "lines before memory");
    }
}

#[test]
fn runs_that_are_different_are_compared_with_that_of_0() {
    let page = page_of(|w, run| match w {
        0 => {}
        3 => run.memory[0] = 0x33,
        8 => run.lines[1] = b"nop: bus-error".to_vec(),
        9 => run.memory[3] = 0xFF,
        _ => {}
    });
    let ends = [
        (3, "10 differs: memory 00000000 33"),
        (8, "15 differs: nop: bus-error"),
        (9, "16 differs: memory 00000003 FF"),
    ];
    assert_eq!(page, expected_page(&ends));
    // It is W = 0 whose lines are shown, so all others are different where it alone is.
    let page = page_of(|w, run| run.memory[1] = if w == 0 { 9 } else { 2 });
    let ends: Vec<(usize, String)> = (1..16).map(|w| (w, format!("{} differs: memory 00000001 02", 7 + w))).collect();
    let ends: Vec<(usize, &str)> = ends.iter().map(|(w, end)| (*w, end.as_str())).collect();
    assert_eq!(page, expected_page(&ends));
}

#[test]
fn a_high_address_has_eight_digits() {
    let run = Run { lines: vec![b"state".to_vec()], packets: 0, memory: vec![0; 65_536] };
    let mut runs = vec![run; 16];
    runs[15].memory[0xFEDC] = 5;
    runs[15].memory[0xFEDD] = 6;
    let mut page = Vec::new();
    write_page(&runs, &mut page).unwrap();
    assert!(page.ends_with(b"\nw F packets 0 differs: memory 0000FEDC 05\nDIFFERENT\n"));
}

/// A pod that never rests: a request's words, NOPs until its replies close it, and straight on with the next request.
fn ask_straight_on(board: &mut Board, memory: &mut [u8], request: &Request) -> Outcome {
    let built = request.build().unwrap();
    board.packet(memory, built[0]).unwrap();
    let mut operands = built[1..].iter().copied();
    let mut reader = Reader::new(request).unwrap();
    loop {
        let reply = board.packet(memory, operands.next().unwrap_or(0)).unwrap();
        if let Some(outcome) = reader.feed(reply).unwrap() {
            return outcome;
        }
    }
}

/// A pod that brings the port to rest first, as `talk` does.
fn ask_at_rest(board: &mut Board, memory: &mut [u8], request: &Request) -> Outcome {
    talk(board, memory, request).unwrap().0
}

fn requests(lines: &[&str]) -> Vec<Request> {
    lines.iter().map(|line| parse_request(&words(line.as_bytes())).unwrap()).collect()
}

type Pod = fn(&mut Board, &mut [u8], &Request) -> Outcome;

/// The outcomes of requests on a fresh board, and whether it is halted behind them.
fn asked(pod: Pod, w: u32, memory: &mut [u8], requests: &[Request]) -> (Vec<Outcome>, bool) {
    let mut board = Board::make(w).unwrap();
    let outcomes = requests.iter().map(|request| pod(&mut board, memory, request)).collect();
    (outcomes, board.is_halted())
}

/// 02, [10] asks that every command word be legal. Without that a pod that goes straight on has other answers at another W:
/// the illegal FILL's operand 1900 is taken as READ, which swallows the next request's words, so many of them as W says.
#[test]
fn a_pod_that_does_not_rest_has_other_answers_behind_an_illegal_word() {
    let list = requests(&["fill.l 19000000", "write.w C00 0", "rdreg 0"]);
    let (illegal, bus_error) = (Outcome::Illegal, Outcome::BusError);
    // At W = 0 WRITE's word C00 comes when READ has closed, and is GO.
    let straight_at_0 = asked(ask_straight_on, 0, &mut [], &list);
    assert_eq!(straight_at_0, (vec![illegal, bus_error, illegal], false));
    // At W = 1 it is ignored while READ waits.
    let straight_at_1 = asked(ask_straight_on, 1, &mut [], &list);
    assert_eq!(straight_at_1, (vec![illegal, bus_error, Outcome::Value(0)], true));
    for w in 0..16 {
        let at_rest = asked(ask_at_rest, w, &mut [], &list);
        assert_eq!(at_rest, (vec![illegal, bus_error, Outcome::Value(0)], true), "W = {w}");
    }
}

/// The same packet by packet: FILL, its first operand, then WRITE's words and RDREG's.
#[test]
fn the_packets_of_that_pod() {
    let replies = |w: u32, packets: &[u32]| {
        let mut replies = vec![0; packets.len()];
        Board::make(w).unwrap().run(&mut [], packets, &mut replies).unwrap();
        replies
    };
    assert_eq!(
        replies(0, &[0x1C80, 0x1900, 0x1840, 0x0000, 0x0C00, 0x2180, 0x0000]),
        [0x0FFFF, 0x1FFFF, 0x10000, 0x10000, 0x10001, 0x0FFFF, 0x1FFFF]
    );
    assert_eq!(
        replies(1, &[0x1C80, 0x1900, 0x1840, 0x0000, 0x0C00, 0x0000, 0x2180, 0x0000, 0x0000]),
        [0x0FFFF, 0x1FFFF, 0x10000, 0x10000, 0x10000, 0x10001, 0x0FFFF, 0x00000, 0x00000]
    );
}

/// Where every word is legal it makes no difference whether the pod rests: the port does when a request is closed.
#[test]
fn where_every_word_is_legal_no_pod_need_rest() {
    let mut rng = Rng::new(4);
    for _ in 0..100 {
        let mut list = Vec::new();
        for line in clear_lines(&mut rng, 40) {
            let request = parse_request(&words(&line.to_ascii_lowercase()));
            let Some(request) = request.filter(|request| request.judge().is_ok()) else {
                continue;
            };
            list.push(request);
            if asked(ask_at_rest, 0, &mut [0x5A; 64], &list).0.contains(&Outcome::Illegal) {
                list.pop();
            }
        }
        let mut memory = [0x5A; 64];
        let expected = asked(ask_at_rest, 0, &mut memory, &list);
        for w in 0..16 {
            for pod in [ask_at_rest as Pod, ask_straight_on] {
                let mut other = [0x5A; 64];
                assert_eq!(asked(pod, w, &mut other, &list), expected, "W = {w}: {list:?}");
                assert_eq!(other, memory, "W = {w}: {list:?}");
            }
        }
    }
}
