//! The binary itself: a conversation, and the comparison of programs with it.

use std::fs;
use std::io::{BufRead, BufReader, Write};
use std::os::unix::fs::PermissionsExt;
use std::path::{Path, PathBuf};
use std::process::{Command, Output, Stdio};

const SECOND: &str = env!("CARGO_BIN_EXE_second");

#[test]
fn each_answer_is_written_before_the_next_line_is_read() {
    for (program, line, answer) in [
        ("stand_in", "packet 0", "reply 0FFFF"),
        ("pod", "build go", "words 00C00"),
        ("talk", "nop", "complete packets 2"),
    ] {
        let mut child = Command::new(SECOND).arg(program).stdin(Stdio::piped()).stdout(Stdio::piped()).spawn().unwrap();
        let mut input = child.stdin.take().unwrap();
        let mut output = BufReader::new(child.stdout.take().unwrap()).lines();
        for _ in 0..3 {
            writeln!(input, "# no answer\n\n{line}").unwrap();
            assert_eq!(output.next().unwrap().unwrap(), answer);
        }
        drop(input);
        assert!(output.next().is_none());
        assert!(child.wait().unwrap().success());
    }
}

#[test]
fn a_line_is_answered_at_its_cr_and_quit_ends_the_program() {
    for (program, line, answer) in [
        ("stand_in", "PACKET 0x0", "reply 0FFFF"),
        ("pod", "\tbuild  GO", "words 00C00"),
        ("talk", "nop ", "complete packets 2"),
    ] {
        let mut child = Command::new(SECOND).arg(program).stdin(Stdio::piped()).stdout(Stdio::piped()).spawn().unwrap();
        let mut input = child.stdin.take().unwrap();
        let mut output = BufReader::new(child.stdout.take().unwrap()).lines();
        // The LF of CR LF comes only when the answer has been seen, and has none itself.
        for _ in 0..3 {
            write!(input, "{line}\r").unwrap();
            assert_eq!(output.next().unwrap().unwrap(), answer);
            writeln!(input).unwrap();
        }
        // The input stays open.
        write!(input, "Quit\r").unwrap();
        assert_eq!(output.next().unwrap().unwrap(), "bye");
        assert!(output.next().is_none());
        assert!(child.wait().unwrap().success());
        drop(input);
    }
}

/// A directory of programs, `gateway`, `mend` and `unmend` aside: `second` by its names, one of them behind a filter.
fn programs(name: &str, filtered: &str, filter: &str) -> PathBuf {
    programs_between(name, filtered, "cat", filter)
}

/// The same with a filter before it too.
fn programs_between(name: &str, filtered: &str, before: &str, behind: &str) -> PathBuf {
    let directory = Path::new(env!("CARGO_TARGET_TMPDIR")).join(name);
    for program in ["stand_in", "pod", "talk", "trace_list", "page", "waits"] {
        let (before, behind) = if program == filtered { (before, behind) } else { ("cat", "cat") };
        put_between(&directory, program, before, behind);
    }
    directory
}

fn put_between(directory: &Path, program: &str, before: &str, behind: &str) {
    fs::create_dir_all(directory).unwrap();
    let path = directory.join(program);
    fs::write(&path, format!("#!/bin/sh\n{before} | '{SECOND}' {program} \"$@\" | {behind}\n")).unwrap();
    fs::set_permissions(&path, fs::Permissions::from_mode(0o755)).unwrap();
}

/// `second gateway` behind a filter of its packets, or of its results.
fn put_gateway(directory: &Path, packets: &str, results: &str) {
    let path = directory.join("gateway");
    let run = format!("'{SECOND}' gateway \"$@\"");
    let text = match (packets, results) {
        ("cat", "cat") => format!("#!/bin/sh\nexec {run}\n"),
        (packets, "cat") => format!("#!/bin/sh\n{run} | {packets}\n"),
        (_, results) => format!("#!/bin/sh\nexec 3>&1\n{run} 2>&1 >&3 | {results} >&2\n"),
    };
    fs::write(&path, text).unwrap();
    fs::set_permissions(&path, fs::Permissions::from_mode(0o755)).unwrap();
}

/// `second mend` and `second unmend`, one of them behind a filter of what it writes and one of what it says.
fn put_menders(directory: &Path, filtered: &str, output: &str, said: &str) {
    fs::create_dir_all(directory).unwrap();
    for program in ["mend", "unmend"] {
        let path = directory.join(program);
        let text = if program == filtered {
            format!("#!/bin/sh\nexec 3>&1\n{{ '{SECOND}' {program} | {output} >&3; }} 2>&1 | {said} >&2\n")
        } else {
            format!("#!/bin/sh\nexec '{SECOND}' {program}\n")
        };
        fs::write(&path, text).unwrap();
        fs::set_permissions(&path, fs::Permissions::from_mode(0o755)).unwrap();
    }
}

fn second(arguments: &[&str]) -> (bool, String) {
    let Output { status, stdout, .. } = Command::new(SECOND).args(arguments).output().unwrap();
    (status.success(), String::from_utf8(stdout).unwrap())
}

fn vectors() -> String {
    format!("{}/vectors", env!("CARGO_MANIFEST_DIR"))
}

#[test]
fn the_same_programs_agree() {
    let directory = programs("same", "", "cat");
    put_gateway(&directory, "cat", "cat");
    put_menders(&directory, "", "", "");
    let bin = directory.to_str().unwrap();
    let (good, text) = second(&["compare", "--all", bin, &vectors()]);
    assert!(good, "{text}");
    assert!(text.ends_with(" 0 differ, 0 missing\n"), "{text}");
    let (good, text) = second(&["random", "--all", bin, "1", "3"]);
    assert!(good, "{text}");
    assert!(text.starts_with("3 rounds agree: 4800 lines, 60 traces, "), "{text}");
    assert!(text.ends_with(" visits, 60 mended traces, 240 spoilt lists, 12 files at every W\n"), "{text}");
    let (good, text) = second(&["soak", bin, "1"]);
    assert!(good && text.ends_with("all agree\n"), "{text}");
}

#[test]
fn a_difference_is_shown_with_its_cause() {
    let directory = programs("changed", "stand_in", "sed s/10001/10002/");
    let bin = directory.to_str().unwrap();
    let (good, text) = second(&["compare", bin, &vectors()]);
    assert!(!good && text.contains("DIFFERS stand_in/by_eye\n"), "{text}");
    assert!(text.contains("  expected: reply 10001\n  actual:   reply 10002\n"), "{text}");
    let (good, text) = second(&["random", bin, "1", "20"]);
    assert!(!good && text.contains("the shortest script found:\n    packet "), "{text}");
    let (good, text) = second(&["soak", bin, "20"]);
    assert!(!good && text.contains("DIFFERS at seed "), "{text}");
}

#[test]
fn a_difference_in_typing_is_shown_as_it_was_typed() {
    for (name, before, vector, shown) in [
        ("no_cr", "tr -d '\\r'", "line_ends_cr", "\\r"),
        ("no_tabs", "tr '\\t' x", "blanks", "\\t"),
        ("no_upper_case", "sed s/^PACKET/x/", "case", "    PACKET"),
        ("no_prefix", "sed 's/ 0x/ +/'", "prefix", " 0x"),
        ("no_quit", "sed 's/[qQ][uU][iI][tT]/quits/'", "help_quit", "    quit\n"),
    ] {
        let directory = programs_between(name, "stand_in", before, "cat");
        let bin = directory.to_str().unwrap();
        let (good, text) = second(&["compare", bin, &vectors()]);
        assert!(!good && text.contains(&format!("DIFFERS stand_in/{vector}\n")), "{name}: {text}");
        let (good, text) = second(&["random", bin, "1", "60"]);
        let (_, script) = text.split_once("the shortest script found:\n").expect(&text);
        assert!(!good && script.contains(shown), "{name}: {text}");
        assert!(script.lines().count() < 10, "{name}: {text}");
    }
}

#[test]
fn a_shortest_trace_is_found() {
    let directory = programs("changed_trace", "trace_list", "sed 's/ 15 0$/ 14 0/'");
    let (good, text) = second(&["random", directory.to_str().unwrap(), "1", "20"]);
    assert!(!good && text.contains("the shortest trace found:\n    F"), "{text}");
}

#[test]
fn a_shortest_trace_of_a_page_is_found() {
    let directory = programs("changed_page", "page", "sed 's/ transfer 8 due 1 / transfer none /'");
    let bin = directory.to_str().unwrap();
    let (good, text) = second(&["compare", bin, &vectors()]);
    assert!(!good && text.contains("DIFFERS page/transfer_8\n"), "{text}");
    assert!(text.contains("  expected: index 512 items 1 transfer 8 due 1 run none\n"), "{text}");
    let (good, text) = second(&["random", bin, "1", "20"]);
    assert!(!good && text.contains("page differs; the shortest trace found:\n    00*254 8"), "{text}");
}

#[test]
fn a_listing_from_a_cycle_is_compared_with_its_argument() {
    // Only a listing that starts at a later cycle is changed.
    let filter = "if [ \"${1:-0}\" = 0 ]; then cat; else sed 's/ 15 0$/ 14 0/'; fi";
    let directory = programs("changed_rest", "trace_list", filter);
    let bin = directory.to_str().unwrap();
    let (good, text) = second(&["compare", bin, &vectors()]);
    assert!(!good && text.contains("DIFFERS list_from/longest-65280\n"), "{text}");
    assert!(!text.contains("DIFFERS trace_list/"), "{text}");
    let (good, text) = second(&["random", bin, "1", "20"]);
    let shortest = "trace_list \"256\" differs; the shortest trace found:\n    00*256 F";
    assert!(!good && text.contains(shortest), "{text}");
}

#[test]
fn missing_programs_are_reported() {
    for name in ["talk", "gateway"] {
        let directory = programs(&format!("missing_{name}"), "", "cat");
        put_gateway(&directory, "cat", "cat");
        put_menders(&directory, "", "", "");
        fs::remove_file(directory.join(name)).unwrap();
        let bin = directory.to_str().unwrap();
        let (good, text) = second(&["compare", bin, &vectors()]);
        assert!(good && text.starts_with(&format!("missing {name}\n")) && text.ends_with("1 missing\n"), "{text}");
        let (good, _) = second(&["compare", "--all", bin, &vectors()]);
        assert!(!good);
        let (good, _) = second(&["random", "--all", bin, "1", "1"]);
        assert!(!good);
    }
}

/// A directory with nothing but a `gateway` behind filters.
fn gateway_alone(name: &str, packets: &str, results: &str) -> PathBuf {
    let directory = Path::new(env!("CARGO_TARGET_TMPDIR")).join(name);
    fs::create_dir_all(&directory).unwrap();
    put_gateway(&directory, packets, results);
    directory
}

#[test]
fn a_gateway_that_sends_another_packet_differs() {
    let directory = gateway_alone("changed_packets", "sed -u s/02182/02183/", "cat");
    let bin = directory.to_str().unwrap();
    let (good, text) = second(&["compare", bin, &vectors()]);
    assert!(!good && text.contains("DIFFERS gateway/fresh\n  line 3:   visit\n"), "{text}");
    assert!(text.contains("  expected:   +21 0FFFF+2 02180+2 .. 0218F+2 02980+1 "), "{text}");
    assert!(text.contains("  actual:     +21 0FFFF+2 02180+2 02181+2 (02183+2)*2 02184+2 .. 0218F+2 "), "{text}");
    // What ends before that packet agrees.
    assert!(text.contains("agrees  gateway/lag_start\n"), "{text}");
    let (good, text) = second(&["random", bin, "1", "9"]);
    let shortest = "gateway differs; the shortest script found:\n    visit";
    assert!(!good && text.contains(shortest), "{text}");
}

#[test]
fn a_gateway_with_other_results_differs() {
    for (name, results, vector, expected, actual) in [
        ("changed_reason", "sed s/late/reply/", "lag_start", "not-read packet 23 late", "not-read packet 23 reply"),
        (
            "changed_table", "sed s/^table.00000004/table.00000008/", "table", "table 00000004 04050607",
            "table.00000008",
        ),
        ("changed_value", "sed s/D7D7/D6D6/", "registers", "register d7 D7D77D7D", "register d7 D6D67D7D"),
    ] {
        let directory = gateway_alone(name, "", results);
        let (good, text) = second(&["compare", directory.to_str().unwrap(), &vectors()]);
        let (_, shown) = text.split_once(&format!("DIFFERS gateway/{vector}\n")).expect(&text);
        let (_, shown) = shown.split_once(&format!("  expected: {expected}")).expect(&text);
        assert!(!good && shown.lines().nth(1).unwrap().contains(actual), "{name}: {text}");
    }
}

#[test]
fn a_gateway_may_have_any_status_but_must_not_be_killed() {
    for (name, end, good, vector) in [
        ("status", "exit 5", true, "agrees  gateway/fresh\n"),
        ("killed", "kill -9 $$", false, "DIFFERS gateway/fresh\n"),
    ] {
        let directory = gateway_alone(&format!("gateway_{name}"), "cat", "cat");
        fs::write(directory.join("gateway"), format!("#!/bin/sh\n'{SECOND}' gateway \"$@\"\n{end}\n")).unwrap();
        let (agree, text) = second(&["compare", directory.to_str().unwrap(), &vectors()]);
        assert!(agree == good && text.contains(vector), "{name}: {text}");
    }
}

/// A directory with nothing but `mend` and `unmend`, one of them behind filters.
fn menders_alone(name: &str, filtered: &str, output: &str, said: &str) -> PathBuf {
    let directory = Path::new(env!("CARGO_TARGET_TMPDIR")).join(name);
    put_menders(&directory, filtered, output, said);
    directory
}

#[test]
fn a_mended_trace_and_its_list_are_both_compared() {
    let written = "\\x10P\\x90\\x04\\x03\\x02\\x11\\xf0\\xf0";
    for (name, output, said, vector, expected, actual, shortest) in [
        ("written_otherwise", "tr '\\220' '\\221'", "cat", "p9", written, "\\x10P\\x91\\x04", "90 00*4"),
        ("nothing_written", "tr -d '\\000-\\377'", "cat", "p9", written, "(nothing)", "00"),
        ("listed_otherwise", "cat", "sed 's/ 11$/ 10/'", "ends_with_B", "1 11", "1 10", "B"),
    ] {
        let directory = menders_alone(name, "mend", output, said);
        let bin = directory.to_str().unwrap();
        let (_, text) = second(&["compare", bin, &vectors()]);
        let shown = format!("DIFFERS mend/{vector}\n  output line 2\n  expected: {expected}\n  actual:   {actual}");
        assert!(text.contains(&shown), "{name}: {text}");
        let (good, text) = second(&["random", bin, "1", "20"]);
        assert!(!good && text.contains(&format!("mend differs; the shortest trace found:\n    {shortest}")), "{text}");
    }
}

#[test]
fn an_unmender_is_compared_by_the_way_back_and_by_spoilt_lists() {
    for (name, output, said, vector, shortest) in [
        (
            "put_back_otherwise",
            "tr '\\052' '\\012'",
            "cat",
            "reserved_2",
            "what mend made is not put back; the shortest trace found:\n    2A\n",
        ),
        (
            "said_otherwise",
            "cat",
            "sed s/not-its-list/unclear/",
            "twice",
            "unmend differs; the shortest input found:\n    mended cycles=",
        ),
    ] {
        let directory = menders_alone(name, "unmend", output, said);
        let bin = directory.to_str().unwrap();
        let (good, text) = second(&["compare", bin, &vectors()]);
        assert!(!good && text.contains(&format!("DIFFERS unmend/{vector}\n")), "{name}: {text}");
        assert!(!text.contains("DIFFERS mend/"), "{name}: {text}");
        let (good, text) = second(&["random", bin, "1", "20"]);
        assert!(!good && text.contains(shortest), "{name}: {text}");
    }
}

#[test]
fn what_mend_made_must_be_listed() {
    let directory = Path::new(env!("CARGO_TARGET_TMPDIR")).join("not_listed");
    let (last, given) = (directory.join("last"), directory.join("given"));
    drop(fs::remove_file(&last));
    menders_alone("not_listed", "mend", &format!("tee '{}'", last.display()), "cat");
    // A lister that refuses what was mended last and nothing else.
    let (last, given) = (last.display(), given.display());
    let refused = format!("if cmp -s '{last}' '{given}'; then echo refused 10 at 0; exit; fi");
    let lister = format!("#!/bin/sh\ncat >'{given}'\n{refused}\nexec '{SECOND}' trace_list \"$@\" <'{given}'\n");
    fs::write(directory.join("trace_list"), lister).unwrap();
    fs::set_permissions(directory.join("trace_list"), fs::Permissions::from_mode(0o755)).unwrap();
    let (good, text) = second(&["random", directory.to_str().unwrap(), "1", "1"]);
    assert!(!good && text.contains("what mend made is not listed; the shortest trace found:\n"), "{text}");
    assert!(text.ends_with("  trace_list says: refused 10 at 0\n"), "{text}");
}

/// A directory with nothing but `waits`, between two filters.
fn waits_alone(name: &str, before: &str, behind: &str) -> PathBuf {
    let directory = Path::new(env!("CARGO_TARGET_TMPDIR")).join(name);
    put_between(&directory, "waits", before, behind);
    directory
}

#[test]
fn a_shortest_file_for_waits_is_found() {
    for (name, before, behind, vector, expected, shortest) in [
        ("another_answer", "cat", "sed 's/: bus-error$/: illegal/'", "end_of_memory", "read.b 6: bus-error", "    "),
        ("fewer_packets", "cat", "sed 's/^w F packets [0-9][0-9]/w F packets 9/'", "page", "w F packets 59", "    "),
        ("another_number", "cat", "sed 's/^unclear line .*/unclear line 0/'", "number_cr", "unclear line 5", "    "),
        ("cr_is_none", "tr '\\r' x", "cat", "number_crlf", "unclear line 5", "\\r"),
    ] {
        let directory = waits_alone(&format!("waits_{name}"), before, behind);
        let bin = directory.to_str().unwrap();
        let (good, text) = second(&["compare", bin, &vectors()]);
        let (_, shown) = text.split_once(&format!("DIFFERS waits/{vector}\n")).expect(&text);
        let (_, shown) = shown.split_once("  expected: ").expect(&text);
        assert!(!good && shown.starts_with(expected), "{name}: {text}");
        let (good, text) = second(&["random", bin, "1", "60"]);
        let (_, script) = text.split_once("waits differs; the shortest script found:\n").expect(&text);
        assert!(!good && script.contains(shortest) && script.lines().count() < 8, "{name}: {text}");
    }
}

#[test]
fn a_file_that_is_too_long_is_found_though_no_line_can_be_left_out() {
    let directory = waits_alone("waits_cut", "head -c 16384", "cat");
    let (good, text) = second(&["random", directory.to_str().unwrap(), "1", "60"]);
    assert!(!good && text.contains("waits differs; the shortest script found:\n"), "{text}");
    assert!(text.contains("\n  expected: too long\n"), "{text}");
}

/// Runs `second` as one of its programs: its exit status, standard error and standard output.
fn mender(program: &str, input: &[u8]) -> (Option<i32>, String, Vec<u8>) {
    let mut child = Command::new(SECOND)
        .arg(program)
        .stdin(Stdio::piped())
        .stdout(Stdio::piped())
        .stderr(Stdio::piped())
        .spawn()
        .unwrap();
    // What is too long is not read to its end.
    drop(child.stdin.take().unwrap().write_all(input));
    let Output { status, stdout, stderr } = child.wait_with_output().unwrap();
    (status.code(), String::from_utf8(stderr).unwrap(), stdout)
}

#[test]
fn menders_say_on_standard_error_and_always_end_well() {
    for (program, input, said, written) in [
        ("mend", &b"\x10\x2A"[..], "mended cycles=2 changed=1\n1 2\n", &b"\x10\x0A"[..]),
        ("mend", &[0; 65_537], "refused 7 at 0\n", b""),
        ("unmend", b"mended cycles=2 changed=1\n1 2\n\x10\x0A", "unmended cycles=2 changed=1\n", b"\x10\x2A"),
        ("unmend", b"mended cycles=2 changed=1\n1 1\n\x10\x0A", "not-its-list\n", b""),
        ("unmend", b"", "unclear\n", b""),
    ] {
        assert_eq!(mender(program, input), (Some(0), said.to_string(), written.to_vec()));
    }
}

#[test]
fn waits_says_nothing_on_standard_error_and_always_ends_well() {
    for (input, printed) in [
        (&b"nop"[..], "nop: complete\nstate w=0 "),
        (b"nop\nstate", "unclear line 2\n"),
        (&[b'\n'; 20_000], "too long\n"),
    ] {
        let (status, said, written) = mender("waits", input);
        assert_eq!((status, said.as_str()), (Some(0), ""));
        assert!(written.starts_with(printed.as_bytes()), "{printed}");
    }
}
