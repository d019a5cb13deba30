//! The bridge of the comparison: what it answers, what it records, and programs that do not behave.

use second::bridge::{play, played_output, Bridge, Own, Visitor};
use second::check::Process;
use std::fs;
use std::os::unix::fs::PermissionsExt;
use std::path::{Path, PathBuf};
use std::sync::{Mutex, PoisonError};
use std::time::Duration;

/// A visitor that sends what it is told, and keeps what it is answered.
struct Probe {
    lines: Vec<Vec<u8>>,
    answers: Vec<Vec<u8>>,
    ended: Option<usize>,
}

impl Visitor for Probe {
    fn visit(&mut self, _: &[String], bridge: &mut Bridge) -> Result<Vec<u8>, String> {
        for line in &self.lines {
            let answer = bridge.take_line(line);
            self.answers.push(answer.bytes);
            if answer.ends && self.ended.is_none() {
                self.ended = Some(self.answers.len());
            }
        }
        Ok(Vec::new())
    }
}

fn packet_line(packet: u32) -> Vec<u8> {
    format!("packet {packet:05X}\n").into_bytes()
}

/// The answers to some packets in a scene, and after which of them the input ended.
fn answers(scene: &str, packets: &[u32]) -> (Vec<String>, Option<usize>) {
    let lines = packets.iter().map(|&packet| packet_line(packet)).collect();
    let mut probe = Probe { lines, answers: Vec::new(), ended: None };
    play(format!("{scene}\nvisit").as_bytes(), &mut probe).unwrap();
    let texts = probe.answers.into_iter().map(|answer| String::from_utf8(answer).unwrap()).collect();
    (texts, probe.ended)
}

fn output(scene: &str) -> String {
    String::from_utf8(played_output(&play(scene.as_bytes(), &mut Own).unwrap())).unwrap()
}

#[test]
fn packets_are_answered_by_the_board() {
    let (texts, ended) = answers("make 0\nmemory 4\nbytes 0 11223344", &[0x1980, 0, 0, 0, 0, 0x20000]);
    let due = ["0FFFF", "10000", "10000", "01122", "03344"].map(|reply| format!("reply {reply}\n"));
    assert_eq!(texts, [&due[..], &["refused 1 at 0\n".to_string()]].concat());
    assert_eq!(ended, None);
}

#[test]
fn a_lag_repeats_what_was_and_leaves_out_what_is_late() {
    let packets = [0xFFFF, 0, 0, 0x2D80, 0, 0, 0];
    let replies = |scene: &str| -> Vec<String> {
        let (texts, ended) = answers(scene, &packets);
        assert_eq!(ended, None);
        texts.iter().map(|text| text.strip_prefix("reply ").unwrap().trim_end().to_string()).collect()
    };
    let straight = replies("");
    assert_eq!(straight, ["0FFFF", "1FFFF", "0FFFF", "0FFFF", "00110", "00000", "0FFFF"]);
    assert_eq!(replies("from 1 lag 0"), straight);
    let late = replies("from 1 lag 2 earlier 12345");
    assert_eq!(late[..2], ["12345", "12345"]);
    assert_eq!(late[2..], straight[..5]);
    let late = replies("from 4 lag 3");
    assert_eq!(late[..3], straight[..3]);
    assert_eq!(late[3..], straight[..4]);
    // A later line counts from its packet on.
    let late = replies("from 2 lag 1\nfrom 6 lag 0");
    assert_eq!(late[1..5], straight[..4]);
    assert_eq!(late[5..], straight[5..]);
}

#[test]
fn another_answer() {
    let (texts, ended) = answers("at 2 answer unclear\\n\nat 3 answer \\tREPLY 0x{x} {X}\\r\\n", &[0, 0, 0xFFFF, 0]);
    assert_eq!(texts, ["reply 0FFFF\n", "unclear\n", "\tREPLY 0xffff 0FFFF\r\n", "reply 1FFFF\n"]);
    assert_eq!(ended, None);
    let (texts, _) = answers("from 2 answer r {x}\\n\nat 3 answer \\x41\\\\\\n", &[0, 0, 0, 0]);
    assert_eq!(texts, ["reply 0FFFF\n", "r ffff\n", "A\\\n", "r ffff\n"]);
    // Nought has a digit, and what is no reply has no place for one.
    let (texts, _) = answers("from 1 answer {x}\\n\nmemory 4", &[0x1900, 0, 0, 0]);
    assert_eq!(texts[3], "0\n");
    let (texts, _) = answers("from 1 answer {x}\\n\nmemory 10001", &[0]);
    assert_eq!(texts, ["refused 3 at 0\n"]);
}

#[test]
fn the_input_ends_where_a_visitor_would_wait_for_ever() {
    for (fault, texts, ended) in [
        ("at 2 silent", ["reply 0FFFF\n", "", ""], 2),
        ("at 2 answer reply 0", ["reply 0FFFF\n", "reply 0", ""], 2),
        ("at 2 answer \\n # x\\r\\n", ["reply 0FFFF\n", "\n # x\r\n", ""], 2),
        // A line more, and a line less.
        ("at 1 answer a\\nb\\n\nat 2 answer \\n\nat 3 answer \\n", ["a\nb\n", "\n", "\n"], 3),
    ] {
        assert_eq!(answers(fault, &[0, 0, 0]), (texts.map(str::to_string).to_vec(), Some(ended)), "{fault}");
    }
}

#[test]
fn the_board_is_given_a_line_before_a_packet() {
    let (texts, _) = answers("at 2 do make 3\nat 3 do memory 10001", &[0xFFFF, 0, 0]);
    assert_eq!(texts, ["reply 0FFFF\n", "reply 0FFFF\n", "refused 3 at 0\n"]);
}

#[test]
fn a_line_of_a_scene_that_is_none_is_unclear() {
    for line in [
        "at 0 silent", "at x silent", "at 1 silent 2", "at 1 lag 2", "from 1 silent", "from 1 lag", "from 1 lag -1",
        "from 1 lag 1 earlier", "from 1 lag 1 earlier G", "at 1 answer \\y", "at 1 answer \\x4", "at 1 answer \\",
        "at", "at 1", "visits", "visit \\y", "AT 1 silent", "at  1 silent", "at 1 do",
    ] {
        assert_eq!(output(line), "unclear\n", "{line}");
    }
    assert_eq!(output("# visit\n\n at 1 silent"), "unclear\n");
}

#[test]
fn faults_are_for_the_next_visit_only() {
    let text = output("at 1 silent\nvisit\nvisit");
    assert!(text.starts_with("visit\nsent 1\n  +1\nnot-read packet 1 no-reply\nvisit\nsent 149\n"), "{text}");
    assert!(text.ends_with("csr 01100000\nread packets 149\n"), "{text}");
}

/// What is recorded of lines that are sent.
fn recorded(lines: Vec<Vec<u8>>) -> String {
    let mut probe = Probe { lines, answers: Vec::new(), ended: None };
    let output = played_output(&play(b"visit", &mut probe).unwrap());
    let text = String::from_utf8(output).unwrap();
    text.strip_prefix("visit\nsent ").unwrap().strip_suffix('\n').unwrap().to_string()
}

#[test]
fn packets_are_recorded_in_few_words() {
    let packets = |packets: &[u32]| recorded(packets.iter().map(|&packet| packet_line(packet)).collect());
    assert_eq!(packets(&[]), "0");
    assert_eq!(packets(&[0, 0, 0]), "3\n  +3");
    assert_eq!(packets(&[1, 0, 2, 2, 0]), "5\n  00001+1 00002 00002+1");
    assert_eq!(packets(&[7, 7, 7]), "3\n  (00007)*3");
    assert_eq!(packets(&[7, 0, 7, 0, 7]), "5\n  (00007+1)*2 00007");
    assert_eq!(packets(&[5, 6, 7]), "3\n  00005 00006 00007");
    assert_eq!(packets(&[5, 6, 7, 8, 8]), "5\n  00005 .. 00008 00008");
    assert_eq!(packets(&[5, 0, 6, 0, 7, 0, 8, 0, 9]), "9\n  00005+1 .. 00008+1 00009");
}

#[test]
fn other_lines_are_recorded_as_they_are_and_end_the_input() {
    for line in
        ["packet 0\n", "packet 0000a\n", "Packet 00000\n", "packet 00000", "packet 00000 \n", "packet 00000\r\n", "\n"]
    {
        let shown = line.as_bytes().escape_ascii();
        let lines = vec![packet_line(0), line.as_bytes().to_vec()];
        assert_eq!(recorded(lines.clone()), format!("2\n  +1 \"{shown}\""));
        let mut probe = Probe { lines, answers: Vec::new(), ended: None };
        play(b"visit", &mut probe).unwrap();
        assert_eq!(probe.ended, Some(2));
    }
}

#[test]
fn results_that_go_on_alike_are_recorded_as_two() {
    let results = |results: &str| {
        struct Says(Vec<u8>);
        impl Visitor for Says {
            fn visit(&mut self, _: &[String], _: &mut Bridge) -> Result<Vec<u8>, String> {
                Ok(self.0.clone())
            }
        }
        let output = played_output(&play(b"visit", &mut Says(results.as_bytes().to_vec())).unwrap());
        let text = String::from_utf8(output).unwrap();
        text.strip_prefix("visit\nsent 0\n").unwrap().to_string()
    };
    let same = |text: &str| assert_eq!(results(text), text);
    same("");
    same("unclear\n");
    same("table 00000000 00000000\ntable 00000004 00000000\ntable 00000008 00000000\n");
    same("register d6 0\nregister d7 0\nregister a0 0\nregister a1 1\n");
    assert_eq!(
        results("register d6 x\nregister d7 x\nregister a0 x\nregister a1 x\nregister a2 y\n"),
        "register d6 x\n..\nregister a1 x\nregister a2 y\n"
    );
    assert_eq!(
        results("table 0000000C 1\ntable 00000010 1\ntable 00000014 1\ntable 00000018 1\ntable 00000018 1\n"),
        "table 0000000C 1\n..\ntable 00000018 1\ntable 00000018 1\n"
    );
    assert_eq!(results("read packets 1"), "read packets 1 (no line end)\n");
    assert_eq!(results("\u{7}\\\n"), "\\x07\\\\\n");
}

#[test]
fn a_scene_with_arguments() {
    assert_eq!(output("visit 0"), "visit 0\nsent 0\nunclear\n");
    assert_eq!(output("visit \"\" \\x20"), "visit \"\" \\x20\nsent 0\nunclear\n");
}

/// One process at a time: a script can't be run while a process that is just being started has it open.
static ALONE: Mutex<()> = Mutex::new(());

/// A program that is a shell script.
fn script(name: &str, text: &str) -> PathBuf {
    let directory = Path::new(env!("CARGO_TARGET_TMPDIR")).join("bridge");
    fs::create_dir_all(&directory).unwrap();
    let path = directory.join(name);
    fs::write(&path, format!("#!/bin/sh\n{text}\n")).unwrap();
    fs::set_permissions(&path, fs::Permissions::from_mode(0o755)).unwrap();
    path
}

fn with_process(name: &str, text: &str, scene: &str) -> Result<String, String> {
    with_patience(name, text, scene, Duration::from_secs(30))
}

fn with_patience(name: &str, text: &str, scene: &str, patience: Duration) -> Result<String, String> {
    let _alone = ALONE.lock().unwrap_or_else(PoisonError::into_inner);
    let path = script(name, text);
    let played = play(scene.as_bytes(), &mut Process { path: &path, patience })?;
    Ok(String::from_utf8(played_output(&played)).unwrap())
}

#[test]
fn a_process_is_run_with_its_arguments_whatever_its_status() {
    let output = with_process("arguments", "echo \"$#:$1:$2\" >&2; exit 3", "visit 12 \\x20").unwrap();
    assert_eq!(output, "visit 12 \\x20\nsent 0\n2:12:\\x20\n");
}

#[test]
fn a_process_reads_what_the_bridge_answers() {
    let text = "echo packet 00000; read reply; echo \"$reply\" >&2; echo packet 0FFFF; read reply; echo \"$reply\" >&2";
    assert_eq!(
        with_process("answered", text, "at 2 answer no\\n\nvisit").unwrap(),
        "visit\nsent 2\n  +1 0FFFF\nreply 0FFFF\nno\n"
    );
    // The end of the input, seen by the process.
    let text = "echo packet 00000; read reply || echo ended >&2";
    let due = "visit\nsent 1\n  +1\nended\n";
    assert_eq!(with_process("ended", text, "at 1 silent\nvisit").unwrap(), due);
}

#[test]
fn a_process_that_does_not_wait_is_told_of() {
    let text = "printf 'packet 00000\\npacket 00000\\n'; read reply; read reply";
    let output = with_process("ahead", text, "visit").unwrap();
    assert_eq!(output, "visit\nsent 2\n  +2\npackets were sent ahead of the answers\n");
    // Where two lines came for one packet, the next may go at once.
    let text = "echo packet 00000; read reply; read reply; printf 'packet 00000\\npacket 00000\\n'; read reply";
    let output = with_process("answered_twice", text, "at 1 answer reply 0\\nreply 1\\n\nvisit").unwrap();
    assert_eq!(output, "visit\nsent 3\n  +3\n");
}

#[test]
fn a_process_that_hangs_or_is_killed_is_an_error() {
    let short = Duration::from_millis(700);
    let hangs = with_patience("hangs", "exec sleep 20", "visit", short).unwrap_err();
    assert_eq!(hangs, "line 1: visit: no end after 0.7 seconds and 0 packets");
    let closes = with_patience("closes", "exec >&- 2>&-; exec sleep 20", "\nvisit 0 0", short).unwrap_err();
    assert_eq!(closes, "line 2: visit 0 0: no end after 0.7 seconds and 0 packets");
    let killed = with_process("killed", "kill -9 $$", "visit").unwrap_err();
    assert!(killed.starts_with("line 1: visit: it ended with signal: 9"), "{killed}");
    let missing = play(b"visit", &mut Process { path: Path::new("/no/such"), patience: Duration::from_secs(1) });
    assert!(missing.err().unwrap().contains("could not be started"));
}

#[test]
fn this_programs_visit_is_the_same_in_a_process() {
    let _alone = ALONE.lock().unwrap_or_else(PoisonError::into_inner);
    let path = script("second_gateway", &format!("exec '{}' gateway \"$@\"", env!("CARGO_BIN_EXE_second")));
    for scene in [
        "visit",
        "make 3\nmemory 8\nvisit 0 4",
        "from 25 lag 1\nvisit",
        "at 30 answer reply {X}\\nreply {X}\\n\nvisit",
        "at 30 answer reply {X}\\nreply {X}\\n\nat 60 silent\nvisit",
        "at 149 answer reply {X}\\nreply {X}\\n\nvisit",
        "at 1 answer reply 0FFFF\\nreply 0FFFF\\nreply 0FFFF\\nrepl\nvisit",
    ] {
        let mut process = Process { path: &path, patience: Duration::from_secs(30) };
        let played = play(scene.as_bytes(), &mut process).unwrap();
        assert_eq!(String::from_utf8(played_output(&played)).unwrap(), output(scene), "{scene}");
    }
}
