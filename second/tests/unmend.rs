//! The way back (02, [5]; docs/mend.md): what `unmend` reads, what it accepts, and what it says.

mod common;
use common::trace;
use second::desk::{self, INPUT_LIMIT};
use second::mend::{mend, unmend};
use second::random::{damaged_trace, spoilt_list, List, Rng};
use second::trace::TRACE_LIMIT;
use std::collections::{BTreeMap, BTreeSet};
use std::io;

/// What `unmend` says on standard error, and what it writes to standard output.
fn said(mut input: impl io::Read) -> (String, Vec<u8>) {
    let (mut output, mut said) = (Vec::new(), Vec::new());
    desk::unmend(&mut input, &mut output, &mut said).unwrap();
    (String::from_utf8(said).unwrap(), output)
}

/// The same for a text and the cycles behind it.
fn said_of(text: &str, cycles: &str) -> (String, Vec<u8>) {
    said(&[text.as_bytes(), &trace(cycles)].concat()[..])
}

fn words_of(list: &List) -> Vec<u32> {
    list.changes.iter().map(|&(cycle, pst)| (cycle * 16 + pst) as u32).collect()
}

/// Every trace of these PSTs and this length.
fn traces(psts: &[u8], length: u32) -> Vec<Vec<u8>> {
    let one_more = |traces: Vec<Vec<u8>>, _| {
        traces.iter().flat_map(|trace| psts.iter().map(|pst| [trace.as_slice(), &[pst << 4 | 5]].concat())).collect()
    };
    (0..length).fold(vec![Vec::new()], one_more)
}

/// Every list of so many of these words at most.
fn lists(words: &[u32], most: u32) -> Vec<Vec<u32>> {
    let mut lists = vec![Vec::new()];
    let mut longest = lists.clone();
    for _ in 0..most {
        longest =
            longest.iter().flat_map(|list| words.iter().map(|word| [list.as_slice(), &[*word]].concat())).collect();
        lists.extend_from_slice(&longest);
    }
    lists
}

/// A list is accepted exactly if some trace, mended, gives it and the trace behind it: all traces are tried.
#[test]
fn accepted_is_what_some_trace_gives_when_it_is_mended() {
    let all: Vec<u8> = (0..16).collect();
    for (psts, length, most) in [(&all[..], 2, 2), (&[0x0, 0x2, 0x8, 0xB], 3, 3), (&[0x0, 0x6, 0x8], 4, 2)] {
        let mut recorded = BTreeMap::new();
        for trace in traces(psts, length) {
            let list = List::of(&trace);
            assert!(recorded.insert((list.trace.clone(), words_of(&list)), trace).is_none(), "no two traces");
        }
        let words: Vec<u32> =
            (0..=length).flat_map(|cycle| psts.iter().map(move |&pst| cycle * 16 + u32::from(pst))).collect();
        let lists = lists(&words, most);
        for trace in traces(psts, length) {
            for list in &lists {
                let expected = recorded.get(&(trace.clone(), list.clone()));
                assert_eq!(unmend(&trace, list).as_ref(), expected, "{trace:02X?} {list:X?}");
            }
        }
    }
}

#[test]
fn a_trace_that_is_too_long_has_no_list() {
    assert_eq!(unmend(&vec![0; TRACE_LIMIT + 1], &[]), None);
    assert_eq!(unmend(&vec![0; TRACE_LIMIT], &[]), Some(vec![0; TRACE_LIMIT]));
    assert_eq!(unmend(&[0x10], &[u32::MAX]), None);
}

#[test]
fn what_mend_printed_gives_the_trace_back() {
    let mut rng = Rng::new(2);
    for _ in 0..500 {
        let recorded = damaged_trace(&mut rng);
        let (mut mended, mut list) = (Vec::new(), Vec::new());
        desk::mend(&mut &recorded[..], &mut mended, &mut list).unwrap();
        let head = String::from_utf8_lossy(list.split(|&byte| byte == b'\n').next().unwrap()).into_owned();
        let (text, output) = said(&[list, mended].concat()[..]);
        if recorded.len() > TRACE_LIMIT {
            assert_eq!((text.as_str(), output), ("unclear\n", vec![]));
        } else {
            assert_eq!((text, output), (format!("un{head}\n"), recorded));
        }
    }
}

/// One thing about a text or its trace is changed at a time.
#[test]
fn each_answer() {
    let good = ("unmended cycles=3 changed=1\n".to_string(), trace("10 2A 10"));
    assert_eq!(said_of("mended cycles=3 changed=1\n1 2\n", "10 0A 10"), good);
    assert_eq!(said_of("mended cycles=0003 changed=01\n00001 00000000000000000000000002\n", "10 0A 10"), good);
    for text in [
        "", "mended", "mended cycles=3 changed=1", "mended cycles=3 changed=1\n", "mended cycles=3 changed=1\n1 2",
        "mended cycles=3 changed=1\r\n1 2\n", "mended cycles=3 changed=1\n1 2\r\n", "Mended cycles=3 changed=1\n1 2\n",
        " mended cycles=3 changed=1\n1 2\n", "mended  cycles=3 changed=1\n1 2\n", "mended cycles=3  changed=1\n1 2\n",
        "mended cycles=3 changed=1 \n1 2\n", "mended cycles=3 changed=1\n\n1 2\n", "mended cycles=3 changed=1\n 1 2\n",
        "mended cycles=3 changed=1\n1  2\n", "mended cycles=3 changed=1\n1\t2\n", "mended cycles=3 changed=1\n1 2 \n",
        "mended cycles=3 changed=2\n1 2\n", "mended cycles=3 changed=1\n1\n", "mended cycles=3 changed=1\n1 2 3\n",
        "mended cycles= changed=1\n1 2\n", "mended cycles=3 changed=\n1 2\n", "mended cycles=3 changed=1\n 2\n",
        "mended cycles=3 changed=1\n1 \n", "mended cycles=+3 changed=1\n1 2\n", "mended cycles=3 changed=-1\n1 2\n",
        "mended cycles=0x3 changed=1\n1 2\n", "mended cycles=3 changed=1\n1 a\n", "mended cycles=3, changed=1\n1 2\n",
        "mended cycles=65537 changed=1\n1 2\n", "mended cycles=3 changed=65537\n1 2\n",
        "mended cycles=3 changed=1\n65536 2\n", "mended cycles=3 changed=1\n1 16\n",
        "mended cycles=3 changed=1\n1 18\n", "mended cycles=4294967299 changed=1\n1 2\n",
        "mended cycles=3 changed=1\n1 4294967298\n", "mended cycles=18446744073709551619 changed=1\n1 2\n",
        "unmended cycles=3 changed=1\n1 2\n", "refused 7 at 0\n",
    ] {
        assert_eq!(said_of(text, "10 0A 10"), ("unclear\n".to_string(), vec![]), "{text:?}");
    }
    for (text, cycles) in [
        ("mended cycles=3 changed=1\n1 2\n", "10 0A"),
        ("mended cycles=3 changed=1\n1 2\n", "10 0A 10 0A"),
        ("mended cycles=2 changed=1\n1 2\n", "10 0A 10"),
        ("mended cycles=65536 changed=1\n1 2\n", "10 0A 10"),
        ("mended cycles=3 changed=0\n1 2\n", "10 0A 10"),
        ("mended cycles=3 changed=2\n1 2\n1 2\n", "10 0A 10"),
        ("mended cycles=3 changed=2\n2 2\n1 2\n", "10 0A 00"),
        ("mended cycles=3 changed=1\n3 2\n", "10 0A 10"),
        ("mended cycles=3 changed=1\n65535 2\n", "10 0A 10"),
        ("mended cycles=3 changed=1\n0 2\n", "10 0A 10"),
        ("mended cycles=3 changed=1\n1 2\n", "10 2A 10"),
        ("mended cycles=3 changed=1\n1 0\n", "10 0A 10"),
        ("mended cycles=3 changed=1\n1 1\n", "10 0A 10"),
        ("mended cycles=3 changed=1\n1 15\n", "10 0A 10"),
        ("mended cycles=4 changed=1\n1 8\n", "10 0A 10 10"),
        ("mended cycles=3 changed=0\n", "10 2A 10"),
        ("mended cycles=3 changed=1\n1 2\n", "10 0A 20"),
        ("mended cycles=3 changed=1\n1 2\n", "10 0A 80"),
    ] {
        assert_eq!(said_of(text, cycles), ("not-its-list\n".to_string(), vec![]), "{text:?} {cycles}");
    }
}

#[test]
fn behind_the_last_line_feed_any_byte_is_the_trace() {
    for cycles in ["0A 0A", "0D 0A", "0A 31", "31 0A", "00 FF"] {
        let text = "mended cycles=3 changed=1\n0 6\n";
        let (said, output) = said_of(text, &format!("07 {cycles}"));
        assert_eq!((said.as_str(), output), ("unmended cycles=3 changed=1\n", trace(&format!("67 {cycles}"))));
    }
}

#[test]
fn an_input_of_700_000_bytes_is_read_and_a_longer_one_is_unclear() {
    let of_length = |length: usize| {
        let zeros = "0".repeat(length - "mended cycles=1 changed=0\n".len() - 1);
        format!("mended cycles={zeros}1 changed=0\n\x10")
    };
    assert_eq!(INPUT_LIMIT, 700_000);
    let good = ("unmended cycles=1 changed=0\n".to_string(), vec![0x10]);
    assert_eq!(said(of_length(700_000).as_bytes()), good);
    assert_eq!(said(of_length(700_001).as_bytes()), ("unclear\n".to_string(), vec![]));
    let endless = io::Read::chain(&b"mended cycles=1 changed=0\n"[..], io::repeat(0x10));
    assert_eq!(said(endless), ("unclear\n".to_string(), vec![]));
}

/// What must be said of an input, read line by line.
fn literally(input: &[u8]) -> (String, Vec<u8>) {
    let Some((cycles, words, trace)) = literal_list(input) else {
        return ("unclear\n".to_string(), vec![]);
    };
    let mut recorded = trace.to_vec();
    for word in &words {
        if let Some(byte) = recorded.get_mut(*word as usize / 16) {
            *byte = *byte % 16 + (*word % 16) as u8 * 16;
        }
    }
    let (mut mended, mut list) = (vec![0; recorded.len()], vec![0; recorded.len()]);
    match mend(&recorded, &mut mended, &mut list) {
        Ok(changed) if trace.len() as u64 == cycles && mended == trace && list[..changed] == words => {
            (format!("unmended cycles={cycles} changed={changed}\n"), recorded)
        }
        _ => ("not-its-list\n".to_string(), vec![]),
    }
}

fn literal_list(input: &[u8]) -> Option<(u64, Vec<u32>, &[u8])> {
    let number = |word: &str, most: u64| {
        let digits = word.trim_start_matches('0');
        let is_number = !word.is_empty() && word.chars().all(|digit| "0123456789".contains(digit));
        let value = if digits.is_empty() { 0 } else { digits.parse::<u64>().ok()? };
        (is_number && value <= most).then_some(value)
    };
    let mut lines = input.split_inclusive(|&byte| byte == b'\n');
    let mut used = 0;
    let mut line = || {
        let line = lines.next()?;
        used += line.len();
        std::str::from_utf8(line).ok()?.strip_suffix('\n')
    };
    let (cycles, changed) = line()?.strip_prefix("mended cycles=")?.split_once(" changed=")?;
    let (cycles, changed) = (number(cycles, 65_536)?, number(changed, 65_536)?);
    let mut words = Vec::new();
    for _ in 0..changed {
        let (cycle, pst) = line()?.split_once(' ')?;
        words.push((number(cycle, 65_535)? * 16 + number(pst, 15)?) as u32);
    }
    (input.len() <= 700_000).then_some((cycles, words, &input[used..]))
}

#[test]
fn each_byte_of_an_input_as_each_other_byte() {
    let input = List::of(&trace("80 B1 62 93 04")).to_bytes();
    assert_eq!(said(&input[..]).0, "unmended cycles=5 changed=3\n");
    for at in 0..input.len() {
        for byte in 0..=255 {
            let mut changed = input.clone();
            changed[at] = byte;
            assert_eq!(said(&changed[..]), literally(&changed), "{}", changed.escape_ascii());
            changed.insert(at, input[at]);
            assert_eq!(said(&changed[..]), literally(&changed), "{}", changed.escape_ascii());
        }
        for part in [&input[..at], &input[at..], &[&input[..at], &input[at + 1..]].concat()] {
            assert_eq!(said(part), literally(part), "{}", part.escape_ascii());
        }
    }
}

#[test]
fn spoilt_lists_get_every_answer() {
    let mut rng = Rng::new(3);
    let mut answers = BTreeMap::new();
    let mut other = Vec::new();
    for _ in 0..3000 {
        let recorded = damaged_trace(&mut rng);
        let input = spoilt_list(&mut rng, &recorded, &other);
        let answer = said(&input[..]);
        assert_eq!(answer, literally(&input), "{}", input.escape_ascii());
        *answers.entry(answer.0.split([' ', '\n']).next().unwrap().to_string()).or_insert(0) += 1;
        other = recorded;
    }
    assert_eq!(
        answers.keys().map(String::as_str).collect::<BTreeSet<_>>(),
        ["not-its-list", "unclear", "unmended"].into()
    );
    assert!(answers.values().all(|&count| count > 300), "{answers:?}");
}
