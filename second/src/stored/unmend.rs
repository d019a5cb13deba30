//! Lists with their traces: the way back of the mended ones, lists that are none, and lists of other traces.

use super::mend::{damaged, ends, grouped, long};
use super::Stored;
use crate::desk::INPUT_LIMIT;
use crate::random::{spoilt_list, List, Rng};
use crate::trace::TRACE_LIMIT;

pub fn all() -> Vec<Stored> {
    let mut stored = Vec::new();
    ways_back(&mut stored);
    each_byte(&mut stored);
    each_blank(&mut stored);
    each_line(&mut stored);
    one_change(&mut stored);
    numbers(&mut stored);
    lengths(&mut stored);
    spoilt(&mut stored);
    stored
}

fn push(stored: &mut Vec<Stored>, name: impl Into<String>, input: Vec<u8>) {
    stored.push(Stored::new("unmend", name, input));
}

fn ways_back(stored: &mut Vec<Stored>) {
    let ends = ends().into_iter().filter(|(name, _)| name.contains("soon") || name.contains("nibble"));
    let traces = grouped().into_iter().chain(ends).chain(long()).chain(damaged().into_iter().take(60));
    for (name, trace) in traces {
        push(stored, format!("back_{name}"), List::of(&trace).to_bytes());
    }
}

/// Each rule once: a marker too soon, a reserved PST, the end inside a transfer.
const SMALL: [u8; 5] = [0x80, 0xB1, 0x62, 0x93, 0x04];

/// An input without each of its bytes, with it twice, with another one for it, and cut before it.
fn each_byte(stored: &mut Vec<Stored>) {
    let input = List::of(&SMALL).to_bytes();
    for (at, byte) in input.iter().enumerate() {
        let (head, tail) = (&input[..at], &input[at + 1..]);
        push(stored, format!("without_{at:02}"), [head, tail].concat());
        push(stored, format!("twice_{at:02}"), [head, &[*byte, *byte], tail].concat());
        push(stored, format!("another_{at:02}"), [head, &[byte ^ 1], tail].concat());
        push(stored, format!("cut_{at:02}"), head.to_vec());
    }
}

/// Something before each space and each line feed of the text.
fn each_blank(stored: &mut Vec<Stored>) {
    let list = List::of(&SMALL);
    let text = list.text();
    for at in (0..text.len()).filter(|&at| text[at].is_ascii_whitespace()) {
        for (name, more) in [("space", b' '), ("tab", b'\t'), ("cr", b'\r'), ("line_feed", b'\n'), ("zero", b'0')] {
            push(stored, format!("{name}_before_{at:02}"), [&text[..at], &[more], &text[at..], &list.trace].concat());
        }
    }
}

/// A list without each of its lines, with it twice, and with each two of them changed over; the head counts what is there.
fn each_line(stored: &mut Vec<Stored>) {
    let list = List::of(&[&[0x2F], &SMALL[..]].concat());
    let mut push_changes = |name: String, changes: Vec<(u64, u64)>| {
        push(stored, name, List { changed: changes.len() as u64, changes, ..list.clone() }.to_bytes());
    };
    for at in 0..list.changes.len() {
        let (head, tail) = list.changes.split_at(at);
        push_changes(format!("lines_without_{at}"), [head, &tail[1..]].concat());
        push_changes(format!("lines_twice_{at}"), [head, &tail[..1], tail].concat());
        for to in at + 1..list.changes.len() {
            let mut changes = list.changes.clone();
            changes.swap(at, to);
            push_changes(format!("lines_swapped_{at}_{to}"), changes);
        }
    }
}

/// Every list of one change, for a trace with a transfer that is over and one idle cycle before it.
fn one_change(stored: &mut Vec<Stored>) {
    let trace = vec![0x05, 0x80, 0x01, 0x02];
    for cycle in 0..=4 {
        for pst in 0..=15 {
            let list = List { cycles: 4, changed: 1, changes: vec![(cycle, pst)], trace: trace.clone() };
            push(stored, format!("change_{cycle}_{pst:02}"), list.to_bytes());
        }
    }
}

/// Each number at its limit, above it, and so far above it that its low bits are right; with zeros before it.
fn numbers(stored: &mut Vec<Stored>) {
    let idle = vec![0; TRACE_LIMIT];
    let reserved = vec![0x20; TRACE_LIMIT];
    let mut last = idle.clone();
    last[TRACE_LIMIT - 1] = 0x60;
    for more in [1, 1 << 8, 1 << 16, 1 << 32] {
        let mut list = List::of(&SMALL);
        list.cycles += more;
        push(stored, format!("cycles_{more}_more"), list.to_bytes());
        let mut list = List::of(&SMALL);
        list.changed += more;
        push(stored, format!("changed_{more}_more"), list.to_bytes());
        let mut list = List::of(&SMALL);
        list.changes[0].0 += more;
        push(stored, format!("cycle_{more}_more"), list.to_bytes());
    }
    for more in [1, 4, 8, 16, 256, 65_536, 1 << 32] {
        let mut list = List::of(&SMALL);
        list.changes[1].1 += more;
        push(stored, format!("pst_{more}_more"), list.to_bytes());
    }
    push(stored, "cycles_65537", List { cycles: 65_537, ..List::of(&idle) }.to_bytes());
    push(stored, "changed_65537", List { changed: 65_537, ..List::of(&reserved[..9]) }.to_bytes());
    push(stored, "cycle_65535", List::of(&last).to_bytes());
    for zeros in [1, 20, 5000] {
        push(stored, format!("zeros_{zeros}"), with_zeros(&List::of(&SMALL), zeros));
    }
}

/// So many zeros before each number.
fn with_zeros(list: &List, zeros: usize) -> Vec<u8> {
    let text = list.text();
    let mut typed = Vec::new();
    for (place, byte) in text.iter().enumerate() {
        let begins = byte.is_ascii_digit() && (place == 0 || !text[place - 1].is_ascii_digit());
        typed.resize(typed.len() + if begins { zeros } else { 0 }, b'0');
        typed.push(*byte);
    }
    [typed, list.trace.clone()].concat()
}

/// Traces that are longer or shorter than the head says, and inputs about as long as they may be.
fn lengths(stored: &mut Vec<Stored>) {
    for (name, cycles, bytes) in [
        ("trace_none", 5, 0),
        ("trace_shorter", 5, 4),
        ("trace_longer", 5, 6),
        ("trace_65536", 65_536, TRACE_LIMIT),
        ("trace_65535_of_65536", 65_536, TRACE_LIMIT - 1),
        ("trace_65537_of_65536", 65_536, TRACE_LIMIT + 1),
        ("trace_131072_of_65536", 65_536, 2 * TRACE_LIMIT),
    ] {
        let list = List { cycles, changed: 0, changes: Vec::new(), trace: vec![0x10; bytes] };
        push(stored, name, list.to_bytes());
    }
    for length in [INPUT_LIMIT - 1, INPUT_LIMIT, INPUT_LIMIT + 1] {
        let list = List::of(&[0x10]);
        let zeros = vec![b'0'; length - list.to_bytes().len()];
        let typed = [b"mended cycles=", zeros.as_slice(), b"1 changed=0\n", &list.trace].concat();
        push(stored, format!("input_{length}"), typed);
    }
}

fn spoilt(stored: &mut Vec<Stored>) {
    let mut rng = Rng::new(6);
    let traces = damaged();
    for place in 0..150 {
        let input = spoilt_list(&mut rng, &traces[place % traces.len()].1, &traces[(place + 1) % traces.len()].1);
        push(stored, format!("spoilt_{place:03}"), input);
    }
}
