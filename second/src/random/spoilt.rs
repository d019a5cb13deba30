//! Lists that are spoilt on their way to `unmend`, in what they say or in how they say it. Some are still right.

use super::list::List;
use super::Rng;
use crate::desk::INPUT_LIMIT;

/// What `unmend` is given for a trace as it was recorded; `other` is another one.
pub fn spoilt_list(rng: &mut Rng, recorded: &[u8], other: &[u8]) -> Vec<u8> {
    let mut list = List::of(recorded);
    match rng.below(100) {
        0 => widened(rng, &list),
        1..=5 => cut(rng, list.to_bytes()),
        6..=60 => {
            spoil_meaning(rng, &mut list, recorded, other);
            list.to_bytes()
        }
        _ => {
            let mut text = list.text();
            spoil_typing(rng, &mut text);
            [text, list.trace].concat()
        }
    }
}

/// With so many zeros before the first number that the input is as long as it may be, or just not.
fn widened(rng: &mut Rng, list: &List) -> Vec<u8> {
    let length = INPUT_LIMIT + rng.below(3) as usize - 1;
    let mut input = list.to_bytes();
    let first = input.iter().position(u8::is_ascii_digit).unwrap_or(0);
    let zeros = vec![b'0'; length.saturating_sub(input.len())];
    drop(input.splice(first..first, zeros));
    input
}

/// Ended anywhere, or about the end of a line.
fn cut(rng: &mut Rng, mut input: Vec<u8>) -> Vec<u8> {
    let at = place(rng, input.len());
    let line_end = input[at..].iter().position(|&byte| byte == b'\n').map_or(at, |behind| at + behind);
    input.truncate(rng.pick(&[at, line_end, line_end + 1]));
    input
}

/// A place in something of this length.
fn place(rng: &mut Rng, length: usize) -> usize {
    rng.below(length as u32) as usize
}

fn spoil_meaning(rng: &mut Rng, list: &mut List, recorded: &[u8], other: &[u8]) {
    match rng.below(10) {
        0 => list.cycles = other_number(rng, list.cycles),
        1 => list.changed = other_number(rng, list.changed),
        2 => list.trace = recorded.to_vec(),
        3 => *list = List { trace: list.trace.clone(), ..List::of(other) },
        4 => *list = List { trace: other.to_vec(), ..list.clone() },
        5 => spoil_trace(rng, list),
        _ => {
            spoil_changes(rng, list);
            // Mostly the head counts what is there, so that the lines themselves are judged.
            if rng.percent(80) {
                list.changed = list.changes.len() as u64;
            }
        }
    }
}

/// A number near this one, or one of which this is left in fewer bits.
fn other_number(rng: &mut Rng, number: u64) -> u64 {
    match rng.below(6) {
        0 => number + 1,
        1 => number.saturating_sub(1),
        2 => number + (1 << 16),
        3 => number + (1 << 32),
        4 => rng.pick(&[0, 15, 16, 65_535, 65_536, 65_537]),
        _ => u64::from(rng.below(number as u32 + 10)),
    }
}

fn spoil_trace(rng: &mut Rng, list: &mut List) {
    let listed = list.changes.get(place(rng, list.changes.len() + 1)).map(|&(cycle, _)| cycle as usize);
    let any = place(rng, list.trace.len() + 1);
    let cycle = if rng.percent(50) { listed.unwrap_or(any) } else { any };
    match list.trace.get_mut(cycle) {
        Some(byte) => match rng.below(4) {
            0 => *byte ^= 1 << rng.below(8),
            1 => *byte = *byte % 16 + 16 * rng.below(16) as u8,
            2 => list.trace.truncate(cycle),
            _ => drop(list.trace.remove(cycle)),
        },
        None => list.trace.push(rng.pick(&[0x00, 0x10, 0x20, 0x80])),
    }
    if rng.percent(40) {
        list.cycles = list.trace.len() as u64;
    }
}

/// A change that is not one, one that is missing, or one that is told otherwise.
fn spoil_changes(rng: &mut Rng, list: &mut List) {
    let changes = &mut list.changes;
    if changes.is_empty() || rng.once_in(4) {
        return add_change(rng, list);
    }
    let at = place(rng, changes.len());
    match rng.below(6) {
        0 => drop(changes.remove(at)),
        1 => changes.insert(at, changes[at]),
        2 => {
            let to = place(rng, changes.len());
            changes.swap(at, to);
        }
        3 => changes[at].0 = other_number(rng, changes[at].0),
        4 => changes[at].1 = rng.pick(&[0, 1, 2, 6, 7, 8, 9, 10, 11, 12, 15, 16, 18, 65_538]),
        _ => changes.reverse(),
    }
}

/// One change more, in its place: of a cycle that the trace has with PST 0, or of any.
fn add_change(rng: &mut Rng, list: &mut List) {
    let idle: Vec<u64> =
        list.trace.iter().enumerate().filter(|(_, &byte)| byte < 0x10).map(|(cycle, _)| cycle as u64).collect();
    let cycle = if idle.is_empty() || rng.once_in(5) {
        u64::from(rng.below(list.cycles as u32 + 2))
    } else {
        idle[place(rng, idle.len())]
    };
    let pst = rng.pick(&[0, 1, 2, 6, 8, 9, 10, 11, 12]);
    let at = list.changes.partition_point(|&(before, _)| before < cycle);
    list.changes.insert(at, (cycle, pst));
}

/// Spoils the text as bytes.
fn spoil_typing(rng: &mut Rng, text: &mut Vec<u8>) {
    let at = place(rng, text.len());
    let line_end = text[at..].iter().position(|&byte| byte == b'\n').map_or(text.len() - 1, |behind| at + behind);
    let digit = text[at..].iter().position(|byte| byte.is_ascii_digit()).map(|behind| at + behind);
    match (rng.below(12), digit) {
        (0, _) => drop(text.splice(line_end..line_end + 1, *b"\r\n")),
        (1, _) => *text = text.split(|&byte| byte == b'\n').collect::<Vec<_>>().join(&b"\r\n"[..]),
        (2, _) => text.truncate(at),
        (3, _) => text[at] = rng.word() as u8,
        (4, _) => text.insert(at, rng.pick(b" \t\r\n0-+.,x\0")),
        (5, _) => drop(text.remove(at)),
        (6, _) => text.make_ascii_uppercase(),
        (7, _) => text.insert(0, rng.pick(b" \n#0\xEF")),
        (8 | 9, Some(digit)) => text[digit] = b'0' + rng.below(10) as u8,
        (10, Some(digit)) => drop(text.splice(digit..digit, vec![b'0'; rng.pick(&[1, 3, 30])])),
        (11, Some(digit)) => text.insert(digit, rng.pick(b"123456789")),
        _ => {}
    }
}
