//! Lines as people type them: in other letters, with other blanks, with `0x` before numbers, with other line ends. What they
//! say stays the same.

use super::Rng;
use crate::line::{is_line_end, words, LINE_LIMIT};

/// The line ends of a script are of one kind, or mixed. Some end an empty line more.
const ENDS: [&[&str]; 6] = [&["\n"], &["\n"], &["\n"], &["\r"], &["\r\n"], &["\n", "\r", "\r\n", "\n\r", "\r\r\n"]];

/// The lines with their ends, none, few or many of them typed in other ways. The last may have no end.
pub fn typed_script(rng: &mut Rng, lines: Vec<Vec<u8>>) -> Vec<Vec<u8>> {
    let habit = rng.pick(&[0, 5, 40]);
    let ends = rng.pick(&ENDS);
    let last = lines.len().saturating_sub(1);
    let unended = rng.percent(25);
    let mut script = Vec::with_capacity(lines.len());
    for (place, line) in lines.into_iter().enumerate() {
        let mut line = if rng.percent(habit) { typed(rng, &line) } else { line };
        if place != last || !unended {
            line.extend_from_slice(rng.pick(ends).as_bytes());
        }
        script.push(line);
    }
    script
}

/// The line without its end, typed in another way. One that is long keeps its length.
fn typed(rng: &mut Rng, line: &[u8]) -> Vec<u8> {
    let mut typed = if line.len() > LINE_LIMIT / 4 { line.to_vec() } else { spaced(rng, line) };
    match rng.below(4) {
        0 => typed.make_ascii_uppercase(),
        1 => typed.make_ascii_lowercase(),
        2 => {
            for byte in &mut typed {
                if rng.percent(50) {
                    *byte =
                        if byte.is_ascii_uppercase() { byte.to_ascii_lowercase() } else { byte.to_ascii_uppercase() };
                }
            }
        }
        _ => {}
    }
    typed
}

/// Other blanks between the words and about them, `0x` before some numbers. HEX of `bytes` is no number.
fn spaced(rng: &mut Rng, line: &[u8]) -> Vec<u8> {
    let words = words(line);
    let numbers = match words.first() {
        Some(first) if first.eq_ignore_ascii_case(b"bytes") => 1..2,
        _ => 1..words.len(),
    };
    let mut spaced = Vec::new();
    blanks(rng, 0, &mut spaced);
    for (place, word) in words.iter().enumerate() {
        if place > 0 {
            blanks(rng, 1, &mut spaced);
        }
        if numbers.contains(&place) && word.iter().all(u8::is_ascii_hexdigit) && rng.once_in(3) {
            spaced.extend_from_slice(b"0x");
        }
        spaced.extend_from_slice(word);
    }
    blanks(rng, 0, &mut spaced);
    spaced
}

/// So many blanks, or some more.
fn blanks(rng: &mut Rng, least: u32, line: &mut Vec<u8>) {
    let more = if rng.once_in(3) { rng.between(1, 3) } else { 0 };
    for _ in 0..least + more {
        line.push(if rng.percent(70) { b' ' } else { b'\t' });
    }
}

/// The line as it is mostly typed, with LF. Where it is more than one, it stays as it is.
pub fn plain(line: &[u8]) -> Vec<u8> {
    let body = line.trim_ascii_end();
    if body.iter().any(|&byte| is_line_end(byte)) {
        return line.to_vec();
    }
    let mut plain = words(body).into_iter().map(plain_word).collect::<Vec<_>>().join(&b' ');
    plain.push(b'\n');
    plain
}

fn plain_word(word: &[u8]) -> Vec<u8> {
    let digits = match word {
        [b'0', b'x' | b'X', digits @ ..] if !digits.is_empty() => digits,
        word => word,
    };
    if digits.iter().all(u8::is_ascii_hexdigit) {
        digits.to_ascii_uppercase()
    } else {
        word.to_ascii_lowercase()
    }
}
