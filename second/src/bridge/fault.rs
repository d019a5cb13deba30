//! What is wrong on the way to a gateway during one visit. Packets count from 1, in decimal.

use super::text::{pieces, Piece};
use crate::line::number_of_bits;
use crate::packets::COMPLETE;

/// A fault, as a line of a scene says it.
#[derive(Clone, PartialEq, Eq, Debug)]
pub enum Fault {
    /// `from S lag D`, `from S lag D earlier X`: from packet S on, the reply to each is that to the packet D before it, and
    /// X where that was before the visit.
    Lag { from: usize, by: usize, earlier: u32 },
    /// `at S answer TEXT`
    AnswerAt { at: usize, text: Vec<Piece> },
    /// `from S answer TEXT`
    AnswerFrom { from: usize, text: Vec<Piece> },
    /// `at S do LINE`: the board is given the line just before packet S.
    Do { at: usize, line: Vec<u8> },
    /// `at S silent`: the input ends where packet S is to be answered.
    Silent { at: usize },
}

impl Fault {
    /// The fault that a line says, if it says one.
    pub fn parse(line: &[u8]) -> Option<Fault> {
        let words: Vec<&[u8]> = line.splitn(4, |&byte| byte == b' ').collect();
        let place = decimal(words.get(1)?).filter(|&place| place > 0)?;
        Some(match words[..] {
            [b"at", _, b"silent"] => Fault::Silent { at: place },
            [b"at", _, b"answer", text] => Fault::AnswerAt { at: place, text: pieces(text)? },
            [b"from", _, b"answer", text] => Fault::AnswerFrom { from: place, text: pieces(text)? },
            [b"at", _, b"do", line] => Fault::Do { at: place, line: line.to_vec() },
            [b"from", _, b"lag", rest] => {
                let words: Vec<&[u8]> = rest.split(|&byte| byte == b' ').collect();
                let (by, earlier) = match words[..] {
                    [by] => (by, COMPLETE),
                    [by, b"earlier", x] => (by, number_of_bits(x, 32)?),
                    _ => return None,
                };
                Fault::Lag { from: place, by: decimal(by)?, earlier }
            }
            _ => return None,
        })
    }
}

fn decimal(word: &[u8]) -> Option<usize> {
    if !word.iter().all(u8::is_ascii_digit) {
        return None;
    }
    std::str::from_utf8(word).ok()?.parse().ok()
}

/// The lines that the board is given before packet `count`.
pub fn deeds(faults: &[Fault], count: usize) -> impl Iterator<Item = &[u8]> {
    faults.iter().filter_map(move |fault| match fault {
        Fault::Do { at, line } if *at == count => Some(&line[..]),
        _ => None,
    })
}

/// True if packet `count` is the one that is not answered.
pub fn is_silent(faults: &[Fault], count: usize) -> bool {
    faults.contains(&Fault::Silent { at: count })
}

/// The bytes that packet `count` is answered with. `answers` are the board's own, that to packet `count` the last. Of two
/// faults of one kind the one said later counts.
pub fn bytes(faults: &[Fault], count: usize, answers: &[String]) -> Vec<u8> {
    let answer = lagging(faults, count, answers);
    let given = faults.iter().rev().find_map(|fault| match fault {
        Fault::AnswerAt { at, text } if *at == count => Some(text),
        _ => None,
    });
    let habit = || {
        faults.iter().rev().find_map(|fault| match fault {
            Fault::AnswerFrom { from, text } if *from <= count => Some(text),
            _ => None,
        })
    };
    given.or_else(habit).and_then(|text| typed(text, &answer)).unwrap_or_else(|| format!("{answer}\n").into_bytes())
}

/// The board's answer that arrives for packet `count`.
fn lagging(faults: &[Fault], count: usize, answers: &[String]) -> String {
    let lag = faults.iter().rev().find_map(|fault| match *fault {
        Fault::Lag { from, by, earlier } if from <= count => Some((by, earlier)),
        _ => None,
    });
    match lag {
        None => answers[count - 1].clone(),
        Some((by, earlier)) => match count.checked_sub(by + 1) {
            Some(place) => answers[place].clone(),
            None => format!("reply {earlier:05X}"),
        },
    }
}

/// The text with the reply in its places; none if it has such places and the answer is no reply.
fn typed(text: &[Piece], answer: &str) -> Option<Vec<u8>> {
    let digits = answer.strip_prefix("reply ");
    let mut bytes = Vec::new();
    for piece in text {
        match piece {
            Piece::Byte(byte) => bytes.push(*byte),
            Piece::Digits => bytes.extend_from_slice(digits?.as_bytes()),
            Piece::FewDigits => {
                let few = digits?.trim_start_matches('0').to_ascii_lowercase();
                bytes.extend_from_slice(if few.is_empty() { b"0" } else { few.as_bytes() });
            }
        }
    }
    Some(bytes)
}
