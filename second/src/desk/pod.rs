//! `pod`: the pod's half.

use super::Program;
use crate::command::Size;
use crate::line::number;
use crate::pod::{Outcome, Request};
use std::fmt::Write;

/// Builds requests and reads replies; it remembers nothing.
#[derive(Default)]
pub struct Pod;

impl Program for Pod {
    fn help(&self) -> &'static str {
        "help build read help quit"
    }

    fn answer_words(&mut self, words: &[&[u8]]) -> Option<String> {
        match words {
            [b"build", request @ ..] => build(&parse_request(request)?),
            [b"read", rest @ ..] => {
                let colon = rest.iter().position(|&word| word == b":")?;
                let request = parse_request(&rest[..colon])?;
                let replies: Option<Vec<u32>> = rest[colon + 1..].iter().map(|word| number(word)).collect();
                read(&request, &replies?)
            }
            _ => None,
        }
    }
}

/// A request as it is typed, if the words are one. Its fields are not judged.
pub fn parse_request(words: &[&[u8]]) -> Option<Request> {
    Some(match words {
        [b"rdreg", r] => Request::ReadRegister { register: number(r)? },
        [b"wdreg", r, v] => Request::WriteRegister { register: number(r)?, value: number(v)? },
        [b"go"] => Request::Go,
        [b"nop"] => Request::Nop,
        [b"sync_pc"] => Request::SyncPc,
        [b"rcreg", rc] => Request::ReadControl { rc: number(rc)? },
        [b"wcreg", rc, v] => Request::WriteControl { rc: number(rc)?, value: number(v)? },
        [b"rdmreg", n] => Request::ReadDebug { n: number(n)? },
        [b"wdmreg", n, v] => Request::WriteDebug { n: number(n)?, value: number(v)? },
        [name, fields @ ..] => {
            let (stem, size) = sized(name)?;
            match (stem, fields) {
                (b"read", [a]) => Request::Read { size, address: number(a)? },
                (b"write", [a, v]) => Request::Write { size, address: number(a)?, value: number(v)? },
                (b"dump", []) => Request::Dump { size },
                (b"fill", [v]) => Request::Fill { size, value: number(v)? },
                _ => return None,
            }
        }
        [] => return None,
    })
}

/// `read.b` is `read` and a byte.
fn sized(name: &[u8]) -> Option<(&[u8], Size)> {
    let (stem, suffix) = name.split_at_checked(name.len().checked_sub(2)?)?;
    let size = match suffix {
        b".b" => Size::Byte,
        b".w" => Size::Word,
        b".l" => Size::Long,
        _ => return None,
    };
    Some((stem, size))
}

/// An outcome as it is printed, without its count.
pub fn outcome_words(outcome: Outcome) -> String {
    match outcome {
        Outcome::Value(value) => format!("value {value:08X}"),
        Outcome::Complete => "complete".to_string(),
        Outcome::BusError => "bus-error".to_string(),
        Outcome::Illegal => "illegal".to_string(),
        Outcome::NotYet => "not-yet".to_string(),
    }
}

fn build(request: &Request) -> Option<String> {
    Some(match request.build() {
        Ok(words) => {
            let mut answer = String::from("words");
            for word in words {
                write!(answer, " {word:05X}").ok()?;
            }
            answer
        }
        Err(refusal) => refusal.to_string(),
    })
}

fn read(request: &Request, replies: &[u32]) -> Option<String> {
    Some(match request.read(replies) {
        Ok((outcome, used)) => format!("{} used {used}", outcome_words(outcome)),
        Err(refusal) => refusal.to_string(),
    })
}
