//! Both halves joined: a request is sent over the port to its end.

use crate::board::{Board, MEMORY_LIMIT};
use crate::pod::{Outcome, Reader, Request};
use crate::refusal::{Ground, Refusal};

const NOP: u32 = 0x0000;

/// Sends `request` and reads its replies until they close it. Gives the outcome and the packets sent: those that bring the
/// port to rest first, the request's own, and the one that carries the closing reply out.
pub fn talk(board: &mut Board, memory: &mut [u8], request: &Request) -> Result<(Outcome, usize), Refusal> {
    let words = request.build()?;
    if memory.len() > MEMORY_LIMIT {
        return Err(Ground::MemoryTooLong.into());
    }
    let mut sent = 0;
    let mut send = |board: &mut Board, word: u32| {
        sent += 1;
        board.packet(memory, word)
    };
    while !board.is_at_rest() {
        send(board, NOP)?;
    }
    // The reply to the command word belongs to what came before.
    send(board, words[0])?;
    let mut reader = Reader::new(request)?;
    let mut operands = words[1..].iter().copied();
    loop {
        let reply = send(board, operands.next().unwrap_or(NOP))?;
        if let Some(outcome) = reader.feed(reply)? {
            return Ok((outcome, sent));
        }
    }
}
