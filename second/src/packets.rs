//! Packets (01): the reply to a packet, and what its input does.

use crate::board::{Board, Chain, Phase, MEMORY_LIMIT};
use crate::command::Command;
use crate::refusal::{Ground, Refusal};

/// The largest packet or reply word: 17 bits.
pub const PACKET_LIMIT: u32 = 0x1FFFF;
/// C in a packet, S in a reply.
pub const BIT_16: u32 = 0x10000;

pub const COMPLETE: u32 = 0x0FFFF;
pub const NOT_READY: u32 = 0x10000;
pub const BUS_ERROR: u32 = 0x10001;
pub const ILLEGAL: u32 = 0x1FFFF;

impl Board {
    /// Takes one packet and gives its reply, which the state before it has fixed.
    pub fn packet(&mut self, memory: &mut [u8], packet: u32) -> Result<u32, Refusal> {
        if memory.len() > MEMORY_LIMIT {
            return Err(Ground::MemoryTooLong.into());
        }
        if packet > PACKET_LIMIT {
            return Err(Ground::WordTooWide.into());
        }
        Ok(self.exchange(memory, packet))
    }

    /// Takes `packets` in order and puts their replies at the front of `replies`. All of it is judged before the first
    /// packet is taken: memory too long, then a packet too wide, then a `replies` too short.
    pub fn run(&mut self, memory: &mut [u8], packets: &[u32], replies: &mut [u32]) -> Result<(), Refusal> {
        if memory.len() > MEMORY_LIMIT {
            return Err(Ground::MemoryTooLong.into());
        }
        if packets.iter().any(|&packet| packet > PACKET_LIMIT) {
            return Err(Ground::WordTooWide.into());
        }
        if replies.len() < packets.len() {
            return Err(Ground::BufferTooShort.into());
        }
        for (reply, &packet) in replies.iter_mut().zip(packets) {
            *reply = self.exchange(memory, packet);
        }
        Ok(())
    }

    fn exchange(&mut self, memory: &mut [u8], packet: u32) -> u32 {
        match self.phase {
            Phase::Rest => {
                let reply = self.next;
                self.take_command_word(memory, packet);
                reply
            }
            Phase::Operands { command, left } => {
                self.take_operand(memory, packet, command, left);
                NOT_READY
            }
            Phase::Waiting { command, left } => {
                if left == 1 {
                    self.work(memory, command);
                } else {
                    self.phase = Phase::Waiting { command, left: left - 1 };
                }
                NOT_READY
            }
            Phase::Low { word } => {
                let upper = self.next;
                self.close(u32::from(word));
                upper
            }
        }
    }

    fn take_command_word(&mut self, memory: &mut [u8], packet: u32) {
        let command = self.accept(packet);
        // 02, [4]: kept "until the next command word other than NOP"; an illegal word and one with C are such words.
        if command != Some(Command::Nop) {
            self.fault = None;
        }
        match command {
            None => self.refuse_command(),
            Some(command) => {
                if !matches!(command, Command::Nop | Command::Dump(_) | Command::Fill(_)) {
                    self.chain = Chain::None;
                }
                match command.operands() {
                    0 => self.after_last_word(memory, command),
                    left => {
                        self.next = NOT_READY;
                        self.phase = Phase::Operands { command, left };
                    }
                }
            }
        }
    }

    /// The command that a packet at rest begins, or none if it is illegal here.
    fn accept(&self, packet: u32) -> Option<Command> {
        if packet & BIT_16 != 0 {
            return None;
        }
        let command = Command::decode(packet as u16)?;
        let legal = match command {
            Command::Dump(_) => self.chain == Chain::Dump,
            Command::Fill(_) => self.chain == Chain::Fill,
            _ => self.halted || !command.halted_only(),
        };
        legal.then_some(command)
    }

    fn take_operand(&mut self, memory: &mut [u8], packet: u32, command: Command, left: u8) {
        if packet & BIT_16 != 0 {
            self.refuse_command();
            return;
        }
        self.operands[usize::from(command.operands() - left)] = packet as u16;
        if left == 1 {
            self.after_last_word(memory, command);
        } else {
            self.phase = Phase::Operands { command, left: left - 1 };
        }
    }

    fn after_last_word(&mut self, memory: &mut [u8], command: Command) {
        if command.waits() && self.wait > 0 {
            self.next = NOT_READY;
            self.phase = Phase::Waiting { command, left: self.wait };
        } else {
            self.work(memory, command);
        }
    }

    /// An illegal word, or C where a word was due: the command is dropped and the chain ends.
    fn refuse_command(&mut self) {
        self.chain = Chain::None;
        self.close(ILLEGAL);
    }

    /// The port rests; `reply` leaves with the next packet.
    pub(crate) fn close(&mut self, reply: u32) {
        self.next = reply;
        self.phase = Phase::Rest;
    }

    /// Memory or a control register that isn't there.
    pub(crate) fn close_with_bus_error(&mut self) {
        self.chain = Chain::None;
        self.close(BUS_ERROR);
    }
}
