//! The board and its parts (01): what a board holds, and the fields of CSR.

use crate::command::{Command, CONTROL_REGISTERS};
use crate::refusal::{Ground, Refusal};

/// The largest W.
pub const WAIT_LIMIT: u32 = 15;

/// The most bytes of memory that may be lent.
pub const MEMORY_LIMIT: usize = 65_536;

/// The fields of CSR (Table 5-8).
pub mod csr {
    pub const BSTAT_SHIFT: u32 = 28;
    pub const BSTAT: u32 = 0xF << BSTAT_SHIFT;
    pub const FOF: u32 = 1 << 27;
    pub const TRG: u32 = 1 << 26;
    pub const HALT: u32 = 1 << 25;
    pub const BKPT: u32 = 1 << 24;
    /// HRL is 1: Revision B.
    pub const HRL: u32 = 1 << 20;
    pub const BKD: u32 = 1 << 18;
    /// HALT halts in user mode too.
    pub const UHE: u32 = 1 << 10;
    pub const SSM: u32 = 1 << 4;
    /// The bits that a write reaches.
    pub const WRITTEN: u32 = 0x0007_FF70;
}

/// The values of BSTAT.
pub mod bstat {
    pub const NONE: u32 = 0;
    pub const WAITING_LEVEL_1: u32 = 1;
    pub const LEVEL_1_TRIGGERED: u32 = 2;
    pub const WAITING_LEVEL_2: u32 = 5;
    pub const LEVEL_2_TRIGGERED: u32 = 6;
}

/// Where the port stands between two packets.
#[derive(Clone, Copy, PartialEq, Eq, Debug)]
pub enum Phase {
    /// The next packet is a command word.
    Rest,
    /// `left` operand words of the command are due.
    Operands { command: Command, left: u8 },
    /// `left` packets go by before the command's work is done.
    Waiting { command: Command, left: u8 },
    /// The upper result word is the next reply; this is the lower.
    Low { word: u16 },
}

/// Which of DUMP and FILL is legal.
#[derive(Clone, Copy, PartialEq, Eq, Debug)]
pub enum Chain {
    None,
    Dump,
    Fill,
}

/// The debug port and the registers behind it. Memory is lent with each packet.
#[derive(Clone, PartialEq, Eq, Debug)]
pub struct Board {
    pub(crate) wait: u8,
    pub(crate) halted: bool,
    pub(crate) csr: u32,
    pub(crate) tdr: u32,
    pub(crate) aatr: u16,
    pub(crate) baar: u8,
    pub(crate) pbr: u32,
    pub(crate) pbmr: u32,
    pub(crate) abhr: u32,
    pub(crate) ablr: u32,
    pub(crate) dbr: u32,
    pub(crate) dbmr: u32,
    /// D0 to D7, then A0 to A7.
    pub(crate) registers: [u32; 16],
    /// In the order of `CONTROL_REGISTERS`.
    pub(crate) control: [u32; CONTROL_REGISTERS.len()],
    /// A SYNC_PC is pending.
    pub(crate) sync: bool,
    pub(crate) phase: Phase,
    /// The operand words taken so far, in order.
    pub(crate) operands: [u16; 4],
    pub(crate) chain: Chain,
    /// The address that the next DUMP or FILL uses.
    pub(crate) pointer: u32,
    /// The held next reply.
    pub(crate) next: u32,
    /// The lowest address that was not there, as long as it is kept (02, [4]).
    pub(crate) fault: Option<u32>,
}

impl Board {
    /// A fresh board with the wait setting W.
    pub fn make(wait: u32) -> Result<Board, Refusal> {
        if wait > WAIT_LIMIT {
            return Err(Ground::WaitTooLong.into());
        }
        Ok(Board {
            wait: wait as u8,
            halted: true,
            csr: csr::HRL | csr::BKPT,
            tdr: 0,
            aatr: 0x0005,
            baar: 0x05,
            pbr: 0,
            pbmr: 0,
            abhr: 0,
            ablr: 0,
            dbr: 0,
            dbmr: 0,
            registers: [0; 16],
            control: [0; CONTROL_REGISTERS.len()],
            sync: false,
            phase: Phase::Rest,
            operands: [0; 4],
            chain: Chain::None,
            pointer: 0,
            next: crate::packets::COMPLETE,
            fault: None,
        })
    }

    pub fn is_at_rest(&self) -> bool {
        self.phase == Phase::Rest
    }

    pub fn is_halted(&self) -> bool {
        self.halted
    }

    /// The lowest address that the last access to memory did not find. It is kept until the next command word other than NOP.
    pub fn fault(&self) -> Option<u32> {
        self.fault
    }

    pub(crate) fn bstat(&self) -> u32 {
        self.csr >> csr::BSTAT_SHIFT
    }

    pub(crate) fn set_bstat(&mut self, bstat: u32) {
        self.csr = (self.csr & !csr::BSTAT) | (bstat << csr::BSTAT_SHIFT);
    }
}

#[cfg(test)]
mod tests {
    use super::*;
    use crate::desk::{Program, StandIn};
    use crate::random::{stand_in_script, Rng};

    /// The ranges of ground 12. A board's fields are its own, so no line leads outside them.
    fn is_within_ranges(board: &Board) -> bool {
        let phase = match board.phase {
            Phase::Waiting { command, left } => command.waits() && (1..=board.wait).contains(&left),
            Phase::Operands { command, left } => (1..=command.operands()).contains(&left),
            Phase::Rest | Phase::Low { .. } => true,
        };
        phase
            && u32::from(board.wait) <= WAIT_LIMIT
            && board.next <= 0x1FFFF
            && [0, 1, 2, 5, 6].contains(&board.bstat())
            && board.pointer <= 65_536
    }

    #[test]
    fn no_line_leads_to_ground_12() {
        for seed in 0..20 {
            let mut program = StandIn::new();
            for line in stand_in_script(&mut Rng::new(seed), 2000) {
                program.answer(&line);
                assert!(is_within_ranges(&program.bench.board), "{:?}", program.bench.board);
            }
        }
    }

    #[test]
    fn a_run_of_packets_is_packet_by_packet() {
        let mut rng = Rng::new(1);
        for wait in 0..16 {
            let mut one = Board::make(wait).unwrap();
            let mut all = one.clone();
            let packets: Vec<u32> = (0..2000)
                .map(|_| match rng.below(4) {
                    0 => rng.pick(&[0x1980, 0x1900, 0x1880, 0x1D00, 0x1C40, 0x2D80, 0x0C00, 0x2980]),
                    1 => rng.below(0x2_0000),
                    _ => rng.below(16),
                })
                .collect();
            let mut memory = [0x5A; 24];
            let replies: Vec<u32> = packets.iter().map(|&p| one.packet(&mut memory, p).unwrap()).collect();
            let mut lent = [0x5A; 24];
            let mut run = vec![0; packets.len()];
            all.run(&mut lent, &packets, &mut run).unwrap();
            assert_eq!((one, memory, replies), (all, lent, run));
        }
    }
}
