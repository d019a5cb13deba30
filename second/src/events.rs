//! Events and firing (01; 000, sections 5.4 and 5.6): an instruction start, its access, and the breakpoint input.

use crate::board::{bstat, csr, Board};
use crate::refusal::{Ground, Refusal};

/// One bus access.
#[derive(Clone, Copy, PartialEq, Eq, Debug)]
pub struct Access {
    pub address: u32,
    /// Laid out as AATR's low byte: R, SZ, TT, TM.
    pub attribute: u8,
    /// D[31:0], the operand already on its lanes; the other lanes are not looked at.
    pub data: u32,
}

/// The privilege that an instruction runs at.
#[derive(Clone, Copy, PartialEq, Eq, Debug)]
pub enum Privilege {
    User,
    Supervisor,
}

/// What an event is marked with (02, [6]).
#[derive(Clone, Copy, PartialEq, Eq, Debug, Default)]
pub enum Mark {
    #[default]
    Absent,
    /// The instruction is HALT.
    Halt(Privilege),
}

/// One instruction start.
#[derive(Clone, Copy, PartialEq, Eq, Debug, Default)]
pub struct Event {
    pub pc: u32,
    pub access: Option<Access>,
    pub mark: Mark,
}

/// What an event did.
#[derive(Clone, Copy, PartialEq, Eq, Debug)]
pub struct EventAnswer {
    /// 0, 1 or 2.
    pub level: u8,
    pub halted: bool,
    pub interrupt: bool,
    pub pc: Option<u32>,
    /// HALT was run and halted nothing; something else may have.
    pub ignored: bool,
}

/// What the breakpoint input did.
#[derive(Clone, Copy, PartialEq, Eq, Debug)]
pub struct BreakpointAnswer {
    pub halted: bool,
    pub interrupt: bool,
}

/// The size field of an attribute byte.
const SZ: u8 = 0x60;
const SZ_LONG: u8 = 0x00;
const SZ_BYTE: u8 = 0x20;
const SZ_WORD: u8 = 0x40;

impl Access {
    /// The lanes that the size and the address carry (Table 5-11).
    fn lanes(&self) -> u32 {
        match self.attribute & SZ {
            SZ_LONG => 0xFFFF_FFFF,
            SZ_BYTE => 0xFF00_0000 >> (8 * (self.address % 4)),
            SZ_WORD if self.address & 2 == 0 => 0xFFFF_0000,
            SZ_WORD => 0x0000_FFFF,
            _ => 0,
        }
    }

    /// Whether all of these lanes are on the bus.
    fn carries(&self, lanes: u32) -> bool {
        lanes & !self.lanes() == 0
    }
}

/// The level's own bits of TDR, level 2's shifted down onto level 1's (Table 5-14).
mod tdr {
    pub const EBL: u32 = 1 << 13;
    pub const DI: u32 = 1 << 5;
    pub const EAI: u32 = 1 << 4;
    pub const EAR: u32 = 1 << 3;
    pub const EAL: u32 = 1 << 2;
    pub const EPC: u32 = 1 << 1;
    pub const PCI: u32 = 1 << 0;

    /// The seven comparators' bits.
    pub const ED: u32 = 0x7F << 6;
    /// EDLW, EDWL, EDWU, EDLL, EDLM, EDUM, EDUU, each with its lanes.
    pub const COMPARATORS: [(u32, u32); 7] = [
        (1 << 12, 0xFFFF_FFFF),
        (1 << 11, 0x0000_FFFF),
        (1 << 10, 0xFFFF_0000),
        (1 << 9, 0x0000_00FF),
        (1 << 8, 0x0000_FF00),
        (1 << 7, 0x00FF_0000),
        (1 << 6, 0xFF00_0000),
    ];

    pub const LEVEL_1_T: u32 = 1 << 14;
    pub const LEVEL_2_T: u32 = 1 << 15;
    pub const RESPONSE_SHIFT: u32 = 30;
    pub const RESPONSE_HALT: u32 = 1;
    pub const RESPONSE_INTERRUPT: u32 = 2;
}

/// One level of the trigger.
#[derive(Clone, Copy)]
struct Level {
    bits: u32,
    t: bool,
}

impl Level {
    fn has(self, bit: u32) -> bool {
        self.bits & bit != 0
    }
}

impl Board {
    fn level_1(&self) -> Level {
        Level { bits: self.tdr, t: self.tdr & tdr::LEVEL_1_T != 0 }
    }

    fn level_2(&self) -> Level {
        Level { bits: self.tdr >> 16, t: self.tdr & tdr::LEVEL_2_T != 0 }
    }

    pub(crate) fn write_tdr(&mut self, value: u32) {
        self.tdr = value;
        let armed = self.level_1().has(tdr::EBL);
        self.set_bstat(if armed { bstat::WAITING_LEVEL_1 } else { bstat::NONE });
    }

    /// One instruction start is observed.
    pub fn event(&mut self, event: Event) -> Result<EventAnswer, Refusal> {
        if self.halted {
            return Err(Ground::EventWhileHalted.into());
        }
        if event.pc & 1 != 0 {
            return Err(Ground::OddPc.into());
        }
        if event.access.is_some_and(|access| access.attribute & SZ == SZ) {
            return Err(Ground::ReservedSize.into());
        }
        // The breakpoint comes first; neither it nor SSM nor HALT hides another.
        let level = self.fire(&event);
        let (triggered, interrupt) = self.respond(level);
        let (halts, ignored) = self.run_mark(event.mark);
        let halted = triggered || halts || self.csr & csr::SSM != 0;
        self.halted = halted;
        let captured = std::mem::take(&mut self.sync);
        Ok(EventAnswer { level, halted, interrupt, pc: captured.then_some(event.pc), ignored })
    }

    /// The response to a level that has just fired: whether it halts, and whether it asks an interrupt.
    fn respond(&mut self, level: u8) -> (bool, bool) {
        if !matches!((level, self.bstat()), (1, bstat::LEVEL_1_TRIGGERED) | (2, bstat::LEVEL_2_TRIGGERED)) {
            return (false, false);
        }
        match self.tdr >> tdr::RESPONSE_SHIFT {
            tdr::RESPONSE_HALT => {
                self.csr |= csr::TRG;
                (true, false)
            }
            tdr::RESPONSE_INTERRUPT => (false, true),
            _ => (false, false),
        }
    }

    /// What the mark does: whether HALT halts, and whether it is ignored.
    fn run_mark(&mut self, mark: Mark) -> (bool, bool) {
        match mark {
            Mark::Absent => (false, false),
            Mark::Halt(Privilege::User) if self.csr & csr::UHE == 0 => (false, true),
            Mark::Halt(Privilege::User | Privilege::Supervisor) => {
                self.csr |= csr::HALT;
                (true, false)
            }
        }
    }

    /// Tries the level that BSTAT waits for, moves BSTAT on if it fires, and gives the level fired.
    fn fire(&mut self, event: &Event) -> u8 {
        let (level_1, level_2) = (self.level_1(), self.level_2());
        match self.bstat() {
            bstat::WAITING_LEVEL_1 if level_1.has(tdr::EBL) && self.holds(level_1, event) => {
                self.set_bstat(if level_2.has(tdr::EBL) { bstat::WAITING_LEVEL_2 } else { bstat::LEVEL_1_TRIGGERED });
                1
            }
            bstat::WAITING_LEVEL_2 if level_2.has(tdr::EBL) && self.holds(level_2, event) => {
                self.set_bstat(bstat::LEVEL_2_TRIGGERED);
                2
            }
            _ => 0,
        }
    }

    /// The groups of a level against an event: all enabled ones with T=0, at least one with T=1, never with none.
    fn holds(&self, level: Level, event: &Event) -> bool {
        let pc = level.has(tdr::EPC).then(|| self.pc_holds(level, event.pc));
        let address = level.has(tdr::EAL | tdr::EAR | tdr::EAI).then(|| {
            event.access.is_some_and(|access| self.address_holds(level, &access) && self.data_holds(level, &access))
        });
        match (pc, address) {
            (None, None) => false,
            (Some(holds), None) | (None, Some(holds)) => holds,
            (Some(pc), Some(address)) if level.t => pc || address,
            (Some(pc), Some(address)) => pc && address,
        }
    }

    fn pc_holds(&self, level: Level, pc: u32) -> bool {
        let agrees = (pc ^ self.pbr) & !self.pbmr == 0;
        agrees != level.has(tdr::PCI)
    }

    fn address_holds(&self, level: Level, access: &Access) -> bool {
        let inside = (self.ablr..=self.abhr).contains(&access.address);
        let place = (level.has(tdr::EAL) && access.address == self.ablr)
            || (level.has(tdr::EAR) && inside)
            || (level.has(tdr::EAI) && !inside);
        let [mask, wanted] = self.aatr.to_be_bytes();
        place && (access.attribute ^ wanted) & !mask == 0
    }

    fn data_holds(&self, level: Level, access: &Access) -> bool {
        // "With no ED set, data is left out."
        if !level.has(tdr::ED) {
            return true;
        }
        let differing = (access.data ^ self.dbr) & !self.dbmr;
        // 02, [1]: "a comparator counts only if the access carries all its lanes", whatever DBMR masks.
        // "If every set comparator drops out, the data condition fails", with DI too.
        tdr::COMPARATORS.iter().any(|&(enable, lanes)| {
            let agrees = differing & lanes == 0;
            level.has(enable) && access.carries(lanes) && agrees != level.has(tdr::DI)
        })
    }

    /// The breakpoint input is asserted.
    pub fn breakpoint(&mut self) -> BreakpointAnswer {
        let mut answer = BreakpointAnswer { halted: false, interrupt: false };
        if self.halted {
            return answer;
        }
        if self.csr & csr::BKD != 0 {
            answer.interrupt = true;
        } else {
            self.halted = true;
            self.csr |= csr::BKPT;
            answer.halted = true;
        }
        answer
    }
}
