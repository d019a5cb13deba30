//! The work of a command (01, Packets): what it does to registers, pointer and memory, and its results.

use crate::board::{bstat, csr, Board, Chain, Phase};
use crate::command::{control_place, Command, DebugRegister, Size};
use crate::packets::COMPLETE;
use std::ops::Range;

impl Board {
    /// Two result words: the upper first, then the port rests with the lower.
    fn close_with_long(&mut self, value: u32) {
        self.next = value >> 16;
        self.phase = Phase::Low { word: value as u16 };
    }

    fn close_with_data(&mut self, size: Size, value: u32) {
        match size {
            Size::Byte | Size::Word => self.close(value),
            Size::Long => self.close_with_long(value),
        }
    }

    fn operand_long(&self, first: usize) -> u32 {
        u32::from(self.operands[first]) << 16 | u32::from(self.operands[first + 1])
    }

    /// The datum of WRITE or FILL, from its operand word or words.
    fn operand_data(&self, size: Size, first: usize) -> u32 {
        match size {
            Size::Byte => u32::from(self.operands[first] & 0xFF),
            Size::Word => u32::from(self.operands[first]),
            Size::Long => self.operand_long(first),
        }
    }

    pub(crate) fn work(&mut self, memory: &mut [u8], command: Command) {
        match command {
            Command::ReadRegister(n) => self.close_with_long(self.registers[usize::from(n)]),
            Command::WriteRegister(n) => {
                self.registers[usize::from(n)] = self.operand_long(0);
                self.close(COMPLETE);
            }
            Command::Read(size) => self.fetch(memory, size, self.operand_long(0)),
            Command::Dump(size) => self.fetch(memory, size, self.pointer),
            Command::Write(size) => {
                let data = self.operand_data(size, 2);
                self.store(memory, size, self.operand_long(0), data);
            }
            Command::Fill(size) => {
                let data = self.operand_data(size, 0);
                self.store(memory, size, self.pointer, data);
            }
            Command::Go => {
                self.halted = false;
                self.csr &= !(csr::TRG | csr::HALT | csr::BKPT);
                self.close(COMPLETE);
            }
            Command::Nop => self.close(COMPLETE),
            Command::SyncPc => {
                self.sync = true;
                self.close(COMPLETE);
            }
            Command::ReadControl => match control_place(self.operands[0], self.operands[1]) {
                Some(place) => self.close_with_long(self.control[place]),
                None => self.close_with_bus_error(),
            },
            Command::WriteControl => match control_place(self.operands[0], self.operands[1]) {
                Some(place) => {
                    self.control[place] = self.operand_long(2);
                    self.close(COMPLETE);
                }
                None => self.close_with_bus_error(),
            },
            Command::ReadCsr => {
                let value = self.csr;
                self.clear_csr_by_reading();
                self.close_with_long(value);
            }
            Command::WriteDebug(register) => {
                self.write_debug(register, self.operand_long(0));
                self.close(COMPLETE);
            }
        }
    }

    /// READ or DUMP.
    fn fetch(&mut self, memory: &[u8], size: Size, address: u32) {
        match access(memory.len(), size, address) {
            Ok(place) => {
                let value = memory[place].iter().fold(0, |value, &b| value << 8 | u32::from(b));
                self.pointer = size.align(address).wrapping_add(size.bytes());
                self.chain = Chain::Dump;
                self.close_with_data(size, value);
            }
            Err(missing) => self.close_with_fault(missing),
        }
    }

    /// WRITE or FILL.
    fn store(&mut self, memory: &mut [u8], size: Size, address: u32, data: u32) {
        match access(memory.len(), size, address) {
            Ok(place) => {
                let unused = 4 - place.len();
                memory[place].copy_from_slice(&data.to_be_bytes()[unused..]);
                self.pointer = size.align(address).wrapping_add(size.bytes());
                self.chain = Chain::Fill;
                self.close(COMPLETE);
            }
            Err(missing) => self.close_with_fault(missing),
        }
    }

    /// The memory access found a byte that isn't there, and its address is kept.
    fn close_with_fault(&mut self, missing: u32) {
        self.fault = Some(missing);
        self.close_with_bus_error();
    }

    fn clear_csr_by_reading(&mut self) {
        self.csr &= !(csr::FOF | csr::TRG | csr::HALT | csr::BKPT);
        if matches!(self.bstat(), bstat::LEVEL_1_TRIGGERED | bstat::LEVEL_2_TRIGGERED) {
            self.set_bstat(bstat::NONE);
        }
    }

    fn write_debug(&mut self, register: DebugRegister, value: u32) {
        match register {
            DebugRegister::Csr => {
                self.csr = (self.csr & !csr::WRITTEN) | (value & csr::WRITTEN);
            }
            DebugRegister::Baar => self.baar = value as u8,
            DebugRegister::Aatr => {
                self.aatr = value as u16;
                self.baar = value as u8;
            }
            DebugRegister::Tdr => self.write_tdr(value),
            DebugRegister::Pbr => self.pbr = value,
            DebugRegister::Pbmr => self.pbmr = value,
            DebugRegister::Abhr => self.abhr = value,
            DebugRegister::Ablr => self.ablr = value,
            DebugRegister::Dbr => self.dbr = value,
            DebugRegister::Dbmr => self.dbmr = value,
        }
    }
}

/// The place of an access in a memory of `length` bytes at address 0, or the lowest address of the access that isn't there.
pub fn access(length: usize, size: Size, address: u32) -> Result<Range<usize>, u32> {
    let is_there = |address: u32| (address as usize) < length;
    // Aligned, no access passes the last of all addresses.
    let first = size.align(address);
    let last = first + (size.bytes() - 1);
    if is_there(last) {
        return Ok(first as usize..last as usize + 1);
    }
    Err((first..last).find(|&address| !is_there(address)).unwrap_or(last))
}
