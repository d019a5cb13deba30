//! The command words of the port (01, Packets: the table; 000, Table 5-17).

/// The size of a memory access.
#[derive(Clone, Copy, PartialEq, Eq, Debug)]
pub enum Size {
    Byte,
    Word,
    Long,
}

impl Size {
    pub const ALL: [Size; 3] = [Size::Byte, Size::Word, Size::Long];

    pub fn bytes(self) -> u32 {
        match self {
            Size::Byte => 1,
            Size::Word => 2,
            Size::Long => 4,
        }
    }

    /// Words and longwords force the low 1 or 2 address bits to zero.
    pub fn align(self, address: u32) -> u32 {
        address & !(self.bytes() - 1)
    }

    /// How many packets carry a datum of this size.
    pub fn words(self) -> u8 {
        match self {
            Size::Byte | Size::Word => 1,
            Size::Long => 2,
        }
    }

    /// The size field of READ, WRITE, DUMP and FILL.
    pub fn field(self) -> u16 {
        match self {
            Size::Byte => 0x00,
            Size::Word => 0x40,
            Size::Long => 0x80,
        }
    }
}

/// The debug module registers that WDMREG takes.
#[derive(Clone, Copy, PartialEq, Eq, Debug)]
pub enum DebugRegister {
    Csr,
    Baar,
    Aatr,
    Tdr,
    Pbr,
    Pbmr,
    Abhr,
    Ablr,
    Dbr,
    Dbmr,
}

impl DebugRegister {
    fn from_number(n: u16) -> Option<DebugRegister> {
        Some(match n {
            0x00 => DebugRegister::Csr,
            0x05 => DebugRegister::Baar,
            0x06 => DebugRegister::Aatr,
            0x07 => DebugRegister::Tdr,
            0x08 => DebugRegister::Pbr,
            0x09 => DebugRegister::Pbmr,
            0x0C => DebugRegister::Abhr,
            0x0D => DebugRegister::Ablr,
            0x0E => DebugRegister::Dbr,
            0x0F => DebugRegister::Dbmr,
            _ => return None,
        })
    }
}

/// The control registers of RCREG and WCREG, in the order of Table 5-19.
pub const CONTROL_REGISTERS: [u16; 10] = [0x002, 0x004, 0x005, 0x801, 0x804, 0x805, 0x806, 0x80E, 0x80F, 0xC04];

/// The place of a control register named by two operand words, if it is listed.
pub fn control_place(first: u16, second: u16) -> Option<usize> {
    if first != 0 {
        return None;
    }
    CONTROL_REGISTERS.iter().position(|&rc| rc == second)
}

/// A command of the table.
#[derive(Clone, Copy, PartialEq, Eq, Debug)]
pub enum Command {
    /// RDREG and RAREG: 0 to 7 are D0 to D7, 8 to 15 are A0 to A7.
    ReadRegister(u8),
    WriteRegister(u8),
    Read(Size),
    Write(Size),
    Dump(Size),
    Fill(Size),
    Go,
    Nop,
    SyncPc,
    ReadControl,
    WriteControl,
    ReadCsr,
    WriteDebug(DebugRegister),
}

impl Command {
    /// The command that a word without C names, or none if the word is illegal in every state.
    pub fn decode(word: u16) -> Option<Command> {
        Some(match word {
            0x0000 => Command::Nop,
            0x0001 => Command::SyncPc,
            0x0C00 => Command::Go,
            0x1800 => Command::Write(Size::Byte),
            0x1840 => Command::Write(Size::Word),
            0x1880 => Command::Write(Size::Long),
            0x1900 => Command::Read(Size::Byte),
            0x1940 => Command::Read(Size::Word),
            0x1980 => Command::Read(Size::Long),
            0x1C00 => Command::Fill(Size::Byte),
            0x1C40 => Command::Fill(Size::Word),
            0x1C80 => Command::Fill(Size::Long),
            0x1D00 => Command::Dump(Size::Byte),
            0x1D40 => Command::Dump(Size::Word),
            0x1D80 => Command::Dump(Size::Long),
            0x2080..=0x208F => Command::WriteRegister((word & 0xF) as u8),
            0x2180..=0x218F => Command::ReadRegister((word & 0xF) as u8),
            0x2880 => Command::WriteControl,
            0x2980 => Command::ReadControl,
            0x2C80..=0x2C9F => Command::WriteDebug(DebugRegister::from_number(word & 0x1F)?),
            0x2D80 => Command::ReadCsr,
            _ => return None,
        })
    }

    /// How many operand words follow the command word.
    pub fn operands(self) -> u8 {
        match self {
            Command::Read(_) | Command::ReadControl => 2,
            Command::Write(size) => 2 + size.words(),
            Command::Fill(size) => size.words(),
            Command::WriteRegister(_) | Command::WriteDebug(_) => 2,
            Command::WriteControl => 4,
            Command::ReadRegister(_)
            | Command::Dump(_)
            | Command::Go
            | Command::Nop
            | Command::SyncPc
            | Command::ReadCsr => 0,
        }
    }

    /// Memory and control-register commands wait W packets after their last word.
    pub fn waits(self) -> bool {
        matches!(
            self,
            Command::Read(_)
                | Command::Write(_)
                | Command::Dump(_)
                | Command::Fill(_)
                | Command::ReadControl
                | Command::WriteControl
        )
    }

    /// The commands that the table gives to a halted processor only.
    pub fn halted_only(self) -> bool {
        matches!(
            self,
            Command::ReadRegister(_)
                | Command::WriteRegister(_)
                | Command::Go
                | Command::ReadControl
                | Command::WriteControl
        )
    }
}
