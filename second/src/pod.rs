//! The pod's half (01): the words of a request, and the reading of its replies.

use crate::command::Size;
use crate::packets::{BUS_ERROR, COMPLETE, ILLEGAL, NOT_READY, PACKET_LIMIT};
use crate::refusal::{Ground, Refusal};

/// A request, its fields as given and not yet judged.
#[derive(Clone, Copy, PartialEq, Eq, Debug)]
pub enum Request {
    ReadRegister { register: u32 },
    WriteRegister { register: u32, value: u32 },
    Read { size: Size, address: u32 },
    Write { size: Size, address: u32, value: u32 },
    Dump { size: Size },
    Fill { size: Size, value: u32 },
    Go,
    Nop,
    SyncPc,
    ReadControl { rc: u32 },
    WriteControl { rc: u32, value: u32 },
    ReadDebug { n: u32 },
    WriteDebug { n: u32, value: u32 },
}

/// What the replies say.
#[derive(Clone, Copy, PartialEq, Eq, Debug)]
pub enum Outcome {
    Value(u32),
    Complete,
    BusError,
    Illegal,
    NotYet,
}

/// What a request's result words are.
#[derive(Clone, Copy, PartialEq, Eq, Debug)]
enum ResultForm {
    Complete,
    Data(Size),
}

const REGISTER_LIMIT: u32 = 15;
const RC_LIMIT: u32 = 0xFFF;
const N_LIMIT: u32 = 31;

fn data_limit(size: Size) -> u32 {
    match size {
        Size::Byte => 0xFF,
        Size::Word => 0xFFFF,
        Size::Long => 0xFFFF_FFFF,
    }
}

impl Request {
    /// Ground 13.
    pub fn judge(&self) -> Result<(), Refusal> {
        let in_range = match *self {
            Request::ReadRegister { register } | Request::WriteRegister { register, .. } => register <= REGISTER_LIMIT,
            Request::Write { size, value, .. } | Request::Fill { size, value } => value <= data_limit(size),
            Request::ReadControl { rc } | Request::WriteControl { rc, .. } => rc <= RC_LIMIT,
            Request::ReadDebug { n } | Request::WriteDebug { n, .. } => n <= N_LIMIT,
            Request::Read { .. } | Request::Dump { .. } | Request::Go | Request::Nop | Request::SyncPc => true,
        };
        if in_range {
            Ok(())
        } else {
            Err(Ground::FieldOutOfRange.into())
        }
    }

    /// The command word and the operand words, C clear.
    pub fn build(&self) -> Result<Vec<u32>, Refusal> {
        self.judge()?;
        let mut words = Vec::with_capacity(5);
        let long = |words: &mut Vec<u32>, value: u32| {
            words.push(value >> 16);
            words.push(value & 0xFFFF);
        };
        let data = |words: &mut Vec<u32>, size: Size, value: u32| match size {
            Size::Byte | Size::Word => words.push(value),
            Size::Long => long(words, value),
        };
        match *self {
            Request::ReadRegister { register } => words.push(0x2180 + register),
            Request::WriteRegister { register, value } => {
                words.push(0x2080 + register);
                long(&mut words, value);
            }
            Request::Read { size, address } => {
                words.push(0x1900 + u32::from(size.field()));
                long(&mut words, address);
            }
            Request::Write { size, address, value } => {
                words.push(0x1800 + u32::from(size.field()));
                long(&mut words, address);
                data(&mut words, size, value);
            }
            Request::Dump { size } => words.push(0x1D00 + u32::from(size.field())),
            Request::Fill { size, value } => {
                words.push(0x1C00 + u32::from(size.field()));
                data(&mut words, size, value);
            }
            Request::Go => words.push(0x0C00),
            Request::Nop => words.push(0x0000),
            Request::SyncPc => words.push(0x0001),
            Request::ReadControl { rc } => {
                words.push(0x2980);
                long(&mut words, rc);
            }
            Request::WriteControl { rc, value } => {
                words.push(0x2880);
                long(&mut words, rc);
                long(&mut words, value);
            }
            Request::ReadDebug { n } => words.push(0x2D80 + n),
            Request::WriteDebug { n, value } => {
                words.push(0x2C80 + n);
                long(&mut words, value);
            }
        }
        Ok(words)
    }

    fn result_form(&self) -> ResultForm {
        match *self {
            Request::Read { size, .. } | Request::Dump { size } => ResultForm::Data(size),
            Request::ReadRegister { .. } | Request::ReadControl { .. } | Request::ReadDebug { .. } => {
                ResultForm::Data(Size::Long)
            }
            Request::WriteRegister { .. }
            | Request::Write { .. }
            | Request::Fill { .. }
            | Request::Go
            | Request::Nop
            | Request::SyncPc
            | Request::WriteControl { .. }
            | Request::WriteDebug { .. } => ResultForm::Complete,
        }
    }

    /// Reads the replies from the one to the packet after the command word on. Gives the outcome and the words used.
    pub fn read(&self, replies: &[u32]) -> Result<(Outcome, usize), Refusal> {
        let mut reader = Reader::new(self)?;
        for (place, &reply) in replies.iter().enumerate() {
            if let Some(outcome) = reader.feed(reply)? {
                return Ok((outcome, place + 1));
            }
        }
        Ok((Outcome::NotYet, replies.len()))
    }
}

/// Reads the replies to one request, one at a time.
#[derive(Clone, Debug)]
pub struct Reader {
    form: ResultForm,
    upper: Option<u32>,
}

impl Reader {
    pub fn new(request: &Request) -> Result<Reader, Refusal> {
        request.judge()?;
        Ok(Reader { form: request.result_form(), upper: None })
    }

    /// Takes the next reply; an outcome closes the request.
    pub fn feed(&mut self, reply: u32) -> Result<Option<Outcome>, Refusal> {
        if reply > PACKET_LIMIT {
            return Err(Ground::WordTooWide.into());
        }
        if let Some(upper) = self.upper {
            return if reply <= 0xFFFF {
                Ok(Some(Outcome::Value(upper << 16 | reply)))
            } else {
                Err(Ground::ReplyNotPossible.into())
            };
        }
        match (reply, self.form) {
            (NOT_READY, _) => Ok(None),
            (BUS_ERROR, _) => Ok(Some(Outcome::BusError)),
            (ILLEGAL, _) => Ok(Some(Outcome::Illegal)),
            (COMPLETE, ResultForm::Complete) => Ok(Some(Outcome::Complete)),
            (0..=0xFF, ResultForm::Data(Size::Byte)) => Ok(Some(Outcome::Value(reply))),
            (0..=0xFFFF, ResultForm::Data(Size::Word)) => Ok(Some(Outcome::Value(reply))),
            (0..=0xFFFF, ResultForm::Data(Size::Long)) => {
                self.upper = Some(reply);
                Ok(None)
            }
            _ => Err(Ground::ReplyNotPossible.into()),
        }
    }
}
