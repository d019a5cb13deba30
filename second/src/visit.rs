//! The visit (docs/gateway.md): a gateway's registers and a table of longwords, read through its pod. A machine of its own:
//! from its state the next packet to send, and from the reply to it the next state. It knows nothing of the port it meets.

use crate::command::{Size, CONTROL_REGISTERS};
use crate::packets::{COMPLETE, ILLEGAL, PACKET_LIMIT};
use crate::pod::{Outcome, Reader, Request};
use crate::refusal::{Ground, Refusal};
use std::fmt;

/// The most longwords of a table.
pub const TABLE_LIMIT: u32 = 65_536;
/// The longwords of a table between two markers: a READ and its DUMPs.
pub const BLOCK: u32 = 256;
/// So many "not ready" in a row to one request end the visit.
pub const NOT_READY_LIMIT: u32 = 256;
/// The packets of a marker.
pub const MARKER_LENGTH: u32 = 24;

const NOP: u32 = 0x00000;
/// No command has this word.
const ILLEGAL_WORD: u32 = 0x0FFFF;
const REGISTERS: u32 = 16;

/// A packet of a marker, its place counted from 1: what is sent, and what the reply must be, if not any.
fn marker_packet(place: u32) -> (u32, Option<u32>) {
    match place {
        // 4 + 15 NOPs bring every port to rest; one more carries out the closing reply of what was under way.
        1..=20 => (NOP, None),
        21 => (NOP, Some(COMPLETE)),
        22 => (ILLEGAL_WORD, Some(COMPLETE)),
        23 => (NOP, Some(ILLEGAL)),
        _ => (NOP, Some(COMPLETE)),
    }
}

/// The longwords to be read: how many, and from where.
#[derive(Clone, Copy, PartialEq, Eq, Debug)]
pub struct Table {
    address: u32,
    longwords: u32,
}

impl Table {
    /// No table.
    pub const NONE: Table = Table { address: 0, longwords: 0 };

    /// None if the address is no multiple of 4, or there are too many longwords, or they do not end at 2^32 at the latest.
    pub fn new(address: u32, longwords: u32) -> Option<Table> {
        let end = u64::from(address) + 4 * u64::from(longwords);
        let good = address.is_multiple_of(4) && longwords <= TABLE_LIMIT && end <= 1 << 32;
        good.then_some(Table { address, longwords })
    }

    /// The address of longword `k`, counted from 0, one of the table.
    pub fn place(&self, k: u32) -> u32 {
        self.address + 4 * k
    }
}

/// One thing to read.
#[derive(Clone, Copy, PartialEq, Eq, Debug)]
pub enum Item {
    /// D0 to D7, then A0 to A7.
    Register(u32),
    /// By its place in `CONTROL_REGISTERS`.
    Control(usize),
    Csr,
    /// Counted from 0.
    Longword(u32),
}

impl Item {
    fn request(self, table: &Table) -> Request {
        match self {
            Item::Register(register) => Request::ReadRegister { register },
            Item::Control(place) => Request::ReadControl { rc: u32::from(CONTROL_REGISTERS[place]) },
            Item::Csr => Request::ReadDebug { n: 0 },
            Item::Longword(k) if begins_block(k) => Request::Read { size: Size::Long, address: table.place(k) },
            Item::Longword(_) => Request::Dump { size: Size::Long },
        }
    }

    /// What is read after this; none if all is read.
    fn next(self, noted: Noted, table: &Table) -> Option<Item> {
        let longword = |k| (k < table.longwords).then_some(Item::Longword(k));
        match self {
            Item::Register(register) if register + 1 < REGISTERS => Some(Item::Register(register + 1)),
            Item::Register(_) => Some(Item::Control(0)),
            Item::Control(place) if place + 1 < CONTROL_REGISTERS.len() => Some(Item::Control(place + 1)),
            Item::Control(_) => Some(Item::Csr),
            Item::Csr => longword(0),
            Item::Longword(_) if noted == Noted::BusError => None,
            Item::Longword(k) => longword(k + 1),
        }
    }
}

fn begins_block(k: u32) -> bool {
    k.is_multiple_of(BLOCK)
}

/// What is noted of a thing that was read.
#[derive(Clone, Copy, PartialEq, Eq, Debug)]
pub enum Noted {
    Value(u32),
    Illegal,
    BusError,
}

impl fmt::Display for Noted {
    fn fmt(&self, f: &mut fmt::Formatter<'_>) -> fmt::Result {
        match self {
            Noted::Value(value) => write!(f, "{value:08X}"),
            Noted::Illegal => f.write_str("illegal"),
            Noted::BusError => f.write_str("bus-error"),
        }
    }
}

/// Why a visit ended not read.
#[derive(Clone, Copy, PartialEq, Eq, Debug)]
pub enum Reason {
    Late,
    NotReady,
    NoReply,
    Word,
    Reply,
}

impl fmt::Display for Reason {
    fn fmt(&self, f: &mut fmt::Formatter<'_>) -> fmt::Result {
        f.write_str(match self {
            Reason::Late => "late",
            Reason::NotReady => "not-ready",
            Reason::NoReply => "no-reply",
            Reason::Word => "word",
            Reason::Reply => "reply",
        })
    }
}

impl From<Refusal> for Reason {
    /// The pod's half refuses a reply for ground 1 or 14 only.
    fn from(refusal: Refusal) -> Reason {
        match refusal.ground {
            Ground::WordTooWide => Reason::Word,
            _ => Reason::Reply,
        }
    }
}

/// How a visit ended. Packets count from 1.
#[derive(Clone, Copy, PartialEq, Eq, Debug)]
pub enum End {
    Read { packets: u32 },
    NotRead { packet: u32, reason: Reason },
}

/// A request under way: `words` of it are sent before the NOPs, `sent` packets have been.
#[derive(Clone, Debug)]
struct Asking {
    item: Item,
    words: Vec<u32>,
    sent: usize,
    reader: Reader,
    not_ready: u32,
}

impl Asking {
    fn new(item: Item, table: &Table) -> Asking {
        let request = item.request(table);
        let words = request.build().expect("its fields are in range");
        let reader = Reader::new(&request).expect("its fields are in range");
        Asking { item, words, sent: 0, reader, not_ready: 0 }
    }

    fn next_packet(&self) -> u32 {
        self.words.get(self.sent).copied().unwrap_or(NOP)
    }

    /// Takes the reply to the next packet; what is noted closes the request.
    fn take(&mut self, reply: u32) -> Result<Option<Noted>, Reason> {
        self.sent += 1;
        if self.sent == 1 {
            // It closes the NOP before the command word.
            return if reply == COMPLETE { Ok(None) } else { Err(Reason::Late) };
        }
        match self.reader.feed(reply)? {
            Some(outcome) => self.noted(outcome).map(Some),
            None => {
                self.not_ready += u32::from(reply == crate::packets::NOT_READY);
                if self.not_ready < NOT_READY_LIMIT {
                    Ok(None)
                } else {
                    Err(Reason::NotReady)
                }
            }
        }
    }

    fn noted(&self, outcome: Outcome) -> Result<Noted, Reason> {
        match (outcome, self.item) {
            (Outcome::Value(value), _) => Ok(Noted::Value(value)),
            (Outcome::BusError, _) => Ok(Noted::BusError),
            // A DUMP that follows its READ is legal, and so is a READ.
            (Outcome::Illegal, Item::Longword(_)) => Err(Reason::Reply),
            (Outcome::Illegal, _) => Ok(Noted::Illegal),
            (Outcome::Complete | Outcome::NotYet, _) => unreachable!("every request of a visit has a value"),
        }
    }
}

/// Where a visit stands.
#[derive(Clone, Debug)]
enum Stage {
    /// At this packet of a marker, counted from 1; then the item is read, or the visit is over.
    Marker {
        place: u32,
        then: Option<Item>,
    },
    Request(Asking),
    Over(End),
}

/// A visit under way, or over.
#[derive(Clone, Debug)]
pub struct Visit {
    table: Table,
    /// The packets sent whose replies are in.
    packets: u32,
    stage: Stage,
    notes: Vec<(Item, Noted)>,
}

impl Visit {
    pub fn new(table: Table) -> Visit {
        let stage = Stage::Marker { place: 1, then: Some(Item::Register(0)) };
        Visit { table, packets: 0, stage, notes: Vec::new() }
    }

    /// The packet to send next; none if the visit is over.
    pub fn next_packet(&self) -> Option<u32> {
        match &self.stage {
            Stage::Marker { place, .. } => Some(marker_packet(*place).0),
            Stage::Request(asking) => Some(asking.next_packet()),
            Stage::Over(_) => None,
        }
    }

    /// Takes the reply to the next packet, none if there is no reply. A visit that is over takes nothing.
    pub fn take(&mut self, reply: Option<u32>) {
        if matches!(self.stage, Stage::Over(_)) {
            return;
        }
        self.packets += 1;
        let taken = match reply {
            None => Err(Reason::NoReply),
            Some(reply) if reply > PACKET_LIMIT => Err(Reason::Word),
            Some(reply) => self.take_word(reply),
        };
        if let Err(reason) = taken {
            self.notes.clear();
            self.stage = Stage::Over(End::NotRead { packet: self.packets, reason });
        }
    }

    fn take_word(&mut self, reply: u32) -> Result<(), Reason> {
        match &mut self.stage {
            Stage::Marker { place, then } => {
                if marker_packet(*place).1.is_some_and(|due| due != reply) {
                    return Err(Reason::Late);
                }
                if *place < MARKER_LENGTH {
                    *place += 1;
                } else {
                    self.stage = match *then {
                        Some(item) => Stage::Request(Asking::new(item, &self.table)),
                        None => Stage::Over(End::Read { packets: self.packets }),
                    };
                }
            }
            Stage::Request(asking) => {
                if let Some(noted) = asking.take(reply)? {
                    let item = asking.item;
                    self.note(item, noted);
                }
            }
            Stage::Over(_) => {}
        }
        Ok(())
    }

    /// Notes what was read, and goes on: to a marker after what was illegal, before each block of the table, and at the end.
    fn note(&mut self, item: Item, noted: Noted) {
        self.notes.push((item, noted));
        self.stage = match item.next(noted, &self.table) {
            Some(next) if noted != Noted::Illegal && !needs_marker(next) => {
                Stage::Request(Asking::new(next, &self.table))
            }
            then => Stage::Marker { place: 1, then },
        };
    }

    /// How the visit ended; none if it is under way.
    pub fn end(&self) -> Option<End> {
        match self.stage {
            Stage::Over(end) => Some(end),
            _ => None,
        }
    }

    /// All that was read, in its order. Only what is read to its end is handed over: before that, and not read, nothing is.
    pub fn results(&self) -> &[(Item, Noted)] {
        match self.end() {
            Some(End::Read { .. }) => &self.notes,
            _ => &[],
        }
    }

    pub fn table(&self) -> &Table {
        &self.table
    }
}

fn needs_marker(item: Item) -> bool {
    matches!(item, Item::Longword(k) if begins_block(k))
}
