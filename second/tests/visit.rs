//! The visit, rule by rule (docs/gateway.md, "The visit, packet by packet"), against replies that are made up here.

use second::command::CONTROL_REGISTERS;
use second::visit::{End, Item, Noted, Reason, Table, Visit};

const COMPLETE: u32 = 0x0FFFF;
const NOT_READY: u32 = 0x10000;
const BUS_ERROR: u32 = 0x10001;
const ILLEGAL: u32 = 0x1FFFF;

/// A visit that is told what must be sent, and what the reply is.
struct Told {
    visit: Visit,
    packets: u32,
}

impl Told {
    fn new(address: u32, longwords: u32) -> Told {
        Told { visit: Visit::new(Table::new(address, longwords).unwrap()), packets: 0 }
    }

    /// After the first marker.
    fn marked(address: u32, longwords: u32) -> Told {
        let mut told = Told::new(address, longwords);
        told.marker();
        told
    }

    /// At the table, its first marker sent.
    fn at_table(address: u32, longwords: u32) -> Told {
        let mut told = Told::marked(address, longwords);
        told.registers();
        told.marker();
        told
    }

    fn reply(&mut self, reply: u32) {
        self.packets += 1;
        self.visit.take(Some(reply));
    }

    /// These packets are sent next, and get these replies.
    fn exchange(&mut self, packets: &[(u32, u32)]) {
        for &(packet, reply) in packets {
            assert_eq!(self.visit.next_packet(), Some(packet), "packet {}", self.packets + 1);
            self.reply(reply);
        }
    }

    fn marker(&mut self) {
        self.exchange(&[(0, 0x12345); 20]);
        self.exchange(&[(0, COMPLETE), (0x0FFFF, COMPLETE), (0, ILLEGAL), (0, COMPLETE)]);
    }

    /// A request without operand words gives a value at once.
    fn value(&mut self, word: u32, value: u32) {
        self.exchange(&[(word, COMPLETE), (0, value >> 16), (0, value & 0xFFFF)]);
    }

    /// One with two operand words gives a value after one "not ready" more than the operands have.
    fn value_of_two(&mut self, word: u32, operand: u32, value: u32) {
        self.exchange(&[(word, COMPLETE), (operand >> 16, NOT_READY), (operand & 0xFFFF, NOT_READY)]);
        self.exchange(&[(0, NOT_READY), (0, value >> 16), (0, value & 0xFFFF)]);
    }

    /// RDREG 0 to 15, RCREG and CSR: each has a value of its own.
    fn registers(&mut self) {
        for n in 0..16 {
            self.value(0x2180 + n, 0xD0_0000 + n);
        }
        for rc in CONTROL_REGISTERS.map(u32::from) {
            self.value_of_two(0x2980, rc, 0xC0_0000 + rc);
        }
        self.value(0x2D80, 0x0110_0000);
    }

    fn not_read(&self) -> Reason {
        assert_eq!(self.visit.next_packet(), None);
        assert_eq!(self.visit.results(), &[]);
        match self.visit.end() {
            Some(End::NotRead { packet, reason }) if packet == self.packets => reason,
            end => panic!("{end:?} at packet {}", self.packets),
        }
    }

    /// The reason why this reply to the next packet ends the visit.
    fn ended_by(&self, reply: Option<u32>) -> Reason {
        let mut told = Told { visit: self.visit.clone(), packets: self.packets + 1 };
        told.visit.take(reply);
        told.not_read()
    }

    fn is_read(&self) {
        assert_eq!(self.visit.next_packet(), None);
        assert_eq!(self.visit.end(), Some(End::Read { packets: self.packets }));
    }
}

#[test]
fn the_visit_without_a_table() {
    let mut told = Told::new(0, 0);
    told.marker();
    told.registers();
    told.marker();
    told.is_read();
    let mut results: Vec<(Item, Noted)> = (0..16).map(|n| (Item::Register(n), Noted::Value(0xD0_0000 + n))).collect();
    for (place, rc) in CONTROL_REGISTERS.iter().enumerate() {
        results.push((Item::Control(place), Noted::Value(0xC0_0000 + u32::from(*rc))));
    }
    results.push((Item::Csr, Noted::Value(0x0110_0000)));
    assert_eq!(told.visit.results(), results);
}

#[test]
fn the_control_registers_are_those_of_01() {
    assert_eq!(CONTROL_REGISTERS, [0x002, 0x004, 0x005, 0x801, 0x804, 0x805, 0x806, 0x80E, 0x80F, 0xC04]);
}

#[test]
fn a_marker_says_which_replies_must_be() {
    let others = [0, 1, 0xFFFE, COMPLETE, NOT_READY, BUS_ERROR, 0x1FFFE, ILLEGAL];
    let mut told = Told::new(0, 0);
    for reply in others.iter().cycle().take(20) {
        told.exchange(&[(0, *reply)]);
    }
    for (packet, due) in [(0, COMPLETE), (0x0FFFF, COMPLETE), (0, ILLEGAL), (0, COMPLETE)] {
        for other in others.into_iter().filter(|&other| other != due) {
            assert_eq!(told.ended_by(Some(other)), Reason::Late);
        }
        told.exchange(&[(packet, due)]);
    }
    assert_eq!(told.visit.next_packet(), Some(0x2180));
}

#[test]
fn the_marker_at_the_end_is_the_same() {
    let mut told = Told::marked(0, 0);
    told.registers();
    for reply in [ILLEGAL, NOT_READY, BUS_ERROR, 5].into_iter().cycle().take(20) {
        told.exchange(&[(0, reply)]);
    }
    for (packet, due) in [(0, COMPLETE), (0x0FFFF, COMPLETE), (0, ILLEGAL), (0, COMPLETE)] {
        assert_eq!(told.ended_by(Some(due ^ 0x10000)), Reason::Late);
        assert_eq!(told.visit.results(), &[]);
        told.exchange(&[(packet, due)]);
    }
    told.is_read();
}

#[test]
fn the_reply_to_a_command_word_is_complete() {
    let mut at_dump = Told::at_table(0, 2);
    at_dump.value_of_two(0x1980, 0, 0);
    for told in [Told::marked(0, 0), Told::at_table(0, 1), at_dump] {
        for reply in [0, NOT_READY, BUS_ERROR, ILLEGAL, 0xFFFE] {
            assert_eq!(told.ended_by(Some(reply)), Reason::Late);
        }
    }
}

#[test]
fn the_closing_reply_ends_a_request_whatever_of_it_is_unsent() {
    let mut told = Told::marked(0, 0);
    for n in 0..16 {
        told.value(0x2180 + n, 0);
    }
    // RCREG's operand words are not sent on: the next command word is.
    told.exchange(&[(0x2980, COMPLETE), (0, BUS_ERROR), (0x2980, COMPLETE), (0, 0x1234), (4, 0x5678)]);
    told.exchange(&[(0x2980, COMPLETE), (0, ILLEGAL)]);
    told.marker();
    told.exchange(&[(0x2980, COMPLETE), (0, NOT_READY), (0x801, NOT_READY)]);
}

#[test]
fn after_an_illegal_request_a_marker_comes_before_the_next() {
    let mut told = Told::new(0x100, 1);
    for n in 0..16 {
        told.marker();
        told.exchange(&[(0x2180 + n, COMPLETE), (0, ILLEGAL)]);
    }
    for _ in CONTROL_REGISTERS {
        told.marker();
        told.exchange(&[(0x2980, COMPLETE), (0, ILLEGAL)]);
    }
    // Before the table a marker is due anyway.
    told.marker();
    told.exchange(&[(0x2D80, COMPLETE), (0, ILLEGAL)]);
    told.marker();
    told.value_of_two(0x1980, 0x100, 7);
    told.marker();
    told.is_read();
    let (registers, table) = told.visit.results().split_at(27);
    assert!(registers.iter().all(|&(_, noted)| noted == Noted::Illegal));
    assert_eq!(table, [(Item::Longword(0), Noted::Value(7))]);
}

#[test]
fn after_an_illegal_csr_without_a_table_there_is_one_marker() {
    let mut told = Told::marked(0, 0);
    for n in 0..16 {
        told.value(0x2180 + n, 0);
    }
    for rc in CONTROL_REGISTERS.map(u32::from) {
        told.value_of_two(0x2980, rc, 0);
    }
    told.exchange(&[(0x2D80, COMPLETE), (0, ILLEGAL)]);
    told.marker();
    told.is_read();
    assert_eq!(told.visit.results()[26], (Item::Csr, Noted::Illegal));
}

#[test]
fn after_a_bus_error_the_next_register_comes_at_once() {
    let mut told = Told::marked(0, 0);
    for n in 0..16 {
        told.exchange(&[(0x2180 + n, COMPLETE), (0, BUS_ERROR)]);
    }
    for rc in CONTROL_REGISTERS.map(u32::from) {
        told.exchange(&[(0x2980, COMPLETE), (0, NOT_READY), (rc, NOT_READY), (0, BUS_ERROR)]);
    }
    told.exchange(&[(0x2D80, COMPLETE), (0, BUS_ERROR)]);
    told.marker();
    told.is_read();
    assert!(told.visit.results().iter().all(|&(_, noted)| noted == Noted::BusError));
}

#[test]
fn a_table_is_read_by_blocks_of_256() {
    for longwords in [1, 2, 255, 256, 257, 511, 512, 513, 600] {
        let address = 0x1234_5678;
        let mut told = Told::marked(address, longwords);
        told.registers();
        for k in 0..longwords {
            if k % 256 == 0 {
                told.marker();
                told.value_of_two(0x1980, address + 4 * k, 0x8000_0000 + k);
            } else {
                told.value(0x1D80, 0x8000_0000 + k);
            }
        }
        told.marker();
        told.is_read();
        for (k, &result) in (0..longwords).zip(&told.visit.results()[27..]) {
            assert_eq!(result, (Item::Longword(k), Noted::Value(0x8000_0000 + k)));
            assert_eq!(told.visit.table().place(k), address + 4 * k);
        }
        assert_eq!(told.visit.results().len() as u32, 27 + longwords);
    }
}

#[test]
fn a_bus_error_ends_the_table() {
    // At a READ that begins the table, at one that begins a block, and at DUMPs.
    for there in [0, 1, 2, 255, 256, 257] {
        let mut told = Told::marked(0x40, 300);
        told.registers();
        for k in 0..there {
            if k % 256 == 0 {
                told.marker();
                told.value_of_two(0x1980, 0x40 + 4 * k, k);
            } else {
                told.value(0x1D80, k);
            }
        }
        if there % 256 == 0 {
            let address = 0x40 + 4 * there;
            told.marker();
            told.exchange(&[(0x1980, COMPLETE), (0, NOT_READY), (address, NOT_READY), (0, BUS_ERROR)]);
        } else {
            told.exchange(&[(0x1D80, COMPLETE), (0, BUS_ERROR)]);
        }
        told.marker();
        told.is_read();
        assert_eq!(told.visit.results().len() as u32, 27 + there + 1);
        assert_eq!(told.visit.results().last(), Some(&(Item::Longword(there), Noted::BusError)));
    }
}

#[test]
fn in_a_table_illegal_is_a_reply_that_the_request_cannot_have() {
    let mut told = Told::at_table(0, 2);
    told.exchange(&[(0x1980, COMPLETE)]);
    assert_eq!(told.ended_by(Some(ILLEGAL)), Reason::Reply);
    told.exchange(&[(0, NOT_READY), (0, NOT_READY)]);
    assert_eq!(told.ended_by(Some(ILLEGAL)), Reason::Reply);
    told.exchange(&[(0, 0), (0, 0), (0x1D80, COMPLETE)]);
    assert_eq!(told.ended_by(Some(ILLEGAL)), Reason::Reply);
}

#[test]
fn replies_that_a_request_cannot_have() {
    let mut told = Told::marked(0, 0);
    told.exchange(&[(0x2180, COMPLETE)]);
    for reply in [0x10002, 0x18000, 0x1FFFE] {
        assert_eq!(told.ended_by(Some(reply)), Reason::Reply);
    }
    // S=1 in the second result word, whatever it says.
    told.exchange(&[(0, COMPLETE)]);
    for reply in [NOT_READY, BUS_ERROR, 0x10002, ILLEGAL] {
        assert_eq!(told.ended_by(Some(reply)), Reason::Reply);
    }
    told.exchange(&[(0, COMPLETE)]);
    assert_eq!(told.visit.next_packet(), Some(0x2181));
}

#[test]
fn a_word_too_wide_or_no_reply_ends_the_visit_at_any_packet() {
    let mut told = Told::new(0, 2);
    let mut reply = COMPLETE;
    while let Some(packet) = told.visit.next_packet() {
        for word in [0x20000, 0x2FFFF, 0x3FFFF, 0xFFFF_FFFF] {
            assert_eq!(told.ended_by(Some(word)), Reason::Word);
        }
        assert_eq!(told.ended_by(None), Reason::NoReply);
        told.reply(reply);
        // To a request, complete is a result word; the marker's illegal word is the only one.
        reply = if packet == 0x0FFFF { ILLEGAL } else { COMPLETE };
    }
    told.is_read();
    assert_eq!(told.visit.results().len(), 29);
}

#[test]
fn the_256th_not_ready_in_a_row_ends_the_visit() {
    let mut told = Told::marked(0, 2);
    for n in 0..16 {
        told.exchange(&[(0x2180 + n, COMPLETE)]);
        told.exchange(&[(0, NOT_READY); 255]);
        assert_eq!(told.ended_by(Some(NOT_READY)), Reason::NotReady);
        told.exchange(&[(0, 1), (0, 2)]);
    }
    for rc in CONTROL_REGISTERS.map(u32::from) {
        // Those to operand words count.
        told.exchange(&[(0x2980, COMPLETE), (0, NOT_READY), (rc, NOT_READY)]);
        told.exchange(&[(0, NOT_READY); 253]);
        assert_eq!(told.ended_by(Some(NOT_READY)), Reason::NotReady);
        told.exchange(&[(0, 1), (0, 2)]);
    }
    told.value(0x2D80, 0);
    told.marker();
    told.value_of_two(0x1980, 0, 0);
    told.exchange(&[(0x1D80, COMPLETE)]);
    told.exchange(&[(0, NOT_READY); 255]);
    assert_eq!(told.ended_by(Some(NOT_READY)), Reason::NotReady);
}

#[test]
fn nothing_is_handed_over_before_the_end() {
    let mut told = Told::marked(0, 0);
    told.registers();
    assert_eq!((told.visit.end(), told.visit.results()), (None, &[][..]));
    told.exchange(&[(0, 0); 20]);
    told.exchange(&[(0, COMPLETE), (0x0FFFF, COMPLETE), (0, ILLEGAL)]);
    assert_eq!((told.visit.end(), told.visit.results()), (None, &[][..]));
    told.exchange(&[(0, COMPLETE)]);
    assert_eq!(told.visit.results().len(), 27);
}

#[test]
fn a_visit_that_is_over_takes_nothing() {
    let mut told = Told::marked(0, 0);
    told.registers();
    told.marker();
    told.visit.take(None);
    told.visit.take(Some(0));
    told.is_read();
    let mut told = Told::new(0, 0);
    told.reply(0x20000);
    told.visit.take(None);
    assert_eq!(told.not_read(), Reason::Word);
}

#[test]
fn what_a_table_may_be() {
    for (address, longwords) in [(0, 0), (0, 65_536), (0xFFFF_FFFC, 0), (0xFFFF_FFFC, 1), (0xFFFC_0000, 65_536)] {
        assert!(Table::new(address, longwords).is_some(), "{address:X} {longwords:X}");
    }
    for (address, longwords) in [
        (1, 0),
        (2, 1),
        (3, 1),
        (0, 65_537),
        (0, 0xFFFF_FFFF),
        (0xFFFF_FFFC, 2),
        (0xFFFF_FFFF, 0),
        (0xFFFC_0004, 65_536),
        (0x8000_0000, 0x4000_0000),
    ] {
        assert!(Table::new(address, longwords).is_none(), "{address:X} {longwords:X}");
    }
    assert_eq!(Table::new(0xFFFF_FFFC, 1).unwrap().place(0), 0xFFFF_FFFC);
}
