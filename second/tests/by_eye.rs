//! What the desk checks by eye (01): P1 to P9 and the limits, with their literal numbers.

mod common;
use common::{cycles, Desk};
use second::board::Board;
use second::desk::output_of;
use second::refusal::{Ground, Refusal};
use second::trace::list_trace;

#[test]
fn p1_and_p2() {
    let mut desk = Desk::stand_in(1, 16);
    assert_eq!(desk.packets(&[0x1980, 0, 4, 0, 0, 0]), [0x0FFFF, 0x10000, 0x10000, 0x10000, 0x00405, 0x00607]);
    assert_eq!(desk.packets(&[0x1D00, 0, 0]), [0x0FFFF, 0x10000, 0x00008]);
}

#[test]
fn p3() {
    let mut desk = Desk::stand_in(0, 0);
    assert_eq!(desk.csr(), 0x0110_0000);
    assert_eq!(desk.csr(), 0x0010_0000);
}

#[test]
fn p4() {
    let mut desk = Desk::stand_in(0, 0);
    desk.debug(0x08, 0x1000);
    desk.debug(0x09, 0xF);
    desk.debug(0x07, 0x4000_2002);
    desk.go();
    assert_eq!(desk.event("1010"), "0 0 0 none");
    assert_eq!(desk.event("100E"), "1 1 0 none");
    assert_eq!(desk.csr(), 0x2410_0000);
}

#[test]
fn p5() {
    let mut desk = Desk::stand_in(0, 0);
    desk.debug(0x06, 0x0005);
    desk.debug(0x08, 0x2000);
    desk.debug(0x0D, 0x3000);
    desk.debug(0x07, 0x2004_2002);
    desk.go();
    assert_eq!(desk.event("2000 3000 05 0"), "1 0 0 none");
    assert_eq!(desk.bstat(), '5');
    assert_eq!(desk.event("2000 3000 05 0"), "2 0 0 none");
    assert_eq!(desk.bstat(), '6');
}

#[test]
fn p6_p7_p8() {
    let mut desk = Desk::stand_in(0, 0);
    assert_eq!(desk.close(&[0x1900, 0, 0]), 0x10001);
    let mut desk = Desk::stand_in(0, 16);
    assert_eq!(desk.close(&[0x1900, 0, 0]), 0);
    assert_eq!(desk.close(&[0x1C00]), 0x1FFFF);
    assert_eq!(desk.close(&[0x19C0]), 0x1FFFF);
}

const P9: &str = "10 50 90 04 03 02 11 F0 F0";

#[test]
fn p9() {
    let listing = "trace cycles=9 items=5\n0 1 0\n1 5 0\n6 9 4660\n6 1 0\n7 15 0\n";
    assert_eq!(output_of("trace_list", &cycles(P9)).unwrap(), listing.as_bytes());
    assert_eq!(output_of("trace_list", &[]).unwrap(), b"trace cycles=0 items=0\n");
}

#[test]
fn limit_of_packets() {
    let mut desk = Desk::stand_in(0, 0);
    assert_eq!(desk.say("packet 1FFFF"), "reply 0FFFF");
    assert_eq!(desk.say("packet 20000"), "refused 1 at 0");
    assert_eq!(desk.say("packet 0"), "reply 1FFFF");
}

#[test]
fn limit_of_w() {
    assert!(Board::make(15).is_ok());
    assert_eq!(Board::make(16), Err(Refusal::from(Ground::WaitTooLong)));
    let mut desk = Desk::stand_in(3, 0);
    assert_eq!(desk.say("make 10"), "refused 2 at 0");
    assert_eq!(desk.state("w"), "3");
    assert_eq!(desk.say("make F"), "made");
    assert_eq!(desk.state("w"), "F");
}

#[test]
fn limit_of_the_result_buffer() {
    let mut words = [7; 11];
    assert_eq!(list_trace(&cycles(P9), &mut words[..10]), Ok(5));
    assert_eq!(words, [1, 0, 21, 0, 105, 4660, 97, 0, 127, 0, 7]);
    let mut words = [7; 9];
    assert_eq!(list_trace(&cycles(P9), &mut words), Err(Ground::BufferTooShort.into()));
    assert_eq!(words, [7; 9]);
}

#[test]
fn limit_of_the_trace() {
    assert_eq!(list_trace(&vec![0; 65_536], &mut []), Ok(0));
    assert_eq!(list_trace(&vec![0x20; 65_537], &mut []), Err(Ground::TraceTooLong.into()));
    assert_eq!(output_of("trace_list", &vec![0; 65_537]).unwrap(), b"refused 7 at 0\n");
}

#[test]
fn limit_of_memory() {
    let mut desk = Desk::stand_in(0, 65_536);
    assert_eq!(desk.close(&[0x1900, 0, 0xFFFF]), 0xFF);
    desk.say("memory 10001");
    assert_eq!(desk.say("packet 20000"), "refused 3 at 0");
    assert_eq!(desk.say("packet 0"), "refused 3 at 0");
}

#[test]
fn a_run_is_judged_before_it_is_taken() {
    let mut board = Board::make(0).unwrap();
    let fresh = board.clone();
    let mut replies = [9; 3];
    assert_eq!(board.run(&mut vec![0; 65_537], &[0x20000], &mut []), Err(Ground::MemoryTooLong.into()));
    assert_eq!(board.run(&mut [], &[1, 0x20000], &mut []), Err(Ground::WordTooWide.into()));
    assert_eq!(board.run(&mut [], &[1, 1, 1, 1], &mut replies), Err(Ground::BufferTooShort.into()));
    assert_eq!((&board, replies), (&fresh, [9; 3]));
    assert_eq!(board.run(&mut [], &[0x19C0, 0], &mut replies), Ok(()));
    assert_eq!(replies, [0x0FFFF, 0x1FFFF, 9]);
}

#[test]
fn refusals_are_numbered() {
    let numbers: Vec<u8> = [
        Ground::WordTooWide,
        Ground::WaitTooLong,
        Ground::MemoryTooLong,
        Ground::EventWhileHalted,
        Ground::OddPc,
        Ground::ReservedSize,
        Ground::TraceTooLong,
        Ground::ReservedPst,
        Ground::MarkerTooEarly,
        Ground::TraceEndsInTransfer,
        Ground::BufferTooShort,
        Ground::StateOutOfRange,
        Ground::FieldOutOfRange,
        Ground::ReplyNotPossible,
    ]
    .iter()
    .map(|&ground| Refusal::from(ground).number())
    .collect();
    assert_eq!(numbers, (1..=14).collect::<Vec<u8>>());
}
