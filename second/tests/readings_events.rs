//! The readings of the open points: events.

mod common;
use common::Desk;

const NONE: &str = "0 0 0 none";
const FIRED: &str = "1 0 0 none";

/// A running board with PBR 1000, ABLR 2000, ABHR 2010, DBR 11223344 and this TDR.
fn running(tdr: u32) -> Desk {
    let mut desk = Desk::stand_in(0, 0);
    desk.debug(0x08, 0x1000);
    desk.debug(0x0D, 0x2000);
    desk.debug(0x0C, 0x2010);
    desk.debug(0x0E, 0x1122_3344);
    desk.debug(0x06, 0x0005);
    desk.go();
    desk.debug(0x07, tdr);
    desk
}

fn fires(tdr: u32, event: &str) -> bool {
    let answer = running(tdr).event(event);
    assert!(answer == NONE || answer == FIRED, "{answer}");
    answer == FIRED
}

const EBL: u32 = 1 << 13;
const DI: u32 = 1 << 5;
const EAI: u32 = 1 << 4;
const EAR: u32 = 1 << 3;
const EAL: u32 = 1 << 2;
const EPC: u32 = 1 << 1;
const PCI: u32 = 1 << 0;
const T: u32 = 1 << 14;
const EDLW: u32 = 1 << 12;
const EDUU: u32 = 1 << 6;
const EDLL: u32 = 1 << 9;

#[test]
fn epc_alone_enables_the_pc_group() {
    assert!(fires(EBL | EPC, "1000"));
    assert!(!fires(EBL | EPC, "1002"));
    assert!(fires(EBL | EPC | PCI, "1002"));
    assert!(!fires(EBL | EPC | PCI, "1000"));
    assert!(!fires(EBL | PCI, "1002"));
    assert!(!fires(EBL, "1000"));
}

#[test]
fn an_event_without_an_access_does_not_hold_the_address_group() {
    assert!(!fires(EBL | EAI, "1000"));
    assert!(!fires(EBL | EPC | EAI, "1000"));
    assert!(fires(EBL | EPC | EAI | T, "1000"));
}

#[test]
fn address_comparisons() {
    for (address, low, range, outside) in [
        (0x1FFF, false, false, true),
        (0x2000, true, true, false),
        (0x2001, false, true, false),
        (0x2010, false, true, false),
        (0x2011, false, false, true),
    ] {
        let event = format!("0 {address:X} 05 0");
        assert_eq!(fires(EBL | EAL, &event), low, "{event}");
        assert_eq!(fires(EBL | EAR, &event), range, "{event}");
        assert_eq!(fires(EBL | EAI, &event), outside, "{event}");
    }
    assert!(!fires(EBL | EAL, "0 2000 04 0"), "the attributes differ");
}

#[test]
fn an_empty_range() {
    let mut desk = running(EBL | EAR);
    desk.debug(0x0C, 0x1FFF);
    assert_eq!(desk.event("0 2000 05 0"), NONE);
    desk.debug(0x07, EBL | EAI);
    assert_eq!(desk.event("0 2000 05 0"), FIRED);
}

#[test]
fn attributes_are_masked_by_ones() {
    let mut desk = running(EBL | EAL);
    desk.debug(0x06, 0xFE05);
    assert_eq!(desk.event("0 2000 04 0"), NONE);
    assert_eq!(desk.event("0 2000 BB 0"), FIRED);
}

#[test]
fn data_needs_an_address_bit_and_di_needs_a_comparator() {
    assert!(!fires(EBL | EDLW, "0 2000 05 11223344"));
    assert!(fires(EBL | EAL | EDLW, "0 2000 05 11223344"));
    assert!(!fires(EBL | EAL | EDLW, "0 2000 05 11223345"));
    assert!(fires(EBL | EAL | EDLW | DI, "0 2000 05 11223345"));
    assert!(fires(EBL | EAL | DI, "0 2000 05 0"));
    assert!(fires(EBL | EPC | EDLW, "1000"), "ED without an address bit does nothing");
}

#[test]
fn di_is_some_disagreement_not_no_agreement() {
    // EDUU agrees and EDLL does not: with DI the one that does not is enough, without DI the one that does.
    assert!(fires(EBL | EAL | EDUU | EDLL | DI, "0 2000 05 11223300"));
    assert!(fires(EBL | EAL | EDUU | EDLL, "0 2000 05 11223300"));
    assert!(!fires(EBL | EAL | EDUU | EDLL | DI, "0 2000 05 11000044"));
    assert!(!fires(EBL | EAL | EDUU | EDLL, "0 2000 05 00223300"));
}

#[test]
fn dbmr_ones_are_not_compared() {
    let mut desk = running(EBL | EAL | EDLW);
    desk.debug(0x0F, 0x0000_00FF);
    assert_eq!(desk.event("0 2000 05 11223300"), FIRED);
    let mut desk = running(EBL | EAL | EDLL);
    desk.debug(0x0F, 0x0000_00FF);
    assert_eq!(desk.event("0 2000 05 0"), FIRED, "all masked always agrees");
    desk.debug(0x07, EBL | EAL | EDLL | DI);
    assert_eq!(desk.event("0 2000 05 0"), NONE);
}

#[test]
fn each_comparator_has_its_lanes() {
    for (bit, lanes) in [
        (12, 0xFFFF_FFFF_u32),
        (11, 0x0000_FFFF),
        (10, 0xFFFF_0000),
        (9, 0x0000_00FF),
        (8, 0x0000_FF00),
        (7, 0x00FF_0000),
        (6, 0xFF00_0000),
    ] {
        for place in 0..32 {
            let data = 0x1122_3344 ^ (1 << place);
            let inside = lanes >> place & 1 != 0;
            assert_eq!(fires(EBL | EAL | 1 << bit, &format!("0 2000 05 {data:X}")), !inside);
        }
    }
}

#[test]
fn refusals_in_their_order() {
    let mut desk = running(0);
    assert_eq!(desk.event("1001 0 60 0"), "refused 5 at 0");
    assert_eq!(desk.event("1000 0 60 0"), "refused 6 at 0");
    assert_eq!(desk.event("1000 0 FF 0"), "refused 6 at 0");
    desk.say("breakpoint");
    assert_eq!(desk.event("1001 0 60 0"), "refused 4 at 0");
}

#[test]
fn two_levels() {
    let mut desk = running(0x4000_0000 | EBL << 16 | EPC << 16 | EBL | EPC);
    assert_eq!(desk.event("1000"), FIRED, "level 1 into 5 gives no response");
    assert_eq!(desk.bstat(), '5');
    assert_eq!(desk.event("1002"), NONE);
    assert_eq!(desk.event("1000"), "2 1 0 none");
    assert_eq!(desk.csr(), 0x6410_0000);
    assert_eq!(desk.csr(), 0x0010_0000);
    assert!(!fires(EBL << 16 | EPC << 16, "1000"), "level 2 alone never fires");
}

#[test]
fn each_level_has_its_own_t() {
    let groups = EPC | EAL;
    assert!(!fires(EBL | groups, "1000 0 05 0"));
    assert!(fires(EBL | groups | 1 << 14, "1000 0 05 0"));
    assert!(!fires(EBL | groups | 1 << 15, "1000 0 05 0"));
    for (t, level) in [(0, "0"), (1 << 14, "0"), (1 << 15, "2")] {
        let mut desk = running((EBL | groups) << 16 | EBL | groups | t);
        desk.event("1000 2000 05 0");
        assert_eq!(&desk.event("1000 0 05 0")[..1], level, "{t:X}");
    }
}

#[test]
fn responses() {
    for (response, answer, csr) in [
        (0, "1 0 0 none", 0x2010_0000),
        (1, "1 1 0 none", 0x2410_0000),
        (2, "1 0 1 none", 0x2010_0000),
        (3, "1 0 0 none", 0x2010_0000),
    ] {
        let mut desk = running(response << 30 | EBL | EPC);
        assert_eq!(desk.event("1000"), answer);
        assert_eq!(desk.csr(), csr);
    }
}

#[test]
fn ssm_halts_after_each_event_and_sets_no_flag() {
    let mut desk = running(0x8000_0000 | EBL | EPC);
    desk.debug(0x00, 0x10);
    assert_eq!(desk.event("1000"), "1 1 1 none", "SSM and an interrupt may both be answered");
    assert_eq!((desk.state("halted"), desk.state("csr")), ("1".into(), "20100010".into()));
    desk.go();
    assert_eq!(desk.event("1002"), "0 1 0 none");
    desk.go();
    assert_eq!(desk.say("breakpoint"), "breakpoint halted 1 interrupt 0");
}

#[test]
fn the_breakpoint_input() {
    let mut desk = running(0);
    assert_eq!(desk.say("breakpoint"), "breakpoint halted 1 interrupt 0");
    assert_eq!(desk.state("csr"), "01100000");
    assert_eq!(desk.csr(), 0x0110_0000);
    assert_eq!(desk.say("breakpoint"), "breakpoint halted 0 interrupt 0");
    assert_eq!(desk.state("csr"), "00100000", "while halted it sets no flag");
    desk.debug(0x00, 1 << 18);
    assert_eq!(desk.say("breakpoint"), "breakpoint halted 0 interrupt 0");
    desk.go();
    assert_eq!(desk.say("breakpoint"), "breakpoint halted 0 interrupt 1");
    assert_eq!((desk.state("csr"), desk.state("halted")), ("00140000".into(), "0".into()));
}

#[test]
fn sync_pc_hands_out_the_next_events_pc_once() {
    let mut desk = Desk::stand_in(0, 0);
    desk.close(&[1]);
    desk.close(&[1]);
    desk.csr();
    assert_eq!(desk.event("1000"), "refused 4 at 0");
    desk.go();
    assert_eq!(desk.event("1001"), "refused 5 at 0");
    desk.say("breakpoint");
    desk.go();
    assert_eq!(desk.event("89ABCDEE"), "0 0 0 89ABCDEE");
    assert_eq!(desk.event("89ABCDEE"), NONE);
    desk.close(&[1]);
    desk.debug(0x00, 0x10);
    assert_eq!(desk.event("2"), "0 1 0 00000002", "also by an event that halts");
}

#[test]
fn at_bstat_2_and_6_no_level_is_tried() {
    let mut desk = running(0x4000_0000 | EBL | EPC);
    assert_eq!(desk.event("1000"), "1 1 0 none");
    desk.go();
    assert_eq!(desk.bstat(), '2');
    assert_eq!(desk.event("1000"), NONE);
    desk.csr();
    assert_eq!(desk.event("1000"), NONE);
    desk.debug(0x07, 0x4000_0000 | EBL | EPC);
    assert_eq!(desk.event("1000"), "1 1 0 none");
}
