//! The readings of the open points: which paper wins, and packets.

mod common;
use common::Desk;
use second::command::Command;

const NOT_READY: u32 = 0x10000;
const BUS_ERROR: u32 = 0x10001;
const ILLEGAL: u32 = 0x1FFFF;
const COMPLETE: u32 = 0x0FFFF;

#[test]
fn halted_commands_while_running_are_illegal() {
    let mut desk = Desk::stand_in(0, 16);
    desk.go();
    for word in [0x2180, 0x218F, 0x2080, 0x208F, 0x0C00, 0x2980, 0x2880] {
        assert_eq!(desk.packets(&[word, 0])[1], ILLEGAL, "{word:X}");
    }
    for word in [0x1900, 0x2D80, 0x0001, 0x2C80] {
        assert_ne!(desk.close(&[word, 0, 0]), ILLEGAL, "{word:X}");
    }
}

#[test]
fn halted_is_judged_at_the_command_word() {
    let mut desk = Desk::stand_in(2, 0);
    // GO cannot come between a word and its operands, but a halt can come after an illegal word.
    desk.go();
    desk.packet(0x2180);
    desk.say("breakpoint");
    assert_eq!(desk.packet(0x2180), ILLEGAL);
    assert_eq!(desk.state("phase"), "low:0000");
}

#[test]
fn csr_read_clears_the_flags_side_by_side() {
    let mut desk = Desk::stand_in(0, 0);
    desk.debug(0x08, 0x1000);
    desk.debug(0x07, 0x4000_2002);
    desk.go();
    assert_eq!(desk.event("1000"), "1 1 0 none");
    assert_eq!(desk.state("csr"), "24100000");
    assert_eq!(desk.csr(), 0x2410_0000);
    assert_eq!(desk.csr(), 0x0010_0000, "BSTAT 2 leaves 0 and does not re-arm");
    assert_eq!(desk.state("tdr"), "40002002");
}

#[test]
fn tdr_write_arms_bstat() {
    let mut desk = Desk::stand_in(0, 0);
    desk.debug(0x07, 0x2000);
    assert_eq!(desk.bstat(), '1');
    desk.debug(0x07, 0x2000_0000);
    assert_eq!(desk.bstat(), '0');
}

#[test]
fn baar_changes_only_by_its_own_and_aatr_writes() {
    let mut desk = Desk::stand_in(0, 16);
    desk.debug(0x05, 0x1234_56A7);
    assert_eq!(desk.state("baar"), "A7");
    desk.close(&[0x1980, 0, 0]);
    desk.close(&[0x1800, 0, 0, 0]);
    assert_eq!(desk.state("baar"), "A7");
    desk.debug(0x06, 0x1234_56B8);
    assert_eq!((desk.state("baar"), desk.state("aatr")), ("B8".into(), "56B8".into()));
    desk.debug(0x05, 1);
    assert_eq!(desk.state("aatr"), "56B8");
}

#[test]
fn pbr_keeps_all_bits() {
    let mut desk = Desk::stand_in(0, 0);
    desk.debug(0x08, 0x1001);
    assert_eq!(desk.state("pbr"), "00001001");
    desk.debug(0x07, 0x0000_2002);
    desk.go();
    assert_eq!(desk.event("1000"), "0 0 0 none");
    desk.debug(0x07, 0x0000_2003);
    assert_eq!(desk.event("1000"), "1 0 0 none");
}

#[test]
fn replies_by_phase_and_held_next_reply() {
    let mut desk = Desk::stand_in(2, 16);
    desk.packet(0x1980);
    assert_eq!((desk.state("phase"), desk.state("next")), ("operands:2".into(), "10000".into()));
    assert_eq!(desk.packet(0), NOT_READY);
    assert_eq!(desk.state("phase"), "operands:1");
    assert_eq!(desk.packet(4), NOT_READY);
    assert_eq!((desk.state("phase"), desk.state("next")), ("waiting:2".into(), "10000".into()));
    assert_eq!(desk.packet(0x1FFFF), NOT_READY);
    assert_eq!(desk.state("phase"), "waiting:1");
    assert_eq!(desk.packet(0x1FFFF), NOT_READY);
    assert_eq!((desk.state("phase"), desk.state("next")), ("low:0607".into(), "00405".into()));
    assert_eq!(desk.packet(0x1FFFF), 0x0405, "C is ignored with the rest");
    assert_eq!((desk.state("phase"), desk.state("next")), ("rest".into(), "00607".into()));
    assert_eq!(desk.state("chain"), "dump");
}

#[test]
fn work_is_done_at_the_end_of_the_last_waiting_packet() {
    for w in 0..16 {
        let mut desk = Desk::stand_in(w, 4);
        desk.packets(&[0x1800, 0, 0]);
        desk.packet(0xAA);
        for _ in 0..w {
            assert_eq!(desk.say("peek 0 1"), "peek 00");
            assert_eq!(desk.packet(0), NOT_READY);
        }
        assert_eq!(desk.say("peek 0 1"), "peek AA");
        assert_eq!(desk.state("phase"), "rest");
        assert_eq!(desk.packet(0), COMPLETE);
        // DUMP has no operand: it waits from its command word.
        desk.close(&[0x1900, 0, 0]);
        assert_eq!(desk.packet(0x1D00), COMPLETE);
        for _ in 0..w {
            assert_eq!(desk.packet(0), NOT_READY);
        }
        assert_eq!(desk.packet(0), 1);
    }
}

#[test]
fn ignored_input_is_no_command_word_but_ground_1_is_judged() {
    let mut desk = Desk::stand_in(1, 16);
    desk.packets(&[0x1980, 0, 0]);
    assert_eq!(desk.say("packet 20000"), "refused 1 at 0");
    assert_eq!(desk.state("phase"), "waiting:1");
    desk.packet(0x19C0);
    assert_eq!(desk.say("packet 20000"), "refused 1 at 0");
    assert_eq!(desk.packet(0x19C0), 0x0001);
    assert_eq!(desk.packet(0x1D00), 0x0203);
    assert_eq!(desk.close(&[]), 4);
}

#[test]
fn c_at_rest_is_illegal_and_not_a_nop() {
    let mut desk = Desk::stand_in(0, 16);
    desk.close(&[0x1900, 0, 0]);
    assert_eq!(desk.state("chain"), "dump");
    desk.packet(0x10000);
    assert_eq!(desk.state("chain"), "none");
    assert_eq!(desk.packet(0), ILLEGAL);
}

#[test]
fn c_on_an_operand_drops_the_command() {
    let mut desk = Desk::stand_in(0, 16);
    desk.close(&[0x1800, 0, 0, 0x55]);
    // The dropped word would be a GO, but it is not also a command word.
    assert_eq!(desk.packets(&[0x1C00, 0x10C00, 0, 0]), [COMPLETE, NOT_READY, ILLEGAL, COMPLETE]);
    assert_eq!((desk.state("halted"), desk.state("chain")), ("1".into(), "none".into()));
    assert_eq!(desk.say("peek 0 2"), "peek 5501");
}

#[test]
fn operand_words_after_an_illegal_word_are_command_words() {
    let mut desk = Desk::stand_in(0, 16);
    desk.packet(0x1C40);
    assert_eq!(desk.packet(0x0C00), ILLEGAL);
    assert_eq!(desk.state("halted"), "0");
}

#[test]
fn read_and_write_leave_no_chain_until_their_work_succeeds() {
    let mut desk = Desk::stand_in(1, 16);
    desk.close(&[0x1900, 0, 0]);
    desk.packet(0x1800);
    assert_eq!(desk.state("chain"), "none");
    desk.packets(&[0, 0, 0]);
    assert_eq!(desk.state("chain"), "none");
    desk.packet(0);
    assert_eq!(desk.state("chain"), "fill");
    desk.packet(0x1C00);
    assert_eq!(desk.state("chain"), "fill", "kept while under way");
    desk.packets(&[0, 0]);
    desk.close(&[0x1900, 0, 0x10]);
    assert_eq!(desk.state("chain"), "none", "a failed READ does not bring it back");
    assert_eq!(desk.state("pointer"), "00002");
}

#[test]
fn only_nop_leaves_the_chain() {
    for word in [0x0001, 0x2D80, 0x2180, 0x0C00, 0x19C0, 0x1C00, 0x10000, 0xFFFF] {
        let mut desk = Desk::stand_in(0, 16);
        desk.close(&[0x1900, 0, 0]);
        desk.close(&[0]);
        assert_eq!(desk.state("chain"), "dump");
        desk.close(&[word]);
        assert_eq!(desk.state("chain"), "none", "{word:X}");
        assert_eq!(desk.close(&[0x1D00]), ILLEGAL);
    }
    let mut desk = Desk::stand_in(0, 16);
    desk.close(&[0x1800, 0, 0, 0]);
    assert_eq!(desk.close(&[0x1D00]), ILLEGAL);
    assert_eq!(desk.packets(&[0x1C00, 0])[1], ILLEGAL, "an illegal DUMP ends the fill chain");
}

#[test]
fn events_halts_and_refusals_leave_the_chain() {
    let mut desk = Desk::stand_in(0, 16);
    desk.go();
    desk.close(&[0x1900, 0, 0]);
    desk.event("1000");
    desk.event("1001");
    desk.say("breakpoint");
    desk.say("packet 20000");
    desk.say("make 10");
    desk.say("memory 10001");
    desk.say("packet 0");
    desk.say("memory 10");
    assert_eq!((desk.state("chain"), desk.state("pointer")), ("dump".into(), "00001".into()));
}

#[test]
fn one_pointer_serves_both_kinds_and_is_aligned_downward() {
    let mut desk = Desk::stand_in(0, 16);
    desk.close(&[0x1900, 0, 4]);
    assert_eq!(desk.state("pointer"), "00005");
    assert_eq!(desk.packets(&[0x1D80, 0, 0])[1..], [0x0405, 0x0607]);
    assert_eq!(desk.state("pointer"), "00008");
    assert_eq!(desk.close(&[0x1D00]), 8);
    assert_eq!(desk.close(&[0x1D40]), 0x0809);
    desk.close(&[0x1800, 0, 0, 0]);
    assert_eq!(desk.state("pointer"), "00001");
    desk.close(&[0x1C80, 0x1122, 0x3344]);
    assert_eq!((desk.say("peek 0 5"), desk.state("pointer")), ("peek 1122334404".into(), "00004".into()));
}

#[test]
fn a_bus_error_does_not_move_the_pointer_and_ends_the_chain() {
    let mut desk = Desk::stand_in(0, 3);
    desk.close(&[0x1900, 0, 2]);
    assert_eq!(desk.close(&[0x1D00]), BUS_ERROR);
    assert_eq!((desk.state("pointer"), desk.state("chain")), ("00003".into(), "none".into()));
    desk.close(&[0x1900, 0, 0]);
    assert_eq!(desk.close(&[0x1D40]), 0x0001);
    assert_eq!(desk.close(&[0x1D40]), BUS_ERROR, "one byte of two is beyond memory");
}

#[test]
fn addresses_are_not_wrapped() {
    let mut desk = Desk::stand_in(0, 16);
    for word in [0x1900, 0x1940, 0x1980] {
        assert_eq!(desk.close(&[word, 0xFFFF, 0xFFFD]), BUS_ERROR);
        assert_eq!(desk.close(&[word, 0x0001, 0x0000]), BUS_ERROR);
    }
    let mut desk = Desk::stand_in(0, 65_536);
    assert_eq!(desk.close(&[0x1940, 0, 0xFFFF]), 0xFEFF);
    assert_eq!(desk.state("pointer"), "10000");
    assert_eq!(desk.close(&[0x1D00]), BUS_ERROR);
}

#[test]
fn both_result_words_are_fixed_when_the_work_is_done() {
    let mut desk = Desk::stand_in(0, 16);
    desk.packets(&[0x1980, 0, 4]);
    desk.say("bytes 4 FFFFFFFF");
    assert_eq!(desk.packets(&[0, 0]), [0x0405, 0x0607]);
    // RDMREG clears at its command word.
    desk.packet(0x2D80);
    assert_eq!(desk.state("csr"), "00100000");
    assert_eq!(desk.packets(&[0, 0]), [0x0110, 0]);
}

#[test]
fn go_leaves_bstat_and_sync() {
    let mut desk = Desk::stand_in(0, 0);
    desk.debug(0x07, 0x2002);
    desk.close(&[0x0001]);
    desk.go();
    assert_eq!((desk.state("csr"), desk.state("sync")), ("10100000".into(), "1".into()));
}

#[test]
fn csr_write_reaches_its_bits_only() {
    let mut desk = Desk::stand_in(0, 0);
    desk.debug(0x07, 0x2002);
    desk.debug(0x00, 0xFFFF_FFFF);
    assert_eq!((desk.state("csr"), desk.state("halted")), ("1117FF70".into(), "1".into()));
    desk.debug(0x00, 0);
    assert_eq!((desk.state("csr"), desk.state("halted")), ("11100000".into(), "1".into()));
}

#[test]
fn control_register_commands_wait_and_debug_ones_do_not() {
    let mut desk = Desk::stand_in(2, 0);
    desk.packets(&[0x2980, 0]);
    desk.packet(0x801);
    assert_eq!(desk.state("phase"), "waiting:2");
    desk.close(&[]);
    desk.packets(&[0x2C85, 0]);
    desk.packet(0);
    assert_eq!(desk.state("phase"), "rest");
    // A bad register number still collects all words and waits.
    for (first, second) in [(0, 3), (1, 0x801), (0, 0x1801)] {
        assert_eq!(
            desk.packets(&[0x2880, first, second, 1, 2, 0, 0, 0])[1..],
            [NOT_READY, NOT_READY, NOT_READY, NOT_READY, NOT_READY, NOT_READY, BUS_ERROR]
        );
    }
}

#[test]
fn control_registers_keep_32_bits() {
    let mut desk = Desk::stand_in(1, 0);
    let listed = [0x002, 0x004, 0x005, 0x801, 0x804, 0x805, 0x806, 0x80E, 0x80F, 0xC04];
    for (i, rc) in listed.iter().enumerate() {
        assert_eq!(desk.close(&[0x2880, 0, *rc, 0xFFF0 + i as u32, 0xABC0 + i as u32]), COMPLETE);
    }
    for (i, rc) in listed.iter().enumerate() {
        let replies = desk.packets(&[0x2980, 0, *rc, 0, 0, 0]);
        assert_eq!(replies[4..], [0xFFF0 + i as u32, 0xABC0 + i as u32]);
    }
    for rc in (0..0x10000).step_by(7).filter(|rc| !listed.contains(rc)) {
        assert_eq!(desk.packets(&[0x2980, 0, rc, 0, 0])[4], BUS_ERROR);
    }
}

#[test]
fn the_work_uses_the_memory_lent_with_its_packet() {
    let mut desk = Desk::stand_in(1, 16);
    desk.packets(&[0x1900, 0, 8]);
    desk.say("memory 8");
    desk.packet(0);
    assert_eq!(desk.packet(0), BUS_ERROR);
}

#[test]
fn bytes_use_the_low_8_bits() {
    let mut desk = Desk::stand_in(0, 2);
    desk.close(&[0x1800, 0, 0, 0xABCD]);
    assert_eq!(desk.say("peek 0 2"), "peek CD01");
    assert_eq!(desk.close(&[0x1900, 0, 0]), 0x00CD);
}

#[test]
fn the_table_of_command_words() {
    let legal: Vec<u16> = (0..=0xFFFF).filter(|&word| Command::decode(word).is_some()).collect();
    // 3 + 4 kinds of 3 sizes + 2 of 16 registers + 2 control + CSR read + 10 debug registers written
    assert_eq!(legal.len(), 3 + 12 + 32 + 2 + 1 + 10);
    let written: Vec<u16> = legal.iter().copied().filter(|word| word >> 8 == 0x2C).collect();
    assert_eq!(written, [0x2C80, 0x2C85, 0x2C86, 0x2C87, 0x2C88, 0x2C89, 0x2C8C, 0x2C8D, 0x2C8E, 0x2C8F]);
    for (word, operands) in [
        (0x2180, 0),
        (0x2080, 2),
        (0x1900, 2),
        (0x1940, 2),
        (0x1980, 2),
        (0x1800, 3),
        (0x1840, 3),
        (0x1880, 4),
        (0x1D00, 0),
        (0x1D40, 0),
        (0x1D80, 0),
        (0x1C00, 1),
        (0x1C40, 1),
        (0x1C80, 2),
        (0x0C00, 0),
        (0x0000, 0),
        (0x0001, 0),
        (0x2980, 2),
        (0x2880, 4),
        (0x2D80, 0),
        (0x2C80, 2),
    ] {
        assert_eq!(Command::decode(word).unwrap().operands(), operands, "{word:04X}");
    }
}
