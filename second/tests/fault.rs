//! Request [4] of 02: which address wasn't there. Sentence by sentence, and an account of random scripts.

mod common;
use common::Desk;
use second::board::Board;
use second::check::output_for;
use second::command::Size;
use second::random::{stand_in_script, talk_script, Rng};
use second::work::access;

const BUS_ERROR: u32 = 0x10001;
const COMPLETE: u32 = 0x0FFFF;
const ILLEGAL: u32 = 0x1FFFF;
const NOT_READY: u32 = 0x10000;

/// Lengths about what an access may straddle, none at all and the most.
const LENGTHS: [u32; 14] = [0, 1, 2, 3, 4, 5, 6, 7, 8, 9, 65_533, 65_534, 65_535, 65_536];

/// The command words of the three sizes: their field and their bytes.
const SIZES: [(u32, u32); 3] = [(0x00, 1), (0x40, 2), (0x80, 4)];

/// About the end of memory, about 65,536 and about 2^32.
fn addresses(length: u32) -> Vec<u32> {
    let mut addresses: Vec<u32> = (0..12).map(|i| length.wrapping_add(i).wrapping_sub(6)).collect();
    addresses.extend([0, 1, 2, 3, 4, 0xFFFC, 0xFFFF, 0x1_0000, 0x1_0001, 0x1_0003, 0x7FFF_FFFF, 0x8000_0000]);
    addresses.extend((1..=9).map(|i| 0u32.wrapping_sub(i)));
    addresses
}

/// OP: "the lowest missing address is the larger of aligned address and length"; none if the last byte is there.
fn lowest_missing(length: u32, bytes: u32, address: u32) -> Option<u32> {
    let aligned = address / bytes * bytes;
    let is_there = u64::from(aligned) + u64::from(bytes) <= u64::from(length);
    (!is_there).then_some(aligned.max(length))
}

/// How `state` shows it.
fn shown(fault: Option<u32>) -> String {
    fault.map_or("none".to_string(), |address| format!("{address:08X}"))
}

/// READ or WRITE at an address, its datum 5A's.
fn words(command: u32, (field, bytes): (u32, u32), address: u32) -> Vec<u32> {
    let mut words = vec![command + field, address >> 16, address & 0xFFFF];
    if command == 0x1800 {
        words.resize(if bytes == 4 { 5 } else { 4 }, 0x5A5A);
    }
    words
}

/// A stand-in at rest whose last READ found no address 10.
fn with_fault(w: u32) -> Desk {
    let mut desk = Desk::stand_in(w, 16);
    assert_eq!(desk.close(&[0x1900, 0, 0x10]), BUS_ERROR);
    assert_eq!(desk.state("fault"), "00000010");
    desk
}

/// "The memory access shall also answer the lowest address of the access that isn't there".
#[test]
fn the_access_answers_the_lowest_address_that_is_not_there() {
    for length in LENGTHS {
        for size in Size::ALL {
            for address in addresses(length) {
                let first = u64::from(size.align(address));
                let all = first..first + u64::from(size.bytes());
                let lowest = all.clone().find(|&address| address >= u64::from(length));
                let answer = access(length as usize, size, address);
                match lowest {
                    Some(lowest) => assert_eq!(answer, Err(lowest as u32), "{size:?} {address:X} of {length:X}"),
                    None => assert_eq!(answer, Ok(all.start as usize..all.end as usize)),
                }
                assert_eq!(answer.err(), lowest_missing(length, size.bytes(), address));
            }
        }
    }
}

/// "all commands that use it keep that number in the board's state": READ and WRITE, once the work is done.
#[test]
fn read_and_write_keep_it() {
    for w in [0, 3] {
        for length in LENGTHS {
            let mut desk = Desk::stand_in(w, length);
            for size in SIZES {
                for address in addresses(length) {
                    let missing = lowest_missing(length, size.1, address);
                    for command in [0x1900, 0x1800] {
                        let words = words(command, size, address);
                        let (last, before) = words.split_last().unwrap();
                        desk.packets(before);
                        assert_eq!(desk.state("fault"), "none", "the work is not done yet");
                        desk.packet(*last);
                        for _ in 0..w {
                            assert_eq!(desk.state("fault"), "none", "nor while it waits");
                            assert_eq!(desk.packet(0), NOT_READY);
                        }
                        assert_eq!(desk.state("fault"), shown(missing), "{words:X?} of {length:X}");
                        let reply = desk.close(&[]);
                        assert_eq!(reply == BUS_ERROR, missing.is_some());
                        assert_eq!(desk.state("fault"), shown(missing), "a NOP carried the reply out");
                    }
                }
            }
        }
    }
}

/// "all commands that use it": DUMP and FILL, at the pointer aligned to their own size.
#[test]
fn dump_and_fill_keep_it() {
    for w in [0, 3] {
        for length in LENGTHS.into_iter().filter(|&length| length > 0) {
            let mut desk = Desk::stand_in(w, length);
            for size in SIZES {
                for back in 1..=length.min(9) {
                    let pointer = length - back + 1;
                    let missing = lowest_missing(length, size.1, pointer);
                    for (begin, next) in [(0x1900, 0x1D00), (0x1800, 0x1C00)] {
                        desk.close(&words(begin, SIZES[0], pointer - 1));
                        let mut words = vec![next + size.0];
                        if next == 0x1C00 {
                            words.resize(if size.1 == 4 { 3 } else { 2 }, 0xA5A5);
                        }
                        let reply = desk.close(&words);
                        assert_eq!(desk.state("fault"), shown(missing), "{words:X?} at {pointer:X} of {length:X}");
                        assert_eq!(reply == BUS_ERROR, missing.is_some());
                    }
                }
            }
        }
    }
}

/// "The memory is lent anew with each call": less than the pointer, the memory leaves it the larger.
#[test]
fn dump_and_fill_beyond_a_memory_that_shrank() {
    for w in [0, 2] {
        for size in SIZES {
            for pointer in 9..=16 {
                for length in 0..=20 {
                    let missing = lowest_missing(length, size.1, pointer);
                    for (begin, next) in [(0x1900, 0x1D00), (0x1800, 0x1C00)] {
                        let mut desk = Desk::stand_in(w, 32);
                        desk.close(&words(begin, SIZES[0], pointer - 1));
                        desk.say(&format!("memory {length:X}"));
                        let operands = if next == 0x1D00 { 0 } else { size.1.div_ceil(2) };
                        desk.packet(next + size.0);
                        desk.packets(&vec![0; operands as usize]);
                        desk.close(&[]);
                        assert_eq!(desk.state("fault"), shown(missing));
                    }
                }
            }
        }
    }
    // The memory of the packet that does the work counts, not an earlier one's.
    let mut desk = Desk::stand_in(2, 16);
    desk.packets(&[0x1980, 0, 8]);
    desk.say("memory 4");
    desk.packet(0);
    desk.say("memory A");
    desk.packet(0);
    assert_eq!(desk.state("fault"), "0000000A");
}

/// "until the next command word other than NOP": NOPs keep it, however many.
#[test]
fn nops_keep_it() {
    for w in [0, 3] {
        let mut desk = with_fault(w);
        for _ in 0..20 {
            assert_eq!(desk.packet(0), COMPLETE);
            assert_eq!(desk.state("fault"), "00000010");
        }
    }
}

/// "until the next command word other than NOP": every other packet at rest clears it, at that packet. OP: "illegal and
/// C-set words at rest clear it".
#[test]
fn every_other_word_at_rest_clears_it() {
    let mut faulty = Board::make(1).unwrap();
    for packet in [0x1900, 0, 0x10, 0] {
        faulty.packet(&mut [0; 16], packet).unwrap();
    }
    assert_eq!(faulty.fault(), Some(0x10));
    for packet in 0..=0x1FFFF {
        let mut board = faulty.clone();
        assert_eq!(board.packet(&mut [0; 16], packet), Ok(BUS_ERROR));
        assert_eq!(board.fault(), (packet == 0).then_some(0x10), "{packet:05X}");
    }
}

/// The same, also while running, where the "halted" commands are illegal.
#[test]
fn while_running_too() {
    let mut desk = Desk::stand_in(0, 16);
    desk.go();
    for word in [0x2180, 0x2080, 0x0C00, 0x2980, 0x2880, 0x2D80, 0x2C88, 0x1D00, 0x1C00, 0x0001, 0x19C0, 0x10000] {
        assert_eq!(desk.close(&[0x1940, 0, 0x11]), BUS_ERROR);
        assert_eq!(desk.state("fault"), "00000010");
        desk.packet(word);
        assert_eq!(desk.state("fault"), "none", "{word:05X}");
        desk.close(&[]);
    }
}

/// SYNC_PC is told apart from NOP, and so is NOP's word with C.
#[test]
fn sync_pc_and_c_on_nop_clear_it() {
    for (packet, reply) in [(0x0001, COMPLETE), (0x10000, ILLEGAL), (0x10001, ILLEGAL), (0x1FFFF, ILLEGAL)] {
        let mut desk = with_fault(0);
        desk.packet(packet);
        assert_eq!(desk.state("fault"), "none");
        assert_eq!(desk.packet(0), reply);
        assert_eq!(desk.state("fault"), "none", "a NOP does not bring it back");
    }
}

/// An operand is no command word: what the last one reads as does not take from the work done with it.
#[test]
fn operands_that_read_as_command_words() {
    let mut desk = Desk::stand_in(0, 0);
    for word in [0x0000, 0x0001, 0x0C00, 0x1900, 0x1D00, 0x19C0, 0x2180, 0x2D80, 0xFFFF] {
        desk.packets(&[0x1900, word, word]);
        assert_eq!(desk.state("fault"), format!("{word:04X}{word:04X}"));
        desk.packets(&[0x1840, 0, 6, word]);
        assert_eq!(desk.state("fault"), "00000006");
    }
}

/// A command that is dropped does no work: its command word has cleared, and its operand with C keeps nothing.
#[test]
fn a_dropped_command_keeps_none() {
    for (words, places) in [(&[0x1900, 0, 0x20][..], 1..3), (&[0x1880, 0, 0x20, 1, 2], 1..5)] {
        for place in places {
            let mut desk = with_fault(1);
            desk.packets(&words[..place]);
            assert_eq!(desk.state("fault"), "none");
            assert_eq!(desk.packet(words[place] | 0x10000), NOT_READY);
            assert_eq!((desk.state("fault"), desk.packet(0)), ("none".into(), ILLEGAL));
            assert_eq!(desk.state("fault"), "none");
        }
    }
}

/// A packet whose input is ignored is no command word: while the command waits, and where the upper word leaves.
#[test]
fn ignored_input_is_no_command_word() {
    for ignored in [0x0000, 0x0001, 0x0C00, 0x10000, 0x1900, 0x19C0, 0x1FFFF] {
        let mut desk = Desk::stand_in(3, 6);
        desk.packets(&[0x1980, 0, 4, ignored, ignored, ignored]);
        assert_eq!(desk.state("fault"), "00000006", "the work is done with an ignored packet");
        assert_eq!(desk.packet(0), BUS_ERROR);
        // A longword that is there, its upper word out with the ignored packet; then a DUMP that isn't.
        desk.packets(&[0x1980, 0, 0, 0, 0, 0, ignored]);
        assert_eq!((desk.state("fault"), desk.state("phase")), ("none".into(), "rest".into()));
        desk.packets(&[0x1D80, ignored, ignored, ignored]);
        assert_eq!(desk.state("fault"), "00000006");
    }
}

/// "A control-register error keeps none, which is told apart from address 0."
#[test]
fn a_control_register_error_keeps_none() {
    for w in [0, 3] {
        for (first, second) in [(0, 0), (0, 3), (0, 0x800), (0, 0x1801), (1, 0x801), (0x8000, 0x002), (0xFFFF, 0xFFFF)]
        {
            for words in [vec![0x2980, first, second], vec![0x2880, first, second, 0, 0]] {
                let mut desk = Desk::stand_in(w, 0);
                assert_eq!(desk.close(&words), BUS_ERROR);
                assert_eq!(desk.state("fault"), "none");
                assert_eq!(desk.close(&[0x1900, 0, 0]), BUS_ERROR);
                assert_eq!(desk.state("fault"), "00000000", "no memory: address 0 isn't there");
                desk.packet(words[0]);
                assert_eq!(desk.state("fault"), "none", "cleared by the command word");
                assert_eq!(desk.close(&words[1..]), BUS_ERROR);
                assert_eq!(desk.state("fault"), "none");
            }
        }
    }
}

#[test]
fn a_bus_error_after_a_bus_error_has_its_own_address() {
    for w in [0, 3] {
        let mut desk = Desk::stand_in(w, 6);
        for (words, address) in [
            (&[0x1900, 0xFFFF, 0xFFFF][..], "FFFFFFFF"),
            (&[0x1980, 0, 7], "00000006"),
            (&[0x1840, 0, 8, 1], "00000008"),
            (&[0x1940, 0, 7], "00000006"),
            (&[0x1880, 0xFFFF, 0xFFFF, 0, 0], "FFFFFFFC"),
            (&[0x1800, 1, 0, 0], "00010000"),
        ] {
            assert_eq!(desk.close(words), BUS_ERROR);
            assert_eq!(desk.state("fault"), address);
        }
    }
}

#[test]
fn a_command_that_goes_well_leaves_none() {
    for w in [0, 3] {
        for words in [
            &[0x1900, 0, 0xF][..],
            &[0x1980, 0, 0xF],
            &[0x1840, 0, 0xE, 0],
            &[0x2180],
            &[0x2080, 0, 0],
            &[0x2980, 0, 0x801],
            &[0x2880, 0, 0x801, 0, 0],
            &[0x2D80],
            &[0x2C87, 0, 0],
            &[0x0C00],
        ] {
            let mut desk = with_fault(w);
            desk.packet(words[0]);
            assert_eq!(desk.state("fault"), "none", "{words:X?}");
            desk.close(&words[1..]);
            assert_eq!(desk.state("fault"), "none", "{words:X?}");
        }
    }
}

/// What is no command word leaves it: events, the breakpoint input, refusals, what the bench does to memory.
#[test]
fn what_is_no_command_word_leaves_it() {
    let mut desk = Desk::stand_in(1, 16);
    desk.go();
    assert_eq!(desk.close(&[0x1880, 0, 0x12, 0, 0]), BUS_ERROR);
    for line in [
        "event 1000", "event 1001", "event 1000 0 60 0", "event 1000 10 5 0", "breakpoint", "breakpoint", "event 1000",
        "packet 20000", "packet FFFFFFFF", "packet 100000000", "make 10", "make", "memory 10001", "packet 0",
        "packet 1", "memory 10011", "memory 0", "memory 20", "bytes 10 AA", "peek 10 1", "state", "help", "packet",
        "sync_pc",
    ] {
        desk.say(line);
        assert_eq!(desk.state("fault"), "00000010", "{line}");
    }
    assert_eq!(desk.say("make 1"), "made");
    assert_eq!(desk.state("fault"), "none");
}

#[test]
fn a_fresh_board_has_none() {
    for w in 0..16 {
        assert_eq!(Board::make(w).unwrap().fault(), None);
        assert_eq!(Desk::stand_in(w, 0).state("fault"), "none");
    }
    let mut desk = with_fault(0);
    desk.say("make 0");
    assert_eq!(desk.state("fault"), "none");
}

/// DL: "`state` gains ` fault=ADDRESS` (eight hexadecimal digits) or ` fault=none` at its end."
#[test]
fn the_field_stands_at_the_end_of_the_line() {
    let mut desk = Desk::stand_in(0, 0);
    assert!(desk.say("state").ends_with(" next=0FFFF fault=none"));
    desk.packets(&[0x1900, 0xABCD, 0xEF]);
    assert!(desk.say("state").ends_with(" next=10001 fault=ABCD00EF"));
    let mut desk = Desk::talk(0, 0);
    assert!(desk.say("state").ends_with(" next=0FFFF fault=none"));
    assert_eq!(desk.say("read.b 0"), "bus-error packets 4");
    assert!(desk.say("state").ends_with(" next=0FFFF fault=00000000"));
}

/// "Replies on the port don't change": two boards that differ in nothing but the number answer alike, and then are alike
/// but for it.
#[test]
fn replies_do_not_depend_on_it() {
    let without_field = |line: String| line.rsplit_once(" fault=").unwrap().0.to_string();
    for seed in 0..40 {
        let mut rng = Rng::new(seed);
        let w = rng.below(4);
        let (mut with, mut without) = (Desk::stand_in(w, 12), Desk::stand_in(w, 12));
        with.close(&[0x1900, 0, 0x10]);
        without.close(&[0x2980, 0, 0x003]);
        assert_ne!(with.say("state"), without.say("state"));
        for _ in 0..300 {
            let packet = match rng.below(5) {
                0 => rng.pick(&[0x1980, 0x1900, 0x1880, 0x1D00, 0x1C40, 0x2D80, 0x0C00, 0x2980, 0x0001]),
                1 => rng.below(0x2_0000),
                2 => rng.below(20),
                _ => 0,
            };
            assert_eq!(with.packet(packet), without.packet(packet));
            assert_eq!(without_field(with.say("state")), without_field(without.say("state")));
        }
    }
}

#[test]
fn talk_answers_as_it_did() {
    for w in [0, 3, 15] {
        let mut desk = Desk::talk(w, 6);
        for (line, answer, fault) in [
            ("read.b 5", format!("value 00000005 packets {}", 4 + w), "none"),
            ("dump.b", format!("bus-error packets {}", 2 + w), "00000006"),
            ("nop", "complete packets 2".into(), "00000006"),
            ("sync_pc", "complete packets 2".into(), "none"),
            ("read.l 4", format!("bus-error packets {}", 4 + w), "00000006"),
            ("dump.b", "illegal packets 2".into(), "none"),
            ("write.l 8 0", format!("bus-error packets {}", 6 + w), "00000008"),
            ("rdreg 10", "refused 13 at 0".into(), "00000008"),
            ("rcreg 3", format!("bus-error packets {}", 4 + w), "none"),
            ("write.w 6 0", format!("bus-error packets {}", 5 + w), "00000006"),
            ("wcreg 3 0", format!("bus-error packets {}", 6 + w), "none"),
            ("write.w 4 4050", format!("complete packets {}", 5 + w), "none"),
            ("fill.l 0", format!("bus-error packets {}", 4 + w), "00000006"),
            ("rdmreg 0", "value 01100000 packets 3".into(), "none"),
        ] {
            assert_eq!((desk.say(line), desk.state("fault")), (answer, fault.into()), "{line} with W {w}");
        }
    }
}

/// GW: a marker's NOPs keep it, and its illegal word clears it; so a visit that is read to its end leaves none.
#[test]
fn a_visit_read_to_its_end_leaves_none() {
    let scene = |fault: &str| {
        let script = format!("make 1\nmemory 12\n{fault}visit 0 8\nstate\n");
        String::from_utf8(output_for("gateway", "scene", script.as_bytes())).unwrap()
    };
    let read = scene("");
    assert!(read.contains("table 00000010 bus-error\n") && read.ends_with(" fault=none\n"), "{read}");
    let sent: u32 = read.lines().find_map(|line| line.strip_prefix("sent ")?.parse().ok()).unwrap();
    // The last marker has 24 packets, and its illegal word is the third from the end.
    for (packet, fault) in [(sent - 23, "00000012"), (sent - 3, "00000012"), (sent - 2, "none"), (sent, "none")] {
        let cut = scene(&format!("at {packet} silent\n"));
        assert!(cut.contains(&format!("not-read packet {packet} no-reply\n")), "{cut}");
        assert!(cut.ends_with(&format!(" fault={fault}\n")), "{packet}: {cut}");
    }
}

/// What the sentences of [4] say of a script, told from its lines and answers and the state line before.
struct Account {
    length: u32,
    fault: Option<u32>,
    /// The words of the command under way.
    words: Vec<u32>,
    bus_errors: usize,
}

impl Account {
    fn new() -> Account {
        Account { length: 0, fault: None, words: Vec::new(), bus_errors: 0 }
    }

    /// The address that the work of the command under way goes to, and its bytes, if it accesses memory.
    fn accessed(&self, pointer: u32) -> Option<(u32, u32)> {
        let bytes = 1 << (self.words[0] >> 6 & 3);
        match self.words[0] >> 8 {
            0x18 | 0x19 => Some((self.words[1] << 16 | self.words[2], bytes)),
            0x1C | 0x1D => Some((pointer, bytes)),
            _ => None,
        }
    }

    fn hear(&mut self, line: &str, answer: &str, before: &dyn Fn(&str) -> String, after: &dyn Fn(&str) -> String) {
        let number = |word: &str| u32::from_str_radix(word.to_lowercase().trim_start_matches("0x"), 16).unwrap();
        if answer == "made" {
            self.fault = None;
        } else if let Some(length) = answer.strip_prefix("memory ") {
            self.length = number(length);
        } else if answer.starts_with("reply ") {
            let packet = number(line.split_ascii_whitespace().nth(1).unwrap());
            let phase = before("phase");
            if phase == "rest" {
                self.words = vec![packet];
                if packet != 0 {
                    self.fault = None;
                }
            } else if phase.starts_with("operands") {
                self.words.push(packet);
            }
            let worked = phase == "waiting:1" || phase == "operands:1" || phase == "rest";
            if worked && after("phase") == "rest" && after("next") == "10001" {
                let accessed = self.accessed(number(&before("pointer")));
                if let Some((address, bytes)) = accessed {
                    self.fault = lowest_missing(self.length, bytes, address);
                    assert!(self.fault.is_some(), "a bus error has an address");
                    self.bus_errors += 1;
                }
            }
        }
    }
}

/// Every line of random scripts, against the account.
#[test]
fn random_scripts_by_their_account() {
    let mut bus_errors = 0;
    for seed in 0..60 {
        let mut desk = Desk::new("stand_in");
        let mut account = Account::new();
        let mut before = desk.say("state");
        for line in stand_in_script(&mut Rng::new(seed), 1500) {
            for line in line.split(|&byte| byte == b'\r') {
                let Some(answer) = desk.say_bytes(line) else { continue };
                let after = desk.say("state");
                let line = String::from_utf8_lossy(line);
                account.hear(&line, &answer, &|name| field(&before, name), &|name| field(&after, name));
                assert_eq!(field(&after, "fault"), shown(account.fault), "seed {seed}: {line}: {after}");
                // It is kept only where no other command has begun.
                assert!(account.fault.is_none() || field(&after, "phase") == "rest", "{after}");
                assert!(account.fault.is_none() || field(&after, "chain") == "none", "{after}");
                before = after;
            }
        }
        bus_errors += account.bus_errors;
    }
    assert!(bus_errors > 1000, "{bus_errors}");
}

fn field(state: &str, name: &str) -> String {
    let fields = || state.split(' ');
    fields().find_map(|field| field.strip_prefix(name)?.strip_prefix('=')).expect(name).to_string()
}

/// The scripts often ask for the state soon after a bus error, by far not only right after it.
#[test]
fn random_scripts_show_it() {
    for (program, scripts) in [
        ("stand_in", (0..20).map(|seed| stand_in_script(&mut Rng::new(seed), 700)).collect::<Vec<_>>()),
        ("talk", (0..20).map(|seed| talk_script(&mut Rng::new(seed), 400)).collect()),
    ] {
        let (mut lines, mut kept, mut none) = (0, 0, 0);
        for script in scripts {
            let mut desk = Desk::new(program);
            for line in script.iter().flat_map(|line| line.split(|&byte| byte == b'\r')) {
                let Some(answer) = desk.say_bytes(line) else { continue };
                lines += 1;
                if answer.starts_with("state ") {
                    *(if answer.ends_with(" fault=none") { &mut none } else { &mut kept }) += 1;
                }
            }
        }
        assert!(kept * 100 > lines && none > kept, "{program}: {lines} lines, {kept} with an address, {none} without");
    }
}
