//! Request [1] of 02: "a comparator counts only if the access carries all its lanes".

use second::board::Board;
use second::events::{Access, Event};

const EBL: u32 = 1 << 13;
const EDLW: u32 = 1 << 12;
const EDWL: u32 = 1 << 11;
const EDWU: u32 = 1 << 10;
const EDLL: u32 = 1 << 9;
const EDLM: u32 = 1 << 8;
const EDUM: u32 = 1 << 7;
const EDUU: u32 = 1 << 6;
const DI: u32 = 1 << 5;
const EAR: u32 = 1 << 3;
const EPC: u32 = 1 << 1;
const T_1: u32 = 1 << 14;
const T_2: u32 = 1 << 15;

/// The comparators with their lanes.
const COMPARATORS: [(u32, u32); 7] = [
    (EDLW, 0xFFFF_FFFF),
    (EDWL, 0x0000_FFFF),
    (EDWU, 0xFFFF_0000),
    (EDLL, 0x0000_00FF),
    (EDLM, 0x0000_FF00),
    (EDUM, 0x00FF_0000),
    (EDUU, 0xFF00_0000),
];

const LONG: u8 = 0x05;
const BYTE: u8 = 0x25;
const WORD: u8 = 0x45;

/// Each size and address modulo 4, with the comparators that count.
const COUNTING: [(u8, u32, &[u32]); 12] = [
    (LONG, 0, &[EDLW, EDWL, EDWU, EDLL, EDLM, EDUM, EDUU]),
    (LONG, 1, &[EDLW, EDWL, EDWU, EDLL, EDLM, EDUM, EDUU]),
    (LONG, 2, &[EDLW, EDWL, EDWU, EDLL, EDLM, EDUM, EDUU]),
    (LONG, 3, &[EDLW, EDWL, EDWU, EDLL, EDLM, EDUM, EDUU]),
    (BYTE, 0, &[EDUU]),
    (BYTE, 1, &[EDUM]),
    (BYTE, 2, &[EDLM]),
    (BYTE, 3, &[EDLL]),
    (WORD, 0, &[EDWU, EDUM, EDUU]),
    (WORD, 1, &[EDWU, EDUM, EDUU]),
    (WORD, 2, &[EDWL, EDLL, EDLM]),
    (WORD, 3, &[EDWL, EDLL, EDLM]),
];

const DBR: u32 = 0x1122_3344;
const PBR: u32 = 0x1000;
const ABLR: u32 = 0x2000;

/// Data that agree with DBR on all lanes, on none, on some, and zero.
const DATA: [u32; 8] = [DBR, !DBR, 0x1122_CCBB, 0xEEDD_3344, 0x11DD_33BB, 0xEE22_CC44, 0x1122_3345, 0];

/// The breakpoint registers that an access is compared with.
#[derive(Clone, Copy)]
struct Setting {
    tdr: u32,
    dbr: u32,
    dbmr: u32,
}

/// A running board that has been given this setting; any attribute will do, and any address from ABLR to ABLR + 3.
fn running(setting: Setting) -> Board {
    let mut board = Board::make(0).unwrap();
    let registers = [
        (0x06, 0xFF05),
        (0x08, PBR),
        (0x0C, ABLR + 3),
        (0x0D, ABLR),
        (0x0E, setting.dbr),
        (0x0F, setting.dbmr),
        (0x07, setting.tdr),
    ];
    let writes = registers.iter().flat_map(|&(n, value)| [0x2C80 + n, value >> 16, value & 0xFFFF]);
    let packets: Vec<u32> = writes.chain([0x0C00]).collect();
    board.run(&mut [], &packets, &mut vec![0; packets.len()]).unwrap();
    board
}

fn access(attribute: u8, offset: u32, data: u32) -> Option<Access> {
    Some(Access { address: ABLR + offset, attribute, data })
}

/// The level that fires; the PC agrees or not.
fn level_fired(board: &mut Board, pc_agrees: bool, access: Option<Access>) -> u8 {
    let pc = if pc_agrees { PBR } else { PBR + 2 };
    board.event(Event { pc, access, ..Event::default() }).unwrap().level
}

fn fires(setting: Setting, access: Option<Access>) -> bool {
    level_fired(&mut running(setting), false, access) == 1
}

/// The lanes of all these comparators.
fn lanes_of(comparators: &[u32]) -> u32 {
    COMPARATORS.iter().filter(|(bit, _)| comparators.contains(bit)).fold(0, |all, (_, lanes)| all | lanes)
}

/// With these comparators, DI or not, DBR and no mask.
fn data_holds(comparators: u32, inverted: u32, access: Option<Access>) -> bool {
    fires(Setting { tdr: EBL | EAR | comparators | inverted, dbr: DBR, dbmr: 0 }, access)
}

#[test]
fn a_byte_that_was_never_on_the_bus() {
    let lowest_lane_for_zero = Setting { tdr: EBL | EAR | EDLL, dbr: 0, dbmr: 0 };
    for data in [0, 0xFFFF_FF00, 0x0055_0000, 0xFF] {
        assert!(!fires(lowest_lane_for_zero, access(BYTE, 1, data)), "{data:X}");
    }
    for (data, zero) in [(0, true), (0xFFFF_FF00, true), (0xFF, false)] {
        assert_eq!(fires(lowest_lane_for_zero, access(BYTE, 3, data)), zero, "{data:X}");
    }
}

#[test]
fn each_comparator_counts_where_all_its_lanes_are_carried() {
    for (attribute, offset, counting) in COUNTING {
        for (comparator, lanes) in COMPARATORS {
            let counts = counting.contains(&comparator);
            for data in DATA {
                let agrees = (data ^ DBR) & lanes == 0;
                let access = access(attribute, offset, data);
                let name = format!("{attribute:X} at {offset}, {comparator:X}, {data:X}");
                assert_eq!(data_holds(comparator, 0, access), counts && agrees, "{name}");
                assert_eq!(data_holds(comparator, DI, access), counts && !agrees, "{name}, DI");
            }
        }
    }
}

#[test]
fn what_stands_on_lanes_not_carried_does_not_matter() {
    for (attribute, offset, counting) in COUNTING {
        let carried = lanes_of(counting);
        for (comparator, _) in COMPARATORS {
            for inverted in [0, DI] {
                for data in DATA {
                    let alone = data_holds(comparator, inverted, access(attribute, offset, data & carried));
                    for others in DATA {
                        let data = data & carried | others & !carried;
                        assert_eq!(
                            data_holds(comparator, inverted, access(attribute, offset, data)),
                            alone,
                            "{data:X}"
                        );
                    }
                }
            }
        }
    }
}

#[test]
fn one_that_drops_out_changes_nothing_beside_another() {
    for (attribute, offset, counting) in COUNTING {
        for (dropped, _) in COMPARATORS.iter().filter(|(bit, _)| !counting.contains(bit)) {
            for (other, _) in COMPARATORS {
                for inverted in [0, DI] {
                    for data in DATA {
                        let access = access(attribute, offset, data);
                        let alone = data_holds(other, inverted, access);
                        assert_eq!(
                            data_holds(other | dropped, inverted, access),
                            alone,
                            "{other:X} {dropped:X} {access:?}"
                        );
                    }
                }
            }
        }
    }
}

/// 01 as it was: "Lanes that the size and address do not carry read as zero"; "some set ED comparator agrees with DBR
/// on its lanes where DBMR is 0 (reading), or, with DI, instead some set one does not".
fn held_before(setting: Setting, carried: u32, data: u32) -> bool {
    let set: Vec<u32> = COMPARATORS.iter().filter(|(bit, _)| setting.tdr & bit != 0).map(|&(_, lanes)| lanes).collect();
    let agrees = |lanes: u32| (data & carried) & lanes & !setting.dbmr == setting.dbr & lanes & !setting.dbmr;
    match setting.tdr & DI {
        _ if set.is_empty() => true,
        0 => set.into_iter().any(agrees),
        _ => !set.into_iter().all(agrees),
    }
}

/// Every set of comparators, DI or not, with some DBR and DBMR.
fn settings() -> impl Iterator<Item = Setting> {
    (0..0x80).flat_map(|comparators| {
        [0, DI].into_iter().flat_map(move |inverted| {
            [(DBR, 0), (DBR, 0xFF), (DBR, 0xFFFF_0000), (0, 0), (0x2200_4400, 0x00FF_00FF), (DBR, !0)]
                .map(|(dbr, dbmr)| Setting { tdr: EBL | EAR | comparators << 6 | inverted, dbr, dbmr })
        })
    })
}

#[test]
fn longwords_fire_as_they_did_before() {
    for setting in settings() {
        for offset in 0..4 {
            for data in DATA {
                let before = held_before(setting, !0, data);
                assert_eq!(fires(setting, access(LONG, offset, data)), before, "{:X} {data:X}", setting.tdr);
            }
        }
    }
}

#[test]
fn nothing_fires_that_did_not_before() {
    for setting in settings() {
        for (attribute, offset, counting) in COUNTING {
            let carried = lanes_of(counting);
            for data in DATA {
                let now = fires(setting, access(attribute, offset, data));
                assert!(
                    !now || held_before(setting, carried, data),
                    "{:X} {attribute:X} {offset} {data:X}",
                    setting.tdr
                );
            }
        }
    }
}

#[test]
fn with_no_comparator_set_data_is_left_out() {
    for (attribute, offset, _) in COUNTING {
        for inverted in [0, DI] {
            assert!(data_holds(0, inverted, access(attribute, offset, 0)), "{attribute:X} {offset}");
        }
    }
}

#[test]
fn dbmr_brings_no_comparator_back() {
    for (attribute, offset, counting) in COUNTING {
        for (comparator, lanes) in COMPARATORS {
            let counts = counting.contains(&comparator);
            for (inverted, all_masked_agree) in [(0, true), (DI, false)] {
                for dbmr in [lanes, !0] {
                    let setting = Setting { tdr: EBL | EAR | comparator | inverted, dbr: DBR, dbmr };
                    let holds = fires(setting, access(attribute, offset, !DBR));
                    assert_eq!(holds, counts && all_masked_agree, "{attribute:X} {offset} {comparator:X} {inverted:X}");
                }
            }
        }
    }
    // A byte at 1 and all but its lane masked: EDUM is judged by that lane, EDWU and EDLW drop out all the same.
    for (comparator, holds) in [(EDUM, true), (EDWU, false), (EDLW, false)] {
        let setting = Setting { tdr: EBL | EAR | comparator, dbr: DBR, dbmr: 0xFF00_FFFF };
        assert_eq!(fires(setting, access(BYTE, 1, 0x0022_0000)), holds, "{comparator:X}");
    }
}

/// EDLW and EDWL with a byte at 0: all drop out. T of its own level, whether the PC agrees, and whether it fires.
const ALL_DROPPED: [(bool, bool, bool); 4] =
    [(false, false, false), (false, true, false), (true, false, false), (true, true, true)];

#[test]
fn if_all_drop_out_the_data_condition_fails_at_both_levels() {
    for (t, pc_agrees, fired) in ALL_DROPPED {
        for inverted in [0, DI] {
            let level = EBL | EPC | EAR | EDLW | EDWL | inverted;
            let dropped = access(BYTE, 0, DBR);
            let first = Setting { tdr: level | if t { T_1 } else { 0 }, dbr: DBR, dbmr: 0 };
            assert_eq!(level_fired(&mut running(first), pc_agrees, dropped), u8::from(fired), "level 1, T {t}");
            let second = Setting { tdr: level << 16 | EBL | EPC | if t { T_2 } else { 0 }, dbr: DBR, dbmr: 0 };
            let mut board = running(second);
            assert_eq!(level_fired(&mut board, true, None), 1);
            assert_eq!(level_fired(&mut board, pc_agrees, dropped), 2 * u8::from(fired), "level 2, T {t}");
        }
    }
    // No PC group: the address group alone, and it fails.
    for t in [0, T_1] {
        let setting = Setting { tdr: EBL | EAR | EDLW | t, dbr: DBR, dbmr: 0 };
        assert!(!fires(setting, access(BYTE, 0, DBR)));
    }
}
