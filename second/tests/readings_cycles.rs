//! The readings of the open points: recorded cycles.

mod common;
use common::{cycles, items, Listing};
use second::trace::list_trace;

fn listed(text: &str) -> Listing {
    items(&cycles(text))
}

#[test]
fn each_pst() {
    for pst in 0..16u8 {
        let expected = match pst {
            2 | 6 => Err((8, 0)),
            8..=11 => Err((10, 0)),
            0 => Ok(vec![]),
            _ => Ok(vec![(0, u32::from(pst), 0)]),
        };
        for ddata in 0..16 {
            assert_eq!(items(&[pst << 4 | ddata]), expected);
        }
    }
}

#[test]
fn a_run_is_of_one_code() {
    assert_eq!(listed("C0 C0 D0"), Ok(vec![(0, 12, 0), (2, 13, 0)]));
    assert_eq!(listed("C0 80 C1 C2"), Ok(vec![(0, 12, 0), (3, 8, 0x21)]));
    assert_eq!(listed("C0 00 C0"), Ok(vec![(0, 12, 0), (2, 12, 0)]));
    assert_eq!(listed("C0 D0 C0"), Ok(vec![(0, 12, 0), (1, 13, 0), (2, 12, 0)]));
    assert_eq!(listed("C0 10 C0"), Ok(vec![(0, 12, 0), (1, 1, 0), (2, 12, 0)]));
    assert_eq!(listed("80 C0 C0 80 C0 00"), Ok(vec![(1, 12, 0), (2, 8, 0), (5, 8, 0)]));
    assert_eq!(listed("C0 80 D0 C0"), Ok(vec![(0, 12, 0), (2, 13, 0), (3, 8, 0), (3, 12, 0)]));
}

#[test]
fn nibbles_least_significant_first() {
    assert_eq!(listed("80 01 02"), Ok(vec![(2, 8, 0x21)]));
    assert_eq!(listed("90 01 02 03 04"), Ok(vec![(4, 9, 0x4321)]));
    assert_eq!(listed("A0 01 02 03 04 05 06"), Ok(vec![(6, 10, 0x65_4321)]));
    assert_eq!(listed("B0 01 02 03 04 05 06 07 08"), Ok(vec![(8, 11, 0x8765_4321)]));
}

#[test]
fn markers_and_transfers() {
    assert_eq!(listed("80 01 82 03 04"), Ok(vec![(2, 8, 0x21), (4, 8, 0x43)]), "on the last nibble's cycle");
    assert_eq!(listed("80 81 02"), Err((9, 1)), "one cycle earlier");
    assert_eq!(listed("80 01 82"), Err((10, 0)), "in the last cycle");
    assert_eq!(listed("B0 00 00 00 00 00 00 80"), Err((9, 7)));
    assert_eq!(listed("B0 00 00 00 00 00 00 00 80"), Err((10, 0)));
}

#[test]
fn eight_and_nine_come_before_ten_and_the_earliest_decides() {
    assert_eq!(listed("80 20"), Err((8, 1)));
    assert_eq!(listed("10 60 80 80"), Err((8, 1)));
    assert_eq!(listed("80 80 60"), Err((9, 1)));
    assert_eq!(listed("80 00"), Err((10, 0)));
}

#[test]
fn a_value_comes_before_its_cycles_own_item() {
    assert_eq!(listed("80 10 51"), Ok(vec![(1, 1, 0), (2, 8, 0x10), (2, 5, 0)]));
}

#[test]
fn no_items_need_no_buffer_and_two_words_are_one_item() {
    assert_eq!(list_trace(&cycles("00 00"), &mut []), Ok(0));
    assert_eq!(list_trace(&cycles("10"), &mut [0]).unwrap_err().number(), 11);
    assert_eq!(list_trace(&cycles("80"), &mut []).unwrap_err().number(), 10);
    let mut words = [9, 9, 9];
    assert_eq!(list_trace(&cycles("10"), &mut words), Ok(1));
    assert_eq!(words, [1, 0, 9]);
}
