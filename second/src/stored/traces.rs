//! Recorded traces: P9, each ground, runs, transfers, and the longest ones.

use super::Stored;
use crate::cycles::parse_cycles;
use crate::random::{random_trace, Rng};

fn stored(name: &str, cycles: &str) -> Stored {
    Stored::new("trace_list", name, parse_cycles(cycles).expect("cycles in hexadecimal"))
}

#[rustfmt::skip]
const SMALL: [(&str, &str); 51] = [
    ("p9", "10 50 90 04 03 02 11 F0 F0"),
    ("empty", ""),
    ("one_cycle", "10"),
    ("continue_only", "00 01 0F"),
    ("each_instruction", "10 30 40 50 70 00 1F 3F 4F 5F 7F"),
    ("each_run", "C0 D0 E0 F0 00 C0 C0 00 D0 D0 00 E0 E0 00 F0 F0"),
    ("byte", "80 0A 0B"),
    ("word", "90 01 02 03 04"),
    ("three_bytes", "A0 01 02 03 04 05 06"),
    ("longword", "B0 01 02 03 04 05 06 07 08"),
    ("longword_all_ones", "B0 0F 0F 0F 0F 0F 0F 0F 0F"),
    ("longword_zero", "BF 00 00 00 00 00 00 00 00"),
    ("pst_goes_on", "B0 11 32 43 54 75 C6 C7 08"),
    ("value_before_own_item", "80 11 52"),
    ("value_before_run", "80 01 C2 C3"),
    ("value_and_run_goes_on", "C0 80 C1 C2 C3"),
    ("marker_on_last_nibble", "80 01 82 03 04"),
    ("markers_on_last_nibbles", "80 01 92 03 04 05 A6 07 08 09 0A 0B BC 01 02 03 04 05 06 07 08"),
    ("marker_one_cycle_early", "80 81 02 03"),
    ("marker_one_cycle_early_word", "90 01 02 83 04 05 06"),
    ("marker_one_cycle_early_three", "A0 01 02 03 04 85 06 07"),
    ("marker_one_cycle_early_longword", "B0 01 02 03 04 05 06 87 08 09"),
    ("marker_right_after_marker", "B0 B1 02 03 04 05 06 07 08"),
    ("marker_after_transfer", "80 01 02 83 04 05"),
    ("marker_in_last_cycle", "10 80"),
    ("marker_in_last_cycle_on_nibble", "80 01 82"),
    ("ends_one_nibble_early", "80 01"),
    ("ends_one_nibble_early_word", "90 01 02 03"),
    ("ends_one_nibble_early_longword", "B0 01 02 03 04 05 06 07"),
    ("reserved_2", "10 20 10"),
    ("reserved_6", "10 10 6F"),
    ("reserved_first", "2F"),
    ("reserved_inside_transfer", "B0 01 02 63 04 05 06 07 08"),
    ("reserved_on_last_nibble", "80 01 22"),
    ("reserved_before_early_marker", "10 60 80 80 00"),
    ("early_marker_before_reserved", "10 80 80 60 00"),
    ("reserved_then_ends_in_transfer", "60 80"),
    ("early_marker_then_ends_in_transfer", "80 80"),
    ("ends_in_transfer_after_many_items", "10 10 10 10 90 11 11 11"),
    ("run_c_then_d", "C0 C0 D0 D0"),
    ("run_c_d_c", "C0 D0 C0"),
    ("run_c_8_c", "C0 80 C1 C2"),
    ("run_c_0_c", "C0 00 C0"),
    ("run_c_1_c", "C0 10 C0"),
    ("run_c_8_d", "C0 80 D1 D2"),
    ("run_c_8_c_8_c", "C0 80 C1 82 C3 C4 C5"),
    ("run_c_8_0_c", "C0 80 01 C2"),
    ("run_over_two_markers", "F0 90 F1 F2 F3 B4 F5 F6 F7 F8 F9 FA FB FC"),
    ("run_begun_inside_transfer", "80 E1 E2 E3 00 E4"),
    ("marker_never_begins_a_run", "80 01 02 C0"),
    ("exception", "10 C0 B0 C1 C2 C3 C4 C5 C6 C7 B8 C1 C2 C3 C4 C5 C6 C7 C8 50 90 04 03 02 11 10"),
];

pub fn all() -> Vec<Stored> {
    let mut traces: Vec<Stored> = SMALL.iter().map(|(name, cycles)| stored(name, cycles)).collect();
    for pst in 0..16u8 {
        let cycles: Vec<u8> = (0..16).map(|ddata| pst << 4 | ddata).collect();
        traces.push(Stored::new("trace_list", format!("pst_{pst:X}"), cycles));
    }
    traces.push(Stored::new("trace_list", "every_byte_once", (0..=255).collect()));
    traces.extend(long());
    let mut rng = Rng::new(5307);
    let mut kept = 0;
    while kept < 60 {
        let trace = random_trace(&mut rng);
        if trace.len() < 2000 {
            traces.push(Stored::new("trace_list", format!("mixed_{kept:02}"), trace));
            kept += 1;
        }
    }
    traces
}

/// Traces about the longest: mostly idle cycles, so that they stay small when packed.
fn long() -> Vec<Stored> {
    const LONGEST: usize = 65_536;
    let idle = vec![0u8; LONGEST];
    let with = |changes: &[(usize, u8)]| {
        let mut trace = idle.clone();
        for &(cycle, byte) in changes {
            trace[cycle] = byte;
        }
        trace
    };
    let last = LONGEST - 1;
    let mut longer_reserved = vec![0x20u8; LONGEST + 1];
    longer_reserved[0] = 0x80;
    vec![
        Stored::new("trace_list", "cycles_65536", idle.clone()),
        Stored::new("trace_list", "cycles_65537", vec![0; LONGEST + 1]),
        Stored::new("trace_list", "cycles_65537_reserved", longer_reserved),
        Stored::new("trace_list", "cycles_65536_last_item", with(&[(0, 0x10), (last, 0xF0)])),
        Stored::new("trace_list", "cycles_65536_last_value", with(&[(last - 8, 0xB0), (last, 0x1F)])),
        Stored::new("trace_list", "cycles_65536_last_marker", with(&[(last, 0x80)])),
        Stored::new("trace_list", "cycles_65536_last_reserved", with(&[(last - 1, 0x80), (last, 0x60)])),
        Stored::new("trace_list", "cycles_65536_one_run", vec![0xE0; LONGEST]),
        Stored::new("trace_list", "cycles_65536_all_items", vec![0x10; LONGEST]),
    ]
}
