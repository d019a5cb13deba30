//! Traces with dropouts (02, [5]; docs/mend.md): what `mend` makes of a trace.

mod common;
use common::trace;
use second::desk;
use second::mend::{mend, unmend};
use second::random::{damaged_trace, random_trace, Rng};
use second::trace::{count_items, TRACE_LIMIT};
use std::collections::BTreeMap;
use std::io;

/// The mended trace, and the changed cycles with the PSTs that they had.
type Mended = (Vec<u8>, Vec<(u32, u32)>);

fn mended(recorded: &[u8]) -> Mended {
    let mut mended = vec![0xEE; recorded.len()];
    let mut list = vec![0xEEEE_EEEE; recorded.len()];
    let changed = mend(recorded, &mut mended, &mut list).unwrap();
    (mended, list[..changed].iter().map(|word| (word / 16, word % 16)).collect())
}

fn is_marker(byte: u8) -> bool {
    (0x80..0xC0).contains(&byte)
}

/// Read; where the reader refuses a cycle its PST becomes 0; where it finds the end inside a transfer the last marker does;
/// then once more.
fn read_and_wipe(recorded: &[u8]) -> Mended {
    let mut mended = recorded.to_vec();
    let mut changes = BTreeMap::new();
    while let Err(refusal) = count_items(&mended) {
        let cycle = match refusal.number() {
            8 | 9 => refusal.cycle as usize,
            10 => mended.iter().rposition(|&byte| is_marker(byte)).unwrap(),
            number => panic!("{number}"),
        };
        changes.insert(cycle as u32, u32::from(mended[cycle] >> 4));
        mended[cycle] &= 0xF;
    }
    (mended, changes.into_iter().collect())
}

/// By distances alone: a marker stands if each one before it that stands is at least as far as its nibbles are many.
fn by_distances(recorded: &[u8]) -> Mended {
    let nibbles = |cycle: usize| 2 * (usize::from(recorded[cycle] >> 4) - 7);
    let mut standing: Vec<usize> = Vec::new();
    for cycle in (0..recorded.len()).filter(|&cycle| is_marker(recorded[cycle])) {
        if standing.iter().all(|&before| before + nibbles(before) <= cycle) {
            standing.push(cycle);
        }
    }
    standing.retain(|&cycle| cycle + nibbles(cycle) < recorded.len());
    let kept = |cycle: usize, byte: u8| match byte >> 4 {
        0x2 | 0x6 => false,
        0x8..=0xB => standing.contains(&cycle),
        _ => true,
    };
    let mut mended = recorded.to_vec();
    let mut changes = Vec::new();
    for (cycle, byte) in mended.iter_mut().enumerate() {
        if !kept(cycle, *byte) {
            changes.push((cycle as u32, u32::from(*byte >> 4)));
            *byte &= 0xF;
        }
    }
    (mended, changes)
}

/// What [5] says of every trace.
fn check(recorded: &[u8]) {
    let (trace, changes) = mended(recorded);
    assert!(count_items(&trace).is_ok(), "the mended trace is always readable: {recorded:02X?}");
    assert_eq!(count_items(recorded).is_ok(), changes.is_empty(), "{recorded:02X?}");
    assert!(changes.is_sorted_by(|(one, _), (next, _)| one < next), "in cycle order: {recorded:02X?}");
    let mut back = trace.clone();
    for &(cycle, pst) in &changes {
        assert!(back[cycle as usize] < 0x10 && pst > 0, "becomes PST 0: {recorded:02X?}");
        back[cycle as usize] |= (pst as u8) << 4;
    }
    // Only listed PSTs differ, so every other byte and all DDATA are the same, and a readable trace comes back equal.
    assert_eq!(back, recorded, "putting the listed PSTs back");
    let words: Vec<u32> = changes.iter().map(|(cycle, pst)| cycle * 16 + pst).collect();
    assert_eq!(unmend(&trace, &words).as_deref(), Some(recorded));
    assert_eq!(mended(&trace), (trace, Vec::new()), "mended twice: {recorded:02X?}");
}

/// Every trace of up to so many cycles of these PSTs, with nibbles that differ.
fn each_trace(psts: &[u8], longest: u32, mut visit: impl FnMut(&[u8])) {
    for length in 0..=longest {
        for number in 0..psts.len().pow(length) {
            let mut rest = number;
            let trace: Vec<u8> = (0..length as u8)
                .map(|cycle| {
                    let pst = psts[rest % psts.len()];
                    rest /= psts.len();
                    pst << 4 | (cycle * 7 + 3) & 0xF
                })
                .collect();
            visit(&trace);
        }
    }
}

#[test]
fn every_short_trace() {
    for (psts, longest) in [
        (&[0x0, 0x1, 0x2, 0x6, 0x8, 0x9, 0xA, 0xB, 0xC][..], 5),
        (&[0x0, 0x2, 0x8, 0x9], 8),
        (&[0x0, 0x8, 0xB], 11),
        (&[0x0, 0x1, 0x2, 0x3, 0x4, 0x5, 0x6, 0x7, 0x8, 0x9, 0xA, 0xB, 0xC, 0xD, 0xE, 0xF], 3),
    ] {
        each_trace(psts, longest, |recorded| {
            check(recorded);
            assert_eq!(mended(recorded), read_and_wipe(recorded), "{recorded:02X?}");
            assert_eq!(mended(recorded), by_distances(recorded), "{recorded:02X?}");
        });
    }
}

#[test]
fn every_byte_in_every_transfer_and_behind_it() {
    for marker in 0x8..=0xBu8 {
        for place in 1..=10 {
            for byte in 0..=255 {
                let mut recorded = vec![0x0F; 20];
                recorded[0] = marker << 4;
                recorded[place] = byte;
                check(&recorded);
                assert_eq!(mended(&recorded), by_distances(&recorded), "{recorded:02X?}");
            }
        }
    }
}

#[test]
fn long_traces() {
    let mut rng = Rng::new(1);
    for _ in 0..2000 {
        for recorded in [damaged_trace(&mut rng), random_trace(&mut rng)] {
            if recorded.len() > TRACE_LIMIT {
                continue;
            }
            check(&recorded);
            if recorded.len() < 1000 {
                assert_eq!(mended(&recorded), read_and_wipe(&recorded), "{recorded:02X?}");
                assert_eq!(mended(&recorded), by_distances(&recorded), "{recorded:02X?}");
            }
        }
    }
}

#[test]
fn what_becomes_of_a_trace() {
    for (what, recorded, expected, changes) in [
        ("P9", "10 50 90 04 03 02 11 F0 F0", "10 50 90 04 03 02 11 F0 F0", &[][..]),
        ("no cycles", "", "", &[]),
        ("a reserved PST becomes 0", "2A 10 6B", "0A 10 0B", &[(0, 2), (2, 6)]),
        ("its nibble is one of the transfer", "80 61 92 03 04 05 06", "80 01 92 03 04 05 06", &[(1, 6)]),
        ("a marker with two nibbles due becomes PST 0", "80 B1 02", "80 01 02", &[(1, 11)]),
        ("and with more", "B0 81 02 03 04 05 06 07 08", "B0 01 02 03 04 05 06 07 08", &[(1, 8)]),
        ("with one it may stand", "80 01 82 03 04", "80 01 82 03 04", &[]),
        ("judged over what has been mended so far", "80 91 82 03 04", "80 01 82 03 04", &[(1, 9)]),
        ("the end inside a transfer", "10 90 01 02 03", "10 00 01 02 03", &[(1, 9)]),
        ("a marker in the last cycle", "10 8F", "10 0F", &[(1, 8)]),
        ("on a last nibble", "80 01 92 03", "80 01 02 03", &[(2, 9)]),
        ("what was wiped stays wiped", "B0 81 02 03", "00 01 02 03", &[(0, 11), (1, 8)]),
        ("all rules, in cycle order", "20 9F 8E 6D", "00 0F 0E 0D", &[(0, 2), (1, 9), (2, 8), (3, 6)]),
    ] {
        assert_eq!(mended(&trace(recorded)), (trace(expected), changes.to_vec()), "{what}");
    }
}

#[test]
fn a_run_ends_where_a_pst_becomes_0() {
    let listed = |recorded: &str| common::items(&mended(&trace(recorded)).0);
    assert_eq!(listed("C0 80 C1 C2"), Ok(vec![(0, 12, 0), (3, 8, 0x21)]));
    assert_eq!(listed("C0 90 C1 82 C3 C4"), Ok(vec![(0, 12, 0), (4, 12, 0), (5, 9, 0x4321),]));
    assert_eq!(listed("C0 90 C1"), Ok(vec![(0, 12, 0), (2, 12, 0)]));
}

#[test]
fn refusals_7_then_11_and_11_leave_both_buffers() {
    let changed_twice = trace("20 10 20");
    let too_long = vec![0x20; TRACE_LIMIT + 1];
    for (recorded, bytes, words, number) in [
        (&too_long, 0, 0, 7),
        (&too_long, TRACE_LIMIT + 1, TRACE_LIMIT + 1, 7),
        (&changed_twice, 0, 0, 11),
        (&changed_twice, 2, 0, 11),
        (&changed_twice, 2, 3, 11),
        (&changed_twice, 3, 0, 11),
        (&changed_twice, 3, 1, 11),
        (&changed_twice, 9, 1, 11),
    ] {
        let mut mended = vec![0xEE; bytes];
        let mut list = vec![0xEEEE_EEEE; words];
        let refusal = mend(recorded, &mut mended, &mut list).unwrap_err();
        assert_eq!((refusal.number(), refusal.cycle), (number, 0));
        assert!(mended.iter().all(|&byte| byte == 0xEE) && list.iter().all(|&word| word == 0xEEEE_EEEE));
    }
}

#[test]
fn exact_room_is_enough_and_what_lies_beyond_stays() {
    let recorded = trace("20 10 6F 80");
    for (bytes, words) in [(4, 3), (5, 3), (4, 4), (6, 7)] {
        let mut mended = vec![0xEE; bytes];
        let mut list = vec![0xEEEE_EEEE; words];
        assert_eq!(mend(&recorded, &mut mended, &mut list), Ok(3));
        assert_eq!((&mended[..4], &list[..3]), (&trace("00 10 0F 00")[..], &[0x02, 0x26, 0x38][..]));
        assert!(mended[4..].iter().all(|&byte| byte == 0xEE) && list[3..].iter().all(|&word| word == 0xEEEE_EEEE));
    }
    assert_eq!(mend(&[], &mut [], &mut []), Ok(0));
    assert_eq!(mend(&trace("10 10"), &mut [0; 2], &mut []), Ok(0), "no changes need no list");
}

#[test]
fn the_longest_trace() {
    let mut recorded = vec![0x2F; TRACE_LIMIT];
    check(&recorded);
    assert_eq!(mended(&recorded).1.len(), TRACE_LIMIT);
    recorded.fill(0);
    recorded[TRACE_LIMIT - 1] = 0xB0;
    assert_eq!(mended(&recorded), (vec![0; TRACE_LIMIT], vec![(65_535, 11)]));
}

/// What `mend` prints on standard error, and what it writes to standard output.
fn printed(mut recorded: impl io::Read) -> (String, Vec<u8>) {
    let (mut output, mut list) = (Vec::new(), Vec::new());
    desk::mend(&mut recorded, &mut output, &mut list).unwrap();
    (String::from_utf8(list).unwrap(), output)
}

#[test]
fn the_list_is_printed_in_decimal_and_the_trace_is_written_raw() {
    let (list, output) = printed(&trace("10 2A 30 40 8B 10")[..]);
    assert_eq!(list, "mended cycles=6 changed=2\n1 2\n4 8\n");
    assert_eq!(output, trace("10 0A 30 40 0B 10"));
    assert_eq!(printed(&[][..]), ("mended cycles=0 changed=0\n".to_string(), vec![]));
    let (list, _) = printed(&[&[0x10; 20][..], &trace("80 A0 00 90 B0 00")].concat()[..]);
    assert_eq!(list, "mended cycles=26 changed=3\n21 10\n23 9\n24 11\n");
}

#[test]
fn too_many_cycles_are_refused_and_not_read_to_their_end() {
    assert_eq!(printed(io::repeat(0x20)), ("refused 7 at 0\n".to_string(), vec![]));
    let (list, output) = printed(&vec![0; TRACE_LIMIT][..]);
    assert_eq!((list.as_str(), output.len()), ("mended cycles=65536 changed=0\n", TRACE_LIMIT));
}

#[test]
fn no_list_is_longer_than_the_most_that_is_said() {
    for byte in [0x20, 0x80, 0xA0, 0xB0] {
        let (list, _) = printed(&vec![byte; TRACE_LIMIT][..]);
        assert!(list.len() <= 578_748, "{byte:02X}: {}", list.len());
    }
}
