//! The page of a trace and the listing that starts in the middle (02, [2]; desk-language.md, [2]).

mod common;
use common::{cycles, trace};
use second::desk::{output_of, output_with};
use second::page::{index_length, list_from, make_page, Entry, Page, Rate, STARTS};
use second::random::{marked_trace, random_trace, Rng};
use second::refusal::{Ground, Refusal};
use second::trace::{count_items, list_trace};

const P9: &str = "10 50 90 04 03 02 11 F0 F0";

/// The page that is printed for a trace.
fn printed(text: &str) -> String {
    String::from_utf8(output_of("page", &trace(text)).unwrap()).unwrap()
}

/// The lines of the printed page that begin with a word.
fn lines(text: &str, word: &str) -> Vec<String> {
    printed(text).lines().filter(|line| line.starts_with(word)).map(str::to_string).collect()
}

fn page_of(trace: &[u8]) -> Result<(Page, Vec<Entry>), Refusal> {
    let mut index = vec![Entry::default(); index_length(trace)];
    make_page(trace, &mut index).map(|page| (page, index))
}

fn listing_of(trace: &[u8]) -> Vec<u32> {
    let mut words = vec![0; 2 * count_items(trace).unwrap()];
    list_trace(trace, &mut words).unwrap();
    words
}

#[test]
fn p9() {
    let page = "page cycles=9 items=5 starts=3
rate 3.00 bits 4008000000000000
code 1 count 2 first 0 last 6
code 5 count 1 first 1 last 1
code 9 count 1 first 6 last 6
code 15 count 1 first 7 last 7
index 0 items 0 transfer none run none
";
    assert_eq!(printed(P9), page);
}

#[test]
fn nothing_started_and_nothing_at_all() {
    assert_eq!(printed(""), "page cycles=0 items=0 starts=0\nrate none\n");
    assert_eq!(lines("30 80 01 02 C0 D0 E0 F0", "rate"), ["rate none"]);
    assert_eq!(page_of(&cycles("30")).unwrap().0.rate, Rate::None);
}

#[test]
fn starts_are_codes_1_4_5_7() {
    for pst in [0, 1, 3, 4, 5, 7, 12, 13, 14, 15] {
        let page = page_of(&[pst << 4]).unwrap().0;
        assert_eq!(page.starts, u32::from([1, 4, 5, 7].contains(&pst)), "{pst}");
    }
}

/// Cycles, starts, and the line: the bits of the double nearest to the quotient, worked out apart.
#[test]
fn rates_of_known_quotients() {
    for (count, starts, line) in [
        (1, 1, "rate 1.00 bits 3FF0000000000000"),
        (3, 2, "rate 1.50 bits 3FF8000000000000"),
        (4, 3, "rate 1.33 bits 3FF5555555555555"),
        (5, 3, "rate 1.67 bits 3FFAAAAAAAAAAAAB"),
        (11, 10, "rate 1.10 bits 3FF199999999999A"),
        (17, 8, "rate 2.13 bits 4001000000000000"),
        (16, 7, "rate 2.29 bits 4002492492492492"),
        (22, 7, "rate 3.14 bits 4009249249249249"),
        (201, 200, "rate 1.01 bits 3FF0147AE147AE14"),
        (1000, 3, "rate 333.33 bits 4074D55555555555"),
        (65_536, 1, "rate 65536.00 bits 40F0000000000000"),
        (65_536, 3, "rate 21845.33 bits 40D5555555555555"),
        (65_536, 65_535, "rate 1.00 bits 3FF0001000100010"),
        (65_536, 65_536, "rate 1.00 bits 3FF0000000000000"),
    ] {
        let idle = count - starts;
        assert_eq!(lines(&format!("10*{starts} 00*{idle}"), "rate"), [line], "{count}/{starts}");
    }
}

#[test]
fn refusals_are_the_readers_own_then_the_index() {
    for (text, refusal) in [
        ("20*65537", "refused 7 at 0\n"),
        ("10 20", "refused 8 at 1\n"),
        ("00*300 60 80 80", "refused 8 at 300\n"),
        ("00*300 80 80 60", "refused 9 at 301\n"),
        ("00*300 80 00", "refused 10 at 0\n"),
    ] {
        assert_eq!(printed(text), refusal);
        assert_eq!(make_page(&trace(text), &mut []).unwrap_err().to_string() + "\n", refusal, "before 11");
        assert_eq!(output_with("trace_list", &["0"], &trace(text)).unwrap(), refusal.as_bytes());
    }
    assert_eq!(make_page(&[0; 257], &mut [Entry::default()]), Err(Ground::BufferTooShort.into()));
    assert_eq!(make_page(&[0], &mut []), Err(Ground::BufferTooShort.into()));
    assert!(make_page(&[], &mut []).is_ok());
}

#[test]
fn a_refusal_leaves_the_index_and_entries_beyond_the_last_stay() {
    let before = page_of(&trace("F0*513")).unwrap().1;
    for text in ["00*257", "00*257 20", "00*257 80 80", "00*257 80"] {
        let mut index = before[1..2].to_vec();
        assert!(make_page(&trace(text), &mut index).is_err());
        assert_eq!(index, before[1..2]);
    }
    let mut index = before.clone();
    make_page(&trace("10*257"), &mut index).unwrap();
    assert_eq!((index[1].items, index[1].run(), index[2]), (256, None, before[2]));
}

/// Random traces that are not refused, half of them with something going on at each cycle of the index.
fn readable_traces(seed: u64, count: usize) -> impl Iterator<Item = Vec<u8>> {
    let mut rng = Rng::new(seed);
    let mut traces = [random_trace, marked_trace].into_iter().cycle();
    std::iter::repeat_with(move || traces.next().unwrap()(&mut rng))
        .filter(|trace| count_items(trace).is_ok())
        .take(count)
}

/// The transfer carried into a cycle, from the last marker before it: its code and the nibbles due.
fn transfer_into(cycle: usize, trace: &[u8]) -> Option<(u8, u32)> {
    let marker = trace[..cycle].iter().rposition(|byte| (0x8..=0xB).contains(&(byte >> 4)))?;
    let code = trace[marker] >> 4;
    let last_nibble = marker + 2 * (usize::from(code) - 7);
    (cycle <= last_nibble).then(|| (code, (last_nibble - cycle + 1) as u32))
}

/// The run carried into a cycle: the last PST before it that is no marker, if that is of a run.
fn run_into(cycle: usize, trace: &[u8]) -> Option<u8> {
    let psts = trace[..cycle].iter().map(|byte| byte >> 4);
    psts.rev().find(|pst| !(0x8..=0xB).contains(pst)).filter(|&pst| pst >= 0xC)
}

#[test]
fn entries_hold_what_the_cycles_before_them_hand_over() {
    let (mut transfers, mut runs, mut both) = (0, 0, 0);
    for trace in readable_traces(3, 1000) {
        let (_, index) = page_of(&trace).unwrap();
        let words = listing_of(&trace);
        assert_eq!(index.len(), (0..trace.len()).step_by(256).count());
        for (entry, cycle) in index.iter().zip((0..trace.len()).step_by(256)) {
            assert_eq!(entry.cycle as usize, cycle);
            assert_eq!(entry.items as usize, words.chunks(2).filter(|item| (item[0] / 16) < cycle as u32).count());
            assert_eq!(entry.transfer(), transfer_into(cycle, &trace));
            assert_eq!(entry.run(), run_into(cycle, &trace));
            transfers += usize::from(entry.transfer().is_some());
            runs += usize::from(entry.run().is_some());
            both += usize::from(entry.transfer().is_some() && entry.run().is_some());
        }
    }
    assert!(transfers > 500 && runs > 500 && both > 300, "{transfers}, {runs}, {both}");
}

#[test]
fn counts_are_those_of_the_listing() {
    for trace in readable_traces(1, 500) {
        let (page, _) = page_of(&trace).unwrap();
        let words = listing_of(&trace);
        assert_eq!(page.cycles as usize, trace.len());
        assert_eq!(page.items as usize, words.len() / 2);
        assert_eq!(page.codes.iter().map(|tally| tally.count).sum::<u32>(), page.items);
        assert_eq!(STARTS.iter().map(|&code| page.codes[code].count).sum::<u32>(), page.starts);
        for code in 0..16u32 {
            let cycles: Vec<u32> = words.chunks(2).map(|item| item[0]).filter(|head| head % 16 == code).collect();
            let tally = page.codes[code as usize];
            assert_eq!(tally.count as usize, cycles.len());
            assert_eq!(tally.first, cycles.first().map_or(0, |head| head / 16));
            assert_eq!(tally.last, cycles.last().map_or(0, |head| head / 16));
        }
    }
}

#[test]
fn a_listing_from_an_entry_is_the_rest_of_the_full_one() {
    for trace in readable_traces(2, 500) {
        let (page, index) = page_of(&trace).unwrap();
        let words = listing_of(&trace);
        for entry in &index {
            let items = (page.items - entry.items) as usize;
            let mut rest = vec![7; 2 * items + 1];
            assert_eq!(list_from(&trace, entry, &mut rest), Ok(items));
            assert_eq!(rest[..2 * items], words[2 * entry.items as usize..]);
            assert_eq!(rest[2 * items], 7);
            assert!(words.chunks(2).filter(|item| item[0] / 16 >= entry.cycle).count() == items);
        }
    }
}

#[test]
fn a_listing_from_an_entry_needs_its_words() {
    let cycles = trace("10*257");
    let index = page_of(&cycles).unwrap().1;
    let mut words = [7; 2];
    assert_eq!(list_from(&cycles, &index[1], &mut words[..1]), Err(Ground::BufferTooShort.into()));
    assert_eq!(words, [7; 2]);
    assert_eq!(list_from(&cycles, &index[1], &mut words), Ok(1));
    assert_eq!(words, [256 * 16 + 1, 0]);
}

fn from(argument: &str, text: &str) -> String {
    String::from_utf8(output_with("trace_list", &[argument], &trace(text)).unwrap()).unwrap()
}

#[test]
fn from_is_judged_before_the_trace_and_against_its_cycles_after_it() {
    for argument in [
        "", " ", "x", "256x", "x256", " 256", "256 ", "+256", "-256", "-0", "0x100", "2_56", "25.6", "1", "255", "257",
        "4294967295", "4294967296", "4294967552", "99999999999999999999", "--all",
    ] {
        for text in ["", "10*600", "20", "00*65537"] {
            assert_eq!(from(argument, text), "unclear\n", "{argument}");
        }
    }
    assert_eq!(output_with("trace_list", &["0", "0"], &[0x10]).unwrap(), b"unclear\n");
    assert_eq!(output_with("trace_list", &["256", ""], &[0x20]).unwrap(), b"unclear\n");
    for argument in ["0", "256", "65536", "4294967040"] {
        assert_eq!(from(argument, "00 20"), "refused 8 at 1\n");
        assert_eq!(from(argument, ""), "unclear\n");
        assert_eq!(from(argument, "00*65537"), "refused 7 at 0\n");
    }
    assert_eq!(from("256", "10*256"), "unclear\n");
    assert_eq!(from("256", "10*257"), "trace cycles=257 items=1\n256 1 0\n");
    assert_eq!(from("000000000000256", "10*257"), "trace cycles=257 items=1\n256 1 0\n");
    assert_eq!(from("00", "10"), "trace cycles=1 items=1\n0 1 0\n");
    assert_eq!(from("65280", "10*65535 F0"), from("65280", "00*65280 10*255 F0"));
    assert_eq!(from("65536", "10*65536"), "unclear\n");
}
