//! The visit joined with this program's own board, as it is and through a way that lags, garbles or never gets ready.

use second::board::Board;
use second::command::CONTROL_REGISTERS;
use second::desk::{Bench, Program, StandIn};
use second::line::words;
use second::random::{stand_in_script, Rng};
use second::visit::{End, Item, Noted, Reason, Table, Visit};
use std::collections::BTreeSet;

const MARKER: u32 = 24;
const LATEST: usize = 19;

fn copy(bench: &Bench) -> Bench {
    Bench { board: bench.board.clone(), memory: bench.memory.clone() }
}

fn packet(bench: &mut Bench, packet: u32) -> u32 {
    bench.board.packet(&mut bench.memory, packet).unwrap()
}

/// The state line of a bench.
struct State(String);

impl State {
    fn of(bench: &mut Bench) -> State {
        State(bench.answer_words(&[b"state"]).unwrap())
    }

    fn field(&self, name: &str) -> &str {
        self.0.split(' ').find_map(|field| field.strip_prefix(name)?.strip_prefix('=')).unwrap()
    }

    fn value(&self, name: &str) -> u32 {
        u32::from_str_radix(self.field(name), 16).unwrap()
    }
}

/// Makes a visit; the reply to each packet comes from `port`.
fn visit(table: Table, mut port: impl FnMut(u32) -> Option<u32>) -> Visit {
    let mut visit = Visit::new(table);
    while let Some(packet) = visit.next_packet() {
        visit.take(port(packet));
    }
    visit
}

fn visit_bench(bench: &mut Bench, table: Table) -> Visit {
    visit(table, |word| Some(packet(bench, word)))
}

fn packets_of(visit: &Visit) -> u32 {
    match visit.end() {
        Some(End::Read { packets }) => packets,
        end => panic!("{end:?}"),
    }
}

fn is_read(visit: &Visit) -> bool {
    matches!(visit.end(), Some(End::Read { .. }))
}

/// The longwords asked for, from an address that is a multiple of 4.
#[derive(Clone, Copy, Debug)]
struct Wanted {
    address: u32,
    longwords: u32,
}

impl Wanted {
    fn table(self) -> Table {
        Table::new(self.address, self.longwords).unwrap()
    }

    /// How many of all longwords from the address on are within the memory.
    fn there(self, memory: &[u8]) -> u32 {
        (memory.len() as u32).saturating_sub(self.address) / 4
    }
}

/// The packets of a visit that ends as read. A register is a command word and two results, and illegal a command word and
/// one reply with a marker behind it; RCREG has two operand words and W waits more. A longword is a command word, W waits and
/// two results, or one where there is a bus error; the first of a block has a marker before it and two operand words more.
fn formula(w: u32, halted: bool, wanted: Wanted, memory: &[u8]) -> u32 {
    let there = wanted.there(memory);
    let asked = wanted.longwords.min(there + 1);
    let registers = if halted { 16 * 3 + 10 * (5 + w) } else { 26 * (2 + MARKER) };
    let table = asked.div_ceil(256) * (MARKER + 2) + asked * (3 + w) - u32::from(asked > there);
    MARKER + registers + 3 + table + MARKER
}

/// What a visit must find on a bench once 19 NOPs have brought it to rest: registers by its state, memory by its bytes.
fn truth(state: &State, memory: &[u8], wanted: Wanted) -> Vec<(Item, Noted)> {
    let halted = state.field("halted") == "1";
    let noted = |value| if halted { Noted::Value(value) } else { Noted::Illegal };
    let mut truth = Vec::new();
    for n in 0..16 {
        let name = format!("{}{}", if n < 8 { 'd' } else { 'a' }, n % 8);
        truth.push((Item::Register(n), noted(state.value(&name))));
    }
    let names = ["cacr", "acr0", "acr1", "vbr", "macsr", "mask", "acc", "sr", "pc", "rambar"];
    for (place, name) in names.iter().enumerate() {
        truth.push((Item::Control(place), noted(state.value(name))));
    }
    truth.push((Item::Csr, Noted::Value(state.value("csr"))));
    let there = wanted.there(memory);
    for k in 0..wanted.longwords.min(there) {
        let place = (wanted.address + 4 * k) as usize;
        let bytes = memory[place..place + 4].try_into().unwrap();
        truth.push((Item::Longword(k), Noted::Value(u32::from_be_bytes(bytes))));
    }
    if there < wanted.longwords {
        truth.push((Item::Longword(there), Noted::BusError));
    }
    truth
}

/// The visit ends as read, after so many packets, with what the board holds; and alters nothing that the NOPs have not.
fn check(bench: &Bench, wanted: Wanted) {
    let mut rested = copy(bench);
    for _ in 0..19 {
        packet(&mut rested, 0);
    }
    assert!(rested.board.is_at_rest());
    let mut visited = copy(bench);
    let visit = visit_bench(&mut visited, wanted.table());
    let due = State::of(&mut rested);
    let count = formula(due.value("w"), rested.board.is_halted(), wanted, &rested.memory);
    assert_eq!(visit.end(), Some(End::Read { packets: count }), "{wanted:?} {:?}", bench.board);
    assert_eq!(visit.results(), truth(&due, &rested.memory, wanted), "{wanted:?} {:?}", bench.board);
    assert_eq!(visited.memory, rested.memory);
    let left = State::of(&mut visited);
    for name in ["halted", "tdr", "aatr", "baar", "pbr", "dbr", "d0", "d7", "a0", "a7", "cacr", "rambar", "pc", "sync"]
    {
        assert_eq!(left.field(name), due.field(name), "{name} {:?}", bench.board);
    }
    check_one_access(&bench.memory, &rested.memory);
}

/// What differs between two memories is within one longword.
fn check_one_access(before: &[u8], after: &[u8]) {
    let changed: BTreeSet<usize> =
        before.iter().zip(after).enumerate().filter(|(_, (one, other))| one != other).map(|(at, _)| at / 4).collect();
    assert!(changed.len() <= 1, "{changed:?}");
}

/// A board with W, halted, whose registers and memory hold something of their own everywhere.
fn filled(w: u32, memory: usize, rng: &mut Rng) -> Bench {
    let mut bench = Bench::new();
    bench.board = Board::make(w).unwrap();
    bench.memory = (0..memory).map(|_| rng.word() as u8).collect();
    for n in 0..16 {
        send(&mut bench, &[0x2080 + n, rng.below(0x10000), rng.below(0x10000)]);
    }
    for rc in CONTROL_REGISTERS {
        send(&mut bench, &[0x2880, 0, u32::from(rc), rng.below(0x10000), rng.below(0x10000)]);
    }
    bench
}

/// Words, and NOPs until the port is at rest.
fn send(bench: &mut Bench, words: &[u32]) {
    for &word in words {
        packet(bench, word);
    }
    while !bench.board.is_at_rest() {
        packet(bench, 0);
    }
}

fn go(bench: &mut Bench) {
    send(bench, &[0x0C00]);
}

/// A command of each kind with its operand words.
fn commands() -> Vec<Vec<u32>> {
    let mut commands = vec![
        vec![0x2183],
        vec![0x2085, 0x1234, 0x5678],
        vec![0x0C00],
        vec![0x0000],
        vec![0x0001],
        vec![0x2980, 0, 0x801],
        vec![0x2980, 1, 0x801],
        vec![0x2880, 0, 0xC04, 0xABCD, 0xEF01],
        vec![0x2D80],
        vec![0x2C80, 0x0007, 0xFF70],
        vec![0x2C87, 0x4000, 0x2002],
        vec![0xFFFF],
        vec![0x11980],
        vec![0x1980, 0x10000],
    ];
    for (size, data) in [(0x00, &[0xA5][..]), (0x40, &[0xA5A5]), (0x80, &[0xA5A5, 0x5A5A])] {
        for address in [[0, 5], [0, 0xFFFC], [0x8000, 0]] {
            commands.push([&[0x1900 + size][..], &address].concat());
            commands.push([&[0x1800 + size][..], &address, data].concat());
        }
    }
    commands
}

/// What may stand before a command so that DUMP or FILL follows.
fn chains() -> [(Vec<u32>, Vec<Vec<u32>>); 2] {
    let dumps = [0x00, 0x40, 0x80].map(|size| vec![0x1D00 + size]);
    let fills = vec![vec![0x1C00, 0xA5], vec![0x1C40, 0xA5A5], vec![0x1C80, 0xA5A5, 0x5A5A]];
    [(vec![0x1980, 0, 8], dumps.to_vec()), (vec![0x1880, 0, 8, 1, 2], fills)]
}

const TABLES: [Wanted; 6] = [
    Wanted { address: 0, longwords: 0 },
    Wanted { address: 0, longwords: 3 },
    Wanted { address: 0x28, longwords: 2 },
    Wanted { address: 0x28, longwords: 9 },
    Wanted { address: 0x30, longwords: 1 },
    Wanted { address: 0xFFFF_FFFC, longwords: 1 },
];

#[test]
fn from_every_place_within_every_command_for_every_w() {
    for w in 0..16 {
        let rng = &mut Rng::new(u64::from(w));
        for running in [false, true] {
            let mut bench = filled(w, 0x30, rng);
            if running {
                go(&mut bench);
            }
            let mut begun: Vec<(Bench, Vec<u32>)> = commands().into_iter().map(|words| (copy(&bench), words)).collect();
            for (before, after) in chains() {
                let mut chained = copy(&bench);
                send(&mut chained, &before);
                begun.extend(after.into_iter().map(|words| (copy(&chained), words)));
            }
            for (place, (mut bench, words)) in begun.into_iter().enumerate() {
                let nops = w as usize + 3;
                for (sent, word) in words.into_iter().chain(vec![0; nops]).enumerate() {
                    packet(&mut bench, word);
                    check(&bench, TABLES[(place + sent) % TABLES.len()]);
                }
            }
        }
    }
}

#[test]
fn from_states_that_histories_lead_to_for_every_w() {
    let mut seen = BTreeSet::new();
    for w in 0..16u32 {
        for seed in 0..80 {
            let rng = &mut Rng::new(u64::from(w) << 32 | seed);
            let mut stand_in = StandIn::new();
            for line in stand_in_script(rng, 250) {
                // W stays as it is, and packets are not refused for a memory that is too long.
                match words(&line).first() {
                    Some(first) if first.eq_ignore_ascii_case(b"make") => {
                        stand_in.answer(format!("make {w:X}").as_bytes())
                    }
                    _ => stand_in.answer(&line),
                };
                stand_in.bench.memory.truncate(65_536);
                if rng.once_in(8) {
                    let bench = &mut stand_in.bench;
                    let state = State::of(bench);
                    let phase = state.field("phase").split(':').next().unwrap();
                    seen.insert((w, bench.board.is_halted(), phase.to_string()));
                    check(bench, wanted(rng, bench.memory.len() as u32));
                }
            }
        }
    }
    let phases = ["rest", "operands", "waiting", "low"];
    let all = (0..16).flat_map(|w| [false, true].map(|halted| phases.map(|phase| (w, halted, phase.to_string()))));
    // With W = 0 no command waits.
    let missing: Vec<_> =
        all.flatten().filter(|case| !seen.contains(case) && (case.0 > 0 || case.2 != "waiting")).collect();
    assert!(missing.is_empty(), "{missing:?}");
}

/// A table within memory, at its end, beyond it, or none.
fn wanted(rng: &mut Rng, memory: u32) -> Wanted {
    let address = match rng.below(4) {
        0 => 0,
        1 => memory.saturating_sub(rng.below(24)),
        2 => rng.below(memory + 8),
        _ => rng.word(),
    } & !3;
    let longwords = match rng.below(8) {
        0 => 0,
        1 => rng.below(700),
        _ => rng.below(12),
    };
    let most = ((1 << 32) - u64::from(address)) / 4;
    Wanted { address, longwords: longwords.min(most.min(65_536) as u32) }
}

#[test]
fn tables_about_blocks_and_the_end_of_memory() {
    for w in [0, 1, 15] {
        let rng = &mut Rng::new(5307);
        let mut bench = filled(w, 4 * 600, rng);
        for running in [false, true] {
            if running {
                go(&mut bench);
            }
            for longwords in [1, 2, 255, 256, 257, 258, 511, 512, 513, 599, 600, 601, 602, 65_536] {
                for address in [0, 4, 0x400, 4 * 599, 4 * 600] {
                    check(&bench, Wanted { address, longwords });
                }
            }
            for length in [0, 1, 3, 4, 5, 7, 8, 1023, 1024, 1025, 1027, 1028] {
                let mut shorter = copy(&bench);
                shorter.memory.truncate(length);
                check(&shorter, Wanted { address: 0, longwords: 300 });
            }
        }
    }
}

#[test]
fn the_longest_table() {
    let bench = filled(3, 65_536, &mut Rng::new(1));
    check(&bench, Wanted { address: 0, longwords: 16_384 });
    check(&bench, Wanted { address: 0, longwords: 65_536 });
}

#[test]
fn a_visit_after_a_visit() {
    let mut bench = filled(2, 0x20, &mut Rng::new(9));
    let wanted = Wanted { address: 0x10, longwords: 8 };
    for _ in 0..3 {
        check(&bench, wanted);
        visit_bench(&mut bench, wanted.table());
    }
}

/// A way on which, from packet `from` on, the reply to each packet is that to the packet `by` packets before.
struct Lagging<'a> {
    bench: Bench,
    from: usize,
    by: usize,
    replies: Vec<u32>,
    /// What was under way before the first packet.
    earlier: &'a mut dyn FnMut() -> u32,
}

impl Lagging<'_> {
    fn reply(&mut self, word: u32) -> u32 {
        self.replies.push(packet(&mut self.bench, word));
        let count = self.replies.len();
        if count < self.from {
            return self.replies[count - 1];
        }
        match count.checked_sub(self.by + 1) {
            Some(place) => self.replies[place],
            None => (self.earlier)(),
        }
    }
}

fn lagging(bench: &Bench, wanted: Wanted, from: usize, by: usize, earlier: &mut dyn FnMut() -> u32) -> Visit {
    let mut way = Lagging { bench: copy(bench), from, by, replies: Vec::new(), earlier };
    visit(wanted.table(), |word| Some(way.reply(word)))
}

/// A reply word, mostly one that means something.
fn any_word(rng: &mut Rng) -> u32 {
    match rng.below(3) {
        0 => rng.below(0x20000),
        _ => rng.pick(&[0x0FFFF, 0x1FFFF, 0x10000, 0x10001, 0]),
    }
}

/// Benches to lag: random contents, and all ones, whose results are all "complete"; halted and running, at rest and not.
fn lagged_benches(w: u32) -> Vec<Bench> {
    let rng = &mut Rng::new(u64::from(w));
    let mut benches = Vec::new();
    for ones in [false, true] {
        let mut bench = filled(w, 0x20, rng);
        if ones {
            bench.memory.fill(0xFF);
            for n in 0..16 {
                send(&mut bench, &[0x2080 + n, 0xFFFF, 0xFFFF]);
            }
            for rc in CONTROL_REGISTERS {
                send(&mut bench, &[0x2880, 0, u32::from(rc), 0xFFFF, 0xFFFF]);
            }
        }
        benches.push(copy(&bench));
        for begun in [&[0x1880, 0][..], &[0xFFFF], &[0x2D80], &[0x1980, 0, 0]] {
            let mut half_sent = copy(&bench);
            for &word in begun {
                packet(&mut half_sent, word);
            }
            benches.push(half_sent);
        }
        go(&mut bench);
        benches.push(bench);
    }
    benches
}

#[test]
fn a_lag_from_the_start_never_ends_as_read() {
    for w in 0..16 {
        let rng = &mut Rng::new(5307);
        for bench in lagged_benches(w) {
            for by in 1..=LATEST {
                for _ in 0..4 {
                    let wanted = TABLES[rng.below(TABLES.len() as u32) as usize];
                    let visit = lagging(&bench, wanted, 1, by, &mut || any_word(rng));
                    let Some(End::NotRead { packet, reason: Reason::Late }) = visit.end() else {
                        panic!("W {w}, lag {by}: {:?}", visit.end());
                    };
                    assert!((21..=23).contains(&packet), "W {w}, lag {by}: {packet}");
                }
            }
        }
    }
}

/// Every packet up to the one that carries out the last marker's 1FFFF, the last but one.
fn begins_to_lag(bench: &Bench, wanted: Wanted, lags: &[usize]) {
    let packets = packets_of(&visit_bench(&mut copy(bench), wanted.table())) as usize;
    for from in 1..packets {
        for &by in lags {
            let visit = lagging(bench, wanted, from, by, &mut || 0x0FFFF);
            assert!(!is_read(&visit), "lag {by} from packet {from} of {packets}, {wanted:?} {:?}", bench.board);
            assert_eq!(visit.results(), &[]);
        }
    }
}

#[test]
fn a_lag_that_begins_at_any_packet_and_stays_never_ends_as_read() {
    let lags: Vec<usize> = (1..=LATEST).collect();
    for w in [0, 1, 15] {
        for bench in lagged_benches(w) {
            begins_to_lag(&bench, Wanted { address: 0, longwords: 12 }, &lags);
        }
    }
    for w in 2..15 {
        let benches = lagged_benches(w);
        begins_to_lag(&benches[0], Wanted { address: 8, longwords: 3 }, &lags);
        begins_to_lag(&benches[6], Wanted { address: 8, longwords: 3 }, &lags);
    }
}

#[test]
fn a_lag_that_begins_in_a_later_block_never_ends_as_read() {
    let mut bench = filled(0, 4 * 300, &mut Rng::new(7));
    begins_to_lag(&bench, Wanted { address: 0, longwords: 260 }, &[1, 2, 3, 19]);
    bench.memory.fill(0xFF);
    begins_to_lag(&bench, Wanted { address: 0, longwords: 260 }, &[1, 2, 3, 19]);
}

#[test]
fn a_lag_at_the_very_last_packet_alters_nothing_that_was_read() {
    for w in [0, 5] {
        let bench = filled(w, 0x20, &mut Rng::new(3));
        let wanted = Wanted { address: 0, longwords: 4 };
        let straight = visit_bench(&mut copy(&bench), wanted.table());
        let packets = packets_of(&straight) as usize;
        for by in 1..=LATEST {
            let visit = lagging(&bench, wanted, packets, by, &mut || 0);
            if by == 1 {
                assert_eq!(visit.end(), Some(End::NotRead { packet: packets as u32, reason: Reason::Late }));
            } else {
                assert_eq!(visit.results(), straight.results());
            }
        }
    }
}

/// A bench, a table, and the visit that nothing disturbs.
fn undisturbed(w: u32, running: bool) -> (Bench, Wanted, Visit) {
    let mut bench = filled(w, 0x18, &mut Rng::new(u64::from(w)));
    if running {
        go(&mut bench);
    }
    let wanted = Wanted { address: 4, longwords: 4 };
    let visit = visit_bench(&mut copy(&bench), wanted.table());
    (bench, wanted, visit)
}

/// The visit with one reply changed.
fn with_reply_at(bench: &Bench, wanted: Wanted, at: u32, other: Option<u32>) -> Visit {
    let mut bench = copy(bench);
    let mut count = 0;
    visit(wanted.table(), |word| {
        count += 1;
        let reply = packet(&mut bench, word);
        if count == at {
            other
        } else {
            Some(reply)
        }
    })
}

#[test]
fn a_word_too_wide_or_no_reply_at_any_packet() {
    for (w, running) in [(0, false), (0, true), (4, false), (15, true)] {
        let (bench, wanted, straight) = undisturbed(w, running);
        for at in 1..=packets_of(&straight) {
            for (other, reason) in
                [(Some(0x20000), Reason::Word), (Some(0xFFFF_FFFF), Reason::Word), (None, Reason::NoReply)]
            {
                let visit = with_reply_at(&bench, wanted, at, other);
                assert_eq!(visit.end(), Some(End::NotRead { packet: at, reason }));
                assert_eq!(visit.results(), &[]);
            }
        }
    }
}

#[test]
fn one_garbled_reply_spoils_one_result_at_most() {
    let garbled = [0, 1, 0x1234, 0x7FFF, 0xFFFE, 0xFFFF, 0x10000, 0x10001, 0x10002, 0x1FFFE, 0x1FFFF];
    let mut read = 0;
    for (w, running) in [(0, false), (0, true), (1, false), (6, true), (15, false)] {
        let (bench, wanted, straight) = undisturbed(w, running);
        for at in 1..=packets_of(&straight) {
            for other in garbled {
                let visit = with_reply_at(&bench, wanted, at, Some(other));
                if !is_read(&visit) {
                    continue;
                }
                read += 1;
                let (found, true_ones) = (visit.results(), straight.results());
                let spoilt: Vec<_> = found.iter().zip(true_ones).filter(|(one, other)| one != other).collect();
                assert!(spoilt.len() <= 1, "{other:X} at {at}: {spoilt:?}");
                // Only a bus error may end the table early.
                let ended = found.last().is_some_and(|&(_, noted)| noted == Noted::BusError);
                assert!(found.len() == true_ones.len() || ended, "{other:X} at {at}");
            }
        }
    }
    assert!(read > 1000, "{read}");
}

#[test]
fn a_port_that_is_not_ready_any_more() {
    for (w, running) in [(0, false), (0, true), (3, false), (15, false)] {
        let (bench, wanted, straight) = undisturbed(w, running);
        let mut reasons = BTreeSet::new();
        for from in 1..=packets_of(&straight) {
            let mut bench = copy(&bench);
            let mut count = 0;
            let visit = visit(wanted.table(), |word| {
                count += 1;
                let reply = packet(&mut bench, word);
                Some(if count < from { reply } else { 0x10000 })
            });
            match visit.end() {
                // A command word, or a packet of a marker at most 20 packets later.
                Some(End::NotRead { packet, reason: Reason::Late }) => {
                    assert!(packet - from <= 20);
                    reasons.insert("late");
                }
                // So many as the port was not ready by itself are part of the row.
                Some(End::NotRead { packet, reason: Reason::NotReady }) => {
                    assert!((256 - w - 2..=256).contains(&(packet - from + 1)), "{from} {packet}");
                    reasons.insert("not-ready");
                }
                // In the place of a second result word.
                Some(End::NotRead { packet, reason: Reason::Reply }) => {
                    assert_eq!(packet, from);
                    reasons.insert("reply");
                }
                end => panic!("{end:?}"),
            }
        }
        assert_eq!(reasons.len(), 3, "{reasons:?}");
    }
}

#[test]
fn every_visit_ends() {
    let wanted = Wanted { address: 0, longwords: 300 };
    // Each of the 27 registers and 300 longwords has a marker at most, and a request of 1 + 255 + 2 packets at most.
    let most = (27 + 300) * (MARKER + 258) + MARKER;
    let rng = &mut Rng::new(17);
    for round in 0..4000 {
        let odd = 1 + round % 200;
        let mut count = 0;
        let mut after_illegal_word = false;
        let visit = visit(wanted.table(), |word| {
            count += 1;
            let good = if after_illegal_word { 0x1FFFF } else { 0x0FFFF };
            after_illegal_word = word == 0x0FFFF;
            Some(if rng.once_in(odd) { any_word(rng) } else { good })
        });
        assert!(count <= most);
        assert!(visit.end().is_some());
    }
}
