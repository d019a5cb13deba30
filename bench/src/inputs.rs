//! What is measured: packets, recorded traces and events, the same in every run. Packets and traces: the code was tuned on the first of each.

use second::board::Board;
use second::command::{Size, CONTROL_REGISTERS};
use second::pod::Request;
use second::random::Rng;

pub const MEMORY: usize = 65_536;
/// Packets, cycles or events of each.
pub const SIZE: usize = 65_536;

/// The numbers of the registers that WDMREG takes.
pub const DEBUG_REGISTERS: [u32; 10] = [0x00, 0x05, 0x06, 0x07, 0x08, 0x09, 0x0C, 0x0D, 0x0E, 0x0F];

/// A run of packets on a fresh board.
pub struct Packets {
    pub wait: u32,
    pub words: Vec<u32>,
}

/// A desk's morning: mostly the slot table, in chains, and registers between.
pub fn table() -> Packets {
    requests(1, 1, |rng| {
        let size = rng.pick(&Size::ALL);
        let value = rng.word();
        let sized = value & (0xFFFF_FFFF >> (32 - 8 * size.bytes()));
        let rc = u32::from(rng.pick(&CONTROL_REGISTERS));
        match rng.below(16) {
            0 | 1 => Request::Read { size, address: rng.below(MEMORY as u32) },
            2..=5 => Request::Dump { size },
            6 | 7 => Request::Write { size, address: rng.below(MEMORY as u32), value: sized },
            8..=10 => Request::Fill { size, value: sized },
            11 => Request::ReadRegister { register: rng.below(16) },
            12 => Request::WriteRegister { register: rng.below(16), value },
            13 => Request::ReadDebug { n: 0 },
            14 => Request::ReadControl { rc },
            _ => Request::WriteControl { rc, value },
        }
    })
}

/// Registers alone, with a longer wait.
pub fn registers() -> Packets {
    requests(3, 3, |rng| {
        let value = rng.word();
        let rc = u32::from(rng.pick(&CONTROL_REGISTERS));
        match rng.below(7) {
            0 => Request::ReadRegister { register: rng.below(16) },
            1 => Request::WriteRegister { register: rng.below(16), value },
            2 => Request::ReadDebug { n: 0 },
            3 => Request::WriteDebug { n: rng.pick(&DEBUG_REGISTERS), value },
            4 => Request::ReadControl { rc },
            5 => Request::WriteControl { rc, value },
            _ => Request::SyncPc,
        }
    })
}

/// Words of no pod: commands in any order and place, operands among them, one in eight with C set or none of the language.
pub fn noise() -> Packets {
    const COMMANDS: [u32; 12] =
        [0x2180, 0x2085, 0x1900, 0x1840, 0x1980, 0x1D80, 0x1C80, 0x0000, 0x0001, 0x2980, 0x2880, 0x2D80];
    let mut rng = Rng::new(4);
    let words = (0..SIZE)
        .map(|_| match rng.below(8) {
            0 => rng.below(0x20000),
            1 | 2 => rng.below(0x10000),
            _ => rng.pick(&COMMANDS),
        })
        .collect();
    Packets { wait: 0, words }
}

/// Each request is followed by the NOPs that it needs and no more: until the port is at rest, and one that carries the closing reply out, as
/// `talk` sends them.
fn requests(seed: u64, wait: u32, request: fn(&mut Rng) -> Request) -> Packets {
    let mut rng = Rng::new(seed);
    let mut board = Board::make(wait).expect("the setting is in range");
    let mut memory = vec![0; MEMORY];
    let mut words = Vec::with_capacity(SIZE + 16);
    let mut send = |board: &mut Board, words: &mut Vec<u32>, word| {
        board.run(&mut memory, &[word], &mut [0]).expect("the packet is within its limits");
        words.push(word);
    };
    while words.len() < SIZE {
        for word in request(&mut rng).build().expect("the fields are in range") {
            send(&mut board, &mut words, word);
        }
        while !board.is_at_rest() {
            send(&mut board, &mut words, 0);
        }
        send(&mut board, &mut words, 0);
    }
    words.truncate(SIZE);
    Packets { wait, words }
}

/// Instructions, with transfers of 1 to 4 bytes between.
pub fn transfers() -> Vec<u8> {
    trace(2, |rng, trace| match rng.once_in(4) {
        true => transfer(rng, trace, &STEPS),
        false => trace.push(rng.pick(&STEPS)),
    })
}

const STEPS: [u8; 7] = [0x00, 0x10, 0x10, 0x30, 0x40, 0x50, 0x70];

/// Instructions of one to four cycles, taken branches that show where they lead, and now and then a processor that stands still.
pub fn stops() -> Vec<u8> {
    trace(5, |rng, trace| match rng.below(16) {
        0 => {
            let state = rng.pick(&[0xC0, 0xD0, 0xE0, 0xF0]);
            let cycles = rng.between(8, 64) as usize;
            trace.resize(trace.len() + cycles, state);
        }
        1 | 2 => {
            trace.push(0x50);
            transfer(rng, trace, &[0x00, 0x00, 0x10]);
        }
        _ => {
            trace.push(0x10);
            trace.resize(trace.len() + rng.below(4) as usize, 0x00);
        }
    })
}

/// Cycles in no order, and few transfers.
pub fn jumble() -> Vec<u8> {
    const ANY: [u8; 11] = [0x00, 0x00, 0x00, 0x00, 0x00, 0x00, 0x00, 0x10, 0x50, 0xC0, 0xF0];
    trace(6, |rng, trace| match rng.once_in(64) {
        true => transfer(rng, trace, &ANY),
        false => trace.push(rng.pick(&ANY)),
    })
}

/// The same instructions and transfers over a long cable: of every hundred cycles about one has a bit flipped, and the end is lost.
pub fn dropouts() -> Vec<u8> {
    let mut rng = Rng::new(10);
    let mut trace = transfers();
    for byte in &mut trace {
        if rng.once_in(100) {
            *byte ^= 1 << rng.below(8);
        }
    }
    // A marker of four bytes in the last cycle but three.
    trace[SIZE - 4] = 0xB0;
    trace
}

/// Nothing but noise: of every eight cycles about three are reserved PSTs or markers.
pub fn noise_recorded(seed: u64, cycles: usize) -> Vec<u8> {
    let mut rng = Rng::new(seed);
    (0..cycles).map(|_| rng.below(0x100) as u8).collect()
}

/// A marker, and the cycles that carry its bytes.
fn transfer(rng: &mut Rng, trace: &mut Vec<u8>, steps: &[u8]) {
    let bytes = rng.between(1, 4);
    trace.push(0x70 + (bytes as u8) * 0x10);
    for _ in 0..2 * bytes {
        trace.push(rng.pick(steps) | rng.below(16) as u8);
    }
}

/// So many cycles; the last few are 0x00, so that no transfer is cut short.
fn trace(seed: u64, add: fn(&mut Rng, &mut Vec<u8>)) -> Vec<u8> {
    let mut rng = Rng::new(seed);
    let mut trace = Vec::with_capacity(SIZE + 64);
    while trace.len() + 64 < SIZE {
        add(&mut rng, &mut trace);
    }
    trace.resize(SIZE, 0x00);
    trace
}

/// Events on a board as set up.
pub struct Events {
    /// In the order of `DEBUG_REGISTERS`.
    pub registers: [u32; DEBUG_REGISTERS.len()],
    /// Four words an event: PC, attribute, address, data.
    pub words: Vec<u32>,
}

/// The attribute word of an event without an access.
const NO_ACCESS: u32 = 0x100;
/// The attributes of a supervisor's data: longword, byte, word.
const DATA: [u32; 3] = [0x05, 0x25, 0x45];

/// All seven comparators on a range of addresses, in which most accesses fall. No byte of the data is one of DBR's until the last event, which
/// fires.
pub fn data() -> Events {
    const DBR: u32 = 0xA5C3_9687;
    // AATR leaves the size out. Level 1: EBL, the seven comparators and EAR; the response is display.
    let registers = [0, 0x05, 0x6005, 0x0000_3FC8, 0, 0, 0x0000_EFFF, 0x0000_2000, DBR, 0];
    let event = |rng: &mut Rng, _| {
        let attribute = if rng.once_in(16) { 0x01 } else { rng.pick(&DATA) };
        let address = if rng.once_in(8) { rng.below(0x2000) } else { rng.between(0x2000, 0xEFFF) };
        [instruction(rng), attribute, address, rng.word() & 0x7F7F_7F7F]
    };
    events(7, registers, event, [INSTRUCTIONS, 0x05, 0x3000, DBR])
}

/// A breakpoint by PC, sixteen bytes wide, which the last event meets. One event in eight has an access.
pub fn pc() -> Events {
    // Level 1: EBL and EPC; the response is to halt.
    let registers = [0, 0x05, 0x0005, 0x4000_2002, 0x0002_0000, 0x0000_000F, 0, 0, 0, 0];
    let event = |rng: &mut Rng, _| match rng.once_in(8) {
        true => [instruction(rng), rng.pick(&DATA), rng.below(0x1_0000), rng.word()],
        false => [instruction(rng), NO_ACCESS, 0, 0],
    };
    events(8, registers, event, [0x0002_000C, NO_ACCESS, 0, 0])
}

/// Level 1 fires early, by PC. Level 2 waits for that PC again, or for another value in the low half of a longword to which half of the events
/// are accesses. The last event brings one.
pub fn two_levels() -> Events {
    const PBR: u32 = 0x0000_8000;
    const DBR: u32 = 0x0000_1234;
    // Level 1: EBL and EPC. Level 2: T, EBL, EDWL, EDLL, DI, EAR and EPC; the response is to halt.
    let registers = [0, 0x05, 0x0005, 0x6A2A_A002, PBR, 0, 0x0000_4003, 0x0000_4000, DBR, 0];
    let event = |rng: &mut Rng, place| {
        let pc = if place == 100 { PBR } else { instruction(rng) };
        match rng.below(4) {
            0 => [pc, NO_ACCESS, 0, 0],
            1 | 2 => [pc, 0x05, 0x4000, rng.word() & 0xFFFF_0000 | DBR],
            _ => [pc, rng.pick(&DATA), rng.between(0x5000, 0xFFFF), rng.word()],
        }
    };
    events(9, registers, event, [INSTRUCTIONS, 0x05, 0x4000, 0])
}

/// Events of no plan, on registers that fire often: for what the others do not reach, as refusals, SSM, interrupts and halts early on.
pub fn any_events(seed: u64) -> Events {
    let mut rng = Rng::new(seed);
    let csr = if rng.once_in(8) { 0x10 } else { 0 };
    // Both levels have EBL, and now and then any other bit.
    let tdr = 0x2000_2000 | rng.pick(&[0x0002, 0x0004, 0x0008, 0x0002_0002, 0x0010_0008]) | mostly_zero(&mut rng);
    let [aatr, pbmr, dbmr] = [0; 3].map(|_| !mostly_zero(&mut rng));
    let [pbr, abhr, ablr] = [0; 3].map(|_| rng.below(0x1000));
    let registers = [csr, 0x05, aatr, tdr, pbr, pbmr, abhr, ablr, rng.word(), dbmr];
    let words = (0..64).flat_map(|_| {
        let pc = if rng.once_in(8) { rng.word() } else { 2 * rng.below(0x800) };
        let attribute = if rng.once_in(4) { NO_ACCESS + rng.below(2) } else { rng.below(0x100) };
        [pc, attribute, if rng.once_in(4) { ablr } else { rng.below(0x1000) }, rng.word()]
    });
    Events { registers, words: words.collect() }
}

/// One bit in eight is set.
fn mostly_zero(rng: &mut Rng) -> u32 {
    rng.word() & rng.word() & rng.word()
}

/// Where the instructions begin.
const INSTRUCTIONS: u32 = 0x0001_0000;

/// The PC of one of them.
fn instruction(rng: &mut Rng) -> u32 {
    INSTRUCTIONS + 2 * rng.below(0x4000)
}

/// So many events, each made for its place; the last is given.
fn events(
    seed: u64,
    registers: [u32; DEBUG_REGISTERS.len()],
    event: fn(&mut Rng, usize) -> [u32; 4],
    last: [u32; 4],
) -> Events {
    let mut rng = Rng::new(seed);
    let mut words: Vec<u32> = (1..SIZE).flat_map(|place| event(&mut rng, place)).collect();
    words.extend(last);
    Events { registers, words }
}
