//! Request [6] of 02: programs that halt themselves. Sentence by sentence, and random scripts with and without the marks.

mod common;
use common::Desk;
use second::board::Board;
use second::desk::{Bench, Program, StandIn};
use second::events::{Access, Event, EventAnswer, Mark, Privilege};
use second::random::{stand_in_script, talk_script, Rng};

const HALT: u32 = 1 << 25;
const TRG: u32 = 1 << 26;
const BKPT: u32 = 1 << 24;
const HRL: u32 = 1 << 20;
const BKD: u32 = 1 << 18;
const UHE: u32 = 1 << 10;
const SSM: u32 = 1 << 4;

const USER: Mark = Mark::Halt(Privilege::User);
const SUPERVISOR: Mark = Mark::Halt(Privilege::Supervisor);
const MARKS: [Mark; 3] = [Mark::Absent, USER, SUPERVISOR];

/// PBR; the trigger is by PC.
const HERE: u32 = 0x1000;

/// A breakpoint before an event at PBR, and what 01 says of that event.
#[derive(Clone, Copy, Debug)]
struct Breakpoint {
    tdr: u32,
    /// An event at PBR goes before.
    begun: bool,
    level: u8,
    bstat: u32,
    /// The response comes with this event.
    responds: bool,
}

const BREAKPOINTS: [Breakpoint; 7] = [
    Breakpoint { tdr: 0, begun: false, level: 0, bstat: 0, responds: false },
    // PCI: the PC agrees, and so it does not hold.
    Breakpoint { tdr: 0x2003, begun: false, level: 0, bstat: 1, responds: false },
    Breakpoint { tdr: 0x2002, begun: false, level: 1, bstat: 2, responds: true },
    Breakpoint { tdr: 0x2002, begun: true, level: 0, bstat: 2, responds: false },
    // "Level 1 firing gives 5 if level 2's EBL is set"; OP: "Level 1 firing into 5 gives no response."
    Breakpoint { tdr: 0x2002_2002, begun: false, level: 1, bstat: 5, responds: false },
    Breakpoint { tdr: 0x2002_2002, begun: true, level: 2, bstat: 6, responds: true },
    Breakpoint { tdr: 0x2003_2002, begun: true, level: 0, bstat: 5, responds: false },
];

fn send(board: &mut Board, packets: &[u32]) -> Vec<u32> {
    let mut replies = vec![0; packets.len()];
    board.run(&mut [], packets, &mut replies).unwrap();
    replies
}

fn write(board: &mut Board, n: u32, value: u32) {
    send(board, &[0x2C80 + n, value >> 16, value & 0xFFFF]);
}

fn read_csr(board: &mut Board) -> u32 {
    let replies = send(board, &[0x2D80, 0, 0]);
    replies[1] << 16 | replies[2]
}

fn go(board: &mut Board) {
    send(board, &[0x0C00]);
}

fn event_at(pc: u32, mark: Mark) -> Event {
    Event { pc, mark, ..Event::default() }
}

/// A running board with CSR's written bits.
fn running(csr: u32) -> Board {
    let mut board = Board::make(0).unwrap();
    write(&mut board, 0x00, csr);
    write(&mut board, 0x08, HERE);
    go(&mut board);
    board
}

/// "In supervisor mode, or in user mode with CSR[UHE] set, it halts": (it does, it halts nothing).
fn obeyed_or_ignored(mark: Mark, csr: u32) -> (bool, bool) {
    match mark {
        Mark::Absent => (false, false),
        Mark::Halt(Privilege::Supervisor) => (true, false),
        Mark::Halt(Privilege::User) => (csr & UHE != 0, csr & UHE == 0),
    }
}

/// Both privileges and none, UHE, SSM, BKD, every breakpoint and response, SYNC_PC pending or not, an access or none.
#[test]
fn the_whole_table() {
    let mut tried = 0;
    for bits in 0..8 {
        let csr = [UHE, SSM, BKD].iter().enumerate().map(|(place, bit)| bit * (bits >> place & 1)).sum();
        for breakpoint in BREAKPOINTS {
            for response in 0..4 {
                for (sync, access) in [(false, false), (false, true), (true, false), (true, true)] {
                    for mark in MARKS {
                        try_row(csr, breakpoint, response, sync, access, mark);
                        tried += 1;
                    }
                }
            }
        }
    }
    assert_eq!(tried, 8 * 7 * 4 * 4 * 3);
}

fn try_row(csr: u32, breakpoint: Breakpoint, response: u32, sync: bool, access: bool, mark: Mark) {
    let mut board = running(csr);
    write(&mut board, 0x07, response << 30 | breakpoint.tdr);
    if breakpoint.begun {
        board.event(event_at(HERE, Mark::Absent)).unwrap();
        if board.is_halted() {
            go(&mut board);
        }
    }
    if sync {
        send(&mut board, &[0x0001]);
    }
    let access = access.then_some(Access { address: 0x2000, attribute: 5, data: 0 });
    let answer = board.event(Event { pc: HERE, access, mark }).unwrap();

    let row = format!("CSR {csr:X}, {breakpoint:?}, response {response}, SYNC_PC {sync}, {mark:?}");
    let triggered = breakpoint.responds && response == 1;
    let (obeyed, ignored) = obeyed_or_ignored(mark, csr);
    let halted = triggered || obeyed || csr & SSM != 0;
    let expected = EventAnswer {
        level: breakpoint.level,
        halted,
        interrupt: breakpoint.responds && response == 2,
        pc: sync.then_some(HERE),
        ignored,
    };
    assert_eq!(answer, expected, "{row}");
    assert_eq!(board.is_halted(), halted, "{row}");
    let flags = if triggered { TRG } else { 0 } | if obeyed { HALT } else { 0 };
    let lasting = HRL | csr;
    assert_eq!(read_csr(&mut board), breakpoint.bstat << 28 | flags | lasting, "{row}");
    let bstat = if [2, 6].contains(&breakpoint.bstat) { 0 } else { breakpoint.bstat };
    assert_eq!(read_csr(&mut board), bstat << 28 | lasting, "{row}: \"Reading clears FOF, TRG, HALT, BKPT\"");
    assert_eq!(board.is_halted(), halted, "{row}: reading starts nothing");
}

/// "GO clears TRG, HALT, BKPT", and so a second HALT is seen as the first was.
#[test]
fn go_clears_halt() {
    for (csr, mark) in [(0, SUPERVISOR), (UHE, SUPERVISOR), (UHE, USER)] {
        let mut board = running(csr);
        for _ in 0..3 {
            assert!(board.event(event_at(HERE, mark)).unwrap().halted);
            go(&mut board);
            assert!(!board.is_halted());
            assert_eq!(read_csr(&mut board), HRL | csr);
            assert!(board.event(event_at(HERE, mark)).unwrap().halted);
            assert_eq!(read_csr(&mut board), HALT | HRL | csr);
            go(&mut board);
        }
    }
}

/// "and both flags may be set": GO and a CSR read clear both.
#[test]
fn both_flags_are_cleared_together() {
    for by_go in [true, false] {
        let mut board = running(0);
        write(&mut board, 0x07, 0x4000_2002);
        let answer = board.event(event_at(HERE, SUPERVISOR)).unwrap();
        assert_eq!((answer.level, answer.halted, answer.ignored), (1, true, false));
        let left = if by_go {
            go(&mut board);
            0x2000_0000
        } else {
            assert_eq!(read_csr(&mut board), 0x2000_0000 | TRG | HALT | HRL);
            0
        };
        assert_eq!(read_csr(&mut board), left | HRL);
    }
}

/// UHE is bit 10 alone: every other bit, written alone or all but it, leaves HALT in user mode as it is.
#[test]
fn no_other_bit_of_csr_matters() {
    for bit in 0..32 {
        for csr in [1 << bit, 1 << bit | UHE, !(1 << bit), !(1 << bit) & !UHE] {
            let mut board = running(csr);
            let answer = board.event(event_at(HERE, USER)).unwrap();
            assert_eq!(answer.ignored, csr & UHE == 0, "{csr:X}");
            assert_eq!(answer.halted, csr & UHE != 0 || csr & SSM != 0, "{csr:X}");
            let halt = if csr & UHE != 0 { HALT } else { 0 };
            assert_eq!(read_csr(&mut board), halt | HRL | csr & 0x0007_FF70, "{csr:X}");
        }
    }
}

/// UHE is judged as it stands at the event; a later write changes neither the halt nor the flag.
#[test]
fn uhe_is_judged_at_the_event() {
    let mut board = running(UHE);
    write(&mut board, 0x00, 0);
    assert!(board.event(event_at(HERE, USER)).unwrap().ignored);
    write(&mut board, 0x00, UHE);
    assert!(board.event(event_at(HERE, USER)).unwrap().halted);
    write(&mut board, 0x00, 0);
    assert!(board.is_halted());
    assert_eq!(read_csr(&mut board), HALT | HRL);
    let mut board = running(0);
    assert!(board.event(event_at(HERE, USER)).unwrap().ignored);
    write(&mut board, 0x00, UHE);
    assert!(!board.is_halted());
    assert_eq!(read_csr(&mut board), HRL | UHE);
}

/// "In user mode with UHE clear it halts nothing": the board is as after the event without a mark.
#[test]
fn an_ignored_halt_leaves_what_no_mark_leaves() {
    for csr in [0, SSM, BKD, SSM | BKD] {
        for tdr in [0, 0x4000_2002, 0x8000_2002, 0x6002_2002] {
            let mut board = running(csr);
            write(&mut board, 0x07, tdr);
            let mut unmarked = board.clone();
            let answer = board.event(event_at(HERE, USER)).unwrap();
            assert_eq!(unmarked.event(event_at(HERE, Mark::Absent)), Ok(EventAnswer { ignored: false, ..answer }));
            assert!(answer.ignored);
            assert_eq!(board, unmarked);
        }
    }
}

/// A "halted" command is legal from HALT to GO; running, it is not.
#[test]
fn the_port_finds_the_processor_halted() {
    let mut board = running(0);
    assert_eq!(send(&mut board, &[0x2180, 0])[1], 0x1FFFF);
    board.event(event_at(HERE, USER)).unwrap();
    assert_eq!(send(&mut board, &[0x2180, 0])[1], 0x1FFFF);
    board.event(event_at(HERE, SUPERVISOR)).unwrap();
    assert_eq!(send(&mut board, &[0x2180, 0, 0])[1..], [0, 0]);
    assert_eq!(send(&mut board, &[0x0C00, 0])[1], 0x0FFFF);
    assert_eq!(send(&mut board, &[0x2180, 0])[1], 0x1FFFF);
}

/// BKD concerns the breakpoint input; "while halted it does nothing".
#[test]
fn the_breakpoint_input_before_and_after() {
    for csr in [0, UHE, BKD, BKD | UHE] {
        for mark in [USER, SUPERVISOR] {
            let (obeyed, ignored) = obeyed_or_ignored(mark, csr);
            // After.
            let mut board = running(csr);
            let answer = board.event(event_at(HERE, mark)).unwrap();
            assert_eq!((answer.halted, answer.ignored), (obeyed, ignored));
            let input = board.breakpoint();
            assert_eq!(input.halted, !obeyed && csr & BKD == 0);
            assert_eq!(input.interrupt, !obeyed && csr & BKD != 0);
            let flags = if obeyed { HALT } else { 0 } | if input.halted { BKPT } else { 0 };
            assert_eq!(read_csr(&mut board), flags | HRL | csr);
            // Before.
            let mut board = running(csr);
            let input = board.breakpoint();
            let answer = board.event(event_at(HERE, mark));
            if csr & BKD == 0 {
                assert_eq!(answer.unwrap_err().number(), 4);
                assert_eq!(read_csr(&mut board), BKPT | HRL | csr);
            } else {
                assert!(input.interrupt && !input.halted);
                assert_eq!(answer.unwrap().halted, obeyed);
                assert_eq!(read_csr(&mut board), if obeyed { HALT } else { 0 } | HRL | csr);
            }
        }
    }
}

/// "Refusals: none new": the number is that of the event without the mark, and the board stays as it is.
#[test]
fn a_mark_changes_no_refusal() {
    let accesses = [None, Some(0x05), Some(0x60), Some(0x7F), Some(0xFF)]
        .map(|attribute| attribute.map(|attribute| Access { address: 0, attribute, data: 0 }));
    for halted in [false, true] {
        for pc in [0x1000, 0x1001, 0xFFFF_FFFF] {
            for access in accesses {
                let number = if halted {
                    4
                } else if pc & 1 != 0 {
                    5
                } else if access.is_some_and(|access| access.attribute & 0x60 == 0x60) {
                    6
                } else {
                    0
                };
                for mark in MARKS {
                    let mut board = running(UHE);
                    write(&mut board, 0x07, 0x4000_2002);
                    send(&mut board, &[0x0001]);
                    if halted {
                        board.breakpoint();
                    }
                    let before = board.clone();
                    match board.event(Event { pc, access, mark }) {
                        Ok(_) => assert_eq!(number, 0),
                        Err(refusal) => {
                            assert_eq!((refusal.number(), refusal.cycle), (number, 0));
                            assert_eq!(board, before);
                        }
                    }
                }
            }
        }
    }
}

/// DL: "The answer to a line with a mark gains ` ignored 1` where HALT halted nothing, ` ignored 0` otherwise".
#[test]
fn lines_and_answers() {
    let unmarked = "event level 0 halted 0 interrupt 0 pc none";
    for (program, go, set) in
        [("stand_in", "packet C00", ["packet 2C80", "packet 0", "packet 400"]), ("talk", "go", ["wdmreg 0 400"; 3])]
    {
        let mut desk = Desk::new(program);
        desk.say(go);
        assert_eq!(desk.say("event 1000"), unmarked);
        assert_eq!(desk.say("event 1000 2000 5 0"), unmarked);
        for line in ["event 1000 halt user", "event 1000 2000 5 0 halt user", "\tEVENT 0x1000  Halt \tUSER "] {
            assert_eq!(desk.say(line), format!("{unmarked} ignored 1"));
            assert_eq!(desk.state("halted"), "0");
        }
        for line in ["event 1000 halt supervisor", "event 1000 2000 5 0 HALT Supervisor"] {
            assert_eq!(desk.say(line), "event level 0 halted 1 interrupt 0 pc none ignored 0");
            assert_eq!((desk.state("halted"), desk.state("csr")), ("1".to_string(), "02100000".to_string()));
            desk.say(go);
        }
        for line in set {
            desk.say(line);
        }
        assert_eq!(desk.say("event 1000 halt user"), "event level 0 halted 1 interrupt 0 pc none ignored 0");
        assert_eq!(desk.say("event 1000 halt user"), "refused 4 at 0");
        desk.say(go);
        assert_eq!(desk.say("event 1001 halt user"), "refused 5 at 0");
        assert_eq!(desk.say("event 1001 2000 60 0 halt user"), "refused 5 at 0");
        assert_eq!(desk.say("event 1000 2000 60 0 halt supervisor"), "refused 6 at 0");
    }
}

#[test]
fn a_mark_that_is_none_is_unclear() {
    let unclear = [
        "event halt", "event halt user", "event 0 halt", "event 0 user", "event 0 supervisor", "event 0 halt 0",
        "event 0 halt none", "event 0 halts user", "event 0 halt users", "event 0 haltuser", "event 0 user halt",
        "event 0 halt halt user", "event 0 halt user user", "event 0 halt user supervisor",
        "event 0 halt user halt user", "event 0 halt user 0", "event 0 0 halt user", "event 0 0 0 halt user",
        "event 0 0 0 0 0 halt user", "event 0 halt user 0 0 0", "event 0 0 halt user 0 0", "event 0 0 0 0 halt",
        "event 0 0 0 0 user", "event 0 0 0 0 halt user 0", "event 0 0 0 0 halt user halt user",
        "event 0 0 100 0 halt user", "event 100000000 halt user", "event 0x halt user", "event 0 0xhalt user",
        "event 0 halt 0xuser", "event 0 halt\u{a0}user", "event 0 halt\0user", "event 0 halt, user",
        "event 0 halt user #", "breakpoint halt user", "halt user", "halt", "state halt user",
    ];
    for program in ["stand_in", "talk"] {
        let mut desk = Desk::new(program);
        desk.say(if program == "talk" { "go" } else { "packet C00" });
        let before = desk.say("state");
        for line in unclear {
            assert_eq!(desk.say(line), "unclear", "{line}");
            assert_eq!(desk.say("state"), before);
        }
    }
    // What is typed is judged before what it means: halted, and the PC is odd.
    assert_eq!(Desk::new("talk").say("event 1 halt usr"), "unclear");
}

#[test]
fn the_pod_has_no_marks_and_help_is_as_before() {
    let mut pod = Desk::new("pod");
    for line in ["build go halt user", "read nop : FFFF halt user", "event 0 halt user", "halt user"] {
        assert_eq!(pod.say(line), "unclear");
    }
    assert_eq!(
        Desk::new("stand_in").say("help"),
        "help make memory bytes packet event breakpoint peek state help quit"
    );
}

/// The line without its mark, if it has one as it should be, and the mark's privilege.
fn unmarked(line: &str) -> Option<(String, String)> {
    if line.len() > 4096 {
        return None;
    }
    let line = line.to_ascii_lowercase();
    let words: Vec<&str> = line.split([' ', '\t']).filter(|word| !word.is_empty()).collect();
    match &words[..] {
        ["event", numbers @ .., "halt", privilege @ ("user" | "supervisor")] if !numbers.contains(&"halt") => {
            Some((format!("event {}", numbers.join(" ")), privilege.to_string()))
        }
        _ => None,
    }
}

fn field(state: &str, name: &str) -> String {
    state.split(' ').find_map(|field| field.strip_prefix(name)?.strip_prefix('=')).expect(name).to_string()
}

/// A desk with the same board, for the event without its mark.
fn beside(desk: &StandIn) -> StandIn {
    StandIn { bench: Bench { board: desk.bench.board.clone(), memory: desk.bench.memory.clone() } }
}

/// Every marked line of random scripts, beside the same line without its mark: the answers differ in `halted` and `ignored`
/// at most, the states in HALT and halted.
#[test]
fn random_scripts_with_and_without_the_marks() {
    let (mut marked, mut obeyed_beside_trg, mut ignored_and_halted) = (0, 0, 0);
    for seed in 0..80 {
        let mut desk = StandIn::new();
        for line in stand_in_script(&mut Rng::new(seed), 700) {
            for line in line.split(|&byte| byte == b'\r') {
                let text = String::from_utf8_lossy(line).into_owned();
                let Some((plain, privilege)) = unmarked(&text) else {
                    desk.answer(line);
                    continue;
                };
                let mut other = beside(&desk);
                let csr = u32::from_str_radix(&field(&desk.answer(b"state").unwrap(), "csr"), 16).unwrap();
                let obeyed = privilege == "supervisor" || csr & UHE != 0;
                let (answer, without) = (desk.answer(line).unwrap(), other.answer(plain.as_bytes()).unwrap());
                if !without.starts_with("event ") {
                    assert_eq!(answer, without, "{text}");
                    assert_eq!(desk.bench.board, other.bench.board);
                    continue;
                }
                let halts = if obeyed { without.replace("halted 0", "halted 1") } else { without.clone() };
                assert_eq!(answer, format!("{halts} ignored {}", u8::from(!obeyed)), "seed {seed}: {text}");
                let (state, before) = (desk.answer(b"state").unwrap(), other.answer(b"state").unwrap());
                if obeyed {
                    let csr = u32::from_str_radix(&field(&before, "csr"), 16).unwrap();
                    let expected = before
                        .replace("halted=0", "halted=1")
                        .replace(&format!(" csr={csr:08X}"), &format!(" csr={:08X}", csr | HALT));
                    assert_eq!(state, expected, "seed {seed}: {text}");
                    obeyed_beside_trg += usize::from(csr & TRG != 0);
                } else {
                    assert_eq!(state, before, "seed {seed}: {text}");
                    ignored_and_halted += usize::from(without.contains("halted 1"));
                }
                marked += 1;
            }
        }
    }
    assert!(marked > 1000, "{marked}");
    assert!(obeyed_beside_trg > 20 && ignored_and_halted > 20, "{obeyed_beside_trg} {ignored_and_halted}");
}

/// The scripts have marked events of every kind, near marks, and CSR with HALT that is seen.
#[test]
fn random_scripts_show_halts() {
    for (program, scripts) in [
        ("stand_in", (0..20).map(|seed| stand_in_script(&mut Rng::new(seed), 700)).collect::<Vec<_>>()),
        ("talk", (0..20).map(|seed| talk_script(&mut Rng::new(seed), 400)).collect()),
    ] {
        let (mut ignored, mut obeyed, mut unclear, mut seen) = (0, 0, 0, 0);
        for script in scripts {
            let mut desk = Desk::new(program);
            for line in script.iter().flat_map(|line| line.split(|&byte| byte == b'\r')) {
                let Some(answer) = desk.say_bytes(line) else { continue };
                let has_mark = line.windows(4).any(|word| word.eq_ignore_ascii_case(b"halt"));
                ignored += usize::from(answer.ends_with(" ignored 1"));
                obeyed += usize::from(answer.ends_with(" ignored 0"));
                unclear += usize::from(has_mark && answer == "unclear");
                seen += usize::from(
                    answer.starts_with("state ")
                        && u32::from_str_radix(&field(&answer, "csr"), 16).unwrap() & HALT != 0,
                );
            }
        }
        assert!(
            ignored > 100 && obeyed > 100 && unclear > 20 && seen > 20,
            "{program}: {ignored} ignored, {obeyed} not, {unclear} unclear, HALT in {seen} states"
        );
    }
}
