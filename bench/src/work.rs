//! The things that are timed, each over a whole input once.

use crate::inputs::{self, Events, Packets, DEBUG_REGISTERS};
use crate::ours::{self, Numbers};
use second::board::Board;
use second::events::{Access, Event, EventAnswer, Mark};
use second::mend::{mend, unmend};
use second::page::{index_length, make_page, Entry, Rate};
use second::pod::Request;
use second::refusal::{Ground, Refusal};
use second::trace::list_trace;

/// An input, and the buffers that a run of it writes.
#[derive(Default)]
pub struct Work {
    wait: u32,
    packets: Vec<u32>,
    memory: Vec<u8>,
    replies: Vec<u32>,
    trace: Vec<u8>,
    words: Vec<u32>,
    numbers: Numbers,
    index: Vec<u32>,
    entries: Vec<Entry>,
    mended: Vec<u8>,
    list: Vec<u32>,
    registers: [u32; DEBUG_REGISTERS.len()],
    events: Vec<u32>,
    answers: Vec<u32>,
}

impl Work {
    pub fn on_packets(input: Packets) -> Work {
        let replies = vec![0; input.words.len()];
        Work { wait: input.wait, packets: input.words, memory: vec![0; inputs::MEMORY], replies, ..Work::default() }
    }

    pub fn on_trace(trace: Vec<u8>) -> Work {
        let words = vec![0; 4 * trace.len()];
        let index = vec![0; index_length(&trace)];
        let entries = vec![Entry::default(); index.len()];
        Work { trace, words, index, entries, ..Work::default() }
    }

    /// With as much room as any list may take.
    pub fn on_damaged(trace: Vec<u8>) -> Work {
        let mended = vec![0; trace.len()];
        let list = vec![0; trace.len()];
        Work { trace, mended, list, ..Work::default() }
    }

    pub fn on_events(input: Events) -> Work {
        let answers = vec![0; input.words.len() / 4];
        Work { registers: input.registers, events: input.words, answers, ..Work::default() }
    }

    /// 0, or the number of the refusal.
    pub fn run_ours(&mut self) -> u64 {
        u64::from(ours::run(self.wait, &mut self.memory, &self.packets, &mut self.replies))
    }

    pub fn run_second(&mut self) -> u64 {
        let ran =
            Board::make(self.wait).and_then(|mut board| board.run(&mut self.memory, &self.packets, &mut self.replies));
        ran.map_or_else(|refusal| u64::from(refusal.number()), |()| 0)
    }

    /// The number of items; or the number of the refusal times 2^32, and the cycle.
    pub fn list_ours(&mut self) -> u64 {
        ours::list(&self.trace, &mut self.words)
    }

    pub fn list_second(&mut self) -> u64 {
        list_trace(&self.trace, &mut self.words).map_or_else(numbered, |items| items as u64)
    }

    pub fn page_ours(&mut self) -> u64 {
        ours::page(&self.trace, &mut self.numbers, &mut self.index)
    }

    pub fn page_second(&mut self) -> u64 {
        match make_page(&self.trace, &mut self.entries) {
            Err(refusal) => numbered(refusal),
            Ok(page) => {
                self.numbers = Numbers {
                    counts: page.codes.map(|code| code.count),
                    firsts: page.codes.map(|code| code.first),
                    lasts: page.codes.map(|code| code.last),
                    starts: page.starts,
                    rate: match page.rate {
                        Rate::None => 0,
                        Rate::CyclesPerStart(rate) => rate.to_bits(),
                    },
                };
                u64::from(page.items)
            }
        }
    }

    /// The number of changed cycles; or the number of the refusal times 2^32.
    pub fn mend_ours(&mut self) -> u64 {
        ours::mend(&self.trace, &mut self.mended, &mut self.list)
    }

    pub fn mend_second(&mut self) -> u64 {
        mend(&self.trace, &mut self.mended, &mut self.list).map_or_else(numbered, |changed| changed as u64)
    }

    /// 0, or the number of the refusal.
    pub fn events_ours(&mut self) -> u64 {
        u64::from(ours::events(&self.registers, &self.events, &mut self.answers))
    }

    pub fn events_second(&mut self) -> u64 {
        let events = self.events.chunks_exact(4);
        if self.answers.len() < events.len() {
            return u64::from(Refusal::from(Ground::BufferTooShort).number());
        }
        let mut board = set_up(&self.registers);
        for (words, answer) in events.zip(&mut self.answers) {
            *answer = board.event(event_of(words)).map_or_else(|refusal| 256 * u32::from(refusal.number()), word_of);
        }
        0
    }

    /// The index of either side: items before the cycle, marker and nibbles due, run.
    fn told(index: &[u32]) -> Vec<[u32; 4]> {
        let told = |word: &u32| {
            let due = word / 16 % 16;
            [word / 4096, if due > 0 { word / 256 % 16 } else { 0 }, due, word % 16]
        };
        index.iter().map(told).collect()
    }

    fn told_second(entries: &[Entry]) -> Vec<[u32; 4]> {
        let told = |entry: &Entry| {
            let (marker, due) = entry.transfer().unwrap_or_default();
            [entry.items, marker.into(), due, entry.run().unwrap_or_default().into()]
        };
        entries.iter().map(told).collect()
    }

    /// Both give the same answer, and leave the same in every buffer. What is said of a work that is not the same is not worth timing.
    pub fn agrees(mut left: Work, mut right: Work, ours: fn(&mut Work) -> u64, second: fn(&mut Work) -> u64) -> bool {
        ours(&mut left) == second(&mut right)
            && left.memory == right.memory
            && left.replies == right.replies
            && left.words == right.words
            && left.numbers == right.numbers
            && left.mended == right.mended
            && left.list == right.list
            && left.answers == right.answers
            && Work::told(&left.index) == Work::told_second(&right.entries)
    }
}

/// Both ways back from a mended trace give what was recorded, and neither takes a list of which a word was changed unless the other does.
pub fn agrees_back(trace: Vec<u8>, spoilt: u32) -> bool {
    let mut work = Work::on_damaged(trace);
    let changed = work.mend_ours() as usize;
    let mut list = work.list[..changed].to_vec();
    let mut back = work.mended.clone();
    let right = ours::unmend(&mut back, &list) && back == work.trace;
    if let Some(word) = list.first_mut() {
        *word ^= spoilt;
    }
    let mut other = work.mended.clone();
    let taken = ours::unmend(&mut other, &list);
    right && (taken, other) == unmend(&work.mended, &list).map_or((false, work.mended), |recorded| (true, recorded))
}

fn numbered(refusal: Refusal) -> u64 {
    u64::from(refusal.number()) << 32 | u64::from(refusal.cycle)
}

/// A fresh board of W = 0 whose debug registers a pod has written, and GO.
fn set_up(registers: &[u32; DEBUG_REGISTERS.len()]) -> Board {
    let mut board = Board::make(0).expect("the setting is in range");
    let writes = DEBUG_REGISTERS.into_iter().zip(*registers).map(|(n, value)| Request::WriteDebug { n, value });
    for request in writes.chain([Request::Go]) {
        let words = request.build().expect("the fields are in range");
        board.run(&mut [], &words, &mut [0; 3]).expect("the packets are within their limits");
    }
    board
}

fn event_of(words: &[u32]) -> Event {
    let access = |attribute| Access { address: words[2], attribute, data: words[3] };
    Event { pc: words[0], access: u8::try_from(words[1]).ok().map(access), mark: Mark::Absent }
}

fn word_of(answer: EventAnswer) -> u32 {
    u32::from(answer.level)
        + 4 * u32::from(answer.halted)
        + 8 * u32::from(answer.interrupt)
        + 16 * u32::from(answer.pc.is_some())
}
