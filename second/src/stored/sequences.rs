//! The manual's command sequences (chapter 5.5.3.3): each command completed, with a bus error, illegal, and with the next
//! command's word in the packet that carries its last reply out.

use super::Stored;
use crate::desk::StandIn;
use crate::script::Writer;

pub fn all() -> Vec<Stored> {
    vec![Stored::script("stand_in", "manual_sequences", &sequences())]
}

struct Sequence {
    section: &'static str,
    name: &'static str,
    /// What makes the command legal.
    before: &'static [u32],
    completed: &'static [u32],
    bus_error: Option<&'static [u32]>,
    /// What makes the command illegal, if anything does, and its first word.
    illegal_after: Option<&'static [u32]>,
}

const READ_FIRST: &[u32] = &[0x1900, 0, 0];
const WRITE_FIRST: &[u32] = &[0x1800, 0, 0, 0x5A];
const READ_LAST: &[u32] = &[0x1980, 0, 0xC];
const WRITE_LAST: &[u32] = &[0x1880, 0, 0xC, 1, 2];
const RUN: &[u32] = &[0x0C00];

#[rustfmt::skip]
const SEQUENCES: [Sequence; 22] = [
    Sequence { section: "5.5.3.3.1", name: "RAREG/RDREG", before: &[], completed: &[0x2189], bus_error: None, illegal_after: Some(RUN) },
    Sequence { section: "5.5.3.3.2", name: "WAREG/WDREG", before: &[], completed: &[0x2089, 0x1234, 0x5678], bus_error: None, illegal_after: Some(RUN) },
    Sequence { section: "5.5.3.3.3", name: "READ byte", before: &[], completed: &[0x1900, 0, 5], bus_error: Some(&[0x1900, 0, 0x10]), illegal_after: None },
    Sequence { section: "5.5.3.3.3", name: "READ word", before: &[], completed: &[0x1940, 0, 4], bus_error: Some(&[0x1940, 0, 0x10]), illegal_after: None },
    Sequence { section: "5.5.3.3.3", name: "READ longword", before: &[], completed: &[0x1980, 0, 4], bus_error: Some(&[0x1980, 1, 0]), illegal_after: None },
    Sequence { section: "5.5.3.3.4", name: "WRITE byte", before: &[], completed: &[0x1800, 0, 5, 0xAB], bus_error: Some(&[0x1800, 0, 0x10, 0xAB]), illegal_after: None },
    Sequence { section: "5.5.3.3.4", name: "WRITE word", before: &[], completed: &[0x1840, 0, 4, 0xABCD], bus_error: Some(&[0x1840, 0, 0x10, 0xABCD]), illegal_after: None },
    Sequence { section: "5.5.3.3.4", name: "WRITE longword", before: &[], completed: &[0x1880, 0, 4, 0xABCD, 0xEF01], bus_error: Some(&[0x1880, 0xFFFF, 0xFFFC, 0xABCD, 0xEF01]), illegal_after: None },
    Sequence { section: "5.5.3.3.5", name: "DUMP byte", before: READ_FIRST, completed: &[0x1D00], bus_error: None, illegal_after: Some(WRITE_FIRST) },
    Sequence { section: "5.5.3.3.5", name: "DUMP word", before: READ_FIRST, completed: &[0x1D40], bus_error: None, illegal_after: Some(WRITE_FIRST) },
    Sequence { section: "5.5.3.3.5", name: "DUMP longword", before: READ_FIRST, completed: &[0x1D80], bus_error: None, illegal_after: Some(WRITE_FIRST) },
    Sequence { section: "5.5.3.3.5", name: "DUMP past the end", before: READ_LAST, completed: &[0], bus_error: Some(&[0x1D00]), illegal_after: None },
    Sequence { section: "5.5.3.3.6", name: "FILL byte", before: WRITE_FIRST, completed: &[0x1C00, 0xCD], bus_error: None, illegal_after: Some(READ_FIRST) },
    Sequence { section: "5.5.3.3.6", name: "FILL word", before: WRITE_FIRST, completed: &[0x1C40, 0xCDEF], bus_error: None, illegal_after: Some(READ_FIRST) },
    Sequence { section: "5.5.3.3.6", name: "FILL longword", before: WRITE_FIRST, completed: &[0x1C80, 0x1234, 0x5678], bus_error: None, illegal_after: Some(READ_FIRST) },
    Sequence { section: "5.5.3.3.6", name: "FILL past the end", before: WRITE_LAST, completed: &[0], bus_error: Some(&[0x1C00, 0xCD]), illegal_after: None },
    Sequence { section: "5.5.3.3.7", name: "GO", before: &[], completed: &[0x0C00], bus_error: None, illegal_after: Some(RUN) },
    Sequence { section: "5.5.3.3.8", name: "NOP", before: &[], completed: &[0x0000], bus_error: None, illegal_after: None },
    Sequence { section: "5.5.3.3.9", name: "SYNC_PC", before: &[], completed: &[0x0001], bus_error: None, illegal_after: None },
    Sequence { section: "5.5.3.3.10", name: "RCREG", before: &[], completed: &[0x2980, 0, 0x80F], bus_error: Some(&[0x2980, 0, 0x80D]), illegal_after: Some(RUN) },
    Sequence { section: "5.5.3.3.11", name: "WCREG", before: &[], completed: &[0x2880, 0, 0x80F, 0x3333, 0x4444], bus_error: Some(&[0x2880, 0, 0x80D, 0x3333, 0x4444]), illegal_after: Some(RUN) },
    Sequence { section: "5.5.3.3.13", name: "WDMREG", before: &[], completed: &[0x2C88, 0x5555, 0x6666], bus_error: None, illegal_after: None },
];

fn fresh(s: &mut Writer<StandIn>, w: u32, before: &[u32]) {
    s.say(format!("make {w:X}"));
    s.say("memory 10");
    s.say("bytes 0 000102030405060708090A0B0C0D0E0F");
    if !before.is_empty() {
        s.packets(before);
        s.drain();
    }
}

/// The words of a command up to the phase of rest, without the packet that carries the last reply out.
pub fn send(s: &mut Writer<StandIn>, words: &[u32]) {
    s.packets(words);
    s.drain();
}

fn sequences() -> Vec<Vec<u8>> {
    let mut s = Writer::<StandIn>::new();
    for w in [0, 1, 2, 15] {
        for sequence in &SEQUENCES {
            let title = format!("{} {}, W = {w}", sequence.section, sequence.name);
            s.comment(&format!("{title}: completed, next command"));
            for next in [0x0000, 0x2D80, 0x1900, 0x1D00, 0x19C0] {
                fresh(&mut s, w, sequence.before);
                send(&mut s, sequence.completed);
                send(&mut s, &[next]);
                s.packet(0);
            }
            if let Some(words) = sequence.bus_error {
                s.comment(&format!("{title}: bus error, next command"));
                for next in [0x0000, 0x2D80, 0x1D00] {
                    fresh(&mut s, w, sequence.before);
                    send(&mut s, words);
                    send(&mut s, &[next]);
                    s.packet(0);
                }
            }
            if let Some(before) = sequence.illegal_after {
                s.comment(&format!("{title}: illegal, next command"));
                for next in [0x0000, 0x2D80] {
                    fresh(&mut s, w, before);
                    send(&mut s, &sequence.completed[..1]);
                    send(&mut s, &[next]);
                    s.packet(0);
                }
            }
            s.say("state");
        }
        s.comment(&format!("5.5.3.3.12 RDMREG, W = {w}: completed, read again, illegal register"));
        fresh(&mut s, w, &[]);
        s.packets(&[0x2D80, 0, 0x2D80, 0x0C00, 0x2D80, 0, 0x2D81, 0x2D9F, 0]);
        s.say("state");
        s.comment(&format!("5.5.3.3.13 WDMREG, W = {w}: illegal registers"));
        for n in (0..32).filter(|n| ![0, 5, 6, 7, 8, 9, 12, 13, 14, 15].contains(n)) {
            s.packet(0x2C80 + n);
        }
        s.packet(0);
        s.comment(&format!("5.5.3.2 the READ of the sequence diagram, W = {w}: unimplemented word, sent again"));
        fresh(&mut s, w, &[]);
        s.packets(&[0x1988, 0x0000, 0x1980, 0x0000, 0x0008]);
        s.drain();
        s.packets(&[0x1D80]);
        s.drain();
        s.packet(0);
        s.say("state");
    }
    s.lines
}
