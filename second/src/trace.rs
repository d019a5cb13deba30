//! Recorded cycles (01; 000, section 5.3): the items of a trace of PST and DDATA.

use crate::refusal::{Ground, Refusal};

/// The longest trace, in cycles.
pub const TRACE_LIMIT: usize = 65_536;

/// Lists `trace` into `words`, two words an item: cycle times 16 plus code, then the value or 0. Gives the number of items;
/// words beyond the last item stay, and a refusal leaves them all.
pub fn list_trace(trace: &[u8], words: &mut [u32]) -> Result<usize, Refusal> {
    let items = count_items(trace)?;
    if words.len() / 2 < items {
        return Err(Ground::BufferTooShort.into());
    }
    let mut pairs = words.chunks_exact_mut(2);
    let mut decoder = Decoder::new();
    for (cycle, &byte) in trace.iter().enumerate() {
        decoder.step(cycle as u32, byte, |head, value| {
            if let Some([first, second]) = pairs.next() {
                *first = head;
                *second = value;
            }
        })?;
    }
    Ok(items)
}

/// How many items a trace gives; grounds 7, then the earliest of 8 and 9, then 10.
pub fn count_items(trace: &[u8]) -> Result<usize, Refusal> {
    if trace.len() > TRACE_LIMIT {
        return Err(Ground::TraceTooLong.into());
    }
    let mut items = 0;
    let mut decoder = Decoder::new();
    for (cycle, &byte) in trace.iter().enumerate() {
        decoder.step(cycle as u32, byte, |_, _| items += 1)?;
    }
    if decoder.due > 0 {
        return Err(Ground::TraceEndsInTransfer.into());
    }
    Ok(items)
}

/// What one cycle hands to the next.
#[derive(Clone, Copy, PartialEq, Eq, Default, Debug)]
pub(crate) struct Decoder {
    /// Nibbles of the transfer still due.
    pub(crate) due: u32,
    /// The marker that announced them.
    pub(crate) marker: u8,
    /// Where the next nibble goes, and the nibbles so far.
    shift: u32,
    value: u32,
    /// The code of the run under way, C to F, or 0.
    pub(crate) run: u8,
}

impl Decoder {
    pub(crate) fn new() -> Decoder {
        Decoder::default()
    }

    /// Takes one cycle and hands its items to `item`: first the value that ends here, then the cycle's own.
    #[inline]
    pub(crate) fn step(&mut self, cycle: u32, byte: u8, mut item: impl FnMut(u32, u32)) -> Result<(), Refusal> {
        let (pst, ddata) = (byte >> 4, byte & 0xF);
        match pst {
            0x2 | 0x6 => return Err(Refusal::at(Ground::ReservedPst, cycle)),
            0x8..=0xB if self.due >= 2 => {
                return Err(Refusal::at(Ground::MarkerTooEarly, cycle));
            }
            _ => {}
        }
        if self.due > 0 {
            self.value |= u32::from(ddata) << self.shift;
            self.shift += 4;
            self.due -= 1;
            if self.due == 0 {
                item(cycle * 16 + u32::from(self.marker), self.value);
            }
        }
        match pst {
            0x8..=0xB => {
                self.due = 2 * (u32::from(pst) - 7);
                self.marker = pst;
                self.shift = 0;
                self.value = 0;
            }
            0xC..=0xF => {
                if self.run != pst {
                    item(cycle * 16 + u32::from(pst), 0);
                }
                self.run = pst;
            }
            0x0 => self.run = 0,
            _ => {
                item(cycle * 16 + u32::from(pst), 0);
                self.run = 0;
            }
        }
        Ok(())
    }
}
