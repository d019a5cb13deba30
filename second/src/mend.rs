//! Traces with dropouts (02, [5]): a trace of the same length that can be read, what was changed, and the way back.

use crate::refusal::{Ground, Refusal};
use crate::trace::TRACE_LIMIT;

/// Mends `trace` into the front of `mended` and lists every changed cycle at the front of `list`, in cycle order: cycle times
/// 16 plus the PST that it had. Gives the number of changed cycles; what lies beyond stays, and a refusal leaves all of both:
/// ground 7, then 11 for `mended`, then 11 for `list`.
pub fn mend(trace: &[u8], mended: &mut [u8], list: &mut [u32]) -> Result<usize, Refusal> {
    if trace.len() > TRACE_LIMIT {
        return Err(Ground::TraceTooLong.into());
    }
    let mended = mended.get_mut(..trace.len()).ok_or(Ground::BufferTooShort)?;
    let (changed, cut) = survey(trace);
    let list = list.get_mut(..changed).ok_or(Ground::BufferTooShort)?;
    let mut words = list.iter_mut();
    let mut judge = Judge::default();
    for (cycle, (&byte, place)) in trace.iter().zip(mended).enumerate() {
        // The marker that is cut is judged as one that stands: what it wiped stays wiped.
        let wiped = judge.wipes(cycle, byte >> 4) || cut == Some(cycle);
        *place = if wiped { byte & 0xF } else { byte };
        if wiped {
            if let Some(word) = words.next() {
                *word = cycle as u32 * 16 + u32::from(byte >> 4);
            }
        }
    }
    Ok(changed)
}

/// The trace as it was recorded; none unless it is one that gives this very trace and this very list when it is mended.
pub fn unmend(mended: &[u8], list: &[u32]) -> Option<Vec<u8>> {
    let mut recorded = mended.to_vec();
    for word in list {
        let byte = recorded.get_mut((word / 16) as usize)?;
        *byte = (word % 16) as u8 * 16 + *byte % 16;
    }
    let mut again = vec![0; recorded.len()];
    let mut changes = vec![0; recorded.len()];
    let changed = mend(&recorded, &mut again, &mut changes).ok()?;
    (again == mended && changes[..changed] == *list).then_some(recorded)
}

/// How many cycles are wiped, and the one among them whose transfer the end of the trace cuts.
fn survey(trace: &[u8]) -> (usize, Option<usize>) {
    let mut judge = Judge::default();
    let wiped = trace.iter().enumerate().filter(|&(cycle, byte)| judge.wipes(cycle, byte >> 4)).count();
    let cut = judge.cut();
    (wiped + usize::from(cut.is_some()), cut)
}

/// Judges cycle after cycle, over what has been mended so far.
#[derive(Default)]
struct Judge {
    /// Nibbles of the transfer still due, the next cycle's counted.
    due: u8,
    /// The cycle of the marker that announced them.
    marker: usize,
}

impl Judge {
    /// Whether a cycle with this PST becomes PST 0: one that is reserved, or a marker too soon.
    fn wipes(&mut self, cycle: usize, pst: u8) -> bool {
        let due = self.due;
        self.due = due.saturating_sub(1);
        match pst {
            0x2 | 0x6 => true,
            0x8..=0xB if due >= 2 => true,
            0x8..=0xB => {
                self.due = 2 * (pst - 7);
                self.marker = cycle;
                false
            }
            _ => false,
        }
    }

    /// The marker of the transfer that is under way where the trace ends.
    fn cut(&self) -> Option<usize> {
        (self.due > 0).then_some(self.marker)
    }
}
