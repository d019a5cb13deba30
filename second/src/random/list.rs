//! What `unmend` reads, in its parts, so that each of them can be spoilt.

use crate::mend::mend;
use crate::trace::TRACE_LIMIT;

/// What `mend` printed for a trace, and the mended trace behind it.
#[derive(Clone, PartialEq, Eq, Debug)]
pub struct List {
    pub cycles: u64,
    pub changed: u64,
    /// The changed cycles and the PSTs that they had.
    pub changes: Vec<(u64, u64)>,
    pub trace: Vec<u8>,
}

impl List {
    /// Of a trace as it was recorded; of one that is too long, without its last cycles.
    pub fn of(recorded: &[u8]) -> List {
        let recorded = &recorded[..recorded.len().min(TRACE_LIMIT)];
        let mut trace = vec![0; recorded.len()];
        let mut words = vec![0; recorded.len()];
        let changed = mend(recorded, &mut trace, &mut words).expect("a trace that is not too long");
        let changes = words[..changed].iter().map(|&word| (u64::from(word / 16), u64::from(word % 16))).collect();
        List { cycles: trace.len() as u64, changed: changed as u64, changes, trace }
    }

    /// The text that `mend` prints.
    pub fn text(&self) -> Vec<u8> {
        let head = format!("mended cycles={} changed={}\n", self.cycles, self.changed);
        let lines = self.changes.iter().map(|(cycle, pst)| format!("{cycle} {pst}\n"));
        [head].into_iter().chain(lines).collect::<String>().into_bytes()
    }

    /// The text with the trace behind it.
    pub fn to_bytes(&self) -> Vec<u8> {
        [self.text(), self.trace.clone()].concat()
    }
}
