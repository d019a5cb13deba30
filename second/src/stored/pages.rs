//! Pages: every trace of the lister's, and quotients of all kinds.

use super::{traces, Stored};
use crate::random::{marked_trace, Rng};
use crate::trace::TRACE_LIMIT;

/// Cycles over starts: whole, periodic, half a hundredth over, a hair below and above that, and the widest.
#[rustfmt::skip]
const QUOTIENTS: [(usize, usize); 30] = [
    (1, 1), (2, 1), (3, 2), (4, 3), (5, 3), (7, 6), (9, 7), (9, 8), (11, 8), (13, 8), (15, 8), (17, 8), (11, 10),
    (41, 40), (201, 200), (203, 200), (399, 200), (1001, 200), (1005, 1000), (1_006, 1_001), (1_126, 1_019),
    (65_525, 65_199), (65_527, 65_201), (65_535, 2), (65_535, 65_534), (65_536, 1), (65_536, 3), (65_536, 7),
    (64_755, 20_017), (65_536, 65_535),
];

pub fn all() -> Vec<Stored> {
    let mut pages: Vec<Stored> = traces::all().into_iter().map(|stored| Stored { folder: "page", ..stored }).collect();
    for (cycles, starts) in QUOTIENTS {
        let mut trace = vec![0; cycles];
        trace[..starts].fill(0x10);
        pages.push(Stored::new("page", format!("rate_{cycles}_{starts}"), trace));
    }
    for cycles in [255, 256, 257, 511, 512, 513, TRACE_LIMIT - 256, TRACE_LIMIT - 255, TRACE_LIMIT - 1] {
        pages.push(Stored::new("page", format!("length_{cycles}"), vec![0x3F; cycles]));
    }
    let mut rng = Rng::new(2);
    for place in 0..60 {
        pages.push(Stored::new("page", format!("marked_{place:02}"), marked_trace(&mut rng)));
    }
    pages
}
