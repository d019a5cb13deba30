//! The shortest script or trace that still shows a difference (delta debugging).

use std::time::{Duration, Instant};

/// Leaves parts of `items` out as long as what is left still fails, for so much time at most.
pub fn shrink<T: Clone>(items: &[T], time: Duration, mut fails: impl FnMut(&[T]) -> bool) -> Vec<T> {
    let start = Instant::now();
    let mut kept = items.to_vec();
    let mut part = kept.len().div_ceil(2);
    while part > 0 {
        let mut removed = false;
        let mut from = 0;
        while from < kept.len() {
            if start.elapsed() > time {
                return kept;
            }
            let to = (from + part).min(kept.len());
            let shorter = [&kept[..from], &kept[to..]].concat();
            if fails(&shorter) {
                kept = shorter;
                removed = true;
            } else {
                from = to;
            }
        }
        if part > 1 {
            part = part.div_ceil(2);
        } else if !removed {
            part = 0;
        }
    }
    kept
}

/// Puts parts of `plain`, which is as long, in the place of those of `items` as long as the whole still fails, for so much
/// time at most.
pub fn blank<T: Clone + PartialEq>(
    items: &[T],
    plain: &[T],
    time: Duration,
    mut fails: impl FnMut(&[T]) -> bool,
) -> Vec<T> {
    let start = Instant::now();
    let mut kept = items.to_vec();
    let mut part = kept.len();
    while part > 0 {
        for from in (0..kept.len()).step_by(part) {
            if start.elapsed() > time {
                return kept;
            }
            let to = (from + part).min(kept.len());
            let mut blanked = kept.clone();
            blanked[from..to].clone_from_slice(&plain[from..to]);
            if blanked != kept && fails(&blanked) {
                kept = blanked;
            }
        }
        part /= 2;
    }
    kept
}
