//! The proved libraries' six functions. A slice crosses as its address and its length.

mod linked {
    extern "C" {
        pub fn yarkovesh_run(
            w: u32,
            memory: *mut u8,
            memory_length: usize,
            words: *const u32,
            words_length: usize,
            replies: *mut u32,
            replies_length: usize,
        ) -> u32;
        pub fn yarkovesh_list(trace: *const u8, trace_length: usize, words: *mut u32, words_length: usize) -> u64;
        pub fn yarkovesh_page(
            trace: *const u8,
            trace_length: usize,
            counts: *mut [u32; 16],
            firsts: *mut [u32; 16],
            lasts: *mut [u32; 16],
            starts: *mut u32,
            rate: *mut u64,
            index: *mut u32,
            index_length: usize,
        ) -> u64;
        pub fn yarkovesh_mend(
            trace: *const u8,
            trace_length: usize,
            bytes: *mut u8,
            bytes_length: usize,
            words: *mut u32,
            words_length: usize,
        ) -> u64;
        pub fn yarkovesh_unmend(trace: *mut u8, trace_length: usize, words: *const u32, words_length: usize) -> u32;
        pub fn yarkovesh_events(
            registers: *const [u32; 10],
            events: *const u32,
            events_length: usize,
            answers: *mut u32,
            answers_length: usize,
        ) -> u32;
    }
}

/// A run of packets on a fresh board: 0, or the number of its refusal.
pub fn run(w: u32, memory: &mut [u8], packets: &[u32], replies: &mut [u32]) -> u32 {
    // SAFETY: each address and length is a slice's own, and the two that are written are borrowed for this call alone.
    unsafe {
        linked::yarkovesh_run(
            w,
            memory.as_mut_ptr(),
            memory.len(),
            packets.as_ptr(),
            packets.len(),
            replies.as_mut_ptr(),
            replies.len(),
        )
    }
}

/// The number of items; or the number of the refusal times 2^32, and the cycle.
pub fn list(trace: &[u8], words: &mut [u32]) -> u64 {
    // SAFETY: as above.
    unsafe { linked::yarkovesh_list(trace.as_ptr(), trace.len(), words.as_mut_ptr(), words.len()) }
}

/// What a page says beside its items, cycles and index.
#[derive(Default, PartialEq)]
pub struct Numbers {
    pub counts: [u32; 16],
    pub firsts: [u32; 16],
    pub lasts: [u32; 16],
    pub starts: u32,
    /// The rate's bits, 0 where nothing started.
    pub rate: u64,
}

/// As `list` answers.
pub fn page(trace: &[u8], numbers: &mut Numbers, index: &mut [u32]) -> u64 {
    // SAFETY: as above, and each part of the numbers is a place of its own.
    unsafe {
        linked::yarkovesh_page(
            trace.as_ptr(),
            trace.len(),
            &mut numbers.counts,
            &mut numbers.firsts,
            &mut numbers.lasts,
            &mut numbers.starts,
            &mut numbers.rate,
            index.as_mut_ptr(),
            index.len(),
        )
    }
}

/// The number of changed cycles; or the number of the refusal times 2^32.
pub fn mend(trace: &[u8], mended: &mut [u8], list: &mut [u32]) -> u64 {
    // SAFETY: as above.
    unsafe {
        linked::yarkovesh_mend(
            trace.as_ptr(),
            trace.len(),
            mended.as_mut_ptr(),
            mended.len(),
            list.as_mut_ptr(),
            list.len(),
        )
    }
}

/// Whether the list is the trace's, which is then as it was recorded.
pub fn unmend(trace: &mut [u8], list: &[u32]) -> bool {
    // SAFETY: as above.
    unsafe { linked::yarkovesh_unmend(trace.as_mut_ptr(), trace.len(), list.as_ptr(), list.len()) == 1 }
}

/// Events on a board as set up: 0, or the number of the refusal.
pub fn events(registers: &[u32; 10], events: &[u32], answers: &mut [u32]) -> u32 {
    // SAFETY: as above.
    unsafe { linked::yarkovesh_events(registers, events.as_ptr(), events.len(), answers.as_mut_ptr(), answers.len()) }
}
