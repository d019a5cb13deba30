//! Random scripts and traces, well aimed: the same seed gives the same script for ever.

mod aim;
mod breakpoints;
mod dropouts;
mod fault;
mod from;
mod gateway;
mod halt;
mod list;
mod marks;
mod noise;
mod pod;
mod rng;
mod spoilt;
mod stand_in;
mod talk;
mod trace;
mod typing;
mod waits;

pub use dropouts::damaged_trace;
pub use from::random_arguments;
pub use gateway::gateway_script;
pub use list::List;
pub use marks::marked_trace;
pub use pod::pod_script;
pub use rng::Rng;
pub use spoilt::spoilt_list;
pub use stand_in::stand_in_script;
pub use talk::talk_script;
pub use trace::random_trace;
pub use typing::{plain, typed_script};
pub use waits::{clear_lines, waits_file};

/// The lines of a random script for a line program, each with its end; the last may lack it.
pub fn random_script(program: &str, rng: &mut Rng, length: usize) -> Vec<Vec<u8>> {
    let mut lines = match program {
        "stand_in" => stand_in_script(rng, length),
        "pod" => pod_script(rng, length),
        "talk" => talk_script(rng, length),
        _ => panic!("{program} is no line program"),
    };
    // What follows `quit` is not read, so little does.
    if rng.once_in(6) {
        let place = lines.len().saturating_sub(rng.between(1, 10) as usize);
        lines.splice(place..place + 1, [rng.pick::<&[u8]>(&[b"quit", b"QUIT", b"\tQuit "]).to_vec()]);
    }
    typed_script(rng, lines)
}
