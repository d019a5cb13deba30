//! `bench`: the proved run of packets, listing, page, mending and events against the second program's, interleaved, in rounds, and the proved page
//! against the proved listing. `bench agree` only shows that the two agree, on more events and traces than are timed, and `bench names` what there is
//! to measure. `bench count WHAT WHOSE TIMES` does one of them so many times and nothing else, so that its instructions can be counted.

mod inputs;
mod ours;
mod rounds;
mod work;

use rounds::Contest;
use std::process::ExitCode;
use work::Work;

const USAGE: &str = "usage: bench | bench agree | bench names | bench count WHAT ours|second TIMES";

fn contests() -> [Contest; 18] {
    [
        packets("packets, slot table", || Work::on_packets(inputs::table())),
        packets("packets, registers", || Work::on_packets(inputs::registers())),
        packets("packets, noise", || Work::on_packets(inputs::noise())),
        trace("trace, transfers", || Work::on_trace(inputs::transfers())),
        trace("trace, stops", || Work::on_trace(inputs::stops())),
        trace("trace, jumble", || Work::on_trace(inputs::jumble())),
        page("page, transfers", || Work::on_trace(inputs::transfers())),
        page("page, stops", || Work::on_trace(inputs::stops())),
        page("page, jumble", || Work::on_trace(inputs::jumble())),
        by_listing("page by listing, transfers", || Work::on_trace(inputs::transfers())),
        by_listing("page by listing, stops", || Work::on_trace(inputs::stops())),
        by_listing("page by listing, jumble", || Work::on_trace(inputs::jumble())),
        mend("mend, readable", || Work::on_damaged(inputs::transfers())),
        mend("mend, dropouts", || Work::on_damaged(inputs::dropouts())),
        mend("mend, noise", || Work::on_damaged(inputs::noise_recorded(11, inputs::SIZE))),
        events("events, data", || Work::on_events(inputs::data())),
        events("events, PC", || Work::on_events(inputs::pc())),
        events("events, two levels", || Work::on_events(inputs::two_levels())),
    ]
}

fn packets(what: &'static str, input: fn() -> Work) -> Contest {
    Contest { what, input, ours: Work::run_ours, second: Work::run_second, other: "second" }
}

fn trace(what: &'static str, input: fn() -> Work) -> Contest {
    Contest { what, input, ours: Work::list_ours, second: Work::list_second, other: "second" }
}

fn page(what: &'static str, input: fn() -> Work) -> Contest {
    Contest { what, input, ours: Work::page_ours, second: Work::page_second, other: "second" }
}

/// The same cycles: a page that took twice a listing's time would have the ratio 0.50.
fn by_listing(what: &'static str, input: fn() -> Work) -> Contest {
    Contest { what, input, ours: Work::page_ours, second: Work::list_ours, other: "listing" }
}

fn mend(what: &'static str, input: fn() -> Work) -> Contest {
    Contest { what, input, ours: Work::mend_ours, second: Work::mend_second, other: "second" }
}

fn events(what: &'static str, input: fn() -> Work) -> Contest {
    Contest { what, input, ours: Work::events_ours, second: Work::events_second, other: "second" }
}

/// The events that are timed are all accepted; these are not.
fn agree_on_any_events() -> Result<(), String> {
    let work = |seed| Work::on_events(inputs::any_events(seed));
    match (0..4_096).find(|&seed| !Work::agrees(work(seed), work(seed), Work::events_ours, Work::events_second)) {
        None => Ok(()),
        Some(seed) => Err(format!("events of seed {seed}: the two do not agree")),
    }
}

/// The way back is not timed.
fn agree_on_the_way_back() -> Result<(), String> {
    let trace = |seed: u64| inputs::noise_recorded(seed, seed as usize % 300);
    match (0..2_048).find(|&seed| !work::agrees_back(trace(seed), 1 << (seed % 20))) {
        None => Ok(()),
        Some(seed) => Err(format!("a trace of seed {seed}, mended and put back: the two do not agree")),
    }
}

fn agree_untimed() -> Result<(), String> {
    agree_on_any_events().and_then(|()| agree_on_the_way_back())
}

fn main() -> ExitCode {
    let arguments: Vec<String> = std::env::args().skip(1).collect();
    let arguments: Vec<&str> = arguments.iter().map(String::as_str).collect();
    let done = match arguments[..] {
        [] => agree_untimed().and_then(|()| contests().iter().try_for_each(Contest::hold)),
        ["agree"] => agree_untimed().and_then(|()| contests().iter().try_for_each(Contest::agree)),
        ["names"] => {
            contests().iter().for_each(|contest| println!("{}", contest.what));
            Ok(())
        }
        ["count", what, whose, times] => count(what, whose, times),
        _ => Err(USAGE.to_string()),
    };
    match done {
        Ok(()) => ExitCode::SUCCESS,
        Err(message) => {
            eprintln!("bench: {message}");
            ExitCode::FAILURE
        }
    }
}

fn count(what: &str, whose: &str, times: &str) -> Result<(), String> {
    let contest = contests().into_iter().find(|contest| contest.what == what).ok_or(USAGE)?;
    let side = match whose {
        "ours" => contest.ours,
        "second" => contest.second,
        _ => return Err(USAGE.to_string()),
    };
    let times: u32 = times.parse().map_err(|_| USAGE)?;
    let mut work = (contest.input)();
    for _ in 0..times {
        std::hint::black_box(side(std::hint::black_box(&mut work)));
    }
    Ok(())
}
