//! `second NAME ..`: the desk's programs, the morning's check, the vectors, and the comparison with other programs.

use second::cycles::parse_cycles;
use second::desk::{self, morning};
use second::{check, stored};
use std::io::{self, BufWriter, Write};
use std::path::Path;
use std::process::ExitCode;

const USAGE: &str = "usage: second stand_in | pod | talk | trace_list | page | mend | unmend | waits
       second trace_list FROM
       second gateway [ADDRESS LONGWORDS]
       second morning
       second cycles
       second gen DIR
       second expect DIR
       second compare [--all] BIN_DIR VECTORS_DIR
       second random [--all] BIN_DIR SEED COUNT
       second soak [--all] BIN_DIR SECONDS";

fn main() -> ExitCode {
    // An argument that is no text is no number either, and no name of anything here.
    let arguments: Vec<String> =
        std::env::args_os().skip(1).map(|argument| argument.to_string_lossy().into_owned()).collect();
    let mut arguments: Vec<&str> = arguments.iter().map(String::as_str).collect();
    // What follows `trace_list` is a cycle or unclear, what follows `gateway` a table or unclear, whatever it is elsewhere.
    match &arguments[..] {
        ["trace_list", rest @ ..] => return exit(list(rest)),
        ["gateway", rest @ ..] => return visit(rest),
        _ => {}
    }
    let all = arguments.contains(&"--all");
    arguments.retain(|&argument| argument != "--all");
    let done = match arguments[..] {
        ["page"] => print_page(),
        ["mend"] => mend(),
        ["unmend"] => unmend(),
        ["waits"] => print_waits(),
        [name] if desk::LINE_PROGRAMS.contains(&name) => converse(name),
        ["morning"] => check_morning(),
        ["cycles"] => write_cycles(),
        ["gen", directory] => stored::generate(Path::new(directory)).map(|()| true),
        ["expect", directory] => check::expect(Path::new(directory)).map(|()| true),
        ["compare", programs, vectors] => check::compare(Path::new(programs), Path::new(vectors), all),
        ["random", programs, seed, count] => match (seed.parse(), count.parse()) {
            (Ok(seed), Ok(count)) => Ok(check::random(Path::new(programs), seed, count, all)),
            _ => Err(USAGE.to_string()),
        },
        ["soak", programs, seconds] => match seconds.parse() {
            Ok(seconds) => Ok(check::soak(Path::new(programs), seconds, all)),
            Err(_) => Err(USAGE.to_string()),
        },
        _ => Err(USAGE.to_string()),
    };
    exit(done)
}

fn exit(done: Result<bool, String>) -> ExitCode {
    match done {
        Ok(true) => ExitCode::SUCCESS,
        Ok(false) => ExitCode::FAILURE,
        Err(message) => {
            eprintln!("{message}");
            ExitCode::from(2)
        }
    }
}

fn converse(name: &str) -> Result<bool, String> {
    let mut program = desk::line_program(name).expect("a line program's name");
    let mut output = BufWriter::new(io::stdout().lock());
    desk::converse(program.as_mut(), &mut io::stdin().lock(), &mut output)
        .map_err(|error| format!("second {name}: {error}"))?;
    Ok(true)
}

fn list(arguments: &[&str]) -> Result<bool, String> {
    let mut output = BufWriter::new(io::stdout().lock());
    desk::trace_list(arguments, &mut io::stdin().lock(), &mut output)
        .map_err(|error| format!("second trace_list: {error}"))?;
    Ok(true)
}

fn visit(arguments: &[&str]) -> ExitCode {
    let mut output = BufWriter::new(io::stdout().lock());
    let mut results = BufWriter::new(io::stderr().lock());
    match desk::gateway(arguments, &mut io::stdin().lock(), &mut output, &mut results) {
        Ok(()) => ExitCode::SUCCESS,
        // Standard error can't be written: there is nowhere to say why.
        Err(_) => ExitCode::FAILURE,
    }
}

fn print_page() -> Result<bool, String> {
    let mut output = BufWriter::new(io::stdout().lock());
    desk::page(&mut io::stdin().lock(), &mut output).map_err(|error| format!("second page: {error}"))?;
    Ok(true)
}

fn mend() -> Result<bool, String> {
    let (mut output, mut list) = (BufWriter::new(io::stdout().lock()), BufWriter::new(io::stderr()));
    desk::mend(&mut io::stdin().lock(), &mut output, &mut list).map_err(|error| format!("second mend: {error}"))?;
    Ok(true)
}

fn unmend() -> Result<bool, String> {
    let (mut output, mut said) = (BufWriter::new(io::stdout().lock()), BufWriter::new(io::stderr()));
    desk::unmend(&mut io::stdin().lock(), &mut output, &mut said).map_err(|error| format!("second unmend: {error}"))?;
    Ok(true)
}

fn print_waits() -> Result<bool, String> {
    let mut output = BufWriter::new(io::stdout().lock());
    desk::waits(&mut io::stdin().lock(), &mut output).map_err(|error| format!("second waits: {error}"))?;
    Ok(true)
}

/// The bytes of a trace that is given as text, for the vectors.
fn write_cycles() -> Result<bool, String> {
    let text = io::read_to_string(io::stdin()).map_err(|error| format!("second cycles: {error}"))?;
    let trace = parse_cycles(&text).ok_or("second cycles: a cycle is two hexadecimal digits, or 20*3 for 20 20 20")?;
    io::stdout().write_all(&trace).map_err(|error| format!("second cycles: {error}"))?;
    Ok(true)
}

fn check_morning() -> Result<bool, String> {
    let mut output = BufWriter::new(io::stdout().lock());
    morning::write_page(&morning::run_checks(), &mut output).map_err(|error| format!("second morning: {error}"))
}
