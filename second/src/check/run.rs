//! Running a program under test on a whole input.

use super::visitor::{left_of, read_all};
use super::{Process, Subject};
use crate::bridge::{play, played_output};
use crate::desk::says_and_writes;
use std::io::Write;
use std::process::{Child, Command, Stdio};
use std::thread;
use std::time::{Duration, Instant};

/// How long a program may take over one input.
const PATIENCE: Duration = Duration::from_secs(60);

/// What a program did with its input.
pub struct Run {
    /// Standard output; behind standard error, for a program that says there what it has to say.
    pub output: Vec<u8>,
    /// How it ended and what it complained of, if either is worth a word. The language has no exit status, so an output is
    /// compared whatever the status is.
    pub note: String,
}

/// What a program left when it came to its end.
pub struct Left {
    pub output: Vec<u8>,
    pub errors: Vec<u8>,
    status: i32,
}

/// Runs the program to its end; or says why it came to none: it could not be started, was killed, or did not stop.
pub fn run(subject: Subject, input: &[u8]) -> Result<Run, String> {
    match subject.name {
        "gateway" => run_scenes(subject, input),
        name => {
            let Left { output, errors, status } = run_on(subject, input)?;
            let (output, complaints) =
                if says_and_writes(name) { ([errors, output].concat(), Vec::new()) } else { (output, errors) };
            Ok(Run { output, note: note_of(status, &complaints) })
        }
    }
}

/// Plays scenes with the program at the bridge; what it said is part of what comes out.
fn run_scenes(subject: Subject, input: &[u8]) -> Result<Run, String> {
    let played = play(input, &mut Process { path: subject.path, patience: PATIENCE })?;
    Ok(Run { output: played_output(&played), note: String::new() })
}

/// Runs the program to its end, with both of its outputs apart.
pub fn run_on(subject: Subject, input: &[u8]) -> Result<Left, String> {
    let mut child = Command::new(subject.path)
        .args(subject.arguments)
        .stdin(Stdio::piped())
        .stdout(Stdio::piped())
        .stderr(Stdio::piped())
        .spawn()
        .map_err(|error| format!("{} could not be started: {error}", subject.path.display()))?;
    let Some((output, errors)) = attend(&mut child, input.to_vec()) else {
        drop(child.kill());
        drop(child.wait());
        return Err(format!("no end of output after {} seconds", PATIENCE.as_secs()));
    };
    let status = child.wait().map_err(|error| error.to_string())?;
    match status.code() {
        Some(status) => Ok(Left { output, errors, status }),
        None => Err(format!("it ended with {status}: {}", beginning(&errors))),
    }
}

/// Writes the input and reads both outputs to their ends; none if one has no end in time.
fn attend(child: &mut Child, input: Vec<u8>) -> Option<(Vec<u8>, Vec<u8>)> {
    let deadline = Instant::now() + PATIENCE;
    let mut stdin = child.stdin.take().expect("its input is a pipe");
    let output = read_all(child.stdout.take().expect("its output is a pipe"));
    let errors = read_all(child.stderr.take().expect("its complaints are a pipe"));
    // A program that ends early closes its input; its output tells the rest.
    thread::spawn(move || drop(stdin.write_all(&input)));
    Some((output.recv_timeout(left_of(deadline)).ok()?, errors.recv_timeout(left_of(deadline)).ok()?))
}

/// How a program ended and what it complained of; nothing where all is well.
fn note_of(status: i32, complaints: &[u8]) -> String {
    if status == 0 && complaints.is_empty() {
        return String::new();
    }
    format!("it ended with status {status} and said: {}", beginning(complaints))
}

fn beginning(text: &[u8]) -> String {
    const SHOWN: usize = 4096;
    String::from_utf8_lossy(&text[..text.len().min(SHOWN)]).into_owned()
}
