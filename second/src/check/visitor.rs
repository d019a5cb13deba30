//! `gateway` under test at a bridge: a process of its own, joined by pipes.

use crate::bridge::{Bridge, Visitor};
use std::collections::VecDeque;
use std::io::{Read, Write};
use std::path::Path;
use std::process::{Child, ChildStdin, Command, ExitStatus, Stdio};
use std::sync::mpsc::{self, Receiver, RecvTimeoutError, Sender};
use std::thread;
use std::time::{Duration, Instant};

/// The most that is read of either output.
const OUTPUT_LIMIT: u64 = 1 << 26;
/// Between two looks whether the process has ended.
const GLANCE: Duration = Duration::from_millis(1);

/// The program at this path, with so much time for each visit.
pub struct Process<'a> {
    pub path: &'a Path,
    pub patience: Duration,
}

impl Visitor for Process<'_> {
    fn visit(&mut self, arguments: &[String], bridge: &mut Bridge) -> Result<Vec<u8>, String> {
        let mut child = Command::new(self.path)
            .args(arguments)
            .stdin(Stdio::piped())
            .stdout(Stdio::piped())
            .stderr(Stdio::piped())
            .spawn()
            .map_err(|error| format!("{} could not be started: {error}", self.path.display()))?;
        let results = self.attend(&mut child, bridge);
        if results.is_err() {
            drop(child.kill());
            drop(child.wait());
        }
        results
    }
}

impl Process<'_> {
    fn attend(&self, child: &mut Child, bridge: &mut Bridge) -> Result<Vec<u8>, String> {
        let deadline = Instant::now() + self.patience;
        let lines = read_lines(child.stdout.take().expect("its output is a pipe"));
        let results = read_all(child.stderr.take().expect("its results are a pipe"));
        let answers = write_all(child.stdin.take().expect("its input is a pipe"));
        self.converse(&lines, answers, bridge, deadline)?;
        let results = results.recv_timeout(left_of(deadline)).map_err(|_| self.no_end(bridge))?;
        let status = self.wait(child, bridge, deadline)?;
        match status.code() {
            Some(_) => Ok(results),
            None => Err(format!("it ended with {status}: {}", String::from_utf8_lossy(&results))),
        }
    }

    /// Answers lines until there are no more of them.
    fn converse(
        &self,
        lines: &Receiver<Vec<Vec<u8>>>,
        answers: Sender<Vec<u8>>,
        bridge: &mut Bridge,
        deadline: Instant,
    ) -> Result<(), String> {
        let mut answers = Some(answers);
        let mut waiting: VecDeque<Vec<u8>> = VecDeque::new();
        loop {
            let Some(line) = waiting.pop_front() else {
                match lines.recv_timeout(left_of(deadline)) {
                    Ok(lines) => waiting.extend(lines),
                    Err(RecvTimeoutError::Disconnected) => return Ok(()),
                    Err(RecvTimeoutError::Timeout) => return Err(self.no_end(bridge)),
                }
                continue;
            };
            waiting.extend(lines.try_iter().flatten());
            if !waiting.is_empty() && bridge.must_wait_after_next() {
                bridge.note_ahead();
            }
            let answer = bridge.take_line(&line);
            if let Some(sender) = &answers {
                // A program that has ended reads no answer.
                drop(sender.send(answer.bytes));
            }
            if answer.ends {
                answers = None;
            }
        }
    }

    fn wait(&self, child: &mut Child, bridge: &Bridge, deadline: Instant) -> Result<ExitStatus, String> {
        loop {
            match child.try_wait() {
                Ok(Some(status)) => return Ok(status),
                Err(error) => return Err(error.to_string()),
                Ok(None) if Instant::now() > deadline => return Err(self.no_end(bridge)),
                Ok(None) => thread::sleep(GLANCE),
            }
        }
    }

    fn no_end(&self, bridge: &Bridge) -> String {
        format!("no end after {} seconds and {} packets", self.patience.as_secs_f64(), bridge.packets())
    }
}

pub(super) fn left_of(deadline: Instant) -> Duration {
    deadline.saturating_duration_since(Instant::now())
}

/// The lines of an output, each with its end; those that come at once are sent at once.
fn read_lines(output: impl Read + Send + 'static) -> Receiver<Vec<Vec<u8>>> {
    let (sender, receiver) = mpsc::channel();
    thread::spawn(move || {
        let mut output = output.take(OUTPUT_LIMIT);
        let mut open = Vec::new();
        let mut chunk = [0; 4096];
        while let Ok(count @ 1..) = output.read(&mut chunk) {
            open.extend_from_slice(&chunk[..count]);
            let ended = open.iter().rposition(|&byte| byte == b'\n').map_or(0, |end| end + 1);
            let whole: Vec<u8> = open.drain(..ended).collect();
            let lines: Vec<Vec<u8>> = whole.split_inclusive(|&byte| byte == b'\n').map(<[u8]>::to_vec).collect();
            if !lines.is_empty() && sender.send(lines).is_err() {
                return;
            }
        }
        if !open.is_empty() {
            drop(sender.send(vec![open]));
        }
    });
    receiver
}

pub(super) fn read_all(output: impl Read + Send + 'static) -> Receiver<Vec<u8>> {
    let (sender, receiver) = mpsc::channel();
    thread::spawn(move || {
        let mut bytes = Vec::new();
        drop(output.take(OUTPUT_LIMIT).read_to_end(&mut bytes));
        drop(sender.send(bytes));
    });
    receiver
}

/// Writes what is sent to it; the input ends when there is no sender any more.
fn write_all(mut input: ChildStdin) -> Sender<Vec<u8>> {
    let (sender, receiver) = mpsc::channel::<Vec<u8>>();
    thread::spawn(move || {
        while let Ok(bytes) = receiver.recv() {
            if input.write_all(&bytes).is_err() {
                return;
            }
        }
    });
    sender
}
