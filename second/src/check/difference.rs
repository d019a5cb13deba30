//! Where two outputs part, and the input line that caused it.

use super::folder::own_output;
use super::run::{run, Run};
use super::Subject;
use crate::bridge::{play, Own};
use crate::desk::LINE_PROGRAMS;
use crate::line::{gets_no_answer, lines};
use std::fmt;

/// The first difference between the expected output and that of a program under test.
#[derive(Debug)]
pub enum Difference {
    Line {
        /// The input line that caused it, counted from 1, if there is one.
        cause: Option<(usize, Vec<u8>)>,
        /// The answer's number, counted from 1.
        answer: usize,
        expected: Option<Vec<u8>>,
        actual: Option<Vec<u8>>,
        /// How the program ended, if that is worth a word.
        note: String,
    },
    Failed(String),
}

/// Runs a program under test on an input and compares its output with the expected one.
pub fn try_expected(subject: Subject, input: &[u8], expected: &[u8]) -> Option<Difference> {
    match run(subject, input) {
        Ok(run) => first_difference(subject.name, input, expected, run),
        Err(message) => Some(Difference::Failed(message)),
    }
}

/// As `try_expected`, with what this program prints.
pub fn try_input(subject: Subject, input: &[u8]) -> Option<Difference> {
    let expected = own_output(subject.name, subject.arguments, input);
    try_expected(subject, input, &expected)
}

/// As `try_input`, for the lines of a script, each with its end.
pub fn try_lines(subject: Subject, lines: &[Vec<u8>]) -> Option<Difference> {
    try_input(subject, &lines.concat())
}

fn first_difference(name: &str, input: &[u8], expected: &[u8], run: Run) -> Option<Difference> {
    if expected == run.output {
        return None;
    }
    let mut expected_lines = expected.split_inclusive(|&byte| byte == b'\n');
    let mut actual_lines = run.output.split_inclusive(|&byte| byte == b'\n');
    let mut answer = 0;
    loop {
        answer += 1;
        let (expected, actual) = (expected_lines.next(), actual_lines.next());
        if expected != actual {
            return Some(Difference::Line {
                cause: match name {
                    "gateway" => cause_in_scene(input, answer),
                    name if LINE_PROGRAMS.contains(&name) => cause(input, answer),
                    _ => None,
                },
                answer,
                expected: expected.map(<[u8]>::to_vec),
                actual: actual.map(<[u8]>::to_vec),
                note: run.note,
            });
        }
    }
}

/// The input line that gets this answer: empty lines and comments get none. What is answered beyond `quit` has a line too.
fn cause(input: &[u8], answer: usize) -> Option<(usize, Vec<u8>)> {
    let answered = lines(input).into_iter().enumerate().filter(|(_, line)| !gets_no_answer(line)).nth(answer - 1);
    answered.map(|(place, line)| (place + 1, line.to_vec()))
}

/// The line of a scene that this line of the output is for, as this program plays it.
fn cause_in_scene(input: &[u8], answer: usize) -> Option<(usize, Vec<u8>)> {
    let mut played = play(input, &mut Own).ok()?.into_iter();
    let mut lines = 0;
    let one = played.find(|one| {
        lines += one.output.len();
        answer <= lines
    })?;
    Some((one.number, one.line))
}

impl fmt::Display for Difference {
    fn fmt(&self, f: &mut fmt::Formatter<'_>) -> fmt::Result {
        match self {
            Difference::Failed(message) => write!(f, "  {message}"),
            Difference::Line { cause, answer, expected, actual, note } => {
                match cause {
                    Some((number, line)) => writeln!(f, "  line {number}:   {}", shown(Some(line)))?,
                    None => writeln!(f, "  output line {answer}")?,
                }
                let same = same_beginning(expected.as_deref(), actual.as_deref());
                if same > 0 {
                    writeln!(f, "  both begin with the same {same} bytes")?;
                }
                writeln!(f, "  expected: {}", shown(expected.as_deref().map(|line| &line[same..])))?;
                write!(f, "  actual:   {}", shown(actual.as_deref().map(|line| &line[same..])))?;
                if !note.is_empty() {
                    write!(f, "\n  {note}")?;
                }
                Ok(())
            }
        }
    }
}

/// The most of a line that is shown.
const SHOWN: usize = 1000;

/// How many bytes need not be shown, so that two very long lines are seen to differ.
fn same_beginning(one: Option<&[u8]>, other: Option<&[u8]>) -> usize {
    let (one, other) = (one.unwrap_or_default(), other.unwrap_or_default());
    let same = one.iter().zip(other).take_while(|(one, other)| one == other).count();
    same.saturating_sub(SHOWN / 2)
}

/// A line in print. Only a line end that is LF alone is not shown.
pub fn shown(line: Option<&[u8]>) -> String {
    match line {
        None => "(nothing)".to_string(),
        Some([body @ .., b'\n']) if body.last() != Some(&b'\r') => in_print(body),
        Some(line) => in_print(line),
    }
}

/// Bytes in print, cut if they are very many.
pub fn in_print(bytes: &[u8]) -> String {
    let text = bytes[..bytes.len().min(SHOWN)].escape_ascii().to_string();
    if bytes.len() > SHOWN {
        format!("{text}.. ({} bytes)", bytes.len())
    } else {
        text
    }
}
