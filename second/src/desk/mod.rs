//! The desk's programs and their lines (desk-language.md).

mod bench;
mod gateway;
mod mend;
pub mod morning;
mod page;
mod pod;
mod stand_in;
mod talk;
mod trace_list;
mod unmend;
mod waits;

pub use bench::Bench;
pub use gateway::gateway;
pub use mend::mend;
pub use page::page;
pub use pod::{parse_request, Pod};
pub use stand_in::StandIn;
pub use talk::Talk;
pub use trace_list::trace_list;
pub use unmend::{unmend, INPUT_LIMIT};
pub use waits::{waits, FILE_LIMIT};

use crate::line::{gets_no_answer, words, LINE_LIMIT};
use std::io::{self, BufRead, Write};

/// The answer to a line that is none of the language.
pub const UNCLEAR: &str = "unclear";

/// The answer to `quit`, and to nothing else: the program ends with it.
pub const BYE: &str = "bye";

/// A program that answers lines.
pub trait Program {
    /// The answer to `help`: the first words of the program's lines.
    fn help(&self) -> &'static str;

    /// The answer to a line of these words, in lower case, other than `help` and `quit`; none if the line is unclear, and
    /// then nothing has changed.
    fn answer_words(&mut self, words: &[&[u8]]) -> Option<String>;

    /// The answer to a line without its line end; none for an empty line and a comment.
    fn answer(&mut self, line: &[u8]) -> Option<String> {
        if gets_no_answer(line) {
            return None;
        }
        let answer = if line.len() > LINE_LIMIT {
            None
        } else {
            match &words(&line.to_ascii_lowercase())[..] {
                [b"help"] => Some(self.help().to_string()),
                [b"quit"] => Some(BYE.to_string()),
                words => self.answer_words(words),
            }
        };
        Some(answer.unwrap_or_else(|| UNCLEAR.to_string()))
    }
}

/// The line programs by name.
pub const LINE_PROGRAMS: [&str; 3] = ["stand_in", "pod", "talk"];

/// A fresh line program.
pub fn line_program(name: &str) -> Option<Box<dyn Program>> {
    Some(match name {
        "stand_in" => Box::new(StandIn::new()),
        "pod" => Box::new(Pod),
        "talk" => Box::new(Talk::new()),
        _ => return None,
    })
}

/// Answers every line of `input` up to `quit` or to its end, each answer written before the next line is read.
pub fn converse(program: &mut dyn Program, input: &mut impl BufRead, output: &mut impl Write) -> io::Result<()> {
    let mut line = Vec::new();
    while crate::line::read_line(input, &mut line)? {
        if let Some(answer) = program.answer(&line) {
            output.write_all(answer.as_bytes())?;
            output.write_all(b"\n")?;
            output.flush()?;
            if answer == BYE {
                break;
            }
        }
    }
    Ok(())
}

/// True of the programs whose standard output is a trace, and whose words go to standard error.
pub fn says_and_writes(name: &str) -> bool {
    matches!(name, "mend" | "unmend")
}

/// The whole output of a program, by name, for a whole input: what it says on standard error, if that is the place for it, and
/// behind it what it writes to standard output.
pub fn output_of(name: &str, input: &[u8]) -> Option<Vec<u8>> {
    output_with(name, &[], input)
}

/// As `output_of`, with the arguments that `trace_list` may have.
pub fn output_with(name: &str, arguments: &[&str], mut input: &[u8]) -> Option<Vec<u8>> {
    let mut output = Vec::new();
    let mut said = Vec::new();
    let done = match name {
        "trace_list" => trace_list(arguments, &mut input, &mut output),
        "page" => page(&mut input, &mut output),
        "mend" => mend(&mut input, &mut output, &mut said),
        "unmend" => unmend(&mut input, &mut output, &mut said),
        "waits" => waits(&mut input, &mut output),
        _ => converse(line_program(name)?.as_mut(), &mut input, &mut output),
    };
    done.expect("a slice can be read and a vector written");
    Some([said, output].concat())
}
