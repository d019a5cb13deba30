//! Scenes: the board's own lines, the faults of the next visit, and visits. One script has many.

use super::summary::visit_lines;
use super::text::bytes;
use super::{Bridge, Fault, Visitor};
use crate::desk::{Program, StandIn};
use crate::line::lines;

/// A line of a scene, counted from 1, and what came out for it.
pub struct Played {
    pub number: usize,
    pub line: Vec<u8>,
    pub output: Vec<String>,
}

/// Plays a script with a visitor. The board goes on from visit to visit; faults are for the next visit only.
pub fn play(script: &[u8], visitor: &mut dyn Visitor) -> Result<Vec<Played>, String> {
    let mut stand_in = StandIn::new();
    let mut faults = Vec::new();
    let mut played = Vec::new();
    for (place, line) in lines(script).into_iter().enumerate() {
        let output = if let Some(arguments) = visit_arguments(line) {
            let mut bridge = Bridge::new(&mut stand_in, &faults);
            let results = visitor.visit(&arguments, &mut bridge);
            let line = String::from_utf8_lossy(line).into_owned();
            let results = results.map_err(|message| format!("line {}: {line}: {message}", place + 1))?;
            let mut output = vec![line];
            output.extend(visit_lines(&bridge, &results));
            faults.clear();
            output
        } else if let Some(fault) = Fault::parse(line) {
            faults.push(fault);
            Vec::new()
        } else {
            stand_in.answer(line).into_iter().collect()
        };
        if !output.is_empty() {
            played.push(Played { number: place + 1, line: line.to_vec(), output });
        }
    }
    Ok(played)
}

/// All that came out, as one text.
pub fn played_output(played: &[Played]) -> Vec<u8> {
    let lines = played.iter().flat_map(|played| &played.output);
    lines.flat_map(|line| [line.as_bytes(), b"\n"].concat()).collect()
}

/// The arguments of `visit`, parted by single spaces: `""` is an empty one, `\x20` a space in one.
fn visit_arguments(line: &[u8]) -> Option<Vec<String>> {
    let argument = |word: &[u8]| match word {
        b"\"\"" => Some(String::new()),
        word => String::from_utf8(bytes(word)?).ok(),
    };
    match line.strip_prefix(b"visit")? {
        [] => Some(Vec::new()),
        [b' ', rest @ ..] => rest.split(|&byte| byte == b' ').map(argument).collect(),
        _ => None,
    }
}
