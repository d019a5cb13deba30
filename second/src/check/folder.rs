//! The folders of vectors: what the inputs in them are given to.

use crate::bridge::{play, played_output, Own};
use crate::desk::output_with;

/// The folders: one for each program, and one for `trace_list` with a cycle to start from.
pub const FOLDERS: [&str; 10] =
    ["stand_in", "pod", "talk", "trace_list", "page", "list_from", "gateway", "mend", "unmend", "waits"];

/// The program that the inputs of a folder are for.
pub fn program_of(folder: &str) -> &str {
    match folder {
        "list_from" => "trace_list",
        program => program,
    }
}

/// The program's arguments for an input: in `list_from` what follows the first `-` of its name, elsewhere none.
pub fn arguments_of<'a>(folder: &str, name: &'a str) -> Vec<&'a str> {
    match folder {
        "list_from" => name.split_once('-').map(|(_, from)| from).into_iter().collect(),
        _ => Vec::new(),
    }
}

/// What this program prints for an input.
pub fn output_for(folder: &str, name: &str, input: &[u8]) -> Vec<u8> {
    own_output(program_of(folder), &arguments_of(folder, name), input)
}

/// What this program prints as another, with these arguments; the inputs of `gateway` are scenes, and have theirs.
pub fn own_output(program: &str, arguments: &[&str], input: &[u8]) -> Vec<u8> {
    match program {
        "gateway" => played_output(&play(input, &mut Own).expect("this program's visit ends")),
        program => output_with(program, arguments, input).expect("a program's name"),
    }
}
