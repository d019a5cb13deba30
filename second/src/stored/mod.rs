//! The bulk of the vectors: inputs written anew by `second gen`, always the same. Of these git keeps the digests.

mod boundaries;
mod chains;
mod commands;
mod conversations;
mod drops;
mod events;
mod every_word;
mod fault;
mod firing;
mod gateway;
mod halt;
mod illegal;
mod lanes;
mod marks;
mod mend;
mod pages;
mod pod;
mod sequences;
mod traces;
mod typed;
mod unclear;
mod unmend;
mod waits;

use std::fs;
use std::path::Path;

/// An input of the bulk: its folder, its name without the ending, and its bytes.
pub struct Stored {
    pub folder: &'static str,
    pub name: String,
    pub input: Vec<u8>,
}

impl Stored {
    fn new(folder: &'static str, name: impl Into<String>, input: Vec<u8>) -> Stored {
        Stored { folder, name: name.into(), input }
    }

    fn script(folder: &'static str, name: impl Into<String>, lines: &[Vec<u8>]) -> Stored {
        Stored::new(folder, name, crate::script::to_bytes(lines, true))
    }
}

/// Every input of the bulk.
pub fn all() -> Vec<Stored> {
    let mut stored = Vec::new();
    stored.extend(commands::all());
    stored.extend(boundaries::all());
    stored.extend(chains::all());
    stored.extend(drops::all());
    stored.extend(illegal::all());
    stored.extend(every_word::all());
    stored.extend(fault::all());
    stored.extend(sequences::all());
    stored.extend(events::all());
    stored.extend(firing::all());
    stored.extend(lanes::all());
    stored.extend(halt::all());
    stored.extend(unclear::all());
    stored.extend(typed::all());
    stored.extend(pod::all());
    stored.extend(conversations::all());
    stored.extend(traces::all());
    stored.extend(pages::all());
    stored.extend(marks::all());
    stored.extend(gateway::all());
    stored.extend(mend::all());
    stored.extend(unmend::all());
    stored.extend(waits::all());
    stored
}

/// Writes NAME.in for every input of the bulk, by folder.
pub fn generate(vectors: &Path) -> Result<(), String> {
    for stored in all() {
        let directory = vectors.join(stored.folder);
        fs::create_dir_all(&directory).map_err(|error| format!("{}: {error}", directory.display()))?;
        let path = directory.join(stored.name).with_extension("in");
        fs::write(&path, stored.input).map_err(|error| format!("{}: {error}", path.display()))?;
    }
    Ok(())
}
