//! The outputs of a folder of vectors: what this program prints for its inputs.

use super::folder::{output_for, FOLDERS};
use std::fs;
use std::path::{Path, PathBuf};

/// The inputs in a folder of the vectors, in the order of their names.
pub fn scripts_of(folder: &str, vectors: &Path) -> Result<Vec<PathBuf>, String> {
    let directory = vectors.join(folder);
    if !directory.is_dir() {
        return Ok(Vec::new());
    }
    let entries = fs::read_dir(&directory).map_err(|error| format!("{}: {error}", directory.display()))?;
    let mut scripts: Vec<PathBuf> = entries
        .filter_map(|entry| Some(entry.ok()?.path()))
        .filter(|path| path.extension().is_some_and(|extension| extension == "in"))
        .collect();
    scripts.sort();
    Ok(scripts)
}

/// The name of an input, without the ending.
pub fn name_of(script: &Path) -> String {
    script.file_stem().unwrap_or_default().to_string_lossy().into_owned()
}

pub fn read_file(path: &Path) -> Result<Vec<u8>, String> {
    fs::read(path).map_err(|error| format!("{}: {error}", path.display()))
}

/// Writes NAME.out beside each NAME.in.
pub fn expect(vectors: &Path) -> Result<(), String> {
    for folder in FOLDERS {
        for script in scripts_of(folder, vectors)? {
            let output = output_for(folder, &name_of(&script), &read_file(&script)?);
            let path = script.with_extension("out");
            fs::write(&path, output).map_err(|error| format!("{}: {error}", path.display()))?;
        }
    }
    Ok(())
}
