//! The programs under test over a folder of vectors.

use super::difference::try_expected;
use super::expect::{name_of, read_file, scripts_of};
use super::folder::{arguments_of, program_of, FOLDERS};
use super::{Found, Subject};
use std::path::Path;

/// Runs every input and compares with its output. True if all agree.
pub fn compare(programs: &Path, vectors: &Path, all: bool) -> Result<bool, String> {
    let found = Found::within(programs);
    let mut good = found.report(all);
    let (mut agree, mut differ) = (0, 0);
    for folder in FOLDERS {
        let Some(program) = found.subject(program_of(folder), &[]) else {
            continue;
        };
        let scripts = scripts_of(folder, vectors)?;
        if scripts.is_empty() {
            println!("no inputs for {folder}");
            good = false;
        }
        for script in scripts {
            let input = read_file(&script)?;
            let expected = read_file(&script.with_extension("out"))?;
            let name = name_of(&script);
            let subject = Subject { arguments: &arguments_of(folder, &name), ..program };
            let label = format!("{folder}/{name}");
            match try_expected(subject, &input, &expected) {
                None => {
                    agree += 1;
                    println!("agrees  {label}");
                }
                Some(difference) => {
                    differ += 1;
                    println!("DIFFERS {label}\n{difference}");
                }
            }
        }
    }
    println!("{agree} agree, {differ} differ, {} missing", found.missing.len());
    Ok(good && differ == 0)
}
