//! The comparison of other programs with this one, byte for byte.

mod compare;
mod difference;
mod expect;
mod folder;
mod mending;
mod rounds;
mod run;
mod shrink;
mod soak;
mod visitor;

pub use compare::compare;
pub use difference::Difference;
pub use expect::{expect, scripts_of};
pub use folder::{output_for, FOLDERS};
pub use rounds::random;
pub use shrink::{blank, shrink};
pub use soak::soak;
pub use visitor::Process;

use std::path::{Path, PathBuf};

/// The programs under test, by name.
pub const PROGRAMS: [&str; 9] = ["stand_in", "pod", "talk", "trace_list", "page", "gateway", "mend", "unmend", "waits"];

/// A program under test, and the arguments it is run with.
#[derive(Clone, Copy)]
pub struct Subject<'a> {
    pub name: &'a str,
    pub path: &'a Path,
    pub arguments: &'a [&'a str],
}

/// The programs under test that are there, and the names of those that are missing.
pub struct Found {
    pub present: Vec<(&'static str, PathBuf)>,
    pub missing: Vec<&'static str>,
}

impl Found {
    pub fn within(directory: &Path) -> Found {
        let mut found = Found { present: Vec::new(), missing: Vec::new() };
        for name in PROGRAMS {
            let path = directory.join(name);
            if path.is_file() {
                found.present.push((name, path));
            } else {
                found.missing.push(name);
            }
        }
        found
    }

    /// A program by its name, with these arguments; none if it is missing.
    pub fn subject<'a>(&'a self, name: &str, arguments: &'a [&'a str]) -> Option<Subject<'a>> {
        let (name, path) = self.present.iter().find(|(present, _)| *present == name)?;
        Some(Subject { name, path, arguments })
    }

    /// Says which are missing; true if that is no failure.
    pub fn report(&self, all: bool) -> bool {
        for name in &self.missing {
            println!("missing {name}");
        }
        if self.present.is_empty() {
            println!("nothing to compare");
        }
        !self.present.is_empty() && (self.missing.is_empty() || !all)
    }
}
