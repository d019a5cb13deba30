//! The vectors in git: inputs that a person reads, each with the output that `second` prints, and the bulk's digests.

mod common;
use common::trace;
use second::check::{output_for, scripts_of, FOLDERS};
use second::desk::LINE_PROGRAMS;
use second::stored;
use std::collections::BTreeSet;
use std::fs;
use std::path::{Path, PathBuf};

/// The most lines of an input that a person reads.
const READABLE: usize = 120;
/// The folders of traces, each with a list of their cycles.
const TRACE_FOLDERS: [&str; 4] = ["trace_list", "page", "list_from", "mend"];

fn vectors() -> PathBuf {
    Path::new(env!("CARGO_MANIFEST_DIR")).join("vectors")
}

fn text_of(name: &str) -> String {
    fs::read_to_string(vectors().join(name)).unwrap()
}

/// The names of all files and folders in a folder of the vectors.
fn names_in(folder: &str) -> BTreeSet<String> {
    let entries = fs::read_dir(vectors().join(folder)).unwrap();
    entries.map(|entry| entry.unwrap().file_name().into_string().unwrap()).collect()
}

/// The inputs in a folder, by name without the ending.
fn inputs_of(folder: &str) -> Vec<(String, PathBuf)> {
    let scripts = scripts_of(folder, &vectors()).unwrap();
    scripts.into_iter().map(|path| (path.file_stem().unwrap().to_str().unwrap().to_string(), path)).collect()
}

#[test]
fn outputs_are_what_second_prints() {
    for folder in FOLDERS {
        for (name, path) in inputs_of(folder) {
            let input = fs::read(&path).unwrap();
            let output = fs::read(path.with_extension("out")).unwrap();
            assert!(output_for(folder, &name, &input) == output, "{folder}/{name}.out");
        }
    }
}

#[test]
fn no_file_is_stale() {
    let folders = FOLDERS.iter().copied().chain([".gitattributes", "bulk.sha256"]);
    assert_eq!(names_in(""), folders.map(str::to_string).collect());
    for folder in FOLDERS {
        let mut names: BTreeSet<String> =
            inputs_of(folder).iter().flat_map(|(name, _)| [format!("{name}.in"), format!("{name}.out")]).collect();
        if TRACE_FOLDERS.contains(&folder) {
            names.insert("cycles.txt".to_string());
        }
        if folder == "unmend" {
            names.insert("lists.txt".to_string());
        }
        assert_eq!(names_in(folder), names);
    }
}

#[test]
fn inputs_are_short_and_begin_with_a_comment() {
    for program in LINE_PROGRAMS.into_iter().chain(["gateway", "waits"]) {
        for (name, path) in inputs_of(program) {
            let input = fs::read(&path).unwrap();
            if (program, name.as_str()) == ("waits", "empty") {
                assert!(input.is_empty());
                continue;
            }
            assert!(input.starts_with(b"# "), "{program}/{name}.in");
            assert!(input.split(|&byte| byte == b'\n').count() <= READABLE + 1, "{program}/{name}.in");
        }
    }
}

#[test]
fn traces_hold_the_cycles_listed_for_them() {
    for folder in TRACE_FOLDERS {
        inputs_are_as_listed(folder, "cycles.txt", trace);
    }
}

#[test]
fn inputs_of_unmend_are_as_listed() {
    inputs_are_as_listed("unmend", "lists.txt", |line| {
        let (text, cycles) = line.rsplit_once('|').unwrap();
        let text = text.strip_suffix(' ').unwrap_or(text);
        let text = text.replace("\\n", "\n").replace("\\r", "\r").replace("\\t", "\t");
        [text.into_bytes(), trace(cycles)].concat()
    });
}

/// A list has a line for each input of its folder: its name, and what it holds.
fn inputs_are_as_listed(folder: &str, list: &str, bytes_of: impl Fn(&str) -> Vec<u8>) {
    let mut listed = BTreeSet::new();
    let text = text_of(&format!("{folder}/{list}"));
    for line in text.lines().filter(|line| !line.is_empty() && !line.starts_with('#')) {
        let (name, rest) = line.split_once(' ').unwrap_or((line, ""));
        let path = vectors().join(folder).join(name.to_string() + ".in");
        assert!(fs::read(&path).unwrap() == bytes_of(rest), "{folder}/{name}");
        assert!(listed.insert(name.to_string()), "{folder}/{name} twice");
    }
    assert_eq!(listed, inputs_of(folder).into_iter().map(|(name, _)| name).collect());
}

/// A trace mended is what `unmend` reads: those that stand in both folders by the same name are such pairs.
#[test]
fn the_outputs_of_mend_are_inputs_of_unmend() {
    let read = |folder: &str, name: &str, ending: &str| {
        fs::read(vectors().join(folder).join(format!("{name}.{ending}"))).unwrap()
    };
    let mended: BTreeSet<String> = inputs_of("mend").into_iter().map(|(name, _)| name).collect();
    let both: Vec<String> =
        inputs_of("unmend").into_iter().map(|(name, _)| name).filter(|name| mended.contains(name)).collect();
    assert!(both.len() > 10);
    for name in both {
        assert!(read("mend", &name, "out") == read("unmend", &name, "in"), "{name}");
        assert!(read("unmend", &name, "out").ends_with(&read("mend", &name, "in")), "{name}");
    }
}

#[test]
fn every_file_of_the_bulk_has_a_digest_and_every_digest_its_file() {
    let mut made = BTreeSet::new();
    for stored in stored::all() {
        for ending in ["in", "out"] {
            let name = format!("{}/{}.{ending}", stored.folder, stored.name);
            assert!(made.insert(name.clone()), "{name} twice");
        }
    }
    let text = text_of("bulk.sha256");
    let listed: Vec<&str> = text.lines().map(|line| line.split_once("  ").unwrap().1).collect();
    assert!(listed.windows(2).all(|pair| pair[0] < pair[1]), "bulk.sha256 is not sorted by name");
    for name in &made {
        assert!(listed.contains(&name.as_str()), "{name} has no digest; the readme says how bulk.sha256 is renewed");
    }
    for name in listed {
        assert!(made.contains(name), "{name} is not made any more; the readme says how bulk.sha256 is renewed");
    }
}

#[test]
fn the_bulk_has_over_100_000_answers() {
    let answers: usize = stored::all()
        .iter()
        .map(|stored| output_for(stored.folder, &stored.name, &stored.input))
        .map(|output| output.iter().filter(|&&byte| byte == b'\n').count())
        .sum();
    assert!(answers > 100_000, "{answers}");
}
