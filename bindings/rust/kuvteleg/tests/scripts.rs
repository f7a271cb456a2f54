//! Stored scripts through the library, line by line: each reply is the bytes that stand there.
use kuvteleg::{Resolver, Tie};
use std::fs;
use std::path::{Path, PathBuf};

fn files(folder: &str, ending: &str) -> Vec<PathBuf> {
    let top = Path::new(env!("CARGO_MANIFEST_DIR")).join("../../..").join(folder);
    let all = fs::read_dir(&top).unwrap_or_else(|fault| panic!("{}: {fault}", top.display()));
    let mut paths: Vec<PathBuf> = all.map(|it| it.unwrap().path()).filter(|it| it.to_string_lossy().ends_with(ending)).collect();
    paths.sort();
    assert!(!paths.is_empty());
    paths
}

/// The replies to the lines of a script.
fn told(script: &[u8], tie: Tie) -> Vec<u8> {
    let mut resolver = Resolver::new(tie).unwrap();
    let mut told = Vec::new();
    for line in script.split_inclusive(|it| *it == b'\n') {
        // Whoever parts lines drops one carriage return at a line's end.
        let line = line.strip_suffix(b"\n").unwrap_or(line);
        match resolver.line(line.strip_suffix(b"\r").unwrap_or(line)) {
            Ok(reply) => told.extend_from_slice(reply.as_bytes()),
            Err(refusal) => told.extend_from_slice(format!("refused {refusal}\n").as_bytes()),
        }
    }
    told
}

fn same(path: &Path, told: &[u8], wanted: &[u8]) {
    assert_eq!(String::from_utf8_lossy(told), String::from_utf8_lossy(wanted), "{}", path.display());
}

/// In a transcript a line that begins with `> ` is a reply, and any other is one of the script.
fn transcripts(folder: &str, ties: &[Tie]) {
    for path in files(folder, ".txt") {
        let whole = fs::read(&path).unwrap();
        let (mut script, mut wanted) = (Vec::new(), Vec::new());
        for line in whole.split_inclusive(|it| *it == b'\n') {
            match line.strip_prefix(b"> ") {
                Some(reply) => wanted.extend_from_slice(reply),
                None => script.extend_from_slice(line),
            }
        }
        for tie in ties {
            same(&path, &told(&script, *tie), &wanted);
        }
    }
}

#[test]
fn under_both_rules_for_ties() {
    transcripts("transcripts/both", &[Tie::Newest, Tie::LatestStart]);
}

#[test]
fn under_one_rule_for_ties() {
    transcripts("transcripts/newest", &[Tie::Newest]);
    transcripts("transcripts/latest-start", &[Tie::LatestStart]);
}

#[test]
fn examples() {
    for path in files("examples", ".adr") {
        same(&path, &told(&fs::read(&path).unwrap(), Tie::Newest), &fs::read(path.with_extension("replies")).unwrap());
    }
}
