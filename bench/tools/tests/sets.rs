//! The stored sets: large enough, with every answer in them, and the same each time; and `replay` and the programs answer them so.

use std::collections::BTreeSet;
use std::fs;
use std::io::Write;
use std::path::{Path, PathBuf};
use std::process::{Command, Stdio};

use cases::feed::next_case;
use tools::unit::KNOWN_OPS;

fn folder(kind: &str, label: &str) -> PathBuf {
    Path::new(env!("CARGO_TARGET_TMPDIR")).join(format!("{kind}-{label}"))
}

/// Writes a set and gives its input and what must come out.
fn set(kind: &str, label: &str) -> (Vec<u8>, Vec<u8>) {
    let folder = folder(kind, label);
    let output = Command::new(env!("CARGO_BIN_EXE_sets")).arg(kind).arg(&folder).output().unwrap();
    assert!(output.status.success());
    (fs::read(folder.join("stdin")).unwrap(), fs::read(folder.join("stdout")).unwrap())
}

/// Writes a set and gives the lines that must come out.
fn lines(kind: &str) -> String {
    String::from_utf8(set(kind, "size").1).unwrap()
}

fn first_words(lines: &str) -> BTreeSet<&str> {
    lines.lines().filter_map(|line| line.split(' ').next()).collect()
}

#[test]
fn sets_are_large_enough_and_have_every_answer() {
    let xml = lines("xml");
    assert!(xml.lines().count() >= 250);
    assert_eq!(first_words(&xml), BTreeSet::from(["stops", "whole"]));

    let values = lines("values");
    assert!(values.lines().count() >= 350);
    let refused = values.lines().filter(|line| *line == "refused").count();
    assert!(refused > 100 && values.lines().count() - refused > 100);

    let runs = lines("runs");
    assert!(runs.lines().count() >= 250);
    assert_eq!(first_words(&runs), BTreeSet::from(["0", "15", "16", "17", "18"]));

    let checks = lines("checks");
    assert!(checks.lines().count() >= 150);
    let codes: Vec<String> = (0..=14).map(|code| code.to_string()).collect();
    assert_eq!(first_words(&checks), codes.iter().map(String::as_str).collect());
}

#[test]
fn sets_are_the_same_each_time() {
    for kind in ["xml", "values", "runs", "checks", "feed", "kto", "writes", "tidies", "images"] {
        assert!(set(kind, "one") == set(kind, "two"), "{kind}");
    }
}

/// The first input of a program is the one that is stored, and every code of its answers is among them all.
#[test]
fn inputs_of_programs_have_every_answer() {
    for (kind, count, codes) in [
        ("writes", 31, &["1", "15", "16", "17", "19", "20", "26"][..]),
        ("tidies", 18, &["1", "2", "3", "4", "5", "12", "19"]),
        ("images", 26, &["1", "15", "16", "17"]),
    ] {
        let (first, said) = set(kind, "inputs");
        let folder = folder(kind, "inputs");
        let read = |number: usize, end: &str| fs::read(folder.join(format!("{number}.{end}"))).unwrap();
        assert_eq!((read(0, "in"), read(0, "out")), (first, said), "{kind}");
        let mut reached = BTreeSet::new();
        for number in 0..count {
            let said = String::from_utf8(read(number, "out")).unwrap();
            let last = said.lines().last().unwrap_or_default();
            reached.extend(last.strip_prefix("refused ").and_then(|words| words.split(' ').next().map(str::to_string)));
        }
        assert_eq!(reached, codes.iter().map(|code| code.to_string()).collect(), "{kind}");
        assert!(!folder.join(format!("{count}.in")).exists(), "{kind}");
    }
}

/// What the proved `replay` doesn't know yet is not in its feed.
#[test]
fn the_feed_has_known_ops_alone() {
    let (feed, _) = set("feed", "ops");
    let mut rest = &feed[..];
    let mut ops = BTreeSet::new();
    while let Some((case, after)) = next_case(rest) {
        ops.insert(case.op.number());
        rest = after;
    }
    assert_eq!(ops, KNOWN_OPS.iter().copied().collect());
}

/// What `replay` writes for a feed.
fn replayed(feed: Vec<u8>) -> Vec<u8> {
    let mut replay =
        Command::new(env!("CARGO_BIN_EXE_replay")).stdin(Stdio::piped()).stdout(Stdio::piped()).spawn().unwrap();
    let mut input = replay.stdin.take().unwrap();
    let writer = std::thread::spawn(move || input.write_all(&feed));
    let output = replay.wait_with_output().unwrap();
    // A feed that is broken need not be read to its end.
    let _ = writer.join().unwrap();
    output.stdout
}

#[test]
fn replay_answers_the_sets() {
    for kind in ["runs", "checks", "feed"] {
        let (feed, lines) = set(kind, "replay");
        assert!(replayed(feed) == lines, "{kind}");
    }
    assert_eq!(replayed(Vec::new()), b"");
}

#[test]
fn replay_answers_writes_and_tidyings() {
    let cases = [cases::writes::fixed_set(), cases::tidies::fixed_set()].concat();
    let feed: Vec<u8> = cases.iter().flat_map(|case| case.feed()).collect();
    let lines: String = cases.iter().map(|case| case.line() + "\n").collect();
    assert!(replayed(feed) == lines.into_bytes());
}

#[test]
fn replay_says_where_a_feed_is_broken() {
    let (feed, _) = set("runs", "broken");
    let cut = feed[..feed.len() - 1].to_vec();
    assert_eq!(replayed(cut.clone()), cases::feed::answers(&cut).into_bytes());
    let last = format!("feed broken at case {}\n", cases::runs::fixed_set().len() - 1);
    assert!(replayed(cut).ends_with(last.as_bytes()));
    assert_eq!(replayed(b"\xff".to_vec()), b"feed broken at case 0\n");
}
