//! `sets KIND DIR`: writes a stored set for a program of the gate, with what the independent program answers. The sets are fixed:
//! each run writes the same bytes.
//!
//! A set is one input, DIR/stdin, and what must come out, DIR/stdout. Of a program that takes one input a time (kto, writes, tidies,
//! images) these are the first of several, and each is there as DIR/NUMBER.in and DIR/NUMBER.out. Of shapes and messages it is good
//! files alone, for `bench/lane`: DIR/NUMBER.xml.

use std::fs;
use std::io;
use std::path::Path;
use std::process::ExitCode;

use cases::feed::{hexadecimal, Case};
use cases::inputs::{self, Said};
use independent::house;
use tools::output::{self, named};
use tools::unit::KNOWN_OPS;

const USAGE: &str = "usage: sets xml|values|runs|checks|feed|kto|writes|tidies|images|shapes|messages DIR";

/// A feed and the lines expected.
#[derive(Default)]
struct Set {
    feed: Vec<u8>,
    lines: String,
    count: usize,
}

impl Set {
    fn add(&mut self, feed: &[u8], line: &str) {
        self.feed.extend(feed);
        self.lines += line;
        self.lines += "\n";
        self.count += 1;
    }
}

fn main() -> ExitCode {
    let arguments: Vec<String> = std::env::args().skip(1).collect();
    let [kind, folder] = &arguments[..] else {
        eprintln!("{USAGE}");
        return ExitCode::from(2);
    };
    output::run("sets", |out| {
        let Some(size) = write(kind, Path::new(folder))? else {
            eprintln!("{USAGE}");
            return Ok(2);
        };
        writeln!(out, "{kind}: {size}")?;
        Ok(0)
    })
}

/// Writes the set of a kind, if there is such a kind, and says how large it is.
fn write(kind: &str, folder: &Path) -> io::Result<Option<String>> {
    let set = match kind {
        "xml" => xml(),
        "values" => values(),
        "runs" => replayed(cases::runs::fixed_set()),
        "checks" => replayed(cases::checks::fixed_set()),
        "feed" => broken_off(replayed(known())),
        "kto" => return write_inputs(folder, inputs::kto()).map(Some).map_err(named(folder)),
        "writes" => return write_inputs(folder, inputs::writes()).map(Some).map_err(named(folder)),
        "tidies" => return write_inputs(folder, inputs::tidies()).map(Some).map_err(named(folder)),
        "images" => return write_inputs(folder, inputs::images()).map(Some).map_err(named(folder)),
        "shapes" => return write_files(folder, cases::lane::shapes()).map(Some).map_err(named(folder)),
        "messages" => return write_files(folder, cases::lane::messages()).map(Some).map_err(named(folder)),
        _ => return Ok(None),
    };
    write_pair(folder, ("stdin", &set.feed), ("stdout", set.lines.as_bytes())).map_err(named(folder))?;
    Ok(Some(format!("{} cases, {} bytes of feed", set.count, set.feed.len())))
}

/// One run for each input: the first as stdin and stdout, and each as NUMBER.in and NUMBER.out.
fn write_inputs(folder: &Path, inputs: Vec<Said>) -> io::Result<String> {
    for (number, (input, said)) in inputs.iter().enumerate() {
        if number == 0 {
            write_pair(folder, ("stdin", input), ("stdout", said))?;
        }
        write_pair(folder, (&format!("{number}.in"), input), (&format!("{number}.out"), said))?;
    }
    Ok(format!("{} inputs", inputs.len()))
}

/// Good files, each as NUMBER.xml.
fn write_files(folder: &Path, files: Vec<Vec<u8>>) -> io::Result<String> {
    fs::create_dir_all(folder)?;
    for (number, file) in files.iter().enumerate() {
        fs::write(folder.join(format!("{number}.xml")), file)?;
    }
    Ok(format!("{} files", files.len()))
}

/// Two files with their names.
fn write_pair(folder: &Path, one: (&str, &[u8]), other: (&str, &[u8])) -> io::Result<()> {
    fs::create_dir_all(folder)?;
    fs::write(folder.join(one.0), one.1)?;
    fs::write(folder.join(other.0), other.1)
}

/// The cases of all ops that the proved `replay` knows.
fn known() -> Vec<Case> {
    let runs = [cases::runs::fixed_set(), cases::writes::fixed_set(), cases::runs::counts()].concat();
    let all = [cases::checks::fixed_set(), runs, cases::tidies::fixed_set()].concat();
    all.into_iter().filter(|case| KNOWN_OPS.contains(&case.op.number())).collect()
}

/// For each text a 16-bit big-endian length and its bytes; `whole`, or `stops PLACE`.
fn xml() -> Set {
    let mut set = Set::default();
    for text in cases::xml::fixed_set() {
        let length = u16::try_from(text.len()).expect("a short text").to_be_bytes();
        let line = match house::parse(&text) {
            Ok(_) => "whole".to_string(),
            Err(place) => format!("stops {place}"),
        };
        set.add(&[&length[..], &text].concat(), &line);
    }
    set
}

/// For each value `refused`, or its bytes as in an image, in lower-case hexadecimal.
fn values() -> Set {
    let mut set = Set::default();
    for case in cases::values::fixed_set() {
        let line = match case.answer() {
            Some(bytes) => hexadecimal(&bytes),
            None => "refused".to_string(),
        };
        set.add(&case.feed(), &line);
    }
    set
}

/// For each case of a feed for `replay` its line, `CODE ROW PLACE HEX`.
fn replayed(cases: Vec<Case>) -> Set {
    let mut set = Set::default();
    for case in cases {
        set.add(&case.feed(), &case.line());
    }
    set
}

/// The same with a case behind it that the feed breaks off in.
fn broken_off(mut set: Set) -> Set {
    let whole = Case::read("KTO").feed();
    let line = format!("feed broken at case {}", set.count);
    set.add(&whole[..whole.len() - 1], &line);
    set
}
