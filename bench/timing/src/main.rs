//! Times the unit, the independent program and, where they are linked, expat and libxml2 on the same files.
//!
//!     timing sample SCHEMA        times everyone once on each file, and prints a line for each
//!     timing table SCHEMA LINES   prints the table of these lines
//!     timing write DIR            writes the files there, with what each contender of the unit is handed: NAME, then a dot, then its number
//!     timing once NUMBER FILE     has that contender of the unit judge a file once, so that its instructions can be counted
//!
//! Every contender judges every file once before any clock runs, and has to accept it: a program that refuses early would look fast. A
//! unit that was built before is left out where it refuses what it didn't know.
//! Samples are interleaved, so that a slow moment of the machine falls on all of them, and the median counts. The script takes them from
//! several programs in turn that differ in where the units' code lies: that alone can make a build a tenth slower than its twin.

mod clock;
mod contenders;
mod files;
mod stack;

use clock::Sample;
use contenders::{Contender, Input};
use files::File;
use std::{env, fs, process::exit};

fn main() {
    let words: Vec<String> = env::args().skip(1).collect();
    match words.iter().map(String::as_str).collect::<Vec<_>>()[..] {
        ["write", folder] => write_files(folder),
        ["once", number, path] => judge_once(number, path),
        ["sample", schema] => sample(schema),
        ["table", schema, lines] => print_all(schema, lines),
        _ => fail("timing sample SCHEMA, timing table SCHEMA LINES, timing write DIR, or timing once NUMBER FILE"),
    }
}

fn entrants(schema: &str) -> (Vec<Contender>, Vec<File>) {
    match contenders::all(schema) {
        Ok(contenders) => (contenders, files::all()),
        Err(fault) => fail(&fault),
    }
}

/// A line for each file and each contender: their numbers, and how many megabytes went by in a second.
fn sample(schema: &str) {
    let (contenders, files) = entrants(schema);
    for file in &files {
        for contender in &contenders {
            if contender.takes_part(file) && !contender.accepts(file) {
                fail(&format!("{} does not accept the file {}", contender.name, file.name));
            }
        }
    }
    for (row, file) in files.iter().enumerate() {
        for (column, contender) in contenders.iter().enumerate().filter(|(_, contender)| contender.takes_part(file)) {
            let input = contender.input(file);
            let rate = clock::megabytes_per_second((contender.counts)(input), || (contender.judge)(input));
            println!("{row} {column} {rate}");
        }
    }
}

fn print_all(schema: &str, lines: &str) {
    let (contenders, files) = entrants(schema);
    let lines = fs::read_to_string(lines).unwrap_or_else(|fault| fail(&format!("{lines}: {fault}")));
    let mut samples = vec![vec![Sample::default(); contenders.len()]; files.len()];
    for line in lines.lines() {
        match line.split(' ').collect::<Vec<_>>()[..] {
            [row, column, rate] => samples[number::<usize>(row)][number::<usize>(column)].add(number(rate)),
            _ => fail(&format!("no sample: {line}")),
        }
    }
    print_table(&contenders, &files, &samples);
    print_stack(&contenders, &files);
}

fn number<T: std::str::FromStr>(word: &str) -> T {
    word.parse().unwrap_or_else(|_| fail(&format!("no number: {word}")))
}

/// A line for each file and each contender of the unit: its number and name, the file's name, the bytes that it is handed, where they are.
fn write_files(folder: &str) {
    for file in files::all() {
        for (number, contender) in contenders::units().iter().enumerate().filter(|(_, unit)| unit.takes_part(&file)) {
            let path = format!("{folder}/{}.{number}", file.name.replace([' ', ','], "-"));
            let input = contender.input(&file);
            if let Err(fault) = fs::write(&path, input) {
                fail(&format!("{path}: {fault}"));
            }
            println!("{number}\t{}\t{}\t{}\t{path}", contender.name, file.name, input.len());
        }
    }
}

fn judge_once(number: &str, path: &str) {
    let units = contenders::units();
    let Some(contender) = number.parse().ok().and_then(|n: usize| units.get(n)) else {
        fail("no such contender of the unit");
    };
    match fs::read(path) {
        Ok(input) if (contender.judge)(&input) => {}
        Ok(_) => fail(&format!("{} does not accept the file {path}", contender.name)),
        Err(fault) => fail(&format!("{path}: {fault}")),
    }
}

fn fail(fault: &str) -> ! {
    eprintln!("speed: {fault}");
    exit(2)
}

/// For each file, for each contender, the median of its samples.
fn print_table(contenders: &[Contender], files: &[File], samples: &[Vec<Sample>]) {
    let rounds = samples[0][0].count();
    println!("MB/s (10^6 bytes), median of {rounds} interleaved samples; in brackets how many times as fast the unit's check is\n");
    print!("| File | Bytes | Image |");
    for contender in contenders {
        print!(" {} |", contender.name);
    }
    println!("\n|---|---|---|{}", "---|".repeat(contenders.len()));
    for (file, row) in files.iter().zip(samples) {
        print!("| {} | {} | {} |", file.name, file.text.len(), file.image.len());
        let check = row[0].median();
        for (contender, sample) in contenders.iter().zip(row) {
            if !contender.takes_part(file) {
                print!(" - |");
                continue;
            }
            let median = sample.median();
            if contender.takes == Input::File {
                print!(" {median:.0} ({:.1}) |", check / median);
            } else {
                print!(" {median:.0} |");
            }
        }
        println!();
    }
    if !cfg!(others) {
        println!("\nexpat and libxml2 are missing: their development packages are not installed");
    }
    println!("\nWho reads an image is timed by the image's bytes, who writes a file by the file's, and who tidies one by those that it is handed.");
}

/// The deepest of the unit's calls over all the files.
fn print_stack(contenders: &[Contender], files: &[File]) {
    println!();
    for contender in contenders.iter().filter(|contender| contender.is_unit) {
        let accepted = files.iter().filter(|file| contender.takes_part(file));
        let deepest = accepted.map(|file| stack::used(contender.judge, contender.input(file))).max().unwrap_or(0);
        println!("{}: at most {deepest} bytes of stack below the entry, over these files", contender.name);
    }
}
