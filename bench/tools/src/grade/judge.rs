//! The unit's answers to many files, a batch at a time.

use std::fs::File;
use std::io::{self, Read};
use std::ops::ControlFlow;
use std::path::{Path, PathBuf};

use cases::feed::{Case, MOST_BYTES};
use independent::LIMIT;

use super::progress::Progress;
use super::report::{Outcome, Report};
use crate::unit::{Line, Unit};

/// How many files are given to the unit at a time.
const BATCH: usize = 64;

/// Has the unit judge each file, and hands each report on, in order, with the image of an accepted file.
pub fn judge(unit: &Unit, files: &[PathBuf], mut take: impl FnMut(Report, &[u8]) -> io::Result<()>) -> io::Result<()> {
    let mut progress = Progress::new(files.len());
    for (index, batch) in files.chunks(BATCH).enumerate() {
        let read: Vec<io::Result<Vec<u8>>> = batch.iter().map(|path| read_file(path)).collect();
        let good: Vec<&[u8]> = read.iter().flatten().map(Vec::as_slice).collect();
        let answers = ask(unit, &good, |done| progress.show(index * BATCH + done))?;
        progress.clear();
        let mut answers = answers.into_iter();
        for (path, read) in batch.iter().zip(&read) {
            match read {
                Ok(bytes) => {
                    let line = answers.next().expect("an answer for each file");
                    take(Report { path: path.clone(), outcome: Outcome::judged(bytes, &line) }, &line.bytes)?;
                }
                Err(error) => {
                    take(Report { path: path.clone(), outcome: Outcome::Unreadable(error.to_string()) }, &[])?;
                }
            }
        }
    }
    Ok(())
}

/// A file's bytes, at most one more than the unit takes: what is beyond that changes no answer.
pub fn read_file(path: &Path) -> io::Result<Vec<u8>> {
    let mut bytes = Vec::new();
    File::open(path)?.take(MOST_BYTES as u64).read_to_end(&mut bytes)?;
    Ok(bytes)
}

fn ask(unit: &Unit, files: &[&[u8]], mut done: impl FnMut(usize)) -> io::Result<Vec<Line>> {
    let mut lines = Vec::new();
    unit.answer(
        files.len() as u64,
        |number| Case::check(LIMIT, files[number as usize]),
        |_, line| {
            lines.push(line);
            done(lines.len());
            ControlFlow::Continue(())
        },
    )?;
    if lines.len() != files.len() {
        return Err(io::Error::other(format!("replay gave {} lines for {} files", lines.len(), files.len())));
    }
    lines.iter().map(|line| Line::parse(line)).collect()
}
