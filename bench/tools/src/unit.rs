//! The unit, asked through the program `replay`: a feed of cases in, a line for each out.

use std::io::{self, BufRead, BufReader, BufWriter, ErrorKind, Write};
use std::ops::ControlFlow;
use std::path::PathBuf;
use std::process::{Command, Stdio};
use std::thread;

use cases::feed::Case;

use crate::output::named;

/// The ops that the proved `replay` answers; any other breaks its feed. What it learns is put in here: the comparison and the
/// stored feed then have it too.
pub const KNOWN_OPS: &[u8] = &[0, 1, 2, 3, 6, 8];

/// Who answers.
#[derive(Clone, Debug)]
pub enum Unit {
    /// The proved program `replay` at this path.
    Replay(PathBuf),
    /// The independent program, in place of the unit. For trying the tools only.
    Independent,
}

impl Unit {
    /// Has so many cases answered, made one after the other, and hands each line on with its number. Lines are handed on
    /// until one breaks off.
    pub fn answer(
        &self,
        count: u64,
        make: impl Fn(u64) -> Case + Send,
        mut line: impl FnMut(u64, String) -> ControlFlow<()>,
    ) -> io::Result<()> {
        let path = match self {
            Unit::Replay(path) => path,
            Unit::Independent => {
                let _ = (0..count).try_for_each(|number| line(number, make(number).line()));
                return Ok(());
            }
        };
        let named = named(path);
        let mut child = Command::new(path).stdin(Stdio::piped()).stdout(Stdio::piped()).spawn().map_err(&named)?;
        let mut feed = BufWriter::new(child.stdin.take().expect("a pipe"));
        let lines = BufReader::new(child.stdout.take().expect("a pipe")).lines();
        thread::scope(|scope| {
            let writer = scope.spawn(move || {
                (0..count).try_for_each(|number| feed.write_all(&make(number).feed()))?;
                feed.flush()
            });
            let mut broken_off = false;
            for (number, text) in (0..).zip(lines) {
                if line(number, text.map_err(&named)?).is_break() {
                    broken_off = true;
                    break;
                }
            }
            if broken_off {
                child.kill().ok();
            }
            let ended = child.wait().map_err(&named)?;
            match writer.join().expect("the writer ends") {
                Err(error) if error.kind() != ErrorKind::BrokenPipe => Err(named(error)),
                _ if broken_off || ended.success() => Ok(()),
                _ => Err(io::Error::other(format!("{}: {ended}", path.display()))),
            }
        })
    }

    /// The answer to one case.
    pub fn ask(&self, case: &Case) -> io::Result<Line> {
        let mut answer = None;
        self.answer(
            1,
            |_| case.clone(),
            |_, line| {
                answer = Some(line);
                ControlFlow::Continue(())
            },
        )?;
        Line::parse(&answer.ok_or_else(|| io::Error::other("no answer from replay"))?)
    }
}

/// A line of `replay`, taken apart.
#[derive(Clone, PartialEq, Eq, Debug)]
pub struct Line {
    pub code: u8,
    pub row: u8,
    pub place: usize,
    /// The image, the part, the file or the count that is handed back.
    pub bytes: Vec<u8>,
}

impl Line {
    pub fn parse(line: &str) -> io::Result<Line> {
        Line::taken_apart(line).ok_or_else(|| io::Error::other(format!("replay says \"{line}\"")))
    }

    fn taken_apart(line: &str) -> Option<Line> {
        let words: Vec<&str> = line.split(' ').collect();
        let [code, row, place, hex] = words[..] else {
            return None;
        };
        let digits = |i: usize| u8::from_str_radix(hex.get(2 * i..2 * i + 2)?, 16).ok();
        let bytes = (0..hex.len() / 2).map(digits).collect::<Option<_>>()?;
        Some(Line { code: code.parse().ok()?, row: row.parse().ok()?, place: place.parse().ok()?, bytes })
    }
}

#[cfg(test)]
mod tests {
    use super::*;

    #[test]
    fn lines_of_replay_are_taken_apart() {
        let line = Line::parse("0 0 2 4b54").unwrap();
        assert_eq!(line, Line { code: 0, row: 0, place: 2, bytes: b"KT".to_vec() });
        assert!(Line::parse("3 0 5 ").is_ok());
        assert_eq!(
            Line::parse("feed broken at case 0").unwrap_err().to_string(),
            "replay says \"feed broken at case 0\""
        );
    }
}
