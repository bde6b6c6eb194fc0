//! How far grading has come, on a terminal.

use std::io::{self, IsTerminal, Write};

/// From how many files on it is shown.
const MANY: usize = 20;

/// A line on standard error that is written over again and again; nothing where that is no terminal, or where there is little to do.
pub struct Progress {
    total: usize,
    shown: bool,
    width: usize,
}

impl Progress {
    pub fn new(total: usize) -> Progress {
        Progress { total, shown: total >= MANY && io::stderr().is_terminal(), width: 0 }
    }

    pub fn show(&mut self, done: usize) {
        let line = format!("{done} of {} files", self.total);
        self.width = line.len();
        self.print(&format!("\r{line}"));
    }

    /// Takes the line away, so that something else can be said there.
    pub fn clear(&mut self) {
        let blanks = " ".repeat(self.width);
        self.print(&format!("\r{blanks}\r"));
        self.width = 0;
    }

    /// A terminal that takes nothing any more is no reason to stop.
    fn print(&self, text: &str) {
        if self.shown && self.width > 0 {
            let _ = write!(io::stderr(), "{text}").and_then(|()| io::stderr().flush());
        }
    }
}
