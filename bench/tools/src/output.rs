//! Standard output of the bench's programs, and how they end.

use std::io::{self, BufWriter, ErrorKind, Write};
use std::path::Path;
use std::process::ExitCode;

/// The status of a program that wrote to a pipe which nobody reads any more, as a shell gives it: 128 and the signal's number.
const CLOSED_PIPE: u8 = 141;

/// Runs a program that writes to standard output. It ends with its own status, with 2 and a line on an error, and quietly where
/// the output's reader went away, as `head` does when it has enough.
pub fn run(name: &str, program: impl FnOnce(&mut dyn Write) -> io::Result<u8>) -> ExitCode {
    let mut out = BufWriter::new(io::stdout().lock());
    let ended = program(&mut out).and_then(|status| out.flush().map(|()| status));
    let status = match ended {
        Ok(status) => status,
        Err(error) if error.kind() == ErrorKind::BrokenPipe => CLOSED_PIPE,
        Err(error) => {
            // What was said before the error comes before it, if it can.
            let _ = out.flush();
            eprintln!("{name}: {error}");
            2
        }
    };
    ExitCode::from(status)
}

/// An error with the path that it came up at. Its kind is lost: only a closed pipe of standard output ends a program quietly.
pub fn named(path: &Path) -> impl Fn(io::Error) -> io::Error + '_ {
    move |error| io::Error::other(format!("{}: {error}", path.display()))
}
