//! The independent program behind the same feed as the proved `replay`. It stands in for it where the tools are tried.

use std::io::{self, BufWriter, Read, Write};

use cases::feed::{next_case, MOST_BYTES};

/// Op and three numbers.
const HEAD: usize = 13;

fn main() -> io::Result<()> {
    let mut input = io::stdin().lock();
    let mut output = BufWriter::new(io::stdout().lock());
    for number in 0_u64.. {
        let mut bytes = Vec::new();
        input.by_ref().take(HEAD as u64).read_to_end(&mut bytes)?;
        if bytes.is_empty() {
            break;
        }
        if let Some(length) = bytes.get(9..HEAD) {
            let length = u32::from_le_bytes(length.try_into().expect("four bytes")) as usize;
            input.by_ref().take(length.min(MOST_BYTES) as u64).read_to_end(&mut bytes)?;
        }
        match next_case(&bytes) {
            Some((case, _)) => writeln!(output, "{}", case.line())?,
            None => {
                writeln!(output, "feed broken at case {number}")?;
                break;
            }
        }
    }
    output.flush()
}
