//! The feed that `replay` takes, and the line it writes for each case.
//!
//! A case is one byte op (0 check, 1 read, 2 pick, 3 write, 6 read with its count, 8 tidy), three 32-bit little-endian numbers (room, of
//! a pick the row; n of a pick, of a tidying the room for the file; length), and that many bytes. Its line is `CODE ROW PLACE HEX`:
//! HEX is the image of an accepted check, the part of an accepted pick, the file of an accepted write, or of op 6 the number of items in
//! four bytes, whatever the code, else nothing behind the third blank; of a tidying the image where it was written, `/`, and the tidied
//! file where it was written. A feed that breaks off, names another op or a length over 1,048,577 ends with `feed broken at case N`.

use independent::{check, pick, read, reading, tidy, write, Answer, LIMIT};

/// One question to the unit.
#[derive(Clone, PartialEq, Eq, Debug)]
pub struct Case {
    pub op: Op,
    pub bytes: Vec<u8>,
}

#[derive(Clone, Copy, PartialEq, Eq, Debug)]
pub enum Op {
    Check {
        room: u32,
    },
    Read,
    Pick {
        row: u32,
        n: u32,
    },
    Write {
        room: u32,
    },
    Count,
    /// With room for the image, and for the file.
    Tidy {
        room: u32,
        space: u32,
    },
}

impl Op {
    /// The byte that names it in a feed.
    pub fn number(self) -> u8 {
        match self {
            Op::Check { .. } => 0,
            Op::Read => 1,
            Op::Pick { .. } => 2,
            Op::Write { .. } => 3,
            Op::Count => 6,
            Op::Tidy { .. } => 8,
        }
    }
}

/// The ops that the independent program answers. A proved `replay` may know fewer.
pub const ALL_OPS: [u8; 6] = [0, 1, 2, 3, 6, 8];

/// The codes that an op answers with.
pub fn codes(op: u8) -> &'static [u8] {
    match op {
        0 => &[0, 1, 2, 3, 4, 5, 6, 7, 8, 9, 10, 11, 12, 13, 14],
        1 | 6 => &[0, 1, 15, 16, 17],
        2 => &[0, 1, 15, 16, 17, 18],
        3 => &[0, 1, 14, 15, 16, 17, 19, 20, 26],
        8 => &[0, 1, 2, 3, 4, 5, 6, 7, 8, 9, 10, 11, 12, 13, 14, 19],
        _ => &[],
    }
}

/// The longest case: one byte over what check and read take.
pub const MOST_BYTES: usize = LIMIT + 1;

impl Case {
    pub fn check(room: usize, bytes: impl Into<Vec<u8>>) -> Case {
        Case { op: Op::Check { room: room as u32 }, bytes: bytes.into() }
    }

    pub fn read(bytes: impl Into<Vec<u8>>) -> Case {
        Case { op: Op::Read, bytes: bytes.into() }
    }

    pub fn pick(row: u32, n: u32, bytes: impl Into<Vec<u8>>) -> Case {
        Case { op: Op::Pick { row, n }, bytes: bytes.into() }
    }

    pub fn write(room: usize, bytes: impl Into<Vec<u8>>) -> Case {
        Case { op: Op::Write { room: room as u32 }, bytes: bytes.into() }
    }

    pub fn count(bytes: impl Into<Vec<u8>>) -> Case {
        Case { op: Op::Count, bytes: bytes.into() }
    }

    pub fn tidy(room: usize, space: usize, bytes: impl Into<Vec<u8>>) -> Case {
        Case { op: Op::Tidy { room: room as u32, space: space as u32 }, bytes: bytes.into() }
    }

    /// The case's bytes in a feed.
    pub fn feed(&self) -> Vec<u8> {
        let (first, second) = match self.op {
            Op::Check { room } | Op::Write { room } => (room, 0),
            Op::Read | Op::Count => (0, 0),
            Op::Pick { row, n } => (row, n),
            Op::Tidy { room, space } => (room, space),
        };
        let length = u32::try_from(self.bytes.len()).expect("a case of at most 1,048,577 bytes");
        let numbers = [first, second, length].map(u32::to_le_bytes).concat();
        [&[self.op.number()], &numbers[..], &self.bytes].concat()
    }

    /// What the independent program answers, with the image, the part, the file or the count; of a tidying with the tidied file.
    pub fn answer(&self) -> (Answer, Vec<u8>) {
        let (answer, mut parts) = self.parts();
        (answer, parts.pop().unwrap_or_default())
    }

    /// The answer, and all that is handed back.
    fn parts(&self) -> (Answer, Vec<Vec<u8>>) {
        match self.op {
            Op::Check { room } => filled(room, |out| check(&self.bytes, out)),
            Op::Write { room } => filled(room, |out| write(&self.bytes, out)),
            Op::Read => (read(&self.bytes), Vec::new()),
            Op::Pick { row, n } => {
                let (answer, part) = pick(&self.bytes, row.into(), n.into());
                (answer, vec![part.to_vec()])
            }
            Op::Tidy { room, space } => {
                let mut image = lent(room);
                let (answer, mut parts) = filled(space, |out| tidy(&self.bytes, &mut image, out));
                // In a buffer of zeros no image begins but one that was written.
                let written = read(&image);
                image.truncate(if written.is_accepted() { written.place } else { 0 });
                parts.insert(0, image);
                (answer, parts)
            }
            Op::Count => {
                let (answer, items) = reading(&self.bytes);
                (answer, vec![u32::try_from(items).expect("at most one item for each byte").to_be_bytes().to_vec()])
            }
        }
    }

    /// The answer as a line, without its line end.
    pub fn line(&self) -> String {
        let (answer, parts) = self.parts();
        let hex: Vec<String> = parts.iter().map(|part| hexadecimal(part)).collect();
        format!("{} {} {} {}", answer.code.number(), answer.row, answer.place, hex.join("/"))
    }
}

/// The answer of a call with so much room, and what it wrote.
fn filled(room: u32, call: impl FnOnce(&mut [u8]) -> Answer) -> (Answer, Vec<Vec<u8>>) {
    let mut out = lent(room);
    let answer = call(&mut out);
    out.truncate(if answer.is_accepted() { answer.place } else { 0 });
    (answer, vec![out])
}

/// A buffer of so much room, of zeros. A room over 1,048,576 counts as that.
fn lent(room: u32) -> Vec<u8> {
    vec![0; (room as usize).min(LIMIT)]
}

/// Lower-case hexadecimal.
pub fn hexadecimal(bytes: &[u8]) -> String {
    const DIGITS: &[u8; 16] = b"0123456789abcdef";
    bytes.iter().flat_map(|byte| [byte >> 4, byte & 15]).map(|digit| char::from(DIGITS[usize::from(digit)])).collect()
}

/// The case at the beginning of a feed and what follows it; `None` where the feed is broken there.
pub fn next_case(feed: &[u8]) -> Option<(Case, &[u8])> {
    let (op, rest) = feed.split_first()?;
    let (first, rest) = number(rest)?;
    let (second, rest) = number(rest)?;
    let (length, rest) = number(rest)?;
    let op = match op {
        0 => Op::Check { room: first },
        1 => Op::Read,
        2 => Op::Pick { row: first, n: second },
        3 => Op::Write { room: first },
        6 => Op::Count,
        8 => Op::Tidy { room: first, space: second },
        _ => return None,
    };
    let length = length as usize;
    if length > MOST_BYTES || length > rest.len() {
        return None;
    }
    let (bytes, rest) = rest.split_at(length);
    Some((Case { op, bytes: bytes.to_vec() }, rest))
}

fn number(feed: &[u8]) -> Option<(u32, &[u8])> {
    let (bytes, rest) = feed.split_first_chunk()?;
    Some((u32::from_le_bytes(*bytes), rest))
}

/// Every line that a feed is answered with.
pub fn answers(feed: &[u8]) -> String {
    let mut lines = String::new();
    let mut rest = feed;
    let mut number = 0;
    while !rest.is_empty() {
        let Some((case, after)) = next_case(rest) else {
            lines += &format!("feed broken at case {number}\n");
            break;
        };
        lines += &case.line();
        lines += "\n";
        rest = after;
        number += 1;
    }
    lines
}

#[cfg(test)]
mod tests {
    use super::*;

    #[test]
    fn a_feed_is_answered_line_by_line() {
        let feed = [
            Case::check(100, "<a></b>").feed(),
            Case::read("KTO\0\u{1}").feed(),
            Case::pick(4, 0, "KTX\0\u{1}").feed(),
            Case::write(100, "KTO\0\u{3}").feed(),
            Case::count("KTO\0\u{1}\u{1}\u{2}").feed(),
            Case::tidy(100, 100, "<a></b>").feed(),
        ];
        assert_eq!(answers(&feed.concat()), "3 0 5 \n17 0 5 \n15 0 0 \n16 0 3 \n17 0 7 00000002\n3 0 5 /\n");
        assert_eq!(answers(b""), "");
    }

    #[test]
    fn cases_come_back_from_their_feed() {
        let cases = [
            Case::check(7, "x"),
            Case::read(""),
            Case::pick(300, 4_000_000_000, "yz"),
            Case::write(9, "KTO"),
            Case::count("K"),
            Case::tidy(4_000_000_000, 8, "<a/>"),
        ];
        assert_eq!(cases.each_ref().map(|case| case.op.number()), ALL_OPS);
        for case in cases {
            let feed = [case.feed(), b"rest".to_vec()].concat();
            assert_eq!(next_case(&feed), Some((case, &b"rest"[..])));
        }
    }

    #[test]
    fn broken_feeds() {
        let whole = Case::read("abc").feed();
        for cut in 1..whole.len() {
            assert_eq!(answers(&[&whole[..], &whole[..cut]].concat()), "15 0 0 \nfeed broken at case 1\n");
        }
        for other in (0..=255).filter(|op| !ALL_OPS.contains(op)) {
            let mut other_op = whole.clone();
            other_op[0] = other;
            assert_eq!(answers(&[other_op, whole.clone()].concat()), "feed broken at case 0\n");
        }
        let mut long = Case::read(vec![0; MOST_BYTES]).feed();
        assert_eq!(answers(&long), "1 0 1048576 \n");
        long[9..13].copy_from_slice(&(MOST_BYTES as u32 + 1).to_le_bytes());
        long.push(0);
        assert_eq!(answers(&long), "feed broken at case 0\n");
    }
}
