//! Texts that end where the file or the buffer does.

use crate::feed::Case;
use crate::message::chosen::{EVERY_ROW, REPORT_EVERY_ROW, REPORT_LEAST, WHOLE};

/// Each beginning of a file with every row: it ends in every text and every tag, after every byte of it. And whole short files with up to
/// forty blanks after the root.
pub fn cut_off() -> Vec<Vec<u8>> {
    let beginnings = [EVERY_ROW, REPORT_EVERY_ROW].map(str::as_bytes);
    let mut files: Vec<Vec<u8>> =
        beginnings.iter().flat_map(|file| (0..=file.len()).map(|end| file[..end].to_vec())).collect();
    for blank in ["\n", " ", "\t"] {
        files.extend(
            (1..=40).flat_map(|n| [WHOLE, REPORT_LEAST].map(|file| (file.to_string() + &blank.repeat(n)).into_bytes())),
        );
    }
    files
}

/// The image ends with a text of each length up to forty, and the buffer with the image, or a little before or after it.
pub fn rooms() -> Vec<Case> {
    let last = "<Ustrd>Top 4</Ustrd>";
    let end = EVERY_ROW.find(last).expect("a last text") + last.len();
    let front = &EVERY_ROW[..end];
    let closing = "</RmtInf></TxDtls></NtryDtls></Ntry></Stmt></BkToCstmrStmt></Document>";
    let mut cases = Vec::new();
    for length in 1..=40 {
        for text in ["x".repeat(length), "ß".repeat(length), "x".repeat(length - 1) + "&amp;"] {
            let file = front.replace(last, &format!("<Ustrd>{text}</Ustrd>")) + closing;
            let needed = independent::check(file.as_bytes(), &mut []).place;
            cases.extend([needed - 1, needed, needed + 1, needed + 8].map(|room| Case::check(room, file.as_str())));
        }
    }
    cases
}

#[cfg(test)]
mod tests {
    use super::*;
    use crate::lane::room;

    #[test]
    fn only_the_whole_of_a_file_that_is_cut_off_is_good() {
        let good = cut_off().into_iter().filter(|file| independent::check(file, &mut vec![0; 2000]).is_accepted());
        assert_eq!(good.count(), 2 + 240);
    }

    /// The text is the last item before the closing 0.
    #[test]
    fn images_end_with_their_text() {
        for case in rooms() {
            let (answer, image) = case.answer();
            if answer.is_accepted() {
                assert!(room(&case) >= image.len());
                assert!([&b"x\0"[..], b"\x9f\0", b"&\0"].iter().any(|end| image.ends_with(end)), "{image:?}");
            } else {
                assert_eq!((answer.code.number(), answer.place), (14, room(&case) + 1));
            }
        }
    }
}
