//! Files at the limit, and images much shorter than their files.

use independent::LIMIT;

use crate::feed::Case;
use crate::random::Random;
use crate::runs::{filled, front_of, image_of, put_together, take_apart, with_old_codes, Old};

/// What stands before the transactions of the message below, and behind them.
const BEFORE: &str = concat!(
    "<Document xmlns=\"urn:iso:std:iso:20022:tech:xsd:camt.053.001.08\"><BkToCstmrStmt>",
    "<GrpHdr><MsgId>M1</MsgId><CreDtTm>2024-03-01T06:00:00Z</CreDtTm></GrpHdr>",
    "<Stmt><Id>S1</Id><Acct><Id><Othr><Id>9</Id></Othr></Id></Acct>",
    "<Bal><Tp><CdOrPrtry><Cd>CLBD</Cd></CdOrPrtry></Tp><Amt Ccy=\"EUR\">5</Amt><CdtDbtInd>CRDT</CdtDbtInd>",
    "<Dt><Dt>2024-02-29</Dt></Dt></Bal>",
    "<Ntry><Amt Ccy=\"EUR\">5</Amt><CdtDbtInd>CRDT</CdtDbtInd><Sts><Cd>BOOK</Cd></Sts>",
    "<BkTxCd><Domn><Cd>A</Cd><Fmly><Cd>B</Cd><SubFmlyCd>C</SubFmlyCd></Fmly></Domn></BkTxCd><NtryDtls>",
);
const BEHIND: &str = "</NtryDtls></Ntry></Stmt></BkToCstmrStmt></Document>";

/// A transaction that takes 8 bytes in an image, in five items.
const SHORT: &str = "<TxDtls><RltdPties><Dbtr><Pty><Nm>&amp;</Nm></Pty></Dbtr></RltdPties></TxDtls>";
const SHORT_ITEMS: usize = 5;

/// The image whose file has so many bytes: many short transactions, and one with a text that makes up the rest. The image is
/// put together from its items, so the file may be longer than any that can be checked.
pub fn image_for_file_of(length: usize) -> Vec<u8> {
    let last = |text: &str| format!("<TxDtls><RmtInf><Ustrd>{text}</Ustrd></RmtInf></TxDtls>");
    let left = length - [BEFORE, &last("x"), BEHIND].concat().len();
    let (times, more) = (left / SHORT.len(), left % SHORT.len());
    let one = [BEFORE, SHORT, &last(&"x".repeat(1 + more)), BEHIND].concat();
    let image = image_of(one.as_bytes());
    let items = take_apart(&image);
    let first = items.iter().position(|item| item[0] == 43).expect("a transaction");
    let (before, rest) = items.split_at(first);
    let (short, last) = rest.split_at(SHORT_ITEMS);
    put_together(front_of(&image), &[&before.concat(), &short.concat().repeat(times), &last.concat()])
}

/// A run or a file with the limit's length, or one byte less or more, with enough room and with too little; or an image whose
/// file is far too long. One of four such images has an old transaction code.
pub fn at_the_limit(image: Vec<u8>, random: &mut Random) -> Case {
    let about = LIMIT - 1 + random.below(3);
    let (room, length) = match random.below(6) {
        0 => return Case::write(LIMIT, filled(image, about)),
        1 => (LIMIT, LIMIT),
        2 => (LIMIT - 1, LIMIT),
        3 => (LIMIT, LIMIT + 1),
        4 => (about - 1 - random.below(2), about),
        _ => (random.below(LIMIT), about + random.below(LIMIT)),
    };
    let mut large = image_for_file_of(length);
    if random.once_in(4) {
        large = with_old_codes(&large, |_| Some((Old::Beside, "X".to_string())));
    }
    Case::write(room, large)
}

#[cfg(test)]
mod tests {
    use super::*;
    use independent::{read, write, Answer, Code};

    #[test]
    fn files_have_the_length_asked_for() {
        for length in (2_000..2_080).chain([LIMIT, LIMIT + 1]) {
            let image = image_for_file_of(length);
            assert_eq!(read(&image), Answer::new(Code::Accepted, 0, image.len()));
            let code = if length > LIMIT { Code::FileTooLong } else { Code::NoRoom };
            assert_eq!(write(&image, &mut []), Answer::new(code, 0, length));
        }
    }
}
