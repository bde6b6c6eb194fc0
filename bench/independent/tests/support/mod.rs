//! What the tests share: messages put together from strings, and calls that answer with plain numbers.
#![allow(dead_code)]

use independent::{check, Answer};

pub const OPEN: &str = "<Document xmlns=\"urn:iso:std:iso:20022:tech:xsd:camt.053.001.08\">";
pub const CLOSE: &str = "</Document>";

/// Document 01's whole example: "MsgId M1, CreDtTm 2024-03-01T06:00:00Z, one Stmt with Id S1, account Othr Id 9, one Bal
/// CLBD, EUR 5.00, CRDT, 2024-02-29."
pub fn whole_example() -> String {
    document(&[header(), statement("")].concat())
}

/// ".. Image, 67 bytes, hexadecimal"
pub const WHOLE_IMAGE: &str = "4B544F0001 010203 0400024D31 0507E80301060000000000000348 06 0700025331 090A0C0D000139 \
                               0F10111202 13455552000000000000000005 1401 151607E8021D 00";

/// Those 67 bytes, version 1.
pub fn former_image() -> Vec<u8> {
    let digits: String = WHOLE_IMAGE.split_whitespace().collect();
    (0..digits.len()).step_by(2).map(|i| u8::from_str_radix(&digits[i..i + 2], 16).unwrap()).collect()
}

/// Section 5 of document 02: "Document 01's whole example is then written as 68 bytes, version 2 and kind byte 1".
pub fn whole_image() -> Vec<u8> {
    [b"KTO\x00\x02\x01", &former_image()[5..]].concat()
}

pub fn document(inside: &str) -> String {
    format!("{OPEN}<BkToCstmrStmt>{inside}</BkToCstmrStmt>{CLOSE}")
}

pub fn header() -> String {
    "<GrpHdr><MsgId>M1</MsgId><CreDtTm>2024-03-01T06:00:00Z</CreDtTm></GrpHdr>".to_string()
}

pub const ACCOUNT: &str = "<Acct><Id><Othr><Id>9</Id></Othr></Id></Acct>";
pub const BALANCE: &str = "<Bal><Tp><CdOrPrtry><Cd>CLBD</Cd></CdOrPrtry></Tp><Amt Ccy=\"EUR\">5.00</Amt>\
                           <CdtDbtInd>CRDT</CdtDbtInd><Dt><Dt>2024-02-29</Dt></Dt></Bal>";

/// A statement with these entries.
pub fn statement(entries: &str) -> String {
    format!("<Stmt><Id>S1</Id>{ACCOUNT}{BALANCE}{entries}</Stmt>")
}

/// A transaction code as files have it.
pub const DOMAIN: &str = "<Domn><Cd>A</Cd><Fmly><Cd>B</Cd><SubFmlyCd>C</SubFmlyCd></Fmly></Domn>";

/// An entry with these details.
pub fn entry(details: &str) -> String {
    format!(
        "<Ntry><Amt Ccy=\"EUR\">1.00</Amt><CdtDbtInd>CRDT</CdtDbtInd><Sts><Cd>BOOK</Cd></Sts><BkTxCd>{DOMAIN}</BkTxCd>\
         {details}</Ntry>"
    )
}

/// A message with one entry that has one TxDtls with this inside.
pub fn transaction(inside: &str) -> String {
    document(&[header(), statement(&entry(&format!("<NtryDtls><TxDtls>{inside}</TxDtls></NtryDtls>")))].concat())
}

/// A message with this name of a debtor, as written in the file.
pub fn debtor(name: &str) -> String {
    transaction(&format!("<RltdPties><Dbtr><Pty><Nm>{name}</Nm></Pty></Dbtr></RltdPties>"))
}

/// The whole example with its balance's amount element replaced.
pub fn amount_element(element: &str) -> String {
    whole_example().replace("<Amt Ccy=\"EUR\">5.00</Amt>", element)
}

/// The whole example with its balance's amount replaced.
pub fn amount(text: &str) -> String {
    amount_element(&format!("<Amt Ccy=\"EUR\">{text}</Amt>"))
}

/// The whole example with its MsgId replaced.
pub fn message_id(text: &str) -> String {
    whole_example().replace("<MsgId>M1<", &format!("<MsgId>{text}<"))
}

/// Code, row and place of a file, with room for any image.
pub fn judge(file: impl AsRef<[u8]>) -> (u8, u8, usize) {
    let mut room = vec![0; 1 << 21];
    numbers(check(file.as_ref(), &mut room))
}

/// An accepted file's image.
pub fn image(file: impl AsRef<[u8]>) -> Vec<u8> {
    let mut room = vec![0; file.as_ref().len() + 100];
    let answer = check(file.as_ref(), &mut room);
    assert!(answer.is_accepted(), "{answer:?}");
    room.truncate(answer.place);
    room
}

pub fn numbers(answer: Answer) -> (u8, u8, usize) {
    (answer.code.number(), answer.row, answer.place)
}

/// The place of a piece that stands once in a text.
pub fn place(text: &str, piece: &str) -> usize {
    assert_eq!(text.matches(piece).count(), 1, "{piece} in {text}");
    text.find(piece).unwrap()
}

/// A sequence of numbers that looks random and is the same each time (splitmix64).
pub struct Numbers(pub u64);

impl Numbers {
    pub fn below(&mut self, limit: usize) -> usize {
        self.0 = self.0.wrapping_add(0x9e37_79b9_7f4a_7c15);
        let mut z = self.0;
        z = (z ^ (z >> 30)).wrapping_mul(0xbf58_476d_1ce4_e5b9);
        z = (z ^ (z >> 27)).wrapping_mul(0x94d0_49bb_1331_11eb);
        ((z ^ (z >> 31)) % limit as u64) as usize
    }
}
