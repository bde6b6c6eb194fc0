//! The fixed set of files for tidying.

use independent::LIMIT;

use super::needed;
use crate::checks;
use crate::feed::Case;
use crate::message::chosen::{EVERY_ROW, REPORT_EVERY_ROW, REPORT_LEAST, WHOLE};
use crate::message::{Draft, Style};
use crate::random::Random;

/// Everything that tidying takes away or writes in another way: a declaration, blanks between tags, in tags and around values, both quotes,
/// schema hints, entities that need not be, a `>` as it stands, zeros and signs, `1` for `true`, `.5`, 24:00:00 and an offset of zero.
pub const ODD: &str = concat!(
    "<?xml version=\"1.0\" encoding=\"UTF-8\"?>\r\n",
    "<Document\txmlns:xsi='http://www.w3.org/2001/XMLSchema-instance'\n",
    "  xmlns = 'urn:iso:std:iso:20022:tech:xsd:camt.053.001.08' xsi:schemaLocation=\"a &quot;b&quot;\" >\n",
    " <BkToCstmrStmt\n><GrpHdr>\r\n  <MsgId>M&apos;1</MsgId >",
    "<CreDtTm>\n2024-02-29T24:00:00-00:00 </CreDtTm>\t</GrpHdr>",
    "<Stmt><Id>S1</Id><ElctrncSeqNb> 007</ElctrncSeqNb>\n",
    "<Acct><Id><Othr><Id>&lt;9> &quot;&apos;</Id></Othr></Id><Ccy>EUR</Ccy></Acct> ",
    "<Bal><Tp><CdOrPrtry><Cd>CLBD</Cd></CdOrPrtry></Tp><Amt  Ccy = 'EUR' > +00.50\r</Amt>",
    "<CdtDbtInd>CRDT</CdtDbtInd><Dt><Dt>2024-02-29\n</Dt></Dt></Bal>",
    "<Ntry><Amt Ccy='EUR'>.5</Amt><CdtDbtInd>DBIT</CdtDbtInd><RvslInd>\t1</RvslInd><Sts><Cd>BOOK</Cd></Sts>",
    "<BkTxCd><Domn><Cd>PMNT</Cd><Fmly><Cd>RCDT</Cd><SubFmlyCd>ESCT</SubFmlyCd></Fmly></Domn></BkTxCd>",
    "<NtryDtls><TxDtls><RmtInf><Ustrd>a]]&gt;b &amp; c€</Ustrd></RmtInf></TxDtls></NtryDtls></Ntry>",
    "</Stmt></BkToCstmrStmt></Document>\n\n",
);

/// The same as it must be written, by hand.
pub const ODD_TIDIED: &str = concat!(
    "<Document xmlns=\"urn:iso:std:iso:20022:tech:xsd:camt.053.001.08\"><BkToCstmrStmt>",
    "<GrpHdr><MsgId>M'1</MsgId><CreDtTm>2024-03-01T00:00:00Z</CreDtTm></GrpHdr>",
    "<Stmt><Id>S1</Id><ElctrncSeqNb>7</ElctrncSeqNb>",
    "<Acct><Id><Othr><Id>&lt;9&gt; \"'</Id></Othr></Id><Ccy>EUR</Ccy></Acct>",
    "<Bal><Tp><CdOrPrtry><Cd>CLBD</Cd></CdOrPrtry></Tp><Amt Ccy=\"EUR\">0.5</Amt>",
    "<CdtDbtInd>CRDT</CdtDbtInd><Dt><Dt>2024-02-29</Dt></Dt></Bal>",
    "<Ntry><Amt Ccy=\"EUR\">0.5</Amt><CdtDbtInd>DBIT</CdtDbtInd><RvslInd>true</RvslInd><Sts><Cd>BOOK</Cd></Sts>",
    "<BkTxCd><Domn><Cd>PMNT</Cd><Fmly><Cd>RCDT</Cd><SubFmlyCd>ESCT</SubFmlyCd></Fmly></Domn></BkTxCd>",
    "<NtryDtls><TxDtls><RmtInf><Ustrd>a]]&gt;b &amp; c€</Ustrd></RmtInf></TxDtls></NtryDtls></Ntry>",
    "</Stmt></BkToCstmrStmt></Document>",
);

/// Tidy cases only. What is at the limit is not here: its lines would be longer than all the others together.
pub fn fixed_set() -> Vec<Case> {
    let mut cases = Vec::new();
    for file in [ODD, ODD_TIDIED, WHOLE, REPORT_LEAST] {
        cases.extend(rooms(file));
    }
    let roomy = |file: &str| Case::tidy(LIMIT, LIMIT, file);
    cases.extend([EVERY_ROW, REPORT_EVERY_ROW].into_iter().flat_map(styles).map(|file| roomy(&file)));
    cases.extend(refused());
    cases
}

/// "A file that document 01 refuses, code 14 included, changes neither", then the writer's 14: both rooms around what is needed, both
/// one byte short, the smallest and the largest.
fn rooms(file: &str) -> Vec<Case> {
    let (image, space) = needed(file.as_bytes());
    let around = |needed: usize| [0, needed - 1, needed, needed + 1, LIMIT];
    let mut cases: Vec<Case> =
        around(image).into_iter().flat_map(|room| around(space).map(|space| Case::tidy(room, space, file))).collect();
    cases.push(Case::tidy(u32::MAX as usize, LIMIT + 1, file));
    cases
}

/// One content as files of many styles.
fn styles(message: &str) -> Vec<String> {
    let draft = Draft::from_text(message);
    let odd = (1..=6).map(|seed| Style { odd: Some(Random::new(seed)), ..Style::USUAL });
    [Style::DENSE, Style::USUAL].into_iter().chain(odd).map(|style| style.write(&draft)).collect()
}

/// The chosen files of checks that are refused, one of each code but 1, with room and with none.
fn refused() -> Vec<Case> {
    let mut codes = std::collections::BTreeSet::new();
    let mut cases = Vec::new();
    for case in checks::fixed_set().into_iter().filter(|case| case.bytes.len() <= LIMIT) {
        let answer = independent::check(&case.bytes, &mut []);
        if !answer.is_accepted() && codes.insert(answer.code) {
            cases.push(Case::tidy(LIMIT, LIMIT, &case.bytes[..]));
            cases.push(Case::tidy(0, 0, case.bytes));
        }
    }
    cases
}

#[cfg(test)]
mod tests {
    use super::*;
    use crate::feed::codes;
    use std::collections::BTreeSet;

    fn tidied(file: &str) -> String {
        String::from_utf8(Case::tidy(LIMIT, LIMIT, file).answer().1).unwrap()
    }

    #[test]
    fn the_odd_one_is_tidied_as_by_hand_and_then_stays() {
        assert_eq!(tidied(ODD), ODD_TIDIED);
        assert_eq!(tidied(ODD_TIDIED), ODD_TIDIED);
    }

    #[test]
    fn styles_of_one_content_end_in_the_same_bytes() {
        for message in [WHOLE, EVERY_ROW, REPORT_EVERY_ROW] {
            let once = tidied(message);
            assert!(styles(message).iter().all(|file| tidied(file) == once), "{message}");
        }
    }

    /// All codes of a tidying but 1 and 19.
    #[test]
    fn every_code_is_reached() {
        let reached: BTreeSet<u8> = fixed_set().iter().map(|case| case.answer().0.code.number()).collect();
        assert_eq!(reached, codes(8).iter().copied().filter(|code| ![1, 19].contains(code)).collect());
    }
}
