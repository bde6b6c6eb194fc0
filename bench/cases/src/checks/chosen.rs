//! The fixed set of files for programs in the gate.

use independent::LIMIT;

use crate::feed::Case;
use crate::message::chosen::{EVERY_ROW, REPORT_EVERY_ROW, REPORT_LEAST, WHOLE};
use crate::message::{Draft, Part, Path, Style};

/// Room for any image of the set.
const ROOM: usize = 4096;

/// Check cases only. The last one is the only long one.
pub fn fixed_set() -> Vec<Case> {
    let mut cases = rooms();
    let mut files: Vec<Vec<u8>> = Vec::new();
    files.extend(SHORT.iter().map(|text| text.as_bytes().to_vec()));
    files.extend(styles().into_iter().map(String::into_bytes));
    files.extend(on_the_root());
    files.extend(REPLACED_IN_WHOLE.iter().map(|pairs| replaced(WHOLE, pairs)));
    files.extend(REPLACED_IN_EVERY_ROW.iter().map(|pairs| replaced(EVERY_ROW, pairs)));
    files.extend(REPLACED_IN_LEAST_REPORT.iter().map(|pairs| replaced(REPORT_LEAST, pairs)));
    files.extend(REPLACED_IN_REPORT.iter().map(|pairs| replaced(REPORT_EVERY_ROW, pairs)));
    files.extend(not_utf8());
    files.extend(each_element_changed());
    files.extend(each_element_left_out_and_doubled());
    files.extend(each_element_of_a_report_left_out());
    cases.extend(files.into_iter().map(|file| Case::check(ROOM, file)));
    cases.push(Case::check(ROOM, vec![b' '; LIMIT + 1]));
    cases
}

/// Code 14 and its neighbours: "a 68-byte buffer accepts, 67 gives 14, place 68", and "14 comes last". The least report has 42.
fn rooms() -> Vec<Case> {
    let late_fault = String::from_utf8(replaced(WHOLE, &[("2024-02-29", "2023-02-29")])).expect("UTF-8");
    let rooms = [0, 1, 66, 67, 68, 69, LIMIT, LIMIT + 1, u32::MAX as usize];
    let mut cases: Vec<Case> = rooms.iter().map(|room| Case::check(*room, WHOLE)).collect();
    cases.extend([0, 67, 68].map(|room| Case::check(room, late_fault.as_str())));
    cases.extend([0, 41, 42, 43].map(|room| Case::check(room, REPORT_LEAST)));
    cases.extend([0, 100, 500].map(|room| Case::check(room, EVERY_ROW)));
    cases.extend([0, 100, 500].map(|room| Case::check(room, REPORT_EVERY_ROW)));
    cases.push(Case::check(0, ""));
    cases.push(Case::check(0, "<Document/>"));
    cases
}

const SHORT: &[&str] = &[
    "",
    "<a></b>",
    "<Document/>",
    "<a/>",
    " <Document/>",
    "<Document xmlns=\"urn:iso:std:iso:20022:tech:xsd:camt.053.001.08\"/>",
    "\r\n<Document xmlns='urn:iso:std:iso:20022:tech:xsd:camt.053.001.08'/>",
    "<Document xmlns=\"urn:iso:std:iso:20022:tech:xsd:camt.053.001.02\"/>",
    "<Document xmlns=\"urn:iso:std:iso:20022:tech:xsd:camt.053.001.08 \"/>",
    "<Document xmlns=\"urn:iso:std:iso:20022:tech:xsd:camt.053.001.08\" a=\"\"/>",
    "<Document a=\"\" xmlns=\"urn:iso:std:iso:20022:tech:xsd:camt.053.001.08\"/>",
    "<Document Xmlns=\"urn:iso:std:iso:20022:tech:xsd:camt.053.001.08\"/>",
    "<document xmlns=\"urn:iso:std:iso:20022:tech:xsd:camt.053.001.08\"/>",
    "<Documents xmlns=\"urn:iso:std:iso:20022:tech:xsd:camt.053.001.08\"/>",
    "<Document xmlns=\"urn:iso:std:iso:20022:tech:xsd:camt.053.001.08\">x</Document>",
    "<Document xmlns=\"urn:iso:std:iso:20022:tech:xsd:camt.053.001.08\"> \n</Document>",
    "<Document xmlns=\"urn:iso:std:iso:20022:tech:xsd:camt.053.001.08\"><BkToCstmrStmt/></Document>",
    "<Document xmlns=\"urn:iso:std:iso:20022:tech:xsd:camt.053.001.08\"><BkToCstmrStmt/><BkToCstmrStmt/></Document>",
    "<Document xmlns=\"urn:iso:std:iso:20022:tech:xsd:camt.053.001.08\"><Document/></Document>",
    "<Document xmlns=\"urn:iso:std:iso:20022:tech:xsd:camt.052.001.08\"/>",
    "\t<Document xmlns = 'urn:iso:std:iso:20022:tech:xsd:camt.052.001.08' ></Document>",
    "<Document xmlns=\"urn:iso:std:iso:20022:tech:xsd:camt.052.001.02\"/>",
    "<Document xmlns=\"urn:iso:std:iso:20022:tech:xsd:camt.052.001.0\"/>",
    "<Document xmlns=\"urn:iso:std:iso:20022:tech:xsd:camt.052.001.080\"/>",
    "<Document xmlns=\"urn:iso:std:iso:20022:tech:xsd:camt.051.001.08\"/>",
    "<Document xmlns=\"urn:iso:std:iso:20022:tech:xsd:camt.054.001.08\"/>",
    "<Document xmlns=\"urn:iso:std:iso:20022:tech:xsd:camt.052.001.08\" a=\"\"/>",
    "<document xmlns=\"urn:iso:std:iso:20022:tech:xsd:camt.052.001.08\"/>",
    "<Document xmlns=\"urn:iso:std:iso:20022:tech:xsd:camt.052.001.08\">x</Document>",
    "<Document xmlns=\"urn:iso:std:iso:20022:tech:xsd:camt.052.001.08\"><BkToCstmrAcctRpt/></Document>",
    "<Document xmlns=\"urn:iso:std:iso:20022:tech:xsd:camt.052.001.08\"><BkToCstmrStmt/></Document>",
    "<Document xmlns=\"urn:iso:std:iso:20022:tech:xsd:camt.053.001.08\"><BkToCstmrAcctRpt/></Document>",
    "<Document xmlns=\"urn:iso:std:iso:20022:tech:xsd:camt.052.001.08\"><BkToCstmrRpt/></Document>",
];

/// Schema hints on the root of document 01's whole example: "The root may carry these two besides xmlns, with any text".
fn on_the_root() -> Vec<Vec<u8>> {
    let space = "xmlns=\"urn:iso:std:iso:20022:tech:xsd:camt.053.001.08\"";
    let (prefix, location) = ("xmlns:xsi='http://www.w3.org/2001/XMLSchema-instance'", "xsi:schemaLocation='a b.xsd'");
    let roots: Vec<Vec<&str>> = vec![
        // Each order of the three, and of two.
        vec![space, prefix, location],
        vec![space, location, prefix],
        vec![prefix, space, location],
        vec![prefix, location, space],
        vec![location, space, prefix],
        vec![location, prefix, space],
        vec![space, prefix],
        vec![prefix, space],
        // Any text.
        vec![space, "xmlns:xsi=''", "xsi:schemaLocation=\"\""],
        vec![space, "xmlns:xsi = '&lt;&amp;&quot; €'", "xsi:schemaLocation='\n'"],
        vec![space, "xmlns:xsi='urn:iso:std:iso:20022:tech:xsd:camt.053.001.08'"],
        // "An xsi attribute without its `xmlns:xsi` gives code 4."
        vec![space, location],
        vec![location, space],
        vec![space, location, "xmlns:xs=''"],
        vec![space, location, "xmlns:schemaLocation=''"],
        // No others: 4.
        vec![space, prefix, location, "a=''"],
        vec![space, prefix, "xsi:noNamespaceSchemaLocation=''"],
        vec![space, prefix, "xsi:type=''"],
        vec![space, prefix, "xsi:schemaLocations=''"],
        vec![space, prefix, "xsi:schemaLocatio=''"],
        vec![space, prefix, "schemaLocation=''"],
        vec![space, "xmlns:x=''", "x:schemaLocation=''"],
        vec![space, "xmlns:xs=''"],
        vec![space, "xmlns:xsi2=''"],
        vec![space, "xmlns:XSI=''"],
        vec![space, "xsi:xmlns=''"],
        vec![space, "xml:lang='de'"],
        vec![space, "xsi=''"],
        // Without xmlns, or with another namespace: 4.
        vec![prefix],
        vec![prefix, location],
        vec!["xmlns=''", prefix, location],
        vec!["xmlns='urn:iso:std:iso:20022:tech:xsd:camt.053.001.02'", prefix],
        vec!["xmlns:xsi=\"urn:iso:std:iso:20022:tech:xsd:camt.053.001.08\""],
        // House XML first: a full name twice, a fifth attribute, two colons.
        vec![space, prefix, prefix],
        vec![space, prefix, location, location],
        vec![space, prefix, location, "a=''", "b=''"],
        vec![space, "xmlns:xsi:a=''"],
        vec![space, "xmlns:=''"],
    ];
    roots.iter().map(|root| replaced(WHOLE, &[(space, &root.join(" "))])).collect()
}

/// The same contents in other styles.
fn styles() -> Vec<String> {
    let (whole, every_row) = (Draft::from_text(WHOLE), Draft::from_text(EVERY_ROW));
    let mut texts = vec![Style::USUAL.write(&whole), Style::USUAL.write(&every_row), Style::DENSE.write(&every_row)];
    let mut random = crate::random::Random::new(7);
    for _ in 0..6 {
        texts.push(Style::any(&mut random).write(&whole));
        texts.push(Style::any(&mut random).write(&every_row));
    }
    texts
}

type Replaced = &'static [(&'static str, &'static str)];

/// Changes to document 01's whole example.
const REPLACED_IN_WHOLE: &[Replaced] = &[
    // Values: good in another spelling, and bad.
    &[("5.00", "1250.50")],
    &[("5.00", "-0.00")],
    &[("5.00", ".5")],
    &[("5.00", "7.")],
    &[("5.00", "0.000010")],
    &[("5.00", "999999999999999999")],
    &[("5.00", "1000000000000000000")],
    &[("5.00", "0.000001")],
    &[("5.00", "-0.01")],
    &[("5.00", ".")],
    &[("5.00", " \n5.00\t")],
    &[("5.00", " ")],
    &[("5.00", "&amp;")],
    &[("M1", "A/B")],
    &[("M1", "A//B")],
    &[("M1", "&apos;")],
    &[("M1", "M&amp;1")],
    &[("M1", " ")],
    &[("M1", "\n")],
    &[("M1", "12345678901234567890123456789012345")],
    &[("M1", "123456789012345678901234567890123456")],
    &[("06:00:00Z", "06:00:00")],
    &[("06:00:00Z", "24:00:00Z")],
    &[("06:00:00Z", "24:00:00.1Z")],
    &[("2024-03-01T06:00:00Z", "2024-02-28T24:00:00-14:00")],
    &[("2024-03-01T06:00:00Z", "9999-12-31T24:00:00Z")],
    &[("06:00:00Z", "06:00:00.123-14:00")],
    &[("06:00:00Z", "06:00:00.120Z")],
    &[("06:00:00Z", "06:00:00.123456-14:00")],
    &[("2024-02-29", "2023-02-29")],
    &[("2024-02-29", " 2024-02-29 ")],
    &[("CLBD", "ITBD")],
    &[("CLBD", " CLBD")],
    // 3 before all that follows.
    &[("</Document>", "</Document")],
    &[("</Document>", "</Document>x")],
    &[("<Document ", "<document ")],
    &[("5.00", "]]>"), ("M1", "")],
    &[("<Stmt>", "<Stmt a='1' b='2' c='3' d='4' e='5'>")],
    &[("M1", "<!-- M1 -->")],
    &[("M1", "<![CDATA[M1]]>")],
    &[("M1", "&#77;1")],
    // 4 before what stands below.
    &[("urn:iso", "urn:osi"), ("M1", "")],
    // 5, and which row.
    &[("camt.053", "camt.052")],
    &[("<MsgId>M1</MsgId>", "<MsgID>M1</MsgID>")],
    &[("M1", "M<x/>1")],
    &[("M1", "<MsgId>M1</MsgId>")],
    &[("5.00", "5<x a=''/>.00")],
    &[("<Othr>", "<Othr><IBAN/>")],
    &[("<Othr><Id>9</Id></Othr>", "<Prtry>9</Prtry>")],
    // In the choice: 5 before 7, no 6, any second child 7.
    &[("</Othr>", "</Othr><IBAN>AT611</IBAN>")],
    &[("</Othr>", "</Othr><Othr><Id>9</Id></Othr>")],
    &[("</Othr>", "</Othr><Prtry/>")],
    &[("</Othr>", "</Othr><IBAN a=''/>")],
    &[("<Othr>", "<IBAN>AT611</IBAN><Othr>")],
    &[("<Othr><Id>9</Id></Othr>", "<IBAN>AT611</IBAN>")],
    &[("<Othr><Id>9</Id></Othr>", "")],
    &[("<Othr><Id>9</Id></Othr>", " ")],
    &[("<Othr><Id>9</Id></Othr>", "x")],
    // 6 before 7: a row that comes again behind a later sibling.
    &[("</CreDtTm>", "</CreDtTm><MsgId>M1</MsgId>")],
    &[("</CreDtTm>", "</CreDtTm><MsgId a=''></MsgId>")],
    &[("</MsgId>", "</MsgId><MsgId>M1</MsgId>")],
    &[("</MsgId>", "</MsgId><MsgId a=''></MsgId>")],
    &[(
        "<Amt Ccy=\"EUR\">5.00</Amt><CdtDbtInd>CRDT</CdtDbtInd>",
        "<CdtDbtInd>CRDT</CdtDbtInd><Amt Ccy=\"EUR\">5.00</Amt>",
    )],
    &[("</Acct>", "</Acct><ElctrncSeqNb>1</ElctrncSeqNb>")],
    // 9.
    &[("<MsgId>", "<MsgId a=''>")],
    &[("<MsgId>M1", "<MsgId xmlns='urn:iso:std:iso:20022:tech:xsd:camt.053.001.08'>")],
    &[("<Stmt>", "<Stmt Ccy='EUR'>x")],
    // 9, a schema hint below the root.
    &[("<BkToCstmrStmt>", "<BkToCstmrStmt xmlns:xsi=''>")],
    &[("<BkToCstmrStmt>", "<BkToCstmrStmt xsi:schemaLocation=''>")],
    &[("<Document ", "<Document xmlns:xsi='' "), ("<BkToCstmrStmt>", "<BkToCstmrStmt xsi:schemaLocation=''>")],
    &[("<MsgId>", "<MsgId xmlns:xsi='' xsi:schemaLocation=''>")],
    &[("<Amt Ccy=\"EUR\">", "<Amt xmlns:xsi='' Ccy='EUR'>")],
    &[("<Amt Ccy=\"EUR\">", "<Amt Ccy='EUR' xsi:schemaLocation=''>")],
    &[("<Amt Ccy=\"EUR\">", "<Amt xsi:Ccy='EUR'>")],
    &[("<Amt Ccy=\"EUR\">", "<Amt Ccy:a='EUR'>")],
    // 3, a colon in an element's name.
    &[("<GrpHdr>", "<a:GrpHdr>")],
    &[("</GrpHdr>", "</a:GrpHdr>")],
    &[("<Amt Ccy=\"EUR\">", "<Amt>")],
    &[("<Amt Ccy=\"EUR\">", "<Amt Ccy='EUR'>")],
    &[("<Amt Ccy=\"EUR\">", "<Amt Ccy='EUR' a=''>")],
    &[("<Amt Ccy=\"EUR\">", "<Amt ccy='EUR'>")],
    &[("<Amt Ccy=\"EUR\">", "<Amt Ccy='eur'>")],
    &[("<Amt Ccy=\"EUR\">", "<Amt Ccy=' EUR'>")],
    &[("<Amt Ccy=\"EUR\">", "<Amt Ccy='EU'>")],
    &[("<Amt Ccy=\"EUR\">", "<Amt Ccy='EURO'>")],
    &[("<Amt Ccy=\"EUR\">", "<Amt Ccy='EU&amp;'>")],
    &[("<Amt Ccy=\"EUR\">5.00</Amt>", "<Amt Ccy='eur'></Amt>")],
    &[("<Amt Ccy=\"EUR\">5.00</Amt>", "<Amt Ccy='eur'>x</Amt>")],
    // 10, at the first byte that is no blank.
    &[("<GrpHdr>", "<GrpHdr> \n\tx")],
    &[("<GrpHdr>", "<GrpHdr>&lt;")],
    &[("</GrpHdr>", " €</GrpHdr>")],
    &[("<GrpHdr>", "<GrpHdr>\u{a0}")],
    &[("</GrpHdr>", "</GrpHdr>.")],
    &[("<MsgId>M1</MsgId>", "x"), ("2024-03-01T06:00:00Z", "")],
    // 11 before 8, 8 with the lowest absent row and at the end only.
    &[("<MsgId>M1</MsgId><CreDtTm>2024-03-01T06:00:00Z</CreDtTm>", "")],
    &[("<MsgId>M1</MsgId>", "")],
    &[("<MsgId>M1</MsgId>", ""), ("2024-03-01T06:00:00Z", "now")],
    &[("<MsgId>M1</MsgId>", "<MsgId/>")],
    &[("<MsgId>M1</MsgId>", "<MsgId></MsgId>")],
    &[("<MsgId>M1</MsgId>", "<MsgId> </MsgId>")],
    &[("<Id>S1</Id>", ""), ("5.00", "x")],
    &[("<Id>S1</Id>", ""), ("<Dt>2024-02-29</Dt>", "")],
    &[("<Id>S1</Id><Acct><Id><Othr><Id>9</Id></Othr></Id></Acct>", "")],
    &[("<Stmt>", "<Stmt/><Stmt>")],
    &[("<GrpHdr><MsgId>M1</MsgId><CreDtTm>2024-03-01T06:00:00Z</CreDtTm></GrpHdr>", "")],
    // Two faults: the first in document order.
    &[("M1", ""), ("5.00", "x")],
    &[("M1", "A//B"), ("<Stmt>", "<Stmt>x")],
    &[("CLBD", "x"), ("<Tp>", "<Tp a=''>")],
    &[("2024-02-29", "x"), ("</Bal>", "</Bal><Bal/>")],
];

/// Changes to the message with every row.
const REPLACED_IN_EVERY_ROW: &[Replaced] = &[
    // 13, and what comes before it.
    &[("</Refs><Amt Ccy=\"EUR\">750.25</Amt>", "</Refs>")],
    &[("<Amt Ccy=\"EUR\">750.25</Amt><CdtDbtInd>CRDT</CdtDbtInd><RltdPties>", "<RltdPties>")],
    &[(
        "<Amt Ccy=\"EUR\">750.25</Amt><CdtDbtInd>CRDT</CdtDbtInd><RltdPties>",
        "<Amt Ccy=\"EUR\">750.25</Amt><RltdPties>",
    )],
    &[("</Refs><Amt Ccy=\"EUR\">750.25</Amt>", "</Refs>"), ("Top 4", "Top `4`")],
    &[("</Refs><Amt Ccy=\"EUR\">750.25</Amt>", "</Refs>"), ("S2", "S//2")],
    &[("</TxDtls>", "</TxDtls><TxDtls><Amt Ccy='EUR'>1</Amt></TxDtls>")],
    &[("</TxDtls>", "</TxDtls><TxDtls/>")],
    &[("</TxDtls>", "</TxDtls><TxDtls><CdtDbtInd>DBIT</CdtDbtInd></TxDtls>")],
    &[("</TxDtls>", "</TxDtls><TxDtls><CdtDbtInd>DBIT</CdtDbtInd><Amt Ccy='EUR'>1</Amt></TxDtls>")],
    // Types that the whole example has not.
    &[("<ElctrncSeqNb>42", "<ElctrncSeqNb>000000000000000042")],
    &[("<ElctrncSeqNb>42", "<ElctrncSeqNb>0000000000000000042")],
    &[("<ElctrncSeqNb>42", "<ElctrncSeqNb> 42\n")],
    &[("<RvslInd>false", "<RvslInd>1")],
    &[("<RvslInd>false", "<RvslInd>\tfalse ")],
    &[("<RvslInd>false", "<RvslInd>FALSE")],
    &[("<Ccy>EUR", "<Ccy>EUR ")],
    &[("<Ccy>EUR", "<Ccy>€")],
    &[("AT611904300234573201", "AT61190430023457320a")],
    &[("AT611904300234573201", "AT61 1904 3002 3457 3201")],
    &[("PMNT", "PMNTS")],
    &[("PMNT", "&amp;&lt;&gt;&quot;")],
    &[("PMNT", "€€€€")],
    &[("PMNT", "€€€€€")],
    &[("Miete März", "Miete M\u{e4}rz ]]")],
    &[("Miete März", "Miete Ma\u{308}rz")],
    &[("Miete März", "Miete\nMärz")],
    &[("Bäcker &amp; Söhne", " ")],
    &[("BOOK", "PDNG")],
    // Groups of which each child is optional.
    &[("<EndToEndId>E2E</EndToEndId><MndtId>MND</MndtId>", "")],
    &[("<Pty><Nm>Bäcker &amp; Söhne</Nm></Pty>", "<Pty></Pty>")],
    &[("<Ustrd>Miete März</Ustrd><Ustrd>Top 4</Ustrd>", " ")],
    &[("<Ustrd>Top 4</Ustrd>", "<Ustrd>1</Ustrd><Ustrd>2</Ustrd><Ustrd>3</Ustrd>")],
    // Siblings of one name in several groups.
    &[("<ValDt><Dt>2024-03-01</Dt></ValDt>", "<ValDt><Dt>2024-03-01</Dt><Dt>2024-03-01</Dt></ValDt>")],
    &[("<ValDt><Dt>2024-03-01</Dt></ValDt>", "<BookgDt><Dt>2024-03-01</Dt></BookgDt>")],
    &[("<BkTxCd>", "<BkTxCd><Cd>X</Cd>")],
    &[("</Domn>", "</Domn><Domn/>")],
    // "Files .. with row 40 are now refused with 5 and the parent row": alone, after Domn, before it, twice, whatever it is.
    &[(DOMAIN, "<Prtry><Cd>X7</Cd></Prtry>")],
    &[("</Domn>", "</Domn><Prtry><Cd>X7</Cd></Prtry>")],
    &[("<Domn>", "<Prtry><Cd>X7</Cd></Prtry><Domn>")],
    &[("</Domn>", "</Domn><Prtry><Cd>X7</Cd></Prtry><Prtry><Cd>X7</Cd></Prtry>")],
    &[(DOMAIN, " <Prtry/>")],
    &[("</Domn>", "</Domn><Prtry></Prtry>")],
    &[("</Domn>", "</Domn><Prtry a=''>x</Prtry>")],
    &[("</Domn>", "</Domn><prtry/>")],
    // Elsewhere it was no child before.
    &[("</Domn>", "<Prtry><Cd>X7</Cd></Prtry></Domn>")],
    &[("</BkTxCd>", "</BkTxCd><Prtry><Cd>X7</Cd></Prtry>")],
    // "Domn becomes 1..1": without it 11, or 10, or 5, and never 8.
    &[(DOMAIN, "")],
    &[(DOMAIN, "\n ")],
    &[(DOMAIN, "X7")],
    &[(DOMAIN, "<Cd>X7</Cd>")],
    // The first in document order.
    &[("PMNT", "PMNTS"), ("</Domn>", "</Domn><Prtry><Cd>X7</Cd></Prtry>")],
    &[("PMNT", "PMNTS"), ("<Domn>", "<Prtry><Cd>X7</Cd></Prtry><Domn>")],
    &[("<BkTxCd>", "<BkTxCd a=''>"), (DOMAIN, "<Prtry><Cd>X7</Cd></Prtry>")],
    &[("R 7", "R//7"), (DOMAIN, "<Prtry><Cd>X7</Cd></Prtry>")],
    &[(DOMAIN, "<Prtry><Cd>X7</Cd></Prtry>"), ("E2E", "E//E")],
];

/// The transaction code of the messages with every row.
const DOMAIN: &str = "<Domn><Cd>PMNT</Cd><Fmly><Cd>RCDT</Cd><SubFmlyCd>ESCT</SubFmlyCd></Fmly></Domn>";

/// Changes to the least report.
const REPLACED_IN_LEAST_REPORT: &[Replaced] = &[
    // "The namespace chooses the list": that of statements over a report, and hints that choose nothing.
    &[("camt.052", "camt.053")],
    &[("camt.052", "camt.054")],
    &[("<Document ", "<Document xmlns:xsi='urn:iso:std:iso:20022:tech:xsd:camt.053.001.08' ")],
    &[("<Document ", "<Document xsi:schemaLocation='camt.053.001.08' ")],
    &[("<Document ", "<Document xmlns:xsi='' xsi:schemaLocation='urn:iso:std:iso:20022:tech:xsd:camt.053.001.08' ")],
    &[("camt.052.001.08\"", "camt.052.001.08\" xmlns:xsi='urn:iso:std:iso:20022:tech:xsd:camt.054.001.08'")],
    &[("<Document ", "<Document a='' ")],
    // 5: names of the other list, and "source document 002's".
    &[("<BkToCstmrAcctRpt>", "<BkToCstmrStmt>"), ("</BkToCstmrAcctRpt>", "</BkToCstmrStmt>")],
    &[("<BkToCstmrAcctRpt>", "<BkToCstmrRpt>"), ("</BkToCstmrAcctRpt>", "</BkToCstmrRpt>")],
    &[("<Rpt>", "<Stmt>"), ("</Rpt>", "</Stmt>")],
    &[("</Rpt>", "</Rpt><Stmt/>")],
    &[("<Rpt>", "<Stmt/><Rpt>")],
    &[("</BkToCstmrAcctRpt>", "</BkToCstmrAcctRpt><BkToCstmrStmt/>")],
    &[("</BkToCstmrAcctRpt>", "</BkToCstmrAcctRpt><BkToCstmrAcctRpt/>")],
    // Report again and again; none.
    &[("</Rpt>", "</Rpt><Rpt><Id>R2</Id><Acct><Id><IBAN>AT611</IBAN></Id></Acct></Rpt>")],
    &[("<Rpt>", "<Rpt/><Rpt>")],
    &[("<Rpt><Id>R1</Id><Acct><Id><Othr><Id>9</Id></Othr></Id></Acct></Rpt>", "")],
    // "Bal 0..n": a group in its place all the same.
    &[("</Acct>", "</Acct><Bal/>")],
    &[("<Acct>", "<Bal/><Acct>")],
    &[("</Acct>", "</Acct><Bal>x</Bal>")],
    &[("</Acct>", "</Acct><Bal><Tp><CdOrPrtry><Cd>ITBD</Cd></CdOrPrtry></Tp></Bal>")],
    // Other values, good and bad.
    &[("12:00:00Z", "24:00:00Z")],
    &[("12:00:00Z", "12:00:00.120Z")],
    &[("M1", "A//B")],
    &[("R1", " ")],
    &[("<Id>R1</Id>", "")],
    &[("<Rpt>", "<Rpt a=''>")],
    &[("<Rpt>", "<Rpt>x")],
];

/// Changes to the report with every row.
const REPLACED_IN_REPORT: &[Replaced] = &[
    &[("camt.052", "camt.053")],
    // Words: those of a report, and others.
    &[("ITBD", "OPBD")],
    &[("ITBD", "CLBD")],
    &[("ITBD", "PRCD")],
    &[("ITBD", "ITAV")],
    &[("ITBD", "PDNG")],
    &[("ITBD", "itbd")],
    &[("ITBD", "ITBD ")],
    &[("ITBD", "")],
    &[("PDNG", "BOOK")],
    &[("PDNG", "INFO")],
    &[("PDNG", "ITBD")],
    &[("PDNG", " PDNG")],
    &[("PDNG", "PDNGBOOK")],
    // A balance after an entry: 6.
    &[("<Ntry>", "<Ntry/><Ntry>"), ("PDNG", "x")],
    &[("</Ntry></Rpt>", "</Ntry><Bal/></Rpt>")],
    // The rule on row 43.
    &[("</Refs><Amt Ccy=\"EUR\">12.50</Amt>", "</Refs>")],
    &[("12.50</Amt><CdtDbtInd>DBIT</CdtDbtInd><RltdPties>", "12.50</Amt><RltdPties>")],
    // An old transaction code in a report.
    &[(DOMAIN, "<Prtry><Cd>X7</Cd></Prtry>")],
    &[("</Domn>", "</Domn><Prtry><Cd>X7</Cd></Prtry>")],
    &[("<Domn>", "<Prtry><Cd>X7</Cd></Prtry><Domn>")],
    &[("<Domn><Cd>A</Cd><Fmly><Cd>B</Cd><SubFmlyCd>C</SubFmlyCd></Fmly></Domn>", "<Prtry><Cd>X</Cd></Prtry>")],
    &[("</Domn>", "</Domn><Prtry/>"), ("E2E", "E//E")],
    &[("</Domn>", "</Domn><Domn/>")],
    &[(DOMAIN, "")],
];

/// A text with pieces replaced, each of which stands in it.
fn replaced(text: &str, pairs: &[(&str, &str)]) -> Vec<u8> {
    let replace = |text: String, (from, to): &(&str, &str)| {
        assert!(text.contains(from), "{from} stands in {text}");
        text.replacen(from, to, 1)
    };
    pairs.iter().fold(text.to_string(), replace).into_bytes()
}

/// Code 2, "start of first bad sequence", before 3 and all the rest.
fn not_utf8() -> Vec<Vec<u8>> {
    let sequences: [&[u8]; 12] = [
        b"\x80", b"\xbf", b"\xc0\xaf", b"\xc3", b"\xe0\x80\xaf", b"\xe2\x82", b"\xed\xa0\x80", b"\xf0\x80\x80\x80",
        b"\xf0\x9d\x84", b"\xf4\x90\x80\x80", b"\xf5\x80\x80\x80", b"\xff",
    ];
    let mut files = Vec::new();
    for (index, sequence) in sequences.iter().enumerate() {
        let at = WHOLE.find("M1").expect("the message's id") + index % 3;
        files.push([&WHOLE.as_bytes()[..at], sequence, &WHOLE.as_bytes()[at..]].concat());
        files.push([WHOLE.as_bytes(), "€".as_bytes(), sequence].concat());
    }
    files.push([b"<a></b>", &b"\xff"[..]].concat());
    files.push([b"\xef\xbf\xbf", &b"\xfe"[..]].concat());
    files
}

/// Each element of the whole example with an attribute, without parts, with a strange child, and with text.
fn each_element_changed() -> Vec<Vec<u8>> {
    let whole = Draft::from_text(WHOLE);
    let mut files = Vec::new();
    for path in whole.paths() {
        let mut change = |change: &dyn Fn(&mut Draft)| {
            let mut draft = whole.clone();
            change(draft.at(&path));
            files.push(Style::DENSE.write(&draft).into_bytes());
        };
        change(&|element| element.attributes.push(("a".to_string(), "EUR".to_string())));
        change(&|element| element.parts.clear());
        change(&|element| element.parts.insert(0, Part::Child(Draft::new("Strange"))));
        change(&|element| element.parts.push(Part::Text(" \t&gt;".to_string())));
    }
    files
}

/// Each element of the report with every row left out.
fn each_element_of_a_report_left_out() -> Vec<Vec<u8>> {
    let report = Draft::from_text(REPORT_EVERY_ROW);
    let without = |path: &Path| {
        let mut left_out = report.clone();
        let (parts, index) = left_out.around(path).expect("not the root");
        parts.remove(index);
        Style::DENSE.write(&left_out).into_bytes()
    };
    report.paths().iter().skip(1).map(without).collect()
}

/// Each element of the message with every row left out, and doubled.
fn each_element_left_out_and_doubled() -> Vec<Vec<u8>> {
    let every_row = Draft::from_text(EVERY_ROW);
    let mut files = Vec::new();
    for path in every_row.paths().iter().skip(1) {
        let mut left_out = every_row.clone();
        let (parts, index) = left_out.around(path).expect("not the root");
        parts.remove(index);
        files.push(Style::DENSE.write(&left_out).into_bytes());

        let mut doubled = every_row.clone();
        let (parts, index) = doubled.around(path).expect("not the root");
        parts.insert(index, parts[index].clone());
        files.push(Style::DENSE.write(&doubled).into_bytes());
    }
    files
}
