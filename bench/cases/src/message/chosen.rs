//! Hand-chosen messages.

/// Document 01's whole example.
pub const WHOLE: &str = concat!(
    "<Document xmlns=\"urn:iso:std:iso:20022:tech:xsd:camt.053.001.08\"><BkToCstmrStmt>",
    "<GrpHdr><MsgId>M1</MsgId><CreDtTm>2024-03-01T06:00:00Z</CreDtTm></GrpHdr>",
    "<Stmt><Id>S1</Id><Acct><Id><Othr><Id>9</Id></Othr></Id></Acct>",
    "<Bal><Tp><CdOrPrtry><Cd>CLBD</Cd></CdOrPrtry></Tp><Amt Ccy=\"EUR\">5.00</Amt><CdtDbtInd>CRDT</CdtDbtInd>",
    "<Dt><Dt>2024-02-29</Dt></Dt></Bal></Stmt></BkToCstmrStmt></Document>",
);

/// A message with every row of files. The first statement has an IBAN and everything that is optional, the second is short and has
/// the other kind of account.
pub const EVERY_ROW: &str = concat!(
    "<Document xmlns=\"urn:iso:std:iso:20022:tech:xsd:camt.053.001.08\"><BkToCstmrStmt>",
    "<GrpHdr><MsgId>M/1</MsgId><CreDtTm>2024-03-01T06:00:00.25+01:00</CreDtTm></GrpHdr>",
    "<Stmt><Id>S-1</Id><ElctrncSeqNb>42</ElctrncSeqNb>",
    "<Acct><Id><IBAN>AT611904300234573201</IBAN></Id><Ccy>EUR</Ccy></Acct>",
    "<Bal><Tp><CdOrPrtry><Cd>OPBD</Cd></CdOrPrtry></Tp><Amt Ccy=\"EUR\">100.00</Amt><CdtDbtInd>CRDT</CdtDbtInd>",
    "<Dt><Dt>2024-02-28</Dt></Dt></Bal>",
    "<Bal><Tp><CdOrPrtry><Cd>CLBD</Cd></CdOrPrtry></Tp><Amt Ccy=\"EUR\">850.25</Amt><CdtDbtInd>DBIT</CdtDbtInd>",
    "<Dt><Dt>2024-02-29</Dt></Dt></Bal>",
    "<Ntry><Amt Ccy=\"EUR\">750.25</Amt><CdtDbtInd>CRDT</CdtDbtInd><RvslInd>false</RvslInd><Sts><Cd>BOOK</Cd></Sts>",
    "<BookgDt><Dt>2024-02-29</Dt></BookgDt><ValDt><Dt>2024-03-01</Dt></ValDt><AcctSvcrRef>R 7</AcctSvcrRef>",
    "<BkTxCd><Domn><Cd>PMNT</Cd><Fmly><Cd>RCDT</Cd><SubFmlyCd>ESCT</SubFmlyCd></Fmly></Domn></BkTxCd>",
    "<NtryDtls><TxDtls><Refs><EndToEndId>E2E</EndToEndId><MndtId>MND</MndtId></Refs>",
    "<Amt Ccy=\"EUR\">750.25</Amt><CdtDbtInd>CRDT</CdtDbtInd>",
    "<RltdPties><Dbtr><Pty><Nm>Bäcker &amp; Söhne</Nm></Pty></Dbtr><DbtrAcct><Id><IBAN>DE89370400440532013000</IBAN></Id></DbtrAcct>",
    "</RltdPties><RmtInf><Ustrd>Miete März</Ustrd><Ustrd>Top 4</Ustrd></RmtInf></TxDtls></NtryDtls></Ntry></Stmt>",
    "<Stmt><Id>S2</Id><Acct><Id><Othr><Id>9 / 1</Id></Othr></Id></Acct>",
    "<Bal><Tp><CdOrPrtry><Cd>PRCD</Cd></CdOrPrtry></Tp><Amt Ccy=\"USD\">0</Amt><CdtDbtInd>CRDT</CdtDbtInd>",
    "<Dt><Dt>2024-02-29</Dt></Dt></Bal></Stmt></BkToCstmrStmt></Document>",
);

/// A report with nothing that can be left out: no balance.
pub const REPORT_LEAST: &str = concat!(
    "<Document xmlns=\"urn:iso:std:iso:20022:tech:xsd:camt.052.001.08\"><BkToCstmrAcctRpt>",
    "<GrpHdr><MsgId>M1</MsgId><CreDtTm>2024-03-01T12:00:00Z</CreDtTm></GrpHdr>",
    "<Rpt><Id>R1</Id><Acct><Id><Othr><Id>9</Id></Othr></Id></Acct></Rpt></BkToCstmrAcctRpt></Document>",
);

/// A report with every row of files, and each word that a statement has not. The first report of three has an IBAN and everything that is
/// optional, the second no balance and an entry that is pending, the third two balances.
pub const REPORT_EVERY_ROW: &str = concat!(
    "<Document xmlns=\"urn:iso:std:iso:20022:tech:xsd:camt.052.001.08\"><BkToCstmrAcctRpt>",
    "<GrpHdr><MsgId>M/2</MsgId><CreDtTm>2024-03-01T12:00:00.5+01:00</CreDtTm></GrpHdr>",
    "<Rpt><Id>R-1</Id><ElctrncSeqNb>43</ElctrncSeqNb>",
    "<Acct><Id><IBAN>AT611904300234573201</IBAN></Id><Ccy>EUR</Ccy></Acct>",
    "<Bal><Tp><CdOrPrtry><Cd>ITBD</Cd></CdOrPrtry></Tp><Amt Ccy=\"EUR\">850.25</Amt><CdtDbtInd>CRDT</CdtDbtInd>",
    "<Dt><Dt>2024-03-01</Dt></Dt></Bal>",
    "<Ntry><Amt Ccy=\"EUR\">12.50</Amt><CdtDbtInd>DBIT</CdtDbtInd><RvslInd>true</RvslInd><Sts><Cd>PDNG</Cd></Sts>",
    "<BookgDt><Dt>2024-03-01</Dt></BookgDt><ValDt><Dt>2024-03-02</Dt></ValDt><AcctSvcrRef>R 8</AcctSvcrRef>",
    "<BkTxCd><Domn><Cd>PMNT</Cd><Fmly><Cd>RCDT</Cd><SubFmlyCd>ESCT</SubFmlyCd></Fmly></Domn></BkTxCd>",
    "<NtryDtls><TxDtls><Refs><EndToEndId>E2E</EndToEndId><MndtId>MND</MndtId></Refs>",
    "<Amt Ccy=\"EUR\">12.50</Amt><CdtDbtInd>DBIT</CdtDbtInd>",
    "<RltdPties><Dbtr><Pty><Nm>Bäcker &amp; Söhne</Nm></Pty></Dbtr><DbtrAcct><Id><IBAN>DE89370400440532013000</IBAN></Id></DbtrAcct>",
    "</RltdPties><RmtInf><Ustrd>Miete März</Ustrd><Ustrd>Top 4</Ustrd></RmtInf></TxDtls></NtryDtls></Ntry></Rpt>",
    "<Rpt><Id>R2</Id><Acct><Id><Othr><Id>9 / 1</Id></Othr></Id></Acct>",
    "<Ntry><Amt Ccy=\"EUR\">1</Amt><CdtDbtInd>CRDT</CdtDbtInd><Sts><Cd>BOOK</Cd></Sts>",
    "<BkTxCd><Domn><Cd>A</Cd><Fmly><Cd>B</Cd><SubFmlyCd>C</SubFmlyCd></Fmly></Domn></BkTxCd></Ntry></Rpt>",
    "<Rpt><Id>R3</Id><Acct><Id><Othr><Id>9 / 2</Id></Othr></Id></Acct>",
    "<Bal><Tp><CdOrPrtry><Cd>PRCD</Cd></CdOrPrtry></Tp><Amt Ccy=\"USD\">0</Amt><CdtDbtInd>CRDT</CdtDbtInd>",
    "<Dt><Dt>2024-02-29</Dt></Dt></Bal>",
    "<Bal><Tp><CdOrPrtry><Cd>OPBD</Cd></CdOrPrtry></Tp><Amt Ccy=\"USD\">0</Amt><CdtDbtInd>DBIT</CdtDbtInd>",
    "<Dt><Dt>2024-03-01</Dt></Dt></Bal></Rpt></BkToCstmrAcctRpt></Document>",
);

#[cfg(test)]
mod tests {
    use super::*;
    use independent::list::{List, REPORT, STATEMENT};
    use independent::read::{first_image, Image};

    fn image(message: &str) -> Image {
        let mut room = [0; 1000];
        let answer = independent::check(message.as_bytes(), &mut room);
        assert!(answer.is_accepted(), "{answer:?}");
        first_image(&room[..answer.place]).unwrap()
    }

    fn has_every_row(message: &str, list: &List) {
        let image = image(message);
        assert_eq!(image.list, list);
        for row in list.file_rows {
            assert!(image.items.iter().any(|item| item.row == row.number), "row {}", row.number);
        }
    }

    #[test]
    fn every_row_stands_in_it() {
        has_every_row(EVERY_ROW, &STATEMENT);
        has_every_row(REPORT_EVERY_ROW, &REPORT);
    }

    #[test]
    fn the_least_report_has_no_row_that_is_not_required() {
        let rows: Vec<u8> = image(REPORT_LEAST).items.iter().map(|item| item.row).collect();
        assert_eq!(rows, [1, 2, 3, 4, 5, 6, 7, 9, 10, 12, 13]);
    }
}
