//! The tables of rows against the documents' own words: the house list stands below as document 01 prints it, and document 02's changes
//! as replacements in that text.

use independent::list::{Count, Kind, Row, REPORT, STATEMENT};

const PRINTED: &str = "
1 Document - 1..1 G        2 BkToCstmrStmt 1 1..1 G
3 GrpHdr 2 1..1 G          4 MsgId 3 1..1 REF
5 CreDtTm 3 1..1 DTM       6 Stmt 2 1..n G
7 Id 6 1..1 REF            8 ElctrncSeqNb 6 0..1 NUM
9 Acct 6 1..1 G           10 Id 9 1..1 C
11 IBAN 10 IBAN           12 Othr 10 G
13 Id 12 1..1 TXT34       14 Ccy 9 0..1 CCY
15 Bal 6 1..n G           16 Tp 15 1..1 G
17 CdOrPrtry 16 1..1 G    18 Cd 17 1..1 ENUM OPBD CLBD PRCD
19 Amt 15 1..1 AMT        20 CdtDbtInd 15 1..1 ENUM CRDT DBIT
21 Dt 15 1..1 G           22 Dt 21 1..1 DATE
23 Ntry 6 0..n G          24 Amt 23 1..1 AMT
25 CdtDbtInd 23 1..1 ENUM CRDT DBIT
26 RvslInd 23 0..1 BOOL   27 Sts 23 1..1 G
28 Cd 27 1..1 ENUM BOOK   29 BookgDt 23 0..1 G
30 Dt 29 1..1 DATE        31 ValDt 23 0..1 G
32 Dt 31 1..1 DATE        33 AcctSvcrRef 23 0..1 REF
34 BkTxCd 23 1..1 G       35 Domn 34 0..1 G
36 Cd 35 1..1 TXT4        37 Fmly 35 1..1 G
38 Cd 37 1..1 TXT4        39 SubFmlyCd 37 1..1 TXT4
40 Prtry 34 0..1 G        41 Cd 40 1..1 TXT35
42 NtryDtls 23 0..n G     43 TxDtls 42 0..n G
44 Refs 43 0..1 G         45 EndToEndId 44 0..1 REF
46 MndtId 44 0..1 REF     47 Amt 43 0..1 AMT
48 CdtDbtInd 43 0..1 ENUM CRDT DBIT
49 RltdPties 43 0..1 G    50 Dbtr 49 0..1 G
51 Pty 50 1..1 G          52 Nm 51 0..1 TXT140
53 DbtrAcct 49 0..1 G     54 Id 53 1..1 G
55 IBAN 54 1..1 IBAN      56 RmtInf 43 0..1 G
57 Ustrd 56 0..n TXT140
";

/// One row: number, name, parent, a count but for the children of a choice, and a kind.
fn parse<'a>(words: &mut impl Iterator<Item = &'a str>) -> Option<(u8, &'a str, u8, Count, &'a str)> {
    let number = words.next()?.parse().unwrap();
    let name = words.next()?;
    let parent = words.next().map(|word| if word == "-" { 0 } else { word.parse().unwrap() })?;
    let word = words.next()?;
    let count = |required, repeats| Count { required, repeats };
    Some(match word {
        "1..1" => (number, name, parent, count(true, false), words.next()?),
        "0..1" => (number, name, parent, count(false, false), words.next()?),
        "1..n" => (number, name, parent, count(true, true), words.next()?),
        "0..n" => (number, name, parent, count(false, true), words.next()?),
        kind => (number, name, parent, count(false, false), kind),
    })
}

/// A kind as the document prints it, an ENUM with its words.
fn kind_in_words(row: &Row) -> String {
    match row.kind {
        Kind::Group => "G".to_string(),
        Kind::Choice => "C".to_string(),
        Kind::Txt(k) => format!("TXT{k}"),
        Kind::Enum(words) => format!("ENUM {}", words.join(" ")),
        Kind::Ref => "REF".to_string(),
        Kind::Iban => "IBAN".to_string(),
        Kind::Ccy => "CCY".to_string(),
        Kind::Bool => "BOOL".to_string(),
        Kind::Num => "NUM".to_string(),
        Kind::Amt => "AMT".to_string(),
        Kind::Date => "DATE".to_string(),
        Kind::Dtm => "DTM".to_string(),
    }
}

#[test]
fn the_table_is_the_printed_list() {
    is_printed(STATEMENT.rows, PRINTED);
    is_printed(STATEMENT.file_rows, &retired(PRINTED));
}

/// Section 9: "Files of kinds 1 and 2 with row 40 are now refused with 5 and the parent row; Domn becomes 1..1."
fn retired(printed: &str) -> String {
    let changes = [("35 Domn 34 0..1 G", "35 Domn 34 1..1 G"), ("40 Prtry 34 0..1 G        41 Cd 40 1..1 TXT35", "")];
    changed(printed, &changes)
}

/// The text with pieces replaced, each of which stands in it once.
fn changed(printed: &str, changes: &[(&str, &str)]) -> String {
    changes.iter().fold(printed.to_string(), |printed, (old, new)| {
        assert_eq!(printed.matches(old).count(), 1, "{old}");
        printed.replace(old, new)
    })
}

/// "Root child BkToCstmrAcctRpt with Rpt in place of Stmt (ISO spelling, not source document 002's), Bal 0..n with OPBD, CLBD, PRCD, ITBD,
/// Sts codes BOOK and PDNG, the rest of the house list as it is."
#[test]
fn the_table_of_reports_is_the_changed_list() {
    let changes = [
        ("2 BkToCstmrStmt 1 1..1 G", "2 BkToCstmrAcctRpt 1 1..1 G"),
        ("6 Stmt 2 1..n G", "6 Rpt 2 1..n G"),
        ("15 Bal 6 1..n G", "15 Bal 6 0..n G"),
        ("ENUM OPBD CLBD PRCD", "ENUM OPBD CLBD PRCD ITBD"),
        ("ENUM BOOK", "ENUM BOOK PDNG"),
    ];
    let changed = changed(PRINTED, &changes);
    is_printed(REPORT.rows, &changed);
    is_printed(REPORT.file_rows, &retired(&changed));
}

fn is_printed(table: &[Row], printed: &str) {
    let mut words = printed.split_whitespace().peekable();
    let mut rows = 0;
    while let Some((number, name, parent, count, kind)) = parse(&mut words) {
        let mut kind = kind.to_string();
        // The words of an ENUM go on up to the next row's number.
        while let Some(word) = words.next_if(|word| kind.starts_with("ENUM") && word.parse::<u8>().is_err()) {
            kind += &format!(" {word}");
        }
        let row = &table[rows];
        assert_eq!((row.number, row.name, row.parent, row.count), (number, name, parent, count));
        assert_eq!(kind_in_words(row), kind, "row {number}");
        rows += 1;
    }
    assert_eq!(rows, table.len());
}
