//! "The house list. Row, name, parent row, count, kind." The list of the second message kind, section 5 of document 02; and what of each
//! files may no longer have, section 9.

use std::fmt;

/// A row's kind. "G is a group in sequence, C a group that is a choice of exactly one child"; the others are leaves.
#[derive(Clone, Copy, PartialEq, Eq, Debug)]
pub enum Kind {
    Group,
    Choice,
    Ref,
    /// TXTk, with its k.
    Txt(usize),
    Iban,
    Ccy,
    Enum(&'static [&'static str]),
    Bool,
    Num,
    Amt,
    Date,
    Dtm,
}

impl Kind {
    pub fn is_leaf(self) -> bool {
        !matches!(self, Kind::Group | Kind::Choice)
    }
}

/// How often a row may stand in its parent: 1..1, 0..1, 1..n or 0..n; "n is no limit".
#[derive(Clone, Copy, PartialEq, Eq, Debug)]
pub struct Count {
    pub required: bool,
    pub repeats: bool,
}

const ONE: Count = count(true, false); // 1..1
const MAYBE: Count = count(false, false); // 0..1
const MANY: Count = count(true, true); // 1..n
const ANY: Count = count(false, true); // 0..n

/// The children of a choice have no count of their own: none is required, none comes twice.
const CHOSEN: Count = count(false, false);

const fn count(required: bool, repeats: bool) -> Count {
    Count { required, repeats }
}

#[derive(Clone, Copy, PartialEq, Eq, Debug)]
pub struct Row {
    pub number: u8,
    pub name: &'static str,
    /// The parent's row; 0 for the root, which has none.
    pub parent: u8,
    pub count: Count,
    pub kind: Kind,
}

const fn row(number: u8, name: &'static str, parent: u8, count: Count, kind: Kind) -> Row {
    Row { number, name, parent, count, kind }
}

const BALANCE: Kind = Kind::Enum(&["OPBD", "CLBD", "PRCD"]);
const SIDE: Kind = Kind::Enum(&["CRDT", "DBIT"]);
const BOOKED: Kind = Kind::Enum(&["BOOK"]);

/// Of a report: "Bal 0..n with OPBD, CLBD, PRCD, ITBD, Sts codes BOOK and PDNG".
const REPORT_BALANCE: Kind = Kind::Enum(&["OPBD", "CLBD", "PRCD", "ITBD"]);
const BOOKED_OR_PENDING: Kind = Kind::Enum(&["BOOK", "PDNG"]);

use Kind::{Amt, Bool, Ccy, Choice, Date, Dtm, Group, Iban, Num, Ref, Txt};

/// The 57 rows, typed from document 01.
#[rustfmt::skip]
const STATEMENT_ROWS: [Row; 57] = [
    row(1, "Document", 0, ONE, Group),
    row(2, "BkToCstmrStmt", 1, ONE, Group),
    row(3, "GrpHdr", 2, ONE, Group),
    row(4, "MsgId", 3, ONE, Ref),
    row(5, "CreDtTm", 3, ONE, Dtm),
    row(6, "Stmt", 2, MANY, Group),
    row(7, "Id", 6, ONE, Ref),
    row(8, "ElctrncSeqNb", 6, MAYBE, Num),
    row(9, "Acct", 6, ONE, Group),
    row(10, "Id", 9, ONE, Choice),
    row(11, "IBAN", 10, CHOSEN, Iban),
    row(12, "Othr", 10, CHOSEN, Group),
    row(13, "Id", 12, ONE, Txt(34)),
    row(14, "Ccy", 9, MAYBE, Ccy),
    row(15, "Bal", 6, MANY, Group),
    row(16, "Tp", 15, ONE, Group),
    row(17, "CdOrPrtry", 16, ONE, Group),
    row(18, "Cd", 17, ONE, BALANCE),
    row(19, "Amt", 15, ONE, Amt),
    row(20, "CdtDbtInd", 15, ONE, SIDE),
    row(21, "Dt", 15, ONE, Group),
    row(22, "Dt", 21, ONE, Date),
    row(23, "Ntry", 6, ANY, Group),
    row(24, "Amt", 23, ONE, Amt),
    row(25, "CdtDbtInd", 23, ONE, SIDE),
    row(26, "RvslInd", 23, MAYBE, Bool),
    row(27, "Sts", 23, ONE, Group),
    row(28, "Cd", 27, ONE, BOOKED),
    row(29, "BookgDt", 23, MAYBE, Group),
    row(30, "Dt", 29, ONE, Date),
    row(31, "ValDt", 23, MAYBE, Group),
    row(32, "Dt", 31, ONE, Date),
    row(33, "AcctSvcrRef", 23, MAYBE, Ref),
    row(34, "BkTxCd", 23, ONE, Group),
    row(35, "Domn", 34, MAYBE, Group),
    row(36, "Cd", 35, ONE, Txt(4)),
    row(37, "Fmly", 35, ONE, Group),
    row(38, "Cd", 37, ONE, Txt(4)),
    row(39, "SubFmlyCd", 37, ONE, Txt(4)),
    row(40, "Prtry", 34, MAYBE, Group),
    row(41, "Cd", 40, ONE, Txt(35)),
    row(42, "NtryDtls", 23, ANY, Group),
    row(43, "TxDtls", 42, ANY, Group),
    row(44, "Refs", 43, MAYBE, Group),
    row(45, "EndToEndId", 44, MAYBE, Ref),
    row(46, "MndtId", 44, MAYBE, Ref),
    row(47, "Amt", 43, MAYBE, Amt),
    row(48, "CdtDbtInd", 43, MAYBE, SIDE),
    row(49, "RltdPties", 43, MAYBE, Group),
    row(50, "Dbtr", 49, MAYBE, Group),
    row(51, "Pty", 50, ONE, Group),
    row(52, "Nm", 51, MAYBE, Txt(140)),
    row(53, "DbtrAcct", 49, MAYBE, Group),
    row(54, "Id", 53, ONE, Group),
    row(55, "IBAN", 54, ONE, Iban),
    row(56, "RmtInf", 43, MAYBE, Group),
    row(57, "Ustrd", 56, ANY, Txt(140)),
];

/// "Root child BkToCstmrAcctRpt with Rpt in place of Stmt .., Bal 0..n with OPBD, CLBD, PRCD, ITBD, Sts codes BOOK and PDNG, the
/// rest of the house list as it is."
const REPORT_ROWS: [Row; 57] = {
    let mut rows = STATEMENT_ROWS;
    rows[1] = row(2, "BkToCstmrAcctRpt", 1, ONE, Group);
    rows[5] = row(6, "Rpt", 2, MANY, Group);
    rows[14] = row(15, "Bal", 6, ANY, Group);
    rows[17] = row(18, "Cd", 17, ONE, REPORT_BALANCE);
    rows[27] = row(28, "Cd", 27, ONE, BOOKED_OR_PENDING);
    rows
};

/// Section 9 of document 02: "Files of kinds 1 and 2 with row 40 are now refused with 5 and the parent row; Domn becomes 1..1." So files
/// have neither row 40 nor row 41, which stands in it.
const FILE_ROWS: usize = 55;

/// The rows of files.
const fn of_files(rows: [Row; 57]) -> [Row; FILE_ROWS] {
    let mut kept = [rows[0]; FILE_ROWS];
    let mut next = 0;
    let mut index = 0;
    while index < rows.len() {
        let row = rows[index];
        if row.number != OLD_CODE && row.parent != OLD_CODE {
            kept[next] = if row.number == DOMAIN { Row { count: ONE, ..row } } else { row };
            next += 1;
        }
        index += 1;
    }
    kept
}

/// "Old transaction codes retired. BkTxCd/Prtry was let in for a time".
pub const OLD_CODE: u8 = 40;

/// "Domn becomes 1..1".
const DOMAIN: u8 = 35;

/// "Rule on row 43: rows 47 and 48 are both present or both absent."
pub const RULE_ROW: u8 = 43;
pub const RULE_FIRST: u8 = 47;
pub const RULE_SECOND: u8 = 48;

/// A message kind with its rows.
#[derive(PartialEq, Eq)]
pub struct List {
    /// "camt.053.001.08"
    pub message: &'static str,
    /// What such a message is called.
    pub name: &'static str,
    /// "a kind byte, 1 for camt.053, 2 for camt.052"
    pub byte: u8,
    /// The root's xmlns: "The namespace chooses the list."
    pub namespace: &'static str,
    /// Those of images: "Stored images with rows 40 and 41 are still read and picked from, in both versions."
    pub rows: &'static [Row],
    /// Those of files.
    pub file_rows: &'static [Row],
}

pub static STATEMENT: List = List {
    message: "camt.053.001.08",
    name: "statement",
    byte: 1,
    namespace: "urn:iso:std:iso:20022:tech:xsd:camt.053.001.08",
    rows: &STATEMENT_ROWS,
    file_rows: &of_files(STATEMENT_ROWS),
};

pub static REPORT: List = List {
    message: "camt.052.001.08",
    name: "report",
    byte: 2,
    namespace: "urn:iso:std:iso:20022:tech:xsd:camt.052.001.08",
    rows: &REPORT_ROWS,
    file_rows: &of_files(REPORT_ROWS),
};

pub static LISTS: [&List; 2] = [&STATEMENT, &REPORT];

impl List {
    /// The list whose kind byte this is.
    pub fn of_byte(byte: u8) -> Option<&'static List> {
        LISTS.into_iter().find(|list| list.byte == byte)
    }

    /// The list that a namespace chooses.
    pub fn of_namespace(namespace: &[u8]) -> Option<&'static List> {
        LISTS.into_iter().find(|list| list.namespace.as_bytes() == namespace)
    }

    /// The row of a number from 1.
    pub fn find(&self, number: u8) -> Option<&'static Row> {
        self.rows.get((number as usize).checked_sub(1)?)
    }

    pub fn root(&self) -> &'static Row {
        &self.rows[0]
    }

    /// The rows below a parent in images, in row order; the only row below parent 0 is the root.
    pub fn children(&self, parent: u8) -> impl Iterator<Item = &'static Row> {
        self.rows.iter().filter(move |row| row.parent == parent)
    }

    /// The rows below a parent in files, in row order.
    pub fn file_children(&self, parent: u8) -> impl Iterator<Item = &'static Row> {
        self.file_rows.iter().filter(move |row| row.parent == parent)
    }

    /// The names from the root down, as `Document/BkToCstmrStmt/Stmt`.
    pub fn path(&self, row: &Row) -> String {
        match self.find(row.parent) {
            Some(parent) => format!("{}/{}", self.path(parent), row.name),
            None => row.name.to_string(),
        }
    }
}

impl fmt::Debug for List {
    fn fmt(&self, f: &mut fmt::Formatter) -> fmt::Result {
        f.write_str(self.message)
    }
}

#[cfg(test)]
mod tests {
    use super::*;

    /// "its well-formedness .. is one fact over that table"
    fn is_well_formed(list: &List) {
        let name_start = |c: char| c.is_ascii_alphabetic() || c == '_';
        let name_rest = |c: char| c.is_ascii_alphanumeric() || "._-".contains(c);
        assert!(list.rows.len() <= 255, "at most 255 rows");
        for (index, row) in list.rows.iter().enumerate() {
            assert_eq!(row.number as usize, index + 1, "rows are numbered from 1");
            assert_eq!(row.parent == 0, row.number == 1, "row 1 is the only root");
            assert!(row.parent < row.number, "parents before children");
            assert!(list.path(row).split('/').count() <= 16, "at most 16 levels");
            assert!(row.name.starts_with(name_start) && row.name.chars().all(name_rest));
            assert_eq!(list.children(row.number).count() == 0, row.kind.is_leaf());
            let same_name = list.children(row.parent).filter(|other| other.name == row.name);
            assert_eq!(same_name.count(), 1, "names differ among siblings");
            if let Some(parent) = list.find(row.parent) {
                assert!(parent.kind != Choice || row.count == CHOSEN);
            }
            match row.kind {
                Txt(k) => assert!((1..=140).contains(&k)),
                Kind::Enum(words) => {
                    assert!(!words.is_empty() && words.len() <= 255);
                    for (i, word) in words.iter().enumerate() {
                        assert!(!word.is_empty() && word.bytes().all(|b| b.is_ascii_uppercase()));
                        assert!(!words[..i].contains(word), "words differ");
                    }
                }
                _ => {}
            }
        }
    }

    #[test]
    fn the_lists_are_well_formed() {
        LISTS.into_iter().for_each(is_well_formed);
    }

    /// Every row of files is one of images, but for Domn's count, and all are there but 40 and 41.
    #[test]
    fn files_are_asked_more() {
        for list in LISTS {
            let mut left: Vec<Row> = list.rows.to_vec();
            left.retain(|row| ![40, 41].contains(&row.number));
            left[34].count = ONE;
            assert_eq!(left, list.file_rows);
            assert_eq!(list.file_rows[34].name, "Domn");
            assert_eq!(list.file_children(34).map(|row| (row.number, row.count)).collect::<Vec<_>>(), [(35, ONE)]);
            assert_eq!(
                list.children(34).map(|row| (row.number, row.count)).collect::<Vec<_>>(),
                [(35, MAYBE), (40, MAYBE)]
            );
        }
    }

    /// A namespace and a byte lead to one list each, and anything else to none.
    #[test]
    fn lists_are_chosen() {
        for list in LISTS {
            assert_eq!(List::of_byte(list.byte), Some(list));
            assert_eq!(List::of_namespace(list.namespace.as_bytes()), Some(list));
            assert!(list.namespace.ends_with(list.message));
        }
        assert_ne!(STATEMENT, REPORT);
        for byte in [0, 3, 255] {
            assert_eq!(List::of_byte(byte), None);
        }
        for other in ["", "camt.053.001.08", "urn:iso:std:iso:20022:tech:xsd:camt.054.001.08"] {
            assert_eq!(List::of_namespace(other.as_bytes()), None);
        }
    }

    #[test]
    fn paths_are_spelled_from_the_root() {
        let path = |list: &List| list.path(list.find(24).unwrap());
        assert_eq!(path(&STATEMENT), "Document/BkToCstmrStmt/Stmt/Ntry/Amt");
        assert_eq!(path(&REPORT), "Document/BkToCstmrAcctRpt/Rpt/Ntry/Amt");
        assert_eq!(STATEMENT.find(0), None);
        assert_eq!(REPORT.find(58), None);
    }
}
