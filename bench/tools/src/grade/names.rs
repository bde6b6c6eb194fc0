//! The names of the codes, as the answer type of the unit has them, and `include/kto.h` after `KTO_`. `.ci/pages.py` holds them to it.

use independent::list::List;
use independent::Code;

const NAMES: [(u8, &str); 22] = [
    (0, "ACCEPTED"),
    (1, "TOO_LONG"),
    (2, "NOT_UTF8"),
    (3, "NOT_HOUSE_XML"),
    (4, "WRONG_ROOT"),
    (5, "NOT_A_CHILD"),
    (6, "OUT_OF_ORDER"),
    (7, "TOO_MANY"),
    (8, "ABSENT"),
    (9, "WRONG_ATTRIBUTES"),
    (10, "TEXT_IN_GROUP"),
    (11, "EMPTY"),
    (12, "BAD_VALUE"),
    (13, "RULE_BROKEN"),
    (14, "NO_ROOM"),
    (15, "NO_HEADER"),
    (16, "WRONG_VERSION"),
    (17, "BROKEN_IMAGE"),
    (18, "NO_SUCH_LEAF"),
    (19, "TOO_LARGE"),
    (20, "TOO_FINE"),
    (26, "RETIRED"),
];

/// `BAD_VALUE` of 12.
pub fn code_name(code: u8) -> &'static str {
    NAMES.iter().find(|(number, _)| *number == code).map_or("NO_SUCH_CODE", |(_, name)| name)
}

/// What it says to a technician: `value breaks its type` of 12.
pub fn code_meaning(code: u8) -> &'static str {
    Code::from_number(code).map_or("no such code", Code::name)
}

/// `12 BAD_VALUE, value breaks its type`.
pub fn code_in_words(code: u8) -> String {
    format!("{code} {}, {}", code_name(code), code_meaning(code))
}

/// `row 30 Document/BkToCstmrStmt/Stmt/Ntry/BookgDt/Dt`; nothing of 0, which is no row.
pub fn row_in_words(list: &List, row: u8) -> Option<String> {
    list.find(row).map(|found| format!("row {row} {}", list.path(found)))
}

#[cfg(test)]
mod tests {
    use super::*;

    #[test]
    fn every_code_has_a_name() {
        for code in Code::ALL {
            assert_ne!(code_name(code.number()), "NO_SUCH_CODE", "{code:?}");
        }
        assert_eq!(code_in_words(12), "12 BAD_VALUE, value breaks its type");
        assert_eq!(code_in_words(255), "255 NO_SUCH_CODE, no such code");
    }
}
