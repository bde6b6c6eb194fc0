//! The report on a file as one JSON object on one line.

use super::names::{code_meaning, code_name};
use super::report::{Acceptance, Outcome, Refusal, Report};
use independent::list::List;

/// `file` and `code`, `name`, `meaning`, `row`, `place`, and `kind` where it is known; of a refused file also `path` (the row's,
/// where there is one), `line`, `column`, `text` and `mark` (how many characters of the text stand before the place). Of a file
/// that can't be read, `file` and `error` alone.
pub fn object(report: &Report) -> String {
    let mut fields = vec![("file", string(&report.path.to_string_lossy()))];
    match &report.outcome {
        Outcome::Unreadable(error) => fields.push(("error", string(error))),
        Outcome::Accepted(Acceptance { list, length }) => {
            fields.extend(answer(0, 0, *length));
            fields.extend(kind(*list));
        }
        Outcome::Refused(refusal) => {
            let Refusal { list, code, row, place, spot } = refusal;
            fields.extend(answer(*code, *row, *place));
            fields.extend(kind(*list));
            fields.extend(refusal.path().map(|path| ("path", string(&path))));
            fields.push(("line", spot.line.to_string()));
            fields.push(("column", spot.column.to_string()));
            fields.push(("text", string(&spot.text)));
            fields.push(("mark", spot.before.to_string()));
        }
    }
    let fields: Vec<String> = fields.into_iter().map(|(name, value)| format!("\"{name}\":{value}")).collect();
    format!("{{{}}}", fields.join(","))
}

/// `camt.053.001.08` or `camt.052.001.08`.
fn kind(list: Option<&List>) -> Option<(&'static str, String)> {
    list.map(|list| ("kind", string(list.message)))
}

fn answer(code: u8, row: u8, place: usize) -> [(&'static str, String); 5] {
    [
        ("code", code.to_string()),
        ("name", string(code_name(code))),
        ("meaning", string(code_meaning(code))),
        ("row", row.to_string()),
        ("place", place.to_string()),
    ]
}

/// A JSON string: quotes, backslashes and control characters escaped (RFC 8259).
fn string(text: &str) -> String {
    let escaped = text.chars().map(|c| match c {
        '"' => "\\\"".to_string(),
        '\\' => "\\\\".to_string(),
        c if c < ' ' => format!("\\u{:04x}", u32::from(c)),
        c => c.to_string(),
    });
    format!("\"{}\"", escaped.collect::<String>())
}

#[cfg(test)]
mod tests {
    use super::*;
    use crate::grade::Spot;
    use independent::list::{REPORT, STATEMENT};

    #[test]
    fn one_object_on_one_line() {
        let report = |outcome| Report { path: "a \"b\"\\c\n.xml".into(), outcome };
        let spot = Spot { line: 2, column: 3, text: "  <Dt>ä\"</Dt>".to_string(), before: 2 };
        let refused = Refusal { list: Some(&REPORT), code: 12, row: 30, place: 20, spot };
        assert_eq!(
            object(&report(Outcome::Refused(refused))),
            "{\"file\":\"a \\\"b\\\"\\\\c\\u000a.xml\",\"code\":12,\"name\":\"BAD_VALUE\",\"meaning\":\"value breaks its type\",\"row\":30,\"place\":20,\
             \"kind\":\"camt.052.001.08\",\"path\":\"Document/BkToCstmrAcctRpt/Rpt/Ntry/BookgDt/Dt\",\"line\":2,\"column\":3,\
             \"text\":\"  <Dt>ä\\\"</Dt>\",\"mark\":2}"
        );
        assert_eq!(
            object(&Report {
                path: "a.xml".into(),
                outcome: Outcome::Accepted(Acceptance { list: Some(&STATEMENT), length: 68 })
            }),
            "{\"file\":\"a.xml\",\"code\":0,\"name\":\"ACCEPTED\",\"meaning\":\"accepted\",\"row\":0,\"place\":68,\
             \"kind\":\"camt.053.001.08\"}"
        );
        assert_eq!(
            object(&Report { path: "a.xml".into(), outcome: Outcome::Unreadable("gone".to_string()) }),
            "{\"file\":\"a.xml\",\"error\":\"gone\"}"
        );
    }
}
