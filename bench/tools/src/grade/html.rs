//! The reports on many files as one page for a browser: a summary by code, each refused file with its line and a mark, and what was
//! accepted. It needs nothing beside itself.

use std::fmt::Write;

use super::names::{code_in_words, code_meaning, code_name};
use super::report::{kind_in_words, Acceptance, Outcome, Refusal, Report, Tally};
use super::spot::Spot;

/// The page of the files judged so far.
pub struct Page {
    judge: &'static str,
    reports: Vec<Report>,
    tally: Tally,
}

impl Page {
    /// An empty page that names who judges.
    pub fn new(judge: &'static str) -> Page {
        Page { judge, reports: Vec::new(), tally: Tally::default() }
    }

    pub fn add(&mut self, report: Report) {
        self.tally.add(&report.outcome);
        self.reports.push(report);
    }

    pub fn text(&self) -> String {
        let Page { tally, judge, .. } = self;
        let (accepted, refused) = (tally.accepted(), tally.refused());
        let mut page = String::from(HEAD);
        page += &format!("<h1>Statement files</h1>\n<p class=\"who\">Judged by {judge}.</p>\n<ul class=\"sum\">\n");
        page += &format!("<li class=\"good\"><b>{accepted}</b> accepted</li>\n");
        page += &format!("<li class=\"bad\"><b>{refused}</b> refused</li>\n");
        if tally.unreadable > 0 {
            page += &format!("<li class=\"unread\"><b>{}</b> not read</li>\n", tally.unreadable);
        }
        page += "</ul>\n";
        page += &self.summary();
        for code in tally.codes.keys().filter(|code| **code != 0) {
            page += &self.section(*code);
        }
        page += &self.unread();
        page += &self.accepted();
        page + "</body>\n</html>\n"
    }

    /// A line for each code that came up; of refused files also their share of all that were refused, as a bar.
    fn summary(&self) -> String {
        let rows = self.tally.codes.iter().map(|(code, count)| {
            let (name, meaning) = (code_name(*code), escaped(code_meaning(*code)));
            let bar = match code {
                0 => String::new(),
                _ => format!("<i style=\"width:{}%\"></i>", 100 * count / self.tally.refused()),
            };
            format!(
                "<tr><td class=\"n\">{code}</td><td><a href=\"#code-{code}\">{name}</a></td><td class=\"m\">{meaning}</td><td class=\"n\">{count}</td>\
                 <td class=\"bar\">{bar}</td></tr>\n",
            )
        });
        let rows: String = rows.collect();
        match rows.is_empty() {
            true => String::new(),
            false => format!(
                "<table>\n<thead><tr><th class=\"n\">Code</th><th>Name</th><th>Meaning</th><th class=\"n\">Files</th>\
                 <th class=\"bar\">Of those refused</th></tr></thead>\n<tbody>\n{rows}</tbody>\n</table>\n"
            ),
        }
    }

    /// The files that were refused with a code.
    fn section(&self, code: u8) -> String {
        let count = self.tally.codes.get(&code).copied().unwrap_or(0);
        let head = format!("{} <small>{}</small>", escaped(&code_in_words(code)), files(count));
        let mut text = format!("<section id=\"code-{code}\">\n<h2>{head}</h2>\n");
        for report in &self.reports {
            match &report.outcome {
                Outcome::Refused(refusal) if refusal.code == code => text += &article(report, refusal),
                _ => {}
            }
        }
        text + "</section>\n"
    }

    fn unread(&self) -> String {
        let line = |report: &Report| match &report.outcome {
            Outcome::Unreadable(error) => Some(format!("<li>{}: {}</li>\n", path(report), escaped(error))),
            _ => None,
        };
        let lines: String = self.reports.iter().filter_map(line).collect();
        match lines.is_empty() {
            true => String::new(),
            false => {
                let head = format!("Not read <small>{}</small>", files(self.tally.unreadable));
                format!("<section>\n<h2>{head}</h2>\n<ul>\n{lines}</ul>\n</section>\n")
            }
        }
    }

    /// Folded away: nobody has to do anything about these.
    fn accepted(&self) -> String {
        let line = |report: &Report| match &report.outcome {
            Outcome::Accepted(Acceptance { list, length }) => {
                let kind = list.map_or(String::new(), |list| kind_in_words(list) + ", ");
                Some(format!("<li>{} <small>{kind}image of {length} bytes</small></li>\n", path(report)))
            }
            _ => None,
        };
        let lines: String = self.reports.iter().filter_map(line).collect();
        match lines.is_empty() {
            true => String::new(),
            false => {
                let head = format!("Accepted <small>{}</small>", files(self.tally.accepted()));
                format!("<details id=\"code-0\">\n<summary>{head}</summary>\n<ul>\n{lines}</ul>\n</details>\n")
            }
        }
    }
}

/// A refused file: where, and its line with the place marked in it and below it.
fn article(report: &Report, refusal: &Refusal) -> String {
    let Spot { line, column, text, before } = &refusal.spot;
    let mut article = format!("<article>\n<h3>{}</h3>\n<p>", path(report));
    if let Some(row) = refusal.row_in_words() {
        write!(article, "{} &middot; ", escaped(&row)).expect("a string takes all");
    }
    let marked: String = text.chars().skip(*before).take(1).collect();
    let left: String = text.chars().take(*before).collect();
    let right: String = text.chars().skip(before + 1).collect();
    let gutter = line.to_string();
    let blank = " ".repeat(gutter.len());
    article
        + &format!("line {line}, column {column} &middot; byte {}</p>\n", refusal.place)
        + &format!("<pre><span class=\"line\">{gutter} | </span>{}", escaped(&left))
        + &format!("<mark>{}</mark>{}\n", escaped(&marked), escaped(&right))
        + &format!("<span class=\"line\">{blank} | </span>{}<b>^</b></pre>\n</article>\n", " ".repeat(*before))
}

fn path(report: &Report) -> String {
    escaped(&report.path.to_string_lossy())
}

fn files(count: usize) -> String {
    match count {
        1 => "1 file".to_string(),
        many => format!("{many} files"),
    }
}

/// Text as it can stand in HTML, between tags and between double quotes.
fn escaped(text: &str) -> String {
    text.replace('&', "&amp;").replace('<', "&lt;").replace('>', "&gt;").replace('"', "&quot;")
}

const HEAD: &str = r#"<!DOCTYPE html>
<html lang="en">
<head>
<meta charset="utf-8">
<meta name="viewport" content="width=device-width, initial-scale=1">
<title>Statement files</title>
<style>
:root { color-scheme: light dark; --page: #fff; --ink: #1c1e21; --soft: #667; --rule: #dde; --good: #2e7d4f; --bad: #b3382c; --code: #f5f6f8; --mark: #ffd9d3; }
@media (prefers-color-scheme: dark) {
  :root { --page: #17191c; --ink: #e4e6ea; --soft: #9aa; --rule: #333a41; --good: #6cc091; --bad: #ef8a7f; --code: #1f2327; --mark: #6b2c25; }
}
body { font: 16px/1.5 system-ui, sans-serif; max-width: 64rem; margin: 2rem auto; padding: 0 1rem; background: var(--page); color: var(--ink); }
h1 { margin: 0; }
h2 { margin: 2.5rem 0 .5rem; padding-bottom: .25rem; border-bottom: 1px solid var(--rule); font-size: 1.25rem; }
h3 { margin: 1.25rem 0 0; font-size: 1rem; overflow-wrap: anywhere; }
p { margin: .1rem 0; }
small, .who, article p { color: var(--soft); font-weight: normal; overflow-wrap: anywhere; }
a { color: inherit; }
ul.sum { list-style: none; display: flex; gap: 2rem; padding: 0; margin: 1rem 0; }
.sum b { font-size: 2rem; display: block; line-height: 1.1; }
.good b { color: var(--good); } .bad b, .unread b { color: var(--bad); }
table { border-collapse: collapse; width: 100%; }
th, td { text-align: left; padding: .25rem .75rem .25rem 0; border-bottom: 1px solid var(--rule); white-space: nowrap; }
.n { text-align: right; font-variant-numeric: tabular-nums; }
td.m { white-space: normal; }
.bar { width: 35%; }
@media (max-width: 40rem) { .bar { display: none; } }
td.bar i { display: block; height: .7rem; min-width: 2px; border-radius: 2px; background: var(--bad); }
pre { background: var(--code); padding: .5rem .75rem; margin: .4rem 0 0; overflow-x: auto; border-radius: 4px; font: 14px/1.35 ui-monospace, monospace; }
pre b { color: var(--bad); } pre .line { color: var(--soft); }
mark { background: var(--mark); color: inherit; }
summary { margin: 2.5rem 0 .5rem; padding-bottom: .25rem; border-bottom: 1px solid var(--rule); font-size: 1.25rem; font-weight: bold; cursor: pointer; }
li { overflow-wrap: anywhere; }
@media print { article { break-inside: avoid; } }
</style>
</head>
<body>
"#;

#[cfg(test)]
mod tests {
    use super::*;
    use independent::list::STATEMENT;

    #[test]
    fn a_page_counts_links_and_escapes() {
        let mut page = Page::new("the unit");
        let spot = Spot { line: 7, column: 3, text: "  <Nm>A & B</Nm>".to_string(), before: 2 };
        let refusal = Refusal { list: Some(&STATEMENT), code: 12, row: 52, place: 99, spot };
        page.add(Report { path: "<a>&\"b\".xml".into(), outcome: Outcome::Refused(refusal) });
        page.add(Report {
            path: "good.xml".into(),
            outcome: Outcome::Accepted(Acceptance { list: Some(&STATEMENT), length: 68 }),
        });
        page.add(Report { path: "gone.xml".into(), outcome: Outcome::Unreadable("no such file".to_string()) });
        let text = page.text();
        for piece in [
            "<p class=\"who\">Judged by the unit.</p>",
            "<b>1</b> accepted",
            "<b>1</b> refused",
            "<b>1</b> not read",
            "<td class=\"n\">12</td><td><a href=\"#code-12\">BAD_VALUE</a></td><td class=\"m\">value breaks its type</td><td class=\"n\">1</td>",
            "<section id=\"code-12\">\n<h2>12 BAD_VALUE, value breaks its type <small>1 file</small></h2>",
            "<h3>&lt;a&gt;&amp;&quot;b&quot;.xml</h3>",
            "row 52 Document/BkToCstmrStmt/Stmt/Ntry/NtryDtls/TxDtls/RltdPties/Dbtr/Pty/Nm &middot; line 7, column 3 &middot; byte 99",
            "<span class=\"line\">7 | </span>  <mark>&lt;</mark>Nm&gt;A &amp; B&lt;/Nm&gt;\n<span class=\"line\">  | </span>  <b>^</b></pre>",
            "<li>gone.xml: no such file</li>",
            "<details id=\"code-0\">\n<summary>Accepted <small>1 file</small></summary>",
            "<li>good.xml <small>statement (camt.053.001.08), image of 68 bytes</small></li>",
        ] {
            assert!(text.contains(piece), "{piece} in\n{text}");
        }
    }

    #[test]
    fn an_empty_page_is_whole() {
        let text = Page::new("the unit").text();
        assert!(text.starts_with("<!DOCTYPE html>") && text.ends_with("</html>\n") && !text.contains("<table>"));
    }
}
