//! What is judged: statements of an Austrian rent account, as long as wanted, in four styles, and reports of one, in one style.

const LARGE: usize = independent::LIMIT;
const SMALL: usize = 4096;

/// A full remittance text, and one as Austrian statements have them: of its 132 characters, the line's number among them, eleven lie beyond
/// ASCII and three are entities.
const LONG: &str = "Miete und Betriebskosten laut Vorschreibung der Hausverwaltung, Top 12, Miete und Betriebskosten laut Vorschreibung der Hausverwaltung,";
const AUSTRIAN: &str = "Miete f\u{fc}r M\u{e4}rz, Top 12, B\u{f6}hm &amp; S\u{f6}hne, M\u{fc}hlstra\u{df}e 7 und \u{20ac} 48,20 R\u{fc}ckstand laut &quot;Vorschreibung&quot; der Hausverwaltung, Geb\u{fc}hr f\u{fc}r M\u{fc}ll";

pub struct File {
    pub name: String,
    pub text: Vec<u8>,
    /// The same file with another name of the root.
    pub foreign: Vec<u8>,
    /// The same file with a blank in the last tag but the root's: as good as it was, and no way that the fast lane knows.
    pub blanked: Vec<u8>,
    /// With a byte in its last text that no text has; with another name in the last tag but the root's; with a byte after its root.
    pub faulty: Vec<u8>,
    pub torn: Vec<u8>,
    pub broken: Vec<u8>,
    pub image: Vec<u8>,
}

/// How a message is laid out: two blanks for each level and a line for each tag, or no blank at all; with one short text to an entry, or
/// with eight full ones, numbered.
#[derive(Clone, Copy)]
struct Style {
    name: &'static str,
    kind: &'static Kind,
    indented: bool,
    full_text: Option<&'static str>,
}

/// What a statement (camt.053) and a report (camt.052) have different.
struct Kind {
    namespace: &'static str,
    body: &'static str,
    account: &'static str,
    closing: &'static str,
    /// The status of every second entry; the others are booked.
    second: &'static str,
}

const STATEMENT: Kind = Kind {
    namespace: "urn:iso:std:iso:20022:tech:xsd:camt.053.001.08",
    body: "BkToCstmrStmt",
    account: "Stmt",
    closing: "CLBD",
    second: "BOOK",
};

const REPORT: Kind = Kind {
    namespace: "urn:iso:std:iso:20022:tech:xsd:camt.052.001.08",
    body: "BkToCstmrAcctRpt",
    account: "Rpt",
    closing: "ITBD",
    second: "PDNG",
};

const STYLES: [Style; 5] = [
    Style { name: "indented", kind: &STATEMENT, indented: true, full_text: None },
    Style { name: "dense", kind: &STATEMENT, indented: false, full_text: None },
    Style { name: "long texts", kind: &STATEMENT, indented: false, full_text: Some(LONG) },
    Style { name: "Austrian texts", kind: &STATEMENT, indented: false, full_text: Some(AUSTRIAN) },
    Style { name: "report, indented", kind: &REPORT, indented: true, full_text: None },
];

pub fn all() -> Vec<File> {
    let mut files = Vec::new();
    for (size, size_name) in [(LARGE, "1 MiB"), (SMALL, "4 KiB")] {
        for style in STYLES {
            files.push(file(format!("{}, {size_name}", style.name), style, size));
        }
    }
    files
}

/// As many entries as fit into the size, and, where texts are full ones, as many more of these in the last entry as fit.
fn file(name: String, style: Style, size: usize) -> File {
    let mut entries = 0;
    let mut text = message(style, entries, 0);
    loop {
        // An entry's length changes by a few bytes with its number: go on until one more is too much.
        let more = entries_with_room(style, entries, size, text.len());
        if more == entries {
            break;
        }
        entries = more;
        text = message(style, entries, 0);
    }
    if let Some(full) = style.full_text {
        let mut extra = 0;
        while text.len() + line(0, full).len() + "<Ustrd></Ustrd>".len() <= size {
            extra += 1;
            text = message(style, entries, extra);
        }
    }
    let foreign = text.replace("Document", "Fragment").into_bytes();
    let last = text.rfind("</Ustrd>").expect("a last text");
    let faulty = [&text[..last], "`", &text[last..]].concat().into_bytes();
    let tag = text.rfind("</BkToCstmr").expect("the end of the message within the root");
    let close = tag + text[tag..].find('>').expect("the end of a tag");
    let blanked = [&text[..close], " ", &text[close..]].concat().into_bytes();
    let torn = [&text[..close - 1], "?", &text[close..]].concat().into_bytes();
    let broken = [text.trim_end(), "x"].concat().into_bytes();
    let text = text.into_bytes();
    let mut image = vec![0; independent::LIMIT];
    let answer = independent::check(&text, &mut image);
    assert_eq!(answer.code.number(), 0, "the made file {name} is refused: {answer:?}");
    image.truncate(answer.place);
    File { name, text, foreign, blanked, faulty, torn, broken, image }
}

fn entries_with_room(style: Style, entries: usize, size: usize, length: usize) -> usize {
    let one = message(style, entries + 1, 0).len() - length;
    let fit = (size - length) / (one + 8);
    if fit > 0 {
        entries + fit
    } else if length + one <= size {
        entries + 1
    } else {
        entries
    }
}

/// A message with so many entries, the last of them with some more long texts.
fn message(style: Style, entries: usize, extra: usize) -> String {
    let kind = style.kind;
    let mut page =
        Page { text: String::from("<?xml version=\"1.0\" encoding=\"UTF-8\"?>"), level: 0, indented: style.indented };
    page.group(&format!("Document xmlns=\"{}\"", kind.namespace), |page| {
        page.group(kind.body, |page| {
            page.group("GrpHdr", |page| {
                page.leaf("MsgId", "KA-20240329-00471");
                page.leaf("CreDtTm", "2024-03-29T21:14:05.125+01:00");
            });
            page.group(kind.account, |page| {
                page.leaf("Id", "2024/003/L12");
                page.leaf("ElctrncSeqNb", "3");
                page.group("Acct", |page| {
                    page.group("Id", |page| page.leaf("IBAN", "AT472011182012345600"));
                    page.leaf("Ccy", "EUR");
                });
                balance(page, "OPBD", "8412.07");
                balance(page, kind.closing, "12837.32");
                for number in 1..=entries {
                    let more = if number == entries { extra } else { 0 };
                    let texts = match style.full_text {
                        Some(full) => (0..8 + more).map(|n| line(n, full)).collect(),
                        None => vec![format!("Miete M\u{e4}rz 2024 Top {number}")],
                    };
                    let status = if number % 2 == 0 { kind.second } else { "BOOK" };
                    entry(page, number, status, &texts);
                }
            });
        });
    });
    page.text.push('\n');
    page.text
}

fn balance(page: &mut Page, code: &str, amount: &str) {
    page.group("Bal", |page| {
        page.group("Tp", |page| page.group("CdOrPrtry", |page| page.leaf("Cd", code)));
        page.leaf("Amt Ccy=\"EUR\"", amount);
        page.leaf("CdtDbtInd", "CRDT");
        page.group("Dt", |page| page.leaf("Dt", "2024-03-29"));
    });
}

/// A full text with its number before it.
fn line(number: usize, full: &str) -> String {
    format!("{number:02} {full}")
}

fn entry(page: &mut Page, number: usize, status: &str, texts: &[String]) {
    let day = format!("2024-03-{:02}", number % 28 + 1);
    page.group("Ntry", |page| {
        page.leaf("Amt Ccy=\"EUR\"", &format!("{}.{:02}", 500 + number % 700, number % 100));
        page.leaf("CdtDbtInd", "CRDT");
        page.group("Sts", |page| page.leaf("Cd", status));
        page.group("BookgDt", |page| page.leaf("Dt", &day));
        page.group("ValDt", |page| page.leaf("Dt", &day));
        page.leaf("AcctSvcrRef", &format!("202403-{number:06}"));
        page.group("BkTxCd", |page| {
            page.group("Domn", |page| {
                page.leaf("Cd", "PMNT");
                page.group("Fmly", |page| {
                    page.leaf("Cd", "RCDT");
                    page.leaf("SubFmlyCd", "STDO");
                });
            });
        });
        page.group("NtryDtls", |page| page.group("TxDtls", |page| details(page, number, texts)));
    });
}

fn details(page: &mut Page, number: usize, texts: &[String]) {
    page.group("Refs", |page| page.leaf("EndToEndId", &format!("L12/TOP{number:05}/2024-03")));
    page.group("RltdPties", |page| {
        page.group("Dbtr", |page| page.group("Pty", |page| page.leaf("Nm", "Huber &amp; S\u{f6}hne")));
        page.group("DbtrAcct", |page| page.group("Id", |page| page.leaf("IBAN", "AT072011128765432100")));
    });
    page.group("RmtInf", |page| {
        for text in texts {
            page.leaf("Ustrd", text);
        }
    });
}

struct Page {
    text: String,
    level: usize,
    indented: bool,
}

impl Page {
    fn line(&mut self) {
        if self.indented {
            self.text.push('\n');
            self.text.push_str(&"  ".repeat(self.level));
        }
    }

    /// A tag's words begin with its name.
    fn group(&mut self, tag: &str, inside: impl FnOnce(&mut Page)) {
        self.line();
        self.text.push_str(&format!("<{tag}>"));
        self.level += 1;
        inside(self);
        self.level -= 1;
        self.line();
        self.text.push_str(&format!("</{}>", name(tag)));
    }

    fn leaf(&mut self, tag: &str, text: &str) {
        self.line();
        self.text.push_str(&format!("<{tag}>{text}</{}>", name(tag)));
    }
}

fn name(tag: &str) -> &str {
    tag.split(' ').next().unwrap()
}
