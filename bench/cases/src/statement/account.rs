//! A rent account as a draft, a month of it as a statement, or a day at noon as a report: rents and what else tenants pay,
//! bills, collective bookings, a payment that came back.

use independent::list::{List, REPORT};

use super::texts;
use crate::message::{Draft, Part};
use crate::random::Random;

/// The month, and the sum of what is booked in it.
struct Month {
    year: usize,
    number: usize,
    /// In cents; below 0 where more goes out than comes in. What is pending is not booked yet.
    sum: i64,
}

/// When an entry is entered: its day, and whether it is only pending.
struct Entered {
    day: usize,
    pending: bool,
}

impl Month {
    fn day(&self, day: usize) -> String {
        format!("{:04}-{:02}-{day:02}", self.year, self.number)
    }
}

/// A message with one statement, or one report, of so many entries.
pub fn message(list: &List, entries: usize, random: &mut Random) -> Draft {
    let mut month = Month { year: random.between(2022, 2026), number: random.between(1, 12), sum: 0 };
    let opening = random.below(2_500_000) as i64 - 200_000;
    let is_report = *list == REPORT;
    let (first, last) = if is_report { (15, 15) } else { (1, 28) };
    // Booked in order, over the first 28 days; in a report on one day, and the last fifth is pending.
    let entered = |number: usize| Entered {
        day: first + number * (last + 1 - first) / entries,
        pending: is_report && number >= entries - entries / 5,
    };
    let booked: Vec<Draft> =
        (0..entries).map(|number| entry(number + 1, entered(number), &mut month, random)).collect();
    let house = random.between(1, 40);
    let id = format!("{}/{:03}/L{house}", month.year, month.number);
    let account = group("Acct", vec![group("Id", vec![leaf("IBAN", &texts::iban(random))]), leaf("Ccy", "EUR")]);
    let head = vec![leaf("Id", &id), leaf("ElctrncSeqNb", &month.number.to_string()), account];
    let (closing, hour) = if is_report { ("ITBD", 12) } else { ("CLBD", 21) };
    let balances =
        [balance("OPBD", opening, &month.day(first)), balance(closing, opening + month.sum, &month.day(last))].to_vec();
    let created = format!("{}T{hour}:{:02}:{:02}+01:00", month.day(last), random.below(60), random.below(60));
    let message = format!("KA-{}-{:05}", month.day(last).replace('-', ""), random.below(100_000));
    let header = group("GrpHdr", vec![leaf("MsgId", &message), leaf("CreDtTm", &created)]);
    let (body, account) = if is_report { ("BkToCstmrAcctRpt", "Rpt") } else { ("BkToCstmrStmt", "Stmt") };
    let account = group(account, [head, balances, booked].concat());
    group("Document", vec![group(body, vec![header, account])]).attribute("xmlns", list.namespace)
}

/// "debit balances counting negative"
fn balance(kind: &str, cents: i64, day: &str) -> Draft {
    let side = if cents < 0 { "DBIT" } else { "CRDT" };
    group(
        "Bal",
        vec![
            group("Tp", vec![group("CdOrPrtry", vec![leaf("Cd", kind)])]),
            amount(cents.unsigned_abs()),
            leaf("CdtDbtInd", side),
            group("Dt", vec![leaf("Dt", day)]),
        ],
    )
}

/// What an entry is about.
struct Booking {
    credit: bool,
    /// A payment that came back.
    returned: bool,
    /// Family and sub-family of its transaction code.
    code: (&'static str, &'static str),
    transactions: Vec<Transaction>,
}

struct Transaction {
    cents: u64,
    reference: String,
    mandate: Option<String>,
    /// Who pays, and from where.
    payer: Option<(String, String)>,
    text: String,
}

fn entry(number: usize, Entered { day, pending }: Entered, month: &mut Month, random: &mut Random) -> Draft {
    let booking = booking(month, random);
    let cents: u64 = booking.transactions.iter().map(|transaction| transaction.cents).sum();
    if !pending {
        month.sum += if booking.credit { cents as i64 } else { -(cents as i64) };
    }
    let day = month.day(day);
    let side = leaf("CdtDbtInd", if booking.credit { "CRDT" } else { "DBIT" });
    let mut parts = vec![amount(cents), side.clone()];
    if booking.returned {
        parts.push(leaf("RvslInd", "true"));
    }
    let family = group("Fmly", vec![leaf("Cd", booking.code.0), leaf("SubFmlyCd", booking.code.1)]);
    parts.push(group("Sts", vec![leaf("Cd", if pending { "PDNG" } else { "BOOK" })]));
    if !pending {
        parts.push(group("BookgDt", vec![leaf("Dt", &day)]));
    }
    parts.extend([
        group("ValDt", vec![leaf("Dt", &day)]),
        leaf("AcctSvcrRef", &format!("{}-{number:05}", day.replace('-', ""))),
        group("BkTxCd", vec![group("Domn", vec![leaf("Cd", "PMNT"), family])]),
    ]);
    // Amounts stand with the transactions where there are several.
    let own = (booking.transactions.len() > 1).then_some(side);
    let details = booking.transactions.iter().map(|transaction| transaction.details(own.as_ref()));
    parts.push(group("NtryDtls", details.collect()));
    group("Ntry", parts)
}

fn booking(month: &Month, random: &mut Random) -> Booking {
    let credit = |code, transactions| Booking { credit: true, returned: false, code, transactions };
    match random.below(20) {
        0..=9 => credit(("RCDT", "STDO"), vec![rent(month, random)]),
        10..=12 => credit(("RCDT", "ESCT"), vec![rent(month, random)]),
        13 | 14 => {
            let text = texts::other_credit(random.between(1, 60), month.year, random);
            let cents = random.between(1, 99_999) as u64;
            credit(("RCDT", "ESCT"), vec![Transaction { cents, text, ..rent(month, random) }])
        }
        15 => {
            let count = random.between(2, 4);
            credit(("IDDT", "ESDD"), (0..count).map(|_| collected(month, random)).collect())
        }
        16 => {
            let back = collected(month, random);
            Booking { credit: false, returned: true, code: ("IDDT", "PRDD"), transactions: vec![back] }
        }
        _ => {
            let cents = random.between(1_000, 250_000) as u64;
            let reference = "NOTPROVIDED".to_string();
            let bill = Transaction { cents, reference, mandate: None, payer: None, text: texts::spent(random) };
            Booking { credit: false, returned: false, code: ("ICDT", "ESCT"), transactions: vec![bill] }
        }
    }
}

/// A rent that the tenant sends.
fn rent(month: &Month, random: &mut Random) -> Transaction {
    let top = random.between(1, 60);
    let reference = match random.once_in(4) {
        true => "NOTPROVIDED".to_string(),
        false => format!("TOP{top:02}/{}-{:02}", month.year, month.number),
    };
    Transaction {
        cents: random.between(30_000, 180_000) as u64,
        reference,
        mandate: None,
        payer: Some((texts::payer(random), texts::iban(random))),
        text: texts::rent(top, texts::month(month.number), month.year, random),
    }
}

/// A rent that is collected under a mandate.
fn collected(month: &Month, random: &mut Random) -> Transaction {
    Transaction { mandate: Some(format!("MND-{:06}", random.below(1_000_000))), ..rent(month, random) }
}

impl Transaction {
    /// Its TxDtls, with its own amount and side if one is given.
    fn details(&self, side: Option<&Draft>) -> Draft {
        let mut references = vec![leaf("EndToEndId", &self.reference)];
        references.extend(self.mandate.iter().map(|mandate| leaf("MndtId", mandate)));
        let mut parts = vec![group("Refs", references)];
        parts.extend(side.into_iter().flat_map(|side| [amount(self.cents), side.clone()]));
        parts.extend(self.payer.iter().map(|(name, iban)| {
            let debtor = group("Dbtr", vec![group("Pty", vec![leaf("Nm", name)])]);
            group("RltdPties", vec![debtor, group("DbtrAcct", vec![group("Id", vec![leaf("IBAN", iban)])])])
        }));
        parts.push(group("RmtInf", vec![leaf("Ustrd", &self.text)]));
        group("TxDtls", parts)
    }
}

fn group(name: &str, children: Vec<Draft>) -> Draft {
    Draft { parts: children.into_iter().map(Part::Child).collect(), ..Draft::new(name) }
}

fn leaf(name: &str, text: &str) -> Draft {
    Draft::leaf(name, &text.replace('&', "&amp;").replace('<', "&lt;").replace('>', "&gt;"))
}

fn amount(cents: u64) -> Draft {
    Draft::leaf("Amt", &format!("{}.{:02}", cents / 100, cents % 100)).attribute("Ccy", "EUR")
}

#[cfg(test)]
mod tests {
    use super::*;
    use crate::message::Style;
    use crate::runs::image_of;
    use independent::list::LISTS;
    use independent::read::first_image;
    use independent::types::Value;

    /// "opening plus credits minus debits equals closing, debit balances counting negative"; "PDNG entries .. don't count in the sum"
    #[test]
    fn balances_agree_with_entries() {
        for (seed, list) in (0..50).flat_map(|seed| LISTS.map(|list| (seed, list))) {
            let mut random = Random::new(seed);
            let draft = message(list, seed as usize, &mut random);
            let image = image_of(Style::DENSE.write(&draft).as_bytes());
            let mut sums = [0_i64; 60];
            let (mut last, mut signed) = (0, 0);
            for item in first_image(&image).unwrap().items {
                match item.leaf.map(|(value, _)| value) {
                    Some(Value::Amt(amount)) => {
                        let cents = amount.coefficient * 100 / 10_u64.pow(amount.scale.into());
                        last = i64::try_from(cents).unwrap();
                    }
                    // CRDT counts up, DBIT down; of the two balances the second counts the other way.
                    Some(Value::Word(place)) if [20, 25].contains(&item.row) => {
                        signed = if place == 1 { last } else { -last };
                        if item.row == 20 {
                            sums[20] = signed - sums[20];
                        }
                    }
                    // An entry counts where it is booked.
                    Some(Value::Word(1)) if item.row == 28 => sums[28] += signed,
                    _ => {}
                }
            }
            assert_eq!(sums[20], sums[28], "seed {seed}: closing less opening, and the sum of the entries");
        }
    }
}
