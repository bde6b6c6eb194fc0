//! An image as an indented tree, with names and values.

use std::io::{self, Write};

use independent::list::{Kind, List};
use independent::read::{first_image, Item};
use independent::types::Value;
use independent::write::characters;

use super::divide::{divide, in_items, Part};
use super::report::kind_in_words;
use crate::unit::Unit;

/// Prints a run of images one after the other. The unit says where each ends. True if the run is images to its end.
pub fn show(unit: &Unit, run: &[u8], out: &mut dyn Write) -> io::Result<bool> {
    let left = divide(unit, run, |Part { number, start, bytes, items }| {
        let Ok(image) = first_image(bytes) else {
            return Err(io::Error::other(format!("the independent program doesn't read the image at byte {start}")));
        };
        let kind = kind_in_words(image.list);
        let size = format!("{} bytes, {}", image.length, in_items(items));
        writeln!(out, "image {number} at byte {start}, {size}, version {}, {kind}", image.version)?;
        image.items.iter().try_for_each(|item| writeln!(out, "{}", item_line(image.list, item)))
    })?;
    match left {
        Ok(()) => Ok(true),
        Err(refused) => writeln!(out, "{refused}").map(|()| false),
    }
}

/// `      MsgId: M1`, indented by the row's level.
pub fn item_line(list: &List, item: &Item) -> String {
    let row = list.find(item.row).expect("an item of the list");
    let level = list.path(row).matches('/').count();
    let value = match &item.leaf {
        Some((value, _)) => format!(": {}", in_words(row.kind, value)),
        None => String::new(),
    };
    format!("{}{}{value}", "  ".repeat(level), row.name)
}

/// As it is written in a file, and the currency in front of an amount: `EUR 1250.5`.
pub fn in_words(kind: Kind, value: &Value) -> String {
    match value {
        Value::Amt(amount) => format!("{} {}", amount.currency(), characters(kind, value)),
        _ => characters(kind, value),
    }
}

#[cfg(test)]
mod tests {
    use super::*;
    use cases::message::chosen::{EVERY_ROW, REPORT_EVERY_ROW};
    use cases::runs::image_of;

    #[test]
    fn values_are_shown_in_words() {
        let statement = [
            "Document", "      MsgId: M/1", "      CreDtTm: 2024-03-01T06:00:00.25+01:00", "      ElctrncSeqNb: 42",
            "        Amt: EUR 750.25", "        Amt: USD 0", "        RvslInd: false", "          Dt: 2024-02-29",
            "                  Nm: Bäcker & Söhne",
        ];
        let report =
            ["  BkToCstmrAcctRpt", "    Rpt", "            Cd: ITBD", "          Cd: PDNG", "          Cd: BOOK"];
        for (message, expected) in [(EVERY_ROW, &statement[..]), (REPORT_EVERY_ROW, &report)] {
            let image = first_image(&image_of(message.as_bytes())).unwrap();
            let lines: Vec<String> = image.items.iter().map(|item| item_line(image.list, item)).collect();
            for line in expected {
                assert!(lines.iter().any(|shown| shown == line), "{line} in\n{}", lines.join("\n"));
            }
        }
    }
}
