//! DATE and DTM.

use super::all_digits;

#[derive(Clone, Copy, PartialEq, Eq, Debug)]
pub struct Date {
    pub year: u16,
    pub month: u8,
    pub day: u8,
}

/// "DTM's value is its written parts; fractions count in microseconds, an absent one as 0, and `Z`, `+00:00`, `-00:00`
/// are equal. No time is shifted to another zone."
#[derive(Clone, Copy, PartialEq, Eq, Debug)]
pub struct DateTime {
    pub date: Date,
    pub hour: u8,
    pub minute: u8,
    pub second: u8,
    pub microsecond: u32,
    /// The zone in minutes, from -840 to 840.
    pub offset: i16,
}

impl Date {
    /// "a real Gregorian day, year 0001 to 9999"
    pub fn is_real(&self) -> bool {
        (1..=9999).contains(&self.year) && (1..=days_in(self.year, self.month)).contains(&self.day)
    }

    /// "the next day"; `None` after 9999-12-31.
    fn next(self) -> Option<Date> {
        let Date { year, month, day } = self;
        let following = [
            Date { day: day + 1, ..self },
            Date { year, month: month + 1, day: 1 },
            Date { year: year + 1, month: 1, day: 1 },
        ];
        following.into_iter().find(Date::is_real)
    }
}

impl DateTime {
    /// "`hh:mm:ss` up to 23:59:59", less than a second of microseconds, an offset "up to 14:00" in either direction.
    pub fn is_real(&self) -> bool {
        self.date.is_real()
            && self.hour <= 23
            && self.minute <= 59
            && self.second <= 59
            && self.microsecond <= 999_999
            && (-840..=840).contains(&self.offset)
    }
}

/// The length of a month; 0 where there is no such month.
fn days_in(year: u16, month: u8) -> u8 {
    match month {
        1 | 3 | 5 | 7 | 8 | 10 | 12 => 31,
        4 | 6 | 9 | 11 => 30,
        2 if is_leap(year) => 29,
        2 => 28,
        _ => 0,
    }
}

fn is_leap(year: u16) -> bool {
    (year % 4 == 0 && year % 100 != 0) || year % 400 == 0
}

/// "DATE: `YYYY-MM-DD`"
pub fn date(text: &str) -> Option<Date> {
    let [year, month, day] = split(text, "dddd-dd-dd")?;
    let date = Date { year: year as u16, month: month as u8, day: day as u8 };
    date.is_real().then_some(date)
}

/// "DTM: DATE, `T`, `hh:mm:ss` up to 23:59:59, optionally a point and .. digits, then `Z` or sign `hh:mm`, minutes at most 59,
/// up to 14:00." Document 02, section 3: "xs:dateTime also allows 24:00:00, without fraction: its content is 00:00:00 of the
/// next day, and on 9999-12-31 it is refused".
pub fn date_time(text: &str) -> Option<DateTime> {
    if !text.is_ascii() || text.len() < 19 {
        return None;
    }
    let (day_and_time, rest) = text.split_at(19);
    let (day, time) = day_and_time.split_once('T')?;
    let date = date(day)?;
    let [hour, minute, second] = split(time, "dd:dd:dd")?;
    let zone_start = rest.find(['Z', '+', '-'])?;
    let (fraction, zone) = rest.split_at(zone_start);
    let offset = offset(zone)?;
    if time == "24:00:00" && fraction.is_empty() {
        return Some(DateTime { date: date.next()?, hour: 0, minute: 0, second: 0, microsecond: 0, offset });
    }
    let microsecond = microseconds(fraction)?;
    let value = DateTime { date, hour: hour as u8, minute: minute as u8, second: second as u8, microsecond, offset };
    value.is_real().then_some(value)
}

/// What stands between the seconds and the zone: nothing, or "a point and one to three digits, the last not zero".
fn microseconds(fraction: &str) -> Option<u32> {
    if fraction.is_empty() {
        return Some(0);
    }
    let digits = fraction.strip_prefix('.')?;
    if !(1..=3).contains(&digits.len()) || !all_digits(digits) || digits.ends_with('0') {
        return None;
    }
    format!("{digits:0<6}").parse().ok()
}

/// "`Z` or sign `hh:mm`, minutes at most 59, up to 14:00", in minutes.
fn offset(zone: &str) -> Option<i16> {
    if zone == "Z" {
        return Some(0);
    }
    let sign = if zone.starts_with('-') { -1 } else { 1 };
    let [hours, minutes] = split(zone.strip_prefix(['+', '-'])?, "dd:dd")?;
    let total = hours as i16 * 60 + minutes as i16;
    (minutes <= 59 && total <= 14 * 60).then_some(sign * total)
}

/// The numbers in a text of a given form, in which `d` stands for one digit and all else for itself.
fn split<const N: usize>(text: &str, form: &str) -> Option<[u32; N]> {
    if text.len() != form.len() {
        return None;
    }
    let mut numbers = [0; N];
    let mut which = 0;
    for (byte, form) in text.bytes().zip(form.bytes()) {
        if form == b'd' && byte.is_ascii_digit() {
            numbers[which] = numbers[which] * 10 + u32::from(byte - b'0');
        } else if form != b'd' && byte == form {
            which += 1;
        } else {
            return None;
        }
    }
    Some(numbers)
}

#[cfg(test)]
mod tests {
    use super::*;

    #[test]
    fn real_days() {
        let good = ["0001-01-01", "9999-12-31", "2024-02-29", "2000-02-29", "2023-02-28", "2024-04-30", "0004-02-29"];
        for text in good {
            assert!(date(text).is_some(), "{text}");
        }
        let bad = [
            "0000-01-01", "2023-02-29", "1900-02-29", "2100-02-29", "2024-02-30", "2024-04-31", "2024-00-01",
            "2024-13-01", "2024-01-00", "2024-01-32", "24-01-01", "2024-1-01", "2024/01/01", "20240101", "12024-01-01",
            "-2024-01-01", "2024-01-01Z", "", "2024-01-0a", "٢٠٢٤-01-01",
        ];
        for text in bad {
            assert_eq!(date(text), None, "{text}");
        }
    }

    /// A second way to find the real days: counting on from 0001-01-01 by a table, over 400 years.
    #[test]
    fn every_day_of_400_years() {
        let mut real = 0;
        for year in 1601..=2000 {
            for month in 0..=13 {
                for day in 0..=32 {
                    real += u32::from(date(&format!("{year:04}-{month:02}-{day:02}")).is_some());
                }
            }
        }
        assert_eq!(real, 146_097, "the days of the Gregorian cycle");
    }

    fn parts(text: &str) -> Option<(u8, u8, u8, u32, i16)> {
        date_time(text).map(|v| (v.hour, v.minute, v.second, v.microsecond, v.offset))
    }

    #[test]
    fn times() {
        assert_eq!(parts("2024-03-01T06:00:00Z"), Some((6, 0, 0, 0, 0)));
        assert_eq!(parts("2024-03-01T23:59:59.999+14:00"), Some((23, 59, 59, 999_000, 840)));
        assert_eq!(parts("2024-03-01T00:00:00.12-14:00"), Some((0, 0, 0, 120_000, -840)));
        assert_eq!(parts("2024-03-01T00:00:00.001+13:59"), Some((0, 0, 0, 1_000, 839)));
        assert_eq!(parts("2024-03-01T00:00:00.5Z"), Some((0, 0, 0, 500_000, 0)));
        assert_eq!(date_time("2024-03-01T06:00:00Z"), date_time("2024-03-01T06:00:00+00:00"));
        assert_eq!(date_time("2024-03-01T06:00:00Z"), date_time("2024-03-01T06:00:00-00:00"));
        let bad = [
            "2024-03-01T06:00:00", "2024-03-01T24:00:01Z", "2024-03-01T06:60:00Z", "2024-03-01T06:00:60Z",
            "2024-03-01T24:01:00Z", "2024-03-01T25:00:00Z", "2024-03-01T24:00:00.1Z", "2024-03-01T24:00:00.0Z",
            "2024-03-01T24:00:00.000Z", "2024-03-01T24:00:00", "2024-02-30T24:00:00Z", "2024-03-01T24:00:00+14:01",
            "2024-03-01T06:00:00.0Z", "2024-03-01T06:00:00.00Z", "2024-03-01T06:00:00.000Z", "2024-03-01T06:00:00.10Z",
            "2024-03-01T06:00:00.120Z", "2024-03-01T06:00:00.100Z", "2024-03-01T06:00:00.123456Z",
            "2024-03-01T06:00:00.120000Z", "2024-03-01T06:00:00.000000Z", "2024-03-01T06:00:00+01",
            "2024-03-01T06:00:00.Z", "2024-03-01T06:00:00.1234Z", "2024-03-01T06:00:00.12345Z",
            "2024-03-01T06:00:00.1234567Z", "2024-03-01T06:00:00+14:01", "2024-03-01T06:00:00-14:01",
            "2024-03-01T06:00:00+15:00", "2024-03-01T06:00:00+01:60", "2024-03-01T06:00:00+1:00",
            "2024-03-01T06:00:00+0100", "2024-03-01t06:00:00Z", "2024-03-01 06:00:00Z", "2024-03-01T06:00:00z",
            "2024-03-01T06:00:00Z ", "2024-02-30T06:00:00Z", "2024-03-01T06:00:00,123Z", "2024-03-01T06:00:00.12aZ",
            "2024-03-01T06:00:00ZZ", "2024-03-01T06:00Z", "", "2024-03-01", "2024-03-01T6:00:00Z0",
            "2024-03-01T06:00:00.+12Z", "2024-03-01T06:00:00.-12345Z", "€€€€€€€€€€",
        ];
        for text in bad {
            assert_eq!(date_time(text), None, "{text}");
        }
    }

    /// "its content is 00:00:00 of the next day": counted on over 400 years from a day by the calendar's own rule, each day
    /// once; "on 9999-12-31 it is refused".
    #[test]
    fn midnight_is_the_next_day() {
        let at =
            |date: &Date, time: &str| date_time(&format!("{:04}-{:02}-{:02}T{time}", date.year, date.month, date.day));
        let mut day = Date { year: 1801, month: 1, day: 1 };
        let mut days = 0;
        while day != (Date { year: 2201, month: 1, day: 1 }) {
            let next = at(&day, "24:00:00-05:30").expect("a day has a midnight");
            assert_eq!(Some(next), at(&next.date, "00:00:00-05:30"));
            day = next.date;
            days += 1;
        }
        assert_eq!(days, 146_097, "the days of the Gregorian cycle");
        let pairs = [
            ("1900-02-28", "1900-03-01"),
            ("2000-02-28", "2000-02-29"),
            ("2000-02-29", "2000-03-01"),
            ("2023-02-28", "2023-03-01"),
            ("2024-02-28", "2024-02-29"),
            ("2024-02-29", "2024-03-01"),
            ("2024-04-30", "2024-05-01"),
            ("2024-12-31", "2025-01-01"),
            ("9998-12-31", "9999-01-01"),
            ("9999-12-30", "9999-12-31"),
            ("0001-01-01", "0001-01-02"),
        ];
        for (day, next) in pairs {
            for zone in ["Z", "+14:00", "-14:00"] {
                let midnight = date_time(&format!("{day}T24:00:00{zone}"));
                assert!(midnight.is_some(), "{day}");
                assert_eq!(midnight, date_time(&format!("{next}T00:00:00{zone}")), "{day}");
            }
        }
        assert_eq!(date_time("9999-12-31T24:00:00Z"), None);
    }
}
