//! Dates of messages, and of search keys.

use std::time::{SystemTime, UNIX_EPOCH};

const MONTHS: [&str; 12] = [
    "Jan", "Feb", "Mar", "Apr", "May", "Jun", "Jul", "Aug", "Sep", "Oct", "Nov", "Dec",
];

/// Days from 1 March of year 0 to 1 January 1970. Years are counted from March, so that a leap day is a year's last.
const EPOCH: i64 = 719_468;

/// Days since 1970 of a text that begins with day, month and year.
pub fn day(text: &str) -> Option<i64> {
    let mut parts = text.trim().split(['-', ' ']);
    let day: i64 = parts.next()?.parse().ok()?;
    let month = parts.next()?;
    let month = MONTHS.iter().position(|m| m.eq_ignore_ascii_case(month))? as i64;
    let year: i64 = parts.next()?.parse().ok()?;
    if !(1..=31).contains(&day) || !(0..=9999).contains(&year) {
        return None;
    }
    let (year, month) = match month {
        0 | 1 => (year - 1, month + 10),
        _ => (year, month - 2),
    };
    let leap_days = year.div_euclid(4) - year.div_euclid(100) + year.div_euclid(400);
    Some(year * 365 + leap_days + (153 * month + 2) / 5 + day - 1 - EPOCH)
}

/// Whether a text is a date-time of the protocol, ` 1-Jan-2026 00:00:00 +0000`.
pub fn is_date_time(text: &str) -> bool {
    let shape = text.bytes().map(|octet| match octet {
        b'0'..=b'9' => b'0',
        b'A'..=b'Z' | b'a'..=b'z' => b'a',
        _ => octet,
    });
    let shape: Vec<u8> = shape.collect();
    let zone = text.len() == 26 && matches!(text.as_bytes()[21], b'+' | b'-');
    let first = matches!(text.as_bytes().first(), Some(b' ' | b'0'..=b'9'));
    zone && first
        && shape[1..21] == *b"0-aaa-0000 00:00:00 "
        && shape[22..] == *b"0000"
        && day(text).is_some()
}

/// The date-time of this moment.
pub fn now() -> String {
    let seconds = SystemTime::now()
        .duration_since(UNIX_EPOCH)
        .map_or(0, |since| since.as_secs());
    let days = (seconds / 86400) as i64;
    let mut year = 1970 + days / 366;
    while first_of(year + 1, 0) <= days {
        year += 1;
    }
    let month = (0..12)
        .rev()
        .find(|&m| first_of(year, m) <= days)
        .unwrap_or(0);
    let day = days - first_of(year, month) + 1;
    let (hour, minute, second) = (seconds / 3600 % 24, seconds / 60 % 60, seconds % 60);
    let month = MONTHS[month];
    format!("{day:02}-{month}-{year:04} {hour:02}:{minute:02}:{second:02} +0000")
}

fn first_of(year: i64, month: usize) -> i64 {
    day(&format!("1-{}-{year}", MONTHS[month])).unwrap_or(i64::MAX)
}

#[cfg(test)]
mod tests {
    use super::*;

    #[test]
    fn days() {
        assert_eq!(day("1-Jan-1970"), Some(0));
        assert_eq!(day("29-Feb-2000 01:02:03"), Some(11_016));
        assert_eq!(day("31-Dec-2026"), Some(20_818));
        assert_eq!(day("1-Foo-2026"), None);
        assert!(is_date_time(&now()));
        assert!(is_date_time(" 1-Nov-2026 10:00:00 -0130"));
        assert!(!is_date_time("01-Nov-2026 10:00:00 \"0130"));
        assert!(!is_date_time("1-Nov-2026 10:00:00 +0130"));
    }
}
