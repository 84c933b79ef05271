//! Times and spans of time, in ms.

use std::time::{SystemTime, UNIX_EPOCH};

use crate::error::Error;
use crate::text;

const SECOND: u64 = 1_000;
const MINUTE: u64 = 60 * SECOND;
const HOUR: u64 = 60 * MINUTE;
pub const DAY: u64 = 24 * HOUR;

/// The machine's time since the start of 1970.
pub fn now() -> Result<u64, Error> {
    let since = SystemTime::now().duration_since(UNIX_EPOCH).ok();
    let ms = since.and_then(|since| u64::try_from(since.as_millis()).ok());
    ms.ok_or(Error::Clock)
}

/// A span in ms, or with s, m, h or d behind it in seconds, minutes, hours or days.
pub fn span(word: &str) -> Option<u64> {
    let units = [('s', SECOND), ('m', MINUTE), ('h', HOUR), ('d', DAY)];
    let unit = units
        .iter()
        .find_map(|(letter, ms)| Some((word.strip_suffix(*letter)?, *ms)));
    let (digits, ms) = unit.unwrap_or((word, 1));
    text::number::<u64>("", digits).ok()?.checked_mul(ms)
}

/// A span in whole days, hours, minutes or seconds: the longest of these that it has at least one of.
pub fn about(ms: u64) -> String {
    let units = [(DAY, "day"), (HOUR, "hour"), (MINUTE, "minute")];
    let unit = units.into_iter().find(|(unit, _)| ms >= *unit);
    let (unit, word) = unit.unwrap_or((SECOND, "second"));
    match ms / unit {
        1 => format!("1 {word}"),
        count => format!("{count} {word}s"),
    }
}

/// A time as date and time of day, UTC; behind the year 9999 in ms.
pub fn shown(ms: u64) -> String {
    let (day, of_day) = (ms / DAY, ms % DAY);
    let Some((year, month, day)) = date(day) else {
        return format!("{ms} ms");
    };
    let (hour, minute) = (of_day / HOUR, of_day % HOUR / MINUTE);
    let (second, ms) = (of_day % MINUTE / SECOND, of_day % SECOND);
    format!("{year}-{month:02}-{day:02} {hour:02}:{minute:02}:{second:02}.{ms:03}")
}

/// Year, month and day of a day, counted from the start of 1970, up to the year 9999.
fn date(day: u64) -> Option<(u64, usize, u64)> {
    let mut day = day;
    for year in 1970..=9999 {
        let february = if is_leap(year) { 29 } else { 28 };
        for (days, month) in [31, february, 31, 30, 31, 30, 31, 31, 30, 31, 30, 31]
            .into_iter()
            .zip(1..)
        {
            if day < days {
                return Some((year, month, day + 1));
            }
            day -= days;
        }
    }
    None
}

fn is_leap(year: u64) -> bool {
    year.is_multiple_of(4) && !year.is_multiple_of(100) || year.is_multiple_of(400)
}

#[cfg(test)]
mod tests {
    use super::*;

    #[test]
    fn times_are_dates() {
        let times = [
            (0, "1970-01-01 00:00:00.000"),
            (1_999, "1970-01-01 00:00:01.999"),
            (951_782_400_000, "2000-02-29 00:00:00.000"),
            (951_868_800_000, "2000-03-01 00:00:00.000"),
            (1_000_000_000_000, "2001-09-09 01:46:40.000"),
            (4_107_542_399_999, "2100-02-28 23:59:59.999"),
            (4_107_542_400_000, "2100-03-01 00:00:00.000"),
            (253_402_300_799_999, "9999-12-31 23:59:59.999"),
            (253_402_300_800_000, "253402300800000 ms"),
            (u64::MAX, "18446744073709551615 ms"),
        ];
        for (ms, text) in times {
            assert_eq!(shown(ms), text);
        }
    }

    #[test]
    fn spans_in_words() {
        let spans = [
            (0, "0 seconds"),
            (1_999, "1 second"),
            (59_999, "59 seconds"),
            (60_000, "1 minute"),
            (600_000, "10 minutes"),
            (7_200_000, "2 hours"),
            (172_799_999, "1 day"),
            (u64::MAX, "213503982334 days"),
        ];
        for (ms, text) in spans {
            assert_eq!(about(ms), text);
        }
    }

    #[test]
    fn spans() {
        let spans = [
            ("0", Some(0)),
            ("1500", Some(1_500)),
            ("90s", Some(90_000)),
            ("5m", Some(300_000)),
            ("2h", Some(7_200_000)),
            ("7d", Some(604_800_000)),
            ("213503982334d", Some(18_446_744_073_657_600_000)),
            ("213503982335d", None),
            ("18446744073709551616", None),
            ("", None),
            ("h", None),
            ("-1", None),
            ("1 h", None),
            ("1w", None),
            ("1hh", None),
        ];
        for (word, ms) in spans {
            assert_eq!(span(word), ms, "{word}");
        }
    }
}
