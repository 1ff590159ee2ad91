//! Ticks as wall-clock times: `--start TIME --tick SECONDS`. Tick 1 is at the start.

const NANOS: i128 = 1_000_000_000;
const DAY: i128 = 86_400 * NANOS;

/// A time zone's own words stay as they are given: no time is carried from one zone to another.
#[derive(Clone, Debug, PartialEq, Eq)]
pub struct Clock {
    /// Nanoseconds from 1970-01-01 00:00:00 of the zone.
    start: i128,
    /// Nanoseconds of a tick, and as they are given in seconds.
    tick: i128,
    seconds: String,
    zone: String,
    /// The digits after the point that a time needs.
    decimals: usize,
}

/// Digits alone, as many as this.
fn digits(word: &str, count: usize) -> Option<i128> {
    let plain = word.len() == count && word.bytes().all(|byte| byte.is_ascii_digit());
    word.parse().ok().filter(|_| plain)
}

/// Seconds in nanoseconds, and how many digits stand after the point, at most 9.
fn nanos(word: &str) -> Option<(i128, usize)> {
    let (whole, part) = word.split_once('.').unwrap_or((word, ""));
    let fine = part.len() <= 9 && !(word.contains('.') && part.is_empty());
    let whole = digits(whole, whole.len()).filter(|_| !whole.is_empty() && whole.len() <= 10)?;
    let part = match part {
        "" => 0,
        _ => digits(part, part.len())? * 10i128.pow(9 - part.len().min(9) as u32),
    };
    let count = word.split_once('.').map_or(0, |(_, part)| part.len());
    fine.then_some((whole * NANOS + part, count))
}

/// The days from 1970-01-01 to a date of the Gregorian calendar, whose year begins in March, so that a leap day ends it.
fn days(year: i128, month: i128, day: i128) -> i128 {
    let year = if month > 2 { year } else { year - 1 };
    let of_year = (153 * ((month + 9) % 12) + 2) / 5 + day - 1;
    let leap = year.div_euclid(4) - year.div_euclid(100) + year.div_euclid(400);
    365 * year + leap + of_year - 719_468
}

/// The date of a day: the inverse.
fn date(days: i128) -> (i128, i128, i128) {
    let days = days + 719_468;
    let era = days.div_euclid(146_097);
    let of_era = days.rem_euclid(146_097);
    let year = (of_era - of_era / 1_460 + of_era / 36_524 - of_era / 146_096) / 365;
    let of_year = of_era - (365 * year + year / 4 - year / 100);
    let month = (5 * of_year + 2) / 153;
    let day = of_year - (153 * month + 2) / 5 + 1;
    let month = if month < 10 { month + 3 } else { month - 9 };
    (era * 400 + year + i128::from(month <= 2), month, day)
}

fn parse_date(word: &str) -> Option<i128> {
    let parts: Vec<&str> = word.split('-').collect();
    let (year, month, day) = match parts[..] {
        [year, month, day] => (digits(year, 4)?, digits(month, 2)?, digits(day, 2)?),
        _ => return None,
    };
    let days = days(year, month, day);
    (date(days) == (year, month, day)).then_some(days)
}

/// The time of a day: `04:00`, `04:00:30` or `04:00:30.5`.
fn parse_time(word: &str) -> Option<(i128, usize)> {
    let parts: Vec<&str> = word.split(':').collect();
    let (hour, minute, seconds) = match parts[..] {
        [hour, minute] => (hour, minute, "00"),
        [hour, minute, seconds] => (hour, minute, seconds),
        _ => return None,
    };
    let (hour, minute) = (digits(hour, 2)?, digits(minute, 2)?);
    let (nanos, decimals) = nanos(seconds)?;
    let right = hour < 24 && minute < 60 && nanos < 60 * NANOS;
    let two = seconds.split('.').next().map_or(false, |s| s.len() == 2);
    (right && two).then_some(((hour * 60 + minute) * 60 * NANOS + nanos, decimals))
}

/// What stands after the time: Z, a distance as +01:00, or nothing.
fn parse_zone(word: &str) -> Option<(&str, &str)> {
    if let Some(time) = word.strip_suffix('Z') {
        return Some((time, "Z"));
    }
    match word.rfind(['+', '-']) {
        None => Some((word, "")),
        Some(at) => {
            let (time, zone) = word.split_at(at);
            parse_time(&zone[1..]).filter(|_| zone.len() == 6)?;
            Some((time, zone))
        }
    }
}

fn parse_start(word: &str) -> Option<(i128, usize, &str)> {
    let (date, rest) = word.split_once(['T', ' '])?;
    let (time, zone) = parse_zone(rest)?;
    let (nanos, decimals) = parse_time(time)?;
    Some((parse_date(date)? * DAY + nanos, decimals, zone))
}

impl Clock {
    /// The words after `--start` and `--tick`.
    pub fn parse(start: &str, seconds: &str) -> Result<Clock, String> {
        let (from, first, zone) = parse_start(start)
            .ok_or_else(|| format!("--start wants a time, as 2026-03-01T04:00:00Z, not {start}"))?;
        let (tick, second) = nanos(seconds)
            .filter(|(nanos, _)| *nanos > 0)
            .ok_or_else(|| format!("--tick wants seconds over 0, as 0.001, not {seconds}"))?;
        Ok(Clock {
            start: from,
            tick,
            seconds: seconds.to_string(),
            zone: zone.to_string(),
            decimals: first.max(second),
        })
    }

    fn at(&self, tick: u64) -> i128 {
        self.start + (i128::from(tick) - 1) * self.tick
    }

    fn date(&self, nanos: i128) -> String {
        let (year, month, day) = date(nanos.div_euclid(DAY));
        format!("{year:04}-{month:02}-{day:02}")
    }

    fn time(&self, nanos: i128) -> String {
        let nanos = nanos.rem_euclid(DAY);
        let seconds = nanos / NANOS;
        let (hour, minute, second) = (seconds / 3600, seconds / 60 % 60, seconds % 60);
        let part = match self.decimals {
            0 => String::new(),
            count => format!(".{}", &format!("{:09}", nanos % NANOS)[..count]),
        };
        format!("{hour:02}:{minute:02}:{second:02}{part}")
    }

    /// Date and time of a tick, without the zone.
    pub fn whole(&self, tick: u64) -> String {
        let at = self.at(tick);
        format!("{} {}", self.date(at), self.time(at))
    }

    /// The same as one word, with the zone.
    pub fn stamp(&self, tick: u64) -> String {
        let at = self.at(tick);
        format!("{}T{}{}", self.date(at), self.time(at), self.zone)
    }

    /// The time of a tick; with the date where that is not the one of the start.
    pub fn short(&self, tick: u64) -> String {
        let at = self.at(tick);
        match at.div_euclid(DAY) == self.start.div_euclid(DAY) {
            true => self.time(at),
            false => self.whole(tick),
        }
    }

    /// The seconds of a tick, as they were given.
    pub fn seconds(&self) -> &str {
        &self.seconds
    }

    /// What the times go by.
    pub fn words(&self) -> String {
        let (whole, zone, seconds) = (self.whole(1), &self.zone, &self.seconds);
        format!("tick 1 at {whole}{zone}, {seconds} s a tick")
    }
}

#[cfg(test)]
mod tests {
    use super::*;

    #[test]
    fn ticks_have_their_times() {
        let clock = Clock::parse("2024-02-28T23:59:59.5Z", "0.25").expect("a clock");
        assert_eq!(clock.whole(1), "2024-02-28 23:59:59.50");
        assert_eq!(clock.short(2), "23:59:59.75");
        assert_eq!(clock.short(3), "2024-02-29 00:00:00.00");
        assert_eq!(clock.stamp(3), "2024-02-29T00:00:00.00Z");
        let words = "tick 1 at 2024-02-28 23:59:59.50Z, 0.25 s a tick";
        assert_eq!(clock.words(), words);
        let clock = Clock::parse("2026-03-01 04:00", "86400").expect("a clock");
        assert_eq!(clock.whole(366), "2027-03-01 04:00:00");
        assert_eq!(clock.short(1), "04:00:00");
        let clock = Clock::parse("1999-12-31T00:00:00+05:30", "9999999999").expect("a clock");
        assert!(clock.stamp(u64::MAX).ends_with("+05:30"));
    }

    #[test]
    fn every_day_has_its_date() {
        let mut last = (1599, 12, 31);
        for day in days(1600, 1, 1)..days(2401, 1, 1) {
            let (year, month, of_month) = date(day);
            assert_eq!(days(year, month, of_month), day);
            let next = match last {
                (y, m, d) if (y, m, d + 1) == (year, month, of_month) => true,
                (y, m, _) if (y, m + 1, 1) == (year, month, of_month) => true,
                (y, 12, 31) => (y + 1, 1, 1) == (year, month, of_month),
                _ => false,
            };
            assert!(next, "{last:?}");
            last = (year, month, of_month);
        }
        assert_eq!(date(0), (1970, 1, 1));
    }

    #[test]
    fn what_is_no_time_is_told() {
        for start in [
            "",
            "2026-03-01",
            "04:00:00",
            "2026-3-1T04:00:00",
            "2026-02-29T04:00:00",
            "2026-13-01T04:00:00",
            "2026-03-01T24:00:00",
            "2026-03-01T04:60:00",
            "2026-03-01T04:00:60",
            "2026-03-01T04:00:5",
            "2026-03-01T04:00:00.",
            "2026-03-01T04:00:00.1234567890",
            "2026-03-01T04:00:00+1",
            "2026-03-01T04:00:00 CET",
            "+026-03-01T04:00:00",
        ] {
            assert!(Clock::parse(start, "1").is_err(), "{start}");
        }
        for seconds in [
            "",
            "0",
            "0.0",
            "-1",
            "1e3",
            ".5",
            "1.",
            "0.0000000001",
            "99999999999",
        ] {
            let clock = Clock::parse("2026-03-01T04:00:00", seconds);
            assert!(clock.is_err(), "{seconds}");
        }
    }
}
