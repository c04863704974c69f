//! The date, in universal time, from the seconds since 1970.

use std::time::{SystemTime, UNIX_EPOCH};

const DAY: u64 = 86_400;
const HOUR: u64 = 3_600;
const MINUTE: u64 = 60;

fn leap(year: u64) -> bool {
    year.is_multiple_of(4) && (!year.is_multiple_of(100) || year.is_multiple_of(400))
}

fn days_of_months(year: u64) -> [u64; 12] {
    let february = if leap(year) { 29 } else { 28 };
    [31, february, 31, 30, 31, 30, 31, 31, 30, 31, 30, 31]
}

/// Year, month and day, the last two from 1.
fn civil(mut days: u64) -> (u64, u64, u64) {
    for year in 1970.. {
        for (month, length) in (1..).zip(days_of_months(year)) {
            if days < length {
                return (year, month, days + 1);
            }
            days -= length;
        }
    }
    unreachable!("years go on")
}

fn told(seconds: u64) -> String {
    let (year, month, day) = civil(seconds / DAY);
    let (hour, minute) = (seconds % DAY / HOUR, seconds % HOUR / MINUTE);
    format!("{year}-{month:02}-{day:02} {hour:02}:{minute:02} UTC")
}

/// The date and time of now.
pub fn now() -> String {
    let since = SystemTime::now().duration_since(UNIX_EPOCH);
    told(since.map_or(0, |since| since.as_secs()))
}

#[cfg(test)]
mod tests {
    use super::told;

    #[test]
    fn days_of_leap_years_and_others() {
        assert_eq!(told(0), "1970-01-01 00:00 UTC");
        assert_eq!(told(951_782_400), "2000-02-29 00:00 UTC");
        assert_eq!(told(1_709_251_199), "2024-02-29 23:59 UTC");
        assert_eq!(told(4_107_542_400), "2100-03-01 00:00 UTC");
    }
}
