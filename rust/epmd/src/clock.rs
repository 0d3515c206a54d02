//! The time of day: for log lines, and as the source of a first creation.

use std::time::{Duration, SystemTime, UNIX_EPOCH};

fn since_1970() -> Duration {
    SystemTime::now()
        .duration_since(UNIX_EPOCH)
        .unwrap_or_default()
}

/// The time as `2026-11-16T00:39:29Z`.
pub fn stamp() -> String {
    format(since_1970().as_secs())
}

/// A first creation that a mapper started before has not given yet.
pub fn first_creation() -> u32 {
    creation_at(since_1970())
}

/// Milliseconds, cut to 32 bits, and never 0. A mapper steps its creation with each registration,
/// so as long as there are fewer than a thousand of them a second, the clock of a restart is ahead
/// of all that was given.
fn creation_at(time: Duration) -> u32 {
    (time.as_millis() as u32).max(1)
}

/// The date by the calendar's cycle of 400 years, counted from a 1st of March so that the leap day
/// comes last.
fn format(seconds: u64) -> String {
    let (days, second) = (seconds / 86_400 + 719_468, seconds % 86_400);
    let (cycle, day) = (days / 146_097, days % 146_097);
    let year = (day - day / 1_460 + day / 36_524 - day / 146_096) / 365;
    let day = day - (365 * year + year / 4 - year / 100);
    let month = (5 * day + 2) / 153;
    let date = day - (153 * month + 2) / 5 + 1;
    let (month, turn) = if month < 10 {
        (month + 3, 0)
    } else {
        (month - 9, 1)
    };
    let year = 400 * cycle + year + turn;
    let (hour, minute, second) = (second / 3_600, second / 60 % 60, second % 60);
    format!("{year:04}-{month:02}-{date:02}T{hour:02}:{minute:02}:{second:02}Z")
}

#[cfg(test)]
mod tests {
    use super::*;

    #[test]
    fn dates_at_the_turns_of_the_calendar() {
        for (seconds, text) in [
            (0, "1970-01-01T00:00:00Z"),
            (951_782_399, "2000-02-28T23:59:59Z"),
            (951_782_400, "2000-02-29T00:00:00Z"),
            (1_709_251_199, "2024-02-29T23:59:59Z"),
            (1_709_251_200, "2024-03-01T00:00:00Z"),
            (1_735_689_599, "2024-12-31T23:59:59Z"),
            (1_794_789_569, "2026-11-16T00:39:29Z"),
            (4_107_542_400, "2100-03-01T00:00:00Z"),
        ] {
            assert_eq!(format(seconds), text);
        }
    }

    #[test]
    fn creations_follow_the_clock_and_are_never_zero() {
        assert_eq!(creation_at(Duration::ZERO), 1);
        assert_eq!(creation_at(Duration::from_millis(77)), 77);
        assert_eq!(creation_at(Duration::from_millis((1 << 32) - 1)), u32::MAX);
        assert_eq!(creation_at(Duration::from_millis(1 << 32)), 1);
        assert_eq!(creation_at(Duration::from_millis((5 << 32) + 9)), 9);
    }
}
