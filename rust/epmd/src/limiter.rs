//! Each kind of log line is limited, since a stranger can bring about most of them at will. How many
//! were left out is counted, and told once a second.

use std::time::{Duration, Instant};

/// Of each kind, lines in a window.
pub const LINES: u32 = 50;
pub const WINDOW: Duration = Duration::from_secs(1);

#[derive(Default)]
pub struct Limiter {
    kinds: Vec<Kind>,
}

struct Kind {
    event: &'static str,
    /// When the window began.
    since: Instant,
    said: u32,
    left_out: u64,
}

/// Lines of a kind that were left out.
#[derive(Debug, PartialEq, Eq)]
pub struct LeftOut {
    pub event: &'static str,
    pub lines: u64,
}

impl Limiter {
    /// Whether a line about `event` may be said; if not, it is counted.
    pub fn admits(&mut self, event: &'static str, now: Instant) -> bool {
        let kind = self.kind(event, now);
        // While lines are left out the window ends in `take_due`, which tells how many.
        if now >= kind.since + WINDOW && kind.left_out == 0 {
            (kind.since, kind.said) = (now, 0);
        }
        let admitted = kind.said < LINES;
        if admitted {
            kind.said += 1;
        } else {
            kind.left_out += 1;
        }
        admitted
    }

    /// When there is something to tell of lines left out.
    pub fn due(&self) -> Option<Instant> {
        let silenced = self.kinds.iter().filter(|kind| kind.left_out > 0);
        silenced.map(|kind| kind.since + WINDOW).min()
    }

    /// What is to be told now, and is then told; a new window begins.
    pub fn take_due(&mut self, now: Instant) -> Vec<LeftOut> {
        self.take(|kind| now >= kind.since + WINDOW, now)
    }

    /// What is still to be told, at the end.
    pub fn take_all(&mut self, now: Instant) -> Vec<LeftOut> {
        self.take(|_| true, now)
    }

    /// Could not be told after all.
    pub fn put_back(&mut self, it: &LeftOut) {
        if let Some(kind) = self.kinds.iter_mut().find(|kind| kind.event == it.event) {
            kind.left_out += it.lines;
        }
    }

    fn take(&mut self, due: impl Fn(&Kind) -> bool, now: Instant) -> Vec<LeftOut> {
        let silenced = self.kinds.iter_mut().filter(|kind| kind.left_out > 0);
        silenced
            .filter(|kind| due(kind))
            .map(|kind| {
                (kind.since, kind.said) = (now, 0);
                LeftOut {
                    event: kind.event,
                    lines: std::mem::take(&mut kind.left_out),
                }
            })
            .collect()
    }

    fn kind(&mut self, event: &'static str, now: Instant) -> &mut Kind {
        let at = self.kinds.iter().position(|kind| kind.event == event);
        let at = at.unwrap_or_else(|| {
            self.kinds.push(Kind {
                event,
                since: now,
                said: 0,
                left_out: 0,
            });
            self.kinds.len() - 1
        });
        &mut self.kinds[at]
    }
}

#[cfg(test)]
mod tests {
    use super::*;

    fn left_out(event: &'static str, lines: u64) -> LeftOut {
        LeftOut { event, lines }
    }

    #[test]
    fn fifty_of_a_kind_in_a_second_and_then_their_count() {
        let start = Instant::now();
        let after = |millis| start + Duration::from_millis(millis);
        let mut limiter = Limiter::default();
        let said = (0..1538).filter(|_| limiter.admits("refused", after(0)));
        assert_eq!(said.count(), 50);
        assert!(limiter.admits("left", after(1)));
        assert_eq!(limiter.due(), Some(after(1000)));
        assert_eq!(limiter.take_due(after(999)), []);
        // Nothing has followed, and it is told all the same, once.
        assert_eq!(limiter.take_due(after(1000)), [left_out("refused", 1488)]);
        limiter.put_back(&left_out("refused", 1488));
        assert_eq!(limiter.take_due(after(1999)), []);
        assert_eq!(limiter.take_due(after(2000)), [left_out("refused", 1488)]);
        assert_eq!(
            (limiter.due(), limiter.take_due(after(3000))),
            (None, vec![])
        );
    }

    #[test]
    fn what_comes_late_is_counted_with_the_others_before_a_new_window() {
        let start = Instant::now();
        let after = |millis| start + Duration::from_millis(millis);
        let mut limiter = Limiter::default();
        for _ in 0..51 {
            limiter.admits("refused", after(0));
        }
        assert!(!limiter.admits("refused", after(1500)));
        assert_eq!(limiter.take_due(after(1500)), [left_out("refused", 2)]);
        let said = (0..60).filter(|_| limiter.admits("refused", after(1501)));
        assert_eq!(said.count(), 50);
        assert_eq!(limiter.take_all(after(1502)), [left_out("refused", 10)]);
    }

    #[test]
    fn a_window_without_any_left_out_is_followed_by_another() {
        let start = Instant::now();
        let mut limiter = Limiter::default();
        for second in 0..5 {
            let now = start + WINDOW * second;
            assert!((0..50).all(|_| limiter.admits("refused", now)));
        }
        assert_eq!(limiter.due(), None);
    }
}
