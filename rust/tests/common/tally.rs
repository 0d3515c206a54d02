//! Counts what a test has reached, so that one that no longer reaches something fails.

use std::collections::BTreeMap;

#[derive(Default)]
pub struct Tally(BTreeMap<String, u64>);

impl Tally {
    pub fn count(&mut self, what: impl AsRef<str>) {
        let what = what.as_ref();
        match self.0.get_mut(what) {
            Some(times) => *times += 1,
            None => {
                self.0.insert(what.to_string(), 1);
            }
        }
    }

    pub fn add(&mut self, other: Tally) {
        for (what, times) in other.0 {
            *self.0.entry(what).or_default() += times;
        }
    }

    pub fn times(&self, what: &str) -> u64 {
        self.0.get(what).copied().unwrap_or(0)
    }

    pub fn print(&self) {
        for (what, times) in &self.0 {
            println!("{times:>10}  {what}");
        }
    }

    pub fn assert_seen<T: AsRef<str>>(&self, whats: impl IntoIterator<Item = T>) {
        let missing: Vec<T> = whats
            .into_iter()
            .filter(|what| self.times(what.as_ref()) == 0)
            .collect();
        let missing: Vec<&str> = missing.iter().map(AsRef::as_ref).collect();
        assert!(missing.is_empty(), "never reached: {missing:?}");
    }

    /// Seen at least so many times in a thousand of something else.
    pub fn assert_share(&self, what: &str, in_1000: u64, of: &str) {
        let (times, all) = (self.times(what), self.times(of));
        assert!(
            all > 0 && times * 1000 >= all * in_1000,
            "{what}: {times} of {all} {of}, less than {in_1000} in 1000"
        );
    }

    pub fn assert_nothing_but<'a>(&self, whats: impl IntoIterator<Item = &'a str>) {
        let whats: Vec<&str> = whats.into_iter().collect();
        let others = self.0.keys().filter(|seen| !whats.contains(&seen.as_str()));
        let others: Vec<&String> = others.collect();
        assert!(others.is_empty(), "not to be reached: {others:?}");
    }
}
