use std::collections::HashSet;
use std::fs;
use std::path::PathBuf;

use super::*;
use crate::reserve::{BLOCK, PATIENCE};

const DAY: u32 = 86_400_000;

/// A folder of the test's own, which is gone at its end.
struct Folder(PathBuf);

impl Folder {
    fn new(name: &str) -> Folder {
        let path = std::env::temp_dir().join(format!("birken-epmd-{}-{name}", std::process::id()));
        let _ = fs::remove_dir_all(&path);
        Folder(path)
    }
}

impl Drop for Folder {
    fn drop(&mut self) {
        let _ = fs::remove_dir_all(&self.0);
    }
}

#[test]
fn steps_come_round_without_zero() {
    assert_eq!(after(1, 1), 2);
    assert_eq!(after(u32::MAX, 1), 1);
    assert_eq!(after(u32::MAX - 1, 1), u32::MAX);
    assert_eq!(after(u32::MAX, BLOCK), BLOCK);
    for (from, steps) in [(1, 0), (1, 5), (u32::MAX, 1), (u32::MAX - 3, 9), (77, DAY)] {
        assert_eq!(distance(from, after(from, steps)), steps, "{from}");
    }
    let mut one_by_one = u32::MAX - 2;
    for _ in 0..7 {
        one_by_one = after(one_by_one, 1);
    }
    assert_eq!(one_by_one, after(u32::MAX - 2, 7));
}

#[test]
fn a_start_takes_the_greater_by_the_shorter_way_round() {
    for (mark, clock, start) in [
        (1000, 1000, 1000),
        (1000, 1001, 1001),
        (1001, 1000, 1001),
        // The clock was set back by a day, or was off for a day.
        (2 * DAY, DAY, 2 * DAY),
        (DAY, 2 * DAY, 2 * DAY),
        // The same where the numbers come round.
        (5, u32::MAX - 5, 5),
        (u32::MAX - 5, 5, 5),
        (1, u32::MAX, 1),
        (u32::MAX, 1, 1),
        (DAY / 2, after(DAY / 2, u32::MAX - DAY), DAY / 2),
    ] {
        assert_eq!(later(mark, clock), start, "mark {mark}, clock {clock}");
    }
}

#[test]
fn by_the_clock_a_number_is_given_when_the_clock_has_passed_it() {
    let start = Instant::now();
    let mut creations = Creations::by_clock(u32::MAX, start);
    let millis = |count| start + TICK * count;
    assert_eq!(creations.may_give(start).0, May::Later(millis(1)));
    assert_eq!(creations.may_give(millis(1)).0, May::Now);
    assert_eq!(creations.give(), u32::MAX);
    assert_eq!(creations.may_give(millis(1)).0, May::Later(millis(2)));
    // Who waited has them in a row, and never more than there were milliseconds.
    let mut given = 1;
    while creations.may_give(millis(500)).0 == May::Now {
        creations.give();
        given += 1;
    }
    assert_eq!((given, creations.next()), (500, 500));
}

/// Crashes at any number, and in the middle of writing the mark aside: 2 million numbers, none
/// twice.
#[test]
fn two_million_numbers_over_crashes_and_none_comes_again() {
    const NUMBERS: usize = 2_000_000;
    let folder = Folder::new("crashes");
    let now = Instant::now();
    let (mut seen, mut round) = (HashSet::with_capacity(NUMBERS), 0u64);
    while seen.len() < NUMBERS {
        // The clock stands still, so that the mark alone keeps the numbers apart; it begins where
        // they come round.
        let mut creations = Creations::marked(&folder.0, u32::MAX - 300_000).unwrap();
        round += 1;
        for _ in 0..(round * 2_654_435_761) % 60_000 {
            while creations.may_give(now).0 != May::Now {
                std::thread::yield_now();
            }
            assert!(seen.insert(creations.give()), "given again");
        }
        drop(creations);
        fs::write(folder.0.join("next-creation.new"), "birken-epmd 1 next").unwrap();
    }
    assert!(round > 20 && !seen.contains(&0));
}

#[test]
fn an_end_in_order_spends_nothing() {
    let folder = Folder::new("end");
    for first in [77, 78, 79] {
        let mut creations = Creations::marked(&folder.0, 77).unwrap();
        assert_eq!(creations.next(), first);
        assert_eq!(creations.may_give(Instant::now()).0, May::Now);
        assert_eq!(creations.give(), first);
        creations.end().unwrap();
    }
}

#[test]
fn a_disk_that_fails_is_told_of_once_a_second_and_numbers_end_with_the_block() {
    let folder = Folder::new("disk");
    let start = Instant::now();
    let mut creations = Creations::marked(&folder.0, 1).unwrap();
    // Nothing can be written where a folder stands in the way.
    fs::create_dir(folder.0.join("next-creation.new")).unwrap();
    let (mut errors, mut given) = (0, 0);
    loop {
        let (may, error) = creations.may_give(start);
        errors += usize::from(error.is_some());
        match may {
            May::Now => {
                creations.give();
                given += 1;
            }
            May::Later(_) => std::thread::yield_now(),
            May::Never => break,
        }
    }
    assert_eq!((errors, given), (1, BLOCK));
    assert_eq!(creations.may_give(start + PATIENCE / 2).0, May::Never);
    fs::remove_dir(folder.0.join("next-creation.new")).unwrap();
    let later = start + 2 * PATIENCE;
    while creations.may_give(later).0 != May::Now {
        assert_ne!(creations.may_give(later).0, May::Never);
    }
    assert_eq!(creations.give(), BLOCK + 1);
}

#[test]
fn a_folder_serves_one_mapper_at_a_time() {
    let folder = Folder::new("lock");
    let first = Creations::marked(&folder.0, 1).unwrap();
    let message = Creations::marked(&folder.0, 1).err().unwrap().to_string();
    assert!(message.contains("--state-dir"), "{message}");
    drop(first);
    assert!(Creations::marked(&folder.0, 1).is_ok());
}
