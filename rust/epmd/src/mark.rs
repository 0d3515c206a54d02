//! The high-water mark of creations, in a file: every number before it may have been given, none
//! from it on has been.

use std::fs::{DirBuilder, File, OpenOptions};
use std::io::{self, Read, Write};
use std::os::unix::fs::DirBuilderExt;
use std::path::{Path, PathBuf};

use crate::sys;

const NAME: &str = "next-creation";
/// Written whole before it takes the mark's place. What a crash leaves of it is written over.
const ASIDE: &str = "next-creation.new";
const LOCK: &str = "lock";
/// More than a mark has, so that a file that is none is not read to its end.
const LONGEST: u64 = 200;

pub struct Mark {
    folder: PathBuf,
    /// The folder itself: a file that was renamed is sure to stay so only when this is on disk.
    entries: File,
}

/// As long as there is this, no other process has the mark: two mappers with one would give the
/// same numbers.
pub struct Lock(#[expect(dead_code, reason = "closed at the end")] File);

impl Mark {
    /// The mark in a folder, which is made if there is none, and the number that it holds, if one
    /// was ever written.
    pub fn open(folder: &Path) -> io::Result<(Mark, Lock, Option<u32>)> {
        let about = |what: &str, error: io::Error| {
            io::Error::other(format!("{what} {}: {error}", folder.display()))
        };
        make_folder(folder).map_err(|error| about("cannot make the state folder", error))?;
        let entries = File::open(folder).map_err(|error| about("cannot open", error))?;
        let lock = lock_in(folder)?;
        let mark = Mark {
            folder: folder.to_path_buf(),
            entries,
        };
        let number = mark.read()?;
        Ok((mark, lock, number))
    }

    fn read(&self) -> io::Result<Option<u32>> {
        let path = self.folder.join(NAME);
        let mut text = Vec::new();
        match File::open(&path).and_then(|file| file.take(LONGEST).read_to_end(&mut text)) {
            Err(error) if error.kind() == io::ErrorKind::NotFound => return Ok(None),
            Err(error) => {
                let message = format!("cannot read the mark {}: {error}", path.display());
                return Err(io::Error::other(message));
            }
            Ok(_) => {}
        }
        let number = parse(&text).ok_or_else(|| {
            io::Error::other(format!(
                "the mark {} is damaged, so nothing tells which creations were given; \
                 restore it, or remove it when no node of an earlier run is up",
                path.display()
            ))
        })?;
        Ok(Some(number))
    }

    /// Moves the mark. When this has returned without an error, a crash does not undo it.
    pub fn write(&self, number: u32) -> io::Result<()> {
        let (aside, path) = (self.folder.join(ASIDE), self.folder.join(NAME));
        let outcome = File::create(&aside)
            .and_then(|mut file| {
                file.write_all(text(number).as_bytes())?;
                file.sync_all()
            })
            .and_then(|()| std::fs::rename(&aside, &path))
            .and_then(|()| self.entries.sync_all());
        outcome.map_err(|error| {
            io::Error::other(format!("cannot write the mark {}: {error}", path.display()))
        })
    }
}

fn make_folder(folder: &Path) -> io::Result<()> {
    if folder.is_dir() {
        return Ok(());
    }
    DirBuilder::new()
        .recursive(true)
        .mode(0o700)
        .create(folder)?;
    match folder.parent() {
        Some(parent) if parent.is_dir() => File::open(parent)?.sync_all(),
        _ => Ok(()),
    }
}

fn lock_in(folder: &Path) -> io::Result<Lock> {
    let path = folder.join(LOCK);
    let about = |why: &dyn std::fmt::Display| {
        io::Error::other(format!("cannot lock {}: {why}", path.display()))
    };
    let mut options = OpenOptions::new();
    let file = options.create(true).truncate(false).write(true).open(&path);
    let file = file.map_err(|error| about(&error))?;
    match sys::lock(&file) {
        Ok(true) => Ok(Lock(file)),
        Ok(false) => Err(about(
            &"another birken-epmd keeps its mark there; --state-dir names another folder",
        )),
        Err(error) => Err(about(&error)),
    }
}

/// One line with a sum over it, so that a file that was cut or changed is told from a whole one.
fn text(number: u32) -> String {
    let line = format!("birken-epmd 1 next-creation {number}");
    format!("{line} sum {:08x}\n", sum(line.as_bytes()))
}

fn parse(bytes: &[u8]) -> Option<u32> {
    let line = std::str::from_utf8(bytes).ok()?;
    let number = line.split(' ').nth(3)?.parse().ok()?;
    (number > 0 && line == text(number)).then_some(number)
}

/// FNV-1a, 32 bits.
fn sum(bytes: &[u8]) -> u32 {
    let step = |sum: u32, &byte: &u8| (sum ^ u32::from(byte)).wrapping_mul(16_777_619);
    bytes.iter().fold(2_166_136_261, step)
}

#[cfg(test)]
mod tests {
    use super::*;

    #[test]
    fn a_mark_is_read_as_it_was_written_and_no_part_of_it_is() {
        for number in [1, 9, 4_369, u32::MAX] {
            let whole = text(number);
            assert_eq!(parse(whole.as_bytes()), Some(number));
            for cut in 0..whole.len() {
                assert_eq!(parse(&whole.as_bytes()[..cut]), None, "{cut} of {whole:?}");
            }
            for at in 0..whole.len() {
                let mut changed = whole.clone().into_bytes();
                changed[at] ^= 1;
                assert_eq!(parse(&changed), None, "{at} of {whole:?}");
            }
        }
        for bad in [&text(0)[..], "", "\n", "birken-epmd", &text(7).repeat(2)] {
            assert_eq!(parse(bad.as_bytes()), None, "{bad:?}");
        }
    }
}
