//! 02, P1: the reading of a NAMES reply.
//!
//! Every place of the text is asked which lines may begin there, and from the end of the text
//! backwards in how many ways the text from there on is so and so many lines.

use std::ops::Range;

use crate::{is_node_name, Refusal};

const MOST_LINES: usize = 64;
const LONGEST_NAME: usize = 255;

/// A line. The name is a part of the reply, counted from its first byte.
#[derive(Clone, Debug, PartialEq, Eq)]
#[allow(missing_docs)]
pub struct NamesLine {
    pub name: Range<usize>,
    pub port: u16,
}

/// A reading of a NAMES reply.
#[derive(Clone, Debug, PartialEq, Eq)]
#[allow(missing_docs)]
pub struct NamesReply {
    pub port: u16,
    pub lines: Vec<NamesLine>,
}

/// Reads a NAMES reply: 5 if it has no reading, 20 if it has more than one.
pub fn read_names(reply: &[u8]) -> Result<NamesReply, Refusal> {
    let (port, text) = reply.split_first_chunk().ok_or(Refusal::BadLength)?;
    let port = u16::try_from(u32::from_be_bytes(*port)).map_err(|_| Refusal::BadLength)?;
    let places: Vec<Vec<Candidate>> = (0..=text.len()).map(|at| candidates(text, at)).collect();
    let ways = ways(&places);
    match ways[0].iter().sum() {
        0 => Err(Refusal::BadLength),
        1 => Ok(NamesReply {
            port,
            lines: only_lines(&places, &ways),
        }),
        _ => Err(Refusal::Ambiguous),
    }
}

/// A line that may begin at a place of the text: its name's length, its port, and where it ends.
struct Candidate {
    length: usize,
    port: u16,
    end: usize,
}

fn candidates(text: &[u8], at: usize) -> Vec<Candidate> {
    let Some(rest) = text[at..].strip_prefix(b"name ") else {
        return Vec::new();
    };
    let longest = LONGEST_NAME.min(rest.len());
    let line = |length: usize| {
        let (name, behind) = rest.split_at(length);
        let (port, left) = port_and_rest(behind)?;
        let end = text.len() - left.len();
        is_node_name(name).then_some(Candidate { length, port, end })
    };
    (1..=longest).filter_map(line).collect()
}

/// The port of ` at port P` and a newline, and what follows.
fn port_and_rest(behind_name: &[u8]) -> Option<(u16, &[u8])> {
    let behind = behind_name.strip_prefix(b" at port ")?;
    let newline = behind.iter().take(6).position(|byte| *byte == b'\n')?;
    let digits = std::str::from_utf8(&behind[..newline]).ok()?;
    let port: u16 = digits.parse().ok()?;
    // The one way in which 01 writes this number: no sign, no leading zero.
    (port.to_string() == digits).then_some((port, &behind[newline + 1..]))
}

/// In how many ways the text from a place on is 0, 1, ... 64 lines; two stand for more.
type Ways = [u8; MOST_LINES + 1];

fn ways(places: &[Vec<Candidate>]) -> Vec<Ways> {
    let end = places.len() - 1;
    let mut ways = vec![[0; MOST_LINES + 1]; places.len()];
    ways[end][0] = 1;
    for at in (0..end).rev() {
        for candidate in &places[at] {
            for lines in 1..=MOST_LINES {
                let more = ways[candidate.end][lines - 1];
                ways[at][lines] = (ways[at][lines] + more).min(2);
            }
        }
    }
    ways
}

/// The lines of the only reading.
fn only_lines(places: &[Vec<Candidate>], ways: &[Ways]) -> Vec<NamesLine> {
    const PORT_AND_NAME: usize = 4 + 5;
    let mut left = ways[0].iter().position(|ways| *ways == 1).expect("one");
    let (mut at, mut lines) = (0, Vec::new());
    while left > 0 {
        left -= 1;
        let mut candidates = places[at].iter();
        let line = candidates.find(|line| ways[line.end][left] == 1);
        let line = line.expect("a reading goes on to its end");
        let name = at + PORT_AND_NAME;
        lines.push(NamesLine {
            name: name..name + line.length,
            port: line.port,
        });
        at = line.end;
    }
    lines
}

#[cfg(test)]
mod tests {
    use super::*;

    /// All readings of a text, by trying every line at every place.
    fn readings(text: &[u8], at: usize, lines: usize) -> Vec<Vec<(Vec<u8>, u16)>> {
        let mut found = Vec::new();
        if at == text.len() {
            found.push(Vec::new());
        }
        if lines == 0 {
            return found;
        }
        for line in candidates(text, at) {
            let name = text[at + 5..][..line.length].to_vec();
            for rest in readings(text, line.end, lines - 1) {
                found.push([&[(name.clone(), line.port)][..], &rest].concat());
            }
        }
        found
    }

    /// Every text of up to five pieces: the table counts what trying finds.
    #[test]
    fn the_table_counts_what_trying_finds() {
        let pieces: [&[u8]; 6] = [
            b"name ",
            b"x",
            b" at port 1\n",
            b"name y at port 2\n",
            b"name  at port 03\n",
            b"\n",
        ];
        let mut seen = [0; 3];
        for number in 0..6usize.pow(5) {
            let mut text = Vec::new();
            let (mut left, mut reply) = (number, vec![0; 4]);
            while left > 0 {
                text.extend(pieces[left % 6]);
                left /= 6;
            }
            reply.extend(&text);
            let found = readings(&text, 0, MOST_LINES);
            seen[found.len().min(2)] += 1;
            let told = read_names(&reply).map(|told| {
                let line = |line: &NamesLine| (reply[line.name.clone()].to_vec(), line.port);
                told.lines.iter().map(line).collect::<Vec<_>>()
            });
            match &found[..] {
                [] => assert_eq!(told, Err(Refusal::BadLength)),
                [only] => assert_eq!(told.as_ref(), Ok(only)),
                _ => assert_eq!(told, Err(Refusal::Ambiguous)),
            }
        }
        assert!(seen.iter().all(|times| *times > 50), "{seen:?}");
    }
}
