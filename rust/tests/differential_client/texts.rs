//! Random NAMES replies, of pieces of lines and of lines that may join.

use crate::common::rng::{rounds, seed, Rng};
use crate::names::{line, listed, long, short, times};
use crate::run;

/// Pieces of lines, whole lines, and what stands between.
const PIECES: [&[u8]; 24] = [
    b"name ",
    b" at port 1\n",
    b" at port 22\n",
    b" at port 65535\n",
    b" at port 65536\n",
    b" at port 01\n",
    b" at port 0\n",
    b"at port 5\n",
    b"x",
    b"yy",
    b" ",
    b"\n",
    b"@",
    b"\0",
    b"\xc3\xa9",
    b"\xe2\x82\xac",
    b"\xf0\x9f\x98\x80",
    b"\xc3",
    b"\xed\xa0\x80",
    b"name x at port 1\n",
    b"name x at port 1\n",
    b"name  at port 1\n",
    b"name at port 3\n",
    b"name xxxxxxxxxxxxxxxx at port 7\n",
];

/// A line with a name of a length where joining comes to its end.
fn joining(rng: &mut Rng) -> Vec<u8> {
    let length = *rng.pick(&[1, 2, 100, 120, 200, 237, 238, 239, 240, 250, 255]);
    let port = *rng.pick(&["1", "9", "12345"]);
    line(&vec![b'z'; length], port)
}

fn pieces(rng: &mut Rng) -> Vec<Vec<u8>> {
    let length = rng.below(10);
    let piece = |rng: &mut Rng| match rng.below(6) {
        0 => joining(rng),
        _ => rng.pick(&PIECES).to_vec(),
    };
    (0..length).map(|_| piece(rng)).collect()
}

fn whole_lines(rng: &mut Rng) -> Vec<Vec<u8>> {
    let length = rng.below(10);
    let piece = |rng: &mut Rng| match rng.below(2) {
        0 => joining(rng),
        _ => rng.pick(&PIECES[19..]).to_vec(),
    };
    (0..length).map(|_| piece(rng)).collect()
}

/// About 64 long lines, some of them replaced.
fn near_64(rng: &mut Rng) -> Vec<Vec<u8>> {
    let mut lines = vec![long(); 62 + rng.below(7)];
    for _ in 0..rng.below(6) {
        let at = rng.below(lines.len());
        lines[at] = rng.pick(&PIECES[19..]).to_vec();
        if rng.chance(60) && at > 0 {
            lines[at - 1] = short("s");
        }
    }
    lines
}

#[test]
fn random_texts() {
    let first = seed();
    let mut rng = Rng(first);
    let calls = (0..60_000 * rounds()).map(|at| {
        let lines = match at % 30 {
            0 => near_64(&mut rng),
            1..=15 => pieces(&mut rng),
            _ => whole_lines(&mut rng),
        };
        listed(&lines)
    });
    let tally = run(first, calls);
    println!("seed {first}");
    tally.print();
    assert!(
        times(&tally).iter().all(|times| *times > 100),
        "{:?}",
        times(&tally)
    );
}
