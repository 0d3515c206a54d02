//! Runs sequences of calls through the library and the model, and shows one where they differ.

use std::fmt::Display;
use std::panic::{catch_unwind, AssertUnwindSafe};
use std::str::FromStr;

use super::tally::Tally;
use super::to_hex;

/// The library and the model side by side, before any call.
pub trait Compared: Default {
    /// A call with everything that is lent to it; as text, one line.
    type Call: Clone + Display + FromStr<Err = String>;

    /// Does the call on both sides, and counts what happened. An error says what differs.
    fn apply(&mut self, call: &Self::Call, tally: &mut Tally) -> Result<(), String>;
}

/// [`Compared::apply`], where a panic is a difference too: what the wrapper takes for impossible ends
/// in one.
pub fn attempt<C: Compared>(pair: &mut C, call: &C::Call, tally: &mut Tally) -> Result<(), String> {
    let applied = catch_unwind(AssertUnwindSafe(|| pair.apply(call, tally)));
    applied.unwrap_or_else(|_| Err("a panic, as said above".to_string()))
}

/// What differs at the end of these calls, if anything.
fn difference<C: Compared>(calls: &[C::Call]) -> Option<String> {
    let mut pair = C::default();
    let mut tally = Tally::default();
    calls
        .iter()
        .find_map(|call| attempt(&mut pair, call, &mut tally).err())
}

/// Leaves out calls as long as the rest still shows a difference.
fn shorten<C: Compared>(mut calls: Vec<C::Call>) -> Vec<C::Call> {
    let mut run = calls.len().div_ceil(2);
    while run > 0 {
        let mut from = 0;
        while from < calls.len() {
            let mut fewer = calls.clone();
            fewer.drain(from..(from + run).min(calls.len()));
            if difference::<C>(&fewer).is_some() {
                calls = fewer;
            } else {
                from += run;
            }
        }
        run /= 2;
    }
    calls
}

/// Reports calls, the last of which showed a difference, in a form that can be run again.
pub fn report<C: Compared>(seed: u64, calls: Vec<C::Call>) -> ! {
    let found = difference::<C>(&calls).expect("the same calls differ again");
    let short = shorten::<C>(calls);
    let lines: String = short.iter().map(|call| format!("{call}\n")).collect();
    let still = difference::<C>(&short).expect("a shorter sequence is kept only if it differs");
    panic!(
        "seed {seed}: {found}\n\
         shortened: {still}\n\
         To run it again, put these lines into a file, name the file in BIRKENSCHUH_REPLAY, and run \
         the test `replay` beside this one:\n{lines}"
    );
}

/// Runs the calls of the file that `BIRKENSCHUH_REPLAY` names, or else those given.
pub fn replay<C: Compared>(given: &str) {
    let text = match std::env::var("BIRKENSCHUH_REPLAY") {
        Ok(path) => {
            std::fs::read_to_string(&path).unwrap_or_else(|error| panic!("{path}: {error}"))
        }
        Err(_) => given.to_string(),
    };
    let call = |line: &str| {
        line.parse()
            .unwrap_or_else(|error| panic!("{line}: {error}"))
    };
    let calls: Vec<C::Call> = text.lines().map(call).collect();
    assert!(!calls.is_empty(), "no calls to run");
    if let Some(found) = difference::<C>(&calls) {
        panic!("{found}\n{text}");
    }
}

/// The first difference between two outputs, as text.
pub fn outputs(ours: &[u8], expected: &[u8]) -> Result<(), String> {
    if ours == expected {
        return Ok(());
    }
    let at = ours.iter().zip(expected).position(|(a, b)| a != b);
    let at = at.expect("outputs are of one length");
    Err(format!(
        "output byte {at} is {:#04x}, expected {:#04x}",
        ours[at], expected[at]
    ))
}

/// The first difference between two states, as text: an offset and the bytes from there on.
pub fn states(ours: &[u8], expected: &[u8]) -> Result<(), String> {
    if ours == expected {
        return Ok(());
    }
    if ours.len() != expected.len() {
        return Err(format!(
            "the state has {} bytes, expected {}",
            ours.len(),
            expected.len()
        ));
    }
    let at = ours.iter().zip(expected).position(|(a, b)| a != b);
    let at = at.expect("states of one length that differ");
    let some = |state: &[u8]| to_hex(&state[at..state.len().min(at + 8)]);
    Err(format!(
        "the state from byte {at} on is {}.., expected {}..",
        some(ours),
        some(expected)
    ))
}

/// An error that names both sides unless they are equal.
pub fn same<T: PartialEq + std::fmt::Debug>(
    what: &str,
    ours: T,
    expected: T,
) -> Result<(), String> {
    if ours == expected {
        Ok(())
    } else {
        Err(format!("{what} is {ours:?}, expected {expected:?}"))
    }
}
