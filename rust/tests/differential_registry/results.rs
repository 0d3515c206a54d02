//! Each situation of a registration by hand: its Result, both forms of the reply, and what changes.

use birkenschuh::REGISTRY_OUTPUT;

use crate::calls::Call;
use crate::common::differ::{attempt, report};
use crate::common::frames::Alive2;
use crate::common::tally::Tally;
use crate::pair::Pair;
use crate::situation::{Name, Situation};

/// The creation that the registration at hand gets, if any.
const NEXT: u32 = 500;
const STRANGER: u32 = 1000;

/// The library and the model, with the calls so far.
#[derive(Default)]
struct Run {
    pair: Pair,
    calls: Vec<Call>,
    tally: Tally,
}

impl Run {
    /// A registry in which connection n has registered the name n, from 0 on.
    fn with(raw: bool, places: u32) -> Run {
        let mut run = Run::default();
        run.apply(Call::New {
            raw,
            port: 4369,
            first_creation: NEXT - places,
        });
        for number in 0..places {
            run.register(number, &number.to_string(), 6);
        }
        run.tally = Tally::default();
        run
    }

    fn apply(&mut self, call: Call) {
        self.calls.push(call);
        let last = &self.calls[self.calls.len() - 1];
        if attempt(&mut self.pair, last, &mut self.tally).is_err() {
            report::<Pair>(0, self.calls.clone());
        }
    }

    /// The library's reply.
    fn register(&mut self, connection: u32, name: &str, highest: u16) -> &[u8] {
        let alive2 = Alive2 {
            highest,
            ..Alive2::of(name.as_bytes())
        };
        self.apply(Call::Request {
            connection,
            room: REGISTRY_OUTPUT,
            frame: alive2.frame(),
        });
        self.pair.reply()
    }

    fn state(&self) -> Vec<u8> {
        self.pair.library().expect("made").bytes().to_vec()
    }
}

/// Who asks for which name in this situation, where 7 is not the last place.
fn asks(of: Situation) -> (u32, &'static str) {
    let name = match of.name {
        Name::Free => "new",
        Name::Own => "7",
        Name::Others => "8",
    };
    (if of.registered { 7 } else { STRANGER }, name)
}

fn walk(raw: bool, of: Situation, result: u8, highest: u16) {
    let mut run = Run::with(raw, if of.full { 64 } else { 63 });
    let before = run.state();
    let (connection, name) = asks(of);
    let reply = run.register(connection, name, highest).to_vec();
    let expected = match (result, highest) {
        (0, 5) => vec![121, 0, 0, 3], // 1 + (500 mod 3)
        (0, _) => vec![118, 0, 0, 0, 1, 244],
        (_, 5) => vec![121, result, 0, 0],
        _ => vec![118, result, 0, 0, 0, 0],
    };
    assert_eq!(reply, expected, "{of}");
    let tag = reply[0];
    assert_eq!(run.tally.times(&format!("{tag}, {of}: {result}")), 1);
    assert_eq!(run.state() == before, result > 0, "{of}");

    // The next that registers gets the creation that this one did not take.
    run.apply(Call::Close { connection: 20 });
    let creation = NEXT as u8 + u8::from(result == 0);
    let reply = run.register(STRANGER + 1, "next", 6);
    assert_eq!(reply, [118, 0, 0, 0, 1, creation], "{of}");
}

#[test]
fn each_situation() {
    for raw in [false, true] {
        for highest in [5, 6, 7, 65_535] {
            for (of, result) in Situation::ALL {
                walk(raw, of, result, highest);
            }
        }
    }
}
