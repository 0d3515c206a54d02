//! Two endpoints joined in memory, through every order in which starts, arrivals, messages, closes
//! and faults can come.
//!
//! From each state of both endpoints and of the packets between them, every action is tried. What
//! comes next depends on the state alone, so a state that was seen before is not gone through again.

#[path = "../common/mod.rs"]
mod common;

mod links;
mod world;

use std::collections::HashMap;

use birkenschuh::Stage;
use common::tally::Tally;
use links::{Action, At, Left};
use world::World;

const SAME: [&[u8]; 2] = [b"monster", b"monster"];
const DIFFERENT: [&[u8]; 2] = [b"monster", b"munster"];

const NOTHING: Left = Left {
    starts: [0, 0],
    closes: 0,
    cuts: 0,
    wrong_cookies: 0,
};

struct Search {
    /// For each state, in how many orders the rest can happen.
    orders: HashMap<String, u128>,
    tally: Tally,
    may_connect: bool,
    /// What has happened up to here.
    path: Vec<Action>,
}

/// Shows how a state was reached in which something does not hold.
impl Drop for Search {
    fn drop(&mut self) {
        if std::thread::panicking() {
            println!("after these actions: {:#?}", self.path);
        }
    }
}

impl Search {
    /// Goes through all orders from here, and gives their number.
    fn explore(&mut self, world: &World) -> u128 {
        self.check(world);
        let key = format!(
            "{:?} {:?} {:?} {:?}",
            world.taken(0),
            world.taken(1),
            world.links,
            world.left
        );
        if let Some(orders) = self.orders.get(&key) {
            return *orders;
        }
        let actions = world.actions();
        let mut orders = 0;
        for action in &actions {
            let mut next = world.clone();
            self.path.push(*action);
            next.act(*action, &mut self.tally);
            orders += self.explore(&next);
            self.path.pop();
        }
        if actions.is_empty() {
            self.check_end(world);
            orders = 1;
        }
        self.orders.insert(key, orders);
        orders
    }

    /// What holds at all times.
    fn check(&self, world: &World) {
        for side in 0..2 {
            let taken = world.taken(side);
            for (at, slot) in &taken {
                assert!(world
                    .links
                    .iter()
                    .any(|link| link.at[side] == At::Slot(*at)));
                assert!(self.may_connect || slot.stage != Stage::Connected);
            }
            let open = world
                .links
                .iter()
                .filter(|link| matches!(link.at[side], At::Slot(_)));
            assert_eq!(open.count(), taken.len());
        }
    }

    /// What holds when all packets have been delivered: both sides are connected, or neither is.
    fn check_end(&mut self, world: &World) {
        let mut outcome = "end: not connected";
        for link in &world.links {
            let (a, b) = match link.at {
                [At::Slot(a), At::Slot(b)] => (world.ends[0].slot(a), world.ends[1].slot(b)),
                at => {
                    assert_eq!(at, [At::Gone; 2], "open on one side only");
                    continue;
                }
            };
            assert_eq!((a.stage, b.stage), (Stage::Connected, Stage::Connected));
            assert!(world.is_record_of(1, &a) && world.is_record_of(0, &b));
            assert_eq!(outcome, "end: not connected", "two connections at a time");
            outcome = ["end: connected by a", "end: connected by b"][link.starter];
        }
        self.tally.count(outcome);
        if world.links.len() == 2 {
            self.tally.count(format!("two started, {outcome}"));
        }
    }
}

fn search(what: &str, left: Left, cookies: [&'static [u8]; 2]) -> Tally {
    let may_connect = cookies == SAME;
    let mut search = Search {
        orders: HashMap::new(),
        tally: Tally::default(),
        may_connect,
        path: Vec::new(),
    };
    let orders = search.explore(&World::new(left, cookies));
    println!("{what}: {} states, {orders} orders", search.orders.len());
    search.tally.print();
    std::mem::take(&mut search.tally)
}

/// One side starts: whatever the order, both end up connected.
#[test]
fn one_start() {
    for (starts, outcome) in [
        ([1, 0], "end: connected by a"),
        ([0, 1], "end: connected by b"),
    ] {
        let tally = search("one start", Left { starts, ..NOTHING }, SAME);
        tally.assert_seen([outcome, "sent ok"]);
        assert_eq!(tally.times("end: not connected"), 0);
    }
}

/// Both start: one connection remains, and both sides agree which. Where they cross, it is that of
/// the greater name.
#[test]
fn simultaneous_starts() {
    let tally = search(
        "both start",
        Left {
            starts: [1, 1],
            ..NOTHING
        },
        SAME,
    );
    tally.assert_seen([
        "sent ok",
        "sent ok_simultaneous",
        "sent nok",
        "AwaitsStatus: refusal 16",
    ]);
    tally.assert_seen(["end: connected by a", "two started, end: connected by b"]);
    tally.assert_seen(["start refused: the peer has a slot"]);
    assert_eq!(tally.times("two started, end: connected by a"), 0);
    assert_eq!(tally.times("end: not connected"), 0);
}

/// A host gives up its connection at any step and starts again; the other may not have noticed.
#[test]
fn start_again() {
    for starts in [[2, 0], [0, 2], [2, 1], [1, 2]] {
        let left = Left {
            starts,
            closes: 1,
            ..NOTHING
        };
        let tally = search("starts again", left, SAME);
        tally.assert_seen(["sent alive", "sent true", "AwaitsAlive -> AwaitsReply"]);
        tally.assert_seen(["end: not connected"]);
    }
}

/// Two different cookies: nobody is ever connected.
#[test]
fn different_cookies() {
    for starts in [[1, 0], [0, 1], [1, 1], [2, 2]] {
        let left = Left {
            starts,
            closes: 1,
            cuts: 1,
            ..NOTHING
        };
        let tally = search("different cookies", left, DIFFERENT);
        tally.assert_seen(["AwaitsReply: refusal 15", "end: not connected"]);
        assert_eq!(
            tally.times("end: connected by a") + tally.times("end: connected by b"),
            0
        );
        assert_eq!(tally.times("AwaitsReply -> Connected"), 0);
    }
}

/// A wrong cookie in a single call, wherever it is: both sides are connected in the end, or neither.
#[test]
fn wrong_cookie_in_one_call() {
    for starts in [[1, 0], [0, 1], [1, 1]] {
        let left = Left {
            starts,
            wrong_cookies: 1,
            ..NOTHING
        };
        let tally = search("one wrong cookie", left, SAME);
        tally.assert_seen(["AwaitsReply: refusal 15", "AwaitsAck: refusal 15"]);
        tally.assert_seen(["end: not connected"]);
    }
}

/// A cut frame and a close, wherever they come.
#[test]
fn cuts_and_closes() {
    for starts in [[1, 0], [0, 1], [1, 1]] {
        let left = Left {
            starts,
            cuts: 1,
            closes: 1,
            ..NOTHING
        };
        let tally = search("a cut and a close", left, SAME);
        let stages = [
            "AwaitsName",
            "AwaitsReply",
            "AwaitsStatus",
            "AwaitsChallenge",
            "AwaitsAck",
        ];
        tally.assert_seen(stages.map(|stage| format!("{stage}: refusal 3")));
        tally.assert_seen([
            "AwaitsName: refusal 5",
            "AwaitsReply: refusal 5",
            "AwaitsStatus: refusal 14",
        ]);
        tally.assert_seen(["end: not connected"]);
    }
}

/// A start more, a close, a cut and a wrong cookie, all in one run and wherever they come.
#[test]
fn everything() {
    for starts in [[2, 1], [1, 2]] {
        let left = Left {
            starts,
            closes: 1,
            cuts: 1,
            wrong_cookies: 1,
        };
        let tally = search("everything", left, SAME);
        tally.assert_seen(["AwaitsAlive: refusal 3", "AwaitsAlive: refusal 14"]);
        tally.assert_seen(["AwaitsReply: refusal 15", "AwaitsAck: refusal 15"]);
        tally.assert_seen(["end: connected by a", "end: connected by b"]);
    }
}
