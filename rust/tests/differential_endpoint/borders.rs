//! Sequences that go straight to a border: of a length or a number.

use birkenschuh::Stage;

use crate::calls::Call;
use crate::common::frames::*;
use crate::reach::*;

/// The tag that is not the stage's own is refused with 4, at each stage.
#[test]
fn tags() {
    for stage in OPEN {
        let tagged = |tag| {
            let mut frame = good(stage);
            frame[2] = tag;
            frame
        };
        let tally = run(then(stage, (0..=255).map(tagged)));
        assert_eq!(tally.times(&format!("{stage:?}: refusal 4")), 2 * 255);
    }
}

/// Each message cut at every byte and lengthened, with the length as it was and made right.
#[test]
fn cuts() {
    for stage in OPEN {
        let whole = good(stage);
        let cut = (0..whole.len()).map(|length| whole[..length].to_vec());
        let mended = (2..whole.len()).map(|length| frame(&whole[2..length]));
        let longer = (1..=4).map(|more| [&whole[..], &vec![b'@'; more]].concat());
        let longer_mended = (1..=4).map(|more| frame(&[&whole[2..], &vec![b'@'; more]].concat()));
        let frames: Vec<Vec<u8>> = cut
            .chain(mended)
            .chain(longer)
            .chain(longer_mended)
            .collect();
        let tally = run(then(stage, frames));
        // The last 1 is the mended frame of no body.
        let not_frames = whole.len() as u64 + 4 + 1;
        assert_eq!(
            tally.times(&format!("{stage:?}: refusal 3")),
            2 * not_frames
        );
    }
}

/// Full names of each length around the rule's borders, and each place for the "@".
#[test]
fn names() {
    let of_length = |length: usize| {
        let mut name = vec![b'x'; length];
        if length > 1 {
            name[1] = b'@';
        }
        name
    };
    let mut names: Vec<Vec<u8>> = (0..=5).chain(252..=258).map(of_length).collect();
    names.extend((0..9).map(|at| [&b"xxxxxxxx"[..at], b"@", &b"xxxxxxxx"[at..]].concat()));
    names.extend((0..9).map(|at| [&b"xx@xxxxx"[..at], b"@", &b"xx@xxxxx"[at..]].concat()));
    // Too short: 0, 1, 2; too long: 256 to 258; first and last; all with two.
    let broken = 3 + 3 + 2 + 9;
    let messages = names.iter().map(|name| name_message(GOOD_FLAGS, 1, name));
    assert_eq!(
        run(then(Stage::AwaitsName, messages)).times("AwaitsName: refusal 6"),
        2 * broken
    );
    let tally = run(names.iter().map(|name| vec![start(name)]));
    assert_eq!(tally.times("start: refusal 6"), 2 * broken);
    let make = |name: &Vec<u8>| Call::New {
        raw: false,
        name: name.clone(),
        flags: GOOD_FLAGS,
        creation: 1,
    };
    let tally = run(names.iter().map(|name| vec![make(name)]));
    assert_eq!(tally.times("new, safe: refusal 6"), 2 * broken);
}

/// For each stage, the message that moves it on with each of the edits.
fn edits(edit: impl Fn(&Call) -> Vec<Call>) -> Vec<Vec<Call>> {
    let mut lists = Vec::new();
    for stage in OPEN {
        let (before, slot) = reach(stage);
        let tries = edit(&message(slot, good(stage)));
        lists.extend(
            tries
                .into_iter()
                .map(|last| [before.clone(), vec![last]].concat()),
        );
    }
    lists
}

/// A cookie is needed at three stages only.
#[test]
fn cookies() {
    let lengths = [
        (0, 0),
        (0, 1),
        (0, 255),
        (0, 256),
        (1, 0),
        (255, 256),
        (256, 1),
        (256, 256),
    ];
    let tally = run(edits(|last| {
        let of = |(own, standard)| {
            edited(last, |message| {
                (message.own, message.standard) = (vec![b'c'; own], vec![b'd'; standard]);
            })
        };
        lengths.into_iter().map(of).collect()
    }));
    for stage in OPEN {
        let needs = matches!(
            stage,
            Stage::AwaitsReply | Stage::AwaitsChallenge | Stage::AwaitsAck
        );
        let refused = if needs { 2 * 4 } else { 0 };
        assert_eq!(tally.times(&format!("{stage:?}: refusal 11")), refused);
    }
}

/// Outputs around the stated room, and slots that there are none of or that are free.
#[test]
fn rooms_and_slots() {
    let rooms = [0, 1, 294, 299, 300, 301];
    let tally = run(edits(|last| {
        rooms
            .map(|room| edited(last, |message| message.room = room))
            .to_vec()
    }));
    for stage in OPEN {
        assert_eq!(tally.times(&format!("{stage:?}: refusal 1")), 2 * 4);
    }
    let slots = [31, 32, 33, 256, u32::MAX as usize];
    let tally = run(edits(|last| {
        let messages = slots.map(|slot| edited(last, |message| message.slot = slot));
        [
            messages.to_vec(),
            slots.map(|slot| Call::Close { slot }).to_vec(),
        ]
        .concat()
    }));
    assert_eq!(tally.times("Free: refusal 2"), 2 * 6 * 5);
    assert_eq!(tally.times("close: refusal 2"), 2 * 6 * 5);
}

/// Bodies up to the longest, and lent bytes whose count wraps round to the frame's length.
#[test]
fn long_frames() {
    for stage in OPEN {
        let whole = good(stage);
        let longest = 65_535 - (whole.len() - 2);
        let longer = |more: usize| [&whole[..], &vec![0; more]].concat();
        let mended = frame(&longer(longest)[2..]);
        let tally = run(then(stage, [mended, longer(65_535), longer(65_536)]));
        assert_eq!(tally.times(&format!("{stage:?}: refusal 3")), 2 * 2);
        // Behind a name, and only there, bytes are ignored.
        let goes_on = matches!(stage, Stage::AwaitsName | Stage::AwaitsChallenge);
        let refused = tally.times(&format!("{stage:?}: refusal 5"))
            + tally.times(&format!("{stage:?}: refusal 14"));
        assert_eq!(refused, if goes_on { 0 } else { 2 });
    }
    let name = [&b"x@"[..], &[b'y'; 65_518]].concat();
    let tally = run(then(
        Stage::AwaitsName,
        [name_message(GOOD_FLAGS, 1, &name)],
    ));
    assert_eq!(tally.times("AwaitsName: refusal 6"), 2);
    let tally = run([vec![start(&name)], vec![start(&[b'@'; 65_538])]]);
    assert_eq!(tally.times("start: refusal 6"), 2 * 2);
}
