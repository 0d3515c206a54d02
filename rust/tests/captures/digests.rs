//! The digests of the captures: MD5 of the cookie and then the challenge's text, in this order.

use birkenschuh::md5;

use crate::common::{from_hex, to_hex};
use crate::exchange::{exchanges, replied, Digest, COOKIE};
use crate::seen::HANDSHAKES;
use crate::text;

/// So the library's MD5 and the model say, and none is of the other order.
#[test]
fn each_is_of_the_cookie_and_then_the_challenge() {
    let digests: Vec<Digest> = replied().iter().flat_map(|seen| seen.digests()).collect();
    for Digest {
        challenge,
        cookie,
        digest,
    } in &digests
    {
        let text = challenge.to_string().into_bytes();
        assert_eq!(*digest, md5(&[cookie, &text[..]].concat()), "{challenge}");
        assert_eq!(*digest, model::digest(*challenge, cookie), "{challenge}");
        assert_ne!(*digest, md5(&[&text[..], cookie].concat()), "{challenge}");
    }
    assert_eq!(digests.len(), 43 + 41);
}

/// A frame that holds a digest is told from others by its length and tag, whatever its comment says.
#[test]
fn each_is_in_an_exchange() {
    let (mut replies, mut acknowledgements) = (0, 0);
    for file in HANDSHAKES {
        let (text, exchanges) = (text(file), exchanges(file));
        let times = |head: &str, kind| {
            let frames = text.lines().filter(|line| line.starts_with(head)).count();
            let found = exchanges.iter().filter(|seen| seen.find(kind).is_some());
            assert_eq!(found.count(), frames, "{file}: {kind}");
            frames
        };
        replies += times("> 001572", "challenge_reply");
        acknowledgements += times("< 001161", "challenge_ack");
    }
    assert_eq!((replies, acknowledgements), (43, 41));
}

/// What the captures say of each, by the cookie that all nodes but two had.
#[test]
fn their_comments_say_the_same() {
    let (mut equal, mut differs) = (0, 0);
    for file in HANDSHAKES {
        let text = text(file);
        let mut lines = text.lines();
        while let Some(line) = lines.next() {
            let Some(check) = line.strip_prefix("# MD5 check: ") else {
                continue;
            };
            let of = check.strip_prefix("md5('monster' ++ '").expect(check);
            let (challenge, verdict) = of.split_once("') = ").expect(check);
            let computed = to_hex(&model::digest(challenge.parse().unwrap(), COOKIE));
            let frame = from_hex(&lines.next().unwrap()[2..]).unwrap();
            let sent = to_hex(&frame[frame.len() - 16..]);
            let expected = if sent == computed {
                equal += 1;
                format!("{computed} : EQUAL to digest sent")
            } else {
                differs += 1;
                format!("{computed} : DIFFERS from digest sent ({sent})")
            };
            assert_eq!(verdict, expected, "{file}");
        }
    }
    assert_eq!((equal, differs), (74 + 8, 2));
}
