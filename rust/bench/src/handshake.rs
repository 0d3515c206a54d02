//! A whole handshake of both sides against the independent implementation.

use crate::timing::{row, Contender};

const FLAGS: u64 = birkenschuh::REQUIRED_FLAGS;

/// Name, status, challenge, reply and acknowledgement, from start and arrive to connected, and both closed:
/// nine calls. The two crates have the same calls under the same names.
macro_rules! handshake {
    ($crate_name:ident, $a:ident, $b:ident, $to_b:ident, $to_a:ident) => {{
        use $crate_name::{Cookies, Stage};
        let cookies = || Cookies {
            own: b"",
            standard: b"monster",
        };
        let begun = $a.start(b"b@host", &mut $to_b).unwrap();
        let there = $b.arrive().unwrap();
        let greeted = $b.message(
            there,
            &$to_b[..begun.written],
            1_234_567,
            cookies(),
            &mut $to_a,
        );
        let written = greeted.unwrap().written;
        $a.message(begun.slot, &$to_a[..5], 7, cookies(), &mut $to_b)
            .unwrap();
        let replied = $a.message(begun.slot, &$to_a[5..written], 7, cookies(), &mut $to_b);
        let written = replied.unwrap().written;
        let acknowledged = $b
            .message(there, &$to_b[..written], 0, cookies(), &mut $to_a)
            .unwrap();
        let shown = $a.message(
            begun.slot,
            &$to_a[..acknowledged.written],
            0,
            cookies(),
            &mut $to_b,
        );
        assert_eq!(shown.unwrap().stage, Stage::Connected);
        $a.close(begun.slot).unwrap();
        $b.close(there).unwrap();
    }};
}

pub fn handshake() {
    let mut a = birkenschuh::Endpoint::new(b"a@host", FLAGS, 1).expect("good name and flags");
    let mut b = birkenschuh::Endpoint::new(b"b@host", FLAGS, 2).expect("good name and flags");
    let mut c = model::Endpoint::new(b"a@host", FLAGS, 1).expect("good name and flags");
    let mut d = model::Endpoint::new(b"b@host", FLAGS, 2).expect("good name and flags");
    let mut to_b = [0xa5; birkenschuh::ENDPOINT_OUTPUT];
    let mut to_a = to_b;
    let (mut to_d, mut to_c) = (to_b, to_b);
    row(
        "whole handshake, both sides: nine calls",
        &mut [
            Contender {
                name: "ours",
                run: &mut || handshake!(birkenschuh, a, b, to_b, to_a),
            },
            Contender {
                name: "independent implementation",
                run: &mut || handshake!(model, c, d, to_d, to_c),
            },
        ],
    );
}
