//! Digests, by a real node's own MD5.

use std::fs;

use super::*;

/// Lines of a challenge, a cookie and their digest: decimal, hex, hex.
const CASES: &str = concat!(
    env!("CARGO_MANIFEST_DIR"),
    "/../../crates/digest_cases/stdout"
);

/// As many as make a line that a node reads at once.
const TOGETHER: usize = 50;

fn words(line: &str) -> [&str; 3] {
    let words: Vec<&str> = line.split(' ').collect();
    words.try_into().expect("three words")
}

#[test]
#[ignore = "needs erl: make check-interop"]
fn a_real_node_gives_the_digests_of_the_cases() {
    let text = fs::read_to_string(CASES).expect(CASES);
    let cases: Vec<[&str; 3]> = text.lines().map(words).collect();
    assert!(!cases.is_empty());
    let (_mapper, mut node) = real(&[]);
    for some in cases.chunks(TOGETHER) {
        let asked = some
            .iter()
            .map(|[challenge, cookie, _]| format!("{{{challenge},<<\"{cookie}\">>}}"));
        let told = node.eval(&format!(
            "[binary:encode_hex(erlang:md5([binary:decode_hex(Cookie), integer_to_list(Challenge)])) \
             || {{Challenge, Cookie}} <- [{}]].",
            asked.collect::<Vec<_>>().join(",")
        ));
        let told = told.to_lowercase();
        let told: Vec<&str> = told.split('"').skip(1).step_by(2).collect();
        let wanted: Vec<&str> = some.iter().map(|[_, _, digest]| *digest).collect();
        assert_eq!(told, wanted);
    }
}
