//! Names as a log shows them.

use std::fmt;

/// Shows bytes as text in quotes; as escaped bytes if they are not UTF-8.
pub(crate) struct Text<'a>(pub &'a [u8]);

impl fmt::Debug for Text<'_> {
    fn fmt(&self, f: &mut fmt::Formatter<'_>) -> fmt::Result {
        match std::str::from_utf8(self.0) {
            Ok(text) => write!(f, "{text:?}"),
            Err(_) => write!(f, "b\"{}\"", self.0.escape_ascii()),
        }
    }
}

#[cfg(test)]
mod tests {
    use super::*;

    #[test]
    fn text_is_shown_as_text_and_never_breaks_a_line() {
        assert_eq!(format!("{:?}", Text("fähre".as_bytes())), "\"fähre\"");
        assert_eq!(format!("{:?}", Text(b"a\n\"@b")), r#""a\n\"@b""#);
        assert_eq!(format!("{:?}", Text(b"a\xff@b")), r#"b"a\xff@b""#);
        assert_eq!(format!("{:?}", Text(b"")), "\"\"");
    }
}
