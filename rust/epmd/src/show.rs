//! How what a mapper has told is printed: for people, or as JSON.

use birkenschuh::client::{Line, Node};

use crate::log::{json_text, plain_text};

pub fn table(lines: &[Line]) -> String {
    let name = |line: &Line| plain_text(&String::from_utf8_lossy(line.name));
    let names: Vec<String> = lines.iter().map(name).collect();
    let longest = names.iter().map(|name| name.chars().count()).max();
    let width = longest.unwrap_or(0).max(4);
    let mut text = format!("{:width$}   PORT\n", "NAME");
    for (name, line) in names.iter().zip(lines) {
        text += &format!("{name:width$}  {:>5}\n", line.port);
    }
    text
}

/// Text as it came, line by line: what does not print is escaped as in the log, and the backslash too,
/// so that an escape can be told from what looks like one.
pub fn lines(text: &str) -> String {
    let mut out = String::new();
    for letter in text.chars() {
        match letter {
            '\n' | '"' | '\'' => out.push(letter),
            _ => out.extend(letter.escape_debug()),
        }
    }
    out
}

pub fn json_names(port: u16, lines: &[Line]) -> String {
    let name = |line: &Line| {
        let name = json_string(&String::from_utf8_lossy(line.name));
        format!("{{\"name\":{name},\"port\":{}}}", line.port)
    };
    let names: Vec<String> = lines.iter().map(name).collect();
    format!("{{\"port\":{port},\"names\":[{}]}}\n", names.join(","))
}

/// In place of names that cannot be told apart.
pub fn json_lines(port: u16, text: &str) -> String {
    let text = json_string(text);
    format!("{{\"port\":{port},\"ambiguous\":true,\"text\":{text}}}\n")
}

/// The extra field may be any bytes, so it is given in hexadecimal.
pub fn json_node(node: &Node) -> String {
    let name = json_string(&String::from_utf8_lossy(node.name));
    let extra: String = node.extra.iter().map(|it| format!("{it:02x}")).collect();
    format!(
        "{{\"name\":{name},\"port\":{},\"type\":{},\"protocol\":{},\"highest\":{},\"lowest\":{},\
         \"extra\":\"{extra}\"}}\n",
        node.port, node.kind, node.protocol, node.highest, node.lowest
    )
}

/// A JSON string in ASCII where a character does not print: there are line ends and signs that turn
/// the direction of writing beyond the control characters.
fn json_string(text: &str) -> String {
    let mut out = String::new();
    for letter in json_text(text).chars() {
        if letter.is_ascii() || letter.escape_debug().len() == 1 {
            out.push(letter);
            continue;
        }
        for unit in letter.encode_utf16(&mut [0; 2]) {
            out += &format!("\\u{unit:04x}");
        }
    }
    out
}

#[cfg(test)]
mod tests {
    use super::*;

    fn of<'a>(them: &[(&'a str, u16)]) -> Vec<Line<'a>> {
        let line = |&(name, port): &(&'a str, u16)| Line {
            name: name.as_bytes(),
            port,
        };
        them.iter().map(line).collect()
    }

    #[test]
    fn the_table_has_a_column_as_wide_as_the_longest_name() {
        let them = of(&[("ride", 4370), ("é\n", 9), ("fähre-12", 65535)]);
        assert_eq!(
            table(&them),
            "NAME       PORT\nride       4370\n\"é\\n\"         9\nfähre-12  65535\n"
        );
        assert_eq!(table(&[]), "NAME   PORT\n");
    }

    #[test]
    fn lines_are_kept_and_a_terminal_is_safe() {
        for (text, shown) in [
            ("", ""),
            (
                "name a at port 1\nname é日 at port 2\n",
                "name a at port 1\nname é日 at port 2\n",
            ),
            ("\u{1b}[2J\r\t\u{85}", "\\u{1b}[2J\\r\\t\\u{85}"),
            ("\u{2028}\u{202e}", "\\u{2028}\\u{202e}"),
            ("a\\n\"'\\\"", "a\\\\n\"'\\\\\""),
        ] {
            assert_eq!(lines(text), shown);
        }
    }

    #[test]
    fn json_has_the_port_and_the_names() {
        assert_eq!(json_names(4369, &[]), "{\"port\":4369,\"names\":[]}\n");
        assert_eq!(
            json_names(1, &of(&[("a\"", 2), ("b", 3)])),
            "{\"port\":1,\"names\":[{\"name\":\"a\\\"\",\"port\":2},{\"name\":\"b\",\"port\":3}]}\n"
        );
        assert_eq!(
            json_lines(1, "name a at port 2\n\u{1b}"),
            "{\"port\":1,\"ambiguous\":true,\"text\":\"name a at port 2\\n\\u001b\"}\n"
        );
    }

    #[test]
    fn json_has_every_field_of_a_node() {
        let node = Node {
            port: 1,
            kind: 72,
            protocol: 3,
            highest: 4,
            lowest: 65_535,
            name: b"a\n",
            extra: b"\x00\xff9",
        };
        assert_eq!(
            json_node(&node),
            "{\"name\":\"a\\n\",\"port\":1,\"type\":72,\"protocol\":3,\"highest\":4,\
             \"lowest\":65535,\"extra\":\"00ff39\"}\n"
        );
    }

    #[test]
    fn json_escapes_all_that_does_not_print() {
        for (name, json) in [
            ("a\nb\r\t", "\"a\\nb\\r\\t\""),
            (
                "\u{0}\u{1b}[2J\u{7f}\u{85}",
                "\"\\u0000\\u001b[2J\\u007f\\u0085\"",
            ),
            ("\u{2028}\u{2029}\u{202e}", "\"\\u2028\\u2029\\u202e\""),
            ("\u{feff}\u{e0001}", "\"\\ufeff\\udb40\\udc01\""),
            ("\"\\é日𝄞", "\"\\\"\\\\é日𝄞\""),
        ] {
            assert_eq!(json_string(name), json);
        }
    }
}
