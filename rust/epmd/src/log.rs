//! Log lines on standard output: for people (`registered name=a port=35219 ...`) or as JSON, from
//! the same fields.

use std::io;
use std::time::{Duration, Instant};

use crate::clock;
use crate::limiter::{LeftOut, Limiter};
use crate::writer::Writer;

#[derive(Clone, Copy)]
pub enum Value<'a> {
    Number(u64),
    Text(&'a str),
    /// A node's name: any UTF-8, newlines and terminal codes too.
    Name(&'a [u8]),
}

pub struct Log {
    json: bool,
    quiet: bool,
    limiter: Limiter,
    writer: Writer,
}

/// How long the end of the program waits for the reader of its log.
const FAREWELL: Duration = Duration::from_millis(500);

impl Log {
    pub fn new(json: bool, quiet: bool) -> io::Result<Log> {
        let tell = move |lines| line(json, "dropped", &[("lines", Value::Number(lines))]);
        Ok(Log {
            json,
            quiet,
            limiter: Limiter::default(),
            writer: Writer::to_stdout(tell)?,
        })
    }

    /// Says one line, unless there were too many of its kind.
    pub fn line(&mut self, event: &'static str, fields: &[(&str, Value)]) {
        if self.admits(event) {
            self.say(event, fields);
        }
    }

    /// Whether a line about `event` is to be said; if not, it is counted. For those who would not
    /// gather the fields of a line for nothing.
    pub fn admits(&mut self, event: &'static str) -> bool {
        !self.quiet && self.limiter.admits(event, Instant::now())
    }

    /// Says a line that is admitted, or that counts even if the log is quiet. A log that cannot be
    /// written is no reason to stop serving.
    pub fn say(&self, event: &str, fields: &[(&str, Value)]) {
        self.writer.push(&line(self.json, event, fields));
    }

    /// When `tell_left_out` has something to tell.
    pub fn due(&self) -> Option<Instant> {
        self.limiter.due()
    }

    /// How many lines of each kind were left out. A count that does not fit is kept for the next
    /// time.
    pub fn tell_left_out(&mut self, now: Instant) {
        for it in self.limiter.take_due(now) {
            if !self.tell(&it) {
                self.limiter.put_back(&it);
            }
        }
    }

    /// Tells what is untold and waits a moment for the reader.
    pub fn end(&mut self) {
        for it in self.limiter.take_all(Instant::now()) {
            self.tell(&it);
        }
        self.writer.flush(FAREWELL);
    }

    fn tell(&self, it: &LeftOut) -> bool {
        let fields = [
            ("kind", Value::Text(it.event)),
            ("lines", Value::Number(it.lines)),
        ];
        self.writer.offer(&line(self.json, "left-out", &fields))
    }
}

fn line(json: bool, event: &str, fields: &[(&str, Value)]) -> String {
    match json {
        true => json_line(&clock::stamp(), event, fields),
        false => text_line(&clock::stamp(), event, fields),
    }
}

fn json_line(time: &str, event: &str, fields: &[(&str, Value)]) -> String {
    let mut line = format!("{{\"time\":\"{time}\",\"event\":{}", json_text(event));
    for (key, value) in fields {
        line += &format!(",\"{key}\":");
        line += &match value {
            Value::Number(number) => number.to_string(),
            Value::Text(text) => json_text(text),
            Value::Name(name) => json_text(&String::from_utf8_lossy(name)),
        };
    }
    line + "}\n"
}

fn text_line(time: &str, event: &str, fields: &[(&str, Value)]) -> String {
    let mut line = format!("{time} {event}");
    for (key, value) in fields {
        line += &format!(" {key}=");
        line += &match value {
            Value::Number(number) => number.to_string(),
            Value::Text(text) => plain_text(text),
            Value::Name(name) => plain_text(&String::from_utf8_lossy(name)),
        };
    }
    line + "\n"
}

/// As it is if that cannot be misread, else in quotes, with what does not print escaped.
pub fn plain_text(text: &str) -> String {
    let plain = |letter: char| letter.is_alphanumeric() || ".:-_/[]".contains(letter);
    if !text.is_empty() && text.chars().all(plain) {
        text.to_string()
    } else {
        format!("{text:?}")
    }
}

/// A JSON string. Control characters above 127 need no escape by the standard, but a terminal may
/// obey them.
pub fn json_text(text: &str) -> String {
    let mut out = String::from("\"");
    for letter in text.chars() {
        match letter {
            '"' => out += "\\\"",
            '\\' => out += "\\\\",
            '\n' => out += "\\n",
            '\t' => out += "\\t",
            '\r' => out += "\\r",
            control if control.is_control() => out += &format!("\\u{:04x}", u32::from(control)),
            other => out.push(other),
        }
    }
    out + "\""
}

#[cfg(test)]
mod tests {
    use super::*;
    use std::io::{BufRead, BufReader, Read};
    use std::os::unix::net::UnixStream;

    const FIELDS: [(&str, Value); 3] = [
        ("name", Value::Name("a\n\"é".as_bytes())),
        ("port", Value::Number(4370)),
        ("peer", Value::Text("[::1]:9")),
    ];

    #[test]
    fn a_line_has_the_same_fields_for_people_and_as_json() {
        assert_eq!(
            text_line("T", "registered", &FIELDS),
            "T registered name=\"a\\n\\\"é\" port=4370 peer=[::1]:9\n"
        );
        assert_eq!(
            json_line("T", "registered", &FIELDS),
            "{\"time\":\"T\",\"event\":\"registered\",\"name\":\"a\\n\\\"é\",\"port\":4370,\"peer\":\"[::1]:9\"}\n"
        );
    }

    /// Nobody reads, so there is no room for the count: it is told once there is.
    #[test]
    fn a_count_that_does_not_fit_is_told_later() {
        let (mut reader, into) = UnixStream::pair().unwrap();
        let mut log = Log {
            json: false,
            quiet: false,
            limiter: Limiter::default(),
            writer: Writer::new(into, |_| String::new()).unwrap(),
        };
        for _ in 0..60 {
            log.admits("refused");
        }
        let after = |seconds| Instant::now() + Duration::from_secs(seconds);
        while log.writer.offer("x\n") {}
        log.writer.flush(Duration::from_millis(50));
        while log.writer.offer("x\n") {}
        log.tell_left_out(after(1));
        assert!(log.due().is_some());
        let mut part = [0; 65_536];
        while !log.writer.offer("y\n") {
            let _count = reader.read(&mut part).unwrap();
        }
        log.tell_left_out(after(3));
        assert_eq!(log.due(), None);
        let mut lines = BufReader::new(reader).lines().map_while(Result::ok);
        assert!(lines.any(|it| it.contains(" left-out kind=refused lines=10")));
    }

    #[test]
    fn json_escapes_what_json_and_terminals_need() {
        for (text, json) in [
            ("", "\"\""),
            ("a b", "\"a b\""),
            ("\"\\/", "\"\\\"\\\\/\""),
            ("\n\r\t", "\"\\n\\r\\t\""),
            ("\u{1}\u{1b}[2J", "\"\\u0001\\u001b[2J\""),
            ("\u{7f}\u{9b}", "\"\\u007f\\u009b\""),
            ("é日𝄞", "\"é日𝄞\""),
        ] {
            assert_eq!(json_text(text), json);
        }
    }

    #[test]
    fn names_that_could_be_misread_are_quoted() {
        for (text, plain) in [
            ("ride", "ride"),
            ("é日", "é日"),
            ("", "\"\""),
            ("a b", "\"a b\""),
            ("a=b", "\"a=b\""),
            ("a\nb", "\"a\\nb\""),
            ("\u{1b}[2J", "\"\\u{1b}[2J\""),
        ] {
            assert_eq!(plain_text(text), plain);
        }
    }
}
