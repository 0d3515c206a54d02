//! `--names`: which names a mapper has.

use birkenschuh::client::{names_request, read_names, REQUEST_OUTPUT};
use birkenschuh::Refusal;

use crate::ask::{cannot_ask, reply_to, Answer, Failure};
use crate::options::Options;
use crate::show;

const IN_MORE_THAN_ONE_WAY: &str =
    "this can be read in more than one way, since a name may hold a \
                                    newline; --port-of NAME asks for one name";
const UNREADABLE: &str =
    "the reply is cut short, is none to NAMES, has more than 64 names, or one \
                          that breaks the rule of names";

/// The names as a table or as one JSON object; the text of the reply where it does not tell them
/// apart.
pub fn ask(options: &Options) -> Result<Answer, Failure> {
    let mut request = [0; REQUEST_OUTPUT];
    let length = names_request(&mut request).map_err(|refusal| cannot_ask(options, refusal))?;
    let reply = reply_to(&request[..length], options)?;
    match read_names(&reply) {
        Ok(names) => Ok(Answer {
            text: match options.json {
                true => show::json_names(names.port(), names.lines()),
                false => show::table(names.lines()),
            },
            note: None,
        }),
        Err(Refusal::Ambiguous) => Ok(Answer {
            text: as_it_came(&reply, options.json),
            note: Some(IN_MORE_THAN_ONE_WAY),
        }),
        Err(_) => Err(cannot_ask(options, UNREADABLE)),
    }
}

/// A reply with more than one reading has one: a port, and text in UTF-8.
fn as_it_came(reply: &[u8], json: bool) -> String {
    let (port, text) = reply.split_at(4);
    let text = String::from_utf8_lossy(text);
    match json {
        true => show::json_lines(u16::from_be_bytes([port[2], port[3]]), &text),
        false => show::lines(&text),
    }
}
