//! `--port-of NAME`: where the node of a name listens.

use birkenschuh::client::{port_please2_request, read_port2, Port2Reply, REQUEST_OUTPUT};
use birkenschuh::Refusal;

use crate::ask::{asked, cannot_ask, reply_to, Answer, Failure};
use crate::log::plain_text;
use crate::options::Options;
use crate::show;

/// The port alone, or all that the mapper tells of the node as one JSON object.
pub fn ask(name: &str, options: &Options) -> Result<Answer, Failure> {
    let mut request = [0; REQUEST_OUTPUT];
    let length = port_please2_request(name.as_bytes(), &mut request).map_err(|_| no_name(name))?;
    let reply = reply_to(&request[..length], options)?;
    match read_port2(&reply) {
        Ok(Port2Reply::Found(node)) if node.name == name.as_bytes() => Ok(Answer {
            text: match options.json {
                true => show::json_node(&node),
                false => format!("{}\n", node.port),
            },
            note: None,
        }),
        Ok(Port2Reply::Found(node)) => {
            let other = plain_text(&String::from_utf8_lossy(node.name));
            Err(cannot_ask(options, format!("the reply is about {other}")))
        }
        Ok(Port2Reply::Failed { result }) => Err(Failure::NoAnswer(format!(
            "nobody is registered as {} {} (Result {result})",
            plain_text(name),
            asked(options)
        ))),
        Err(refusal) => Err(cannot_ask(options, unreadable(refusal, &reply))),
    }
}

fn no_name(name: &str) -> Failure {
    Failure::BadOption(format!(
        "--port-of must be a node's name, 1 to 255 bytes without \"@\" and host, not {name:?}"
    ))
}

fn unreadable(refusal: Refusal, reply: &[u8]) -> String {
    match refusal {
        Refusal::UnknownTag => format!("the reply begins with {}, not with 119", reply[0]),
        _ => "the reply is cut short, or has bytes behind its end".to_string(),
    }
}
