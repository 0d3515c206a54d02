//! The client through the functions over pointers, where an empty run is lent as null.

use birkenschuh::ffi::{self, bks_alive2_reply, bks_names_line, bks_names_reply, bks_port2_reply};

use crate::calls::Request;

fn lent(run: &[u8]) -> (*const u8, usize) {
    match run {
        [] => (std::ptr::null(), 0),
        _ => (run.as_ptr(), run.len()),
    }
}

/// Writes a request over pointers.
pub fn write(request: &Request, out: &mut [u8]) -> Result<usize, u32> {
    let (out, room) = match out {
        [] => (std::ptr::null_mut(), 0),
        _ => (out.as_mut_ptr(), out.len()),
    };
    // SAFETY: the runs are slices, or empty.
    let told = unsafe {
        match request {
            Request::Alive2(of) => {
                let ((name, name_len), (extra, extra_len)) = (lent(&of.name), lent(&of.extra));
                ffi::bks_alive2_request(
                    of.port,
                    of.kind,
                    of.protocol,
                    of.highest,
                    of.lowest,
                    name,
                    name_len,
                    extra,
                    extra_len,
                    out,
                    room,
                )
            }
            Request::PortPlease2(name) => {
                let (name, name_len) = lent(name);
                ffi::bks_port_please2_request(name, name_len, out, room)
            }
            Request::Names => ffi::bks_names_request(out, room),
        }
    };
    match told.refusal {
        0 => Ok(told.written),
        refusal => {
            assert_eq!(told.written, 0, "a refused call writes nothing");
            Err(refusal)
        }
    }
}

pub fn read_alive2(reply: &[u8]) -> bks_alive2_reply {
    let (reply, length) = lent(reply);
    // SAFETY: the reply is a slice, or empty.
    unsafe { ffi::bks_read_alive2(reply, length) }
}

pub fn read_port2(reply: &[u8]) -> bks_port2_reply {
    let (reply, length) = lent(reply);
    // SAFETY: the reply is a slice, or empty.
    unsafe { ffi::bks_read_port2(reply, length) }
}

pub fn read_names(reply: &[u8]) -> bks_names_reply {
    let (reply, length) = lent(reply);
    // SAFETY: the reply is a slice, or empty.
    unsafe { ffi::bks_read_names(reply, length) }
}

/// What the library is to tell over pointers, by the model's answer: zero wherever nothing is told.
pub fn alive2_told(told: &Result<model::Alive2Reply, u32>) -> bks_alive2_reply {
    let (refusal, tag, result, creation) = match *told {
        Err(refusal) => (refusal, 0, 0, 0),
        Ok(model::Alive2Reply::Registered { tag, creation }) => (0, tag, 0, creation),
        Ok(model::Alive2Reply::Error { tag, result }) => (0, tag, result, 0),
    };
    bks_alive2_reply {
        refusal,
        tag: tag.into(),
        result: result.into(),
        creation,
    }
}

pub fn port2_told(told: &Result<model::Port2Reply, u32>) -> bks_port2_reply {
    let mut all = bks_port2_reply {
        refusal: 0,
        result: 0,
        port: 0,
        highest: 0,
        lowest: 0,
        kind: 0,
        protocol: 0,
        name_at: 0,
        name_len: 0,
        extra_at: 0,
        extra_len: 0,
    };
    match told {
        Err(refusal) => all.refusal = *refusal,
        Ok(model::Port2Reply::Error { result }) => all.result = (*result).into(),
        Ok(model::Port2Reply::Found {
            port,
            kind,
            protocol,
            highest,
            lowest,
            name,
            extra,
        }) => {
            (all.port, all.highest, all.lowest) = (*port, *highest, *lowest);
            (all.kind, all.protocol) = (*kind, *protocol);
            (all.name_at, all.name_len) = (name.start as u32, name.len() as u32);
            (all.extra_at, all.extra_len) = (extra.start as u32, extra.len() as u32);
        }
    }
    all
}

pub const NO_LINE: bks_names_line = bks_names_line {
    at: 0,
    len: 0,
    port: 0,
};

pub fn names_told(told: &Result<model::NamesReply, u32>) -> bks_names_reply {
    let mut all = bks_names_reply {
        refusal: 0,
        port: 0,
        count: 0,
        line: [NO_LINE; 64],
    };
    match told {
        Err(refusal) => all.refusal = *refusal,
        Ok(told) => {
            all.port = told.port;
            all.count = told.lines.len() as u32;
            for (line, told) in all.line.iter_mut().zip(&told.lines) {
                line.at = told.name.start as u32;
                line.len = told.name.len() as u32;
                line.port = told.port;
            }
        }
    }
    all
}
