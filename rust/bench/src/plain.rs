//! A node's requests as one would write them in plain Rust, with the name rule of the independent
//! implementation. That one's own writers fill a `Vec` first, which would be most of their time.

use birkenschuh::client::Node;

pub fn alive2_request(node: &Node, out: &mut [u8]) -> Option<usize> {
    let (name, extra) = (node.name, node.extra);
    if extra.len() > 128 || !model::is_node_name(name) {
        return None;
    }
    if node.lowest > node.highest || node.lowest > 6 || node.highest < 5 {
        return None;
    }
    let length = 13 + name.len() + extra.len();
    let frame = out.get_mut(..2 + length)?;
    let (head, rest) = frame.split_at_mut(13);
    head[..2].copy_from_slice(&(length as u16).to_be_bytes());
    head[2] = 120;
    head[3..5].copy_from_slice(&node.port.to_be_bytes());
    head[5] = node.kind;
    head[6] = node.protocol;
    head[7..9].copy_from_slice(&node.highest.to_be_bytes());
    head[9..11].copy_from_slice(&node.lowest.to_be_bytes());
    head[11..13].copy_from_slice(&(name.len() as u16).to_be_bytes());
    let (to_name, rest) = rest.split_at_mut(name.len());
    to_name.copy_from_slice(name);
    let (count, to_extra) = rest.split_at_mut(2);
    count.copy_from_slice(&(extra.len() as u16).to_be_bytes());
    to_extra.copy_from_slice(extra);
    Some(2 + length)
}

pub fn port_please2_request(name: &[u8], out: &mut [u8]) -> Option<usize> {
    if !model::is_node_name(name) {
        return None;
    }
    let length = 1 + name.len();
    let frame = out.get_mut(..2 + length)?;
    frame[..2].copy_from_slice(&(length as u16).to_be_bytes());
    frame[2] = 122;
    frame[3..].copy_from_slice(name);
    Some(2 + length)
}

pub fn names_request(out: &mut [u8]) -> Option<usize> {
    out.get_mut(..3)?.copy_from_slice(&[0, 1, 110]);
    Some(3)
}
