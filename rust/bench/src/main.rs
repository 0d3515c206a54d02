//! One table: the proved library beside its peers. Same input, same run; a ratio above 1 is slower than
//! the peer. What the buffers held before is said in docs/PERFORMANCE.md.

mod calls;
mod client;
mod digests;
mod handshake;
mod mapper;
mod names;
mod plain;
mod timing;

fn main() {
    println!("| case | ours, ns | peer | peer, ns | ratio |");
    println!("|---|---|---|---|---|");
    digests::md5();
    names::names();
    mapper::mapper();
    client::requests();
    client::replies();
    client::names();
    handshake::handshake();
    calls::calls();
}
