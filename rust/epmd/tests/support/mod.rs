//! What the tests and the benchmark share: a mapper as a process of its own, and a client that
//! sends any bytes.

// Each of them uses a part of this.
#![allow(dead_code, unused_imports)]

mod client;
mod folder;
mod namespace;
mod process;
mod system;

pub use client::*;
pub use folder::*;
pub use namespace::*;
pub use process::*;
pub use system::*;
