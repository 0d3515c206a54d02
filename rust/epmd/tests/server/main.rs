//! The program from outside: over sockets, by its options and its log. Needs no Erlang.

#[path = "../support/mod.rs"]
mod support;

mod addresses;
mod creations;
mod crowds;
mod limits;
mod log;
mod namespaces;
mod program;
mod refusals;
mod requests;
mod results;
