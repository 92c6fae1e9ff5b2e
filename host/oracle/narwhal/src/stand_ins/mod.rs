//! What the Rust leans on and the runs replace.

pub mod ed25519_dalek;
pub mod helper;
pub mod network;
pub mod payload_receiver;
pub mod rocksdb;
