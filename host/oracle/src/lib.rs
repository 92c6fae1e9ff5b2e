//! The unmodified Rust as judge: it is started as it stands and driven one event at a time.
//!
//! [`committee`] and [`messages`] make what goes in; [`consensus`], [`core`] and [`proposer`] each
//! drive one of its tasks and hand back all that an event made it do; [`synchronizer`] asks its
//! questions on a store in memory.

#![forbid(unsafe_code)]

pub mod committee;
pub mod consensus;
pub mod core;
pub mod messages;
pub mod proposer;
mod runtime;
pub mod synchronizer;

pub use narwhal;

/// More than any run sends at once, so that no task waits for room in a channel.
const CHANNEL_CAPACITY: usize = 1 << 20;
