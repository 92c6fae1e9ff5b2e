//! What the stand-ins and the drivers saw, in order. Each thread has a log of its own: a driver
//! runs all its tasks on the thread that asks it.

use crate::crypto::Digest;
use crate::header_waiter::WaiterMessage;
use crate::messages::Certificate;
use crate::primary::Round;
use std::cell::RefCell;
use std::net::SocketAddr;

pub enum Seen {
    /// The network was given a message for one address.
    Send(SocketAddr, Vec<u8>),
    /// The network was given a message for many addresses.
    Broadcast(Vec<SocketAddr>, Vec<u8>),
    /// A cancel handler was dropped: the network would stop resending.
    Dropped,
    /// The store wrote a value under a key.
    Put(Vec<u8>, Vec<u8>),
    /// The header waiter was given this.
    HeaderWaiter(WaiterMessage),
    /// The certificate waiter was given this.
    CertificateWaiter(Certificate),
    /// The proposer was given the parents of a round.
    Proposer(Vec<Digest>, Round),
    /// The consensus was given this.
    Consensus(Certificate),
    /// A refusal, which the Rust only writes to its log.
    Refused(String),
    /// A task ended by a panic.
    Panic(String),
}

thread_local! {
    static LOG: RefCell<Vec<Seen>> = const { RefCell::new(Vec::new()) };
}

pub fn push(seen: Seen) {
    LOG.with(|log| log.borrow_mut().push(seen))
}

/// All that was seen on this thread since the last call.
pub fn take() -> Vec<Seen> {
    LOG.with(|log| std::mem::take(&mut *log.borrow_mut()))
}
