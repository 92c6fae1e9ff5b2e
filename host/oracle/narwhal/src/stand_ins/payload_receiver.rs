//! Stands for the primary's payload_receiver.rs, which can't be had. No run starts it.

use crate::config::WorkerId;
use crate::crypto::Digest;
use crate::store::Store;
use tokio::sync::mpsc::Receiver;

pub struct PayloadReceiver;

impl PayloadReceiver {
    pub fn spawn(_store: Store, _rx: Receiver<(Digest, WorkerId)>) {}
}
