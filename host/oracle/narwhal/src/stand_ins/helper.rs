//! Stands for the primary's helper.rs, which can't be had. No run starts it.

use crate::config::Committee;
use crate::crypto::{Digest, PublicKey};
use crate::store::Store;
use tokio::sync::mpsc::Receiver;

pub struct Helper;

impl Helper {
    pub fn spawn(_committee: Committee, _store: Store, _rx: Receiver<(Vec<Digest>, PublicKey)>) {}
}
