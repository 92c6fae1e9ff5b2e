//! Asks the Rust's `Synchronizer` about headers, over a store in memory.

use crate::runtime::{recording, Settling};
use narwhal::config::{Committee, WorkerId};
use narwhal::crypto::{Digest, PublicKey};
use narwhal::header_waiter::WaiterMessage;
use narwhal::messages::{Certificate, Header};
use narwhal::recorder::{self, Seen};
use narwhal::store::Store;
use narwhal::synchronizer::Synchronizer;
use std::collections::BTreeMap;

/// The key under which the primary notes that a worker has a batch.
pub fn payload_key(digest: &Digest, worker: WorkerId) -> Vec<u8> {
    [digest.as_ref(), &worker.to_le_bytes()].concat()
}

pub struct SynchronizerDriver {
    runtime: Settling,
    store: Store,
    synchronizer: Synchronizer,
}

impl SynchronizerDriver {
    pub fn new(own: PublicKey, committee: &Committee) -> Self {
        let runtime = Settling::new();
        let (store, synchronizer) = runtime.run(async {
            let store = Store::new("in memory").expect("the stand-in opens");
            let synchronizer = Synchronizer::new(
                own,
                committee,
                store.clone(),
                recording(Seen::HeaderWaiter),
                recording(Seen::CertificateWaiter),
            );
            (store, synchronizer)
        });
        SynchronizerDriver {
            runtime,
            store,
            synchronizer,
        }
    }

    /// Stores a certificate under a digest, which need not be its own.
    pub fn add_certificate(&mut self, digest: &Digest, certificate: &Certificate) {
        let value = bincode::serialize(certificate).expect("a certificate is plain data");
        self.runtime.write(&mut self.store, digest.to_vec(), value)
    }

    /// Notes a batch that one of the own workers has.
    pub fn add_payload(&mut self, digest: &Digest, worker: WorkerId) {
        let key = payload_key(digest, worker);
        self.runtime.write(&mut self.store, key, Vec::new())
    }

    /// The header's parents, or the missing ones that the waiter is asked for.
    pub fn parents(&mut self, header: &Header) -> Result<Vec<Certificate>, Vec<Digest>> {
        recorder::take();
        let parents = self.runtime.run(self.synchronizer.get_parents(header));
        let parents = parents.expect("the store reads");
        match self.waiting() {
            None => Ok(parents),
            Some(Seen::HeaderWaiter(WaiterMessage::SyncParents(missing, _))) => {
                assert!(parents.is_empty(), "no parents beside missing ones");
                Err(missing)
            }
            Some(_) => panic!("the header waiter is asked for parents"),
        }
    }

    /// The batches of the header that the waiter is asked for.
    pub fn missing_payload(&mut self, header: &Header) -> BTreeMap<Digest, WorkerId> {
        recorder::take();
        let missing = self.runtime.run(self.synchronizer.missing_payload(header));
        let missing = missing.expect("the store reads");
        let batches = match self.waiting() {
            None => BTreeMap::new(),
            Some(Seen::HeaderWaiter(WaiterMessage::SyncBatches(batches, _))) => {
                batches.into_iter().collect()
            }
            Some(_) => panic!("the header waiter is asked for batches"),
        };
        assert_eq!(missing, !batches.is_empty());
        batches
    }

    /// Whether the certificate is delivered. If not, it goes to its waiter.
    pub fn deliver(&mut self, certificate: &Certificate) -> bool {
        recorder::take();
        let future = self.synchronizer.deliver_certificate(certificate);
        let delivered = self.runtime.run(future).expect("the store reads");
        match self.waiting() {
            None => assert!(delivered),
            Some(Seen::CertificateWaiter(x)) => assert!(!delivered && x == *certificate),
            Some(_) => panic!("the certificate waiter is asked"),
        }
        delivered
    }

    /// What a waiter was given: at most one message.
    fn waiting(&mut self) -> Option<Seen> {
        self.runtime.settle();
        let mut seen = recorder::take();
        assert!(seen.len() <= 1, "one message to the waiters");
        seen.pop()
    }
}
