//! Drives the Rust's `Proposer`, one event at a time, on a clock that only the driver moves.

use crate::committee::secret;
use crate::runtime::driving;
use crate::CHANNEL_CAPACITY;
use narwhal::config::{Committee, WorkerId};
use narwhal::crypto::{Digest, PublicKey, SignatureService};
use narwhal::messages::Header;
use narwhal::primary::Round;
use narwhal::proposer::Proposer;
use narwhal::recorder::{self, Seen};
use std::time::Duration;
use tokio::runtime::{Builder, Runtime};
use tokio::sync::mpsc::{channel, Receiver, Sender};

/// A timer that has run out is ready at every poll, so that without parents the proposer never
/// rests. An event needs fewer turns than this.
const TURNS: usize = 8;

pub struct ProposerDriver {
    runtime: Runtime,
    tx_parents: Sender<(Vec<Digest>, Round)>,
    tx_digests: Sender<(Digest, WorkerId)>,
    rx_headers: Receiver<Header>,
    max_header_delay: u64,
}

impl ProposerDriver {
    /// A proposer, and the headers that it makes before any event. `max_header_delay` is in
    /// milliseconds of the driver's clock.
    pub fn start(
        own: PublicKey,
        committee: &Committee,
        header_size: usize,
        max_header_delay: u64,
    ) -> (Self, Vec<Header>) {
        let runtime = Builder::new_current_thread()
            .enable_time()
            .start_paused(true)
            .build()
            .expect("a runtime needs no resource");
        let (tx_parents, rx_parents) = channel(CHANNEL_CAPACITY);
        let (tx_digests, rx_digests) = channel(CHANNEL_CAPACITY);
        let (tx_headers, rx_headers) = channel(CHANNEL_CAPACITY);
        runtime.block_on(async {
            Proposer::spawn(
                own,
                committee,
                SignatureService::new(secret(&own)),
                header_size,
                max_header_delay,
                rx_parents,
                rx_digests,
                tx_headers,
            )
        });
        let mut driver = ProposerDriver {
            runtime,
            tx_parents,
            tx_digests,
            rx_headers,
            max_header_delay,
        };
        let headers = driver.turn();
        (driver, headers)
    }

    pub fn parents(&mut self, parents: Vec<Digest>, round: Round) -> Vec<Header> {
        let sent = self.tx_parents.try_send((parents, round));
        sent.expect("the proposer goes on");
        self.turn()
    }

    pub fn digest(&mut self, digest: Digest, worker: WorkerId) -> Vec<Header> {
        let sent = self.tx_digests.try_send((digest, worker));
        sent.expect("the proposer goes on");
        self.turn()
    }

    /// The timer runs out.
    pub fn timer(&mut self) -> Vec<Header> {
        let delay = Duration::from_millis(self.max_header_delay + 1);
        self.runtime.block_on(tokio::time::advance(delay));
        self.turn()
    }

    fn turn(&mut self) -> Vec<Header> {
        recorder::take();
        driving(|| self.runtime.block_on(turns()));
        for seen in recorder::take() {
            if let Seen::Panic(message) = seen {
                panic!("the proposer has ended: {}", message)
            }
        }
        std::iter::from_fn(|| self.rx_headers.try_recv().ok()).collect()
    }
}

async fn turns() {
    for _ in 0..TURNS {
        tokio::task::yield_now().await
    }
}
