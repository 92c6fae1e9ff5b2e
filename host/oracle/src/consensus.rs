//! Drives the Rust's `Consensus`, one certificate at a time.

use crate::runtime::Settling;
use crate::CHANNEL_CAPACITY;
use narwhal::config::Committee;
use narwhal::consensus::Consensus;
use narwhal::messages::Certificate;
use narwhal::primary::Round;
use narwhal::recorder::{self, Seen};
use tokio::sync::mpsc::{channel, Receiver, Sender};

pub use narwhal::consensus::leader_of;

pub struct ConsensusDriver {
    runtime: Settling,
    tx_certificates: Sender<Certificate>,
    rx_primary: Receiver<Certificate>,
    rx_output: Receiver<Certificate>,
}

impl ConsensusDriver {
    pub fn new(committee: Committee, gc_depth: Round) -> Self {
        let runtime = Settling::new();
        let (tx_certificates, rx_certificates) = channel(CHANNEL_CAPACITY);
        let (tx_primary, rx_primary) = channel(CHANNEL_CAPACITY);
        let (tx_output, rx_output) = channel(CHANNEL_CAPACITY);
        runtime.run(async {
            Consensus::spawn(committee, gc_depth, rx_certificates, tx_primary, tx_output)
        });
        runtime.settle();
        ConsensusDriver {
            runtime,
            tx_certificates,
            rx_primary,
            rx_output,
        }
    }

    /// The certificates that this one lists, or why the task has ended.
    pub fn feed(&mut self, certificate: Certificate) -> Result<Vec<Certificate>, String> {
        recorder::take();
        self.tx_certificates
            .try_send(certificate)
            .map_err(|_| "the task has ended before")?;
        self.runtime.settle();
        for seen in recorder::take() {
            if let Seen::Panic(message) = seen {
                return Err(message);
            }
        }
        let listed = all(&mut self.rx_output);
        assert!(listed == all(&mut self.rx_primary));
        Ok(listed)
    }
}

fn all(receiver: &mut Receiver<Certificate>) -> Vec<Certificate> {
    std::iter::from_fn(|| receiver.try_recv().ok()).collect()
}
