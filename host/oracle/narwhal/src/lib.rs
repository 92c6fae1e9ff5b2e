//! The Rust of facebookresearch/narwhal at commit 727530cc43, unmodified.
//!
//! Each module includes the text of its file from the folder `NARWHAL_SRC` and copies no line of it.
//! Around the text stand the names that it expects to find as crates, and here and there a
//! function that reaches what the text keeps private. [`stand_ins`] has what lies outside: signatures, disk and
//! network, and the two files of the primary that can't be had.

// `ensure!` calls `bail!` by its path in the crate, which a macro of an included text may not.
#![allow(macro_expanded_macro_exports_accessed_by_absolute_paths)]

pub mod recorder;
pub mod stand_ins;

macro_rules! text {
    ($path:literal) => {
        include!(concat!(env!("NARWHAL_SRC"), $path));
    };
}

pub mod crypto {
    use crate::stand_ins::ed25519_dalek;
    text!("/crypto/src/lib.rs");
}

pub mod config {
    use crate::crypto;
    text!("/config/src/lib.rs");
}

pub mod store {
    use crate::stand_ins::rocksdb;
    text!("/store/src/lib.rs");
}

#[macro_use]
pub mod error {
    use crate::{crypto, store};
    text!("/primary/src/error.rs");
}

pub mod messages {
    use crate::stand_ins::ed25519_dalek;
    use crate::{config, crypto};
    text!("/primary/src/messages.rs");
}

pub mod aggregators {
    use crate::{config, crypto};
    text!("/primary/src/aggregators.rs");
}

pub mod synchronizer {
    use crate::{config, crypto, store};
    text!("/primary/src/synchronizer.rs");
}

pub mod header_waiter {
    use crate::stand_ins::network;
    use crate::{config, crypto, store};
    text!("/primary/src/header_waiter.rs");
}

pub mod certificate_waiter {
    use crate::store;
    text!("/primary/src/certificate_waiter.rs");
}

pub mod garbage_collector {
    use crate::stand_ins::network;
    use crate::{config, crypto};
    text!("/primary/src/garbage_collector.rs");
}

pub mod proposer {
    use crate::{config, crypto};
    text!("/primary/src/proposer.rs");
}

pub mod core {
    use crate::stand_ins::network;
    use crate::{config, crypto, store};
    text!("/primary/src/core.rs");
}

pub use stand_ins::{helper, payload_receiver};

pub mod primary {
    use crate::stand_ins::network;
    use crate::{config, crypto, store};
    text!("/primary/src/primary.rs");
}

/// What the primary's own lib.rs, which can't be had, publishes to the consensus.
mod published {
    pub use crate::messages::Certificate;
    pub use crate::primary::Round;
}

pub mod consensus {
    use crate::published as primary;
    use crate::{config, crypto};
    text!("/consensus/src/lib.rs");

    /// The member that leads a round: the private `leader`, asked about a dag in which every
    /// member has a certificate of that round.
    pub fn leader_of(committee: &Committee, round: Round) -> PublicKey {
        let (tx, rx_primary) = tokio::sync::mpsc::channel(1);
        let consensus = Consensus {
            committee: committee.clone(),
            gc_depth: 0,
            rx_primary,
            tx_primary: tx.clone(),
            tx_output: tx,
            genesis: Vec::new(),
        };
        let everyone = Certificate::genesis(committee)
            .into_iter()
            .map(|x| (x.origin(), (x.digest(), x)))
            .collect();
        let dag: Dag = std::iter::once((round, everyone)).collect();
        let (_, certificate) = consensus
            .leader(round, &dag)
            .expect("every member has a certificate of this round");
        certificate.origin()
    }
}
