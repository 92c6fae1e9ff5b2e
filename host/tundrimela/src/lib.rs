//! The deciding half of a node of the shared cycle calendar, for a Rust host.
//!
//! The decisions are made by a proved library without heap, clock or network. It answers every
//! call with a value or a numbered [`Refusal`] and relies on no check by its caller. This crate
//! gives its byte slices types: what can be written with them has the right length, and what the
//! library refuses comes back as an `Err`.
//!
//! ```
//! use tundrimela::{Committee, Member, Refusal};
//!
//! let member = |name: u8, stake| Member { key: [name; 32], stake, workers: vec![0] };
//! let committee = Committee::new(&[member(1, 1), member(2, 1), member(3, 1), member(4, 1)])?;
//!
//! assert_eq!(committee.quorum(), 3);
//! assert_eq!(committee.validity(), 2);
//! assert_eq!(committee.leader(6)?, 2);
//! assert_eq!(committee.stake(&[9; 32]), 0);
//! assert!(committee.has_worker(&[4; 32], 0));
//!
//! let voiceless = Committee::new(&[member(1, 0)]);
//! assert_eq!(voiceless, Err(Refusal::BadCommittee));
//! # Ok::<(), Refusal>(())
//! ```
//!
//! A header has a string, whose hash is its id; the host takes the hash. The library says which
//! parents and batches of it are missing.
//!
//! ```
//! use tundrimela::{Batch, Batches, Committee, Genesis, Header, Known, Member, Record, Refusal};
//!
//! let member = |name: u8| Member { key: [name; 32], stake: 1, workers: vec![0] };
//! let committee = Committee::new(&[member(1), member(2)])?;
//! let genesis = Genesis::new(&committee, &[[11; 32], [12; 32]])?;
//! let batch = Batch { digest: [5; 32], worker: 0 };
//! let header = Header::new([1; 32], 1, &[[11; 32], [13; 32]], &[batch])?;
//! assert_eq!(header.string().len(), 40 + 36 + 2 * 32);
//!
//! let mut known = Known::new(100)?;
//! assert_eq!(genesis.missing_parents(&known, &header), [[13; 32]]);
//! known.learn(&Record { round: 1, origin: [2; 32], digest: [13; 32] })?;
//! assert!(genesis.delivers(&known, &header));
//! assert_eq!(Batches::new([2; 32]).missing(&header), [batch]);
//! # Ok::<(), Refusal>(())
//! ```
//!
//! What peers send is checked with the host's verdicts on hashes and signatures: [`Header::check`],
//! [`Vote::check`], [`Certificate::check`]. [`Voters`] and [`Counts`] count up to a quorum.
//! [`Proposer`] makes a member's own headers.
//!
//! ```
//! # use tundrimela::{Committee, Genesis, Member, Proposer, Refusal, Voters};
//! # let member = |name: u8| Member { key: [name; 32], stake: 1, workers: vec![0] };
//! # let committee = Committee::new(&[member(1), member(2)])?;
//! # let genesis = Genesis::new(&committee, &[[11; 32], [12; 32]])?;
//! let (mut proposer, header) = Proposer::start(&genesis, [1; 32], 1_000, false)?;
//! assert_eq!(header, None);
//! let header = proposer.timer().expect("genesis is there and the timer has run out");
//! assert_eq!(header.round(), 1);
//!
//! let mut voters = Voters::new();
//! assert!(!voters.count(&committee, &[1; 32])?);
//! assert!(voters.count(&committee, &[2; 32])?);
//! # Ok::<(), Refusal>(())
//! ```
//!
//! [`raw`] has the same calls on plain byte slices; [`layout`] says how those are laid out.

#![deny(unsafe_code)]
#![warn(missing_docs)]

mod batch;
mod bytes;
mod certificate;
mod checks;
mod committee;
mod counts;
#[allow(unsafe_code)]
mod ffi;
mod genesis;
mod header;
mod known;
pub mod layout;
mod proposer;
pub mod raw;
mod refusal;
mod table;
mod vote;
mod voters;

pub use batch::{Batch, Batches};
pub use certificate::Certificate;
pub use checks::Verdicts;
pub use committee::{Committee, Key, Member, Setup};
pub use counts::Counts;
pub use genesis::Genesis;
pub use header::Header;
pub use known::{Known, Record};
pub use proposer::Proposer;
pub use refusal::Refusal;
pub use vote::Vote;
pub use voters::Voters;

/// A digest: the first half of a SHA-512 hash, which the host takes.
pub type Digest = [u8; layout::DIGEST];
