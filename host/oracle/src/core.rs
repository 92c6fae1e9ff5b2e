//! Drives the Rust's `Core`, one event at a time.

use crate::committee::{name, secret};
use crate::messages::show;
use crate::runtime::{recording, Settling};
use crate::synchronizer::payload_key;
use crate::CHANNEL_CAPACITY;
use narwhal::config::{Committee, WorkerId};
use narwhal::core::Core;
use narwhal::crypto::{Digest, Hash as _, PublicKey, SignatureService};
use narwhal::header_waiter::WaiterMessage;
use narwhal::messages::{Certificate, Header, Vote};
use narwhal::primary::{PrimaryMessage, Round};
use narwhal::recorder::{self, Seen};
use narwhal::store::Store;
use narwhal::synchronizer::Synchronizer;
use std::collections::BTreeMap;
use std::fmt;
use std::net::SocketAddr;
use std::sync::atomic::{AtomicU64, Ordering};
use std::sync::{Arc, Once};
use tokio::sync::mpsc::{channel, Sender};

/// What a core is given.
pub enum Event {
    Header(Header),
    Vote(Vote),
    Certificate(Certificate),
    CertificatesRequest,
    ReturnedHeader(Header),
    ReturnedCertificate(Certificate),
    OwnHeader(Header),
}

/// What an event makes a core do.
pub enum Act {
    Broadcast(PrimaryMessage),
    Send(SocketAddr, PrimaryMessage),
    StoreHeader(Header),
    StoreCertificate(Certificate),
    SyncParents(Vec<Digest>, Header),
    SyncBatches(BTreeMap<Digest, WorkerId>, Header),
    WaitCertificate(Certificate),
    SendParents(Vec<Digest>, Round),
    SendOrdering(Certificate),
    /// The event is refused with document 01's number.
    Refused(u8),
    /// A message is no longer resent.
    Forget,
    /// The core has ended.
    Ended(String),
}

pub struct CoreDriver {
    runtime: Settling,
    store: Store,
    consensus_round: Arc<AtomicU64>,
    tx_primaries: Sender<PrimaryMessage>,
    tx_headers: Sender<Header>,
    tx_certificates: Sender<Certificate>,
    tx_own_headers: Sender<Header>,
}

impl CoreDriver {
    pub fn new(own: PublicKey, committee: Committee, gc_depth: Round) -> Self {
        log_refusals();
        let runtime = Settling::new();
        let consensus_round = Arc::new(AtomicU64::new(0));
        let (tx_primaries, rx_primaries) = channel(CHANNEL_CAPACITY);
        let (tx_headers, rx_headers) = channel(CHANNEL_CAPACITY);
        let (tx_certificates, rx_certificates) = channel(CHANNEL_CAPACITY);
        let (tx_own_headers, rx_own_headers) = channel(CHANNEL_CAPACITY);
        let store = runtime.run(async {
            let store = Store::new("in memory").expect("the stand-in opens");
            let synchronizer = Synchronizer::new(
                own,
                &committee,
                store.clone(),
                recording(Seen::HeaderWaiter),
                recording(Seen::CertificateWaiter),
            );
            Core::spawn(
                own,
                committee,
                store.clone(),
                synchronizer,
                SignatureService::new(secret(&own)),
                consensus_round.clone(),
                gc_depth,
                rx_primaries,
                rx_headers,
                rx_certificates,
                rx_own_headers,
                recording(Seen::Consensus),
                recording(|(parents, round)| Seen::Proposer(parents, round)),
            );
            store
        });
        runtime.settle();
        CoreDriver {
            runtime,
            store,
            consensus_round,
            tx_primaries,
            tx_headers,
            tx_certificates,
            tx_own_headers,
        }
    }

    /// Sets the consensus round that the core reads.
    pub fn set_consensus_round(&mut self, round: Round) {
        self.consensus_round.store(round, Ordering::Relaxed)
    }

    /// Notes a batch that one of the own workers has.
    pub fn add_payload(&mut self, digest: &Digest, worker: WorkerId) {
        let key = payload_key(digest, worker);
        self.runtime.write(&mut self.store, key, Vec::new())
    }

    /// All that the event makes the core do. Within one channel the order is the Rust's.
    pub fn feed(&mut self, event: Event) -> Vec<Act> {
        recorder::take();
        if !self.send(event) {
            return vec![Act::Ended("before this event".into())];
        }
        self.runtime.settle();
        recorder::take().into_iter().map(act).collect()
    }

    fn send(&mut self, event: Event) -> bool {
        let primaries = |message| self.tx_primaries.try_send(message).is_ok();
        match event {
            Event::Header(x) => primaries(PrimaryMessage::Header(x)),
            Event::Vote(x) => primaries(PrimaryMessage::Vote(x)),
            Event::Certificate(x) => primaries(PrimaryMessage::Certificate(x)),
            Event::CertificatesRequest => primaries(PrimaryMessage::CertificatesRequest(
                Vec::new(),
                PublicKey::default(),
            )),
            Event::ReturnedHeader(x) => self.tx_headers.try_send(x).is_ok(),
            Event::ReturnedCertificate(x) => self.tx_certificates.try_send(x).is_ok(),
            Event::OwnHeader(x) => self.tx_own_headers.try_send(x).is_ok(),
        }
    }
}

fn act(seen: Seen) -> Act {
    match seen {
        Seen::Send(address, bytes) => Act::Send(address, message(&bytes)),
        Seen::Broadcast(_, bytes) => Act::Broadcast(message(&bytes)),
        Seen::Dropped => Act::Forget,
        Seen::Put(key, value) => stored(&key, &value),
        Seen::HeaderWaiter(WaiterMessage::SyncParents(missing, header)) => {
            Act::SyncParents(missing, header)
        }
        Seen::HeaderWaiter(WaiterMessage::SyncBatches(missing, header)) => {
            Act::SyncBatches(missing.into_iter().collect(), header)
        }
        Seen::CertificateWaiter(certificate) => Act::WaitCertificate(certificate),
        Seen::Proposer(parents, round) => Act::SendParents(parents, round),
        Seen::Consensus(certificate) => Act::SendOrdering(certificate),
        Seen::Refused(message) => Act::Refused(number(&message)),
        Seen::Panic(message) => Act::Ended(message),
    }
}

fn message(bytes: &[u8]) -> PrimaryMessage {
    bincode::deserialize(bytes).expect("the core sends primary messages")
}

/// A stored value's kind is told by the key that it has to stand under.
fn stored(key: &[u8], value: &[u8]) -> Act {
    if let Ok(certificate) = bincode::deserialize::<Certificate>(value) {
        if certificate.digest().as_ref() == key {
            return Act::StoreCertificate(certificate);
        }
    }
    let header: Header = bincode::deserialize(value).expect("a certificate or a header");
    assert!(header.id.as_ref() == key, "a header stands under its id");
    Act::StoreHeader(header)
}

/// Document 01's number of a refusal, by the words that the Rust has for it.
fn number(message: &str) -> u8 {
    const WORDS: [(&str, u8); 9] = [
        ("Invalid header id", 1),
        ("unknown authority", 2),
        ("Malformed header", 3),
        ("Invalid signature", 4),
        ("more than once", 5),
        ("unexpected vote", 6),
        ("certificate without a quorum", 7),
        ("are not a quorum", 8),
        ("too old", 9),
    ];
    let known = WORDS.iter().find(|(words, _)| message.contains(words));
    known.map_or_else(|| panic!("no refusal of document 01: {}", message), |x| x.1)
}

/// The core's refusals are only logged: warnings, and debug lines for those too old.
fn log_refusals() {
    static LOGGER: Once = Once::new();
    LOGGER.call_once(|| {
        log::set_logger(&Refusals).expect("no other logger");
        log::set_max_level(log::LevelFilter::Debug);
    })
}

struct Refusals;

impl log::Log for Refusals {
    fn enabled(&self, metadata: &log::Metadata) -> bool {
        metadata.target() == "narwhal::core"
    }

    fn log(&self, record: &log::Record) {
        if !self.enabled(record.metadata()) {
            return;
        }
        let message = record.args().to_string();
        if record.level() <= log::Level::Warn || message.ends_with("too old") {
            recorder::push(Seen::Refused(message))
        }
    }

    fn flush(&self) {}
}

impl fmt::Display for Act {
    fn fmt(&self, f: &mut fmt::Formatter) -> fmt::Result {
        match self {
            Act::Broadcast(x) => write!(f, "broadcast {}", show_message(x)),
            Act::Send(_, x) => write!(f, "send {}", show_message(x)),
            Act::StoreHeader(x) => write!(f, "store header {}", show_header(x)),
            Act::StoreCertificate(x) => write!(f, "store certificate {}", show(x)),
            Act::SyncParents(missing, x) => {
                write!(f, "sync {} parents of {}", missing.len(), show_header(x))
            }
            Act::SyncBatches(missing, x) => {
                write!(f, "sync {} batches of {}", missing.len(), show_header(x))
            }
            Act::WaitCertificate(x) => write!(f, "wait {}", show(x)),
            Act::SendParents(parents, round) => {
                write!(f, "{} parents of round {}", parents.len(), round)
            }
            Act::SendOrdering(x) => write!(f, "order {}", show(x)),
            Act::Refused(number) => write!(f, "refused {}", number),
            Act::Forget => write!(f, "forget"),
            Act::Ended(why) => write!(f, "ended: {}", why),
        }
    }
}

fn show_header(header: &Header) -> String {
    format!("{}@{}", name(&header.author), header.round)
}

fn show_message(message: &PrimaryMessage) -> String {
    match message {
        PrimaryMessage::Header(x) => format!("header {}", show_header(x)),
        PrimaryMessage::Vote(x) => {
            let (author, origin) = (name(&x.author), name(&x.origin));
            format!("vote of {} for {}@{}", author, origin, x.round)
        }
        PrimaryMessage::Certificate(x) => {
            let voters: Vec<_> = x.votes.iter().map(|(key, _)| name(key)).collect();
            format!("certificate {} by {}", show(x), voters.join(" "))
        }
        PrimaryMessage::CertificatesRequest(..) => "request".into(),
    }
}
