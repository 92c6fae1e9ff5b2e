//! The core's driver tells each act and each refusal of the Rust.

use narwhal::crypto::{Digest, Signature};
use narwhal::messages::{Certificate, Header};
use oracle::committee::{key, small};
use oracle::core::{CoreDriver, Event};
use oracle::messages::{certify, genesis, header, vote};

/// `k0`'s core in a committee of four with stake 1 and one worker each, depth 50.
struct Run {
    core: CoreDriver,
    genesis: Vec<Digest>,
}

impl Run {
    fn new() -> Self {
        let committee = small(&[1; 4], 1);
        let genesis = genesis(&committee);
        let core = CoreDriver::new(key(0), committee, 50);
        Run { core, genesis }
    }

    fn first(&self, author: usize) -> Header {
        header(author, 1, &[], &self.genesis)
    }

    /// The acts in the order of their names, since the Rust fixes none between its channels.
    fn feed(&mut self, event: Event) -> Vec<String> {
        let acts = self.core.feed(event);
        let mut names: Vec<_> = acts.iter().map(|act| act.to_string()).collect();
        names.sort();
        names
    }

    fn refused(&mut self, event: Event, number: u8) {
        assert_eq!(self.feed(event), [format!("refused {}", number)])
    }
}

#[test]
fn an_own_header_becomes_a_certificate() {
    let mut run = Run::new();
    let own = run.first(0);
    let acts = run.feed(Event::OwnHeader(own.clone()));
    assert_eq!(acts, ["broadcast header k0@1", "store header k0@1"]);
    assert!(run.feed(Event::Vote(vote(&own, 3))).is_empty());
    let acts = run.feed(Event::Vote(vote(&own, 1)));
    let expected = [
        "broadcast certificate k0@1 by k0 k3 k1",
        "order k0@1",
        "store certificate k0@1",
    ];
    assert_eq!(acts, expected);
}

#[test]
fn three_certificates_give_the_parents() {
    let mut run = Run::new();
    for author in 1..=2 {
        let certificate = certify(&run.first(author), &[1, 2, 3]);
        let acts = run.feed(Event::Certificate(certificate));
        assert!(acts.contains(&format!("send vote of k0 for k{}@1", author)));
        assert!(acts.contains(&format!("order k{}@1", author)));
    }
    let certificate = certify(&run.first(3), &[1, 2, 3]);
    let acts = run.feed(Event::ReturnedCertificate(certificate));
    assert!(acts.contains(&"3 parents of round 1".into()), "{:?}", acts);
}

#[test]
fn what_is_missing_is_asked_for() {
    let mut run = Run::new();
    let batch = Digest([9; 32]);
    let laden = header(1, 1, &[(batch.clone(), 0)], &run.genesis);
    let acts = run.feed(Event::Header(laden.clone()));
    assert_eq!(acts, ["sync 1 batches of k1@1"]);
    run.core.add_payload(&batch, 0);
    let acts = run.feed(Event::ReturnedHeader(laden));
    assert_eq!(acts, ["send vote of k0 for k1@1", "store header k1@1"]);

    let orphan = header(2, 2, &[], &[Digest([8; 32])]);
    let acts = run.feed(Event::Header(orphan.clone()));
    assert_eq!(acts, ["sync 1 parents of k2@2"]);
    let acts = run.feed(Event::Certificate(certify(&orphan, &[1, 2, 3])));
    assert_eq!(acts, ["wait k2@2"]);
}

#[test]
fn each_refusal_has_its_number() {
    let mut run = Run::new();
    let good = run.first(1);
    let mut renamed = good.clone();
    renamed.id = Digest([1; 32]);
    run.refused(Event::Header(renamed), 1);
    let stranger = header(9, 1, &[], &run.genesis);
    run.refused(Event::Header(stranger), 2);
    let wrong_worker = header(1, 1, &[(Digest([1; 32]), 5)], &run.genesis);
    run.refused(Event::Header(wrong_worker), 3);
    let mut unsigned = good.clone();
    unsigned.signature = Signature::default();
    run.refused(Event::Header(unsigned), 4);
    run.refused(Event::Certificate(certify(&good, &[1, 1, 2])), 5);
    run.refused(Event::Vote(vote(&good, 2)), 6);
    run.refused(Event::Certificate(certify(&good, &[1, 2])), 7);
    let lonely = header(1, 1, &[], &run.genesis[..2]);
    run.refused(Event::Header(lonely), 8);
}

#[test]
fn p12_clearing_begins_above_the_depth() {
    for (consensus_round, answer) in [(50, vec![]), (51, vec!["refused 9"])] {
        let mut run = Run::new();
        run.core.set_consensus_round(consensus_round);
        run.feed(Event::Header(run.first(1)));
        let genesis = Certificate::genesis(&small(&[1; 4], 1)).remove(2);
        let acts = run.feed(Event::Certificate(genesis));
        let refusals: Vec<_> = acts.iter().filter(|x| x.starts_with("refused")).collect();
        assert_eq!(refusals, answer, "consensus round {}", consensus_round);
    }
}

#[test]
fn an_unexpected_message_ends_the_core() {
    let mut run = Run::new();
    let acts = run.feed(Event::CertificatesRequest);
    assert!(acts[0].contains("Unexpected core message"), "{:?}", acts);
    let acts = run.feed(Event::Header(run.first(1)));
    assert_eq!(acts, ["ended: before this event"]);
}

#[test]
fn a_cleared_vote_is_no_longer_resent() {
    let mut run = Run::new();
    run.feed(Event::Header(run.first(1)));
    run.core.set_consensus_round(52);
    let acts = run.feed(Event::Header(run.first(1)));
    assert_eq!(acts, ["forget", "store header k1@1"]);
    run.refused(Event::Header(run.first(1)), 9);
}
