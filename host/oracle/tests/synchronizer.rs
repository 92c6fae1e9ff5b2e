//! The synchronizer's driver tells what the Rust finds and what it asks its waiters for.

use narwhal::crypto::{Digest, Hash as _};
use oracle::committee::{key, small};
use oracle::messages::{certify, genesis, header};
use oracle::synchronizer::SynchronizerDriver;
use std::collections::BTreeMap;

fn digest(byte: u8) -> Digest {
    Digest([byte; 32])
}

#[test]
fn genesis_is_there_and_the_rest_is_stored() {
    let committee = small(&[1; 4], 1);
    let mut driver = SynchronizerDriver::new(key(0), &committee);
    let first = header(1, 1, &[], &genesis(&committee));
    assert_eq!(driver.parents(&first).map(|x| x.len()), Ok(4));
    let known = certify(&first, &[0, 1, 2]);
    let second = header(2, 2, &[], &[known.digest(), digest(1)]);
    let missing = driver.parents(&second).unwrap_err();
    assert_eq!(missing.len(), 2);
    driver.add_certificate(&known.digest(), &known);
    assert_eq!(driver.parents(&second).unwrap_err(), [digest(1)]);
    driver.add_certificate(&digest(1), &known);
    assert_eq!(driver.parents(&second).map(|x| x.len()), Ok(2));
}

#[test]
fn a_certificate_waits_for_its_parents() {
    let mut driver = SynchronizerDriver::new(key(0), &small(&[1; 4], 1));
    let parent = certify(&header(1, 1, &[], &[]), &[]);
    let child = certify(&header(2, 2, &[], &[parent.digest()]), &[]);
    assert!(driver.deliver(&parent));
    assert!(!driver.deliver(&child));
    driver.add_certificate(&parent.digest(), &parent);
    assert!(driver.deliver(&child));
}

#[test]
fn a_batch_is_known_by_its_worker() {
    let mut driver = SynchronizerDriver::new(key(0), &small(&[1; 4], 2));
    let payload = [(digest(1), 0), (digest(2), 1), (digest(3), 0)];
    driver.add_payload(&digest(1), 0);
    driver.add_payload(&digest(2), 0);
    let missing = driver.missing_payload(&header(1, 1, &payload, &[]));
    let expected: BTreeMap<_, _> = payload[1..].iter().cloned().collect();
    assert_eq!(missing, expected);
    let own = driver.missing_payload(&header(0, 1, &payload, &[]));
    assert!(own.is_empty());
}
