//! The Rust's committee, and the small members `k0`, `k1` and so on of document 01's cases.

use narwhal::config::{Authority, Committee, PrimaryAddresses, Stake, WorkerAddresses, WorkerId};
use narwhal::crypto::{PublicKey, SecretKey};
use std::net::SocketAddr;

/// Marks a key as one of [`key`]'s.
const SMALL: u8 = 7;

/// The key of `k<place>`; they ascend.
pub fn key(place: usize) -> PublicKey {
    let mut bytes = [0; 32];
    bytes[0] = u8::try_from(place + 1).expect("a small committee");
    bytes[31] = SMALL;
    PublicKey(bytes)
}

/// The name of a key: `k<place>`, or `k?` for another one.
pub fn name(key: &PublicKey) -> String {
    match key.0 {
        [first, .., SMALL] => format!("k{}", i32::from(first) - 1),
        _ => "k?".into(),
    }
}

/// The secret key of any public one, as the stand-in for signatures has it.
pub fn secret(key: &PublicKey) -> SecretKey {
    let bytes = [[0; 32], key.0].concat();
    SecretKey::decode_base64(&base64::encode(bytes)).expect("64 bytes")
}

/// Members `k0`, `k1`, .. with these stakes, each with workers 0, 1, .. below `workers`.
pub fn small(stakes: &[Stake], workers: WorkerId) -> Committee {
    let members = stakes.iter().enumerate();
    from_members(members.map(|(place, stake)| (key(place).0, *stake, (0..workers).collect())))
}

/// A committee of any members: key, stake, worker ids.
pub fn from_members<Members>(members: Members) -> Committee
where
    Members: IntoIterator<Item = ([u8; 32], Stake, Vec<WorkerId>)>,
{
    let numbered = members.into_iter().enumerate();
    let authorities = numbered
        .map(|(place, (key, stake, workers))| (PublicKey(key), authority(place, stake, workers)))
        .collect();
    Committee { authorities }
}

fn authority(place: usize, stake: Stake, workers: Vec<WorkerId>) -> Authority {
    let primary = PrimaryAddresses {
        primary_to_primary: address(place, 1),
        worker_to_primary: address(place, 2),
    };
    let worker = WorkerAddresses {
        transactions: address(place, 3),
        worker_to_worker: address(place, 4),
        primary_to_worker: address(place, 5),
    };
    let workers = workers.into_iter().map(|id| (id, worker.clone())).collect();
    Authority {
        stake,
        primary,
        workers,
    }
}

/// The address of the member at a place; nothing listens there.
pub fn address(place: usize, port: u16) -> SocketAddr {
    SocketAddr::from(([10, 0, (place / 256) as u8, (place % 256) as u8], port))
}
