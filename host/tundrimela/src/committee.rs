use crate::bytes::{array, put, put_list};
use crate::layout::{self, member};
use crate::raw::{self, Answer};
use crate::Refusal;

/// A member's public key.
pub type Key = [u8; layout::KEY];

/// One member of a committee.
#[derive(Clone, Debug, PartialEq, Eq)]
pub struct Member {
    /// Its public key, which names it.
    pub key: Key,
    /// Its share in every decision.
    pub stake: u32,
    /// The ids of its workers.
    pub workers: Vec<u32>,
}

impl Member {
    fn encode(&self) -> [u8; member::SIZE] {
        let mut row = [0; member::SIZE];
        put(&mut row, 0, &self.key);
        put(&mut row, member::STAKE, &self.stake.to_le_bytes());
        put_list(
            &mut row,
            member::WORKER_COUNT,
            member::WORKERS..member::SIZE,
            self.workers.iter().map(|id| id.to_le_bytes()),
        );
        row
    }
}

/// A member list that the library has accepted.
#[derive(Clone, Debug, PartialEq, Eq)]
pub struct Committee {
    members: Vec<u8>,
}

impl Committee {
    /// A committee of 1 to 32 members, in ascending order of their keys.
    ///
    /// Refused as [`Refusal::BadCommittee`]: another number of members, keys that are not strictly
    /// ascending, a stake of 0, a total stake over 16,777,216, a member with over 8 workers.
    pub fn new(members: &[Member]) -> Result<Committee, Refusal> {
        let members: Vec<u8> = members.iter().flat_map(Member::encode).collect();
        raw::committee(&members).result()?;
        Ok(Committee { members })
    }

    /// The number of members.
    pub fn size(&self) -> usize {
        self.members.len() / member::SIZE
    }

    /// The members' keys, ascending.
    pub fn keys(&self) -> impl Iterator<Item = Key> + '_ {
        let rows = self.members.chunks_exact(member::SIZE);
        rows.map(|row| array(row, 0))
    }

    /// The quorum threshold: 2T/3 + 1 for a total stake of T.
    pub fn quorum(&self) -> u32 {
        small(raw::quorum(&self.members))
    }

    /// The validity threshold: (T + 2)/3 for a total stake of T.
    pub fn validity(&self) -> u32 {
        small(raw::validity(&self.members))
    }

    /// The stake of a key; 0 for a stranger.
    pub fn stake(&self, key: &Key) -> u32 {
        small(raw::stake(&self.members, key))
    }

    /// Whether the key is a member's who has a worker of this id.
    pub fn has_worker(&self, key: &Key, id: u32) -> bool {
        small(raw::worker(&self.members, key, id.into())) == 1
    }

    /// The place, in key order, of the member that leads a round.
    ///
    /// Round 0 has no leader: [`Refusal::BadShape`].
    pub fn leader(&self, round: u32) -> Result<usize, Refusal> {
        let place = raw::leader(&self.members, round.into()).result()?;
        Ok(place as usize)
    }

    /// The members' rows, as the library reads them.
    pub fn as_bytes(&self) -> &[u8] {
        &self.members
    }
}

/// The library gives what it promises: an accepted committee is never refused, and each of its
/// values is at most its total stake plus one.
fn small(answer: Answer) -> u32 {
    let count = answer.result().expect("the committee is accepted");
    u32::try_from(count).expect("at most the total stake and one")
}

/// A committee and the depth below which old rounds go.
#[derive(Clone, Debug, PartialEq, Eq)]
pub struct Setup {
    setup: Vec<u8>,
}

impl Setup {
    /// The setup of a committee. Every depth fits.
    pub fn new(depth: u32, committee: &Committee) -> Setup {
        let mut setup = u64::from(depth).to_le_bytes().to_vec();
        setup.extend_from_slice(committee.as_bytes());
        small(raw::setup(&setup));
        Setup { setup }
    }

    /// The depth and the members' rows, as the library reads them.
    pub fn as_bytes(&self) -> &[u8] {
        &self.setup
    }
}
