//! Document 01's proposer, read on its own, on the bytes of its state.

use crate::headers::{batch_at, key_at};
use crate::made::put;
use crate::members::Row;
use crate::numbers::MAX;
use crate::records;
use std::collections::{BTreeMap, BTreeSet};
use tundrimela::layout::{batch, header, proposer};
use tundrimela::raw::Answer;
use tundrimela::Refusal;

/// What an event brings.
pub struct Event {
    pub kind: &'static str,
    pub tag: u8,
    pub p: u64,
    pub parents: Vec<u8>,
    pub digest: Vec<u8>,
    pub worker: u64,
}

/// What stands beside an event.
pub struct Beside {
    pub kinds: [&'static str; 3],
    pub header_size: u64,
    pub timer: u8,
    pub header: Vec<u8>,
}

/// What a call answers, and what it leaves in state and header.
pub struct After {
    pub answer: Answer,
    pub state: Vec<u8>,
    pub header: Vec<u8>,
}

impl After {
    fn refused(refusal: Refusal, state: &[u8], header: &[u8]) -> After {
        After {
            answer: Answer::refused(refusal),
            state: state.to_vec(),
            header: header.to_vec(),
        }
    }

    /// Document 01, read on its own: the header if one is due, and then nothing waits.
    fn settled(mut state: Vec<u8>, beside: &Beside) -> After {
        let size = 32 * u64::from(state[proposer::WAITING_COUNT]);
        let parents = state[proposer::PARENT_COUNT] > 0;
        let due = parents && (beside.timer == 1 || size >= beside.header_size);
        let mut header = beside.header.clone();
        if due {
            header = made_of(&state);
            state[proposer::PARENT_COUNT..].fill(0);
        }
        After {
            answer: Answer::done(due.into()),
            state,
            header,
        }
    }
}

/// The header of a state: parents and batches ascending, each once, the later worker of two.
fn made_of(state: &[u8]) -> Vec<u8> {
    let parents = (0..state[proposer::PARENT_COUNT].into())
        .map(|place| key_at(state, proposer::PARENTS + 32 * place));
    let parents: BTreeSet<_> = parents.collect();
    let payload = (0..state[proposer::WAITING_COUNT].into())
        .map(|place| batch_at(state, proposer::WAITING + batch::SIZE * place));
    let payload: BTreeMap<_, _> = payload.collect();
    let rows = payload.iter();
    let rows = rows.flat_map(|(digest, id)| [&digest[..], &id.to_le_bytes()].concat());
    let mut bytes = vec![0; header::SIZE];
    put(&mut bytes, header::AUTHOR, &state[..32]);
    put(&mut bytes, header::ROUND, &state[proposer::ROUND..][..4]);
    bytes[header::PARENT_COUNT] = parents.len() as u8;
    bytes[header::PAYLOAD_COUNT] = payload.len() as u8;
    let parents: Vec<_> = parents.into_iter().collect();
    put(&mut bytes, header::PARENTS, &parents.concat());
    put(&mut bytes, header::PAYLOAD, &rows.collect::<Vec<_>>());
    bytes
}

pub fn round_of(state: &[u8]) -> u64 {
    let bytes = state[proposer::ROUND..][..4].try_into();
    u32::from_le_bytes(bytes.expect("4 bytes")).into()
}

/// The round becomes p + 1, and the parents are replaced.
fn advance(state: &mut [u8], p: u64, parents: &[u8]) {
    let round = (p + 1) as u32;
    put(state, proposer::ROUND, &round.to_le_bytes());
    state[proposer::PARENT_COUNT] = (parents.len() / 32) as u8;
    state[proposer::PARENTS..proposer::WAITING].fill(0);
    put(state, proposer::PARENTS, parents);
}

/// Whether bytes are a state: their length, a round, and counts that have places.
fn is_state(state: &[u8]) -> bool {
    state.len() == proposer::SIZE
        && round_of(state) > 0
        && state[proposer::PARENT_COUNT] <= 32
        && state[proposer::WAITING_COUNT] <= 64
}

/// Document 01, read on its own: 11, 12, then the step and the header that is due.
pub fn stepped(state: &[u8], event: &Event, beside: &Beside) -> After {
    let refused = |refusal| After::refused(refusal, state, &beside.header);
    let lengths = beside.header.len() == header::SIZE && is_state(state);
    if !lengths || beside.header_size > MAX || beside.timer > 1 {
        return refused(Refusal::BadShape);
    }
    let mut next = state.to_vec();
    match event.tag {
        1 => {
            let whole = event.parents.len() % 32 == 0 && event.parents.len() <= 1_024;
            if event.p > MAX - 1 || !whole {
                return refused(Refusal::BadShape);
            }
            if event.p >= round_of(state) {
                advance(&mut next, event.p, &event.parents);
            }
        }
        2 => {
            if event.digest.len() != 32 || event.worker > MAX {
                return refused(Refusal::BadShape);
            }
            let waiting = usize::from(state[proposer::WAITING_COUNT]);
            if waiting == 64 {
                return refused(Refusal::NoRoom);
            }
            let at = proposer::WAITING + batch::SIZE * waiting;
            put(&mut next, at, &event.digest);
            put(
                &mut next,
                at + batch::WORKER,
                &(event.worker as u32).to_le_bytes(),
            );
            next[proposer::WAITING_COUNT] += 1;
        }
        3 => {}
        _ => return refused(Refusal::BadShape),
    }
    After::settled(next, beside)
}

/// Document 01, read on its own: 10, 11, then round 1 over genesis.
pub fn started(
    members: Option<&[Row]>,
    own: &[u8],
    genesis: &[u8],
    state: &[u8],
    beside: &Beside,
) -> After {
    let refused = |refusal| After::refused(refusal, state, &beside.header);
    let members = match members {
        None => return refused(Refusal::BadCommittee),
        Some(members) => members,
    };
    if own.len() != 32 {
        return refused(Refusal::BadShape);
    }
    if !members.iter().any(|x| x.key == own) {
        return refused(Refusal::BadCommittee);
    }
    let in_shape = beside.header_size <= MAX
        && beside.timer <= 1
        && state.len() == proposer::SIZE
        && beside.header.len() == header::SIZE;
    match records::read_genesis(members, genesis) {
        Some(records) if in_shape => {
            let digests: Vec<_> = records.iter().map(|x| x.digest).collect();
            let mut state = vec![0; proposer::SIZE];
            put(&mut state, 0, own);
            advance(&mut state, 0, &digests.concat());
            After::settled(state, beside)
        }
        _ => refused(Refusal::BadShape),
    }
}
