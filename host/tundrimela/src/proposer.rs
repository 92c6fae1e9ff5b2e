use crate::bytes::number;
use crate::layout::{header, proposer};
use crate::raw::{self, Answer};
use crate::{Batch, Digest, Genesis, Header, Key, Refusal};

const PARENTS: u8 = 1;
const DIGEST: u8 = 2;
const TIMER: u8 = 3;

/// Makes a member's own headers.
///
/// A header is made when there are parents and either the timer has run out or the waiting
/// digests have the size asked for. The timer is the host's: it says with each event whether it
/// has run out, and starts it anew with each header.
#[derive(Clone, Debug, PartialEq, Eq)]
pub struct Proposer {
    state: [u8; proposer::SIZE],
    header_size: u32,
}

impl Proposer {
    /// A proposer at round 1 over genesis, and its first header if one is made at once.
    ///
    /// An own key that is not a member's is [`Refusal::BadCommittee`].
    pub fn start(
        genesis: &Genesis,
        own: Key,
        header_size: u32,
        timer: bool,
    ) -> Result<(Proposer, Option<Header>), Refusal> {
        let mut state = [0; proposer::SIZE];
        let header = made(|header| {
            raw::proposer_start(
                genesis.committee().as_bytes(),
                &own,
                genesis.as_bytes(),
                header_size.into(),
                timer.into(),
                &mut state,
                header,
            )
        })?;
        let proposer = Proposer { state, header_size };
        Ok((proposer, header))
    }

    /// Takes the parents of a round; those of a round below the current one are dropped.
    ///
    /// Refused as [`Refusal::BadShape`]: round 4,294,967,295, over 32 parents.
    pub fn parents(
        &mut self,
        round: u32,
        parents: &[Digest],
        timer: bool,
    ) -> Result<Option<Header>, Refusal> {
        self.event(PARENTS, round, &parents.concat(), &[], 0, timer)
    }

    /// Takes a worker's batch. Of a digest given twice the later worker stays.
    ///
    /// A 65th waiting one, repeats counted, is [`Refusal::NoRoom`].
    pub fn digest(&mut self, batch: &Batch, timer: bool) -> Result<Option<Header>, Refusal> {
        self.event(DIGEST, 0, &[], &batch.digest, batch.worker, timer)
    }

    /// The timer runs out.
    pub fn timer(&mut self) -> Option<Header> {
        let result = self.event(TIMER, 0, &[], &[], 0, true);
        result.expect("the state is the library's own")
    }

    fn event(
        &mut self,
        tag: u8,
        round: u32,
        parents: &[u8],
        digest: &[u8],
        worker: u32,
        timer: bool,
    ) -> Result<Option<Header>, Refusal> {
        made(|header| {
            raw::proposer_event(
                tag,
                round.into(),
                parents,
                digest,
                worker.into(),
                self.header_size.into(),
                timer.into(),
                &mut self.state,
                header,
            )
        })
    }

    /// The current round.
    pub fn round(&self) -> u32 {
        number(&self.state, proposer::ROUND)
    }

    /// How many digests wait, repeats counted.
    pub fn waiting(&self) -> usize {
        self.state[proposer::WAITING_COUNT].into()
    }

    /// The state, as the library reads it.
    pub fn as_bytes(&self) -> &[u8] {
        &self.state
    }
}

/// The header that a call has made, if any.
fn made(ask: impl FnOnce(&mut [u8]) -> Answer) -> Result<Option<Header>, Refusal> {
    let mut bytes = vec![0; header::SIZE];
    let made = ask(&mut bytes).result()? == 1;
    Ok(made.then(|| Header::made(bytes)))
}
