//! The proposer over sequences of events, beside the Rust's under a clock that stands still.

mod making;
mod reading;

use crate::call::{Call, Written};
use crate::coverage::Coverage;
use crate::headers::{self, key_at};
use crate::listed::Listed;
use crate::made::{self, Made};
use crate::members::{self, Key, Row};
use crate::numbers::{over_32_bits, MAX};
use crate::records;
use crate::rng::Rng;
use crate::{agreed, Difference, Module};
use making::header_size;
use oracle::narwhal::crypto::{Digest, PublicKey};
use oracle::narwhal::messages::Header;
use oracle::proposer::ProposerDriver;
use reading::{started, stepped, After, Beside, Event};
use tundrimela::layout::{self, header, proposer};
use tundrimela::raw::{self, Answer};

pub const MODULE: Module = Module {
    name: "proposer",
    case,
};

/// The Rust's timer, in milliseconds of the driver's clock.
const DELAY: u64 = 100;

fn case(rng: &mut Rng, coverage: &mut Coverage) -> Result<(), Difference> {
    let mut run = Run {
        header_size: header_size(rng),
        timer: rng.once_in(6),
        rng,
        coverage,
        rust: None,
        state: Vec::new(),
        digests: Vec::new(),
    };
    run.start()?;
    for _ in 0..run.rng.within(1, 30) {
        run.event()?;
    }
    run.any_state()
}

struct Run<'a> {
    rng: &'a mut Rng,
    coverage: &'a mut Coverage,
    /// The Rust, as long as it has seen the same events.
    rust: Option<ProposerDriver>,
    /// Whether the timer has run out.
    timer: bool,
    header_size: u64,
    state: Vec<u8>,
    /// Digests that were given, to give some again.
    digests: Vec<Key>,
}

impl Run<'_> {
    fn start(&mut self) -> Result<(), Difference> {
        let list = Listed::any(self.rng);
        let genesis = records::genesis(self.rng, &list.rows);
        let own = self.own(&list.rows);
        let beside = self.beside();
        let after = self.compare_start(&list, &own, &genesis, &beside)?;
        if after.answer.number != 0 {
            self.state = self.some_state();
            return Ok(());
        }
        if let (Some(rust), 0, records::RUSTS) = (&list.rust, beside.timer, genesis.kind) {
            let own = PublicKey(key_at(&own.bytes, 0));
            let size = beside.header_size as usize;
            let (driver, headers) = ProposerDriver::start(own, rust, size, DELAY);
            self.rust = Some(driver);
            let coverage = &mut self.coverage;
            coverage.beside_the_rust("proposer_start", after.answer);
            same(&headers, &after)?;
        }
        self.timer &= after.answer.count == 0;
        self.state = after.state;
        Ok(())
    }

    fn compare_start(
        &mut self,
        list: &Listed,
        own: &Made,
        genesis: &Made,
        beside: &Beside,
    ) -> Result<After, Difference> {
        let kinds = ["state: 3,366 bytes", "state: not 3,366 bytes"];
        let state = made::buffer(self.rng, kinds, proposer::SIZE);
        let members = list.rust.as_ref().map(|_| &list.rows[..]);
        let after = started(members, &own.bytes, &genesis.bytes, &state.bytes, beside);
        let (size, timer) = (beside.header_size, beside.timer);
        let kinds = [list.kind, own.kind, genesis.kind, state.kind];
        let call = Call {
            entry: "proposer_start",
            slices: &[
                ("members", &list.bytes),
                ("own", &own.bytes),
                ("genesis", &genesis.bytes),
            ],
            numbers: &[("header size", size), ("timer", timer.into())],
            kinds: &[&kinds[..], &beside.kinds].concat(),
        };
        self.ask(&call, &state.bytes, beside, after, |x, state, header| {
            raw::proposer_start(x[0], x[1], x[2], size, timer, state, header)
        })
    }

    /// Asks with a state and a header, which both are written.
    fn ask(
        &mut self,
        call: &Call,
        state: &[u8],
        beside: &Beside,
        after: After,
        ask: impl FnOnce(&[&[u8]], &mut [u8], &mut [u8]) -> Answer,
    ) -> Result<After, Difference> {
        let written = [
            Written::new("state", state, &after.state),
            Written::new("header", &beside.header, &after.header),
        ];
        let (rng, coverage) = (&mut *self.rng, &mut *self.coverage);
        call.compare_writing(rng, coverage, &written, after.answer, |x, y| match y {
            [state, header] => ask(x, state, header),
            _ => unreachable!("two buffers are written"),
        })?;
        Ok(after)
    }

    fn own(&mut self, members: &[Row]) -> Made {
        let own = match members {
            [_, ..] if !self.rng.once_in(12) => self.rng.pick(members).key,
            _ => members::key(self.rng),
        };
        let known = members.iter().any(|x| x.key == own);
        let kind = if known {
            "own: a member"
        } else {
            "own: a stranger"
        };
        made::of_32(self.rng, [kind, "own: not 32 bytes"], &own)
    }

    /// The header size of this run, the timer as it stands, and a buffer; at times others.
    fn beside(&mut self) -> Beside {
        let (size_kind, header_size) = match self.rng.below(40) {
            0 => ("size: over 32 bits", over_32_bits(self.rng, 0)),
            _ => ("size: of the run", self.header_size),
        };
        let (timer_kind, timer) = match self.rng.below(40) {
            0 => ("timer: over 1", *self.rng.pick(&[2, 3, 128, 255])),
            _ if self.timer => ("timer: run out", 1),
            _ => ("timer: runs", 0),
        };
        let kinds = ["header: 3,402 bytes", "header: not 3,402 bytes"];
        let header = made::buffer(self.rng, kinds, header::SIZE);
        Beside {
            kinds: [size_kind, timer_kind, header.kind],
            header_size,
            timer,
            header: header.bytes,
        }
    }

    /// One event of the run, on both sides where the library takes it.
    fn event(&mut self) -> Result<(), Difference> {
        let event = self.some_event();
        let before = self.timer;
        self.timer |= event.tag == 3;
        let beside = self.beside();
        let state = self.state.clone();
        let after = self.compare(&state, &event, &beside, "state: of a run")?;
        if after.answer.number != 0 {
            self.timer = before;
            return Ok(());
        }
        if let Some(rust) = &mut self.rust {
            let coverage = &mut self.coverage;
            coverage.beside_the_rust("proposer_event", after.answer);
            same(&feed(rust, &event), &after)?;
        }
        self.timer &= after.answer.count == 0;
        self.state = after.state;
        Ok(())
    }

    /// An event on a state that no run leaves, and with sizes that the Rust can't take.
    fn any_state(&mut self) -> Result<(), Difference> {
        let event = self.some_event();
        self.timer = self.rng.once_in(2);
        if self.rng.once_in(2) {
            self.header_size = MAX - self.rng.below(3) as u64;
        }
        let beside = self.beside();
        let mut state = self.some_state();
        let kind = match self.rng.below(6) {
            0 => {
                state[proposer::ROUND..][..4].fill(0);
                "state: round 0"
            }
            1 => {
                state[proposer::PARENT_COUNT] = *self.rng.pick(&[33, 64, 255]);
                "state: 33 parents or more"
            }
            2 => {
                state[proposer::WAITING_COUNT] = *self.rng.pick(&[65, 128, 255]);
                "state: 65 digests or more"
            }
            3 => {
                state.extend(self.rng.bytes(9));
                state.truncate(*self.rng.pick(&[0, 32, 3_365, 3_367]));
                "state: not 3,366 bytes"
            }
            _ => "state: any",
        };
        self.compare(&state, &event, &beside, kind).map(drop)
    }

    fn compare(
        &mut self,
        state: &[u8],
        event: &Event,
        beside: &Beside,
        kind: &'static str,
    ) -> Result<After, Difference> {
        let after = stepped(state, event, beside);
        let (tag, p, worker) = (event.tag, event.p, event.worker);
        let (size, timer) = (beside.header_size, beside.timer);
        let call = Call {
            entry: "proposer_event",
            slices: &[("parents", &event.parents), ("digest", &event.digest)],
            numbers: &[
                ("tag", tag.into()),
                ("p", p),
                ("worker", worker),
                ("header size", size),
                ("timer", timer.into()),
            ],
            kinds: &[&[event.kind, kind][..], &beside.kinds].concat(),
        };
        self.ask(&call, state, beside, after, |x, state, header| {
            raw::proposer_event(tag, p, x[0], x[1], worker, size, timer, state, header)
        })
    }
}

fn feed(rust: &mut ProposerDriver, event: &Event) -> Vec<Header> {
    match event.tag {
        1 => {
            let parents = event.parents.chunks(layout::DIGEST);
            let parents = parents.map(|x| Digest(key_at(x, 0))).collect();
            rust.parents(parents, event.p)
        }
        2 => rust.digest(Digest(key_at(&event.digest, 0)), event.worker as u32),
        _ => rust.timer(),
    }
}

/// The Rust makes the same header, or none either.
fn same(headers: &[Header], after: &After) -> Result<(), Difference> {
    let same = match headers {
        [] => after.answer.count == 0,
        [header] => after.answer.count == 1 && same_fields(header, &after.header),
        _ => false,
    };
    agreed(same, "the Rust makes other headers than document 01")
}

fn same_fields(rust: &Header, bytes: &[u8]) -> bool {
    headers::read(bytes).map_or(false, |parts| {
        let ours = parts.rust();
        parts.id == [0; 32]
            && (ours.author, ours.round) == (rust.author, rust.round)
            && ours.payload == rust.payload
            && ours.parents == rust.parents
    })
}
