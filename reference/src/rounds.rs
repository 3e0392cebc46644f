//! The rounds of demand 3 and the struck rounds (document 01, "The rounds of
//! demand 3"), over anything that can be called: the model here, or the calls
//! of a library.

use crate::model::{event_bytes, Access, Cache, Outcome, Tables};

/// What the rounds ask of tables. A call gives its event bytes or its refusal number.
pub trait Callable {
    fn queue_is_empty(&self) -> bool;
    /// The address of the first entry marked sent, in the order of the entries.
    fn first_sent(&self) -> Option<u64>;
    fn send(&mut self) -> Result<Vec<u8>, u8>;
    fn fill(&mut self, address: u64) -> Result<Vec<u8>, u8>;
    fn offer(&mut self, access: Access) -> Result<Vec<u8>, u8>;
    fn tables(&self) -> Tables;
}

/// All that is compared after a number of rounds.
#[derive(Clone, PartialEq, Eq, Debug)]
pub struct Standing {
    pub tables: Tables,
    /// Of all calls so far, 0x11 left out.
    pub events: Vec<u8>,
}

/// A run of rounds: how each offer ended and the standing after 0, 1, 2 .. rounds.
#[derive(Clone, PartialEq, Eq, Debug)]
pub struct Rounds {
    /// By round: `None` where nothing was offered, else accepted or the refusal number.
    pub offers: Vec<Option<Result<(), u8>>>,
    pub standings: Vec<Standing>,
    /// The events after 0, 1, 2 .. rounds, 0x11 among them.
    pub logs: Vec<Vec<u8>>,
}

impl Rounds {
    fn start<C: Callable>(machine: &C) -> Rounds {
        let start = Standing { tables: machine.tables(), events: Vec::new() };
        Rounds { offers: Vec::new(), standings: vec![start], logs: vec![Vec::new()] }
    }

    pub fn flags(&self) -> Vec<bool> {
        self.offers.iter().map(|offer| *offer == Some(Ok(()))).collect()
    }

    pub fn accepted(&self) -> bool {
        self.flags().last() == Some(&true)
    }

    /// One round; the access is offered only if there is one.
    fn round<C: Callable>(&mut self, machine: &mut C, access: Option<Access>) {
        let mut events = self.standings.last().expect("there is a start").events.clone();
        let mut log = self.logs.last().expect("there is a start").clone();
        let mut drained = Vec::new();
        if !machine.queue_is_empty() {
            drained.extend(machine.send().unwrap_or_default());
        }
        if let Some(address) = machine.first_sent() {
            drained.extend(machine.fill(address).unwrap_or_default());
        }
        events.extend(&drained);
        log.extend(&drained);
        let offer = access.map(|access| machine.offer(access));
        match &offer {
            Some(Ok(written)) => {
                events.extend(written);
                log.extend(written);
            }
            Some(Err(number)) => log.extend([0x11, *number]),
            None => (),
        }
        self.logs.push(log);
        self.offers.push(offer.map(|outcome| outcome.map(|_| ())));
        self.standings.push(Standing { tables: machine.tables(), events });
    }
}

/// Rounds up to and with the accepting one, but no more than `limit`.
pub fn first_run<C: Callable>(machine: &mut C, access: Access, limit: usize) -> Rounds {
    let mut rounds = Rounds::start(machine);
    while rounds.offers.len() < limit && !rounds.accepted() {
        rounds.round(machine, Some(access));
    }
    rounds
}

/// Rounds that are told only which ones accepted.
pub fn struck_run<C: Callable>(machine: &mut C, access: Access, flags: &[bool]) -> Rounds {
    let mut rounds = Rounds::start(machine);
    for &accepted in flags {
        rounds.round(machine, accepted.then_some(access));
    }
    rounds
}

/// By this round a well-formed offer is accepted, or refused as "set held" for ever.
pub fn bound(queued: usize, misses: usize) -> usize {
    (queued + misses).max(1)
}

/// How many rounds past the bound a held end is looked at.
pub const ROUNDS_AFTER: usize = 3;
const SET_HELD: u8 = 6;

/// What is wrong with a first run that had `limit` = the bound and ROUNDS_AFTER more.
pub fn bound_broken(rounds: &Rounds, bound: usize) -> Option<String> {
    let offers = &rounds.offers;
    if rounds.accepted() {
        let late = offers.len() > bound;
        return late.then(|| format!("accepted in round {}, bound {bound}", offers.len()));
    }
    let held = Some(Err(SET_HELD));
    (bound..=bound + ROUNDS_AFTER)
        .find(|&round| offers.get(round - 1) != Some(&held))
        .map(|round| format!("round {round} is not refused with 6, bound {bound}"))
}

/// The first number of rounds after which two runs stand differently.
pub fn first_apart(first: &Rounds, other: &Rounds) -> Option<usize> {
    let count = first.standings.len().max(other.standings.len());
    (0..count).find(|&rounds| first.standings.get(rounds) != other.standings.get(rounds))
}

impl Callable for Cache {
    fn queue_is_empty(&self) -> bool {
        self.queue.is_empty()
    }

    fn first_sent(&self) -> Option<u64> {
        self.misses.iter().find(|entry| entry.sent).map(|entry| entry.address)
    }

    fn send(&mut self) -> Result<Vec<u8>, u8> {
        bytes(Cache::send(self))
    }

    fn fill(&mut self, address: u64) -> Result<Vec<u8>, u8> {
        bytes(Cache::fill(self, address))
    }

    fn offer(&mut self, access: Access) -> Result<Vec<u8>, u8> {
        bytes(self.access(access))
    }

    fn tables(&self) -> Tables {
        self.encode()
    }
}

fn bytes(outcome: Outcome) -> Result<Vec<u8>, u8> {
    outcome.map(|events| event_bytes(&events)).map_err(|refusal| refusal.number())
}
