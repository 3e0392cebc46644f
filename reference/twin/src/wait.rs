//! The exported wait: the rounds of demand 3 until the access is accepted, or as
//! many as the bound allows. `calls` has the same by another way, through the
//! reference's recorded rounds.

use crate::faults::Fault;
use reference::model::{check, event_bytes, Access, Cache, Event, Outcome, Refusal};
use reference::model::{Settings, Tables};

/// The events that wait writes, and the accepting round or 0.
pub struct Waited {
    pub events: Vec<u8>,
    pub round: u64,
}

fn refused(refusal: Refusal) -> Vec<u8> {
    event_bytes(&[Event::Refused { number: refusal.number() }])
}

/// The events of a send or fill that the tables allow.
fn allowed(outcome: Outcome) -> Vec<u8> {
    event_bytes(&outcome.expect("the rounds call only what is allowed"))
}

pub fn wait_on(settings: &Settings, tables: &mut Tables, access: Access, fault: Fault) -> Waited {
    if let Err(refusal) = check(settings, tables) {
        return Waited { events: refused(refusal), round: 0 };
    }
    if !access.well_formed() && !fault.is("wait-rounds-for-malformed") {
        return Waited { events: refused(Refusal::NotWellFormed), round: 0 };
    }
    let mut cache = Cache::decode(settings, tables);
    let last = fault.alter_bound((cache.queue.len() + cache.misses.len()).max(1));
    let waited = rounds(&mut cache, access, last as u64, fault);
    *tables = cache.encode();
    waited
}

fn rounds(cache: &mut Cache, access: Access, last: u64, fault: Fault) -> Waited {
    let mut events = Vec::new();
    for round in 1..=last {
        if !cache.queue.is_empty() {
            events.extend(allowed(cache.send()));
        }
        let sent = cache.misses.iter().find(|entry| entry.sent).map(|entry| entry.address);
        if let Some(address) = sent {
            events.extend(allowed(cache.fill(address)));
        }
        match cache.access(access) {
            Ok(answered) => {
                events.extend(event_bytes(&answered));
                return Waited { events, round };
            }
            Err(refusal) if round == last || fault.is("wait-writes-refusals") => {
                events.extend(refused(refusal));
            }
            Err(_) => (),
        }
    }
    Waited { events, round: 0 }
}
