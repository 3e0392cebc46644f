//! Two logs side by side, as document 02 has it under L4: the refusals of a log, its groups, and
//! the pairs that differ.

/// The events of document 01 by kind, and the lengths of their bodies.
const EVENTS: [(u8, usize); 9] = [
    (0x10, 3),
    (0x11, 1),
    (0x12, 8),
    (0x13, 24),
    (0x14, 4),
    (0x15, 8),
    (0x16, 24),
    (0x17, 8),
    (0x18, 0),
];

/// "A group starts at 0x10, 0x11, 0x15, 0x16, 0x17 or 0x18".
const STARTS: [u8; 6] = [0x10, 0x11, 0x15, 0x16, 0x17, 0x18];

/// A refusal: its number and the place.
#[derive(Clone, Copy, Debug, PartialEq, Eq)]
pub struct Refusal {
    pub number: u8,
    pub place: usize,
}

/// A part of a log.
#[derive(Clone, Copy, Debug, PartialEq, Eq)]
pub struct Part {
    pub place: usize,
    pub length: usize,
}

/// A pair that differs.
#[derive(Clone, Copy, Debug, PartialEq, Eq)]
pub struct Difference {
    pub number: usize,
    pub first: Part,
    pub second: Part,
}

/// What is told of two logs: the log that is refused, 1 or 2; or how many pairs there are and
/// all that differ.
#[derive(Clone, Debug, PartialEq, Eq)]
pub enum Compared {
    Refused(usize, Refusal),
    Listed(usize, Vec<Difference>),
}

fn body_of(kind: u8) -> Option<usize> {
    EVENTS.iter().find(|event| event.0 == kind).map(|event| event.1)
}

/// The places of a log's records, or why it is refused.
fn records(log: &[u8]) -> Result<Vec<usize>, Refusal> {
    let mut places = Vec::new();
    let mut place = 0;
    while place < log.len() {
        let Some(body) = body_of(log[place]) else {
            return Err(Refusal { number: 14, place });
        };
        if log.len() - place - 1 < body {
            return Err(Refusal { number: 15, place });
        }
        places.push(place);
        place += 1 + body;
    }
    match log.first() {
        Some(kind) if !STARTS.contains(kind) => Err(Refusal { number: 17, place: 0 }),
        _ => Ok(places),
    }
}

fn groups(log: &[u8]) -> Result<Vec<Part>, Refusal> {
    let mut groups: Vec<Part> = Vec::new();
    for place in records(log)? {
        if STARTS.contains(&log[place]) {
            groups.push(Part { place, length: 0 });
        }
        let group = groups.last_mut().expect("the first record starts a group");
        group.length = place + 1 + body_of(log[place]).expect("an event") - group.place;
    }
    Ok(groups)
}

/// "where one log has run out, its side is the empty part at its end"
fn side(log: &[u8], groups: &[Part], number: usize) -> Part {
    groups.get(number).copied().unwrap_or(Part { place: log.len(), length: 0 })
}

fn bytes(log: &[u8], part: Part) -> &[u8] {
    &log[part.place..part.place + part.length]
}

pub fn compare(first: &[u8], second: &[u8]) -> Compared {
    let ours = match groups(first) {
        Ok(groups) => groups,
        Err(refusal) => return Compared::Refused(1, refusal),
    };
    let theirs = match groups(second) {
        Ok(groups) => groups,
        Err(refusal) => return Compared::Refused(2, refusal),
    };
    let pairs = ours.len().max(theirs.len());
    let differing = (0..pairs)
        .map(|number| Difference {
            number,
            first: side(first, &ours, number),
            second: side(second, &theirs, number),
        })
        .filter(|pair| bytes(first, pair.first) != bytes(second, pair.second))
        .collect();
    Compared::Listed(pairs, differing)
}

/// The places of the records of a part, for a listing that has a line for each.
pub fn records_in(log: &[u8], part: Part) -> Vec<usize> {
    let end = part.place + part.length;
    let mut places = Vec::new();
    let mut place = part.place;
    while place < end {
        places.push(place);
        place += 1 + body_of(log[place]).expect("a log that is not refused");
    }
    places
}

/// The record at a place.
pub fn record_at(log: &[u8], place: usize) -> &[u8] {
    &log[place..place + 1 + body_of(log[place]).expect("a log that is not refused")]
}

#[cfg(test)]
mod tests {
    use super::*;

    const TICK: [u8; 1] = [0x18];
    const RELEASED: [u8; 5] = [0x14, 7, 0, 0, 0];

    fn part(place: usize, length: usize) -> Part {
        Part { place, length }
    }

    #[test]
    fn released_records_belong_to_the_group_before_them() {
        let log = [&TICK[..], &RELEASED, &RELEASED, &TICK].concat();
        assert_eq!(groups(&log), Ok(vec![part(0, 11), part(11, 1)]));
    }

    #[test]
    fn a_log_that_has_run_out_has_the_empty_part_at_its_end() {
        let long = [&TICK[..], &RELEASED].concat();
        assert_eq!(
            compare(&long, &[]),
            Compared::Listed(1, vec![Difference { number: 0, first: part(0, 6), second: part(0, 0) }])
        );
        assert_eq!(compare(&[], &[]), Compared::Listed(0, vec![]));
    }

    #[test]
    fn refusals_come_in_order_and_name_their_log() {
        let refusal = |number, place| Refusal { number, place };
        let inside = RELEASED.to_vec();
        assert_eq!(compare(&inside, &[0x05]), Compared::Refused(1, refusal(17, 0)));
        assert_eq!(compare(&TICK, &[0x18, 0x01]), Compared::Refused(2, refusal(14, 1)));
        let cut = [&RELEASED[..], &[0x10, 1]].concat();
        assert_eq!(compare(&cut, &[]), Compared::Refused(1, refusal(15, 5)));
    }
}
