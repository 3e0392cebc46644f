//! Random record streams for the runner: over tight settings, over any
//! settings, and damaged in one way each.

use crate::choices;
use crate::model::{Access, Cache, Call, Settings, ADDRESS_LIMIT, RULE_LRU};
use crate::random::Random;
use crate::runner::{call_record, ruled_record, settings_record};

/// What a stream was made for; the names stand in the counts of a test.
#[derive(Clone, Copy, PartialEq, Eq, PartialOrd, Ord, Debug)]
pub enum Kind {
    Tight,
    AnySettings,
    EdgeSettings,
    Long,
    CutShort,
    UnknownKind,
    EventKind,
    SecondSettings,
    BadSettings,
    OtherKindFirst,
    FlippedBytes,
    BadAddresses,
    ZeroMasks,
    EarlyTicks,
    Empty,
    OnlySettings,
    RandomBytes,
}

pub const KINDS: [Kind; 17] = [
    Kind::Tight,
    Kind::AnySettings,
    Kind::EdgeSettings,
    Kind::Long,
    Kind::CutShort,
    Kind::UnknownKind,
    Kind::EventKind,
    Kind::SecondSettings,
    Kind::BadSettings,
    Kind::OtherKindFirst,
    Kind::FlippedBytes,
    Kind::BadAddresses,
    Kind::ZeroMasks,
    Kind::EarlyTicks,
    Kind::Empty,
    Kind::OnlySettings,
    Kind::RandomBytes,
];

const DAMAGED: std::ops::Range<usize> = 4..14;

/// Half of all streams have tight settings, a tenth any settings, the rest are damaged.
pub fn any_kind(random: &mut Random) -> Kind {
    match random.below(1000) {
        0 => Kind::Long,
        1..=499 => Kind::Tight,
        500..=579 => Kind::AnySettings,
        580..=599 => Kind::EdgeSettings,
        600..=603 => random.pick(&[Kind::Empty, Kind::OnlySettings]),
        604..=613 => Kind::RandomBytes,
        _ => random.pick(&KINDS[DAMAGED]),
    }
}

pub fn stream(random: &mut Random, kind: Kind) -> Vec<u8> {
    match kind {
        Kind::Tight => short_run(random, choices::record_call).concat(),
        Kind::AnySettings => {
            let settings = choices::any_settings(random);
            good_run(random, settings, 120, choices::record_call).concat()
        }
        Kind::EdgeSettings => {
            let settings = choices::edge_settings(random);
            good_run(random, settings, 120, choices::record_call).concat()
        }
        Kind::Long => {
            let settings = choices::tight_settings(random);
            good_run(random, settings, 8000, choices::record_call).concat()
        }
        Kind::CutShort => cut_short(random),
        Kind::UnknownKind => {
            let (least, most) = random.pick(&[(7, 0x0F), (0x19, 0xFF)]);
            let kind = random.between(least, most) as u8;
            with_record(random, |random| strange_record(random, kind))
        }
        Kind::EventKind => {
            let kind = random.between(0x10, 0x18) as u8;
            with_record(random, |random| strange_record(random, kind))
        }
        Kind::SecondSettings => second_settings(random),
        Kind::BadSettings => bad_settings(random),
        Kind::OtherKindFirst => other_kind_first(random),
        Kind::FlippedBytes => flipped_bytes(random),
        Kind::BadAddresses => short_run(random, bad_address_call).concat(),
        Kind::ZeroMasks => short_run(random, zero_mask_call).concat(),
        Kind::EarlyTicks => short_run(random, early_tick_call).concat(),
        Kind::Empty => Vec::new(),
        Kind::OnlySettings => only_settings(random),
        Kind::RandomBytes => random_bytes(random),
    }
}

fn only_settings(random: &mut Random) -> Vec<u8> {
    let settings = choices::good_settings(random);
    any_record(random, &settings)
}

fn random_bytes(random: &mut Random) -> Vec<u8> {
    let length = random.index(200);
    (0..length).map(|_| random.draw() as u8).collect()
}

/// A settings record of kind 6, or of kind 0 where that can hold them.
pub fn any_record(random: &mut Random, settings: &Settings) -> Vec<u8> {
    if settings.rule == RULE_LRU && random.percent(50) {
        return settings_record(settings);
    }
    ruled_record(settings)
}

type Choose = fn(&mut Random, &Cache) -> Call;

/// A settings record and calls, record by record. The cache is kept beside the choice, so
/// that fills find sent entries and addresses find lines.
fn good_run(random: &mut Random, settings: Settings, calls: usize, choose: Choose) -> Vec<Vec<u8>> {
    let mut cache = Cache::fresh(settings);
    let mut records = vec![any_record(random, &settings)];
    for _ in 0..calls {
        let call = choose(random, &cache);
        // A refused call is as good a record as any other.
        let _ = cache.call(call);
        records.push(call_record(&call));
    }
    records
}

fn short_run(random: &mut Random, choose: Choose) -> Vec<Vec<u8>> {
    let settings = choices::tight_settings(random);
    let calls = random.index(100);
    good_run(random, settings, calls, choose)
}

fn cut_short(random: &mut Random) -> Vec<u8> {
    let mut stream = short_run(random, choices::record_call).concat();
    stream.truncate(random.index(stream.len()));
    stream
}

/// A good run with one more record at any place, the first and the last included.
fn with_record(random: &mut Random, record: impl Fn(&mut Random) -> Vec<u8>) -> Vec<u8> {
    let mut records = short_run(random, choices::record_call);
    let place = random.index(records.len() + 1);
    records.insert(place, record(random));
    records.concat()
}

/// A kind with a body of any length, so that it may also end the stream too soon.
fn strange_record(random: &mut Random, kind: u8) -> Vec<u8> {
    let length = random.index(26);
    let body = (0..length).map(|_| random.draw() as u8);
    std::iter::once(kind).chain(body).collect()
}

/// Whole, or cut short as the last record.
fn second_settings(random: &mut Random) -> Vec<u8> {
    let settings = choices::good_settings(random);
    let record = any_record(random, &settings);
    if random.percent(70) {
        return with_record(random, |_| record.clone());
    }
    let mut stream = short_run(random, choices::record_call).concat();
    stream.extend(&record[..1 + random.index(record.len() - 1)]);
    stream
}

fn bad_settings(random: &mut Random) -> Vec<u8> {
    let mut records = short_run(random, choices::record_call);
    let settings = choices::bad_record_settings(random);
    records[0] = any_record(random, &settings);
    let mut stream = records.concat();
    if random.percent(20) {
        stream.truncate(random.index(12));
    }
    stream
}

fn other_kind_first(random: &mut Random) -> Vec<u8> {
    let mut stream = short_run(random, choices::record_call)[1..].concat();
    if random.percent(30) {
        stream.truncate(random.index(14));
    }
    stream
}

fn flipped_bytes(random: &mut Random) -> Vec<u8> {
    let mut stream = short_run(random, choices::record_call).concat();
    for _ in 0..random.between(1, 4) {
        let place = random.index(stream.len());
        stream[place] ^= 1 << random.below(8);
    }
    stream
}

fn bad_address_call(random: &mut Random, cache: &Cache) -> Call {
    let address = choices::bad_address(random);
    match random.below(8) {
        0 => Call::Access(Access::read(address, choices::ticket(random))),
        1 => Call::Access(Access::write(address, choices::write_mask(random))),
        2 => Call::Fill(address),
        3 => Call::Fill(choices::fill_address(random, cache) | ADDRESS_LIMIT),
        _ => choices::record_call(random, cache),
    }
}

fn zero_mask_call(random: &mut Random, cache: &Cache) -> Call {
    if random.percent(40) {
        return Call::Access(Access::write(choices::address(random, cache), 0));
    }
    choices::record_call(random, cache)
}

fn early_tick_call(random: &mut Random, cache: &Cache) -> Call {
    match random.below(6) {
        0 => Call::Tick(cache.cycle.saturating_sub(1)),
        1 => Call::Tick(random.draw() as u32),
        2 => Call::Tick(u32::MAX),
        _ => choices::record_call(random, cache),
    }
}
