//! The library's check of soundness in plain Rust, over the same three lent slices: one pass
//! over the lines, one over the miss entries, one over the queue. Settings are in range and
//! the slices have their lengths.

use super::lines::{INVALID, MODIFIED, RESERVED, VALID};
use super::waiting::{READ, WRITE_BACK};
use crate::calls::{Settings, TREE};

const MOST_SECTORS: usize = 4 * 1024;

/// The lent slices, field by field.
struct View<'a> {
    settings: &'a Settings,
    tags: &'a [u64],
    miss_addresses: &'a [u64],
    queue_addresses: &'a [u64],
    cycle: u32,
    cycles: &'a [u32],
    masks: &'a [[u32; 4]],
    tickets: &'a [u32],
    queue_masks: &'a [[u32; 4]],
    dirty_lines: u32,
    taken: &'a [u32],
    trees: &'a [u32],
    statuses: &'a [[u8; 4]],
    readable: &'a [[u8; 4]],
    sent: &'a [u8],
    counts: &'a [u8],
    kinds: &'a [u8],
}

impl<'a> View<'a> {
    fn new(settings: &'a Settings, longs: &'a [u64], words: &'a [u32], marks: &'a [u8]) -> Self {
        let lines = settings.lines();
        let misses = settings.misses as usize;
        let (tags, longs) = longs.split_at(lines);
        let (miss_addresses, queue_addresses) = longs.split_at(misses);
        let (&cycle, words) = words.split_first().expect("words hold the current cycle");
        let (cycles, words) = words.split_at(lines);
        let (masks, rest) = words.split_at(4 * lines);
        let (tickets, rest) = rest.split_at(misses * settings.readers as usize);
        let (queue_masks, rest) = rest.split_at(4 * settings.queue as usize);
        let (&dirty_lines, rest) = rest.split_first().expect("words hold the dirty count");
        let (taken, trees) = rest.split_at(lines);
        let (statuses, marks) = marks.split_at(4 * lines);
        let (readable, marks) = marks.split_at(4 * lines);
        let (sent, marks) = marks.split_at(misses);
        let (counts, kinds) = marks.split_at(misses);
        View {
            settings,
            tags,
            miss_addresses,
            queue_addresses,
            cycle,
            cycles,
            masks: masks.as_chunks().0,
            tickets,
            queue_masks: queue_masks.as_chunks().0,
            dirty_lines,
            taken,
            trees,
            statuses: statuses.as_chunks().0,
            readable: readable.as_chunks().0,
            sent,
            counts,
            kinds,
        }
    }
}

pub fn sound(settings: &Settings, longs: &[u64], words: &[u32], marks: &[u8]) -> bool {
    let view = View::new(settings, longs, words, marks);
    if view.cycle == u32::MAX {
        return false;
    }
    let Some(reserved) = lines_sound(&view) else {
        return false;
    };
    let dirty = view.statuses.iter().filter(|four| four.contains(&MODIFIED)).count();
    // A bit for each node in use, of which there is one fewer than ways; under another rule none.
    let nodes = if settings.rule == TREE { settings.ways - 1 } else { 0 };
    view.trees.iter().all(|tree| tree >> nodes == 0)
        && entries_sound(&view) == Some(reserved)
        && queue_sound(&view)
        && view.dirty_lines as usize == dirty
}

/// The number of RESERVED sectors, if every line is sound in itself and in its set.
fn lines_sound(view: &View) -> Option<usize> {
    let mut reserved = 0;
    for line in 0..view.tags.len() {
        let statuses = &view.statuses[line];
        if *statuses == [INVALID; 4] {
            let empty = view.masks[line] == [0; 4] && view.readable[line] == [1; 4];
            let cycles = [view.cycles[line], view.taken[line]];
            if !empty || view.tags[line] != 0 || cycles != [0; 2] {
                return None;
            }
            continue;
        }
        let sectors = statuses.iter().zip(&view.masks[line]).zip(&view.readable[line]);
        for ((&status, &mask), &readable) in sectors {
            let mask_fits = match status {
                INVALID | VALID => mask == 0,
                RESERVED => true,
                MODIFIED => mask != 0,
                _ => return None,
            };
            let readable_fits = match readable {
                0 => status == MODIFIED && mask != u32::MAX,
                1 => true,
                _ => false,
            };
            if !mask_fits || !readable_fits {
                return None;
            }
            reserved += usize::from(status == RESERVED);
        }
        let (cycle, taken) = (view.cycles[line], view.taken[line]);
        if taken > cycle || cycle > view.cycle || !own_tag(view, line) {
            return None;
        }
    }
    Some(reserved)
}

/// A live line's tag is a block address of its set that no earlier live line of the set has.
fn own_tag(view: &View, line: usize) -> bool {
    let ways = view.settings.ways as usize;
    let tag = view.tags[line];
    let set = (tag / 128) as usize & (view.settings.sets as usize - 1);
    tag >> 48 == 0
        && tag.is_multiple_of(128)
        && set == line / ways
        && !(set * ways..line).any(|other| view.tags[other] == tag && live_line(view, other))
}

fn live_line(view: &View, line: usize) -> bool {
    view.statuses[line] != [INVALID; 4]
}

/// The number of entries in use, if all are sound and name different RESERVED sectors.
fn entries_sound(view: &View) -> Option<usize> {
    let readers = view.settings.readers as usize;
    let used = view.counts.iter().position(|&count| count == 0).unwrap_or(view.counts.len());
    let mut named = [0u64; MOST_SECTORS / 64];
    for entry in 0..view.counts.len() {
        let count = usize::from(view.counts[entry]);
        let tickets = &view.tickets[entry * readers..(entry + 1) * readers];
        if count > readers || tickets[count..].iter().any(|&ticket| ticket != 0) {
            return None;
        }
        let (address, sent) = (view.miss_addresses[entry], view.sent[entry]);
        if entry >= used {
            if count != 0 || address != 0 || sent != 0 {
                return None;
            }
            continue;
        }
        let sector = reserved_sector(view, address)?;
        let bit = 1 << (sector % 64);
        if sent > 1 || named[sector / 64] & bit != 0 {
            return None;
        }
        named[sector / 64] |= bit;
    }
    Some(used)
}

/// The RESERVED sector with exactly this address, counted over the whole cache.
fn reserved_sector(view: &View, address: u64) -> Option<usize> {
    if !address.is_multiple_of(32) {
        return None;
    }
    let ways = view.settings.ways as usize;
    let start = ((address / 128) as usize & (view.settings.sets as usize - 1)) * ways;
    let block = address & !127;
    let sector = (address / 32 % 4) as usize;
    (start..start + ways)
        .find(|&line| view.tags[line] == block && view.statuses[line][sector] == RESERVED)
        .map(|line| 4 * line + sector)
}

/// Every queued read belongs to its own unsent entry, and every unsent entry has one.
fn queue_sound(view: &View) -> bool {
    let used = view.kinds.iter().position(|&kind| kind == 0).unwrap_or(view.kinds.len());
    let mut unsent = 0u64;
    for (entry, (&count, &sent)) in view.counts.iter().zip(view.sent).enumerate() {
        unsent |= u64::from(count != 0 && sent == 0) << entry;
    }
    for (place, &masks) in view.queue_masks.iter().enumerate() {
        let address = view.queue_addresses[place];
        match view.kinds[place] {
            0 => {
                if place < used || address != 0 || masks != [0; 4] {
                    return false;
                }
            }
            _ if place >= used => return false,
            READ => {
                let entry = view.miss_addresses.iter().zip(0..).find_map(|(&other, entry)| {
                    (other == address && unsent >> entry & 1 == 1).then_some(entry)
                });
                let Some(entry) = entry else {
                    return false;
                };
                if masks != [0; 4] {
                    return false;
                }
                unsent &= !(1 << entry);
            }
            WRITE_BACK => {
                if address >> 48 != 0 || !address.is_multiple_of(128) || masks == [0; 4] {
                    return false;
                }
            }
            _ => return false,
        }
    }
    unsent == 0
}
