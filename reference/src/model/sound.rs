//! Document 01's section "Sound tables" and what document 02 adds to it (26: L3; 27, 28: L1; 29: L9), as numbered
//! conditions on the lent numbers, so that a test can tell which one fails. Settings are in range and
//! lengths are right before any is asked; nothing else is taken for granted,
//! so a condition stands alone also where an earlier one fails.

use super::lent::{KIND_READ, KIND_WRITE_BACK};
use super::{block_of, node_bits, sector_index, Layout, Settings, Tables, RULE_TREE};
use super::{ADDRESS_LIMIT, FULL_MASK, LAST_CYCLE, LINE_BYTES, SECTORS, SECTOR_BYTES};

/// What a condition says, and whether it holds.
type Condition = (&'static str, fn(&View) -> bool);

/// The conditions in order; number n stands at index n - 1.
pub const CONDITIONS: [Condition; 29] = [
    ("the current cycle is at most 4,294,967,294", current_cycle_in_range),
    ("a status is 0 to 3", statuses_known),
    ("a readable mark is 0 or 1", readable_marks_known),
    ("INVALID and VALID have mask 0", clean_sectors_unmasked),
    ("MODIFIED has a mask that is not 0", modified_sectors_masked),
    ("only MODIFIED with a mask not all ones is unreadable", unreadable_sectors_partial),
    ("a wholly invalid line has tag and cycle 0", invalid_lines_zero),
    ("any other line has a block address of its own set", tags_of_own_set),
    ("no line's cycle is later than the current one", line_cycles_past),
    ("no two live lines of a set share a tag", tags_distinct),
    ("an entry has at most W tickets", ticket_counts_in_range),
    ("used entries stand first", entries_prefix),
    ("a sent mark is 0 or 1", sent_marks_known),
    ("an unused entry has address and mark 0", unused_entries_zero),
    ("unused tickets are 0", unused_tickets_zero),
    ("an entry names a RESERVED sector of a live line", entries_reserve),
    ("a RESERVED sector has an entry", reserved_sectors_entered),
    ("no two entries share an address", entries_distinct),
    ("a queue kind is 0 to 2", queue_kinds_known),
    ("used queue places stand first", queue_prefix),
    ("an unused queue place has address 0", unused_places_zero),
    ("only a write-back has masks", queue_masks_of_write_backs),
    ("a write-back has a block address and a dirty byte", write_backs_formed),
    ("an unsent entry has exactly one read in the queue", unsent_entries_queued_once),
    ("a queued read has an unsent entry", queued_reads_unsent),
    ("the stored count is that of the lines with a MODIFIED sector", dirty_lines_counted),
    ("a live line was taken no later than its last access", lines_taken_before_access),
    ("a wholly invalid line has taken cycle 0", invalid_lines_not_taken),
    ("a tree has bits of nodes in use only, and none under another rule", trees_in_use),
];

/// All hold.
pub fn sound(settings: &Settings, tables: &Tables) -> bool {
    let view = View::new(settings, tables);
    CONDITIONS.iter().all(|(_, holds)| holds(&view))
}

/// The numbers of those that do not hold.
pub fn broken(settings: &Settings, tables: &Tables) -> Vec<usize> {
    let view = View::new(settings, tables);
    (1..=CONDITIONS.len()).filter(|number| !CONDITIONS[number - 1].1(&view)).collect()
}

/// The lent numbers by name.
pub struct View<'a> {
    settings: &'a Settings,
    layout: Layout,
    tables: &'a Tables,
    /// By line: not wholly invalid.
    live: Vec<bool>,
}

impl<'a> View<'a> {
    fn new(settings: &'a Settings, tables: &'a Tables) -> View<'a> {
        let layout = Layout::of(settings);
        let status = |l, s| tables.get(layout.status(l, s));
        let live = (0..layout.lines).map(|l| (0..SECTORS).any(|s| status(l, s) != 0)).collect();
        View { settings, layout, tables, live }
    }

    fn tag(&self, line: usize) -> u64 {
        self.tables.get(self.layout.tag(line))
    }

    fn line_cycle(&self, line: usize) -> u64 {
        self.tables.get(self.layout.line_cycle(line))
    }

    fn taken(&self, line: usize) -> u64 {
        self.tables.get(self.layout.taken(line))
    }

    fn status(&self, line: usize, sector: usize) -> u64 {
        self.tables.get(self.layout.status(line, sector))
    }

    fn mask(&self, line: usize, sector: usize) -> u64 {
        self.tables.get(self.layout.mask(line, sector))
    }

    fn readable(&self, line: usize, sector: usize) -> u64 {
        self.tables.get(self.layout.readable(line, sector))
    }

    fn miss_address(&self, entry: usize) -> u64 {
        self.tables.get(self.layout.miss_address(entry))
    }

    fn sent(&self, entry: usize) -> u64 {
        self.tables.get(self.layout.sent(entry))
    }

    fn ticket_count(&self, entry: usize) -> u64 {
        self.tables.get(self.layout.ticket_count(entry))
    }

    fn used(&self, entry: usize) -> bool {
        self.ticket_count(entry) != 0
    }

    fn unsent(&self, entry: usize) -> bool {
        self.used(entry) && self.sent(entry) == 0
    }

    fn queue_kind(&self, place: usize) -> u64 {
        self.tables.get(self.layout.queue_kind(place))
    }

    fn queue_address(&self, place: usize) -> u64 {
        self.tables.get(self.layout.queue_address(place))
    }

    fn queue_masks(&self, place: usize) -> [u64; SECTORS] {
        [0, 1, 2, 3].map(|sector| self.tables.get(self.layout.queue_mask(place, sector)))
    }

    fn is_read_of(&self, place: usize, address: u64) -> bool {
        self.queue_kind(place) == KIND_READ && self.queue_address(place) == address
    }

    fn every_line(&self, holds: impl FnMut(usize) -> bool) -> bool {
        (0..self.layout.lines).all(holds)
    }

    fn every_sector(&self, mut holds: impl FnMut(usize, usize) -> bool) -> bool {
        self.every_line(|line| (0..SECTORS).all(|sector| holds(line, sector)))
    }

    fn every_entry(&self, holds: impl FnMut(usize) -> bool) -> bool {
        (0..self.layout.entries).all(holds)
    }

    fn every_place(&self, holds: impl FnMut(usize) -> bool) -> bool {
        (0..self.layout.places).all(holds)
    }
}

const INVALID: u64 = 0;
const RESERVED: u64 = 1;
const VALID: u64 = 2;
const MODIFIED: u64 = 3;

fn current_cycle_in_range(view: &View) -> bool {
    view.tables.get(view.layout.current_cycle()) <= u64::from(LAST_CYCLE)
}

fn statuses_known(view: &View) -> bool {
    view.every_sector(|l, s| view.status(l, s) <= MODIFIED)
}

fn readable_marks_known(view: &View) -> bool {
    view.every_sector(|l, s| view.readable(l, s) <= 1)
}

fn clean_sectors_unmasked(view: &View) -> bool {
    let clean = |l, s| view.status(l, s) == INVALID || view.status(l, s) == VALID;
    view.every_sector(|l, s| !clean(l, s) || view.mask(l, s) == 0)
}

fn modified_sectors_masked(view: &View) -> bool {
    view.every_sector(|l, s| view.status(l, s) != MODIFIED || view.mask(l, s) != 0)
}

fn unreadable_sectors_partial(view: &View) -> bool {
    let partial = |l, s| view.status(l, s) == MODIFIED && view.mask(l, s) != u64::from(FULL_MASK);
    view.every_sector(|l, s| view.readable(l, s) != 0 || partial(l, s))
}

fn invalid_lines_zero(view: &View) -> bool {
    view.every_line(|l| view.live[l] || (view.tag(l) == 0 && view.line_cycle(l) == 0))
}

fn tags_of_own_set(view: &View) -> bool {
    let ways = view.settings.ways as usize;
    view.every_line(|l| {
        let tag = view.tag(l);
        let own_block = tag < ADDRESS_LIMIT
            && tag.is_multiple_of(LINE_BYTES)
            && view.settings.set_of(tag) == l / ways;
        !view.live[l] || own_block
    })
}

fn line_cycles_past(view: &View) -> bool {
    let current = view.tables.get(view.layout.current_cycle());
    view.every_line(|l| view.line_cycle(l) <= current)
}

fn tags_distinct(view: &View) -> bool {
    let ways = view.settings.ways as usize;
    view.every_line(|l| {
        let end_of_set = (l / ways + 1) * ways;
        (l + 1..end_of_set)
            .all(|other| !view.live[l] || !view.live[other] || view.tag(l) != view.tag(other))
    })
}

fn ticket_counts_in_range(view: &View) -> bool {
    view.every_entry(|e| view.ticket_count(e) <= view.layout.readers as u64)
}

fn entries_prefix(view: &View) -> bool {
    view.every_entry(|e| e == 0 || view.used(e - 1) || !view.used(e))
}

fn sent_marks_known(view: &View) -> bool {
    view.every_entry(|e| view.sent(e) <= 1)
}

fn unused_entries_zero(view: &View) -> bool {
    view.every_entry(|e| view.used(e) || (view.miss_address(e) == 0 && view.sent(e) == 0))
}

fn unused_tickets_zero(view: &View) -> bool {
    let ticket = |e, i| view.tables.get(view.layout.ticket(e, i));
    view.every_entry(|e| {
        (0..view.layout.readers).all(|i| (i as u64) < view.ticket_count(e) || ticket(e, i) == 0)
    })
}

fn entries_reserve(view: &View) -> bool {
    view.every_entry(|e| {
        let address = view.miss_address(e);
        let reserves = |l: usize| {
            view.live[l]
                && view.tag(l) == block_of(address)
                && view.status(l, sector_index(address)) == RESERVED
        };
        let named = address.is_multiple_of(SECTOR_BYTES) && (0..view.layout.lines).any(reserves);
        !view.used(e) || named
    })
}

fn reserved_sectors_entered(view: &View) -> bool {
    view.every_sector(|l, s| {
        let address = view.tag(l).checked_add(SECTOR_BYTES * s as u64);
        let mut entries = 0..view.layout.entries;
        view.status(l, s) != RESERVED
            || entries.any(|e| view.used(e) && Some(view.miss_address(e)) == address)
    })
}

fn entries_distinct(view: &View) -> bool {
    let same = |e, other| {
        view.used(e) && view.used(other) && view.miss_address(e) == view.miss_address(other)
    };
    view.every_entry(|e| (0..e).all(|other| !same(e, other)))
}

fn queue_kinds_known(view: &View) -> bool {
    view.every_place(|p| view.queue_kind(p) <= KIND_WRITE_BACK)
}

fn queue_prefix(view: &View) -> bool {
    view.every_place(|p| p == 0 || view.queue_kind(p - 1) != 0 || view.queue_kind(p) == 0)
}

fn unused_places_zero(view: &View) -> bool {
    view.every_place(|p| view.queue_kind(p) != 0 || view.queue_address(p) == 0)
}

fn queue_masks_of_write_backs(view: &View) -> bool {
    view.every_place(|p| view.queue_kind(p) > KIND_READ || view.queue_masks(p) == [0; SECTORS])
}

fn write_backs_formed(view: &View) -> bool {
    view.every_place(|p| {
        let block = view.queue_address(p);
        let formed = block < ADDRESS_LIMIT
            && block.is_multiple_of(LINE_BYTES)
            && view.queue_masks(p) != [0; SECTORS];
        view.queue_kind(p) != KIND_WRITE_BACK || formed
    })
}

fn unsent_entries_queued_once(view: &View) -> bool {
    let reads = |address| (0..view.layout.places).filter(|&p| view.is_read_of(p, address)).count();
    view.every_entry(|e| !view.unsent(e) || reads(view.miss_address(e)) == 1)
}

fn queued_reads_unsent(view: &View) -> bool {
    view.every_place(|p| {
        let mut entries = 0..view.layout.entries;
        view.queue_kind(p) != KIND_READ
            || entries.any(|e| view.unsent(e) && view.miss_address(e) == view.queue_address(p))
    })
}

fn dirty_lines_counted(view: &View) -> bool {
    let dirty = |l: &usize| (0..SECTORS).any(|s| view.status(*l, s) == MODIFIED);
    let counted = (0..view.layout.lines).filter(dirty).count() as u64;
    view.tables.get(view.layout.dirty_count()) == counted
}

/// Of live lines, so that this and the next condition can fail alone.
fn lines_taken_before_access(view: &View) -> bool {
    view.every_line(|l| !view.live[l] || view.taken(l) <= view.line_cycle(l))
}

fn invalid_lines_not_taken(view: &View) -> bool {
    view.every_line(|l| view.live[l] || view.taken(l) == 0)
}

fn trees_in_use(view: &View) -> bool {
    let in_use = match view.settings.rule {
        RULE_TREE => u64::from(node_bits(view.settings.ways as usize)),
        _ => 0,
    };
    (0..view.layout.sets).all(|set| view.tables.get(view.layout.tree(set)) & !in_use == 0)
}
