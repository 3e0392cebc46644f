//! The lent tables (docs/EMBED.md): three slices, and their regions.

use super::{Cache, Lines, Waiting};
use crate::calls::{Settings, FIFO, LRU, TREE};
use crate::runner::{self, Ran, Stopped};

/// The three slices that a caller lends, with their settings and the kept counts.
pub struct Tables {
    settings: Settings,
    pub longs: Vec<u64>,
    pub words: Vec<u32>,
    pub marks: Vec<u8>,
    queued: usize,
    missed: usize,
}

impl Tables {
    pub fn fresh(settings: Settings) -> Tables {
        let Settings { sets, misses, readers, queue, .. } = settings;
        let [sets, misses, readers, queue] = [sets, misses, readers, queue].map(|n| n as usize);
        let lines = settings.lines();
        let mut marks = vec![0; 8 * lines + 2 * misses + queue];
        marks[4 * lines..8 * lines].fill(1);
        Tables {
            settings,
            longs: vec![0; lines + misses + queue],
            words: vec![0; 2 + 6 * lines + readers * misses + 4 * queue + sets],
            marks,
            queued: 0,
            missed: 0,
        }
    }

    /// Runs the records of a part of a stream.
    pub fn run(&mut self, part: &[u8], room: &mut [u8]) -> Stopped {
        self.run_with::<false>(part, room)
    }

    /// The same, where a line that changes is lifted as one array and stored back whole.
    pub fn run_whole(&mut self, part: &[u8], room: &mut [u8]) -> Stopped {
        self.run_with::<true>(part, room)
    }

    fn run_with<const WHOLE: bool>(&mut self, part: &[u8], room: &mut [u8]) -> Stopped {
        match self.settings.rule {
            FIFO => self.run_by::<FIFO, WHOLE>(part, room),
            TREE => self.run_by::<TREE, WHOLE>(part, room),
            _ => self.run_by::<LRU, WHOLE>(part, room),
        }
    }

    fn run_by<const RULE: u32, const WHOLE: bool>(&mut self, part: &[u8], room: &mut [u8]) -> Stopped {
        let ran = self.usual::<RULE, WHOLE>(part, room);
        self.last::<RULE, WHOLE>(part, room, ran)
    }

    #[inline(never)]
    fn usual<const RULE: u32, const WHOLE: bool>(
        &mut self,
        part: &[u8],
        room: &mut [u8],
    ) -> Ran {
        self.with(|cache: &mut Cache<RULE, WHOLE>| runner::usual(cache, part, room))
    }

    #[inline(never)]
    fn last<const RULE: u32, const WHOLE: bool>(
        &mut self,
        part: &[u8],
        room: &mut [u8],
        ran: Ran,
    ) -> Stopped {
        self.with(|cache: &mut Cache<RULE, WHOLE>| runner::last(cache, part, room, ran))
    }

    /// What some calls come to, with the slices cut once for all of them.
    #[inline(always)]
    fn with<T, const RULE: u32, const WHOLE: bool>(
        &mut self,
        calls: impl FnOnce(&mut Cache<RULE, WHOLE>) -> T,
    ) -> T {
        let mut cache = self.cut();
        let result = calls(&mut cache);
        (self.queued, self.missed) = (cache.waiting.queued, cache.waiting.missed);
        result
    }

    /// The regions. Those of the lines are seen to be of one length, so that one comparison does for
    /// a line's places in all of them; those of the miss table too, and those of the queue.
    #[inline(always)]
    fn cut<const RULE: u32, const WHOLE: bool>(&mut self) -> Cache<'_, RULE, WHOLE> {
        let settings = &self.settings;
        let (count, misses, places) =
            (settings.lines(), settings.misses as usize, settings.queue as usize);
        let readers = settings.readers as usize;
        let (tags, longs) = self.longs.split_at_mut(count);
        let (miss_addresses, queue) = longs.split_at_mut(misses);
        let (cycles, words) = self.words.split_at_mut(1 + count);
        let (masks, words) = words.split_at_mut(4 * count);
        let (tickets, words) = words.split_at_mut(misses * readers);
        let (queue_masks, words) = words.split_at_mut(4 * places);
        let (dirty, words) = words.split_first_mut().expect("words hold the dirty count");
        let (taken, trees) = words.split_at_mut(count);
        let (statuses, marks) = self.marks.split_at_mut(4 * count);
        let (readable, marks) = marks.split_at_mut(4 * count);
        let (sent, marks) = marks.split_at_mut(misses);
        let (counts, kinds) = marks.split_at_mut(misses);
        let ways = settings.ways as u8;
        assert!(ways != 0);
        let lines = Lines {
            tags,
            cycles,
            masks: &mut masks.as_chunks_mut().0[..count],
            dirty,
            taken,
            trees,
            statuses: &mut statuses.as_chunks_mut().0[..count],
            readable: &mut readable.as_chunks_mut().0[..count],
            last_set: (settings.sets - 1) as u8,
            ways,
            enough: settings.enough_dirty() as u32,
        };
        let waiting = Waiting {
            misses: miss_addresses,
            tickets,
            sent,
            counts,
            queue: &mut queue[..places],
            queue_masks: &mut queue_masks.as_chunks_mut().0[..places],
            kinds: &mut kinds[..places],
            readers,
            queued: self.queued,
            missed: self.missed,
        };
        Cache { lines, waiting }
    }
}
