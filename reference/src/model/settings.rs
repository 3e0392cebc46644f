//! The settings, their ranges (refusal 1) and what follows from them: document 01's six, and the
//! rule that document 02 adds in L1 and L9.

use super::LINE_BYTES;

/// The replacement rules by their byte.
pub const RULE_LRU: u32 = 0;
pub const RULE_FIFO: u32 = 1;
pub const RULE_TREE: u32 = 2;

/// Wide enough that any number can be offered and refused.
#[derive(Clone, Copy, PartialEq, Eq, Debug)]
pub struct Settings {
    pub sets: u32,
    pub ways: u32,
    /// Dirty percent, P.
    pub dirty: u32,
    /// Miss table entries, M.
    pub misses: u32,
    /// Readers per entry, W.
    pub readers: u32,
    /// Miss queue places, Q.
    pub queue: u32,
    /// The replacement rule.
    pub rule: u32,
}

impl Settings {
    /// Least recently used, as document 01 has it.
    pub const fn new(six: [u32; 6]) -> Settings {
        let [sets, ways, dirty, misses, readers, queue] = six;
        Settings { sets, ways, dirty, misses, readers, queue, rule: RULE_LRU }
    }

    pub const fn with_rule(self, rule: u32) -> Settings {
        Settings { rule, ..self }
    }

    /// From numbers that a call lends: six, or seven with the rule; any other number of them gives
    /// settings out of range.
    pub fn from_numbers(numbers: &[u32]) -> Settings {
        match *numbers {
            [a, b, c, d, e, f] => Settings::new([a, b, c, d, e, f]),
            [a, b, c, d, e, f, rule] => Settings::new([a, b, c, d, e, f]).with_rule(rule),
            _ => Settings::new([0; 6]),
        }
    }

    /// All but the rule.
    pub fn six(&self) -> [u32; 6] {
        [self.sets, self.ways, self.dirty, self.misses, self.readers, self.queue]
    }

    pub fn seven(&self) -> [u32; 7] {
        let [a, b, c, d, e, f] = self.six();
        [a, b, c, d, e, f, self.rule]
    }

    pub fn in_range(&self) -> bool {
        self.sets.is_power_of_two()
            && (1..=256).contains(&self.sets)
            && (1..=16).contains(&self.ways)
            && self.sets * self.ways <= 1024
            && self.dirty <= 100
            && (1..=64).contains(&self.misses)
            && (1..=8).contains(&self.readers)
            && (2..=64).contains(&self.queue)
            && self.rule_in_range()
    }

    /// A tree halves its ways until one is left.
    fn rule_in_range(&self) -> bool {
        match self.rule {
            RULE_LRU | RULE_FIFO => true,
            RULE_TREE => self.ways.is_power_of_two(),
            _ => false,
        }
    }

    /// Asked only of settings in range.
    pub fn lines(&self) -> usize {
        self.sets as usize * self.ways as usize
    }

    pub fn set_of(&self, address: u64) -> usize {
        (address / LINE_BYTES % u64::from(self.sets)) as usize
    }

    /// The body of a settings record of kind 6, if the numbers fit its fields; that of kind 0 is
    /// the same without the rule byte behind it.
    pub fn body(&self) -> Option<[u8; 8]> {
        let sets = u16::try_from(self.sets).ok()?.to_le_bytes();
        let mut body = [sets[0], sets[1], 0, 0, 0, 0, 0, 0];
        for (place, number) in body[2..].iter_mut().zip(&self.seven()[1..]) {
            *place = u8::try_from(*number).ok()?;
        }
        Some(body)
    }

    /// From a body of kind 0 or 6: "kind 0 still means 0".
    pub fn from_body(body: &[u8]) -> Settings {
        let sets = u32::from(u16::from_le_bytes([body[0], body[1]]));
        let byte = |place: usize| u32::from(body[place]);
        let rule = body.get(7).map_or(RULE_LRU, |&rule| u32::from(rule));
        Settings::new([sets, byte(2), byte(3), byte(4), byte(5), byte(6)]).with_rule(rule)
    }
}
