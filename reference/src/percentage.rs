//! The published percentage (document 02, L11): the pages' rule in 32-bit floats beside the
//! whole-number rule of document 01, and every place where the two differ.

use crate::model::Refusal;

/// Sets times ways at most.
pub const MOST_LINES: u32 = 1024;
pub const MOST_PERCENT: u32 = 100;

/// Refusal 1: P or lines out of range, or dirty above lines.
fn in_range(dirty: u32, lines: u32, percent: u32) -> Result<(), Refusal> {
    let good = (1..=MOST_LINES).contains(&lines) && dirty <= lines && percent <= MOST_PERCENT;
    good.then_some(()).ok_or(Refusal::BadSettings)
}

/// The pages' answer: dirty divided by lines, times 100, at least P; each step rounded once.
pub fn float_meets(dirty: u32, lines: u32, percent: u32) -> Result<bool, Refusal> {
    in_range(dirty, lines, percent)?;
    // All three are whole and below 2^24, so that none is rounded on the way in.
    let [dirty, lines, percent] = [dirty, lines, percent].map(|number| number as f32);
    let share: f32 = dirty / lines;
    let published: f32 = share * 100.0;
    Ok(published >= percent)
}

/// Document 01's answer: 100 × dirty ≥ P × lines.
pub fn whole_meets(dirty: u32, lines: u32, percent: u32) -> Result<bool, Refusal> {
    in_range(dirty, lines, percent)?;
    Ok(100 * dirty >= percent * lines)
}

#[derive(Clone, Copy, PartialEq, Eq, Debug)]
pub struct Difference {
    pub lines: u32,
    pub dirty: u32,
    pub percent: u32,
    pub float: bool,
    pub ours: bool,
}

/// Every difference, by lines, then dirty, then P, rising.
pub fn differences() -> Vec<Difference> {
    (1..=MOST_LINES).flat_map(differences_of).collect()
}

fn differences_of(lines: u32) -> Vec<Difference> {
    let mut found = Vec::new();
    for dirty in 0..=lines {
        for percent in 0..=MOST_PERCENT {
            let float = float_meets(dirty, lines, percent).expect("all in range");
            let ours = whole_meets(dirty, lines, percent).expect("all in range");
            if float != ours {
                found.push(Difference { lines, dirty, percent, float, ours });
            }
        }
    }
    found
}

/// Whether some settings in range have this many lines.
pub fn legal_size(lines: u32) -> bool {
    let sets = (0..=8).map(|power| 1 << power);
    lines <= MOST_LINES && sets.into_iter().any(|sets| (1..=16).any(|ways| sets * ways == lines))
}
