//! The published percentage: its refusal, its list, and its floats beside rounding by whole numbers.

use reference::model::{Refusal, Settings};
use reference::percentage::{differences, float_meets, legal_size, whole_meets};

/// Lines 100, 200, ..., 1,000, each with 53 and 59 in a hundred dirty.
#[test]
fn the_list_has_twenty_rows() {
    let mut rows = Vec::new();
    for lines in (100..=1000).step_by(100) {
        rows.push((lines, lines / 100 * 53, 53, false, true));
        rows.push((lines, lines / 100 * 59, 59, false, true));
    }
    assert_eq!(rows.len(), 20);
    let found: Vec<_> = differences()
        .iter()
        .map(|one| (one.lines, one.dirty, one.percent, one.float, one.ours))
        .collect();
    assert_eq!(found, rows);
}

#[test]
fn none_at_a_power_of_two_or_a_legal_size() {
    assert!(differences().iter().all(|one| !one.lines.is_power_of_two()));
    assert!(differences().iter().all(|one| !legal_size(one.lines)));
}

#[test]
fn legal_sizes_are_those_of_settings_in_range() {
    let of = |sets, ways| Settings::new([sets, ways, 0, 1, 1, 2]);
    for lines in 0..=1100 {
        let pairs = (1..=300).flat_map(|sets| (1..=20).map(move |ways| (sets, ways)));
        let legal = pairs
            .filter(|(sets, ways)| sets * ways == lines)
            .any(|(sets, ways)| of(sets, ways).in_range());
        assert_eq!(legal_size(lines), legal, "{lines} lines");
    }
}

#[test]
fn refusal_1() {
    let bad = Err(Refusal::BadSettings);
    for (dirty, lines, percent) in [
        (0, 0, 0),
        (0, 1025, 0),
        (0, 1, 101),
        (2, 1, 50),
        (1025, 1024, 100),
        (u32::MAX, u32::MAX, u32::MAX),
        (0, u32::MAX, 0),
        (0, 1024, u32::MAX),
    ] {
        assert_eq!(float_meets(dirty, lines, percent), bad);
        assert_eq!(whole_meets(dirty, lines, percent), bad);
    }
    assert_eq!(float_meets(0, 1, 0), Ok(true));
    assert_eq!(float_meets(1024, 1024, 100), Ok(true));
    assert_eq!(whole_meets(1024, 1024, 100), Ok(true));
    assert_eq!(float_meets(1023, 1024, 100), Ok(false));
}

/// A number m × 2^e.
#[derive(Clone, Copy)]
struct Binary {
    m: u128,
    e: i32,
}

/// The quotient with the nearest 24-bit number, ties to the even one.
fn rounded(above: u128, below: u128) -> Binary {
    if above == 0 {
        return Binary { m: 0, e: 0 };
    }
    // Scaled until the whole part of the quotient has 24 bits.
    let (mut above, mut below, mut e) = (above, below, 0);
    while above / below < 1 << 23 {
        above *= 2;
        e -= 1;
    }
    while above / below >= 1 << 24 {
        below *= 2;
        e += 1;
    }
    let (whole, rest) = (above / below, above % below);
    let up = 2 * rest > below || (2 * rest == below && whole % 2 == 1);
    Binary { m: whole + u128::from(up), e }
}

/// m × 2^e as a quotient of whole numbers.
fn quotient(number: Binary) -> (u128, u128) {
    match number.e {
        e if e < 0 => (number.m, 1 << -e),
        e => (number.m << e, 1),
    }
}

/// Both steps rounded by whole numbers alone give every answer that the floats give.
#[test]
fn floats_round_each_step_once() {
    for lines in 1..=1024 {
        for dirty in 0..=lines {
            let (above, below) = quotient(rounded(dirty.into(), lines.into()));
            let (above, below) = quotient(rounded(above * 100, below));
            for percent in 0..=100 {
                let meets = above >= u128::from(percent) * below;
                assert_eq!(float_meets(dirty, lines, percent), Ok(meets));
            }
        }
    }
}
