//! Seeded makers: chance itself, symbols and rooms; tables, files and sessions below.

pub mod files;
pub mod joins;
pub mod sessions;
pub mod tables;

use crate::file::{Table, CALL, RETURN};
use crate::model::{Pair, Run};
use std::collections::BTreeSet;

/// xorshift64*; one stream per seed and case, so that any case can be made again alone.
pub struct Rng(u64);

impl Rng {
    pub fn new(seed: u64, case: u64) -> Rng {
        let mixed =
            (seed ^ case.wrapping_mul(0x9e37_79b9_7f4a_7c15)).wrapping_mul(0xbf58_476d_1ce4_e5b9);
        let mut rng = Rng((mixed ^ mixed >> 29) | 1);
        // The first few draws still resemble the seed.
        for _ in 0..8 {
            rng.next();
        }
        rng
    }

    fn next(&mut self) -> u64 {
        self.0 ^= self.0 << 13;
        self.0 ^= self.0 >> 7;
        self.0 ^= self.0 << 17;
        self.0.wrapping_mul(0x2545_f491_4f6c_dd1d)
    }

    pub fn below(&mut self, bound: usize) -> usize {
        (self.next() >> 33) as usize % bound
    }

    pub fn within(&mut self, low: usize, high: usize) -> usize {
        low + self.below(high - low + 1)
    }

    pub fn chance(&mut self, percent: usize) -> bool {
        self.below(100) < percent
    }

    pub fn byte(&mut self) -> u8 {
        (self.next() >> 40) as u8
    }

    pub fn pick<T: Clone>(&mut self, from: &[T]) -> T {
        from[self.below(from.len())].clone()
    }

    fn set(&mut self, bits: usize, percent: usize) -> u64 {
        (0..bits)
            .filter(|_| self.chance(percent))
            .fold(0, |set, bit| set | 1 << bit)
    }
}

/// A symbol: mostly one that some run can take, with a lean towards climbing or coming down.
pub fn symbol(rng: &mut Rng, table: &Table, runs: &[Run], climbing: bool) -> u8 {
    if rng.chance(6) {
        return rng.byte();
    }
    let used: Vec<u8> = (0..=255)
        .filter(|&symbol| table.class(symbol) != 0)
        .collect();
    if rng.chance(8) && !used.is_empty() {
        return rng.pick(&used);
    }
    let present: BTreeSet<Pair> = runs.iter().map(Run::present).collect();
    let full = runs[0].depth() == usize::from(table.depth_cap);
    let mut takable: Vec<u8> = table
        .rows
        .iter()
        .filter(|row| match table.class(row.symbol) {
            RETURN => present.contains(&Pair {
                state: row.from,
                marker: row.marker,
            }),
            class => present.iter().any(|pair| pair.state == row.from) && !(class == CALL && full),
        })
        .map(|row| row.symbol)
        .collect();
    takable.dedup();
    if takable.is_empty() {
        return if used.is_empty() {
            rng.byte()
        } else {
            rng.pick(&used)
        };
    }
    let leaning = if climbing { CALL } else { RETURN };
    let leant: Vec<u8> = takable
        .iter()
        .copied()
        .filter(|&symbol| table.class(symbol) == leaning)
        .collect();
    if leant.is_empty() || rng.chance(50) {
        rng.pick(&takable)
    } else {
        rng.pick(&leant)
    }
}

/// A room for an answer of this many bytes: none, one too few, exact, some more, the usual.
pub fn room(rng: &mut Rng, needed: usize) -> usize {
    match rng.below(12) {
        0 => 0,
        1 | 2 => needed.saturating_sub(1),
        3..=5 => needed,
        6 => needed + rng.within(1, 9),
        _ => 1024,
    }
}
