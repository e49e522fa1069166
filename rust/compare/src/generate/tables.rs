//! Good tables of several kinds, each made so that some numbers come up often.

use super::Rng;
use crate::file::{Row, Table, CALL, INTERNAL, MOST_ROWS, RETURN};

/// Words with shared beginnings, so that outputs agree for a while and then part.
struct Words {
    base: Vec<u8>,
    longest: usize,
}

impl Words {
    fn new(rng: &mut Rng, longest: usize) -> Words {
        let letters = rng.within(1, 3);
        Words {
            base: (0..255).map(|_| b'a' + rng.below(letters) as u8).collect(),
            longest,
        }
    }

    fn word(&self, rng: &mut Rng) -> Vec<u8> {
        if rng.chance(25) {
            return vec![];
        }
        let mut word = self.base[..rng.within(1, self.longest)].to_vec();
        if rng.chance(25) {
            let last = word.len() - 1;
            word[last] = rng.pick(b"abcxyz");
        }
        word
    }

    /// Another word for the same place in another run: mostly the same, else parting late.
    fn variant(&self, rng: &mut Rng, word: &[u8]) -> Vec<u8> {
        match rng.below(10) {
            0..=5 => word.to_vec(),
            6 => word[..rng.below(word.len() + 1)].to_vec(),
            7 | 8 => [&word[..word.len().min(254)], &[rng.pick(b"abcxyz")]].concat(),
            _ => self.word(rng),
        }
    }
}

/// The symbols of a table by class, in no order.
struct Symbols {
    calls: Vec<u8>,
    returns: Vec<u8>,
    internals: Vec<u8>,
    classes: [u8; 256],
}

impl Symbols {
    fn new(rng: &mut Rng, calls: usize, returns: usize, internals: usize) -> Symbols {
        let mut classes = [0; 256];
        let mut some = |rng: &mut Rng, class: u8, count: usize| {
            let mut chosen = vec![];
            while chosen.len() < count {
                let symbol = rng.byte();
                if classes[usize::from(symbol)] == 0 {
                    classes[usize::from(symbol)] = class;
                    chosen.push(symbol);
                }
            }
            chosen
        };
        let calls = some(rng, CALL, calls);
        let returns = some(rng, RETURN, returns);
        let internals = some(rng, INTERNAL, internals);
        // Symbols with a class and no row at all.
        for class in [CALL, RETURN, INTERNAL] {
            let spare = rng.below(3);
            some(rng, class, spare);
        }
        Symbols {
            calls,
            returns,
            internals,
            classes,
        }
    }
}

pub fn caps(rng: &mut Rng) -> (u8, u16) {
    let depth = rng.pick(&[1, 2, 2, 3, 4, 6, 8, 16, 32, 32]);
    let waiting = rng.pick(&[0, 1, 2, 3, 4, 6, 8, 16, 40, 100, 255, 511, 512]);
    (depth, waiting)
}

/// A good table; which kind is the seed's choice.
pub fn table(rng: &mut Rng) -> Table {
    let mut table = match rng.below(20) {
        0..=3 => wild(rng),
        4..=9 => tracks(rng, false),
        10..=12 => offsets(rng),
        13..=15 => crowd(rng),
        16..=18 => tracks(rng, true),
        _ => by_hand(rng),
    };
    tidy(rng, &mut table);
    table
}

/// Puts rows in order and within number, and sees to it that there is a starting state.
pub fn tidy(rng: &mut Rng, table: &mut Table) {
    table.rows.sort();
    table.rows.dedup();
    while table.rows.len() > MOST_ROWS {
        let at = rng.below(table.rows.len());
        table.rows.remove(at);
    }
    if table.starting == 0 {
        table.starting = 1 << rng.below(usize::from(table.states));
    }
}

/// Rows without any plan: Conflict and NoRun come early.
fn wild(rng: &mut Rng) -> Table {
    let (depth_cap, waiting_cap) = caps(rng);
    let states = rng.within(1, 6);
    let markers = rng.below(4);
    let stacked = usize::from(markers > 0);
    let (calls, returns, internals) = (rng.within(1, 3), rng.within(1, 3), rng.within(1, 3));
    let symbols = Symbols::new(rng, calls * stacked, returns * stacked, internals);
    let all = [&symbols.calls[..], &symbols.returns, &symbols.internals].concat();
    let longest = rng.pick(&[1, 2, 4, 12]);
    let words = Words::new(rng, longest);
    let rows = (0..rng.within(0, 40))
        .map(|_| {
            let symbol = rng.pick(&all);
            let internal = symbols.classes[usize::from(symbol)] == INTERNAL;
            Row {
                symbol,
                from: rng.below(states) as u8,
                marker: if internal {
                    0
                } else {
                    rng.within(1, markers) as u8
                },
                to: rng.below(states) as u8,
                word: words.word(rng),
            }
        })
        .collect();
    Table {
        states: states as u8,
        markers: markers as u8,
        depth_cap,
        waiting_cap,
        classes: symbols.classes,
        starting: rng.set(states, 40),
        finals: rng.set(states, 50),
        rows,
    }
}

/// Each state belongs to a track, and what a symbol writes depends on the track: runs of
/// different tracks part and wait, runs of one track agree, some returns suit only some tracks.
fn tracks(rng: &mut Rng, large: bool) -> Table {
    let (depth_cap, waiting_cap) = caps(rng);
    let states = if large {
        rng.within(20, 64)
    } else {
        rng.within(2, 10)
    };
    let tracks = rng.within(1, 4).min(states);
    // A marker for each caller keeps returns from joining runs that came from different places.
    let saving = rng.chance(70);
    let markers = if saving { states } else { rng.within(1, 3) };
    let (calls, returns, internals) = (rng.within(1, 2), rng.within(1, 3), rng.within(1, 3));
    let symbols = Symbols::new(rng, calls, returns, internals);
    let longest = rng.pick(if large {
        &[3, 12, 60, 200, 255]
    } else {
        &[1, 2, 3, 5, 20]
    });
    let words = Words::new(rng, longest);
    let branching = rng.pick(&[0, 10, 30]);
    let mut rows = vec![];

    let says = |rng: &mut Rng| -> Vec<Vec<u8>> {
        let word = words.word(rng);
        (0..tracks).map(|_| words.variant(rng, &word)).collect()
    };
    for &symbol in &symbols.internals {
        let said = says(rng);
        for from in (0..states).filter(|_| !large || tracks > 1) {
            let track = from % tracks;
            for _ in 0..usize::from(rng.chance(80)) + usize::from(rng.chance(branching)) {
                let to = rng.below(states.div_ceil(tracks)) * tracks + track;
                let word = if rng.chance(3) {
                    words.word(rng)
                } else {
                    said[track].clone()
                };
                rows.push(Row {
                    symbol,
                    from: from as u8,
                    marker: 0,
                    to: (to % states) as u8,
                    word,
                });
            }
        }
    }
    for &symbol in &symbols.calls {
        let said = says(rng);
        for from in 0..states {
            for _ in 0..usize::from(rng.chance(85)) + usize::from(rng.chance(branching)) {
                let to = rng.below(states);
                let marker = if saving {
                    from + 1
                } else {
                    rng.within(1, markers)
                };
                let word = said[to % tracks].clone();
                rows.push(Row {
                    symbol,
                    from: from as u8,
                    marker: marker as u8,
                    to: to as u8,
                    word,
                });
            }
        }
    }
    for &symbol in &symbols.returns {
        let said = says(rng);
        let served = rng.set(tracks, 60);
        let exits: Vec<usize> = (0..states)
            .filter(|from| served >> (from % tracks) & 1 == 1)
            .collect();
        // In a large table every exit for every marker would be too many rows.
        let percent = if large {
            (4000 / (exits.len() * markers).max(1)).min(90)
        } else {
            80
        };
        for &from in &exits {
            for marker in 1..=markers {
                if rng.chance(percent) {
                    let to = if saving && rng.chance(90) {
                        marker - 1
                    } else {
                        rng.below(states)
                    };
                    let word = said[from % tracks].clone();
                    rows.push(Row {
                        symbol,
                        from: from as u8,
                        marker: marker as u8,
                        to: to as u8,
                        word,
                    });
                }
            }
        }
    }
    Table {
        states: states as u8,
        markers: markers as u8,
        depth_cap,
        waiting_cap,
        classes: symbols.classes,
        starting: rng.set(states, if large { 10 } else { 40 }),
        finals: rng.set(states, 50),
        rows,
    }
}

/// Each state stands at an offset in one endless text, so that runs may part and meet again
/// with one output: much branching, few Conflicts, outputs of unlike lengths.
fn offsets(rng: &mut Rng) -> Table {
    let (depth_cap, waiting_cap) = caps(rng);
    let states = rng.within(2, 8);
    let markers = rng.within(1, 3);
    let (calls, returns, internals) = (rng.within(1, 2), rng.within(1, 2), rng.within(1, 3));
    let symbols = Symbols::new(rng, calls, returns, internals);
    let period = rng.within(1, 3);
    let text: Vec<u8> = b"abc"[..period].iter().copied().cycle().take(64).collect();
    let reach = rng.pick(&[0, 1, 3, 8]);
    let offset: Vec<usize> = (0..states)
        .map(|state| if state == 0 { 0 } else { rng.below(reach + 1) })
        .collect();
    let density = rng.pick(&[15, 30, 60]);
    let mut rows = vec![];
    for symbol in [&symbols.calls[..], &symbols.returns, &symbols.internals].concat() {
        let advance = period * rng.below(4);
        let kinds = if symbols.classes[usize::from(symbol)] == INTERNAL {
            0..=0
        } else {
            1..=markers
        };
        for marker in kinds {
            for from in 0..states {
                for to in 0..states {
                    let end = advance + offset[to];
                    if end >= offset[from] && rng.chance(density) {
                        let word = text[offset[from]..end].to_vec();
                        rows.push(Row {
                            symbol,
                            from: from as u8,
                            marker: marker as u8,
                            to: to as u8,
                            word,
                        });
                    }
                }
            }
        }
    }
    if rng.chance(15) && !rows.is_empty() {
        let at = rng.below(rows.len());
        rows[at].word.push(b'!');
    }
    let at_origin = (0..states)
        .filter(|&state| offset[state] == 0)
        .fold(0, |set, state| set | 1 << state);
    Table {
        states: states as u8,
        markers: markers as u8,
        depth_cap,
        waiting_cap,
        classes: symbols.classes,
        starting: if rng.chance(80) {
            at_origin & (1 | rng.set(states, 50))
        } else {
            rng.set(states, 40)
        },
        finals: rng.set(states, 50),
        rows,
    }
}

/// Many starting states and about as many call rows as fit beside them: 64 links, or just over.
fn crowd(rng: &mut Rng) -> Table {
    let (depth_cap, waiting_cap) = caps(rng);
    let starting = rng.pick(&[3, 4, 6, 8, 8, 12, 16, 32, 63, 64]);
    let states = rng.within(starting.max(8), 64.min(starting * 2).max(8));
    let markers = rng.within(1, 3);
    let symbols = Symbols::new(rng, 2, 2, 2);
    let longest = rng.pick(&[1, 3]);
    let words = Words::new(rng, longest);
    let mut rows = vec![];
    for &symbol in &symbols.calls {
        let word = words.word(rng);
        let wanted = (64 + rng.below(4))
            .saturating_sub(starting + 2)
            .max(rng.below(4));
        for i in 0..wanted {
            let (from, to) = ((i % starting) as u8, ((i / starting + i) % states) as u8);
            let marker = rng.within(1, markers) as u8;
            rows.push(Row {
                symbol,
                from,
                marker,
                to,
                word: word.clone(),
            });
        }
    }
    for &symbol in &symbols.internals {
        let word = words.word(rng);
        for from in 0..states as u8 {
            for _ in 0..rng.pick(&[0, 1, 1, 1, 2]) {
                let to = rng.below(states) as u8;
                rows.push(Row {
                    symbol,
                    from,
                    marker: 0,
                    to,
                    word: word.clone(),
                });
            }
        }
    }
    for &symbol in &symbols.returns {
        let word = words.word(rng);
        for _ in 0..30 {
            let (from, to) = (rng.below(states) as u8, rng.below(states) as u8);
            let marker = rng.within(1, markers) as u8;
            rows.push(Row {
                symbol,
                from,
                marker,
                to,
                word: word.clone(),
            });
        }
    }
    for row in &mut rows {
        if rng.chance(1) {
            row.word = words.word(rng);
        }
    }
    let low = |count: usize| u64::MAX >> (64 - count);
    Table {
        states: states as u8,
        markers: markers as u8,
        depth_cap,
        waiting_cap,
        classes: symbols.classes,
        starting: if rng.chance(80) {
            low(starting)
        } else {
            rng.set(states, 50)
        },
        finals: rng.set(states, 50),
        rows,
    }
}

/// The scope's table G with its changes, under changing caps.
fn by_hand(rng: &mut Rng) -> Table {
    let mut classes = [0; 256];
    for (symbol, class) in [
        (10, CALL),
        (1, INTERNAL),
        (2, INTERNAL),
        (11, RETURN),
        (12, RETURN),
    ] {
        classes[symbol] = class;
    }
    let row = |symbol: u8, from: u8, marker: u8, to: u8, word: &str| Row {
        symbol,
        from,
        marker,
        to,
        word: word.as_bytes().to_vec(),
    };
    let mut rows = vec![
        row(10, 0, 1, 1, "OK"),
        row(10, 0, 1, 2, "ON"),
        row(1, 1, 0, 1, "p"),
        row(1, 2, 0, 2, "p"),
        row(11, 1, 1, 3, ""),
        row(12, 2, 1, 3, ""),
    ];
    let more = [
        row(10, 0, 1, 1, "OJ"),
        row(2, 0, 0, 1, "a"),
        row(2, 0, 0, 2, "b"),
        row(2, 0, 0, 3, "ab"),
        row(10, 3, 1, 0, "OK"),
        row(11, 2, 1, 3, "K"),
    ];
    rows.extend(more.into_iter().filter(|_| rng.chance(30)));
    let (depth_cap, waiting_cap) = if rng.chance(50) { (4, 4) } else { caps(rng) };
    let finals = 1 << 3 | rng.set(4, 30);
    Table {
        states: 4,
        markers: 1,
        depth_cap,
        waiting_cap,
        classes,
        starting: 1,
        finals,
        rows,
    }
}

/// A near relation of a table, for which its sessions may or may not be sound.
pub fn sibling(rng: &mut Rng, table: &Table) -> Table {
    let mut other = table.clone();
    match rng.below(6) {
        0 => other.depth_cap = rng.within(1, usize::from(table.depth_cap)) as u8,
        1 => other.waiting_cap = rng.below(usize::from(table.waiting_cap) + 1) as u16,
        2 => other.states = rng.within(1, usize::from(table.states)) as u8,
        3 => other.markers = rng.below(usize::from(table.markers) + 1) as u8,
        4 => (other.depth_cap, other.waiting_cap) = caps(rng),
        _ => other.rows.retain(|_| rng.chance(70)),
    }
    let (states, markers) = (other.states, other.markers);
    let known = u64::MAX >> (64 - u32::from(states));
    other.starting &= known;
    other.finals &= known;
    other
        .rows
        .retain(|row| row.from < states && row.to < states && row.marker <= markers);
    tidy(rng, &mut other);
    other
}
