//! Sessions, sound and unsound.

use super::Rng;
use crate::file::Table;
use crate::model::{common_beginning, Link, Pair};
use crate::session::{self, Entry, BYTES, LENGTHS_AT, LINKS_AT, MOST_LINKS, PIECE, PIECES_AT};
use std::collections::BTreeSet;

/// A session that no message need lead to: any set of trails with any waiting outputs.
/// It is mostly sound; how it is made so differs, and sometimes nobody sees to it.
pub fn session(rng: &mut Rng, table: &Table) -> Option<Vec<u8>> {
    let (depth, mut entries) = graph(rng, table)?;
    if rng.chance(20) {
        return Some(session::lay(depth, &entries));
    }
    if rng.chance(70) {
        if let Some(mut runs) = session::trails(depth, &entries) {
            let common = common_beginning(&runs).len();
            for run in &mut runs {
                run.waiting.drain(..common);
            }
            return session::write(&runs);
        }
    }
    loosen(rng, &mut entries);
    Some(session::lay(depth, &entries))
}

/// Links that all lie on full trails, each with a piece that is nobody's concern yet.
fn graph(rng: &mut Rng, table: &Table) -> Option<(usize, Vec<Entry>)> {
    let deepest = if table.markers == 0 {
        0
    } else {
        usize::from(table.depth_cap)
    };
    // Two pairs on each level, all linked: more trails than anyone would list.
    let many = deepest >= 12 && table.states > 1 && rng.chance(25);
    let depth = match rng.below(10) {
        _ if many => rng.within(12, deepest.min(15)),
        0..=7 => rng.below(deepest.min(4) + 1),
        _ => rng.within(0, deepest),
    };
    let widest = match depth {
        0 => rng.pick(&[2, 8, 64]),
        1 => rng.pick(&[2, 4, 8, 9]),
        2..=4 => rng.pick(&[2, 3, 5]),
        _ => 2,
    };
    let froms: Vec<u8> = table.rows.iter().map(|row| row.from).collect();
    let letters = rng.within(1, 2);
    let share = usize::from(table.waiting_cap) / (depth + 1);
    let longest = rng.pick(&[0, 1, 2, 3, share, share + 1]);

    let mut entries: Vec<Entry> = vec![];
    let mut below: Vec<Pair> = vec![];
    for level in 0..=depth {
        let wanted = if many { 2 } else { rng.within(1, widest) };
        let mut pairs = BTreeSet::new();
        for _ in 0..wanted {
            let state = if !froms.is_empty() && rng.chance(85) {
                rng.pick(&froms)
            } else {
                rng.below(usize::from(table.states)) as u8
            };
            let marker = if level == 0 {
                0
            } else {
                rng.within(1, usize::from(table.markers)) as u8
            };
            pairs.insert(Pair { state, marker });
            if many {
                let state = (state + 1) % table.states;
                pairs.insert(Pair { state, marker });
            }
        }
        let pairs: Vec<Pair> = pairs.into_iter().take(wanted).collect();
        let links = level_links(rng, level as u8, &pairs, &below, many);
        for link in links {
            let length = rng.below(longest + 1);
            let piece = (0..length).map(|_| b'a' + rng.below(letters) as u8);
            entries.push((link, piece.collect()));
        }
        below = pairs;
    }
    (entries.len() <= MOST_LINKS).then_some((depth, entries))
}

/// Each pair gets a pair under it and each pair below gets one on it.
fn level_links(
    rng: &mut Rng,
    level: u8,
    pairs: &[Pair],
    below: &[Pair],
    all: bool,
) -> BTreeSet<Link> {
    let link = |pair: Pair, below: Pair| Link { level, pair, below };
    if level == 0 {
        let ground = Pair::default();
        return pairs.iter().map(|&pair| link(pair, ground)).collect();
    }
    let mut links = BTreeSet::new();
    let percent = if all { 100 } else { rng.pick(&[0, 0, 0, 80]) };
    for &pair in pairs {
        links.insert(link(pair, rng.pick(below)));
        for &under in below {
            if rng.chance(percent) {
                links.insert(link(pair, under));
            }
        }
    }
    for &under in below {
        if !links.iter().any(|link| link.below == under) {
            links.insert(link(rng.pick(pairs), under));
        }
    }
    links
}

/// Empties a piece wherever all pieces on one pair begin with the same byte.
fn loosen(rng: &mut Rng, entries: &mut [Entry]) {
    for at in 0..entries.len() {
        let (level, below) = (entries[at].0.level, entries[at].0.below);
        let standing: Vec<usize> = (0..entries.len())
            .filter(|&i| entries[i].0.level == level && entries[i].0.below == below)
            .collect();
        if session::share_first_byte(standing.iter().map(|&i| entries[i].1.as_slice())) {
            entries[rng.pick(&standing)].1.clear();
        }
    }
}

/// A session with something changed; most often that makes it unsound.
pub fn tamper(rng: &mut Rng, sound: &[u8], table: &Table) -> Vec<u8> {
    let mut bytes = sound.to_vec();
    let count = usize::from(bytes[1]).clamp(1, MOST_LINKS);
    let other = rng.within(1, 255) as u8;
    match rng.below(16) {
        0 => bytes[rng.below(BYTES)] ^= other,
        1 => bytes[LINKS_AT + rng.below(5 * count)] ^= rng.pick(&[1, 2, 3, other]),
        2 => bytes[LENGTHS_AT + rng.below(2 * count)] ^= rng.pick(&[1, 2, 3, other]),
        3 => {
            bytes[PIECES_AT + rng.below(count) * PIECE + rng.below(4)] ^=
                rng.pick(&[1, 2, 3, other])
        }
        4 => {
            let (less, more) = (bytes[0].wrapping_sub(1), bytes[0] + 1);
            bytes[0] = rng.pick(&[less, more, 0, 32, 33, table.depth_cap + 1, 255]);
        }
        5 => bytes[1] = rng.pick(&[bytes[1] - 1, bytes[1] + 1, 0, 64, 65, 255]),
        // Places after the last link; when there are none, links after the last place.
        6 if count == MOST_LINKS => bytes[1] = rng.pick(&[65, 65, 128, 255]),
        6 => {
            let at = rng.within(count, MOST_LINKS - 1);
            let (start, size) = rng.pick(&[(LINKS_AT, 5), (LENGTHS_AT, 2), (PIECES_AT, PIECE)]);
            bytes[start + size * at + rng.below(size)] = other;
        }
        7 => {
            let at = rng.below(count);
            let cap = table.waiting_cap;
            let length: u16 = rng.pick(&[511, 512, 513, 514, 65_535, cap, cap + 1]);
            bytes[LENGTHS_AT + 2 * at..][..2].copy_from_slice(&length.to_le_bytes());
        }
        _ => {
            let (mut depth, mut entries) = session::unlay(&bytes);
            reshape(rng, table, &mut depth, &mut entries);
            bytes = session::lay(depth, &entries);
        }
    }
    bytes
}

/// Breaks one rule of the links or pieces and keeps the others where it can.
fn reshape(rng: &mut Rng, table: &Table, depth: &mut usize, entries: &mut Vec<Entry>) {
    if entries.is_empty() {
        return;
    }
    let (states, markers) = (usize::from(table.states), usize::from(table.markers));
    let at = rng.below(entries.len());
    let chosen = entries[at].0;
    let byte = rng.pick(b"abOpxyz");
    match rng.below(11) {
        0 => {
            let with = rng.below(entries.len());
            entries.swap(at, with);
        }
        1 => entries.insert(at, entries[at].clone()),
        2 => drop(entries.remove(at)),
        // A pair under another name wherever it stands, so that only its range can be wrong.
        3 | 4 => {
            let known = rng.below(states);
            let state = rng.pick(&[states, states - 1, known, 255]) as u8;
            let marker =
                rng.pick(&[0, 1, markers, markers + 1, usize::from(chosen.pair.marker)]) as u8;
            let named = if rng.chance(50) {
                Pair {
                    state,
                    ..chosen.pair
                }
            } else {
                Pair {
                    marker,
                    ..chosen.pair
                }
            };
            for (link, _) in entries.iter_mut() {
                if link.level == chosen.level && link.pair == chosen.pair {
                    link.pair = named;
                }
                if link.level == chosen.level.wrapping_add(1) && link.below == chosen.pair {
                    link.below = named;
                }
            }
            entries.sort();
        }
        // A link that may lead nowhere.
        5 => {
            let level = rng.below(*depth + 2) as u8;
            let mut pair = |level: u8| Pair {
                state: rng.below(states) as u8,
                marker: if level == 0 {
                    0
                } else {
                    rng.below(markers + 1).max(1) as u8
                },
            };
            let link = Link {
                level,
                pair: pair(level),
                below: if level == 0 {
                    Pair::default()
                } else {
                    pair(level - 1)
                },
            };
            entries.push((link, vec![]));
            entries.sort();
        }
        // A byte that all outputs share, or all that stand on one pair.
        6 => entries
            .iter_mut()
            .filter(|(link, _)| link.level == 0)
            .for_each(|(_, piece)| piece.insert(0, byte)),
        7 => entries
            .iter_mut()
            .filter(|(link, _)| link.level == chosen.level && link.below == chosen.below)
            .for_each(|(_, piece)| piece.insert(0, byte)),
        // Just the cap, or just over it.
        8 => {
            let length = usize::from(table.waiting_cap) + rng.below(2);
            entries[at].1.resize(length.min(PIECE), byte);
        }
        9 => {
            if entries[at].1.is_empty() {
                entries[at].1.push(byte);
            } else {
                entries[at].1.remove(0);
            }
        }
        _ => {
            let top = *depth as u8;
            entries.retain(|(link, _)| link.level != top);
            if rng.chance(50) {
                *depth = depth.saturating_sub(1);
            }
        }
    }
}
