//! Session bytes: the one form of a set of runs, and the judge of any bytes.

use crate::file::Table;
use crate::model::{common_beginning, Link, Pair, Run};
use std::collections::{BTreeMap, BTreeSet};

pub const BYTES: usize = 33_218;
pub const MOST_LINKS: usize = 64;
pub const LINKS_AT: usize = 2;
pub const LENGTHS_AT: usize = 322;
pub const PIECES_AT: usize = 450;
pub const PIECE: usize = 512;

/// Trails are listed one by one, so sessions with more than this can't be stepped.
pub const MOST_TRAILS: usize = 4096;

/// A link and its piece of output.
pub type Entry = (Link, Vec<u8>);

#[derive(Debug, PartialEq, Eq)]
pub enum Verdict {
    Sound(Vec<Run>),
    /// Sound, with more trails than are listed here; that takes a depth above 0.
    SoundButMany,
    Unsound,
}

/// The one sound session of these runs, which stand in the order of their trails.
/// Nothing comes back when no pieces on links could say the runs' outputs.
pub fn write(runs: &[Run]) -> Option<Vec<u8>> {
    let mut pieces = BTreeMap::new();
    place(runs, 0, 0, &mut pieces)?;
    let entries: Vec<Entry> = pieces.into_iter().collect();
    Some(lay(runs[0].depth(), &entries))
}

/// A shared beginning moves down as far as it is shared: the pieces up to a pair
/// join to what all outputs of the trails with that beginning have in common.
fn place(
    runs: &[Run],
    level: usize,
    placed: usize,
    pieces: &mut BTreeMap<Link, Vec<u8>>,
) -> Option<()> {
    for group in runs.chunk_by(|a, b| a.trail[level] == b.trail[level]) {
        let common = common_beginning(group);
        let piece = &common[placed..];
        let kept = pieces
            .entry(group[0].link(level))
            .or_insert_with(|| piece.to_vec());
        if kept != piece {
            return None;
        }
        if level < group[0].depth() {
            place(group, level + 1, common.len(), pieces)?;
        }
    }
    Some(())
}

/// Lays entries into bytes as they are, sound or not; what doesn't fit is left out.
pub fn lay(depth: usize, entries: &[Entry]) -> Vec<u8> {
    let entries = &entries[..entries.len().min(MOST_LINKS)];
    let mut bytes = vec![0; BYTES];
    bytes[0] = depth as u8;
    bytes[1] = entries.len() as u8;
    for (i, (link, piece)) in entries.iter().enumerate() {
        let piece = &piece[..piece.len().min(PIECE)];
        let fields = [
            link.level,
            link.pair.state,
            link.pair.marker,
            link.below.state,
            link.below.marker,
        ];
        bytes[LINKS_AT + 5 * i..][..5].copy_from_slice(&fields);
        bytes[LENGTHS_AT + 2 * i..][..2].copy_from_slice(&(piece.len() as u16).to_le_bytes());
        bytes[PIECES_AT + PIECE * i..][..piece.len()].copy_from_slice(piece);
    }
    bytes
}

/// The link and the piece length in a place, used or not.
fn peek(bytes: &[u8], i: usize) -> (Link, usize) {
    let field = |k: usize| bytes[LINKS_AT + 5 * i + k];
    let link = Link {
        level: field(0),
        pair: Pair {
            state: field(1),
            marker: field(2),
        },
        below: Pair {
            state: field(3),
            marker: field(4),
        },
    };
    let at = LENGTHS_AT + 2 * i;
    (
        link,
        usize::from(u16::from_le_bytes([bytes[at], bytes[at + 1]])),
    )
}

fn place_of(bytes: &[u8], i: usize) -> &[u8] {
    &bytes[PIECES_AT + PIECE * i..][..PIECE]
}

/// Depth and entries as they stand, cut to what the places can hold.
pub fn unlay(bytes: &[u8]) -> (usize, Vec<Entry>) {
    let count = usize::from(bytes[1]).min(MOST_LINKS);
    let entry = |i: usize| {
        let (link, length) = peek(bytes, i);
        (link, place_of(bytes, i)[..length.min(PIECE)].to_vec())
    };
    (usize::from(bytes[0]), (0..count).map(entry).collect())
}

/// All full trails through the entries, each with the output its pieces join to.
pub fn trails(depth: usize, entries: &[Entry]) -> Option<Vec<Run>> {
    let mut runs = vec![Run {
        trail: vec![],
        waiting: vec![],
    }];
    for level in 0..=depth {
        let mut next = Vec::new();
        for run in &runs {
            let stands_on = run.trail.last().copied().unwrap_or_default();
            for (link, piece) in entries {
                if usize::from(link.level) == level && link.below == stands_on {
                    let trail = [run.trail.as_slice(), &[link.pair]].concat();
                    next.push(Run {
                        trail,
                        waiting: [run.waiting.as_slice(), piece].concat(),
                    });
                }
            }
            if next.len() > MOST_TRAILS {
                return None;
            }
        }
        runs = next;
    }
    runs.sort();
    Some(runs)
}

pub fn judge(bytes: &[u8], table: &Table) -> Verdict {
    let count = usize::from(bytes[1]);
    if bytes[0] > table.depth_cap
        || !(1..=MOST_LINKS).contains(&count)
        || !unused_is_zero(bytes, count)
    {
        return Verdict::Unsound;
    }
    let (depth, entries) = unlay(bytes);
    let in_range = entries.iter().all(|(link, _)| link_in_range(link, table));
    let rising = entries.windows(2).all(|two| two[0].0 < two[1].0);
    if !in_range || !rising || !shared_is_moved_down(&entries) {
        return Verdict::Unsound;
    }

    let cap = usize::from(table.waiting_cap);
    let in_bulk = sound_in_bulk(depth, &entries, cap);
    let Some(runs) = trails(depth, &entries) else {
        return if in_bulk {
            Verdict::SoundButMany
        } else {
            Verdict::Unsound
        };
    };
    let on_trails: BTreeSet<Link> = runs.iter().flat_map(Run::links).collect();
    let sound = entries.iter().all(|(link, _)| on_trails.contains(link))
        && runs.iter().all(|run| run.waiting.len() <= cap)
        && !share_first_byte(runs.iter().map(|run| run.waiting.as_slice()));
    assert_eq!(sound, in_bulk, "the two ways to judge trails disagree");
    if sound {
        Verdict::Sound(runs)
    } else {
        Verdict::Unsound
    }
}

/// What all trails above a pair can write, in bulk: `None` is a first byte that isn't there.
#[derive(Default)]
struct Above {
    longest: usize,
    firsts: BTreeSet<Option<u8>>,
}

/// The rules about trails without listing them, for links in order: there may be too many.
fn sound_in_bulk(depth: usize, entries: &[Entry], cap: usize) -> bool {
    let mut reached: BTreeSet<(u8, Pair)> = BTreeSet::new();
    for (link, _) in entries {
        if link.level > 0 && !reached.contains(&(link.level - 1, link.below)) {
            return false;
        }
        reached.insert((link.level, link.pair));
    }

    // By the level of links and the pair they stand on, gathered from the top down.
    let mut above: BTreeMap<(usize, Pair), Above> = BTreeMap::new();
    for (link, piece) in entries.iter().rev() {
        let level = usize::from(link.level);
        let (longest, mut firsts) = match above.get(&(level + 1, link.pair)) {
            Some(over) => (over.longest, over.firsts.clone()),
            None if level == depth => (0, BTreeSet::from([None])),
            None => return false,
        };
        if let Some(&first) = piece.first() {
            firsts = BTreeSet::from([Some(first)]);
        }
        let under = above.entry((level, link.below)).or_default();
        under.longest = under.longest.max(piece.len() + longest);
        under.firsts.extend(firsts);
    }
    let Some(all) = above.get(&(0, Pair::default())) else {
        return false;
    };
    let common = all.firsts.len() == 1 && !all.firsts.contains(&None);
    all.longest <= cap && !common
}

/// Every place after the last link, and every byte after a piece, holds 0.
/// A piece longer than its place can be no piece at all: it is longer than any cap.
fn unused_is_zero(bytes: &[u8], count: usize) -> bool {
    let nothing = Link {
        level: 0,
        pair: Pair::default(),
        below: Pair::default(),
    };
    (0..MOST_LINKS).all(|i| {
        let (link, length) = peek(bytes, i);
        let blank = i < count || (link, length) == (nothing, 0);
        blank && length <= PIECE && place_of(bytes, i)[length..].iter().all(|&byte| byte == 0)
    })
}

fn link_in_range(link: &Link, table: &Table) -> bool {
    let fits = |pair: Pair, level: u8| {
        pair.state < table.states
            && pair.marker <= table.markers
            && (pair.marker == 0) == (level == 0)
    };
    fits(link.pair, link.level)
        && match link.level {
            0 => link.below == Pair::default(),
            level => fits(link.below, level - 1),
        }
}

/// For each pair that links stand on, their pieces have no common first byte.
fn shared_is_moved_down(entries: &[Entry]) -> bool {
    let mut standing: BTreeMap<(u8, Pair), Vec<&[u8]>> = BTreeMap::new();
    for (link, piece) in entries.iter().filter(|(link, _)| link.level > 0) {
        standing
            .entry((link.level - 1, link.below))
            .or_default()
            .push(piece);
    }
    standing
        .into_values()
        .all(|pieces| !share_first_byte(pieces.into_iter()))
}

pub fn share_first_byte<'a>(mut outputs: impl Iterator<Item = &'a [u8]>) -> bool {
    match outputs.next().map(<[u8]>::first) {
        Some(Some(first)) => outputs.all(|output| output.first() == Some(first)),
        _ => false,
    }
}
