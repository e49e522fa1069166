//! The session's bytes: begun, and read with every rule of soundness in one pass over the links.

use super::table::{check, Table};
use super::{BAD_TABLE, TAKEN};

pub const SESSION: usize = 33_218;
pub const MOST_LINKS: usize = 64;
pub const LINKS_AT: usize = 2;
pub const LENGTHS_AT: usize = 322;
pub const PIECES_AT: usize = 450;
pub const PIECE: usize = 512;

/// The place of "no pair below", after the 64 that pairs can have.
pub const GROUND: u8 = 64;

/// What the links say. Pairs of one level have numbers in a row, and so have the links of a pair.
pub struct Links {
    pub count: usize,
    pub depth: usize,
    pub length: [u16; MOST_LINKS],
    /// Of each link: its pair's number and the number of the pair below.
    pub pair_of: [u8; MOST_LINKS],
    pub below: [u8; MOST_LINKS],
    /// Of each pair: state and marker, and its first link.
    pub pairs: [[u8; 2]; MOST_LINKS + 1],
    pub first_link: [u8; MOST_LINKS + 1],
    /// Of each level: its first pair; the level after the last has the number of pairs.
    pub first_pair: [u8; 34],
}

impl Links {
    pub const fn new() -> Links {
        Links {
            count: 0,
            depth: 0,
            length: [0; MOST_LINKS],
            pair_of: [0; MOST_LINKS],
            below: [0; MOST_LINKS],
            pairs: [[0; 2]; MOST_LINKS + 1],
            first_link: [0; MOST_LINKS + 1],
            first_pair: [0; 34],
        }
    }

    /// The first link of a level, which may be the level after the last.
    pub fn first_of(&self, level: usize) -> usize {
        usize::from(self.first_link[usize::from(self.first_pair[level])])
    }

    pub fn piece<'s>(&self, session: &'s [u8; SESSION], link: usize) -> &'s [u8] {
        &session[PIECES_AT + PIECE * link..][..usize::from(self.length[link])]
    }
}

pub fn begin(file: &[u8], session: &mut [u8; SESSION]) -> (u32, u32) {
    let Some(table) = check(file) else {
        return (BAD_TABLE, 0);
    };
    session.fill(0);
    let mut left = table.starting;
    let mut count = 0;
    while left != 0 {
        session[LINKS_AT + 5 * count + 1] = left.trailing_zeros() as u8;
        left &= left - 1;
        count += 1;
    }
    session[1] = count as u8;
    (TAKEN, count as u32)
}

/// In stretches of 128 bytes without a branch; the last one may overlap the one before.
fn zero(bytes: &[u8]) -> bool {
    let (stretches, rest) = bytes.as_chunks::<128>();
    let Some(last) = bytes.last_chunk::<128>() else {
        return rest.iter().fold(0, |all, byte| all | byte) == 0;
    };
    let mut all = *last;
    for stretch in stretches {
        all.iter_mut()
            .zip(stretch)
            .for_each(|(all, byte)| *all |= byte);
    }
    all.iter().fold(0, |all, byte| all | byte) == 0
}

/// Reads the links; false where the session is not sound for the table.
pub fn read(table: &Table, session: &[u8; SESSION], links: &mut Links) -> bool {
    let (depth, count) = (usize::from(session[0]), usize::from(session[1]));
    if depth > table.depth_cap || count.wrapping_sub(1) >= MOST_LINKS {
        return false;
    }
    links.count = count;
    links.depth = depth;
    read_links(table, session, links)
        && zero(&session[LINKS_AT + 5 * count..LENGTHS_AT])
        && zero(&session[LENGTHS_AT + 2 * count..PIECES_AT])
        && zero(&session[PIECES_AT + PIECE * count..])
        && read_pieces(table, session, links)
}

fn read_links(table: &Table, session: &[u8; SESSION], links: &mut Links) -> bool {
    let (fields, _) = session[LINKS_AT..LENGTHS_AT].as_chunks::<5>();
    let fits = |state: u8, marker: u8, level: u8| {
        (state < table.states) & (marker <= table.markers) & ((marker == 0) == (level == 0))
    };
    let mut before = 0u64;
    let mut level_now = 0u8;
    let mut pair_count = 0usize;
    let mut stood_on = 0u64;
    links.first_pair[0] = 0;
    for (i, &[level, state, marker, state_below, marker_below]) in
        fields[..links.count].iter().enumerate()
    {
        let key = u64::from_be_bytes([0, 0, 1, level, state, marker, state_below, marker_below]);
        let rises = key > before && level <= level_now + 1 && usize::from(level) <= links.depth;
        if !rises || !fits(state, marker, level) {
            return false;
        }
        let new_pair = i == 0 || key >> 16 != before >> 16;
        before = key;
        if level > level_now {
            level_now = level;
            links.first_pair[usize::from(level)] = pair_count as u8;
        }
        if new_pair {
            links.pairs[pair_count] = [state, marker];
            links.first_link[pair_count] = i as u8;
            pair_count += 1;
        }
        links.pair_of[i] = (pair_count - 1) as u8;
        if level == 0 {
            if state_below | marker_below != 0 {
                return false;
            }
            links.below[i] = GROUND;
            continue;
        }
        let start = usize::from(links.first_pair[usize::from(level) - 1]);
        let end = usize::from(links.first_pair[usize::from(level)]);
        let stands_on = [state_below, marker_below];
        let Ok(at) = links.pairs[start..end].binary_search(&stands_on) else {
            return false;
        };
        links.below[i] = (start + at) as u8;
        stood_on |= 1 << (start + at);
    }
    let deepest = usize::from(level_now);
    links.first_pair[deepest + 1] = pair_count as u8;
    links.first_link[pair_count] = links.count as u8;
    // Every pair under the depth has a link on it.
    deepest == links.depth && stood_on == (1u64 << links.first_pair[deepest]).wrapping_sub(1)
}

/// The pieces from the last link down: what waits on a trail, common first bytes, unused bytes.
fn read_pieces(table: &Table, session: &[u8; SESSION], links: &mut Links) -> bool {
    const NONE_YET: u16 = 0x200;
    const NOT_COMMON: u16 = 0x100;
    let (lengths, _) = session[LENGTHS_AT..PIECES_AT].as_chunks::<2>();
    let (places, _) = session[PIECES_AT..].as_chunks::<PIECE>();
    let mut longest = [0u16; MOST_LINKS + 1];
    let mut common = [NONE_YET; MOST_LINKS + 1];
    for i in (0..links.count).rev() {
        let length = u16::from_le_bytes(lengths[i]);
        let used = usize::from(length);
        if used > PIECE || !zero(&places[i][used..]) {
            return false;
        }
        links.length[i] = length;
        let waiting = length + longest[usize::from(links.pair_of[i])];
        let below = usize::from(links.below[i]);
        if usize::from(waiting) > table.waiting_cap {
            return false;
        }
        longest[below] = longest[below].max(waiting);
        let first = if length == 0 {
            NOT_COMMON
        } else {
            u16::from(places[i][0])
        };
        common[below] = match common[below] {
            NONE_YET => first,
            kept if kept == first => kept,
            _ => NOT_COMMON,
        };
    }
    common.iter().all(|&first| first >= NOT_COMMON)
}
