//! One symbol: grow the top links by the rows, drop what leads nowhere, move shared beginnings down.

use super::session::{
    read, Links, GROUND, LENGTHS_AT, LINKS_AT, MOST_LINKS, PIECE, PIECES_AT, SESSION,
};
use super::table::{check, word, Row, Table, CALL, RETURN};
use super::{
    BACKLOG, BAD_SESSION, BAD_TABLE, CONFLICT, CROWDED, NO_ROOM, NO_RUN, TAKEN, TOO_DEEP,
    UNKNOWN_SYMBOL, UNOPENED,
};

/// The longest piece before sending: 512 bytes that waited, and a word.
const GROWN: usize = 776;
const BUCKETS: usize = 128;
const FREE: u8 = 255;

/// Room for a step, lent by the caller; what it holds between calls has no meaning.
pub struct Work {
    links: Links,
    grown: Grown,
}

impl Work {
    pub const fn new() -> Work {
        Work {
            links: Links::new(),
            grown: Grown {
                count: 0,
                conflict: false,
                buckets: [FREE; BUCKETS],
                key: [0; MOST_LINKS],
                source: [0; MOST_LINKS],
                length: [0; MOST_LINKS],
                pieces: [[0; GROWN]; MOST_LINKS],
            },
        }
    }
}

/// The new top links, found by their key (state, marker, number of the pair below).
struct Grown {
    count: usize,
    conflict: bool,
    buckets: [u8; BUCKETS],
    key: [u32; MOST_LINKS],
    source: [u16; MOST_LINKS],
    length: [u16; MOST_LINKS],
    pieces: [[u8; GROWN]; MOST_LINKS],
}

impl Grown {
    fn clear(&mut self) {
        self.count = 0;
        self.conflict = false;
        self.buckets = [FREE; BUCKETS];
    }

    /// Adds the link that a row leads to; false where there are more than 64.
    /// `source` tells the pieces `lower` and `upper`, so that equal ones need not be looked at.
    fn add(&mut self, key: u32, source: u16, lower: &[u8], upper: &[u8], word: &[u8]) -> bool {
        let mut bucket = (key.wrapping_mul(0x9e37_79b1) >> 25) as usize;
        let length = lower.len() + upper.len() + word.len();
        loop {
            let at = self.buckets[bucket];
            if at == FREE {
                break;
            }
            let at = usize::from(at);
            if self.key[at] == key {
                let kept = &self.pieces[at][..usize::from(self.length[at])];
                let same = kept.len() == length
                    && kept[lower.len() + upper.len()..] == *word
                    && (self.source[at] == source
                        || kept[..lower.len()] == *lower
                            && kept[lower.len()..lower.len() + upper.len()] == *upper);
                self.conflict |= !same;
                return true;
            }
            bucket = (bucket + 1) % BUCKETS;
        }
        if self.count == MOST_LINKS {
            return false;
        }
        let at = self.count;
        self.buckets[bucket] = at as u8;
        self.key[at] = key;
        self.source[at] = source;
        self.length[at] = length as u16;
        let piece = &mut self.pieces[at];
        piece[..lower.len()].copy_from_slice(lower);
        piece[lower.len()..][..upper.len()].copy_from_slice(upper);
        piece[lower.len() + upper.len()..][..word.len()].copy_from_slice(word);
        self.count += 1;
        true
    }
}

fn key(to: u8, marker: u8, below: u8) -> u32 {
    u32::from_be_bytes([0, to, marker, below])
}

pub fn step(
    file: &[u8],
    session: &mut [u8; SESSION],
    symbol: u8,
    out: &mut [u8],
    work: &mut Work,
) -> (u32, usize) {
    match take(file, session, symbol, out, work) {
        Ok(sent) => (TAKEN, sent),
        Err(number) => (number, 0),
    }
}

fn take(
    file: &[u8],
    session: &mut [u8; SESSION],
    symbol: u8,
    out: &mut [u8],
    work: &mut Work,
) -> Result<usize, u32> {
    let Work { links, grown } = work;
    let table = check(file).ok_or(BAD_TABLE)?;
    if !read(&table, session, links) {
        return Err(BAD_SESSION);
    }
    grown.clear();
    let (top, fits) = match table.classes[usize::from(symbol)] {
        0 => return Err(UNKNOWN_SYMBOL),
        RETURN if links.depth == 0 => return Err(UNOPENED),
        CALL if links.depth == table.depth_cap => return Err(TOO_DEEP),
        CALL => (links.depth + 1, grow_call(&table, links, grown, symbol)),
        RETURN => (
            links.depth - 1,
            grow_return(&table, session, links, grown, symbol),
        ),
        _ => (
            links.depth,
            grow_internal(&table, session, links, grown, symbol),
        ),
    };
    if grown.count == 0 {
        return Err(NO_RUN);
    }
    let mut next = Next::new(links, grown, top);
    if !fits || !next.gather(links, grown) {
        return Err(CROWDED);
    }
    if grown.conflict {
        return Err(CONFLICT);
    }
    let sent = next.settle(session, links, grown);
    if next.longest(links) > table.waiting_cap {
        return Err(BACKLOG);
    }
    let room = out.get_mut(..sent.len()).ok_or(NO_ROOM)?;
    room.copy_from_slice(sent.bytes(session, grown));
    next.write(session, links, grown);
    Ok(sent.len())
}

fn grow_call(table: &Table, links: &Links, grown: &mut Grown, symbol: u8) -> bool {
    let first = links.first_pair[links.depth];
    for pair in first..links.first_pair[links.depth + 1] {
        let [state, _] = links.pairs[usize::from(pair)];
        for row in table.rows_from(symbol, state) {
            let key = key(row[2], row[3], pair);
            if !grown.add(key, 0, &[], &[], word(table.words, row)) {
                return false;
            }
        }
    }
    true
}

fn grow_internal(
    table: &Table,
    session: &[u8; SESSION],
    links: &Links,
    grown: &mut Grown,
    symbol: u8,
) -> bool {
    let mut rows: &[Row] = &[];
    let mut state_before = None;
    for i in links.first_of(links.depth)..links.count {
        let [state, marker] = links.pairs[usize::from(links.pair_of[i])];
        if state_before != Some(state) {
            rows = table.rows_from(symbol, state);
            state_before = Some(state);
        }
        let piece = links.piece(session, i);
        for row in rows {
            let key = key(row[2], marker, links.below[i]);
            if !grown.add(key, i as u16, &[], piece, word(table.words, row)) {
                return false;
            }
        }
    }
    true
}

fn grow_return(
    table: &Table,
    session: &[u8; SESSION],
    links: &Links,
    grown: &mut Grown,
    symbol: u8,
) -> bool {
    let mut rows: &[Row] = &[];
    let mut pair_before = GROUND;
    for i in links.first_of(links.depth)..links.count {
        let pair = links.pair_of[i];
        if pair != pair_before {
            let [state, marker] = links.pairs[usize::from(pair)];
            rows = table.rows_popping(symbol, state, marker);
            pair_before = pair;
        }
        if rows.is_empty() {
            continue;
        }
        let upper = links.piece(session, i);
        let stands_on = usize::from(links.below[i]);
        let [_, marker] = links.pairs[stands_on];
        for j in links.first_link[stands_on]..links.first_link[stands_on + 1] {
            let lower = links.piece(session, usize::from(j));
            let source = u16::from_be_bytes([i as u8, j]);
            for row in rows {
                let key = key(row[2], marker, links.below[usize::from(j)]);
                if !grown.add(key, source, lower, upper, word(table.words, row)) {
                    return false;
                }
            }
        }
    }
    true
}

/// A piece: a stretch of a link's place in the session, or of a place among the grown pieces.
#[derive(Clone, Copy)]
struct Piece {
    grown: bool,
    place: u8,
    start: u16,
    length: u16,
}

impl Piece {
    const NONE: Piece = Piece {
        grown: false,
        place: 0,
        start: 0,
        length: 0,
    };

    fn len(self) -> usize {
        usize::from(self.length)
    }

    fn bytes<'a>(self, session: &'a [u8; SESSION], grown: &'a Grown) -> &'a [u8] {
        let (place, start) = (usize::from(self.place), usize::from(self.start));
        if self.grown {
            &grown.pieces[place][start..start + self.len()]
        } else {
            &session[PIECES_AT + PIECE * place + start..][..self.len()]
        }
    }

    fn without(self, beginning: u16) -> Piece {
        Piece {
            start: self.start + beginning,
            length: self.length - beginning,
            ..self
        }
    }

    fn beginning(self, length: u16) -> Piece {
        Piece { length, ..self }
    }
}

/// The links that follow: those that stay, in their order, and the new top links.
struct Next {
    depth: usize,
    count: usize,
    /// How many of the links stay from before; the grown ones follow them.
    staying: usize,
    /// Pairs on which something still stands.
    alive: u64,
    /// How many places among the grown pieces are in use.
    places: u8,
    /// The link as it was, for those that stay; the number among the grown, for the others.
    was: [u8; MOST_LINKS],
    below: [u8; MOST_LINKS],
    piece: [Piece; MOST_LINKS],
    /// For each pair: the links that stand on it.
    on: [u64; MOST_LINKS + 1],
}

impl Next {
    fn new(links: &Links, grown: &Grown, depth: usize) -> Next {
        let mut next = Next {
            depth,
            count: 0,
            staying: 0,
            alive: 0,
            places: grown.count as u8,
            was: [0; MOST_LINKS],
            below: [0; MOST_LINKS],
            piece: [Piece::NONE; MOST_LINKS],
            on: [0; MOST_LINKS + 1],
        };
        if depth > 0 {
            for key in &grown.key[..grown.count] {
                next.alive |= 1 << (key & 63);
            }
            for i in (0..links.first_of(depth)).rev() {
                if next.alive >> links.pair_of[i] & 1 == 1 && links.below[i] != GROUND {
                    next.alive |= 1 << links.below[i];
                }
            }
        }
        next
    }

    /// Sets down the links in order; false where there are more than 64.
    fn gather(&mut self, links: &Links, grown: &Grown) -> bool {
        for i in 0..links.first_of(self.depth) {
            if self.alive >> links.pair_of[i] & 1 == 1 {
                let at = self.staying;
                self.was[at] = i as u8;
                self.below[at] = links.below[i];
                self.piece[at] = Piece {
                    grown: false,
                    place: i as u8,
                    start: 0,
                    length: links.length[i],
                };
                self.on[usize::from(links.below[i])] |= 1 << at;
                self.staying += 1;
            }
        }
        self.count = self.staying + grown.count;
        if self.count > MOST_LINKS {
            return false;
        }
        let mut order = [0u32; MOST_LINKS];
        let order = &mut order[..grown.count];
        for (i, place) in order.iter_mut().enumerate() {
            *place = grown.key[i] << 8 | i as u32;
        }
        order.sort_unstable();
        for (at, &place) in (self.staying..).zip(order.iter()) {
            let [_, _, below, i] = place.to_be_bytes();
            self.was[at] = i;
            self.below[at] = below;
            self.piece[at] = Piece {
                grown: true,
                place: i,
                start: 0,
                length: grown.length[usize::from(i)],
            };
            self.on[usize::from(below)] |= 1 << at;
        }
        true
    }

    /// Moves shared beginnings down, from the highest pairs on; gives what all links share.
    fn settle(&mut self, session: &[u8; SESSION], links: &Links, grown: &mut Grown) -> Piece {
        let mut left = self.alive;
        while left != 0 {
            let pair = 63 - left.leading_zeros() as u8;
            left &= !(1 << pair);
            let shared = self.cut_shared(session, grown, pair);
            if shared.length > 0 {
                self.extend(session, links, grown, pair, shared);
            }
        }
        self.cut_shared(session, grown, GROUND)
    }

    /// Takes what the links on a pair share from each of them.
    fn cut_shared(&mut self, session: &[u8; SESSION], grown: &Grown, pair: u8) -> Piece {
        let all = self.on[usize::from(pair)];
        let first = self.piece[all.trailing_zeros() as usize];
        let text = first.bytes(session, grown);
        let mut shared = text.len();
        let mut left = all & (all - 1);
        while left != 0 && shared != 0 {
            let other = self.piece[left.trailing_zeros() as usize].bytes(session, grown);
            shared = common(&text[..shared], other);
            left &= left - 1;
        }
        let shared = shared as u16;
        if shared > 0 {
            let mut left = all;
            while left != 0 {
                let at = left.trailing_zeros() as usize;
                self.piece[at] = self.piece[at].without(shared);
                left &= left - 1;
            }
        }
        first.beginning(shared)
    }

    /// Appends a beginning to the links of a pair.
    fn extend(
        &mut self,
        session: &[u8; SESSION],
        links: &Links,
        grown: &mut Grown,
        pair: u8,
        shared: Piece,
    ) {
        for at in 0..self.staying {
            if links.pair_of[usize::from(self.was[at])] != pair {
                continue;
            }
            if !self.piece[at].grown {
                let kept = self.piece[at].bytes(session, grown).len();
                let place = self.places;
                let text =
                    &session[PIECES_AT + PIECE * usize::from(self.piece[at].place)..][..kept];
                grown.pieces[usize::from(place)][..kept].copy_from_slice(text);
                self.piece[at] = Piece {
                    grown: true,
                    place,
                    start: 0,
                    length: kept as u16,
                };
                self.places += 1;
            }
            let Piece { place, length, .. } = self.piece[at];
            let (place, end) = (usize::from(place), usize::from(length));
            let (from, start) = (usize::from(shared.place), usize::from(shared.start));
            if shared.grown {
                let (source, target) = two(&mut grown.pieces, from, place);
                target[end..][..shared.len()].copy_from_slice(&source[start..][..shared.len()]);
            } else {
                let text = &session[PIECES_AT + PIECE * from + start..][..shared.len()];
                grown.pieces[place][end..][..shared.len()].copy_from_slice(text);
            }
            self.piece[at].length += shared.length;
        }
    }

    fn longest(&self, links: &Links) -> usize {
        let mut longest = [0u16; MOST_LINKS + 1];
        for at in (0..self.count).rev() {
            let above = if at < self.staying {
                longest[usize::from(links.pair_of[usize::from(self.was[at])])]
            } else {
                0
            };
            let below = usize::from(self.below[at]);
            longest[below] = longest[below].max(self.piece[at].length + above);
        }
        usize::from(longest[usize::from(GROUND)])
    }

    /// Writes the session; only what was in use before, or is now, is touched.
    fn write(&self, session: &mut [u8; SESSION], links: &Links, grown: &Grown) {
        for at in 0..self.count {
            let piece = self.piece[at];
            let was = usize::from(self.was[at]);
            if at >= self.staying {
                let [_, state, marker, below] = grown.key[was].to_be_bytes();
                let [state_below, marker_below] = match below {
                    GROUND => [0, 0],
                    below => links.pairs[usize::from(below)],
                };
                let fields = [self.depth as u8, state, marker, state_below, marker_below];
                session[LINKS_AT + 5 * at..][..5].copy_from_slice(&fields);
            } else if was != at {
                let from = LINKS_AT + 5 * was;
                session.copy_within(from..from + 5, LINKS_AT + 5 * at);
            }
            let place = PIECES_AT + PIECE * at;
            let (from, start) = (usize::from(piece.place), usize::from(piece.start));
            if piece.grown {
                let text = &grown.pieces[from][start..start + piece.len()];
                session[place..][..piece.len()].copy_from_slice(text);
            } else if from != at || start != 0 {
                let from = PIECES_AT + PIECE * from + start;
                session.copy_within(from..from + piece.len(), place);
            }
            session[LENGTHS_AT + 2 * at..][..2].copy_from_slice(&piece.length.to_le_bytes());
            if at < links.count && links.length[at] > piece.length {
                session[place + piece.len()..place + usize::from(links.length[at])].fill(0);
            }
        }
        if self.count < links.count {
            session[LINKS_AT + 5 * self.count..LINKS_AT + 5 * links.count].fill(0);
            session[LENGTHS_AT + 2 * self.count..LENGTHS_AT + 2 * links.count].fill(0);
            for at in self.count..links.count {
                session[PIECES_AT + PIECE * at..][..usize::from(links.length[at])].fill(0);
            }
        }
        session[0] = self.depth as u8;
        session[1] = self.count as u8;
    }
}

/// The length of the longest common beginning, eight bytes at a time.
fn common(one: &[u8], other: &[u8]) -> usize {
    let (eights, _) = one.as_chunks::<8>();
    let (other_eights, _) = other.as_chunks::<8>();
    let mut at = 0;
    for (a, b) in eights.iter().zip(other_eights) {
        let apart = u64::from_le_bytes(*a) ^ u64::from_le_bytes(*b);
        if apart != 0 {
            return at + apart.trailing_zeros() as usize / 8;
        }
        at += 8;
    }
    let rest = one[at..].iter().zip(&other[at..]);
    at + rest.take_while(|(a, b)| a == b).count()
}

/// Two different places, the first to read and the second to write.
fn two(places: &mut [[u8; GROWN]; MOST_LINKS], from: usize, to: usize) -> (&[u8], &mut [u8]) {
    let (low, high) = places.split_at_mut(from.max(to));
    if from < to {
        (&low[from], &mut high[0])
    } else {
        (&high[0], &mut low[to])
    }
}
