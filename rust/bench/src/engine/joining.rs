//! Joining two tables: readings by recursion, rows sorted once, the file written at the end.

use super::table::{check, word, Row, Table, CALL, RETURN};
use super::{BAD_TABLE, NOT_NESTED, NO_ROOM, TAKEN, TOO_LARGE};

const LONGEST_READ: usize = 16;
const MOST_MARKS: usize = 64;
const MOST_ROWS: usize = 256;
const MOST_WORDS: usize = 4096;
/// Buckets to find equal rows by; they are at most half full.
const BUCKETS: usize = 512;

/// The number, which table is bad, and the bytes written.
pub fn join(first: &[u8], second: &[u8], out: &mut [u8]) -> (u32, u32, usize) {
    let Some(one) = check(first) else {
        return (BAD_TABLE, 1, 0);
    };
    let Some(other) = check(second) else {
        return (BAD_TABLE, 2, 0);
    };
    match joined(&one, &other, out) {
        Ok(count) => (TAKEN, 0, count),
        Err(number) => (number, 0, 0),
    }
}

fn joined(first: &Table, second: &Table, out: &mut [u8]) -> Result<usize, u32> {
    if !nested(first, second) {
        return Err(NOT_NESTED);
    }
    let states = usize::from(first.states) * usize::from(second.states);
    if states > 64
        || first
            .rows
            .iter()
            .any(|row| usize::from(row[6]) > LONGEST_READ)
    {
        return Err(TOO_LARGE);
    }
    let mut joiner = Joiner {
        first,
        second,
        index: Index::new(second),
        marks: [(0, 0); MOST_MARKS],
        mark_count: 0,
        rows: Vec::with_capacity(MOST_ROWS),
        buckets: [0; BUCKETS],
        words: Vec::with_capacity(1024),
        written: Vec::with_capacity(256),
        stack: [0; 2 * LONGEST_READ],
    };
    joiner.read_all()?;
    joiner.write(out)
}

/// How far a word goes down and where it ends, told in calls of the second still open.
#[derive(Clone, Copy)]
struct Way {
    lowest: i16,
    end: i16,
}

fn way(second: &Table, text: &[u8]) -> Option<Way> {
    let mut way = Way { lowest: 0, end: 0 };
    for &byte in text {
        match second.classes[usize::from(byte)] {
            0 => return None,
            CALL => way.end += 1,
            RETURN => {
                way.end -= 1;
                way.lowest = way.lowest.min(way.end);
            }
            _ => {}
        }
    }
    Some(way)
}

/// The least and greatest ends and the lowest place of all words with one marker and class.
#[derive(Clone, Copy)]
struct Span {
    lowest: i16,
    least: i16,
    greatest: i16,
}

impl Span {
    const NONE: Span = Span {
        lowest: 0,
        least: i16::MAX,
        greatest: i16::MIN,
    };

    fn with(self, way: Way) -> Span {
        Span {
            lowest: self.lowest.min(way.lowest),
            least: self.least.min(way.end),
            greatest: self.greatest.max(way.end),
        }
    }

    fn is_none(self) -> bool {
        self.least > self.greatest
    }
}

fn nested(first: &Table, second: &Table) -> bool {
    let mut calls = [Span::NONE; 65];
    let mut returns = [Span::NONE; 65];
    for row in first.rows {
        let Some(way) = way(second, word(first.words, row)) else {
            return false;
        };
        let marker = usize::from(row[3]);
        match first.classes[usize::from(row[0])] {
            CALL => calls[marker] = calls[marker].with(way),
            RETURN => returns[marker] = returns[marker].with(way),
            _ if way.lowest < 0 || way.end != 0 => return false,
            _ => {}
        }
    }
    let most = usize::from(first.markers) + 1;
    calls[..most]
        .iter()
        .zip(&returns[..most])
        .all(|(call, back)| {
            call.is_none()
                || back.is_none()
                || call.lowest >= 0
                    && call.least == call.greatest
                    && back.least == back.greatest
                    && call.least + back.least == 0
                    && call.least + back.lowest >= 0
        })
}

/// A row as it is found: its key is symbol, from, marker, to.
#[derive(Clone, Copy)]
struct Found {
    key: u32,
    start: u32,
    length: u32,
}

impl Found {
    fn word(self, words: &[u8]) -> &[u8] {
        &words[self.start as usize..][..self.length as usize]
    }
}

/// Where readings go on from: a row of the first, and the second's state at their start.
#[derive(Clone, Copy)]
struct Start<'r> {
    row: &'r Row,
    class: u8,
    from: u8,
    /// For a return row the number of the popped marker.
    mark: u8,
}

/// Where the rows of each symbol and state of the second start, since readings ask again and again.
struct Index {
    place: [u16; 256],
    start: Vec<u16>,
}

impl Index {
    fn new(second: &Table) -> Index {
        let states = usize::from(second.states);
        let mut place = [0; 256];
        // The first places are those of symbols without a row.
        let mut start = Vec::with_capacity(16 * states);
        start.resize(states, 0);
        let mut symbol_before = None;
        for (at, row) in second.rows.iter().enumerate() {
            if symbol_before != Some(row[0]) {
                let full = start.len().next_multiple_of(states);
                start.resize(full, at as u16);
                place[usize::from(row[0])] = full as u16;
                symbol_before = Some(row[0]);
            }
            let reached = usize::from(place[usize::from(row[0])]) + usize::from(row[1]);
            if start.len() <= reached {
                start.resize(reached + 1, at as u16);
            }
        }
        let end = start.len().next_multiple_of(states) + 1;
        start.resize(end, second.rows.len() as u16);
        Index { place, start }
    }

    fn rows<'a>(&self, second: &Table<'a>, symbol: u8, from: u8) -> &'a [Row] {
        let at = usize::from(self.place[usize::from(symbol)]) + usize::from(from);
        &second.rows[usize::from(self.start[at])..usize::from(self.start[at + 1])]
    }
}

struct Joiner<'a> {
    first: &'a Table<'a>,
    second: &'a Table<'a>,
    index: Index,
    /// A marker of the first with a list, whose bottom is the highest byte.
    marks: [(u8, u128); MOST_MARKS],
    mark_count: usize,
    rows: Vec<Found>,
    /// For each bucket, a row's place and one, or 0.
    buckets: [u16; BUCKETS],
    words: Vec<u8>,
    written: Vec<u8>,
    stack: [u8; 2 * LONGEST_READ],
}

impl<'a> Joiner<'a> {
    fn read_all(&mut self) -> Result<(), u32> {
        let first = self.first;
        for row in first.rows {
            let class = first.classes[usize::from(row[0])];
            if class == RETURN {
                continue;
            }
            for from in 0..self.second.states {
                let start = Start {
                    row,
                    class,
                    from,
                    mark: 0,
                };
                self.read(start, from, 0, word(first.words, row))?;
            }
        }
        self.number_marks();
        for row in first.rows {
            if first.classes[usize::from(row[0])] != RETURN {
                continue;
            }
            for mark in 0..self.mark_count {
                let (marker, list) = self.marks[mark];
                if marker != row[3] {
                    continue;
                }
                self.stack[..LONGEST_READ].copy_from_slice(&list.to_be_bytes());
                let height = LONGEST_READ - list.trailing_zeros() as usize / 8;
                for from in 0..self.second.states {
                    let mark = mark as u8 + 1;
                    let start = Start {
                        row,
                        class: RETURN,
                        from,
                        mark,
                    };
                    self.read(start, from, height, word(first.words, row))?;
                }
            }
        }
        Ok(())
    }

    fn read(&mut self, start: Start, state: u8, height: usize, text: &[u8]) -> Result<(), u32> {
        let Some((&byte, rest)) = text.split_first() else {
            return self.end(start, state, height);
        };
        let (second, length) = (self.second, self.written.len());
        match second.classes[usize::from(byte)] {
            RETURN if height == 0 => return Ok(()),
            RETURN => {
                let top = self.stack[height - 1];
                let rows = self.index.rows(second, byte, state);
                let start_at = rows.iter().take_while(|row| row[3] < top).count();
                for row in rows[start_at..].iter().take_while(|row| row[3] == top) {
                    self.written.extend_from_slice(word(second.words, row));
                    self.read(start, row[2], height - 1, rest)?;
                    self.written.truncate(length);
                    self.stack[height - 1] = top;
                }
            }
            class => {
                for row in self.index.rows(second, byte, state) {
                    let called = usize::from(class == CALL);
                    if called == 1 {
                        self.stack[height] = row[3];
                    }
                    self.written.extend_from_slice(word(second.words, row));
                    self.read(start, row[2], height + called, rest)?;
                    self.written.truncate(length);
                }
            }
        }
        Ok(())
    }

    fn end(&mut self, start: Start, state: u8, height: usize) -> Result<(), u32> {
        if height > 0 && start.class != CALL {
            return Ok(());
        }
        if self.written.len() > 255 {
            return Err(TOO_LARGE);
        }
        let marker = if start.class == CALL {
            self.mark(start.row[3], height)?
        } else {
            start.mark
        };
        let joined = |p: u8, q: u8| p * self.second.states + q;
        let from = joined(start.row[1], start.from);
        let to = joined(start.row[2], state);
        let key = u32::from_be_bytes([start.row[0], from, marker, to]);
        let mut bucket = spread(key, &self.written);
        while self.buckets[bucket] != 0 {
            let other = self.rows[usize::from(self.buckets[bucket]) - 1];
            if other.key == key && *other.word(&self.words) == *self.written {
                return Ok(());
            }
            bucket = (bucket + 1) % BUCKETS;
        }
        if self.rows.len() == MOST_ROWS {
            return Err(TOO_LARGE);
        }
        self.rows.push(Found {
            key,
            start: self.words.len() as u32,
            length: self.written.len() as u32,
        });
        self.buckets[bucket] = self.rows.len() as u16;
        self.words.extend_from_slice(&self.written);
        Ok(())
    }

    /// The place of a mark among those found so far.
    fn mark(&mut self, marker: u8, height: usize) -> Result<u8, u32> {
        let mut list = [0; LONGEST_READ];
        list[..height].copy_from_slice(&self.stack[..height]);
        let mark = (marker, u128::from_be_bytes(list));
        let known = &self.marks[..self.mark_count];
        if let Some(at) = known.iter().rposition(|other| *other == mark) {
            return Ok(at as u8);
        }
        if self.mark_count == MOST_MARKS {
            return Err(TOO_LARGE);
        }
        self.marks[self.mark_count] = mark;
        self.mark_count += 1;
        Ok(self.mark_count as u8 - 1)
    }

    /// Puts marks in order and gives the call rows their numbers.
    fn number_marks(&mut self) {
        let mut order = [0u8; MOST_MARKS];
        let order = &mut order[..self.mark_count];
        (0u8..)
            .zip(order.iter_mut())
            .for_each(|(i, place)| *place = i);
        order.sort_unstable_by_key(|&i| self.marks[usize::from(i)]);
        let mut number = [0u8; MOST_MARKS];
        (1u8..)
            .zip(order.iter())
            .for_each(|(n, &i)| number[usize::from(i)] = n);
        self.marks[..self.mark_count].sort_unstable();
        for row in &mut self.rows {
            let [symbol, from, mark, to] = row.key.to_be_bytes();
            if self.first.classes[usize::from(symbol)] == CALL {
                row.key = u32::from_be_bytes([symbol, from, number[usize::from(mark)], to]);
            }
        }
    }

    /// Rows in order, and their words in the order of rows.
    fn sort(&mut self) {
        let words = &self.words;
        self.rows.sort_unstable_by(|a, b| {
            a.key
                .cmp(&b.key)
                .then_with(|| a.word(words).cmp(b.word(words)))
        });
        let mut laid = Vec::with_capacity(words.len());
        for row in &mut self.rows {
            let start = laid.len() as u32;
            laid.extend_from_slice(row.word(&self.words));
            row.start = start;
        }
        self.words = laid;
    }

    fn write(&mut self, out: &mut [u8]) -> Result<usize, u32> {
        if self.words.len() > MOST_WORDS {
            return Err(TOO_LARGE);
        }
        self.sort();
        let words_at = 300 + 8 * self.rows.len();
        let length = words_at + self.words.len();
        let out = out.get_mut(..length).ok_or(NO_ROOM)?;
        let (first, second) = (self.first, self.second);
        let two = |number: usize| (number as u16).to_le_bytes();
        let [waiting, whole, rows, at, words] = [
            second.waiting_cap,
            length,
            8 * self.rows.len(),
            words_at,
            self.words.len(),
        ]
        .map(two);
        let states = first.states * second.states;
        out[..4].copy_from_slice(&[1, states, self.mark_count as u8, first.depth_cap as u8]);
        out[4..6].copy_from_slice(&waiting);
        out[6..8].copy_from_slice(&whole);
        out[8..22].copy_from_slice(&super::table::FIXED);
        out[22..24].copy_from_slice(&rows);
        out[24..26].copy_from_slice(&at);
        out[26..28].copy_from_slice(&words);
        out[28..284].copy_from_slice(first.classes);
        let starting = both(first.starting, second.starting, second.states);
        let finals = both(first.finals, second.finals, second.states);
        out[284..292].copy_from_slice(&starting.to_le_bytes());
        out[292..300].copy_from_slice(&finals.to_le_bytes());
        let (rows, words) = out[300..].split_at_mut(8 * self.rows.len());
        for (place, row) in rows.as_chunks_mut::<8>().0.iter_mut().zip(&self.rows) {
            let [symbol, from, marker, to] = row.key.to_be_bytes();
            let [low, high] = two(row.start as usize);
            *place = [symbol, from, to, marker, low, high, row.length as u8, 0];
        }
        words.copy_from_slice(&self.words);
        Ok(length)
    }
}

/// A bucket for a row, by its key and the ends of its word.
fn spread(key: u32, word: &[u8]) -> usize {
    let first = word.first_chunk().map_or(0, |end| u64::from_le_bytes(*end));
    let last = word.last_chunk().map_or(0, |end| u64::from_le_bytes(*end));
    let mixed = u64::from(key) ^ first.rotate_left(32) ^ last ^ (word.len() as u64) << 40;
    (mixed.wrapping_mul(0x9e37_79b9_7f4a_7c15) >> 55) as usize
}

fn both(of_first: u64, of_second: u64, states: u8) -> u64 {
    let mut set = 0;
    let mut left = of_first;
    while left != 0 {
        set |= of_second << (left.trailing_zeros() * u32::from(states));
        left &= left - 1;
    }
    set
}
