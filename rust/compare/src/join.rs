//! Joining two hops, by the scope's section of that name: readings one by one, rows as a set.

use crate::file::{Row, Table, CALL, INTERNAL, MOST_ROWS, MOST_WORDS, RETURN};
use crate::model::Number;
use std::collections::{BTreeMap, BTreeSet};

const LONGEST_READ: usize = 16;
const LONGEST_WORD: usize = 255;
const MOST_STATES: usize = 64;
const MOST_MARKERS: usize = 64;

/// Steps of readings that are taken one by one; pairs that ask for more are left alone.
const MOST_READING: usize = 200_000;

/// Every way to be NotNested and to be TooLarge, in the scope's order.
#[derive(Clone, Copy, Debug, PartialEq, Eq)]
pub enum Reason {
    UnknownByte,
    OpenInternal,
    OpenPair,
    LongWord,
    States,
    Markers,
    Rows,
    LongJoinedWord,
    Words,
}

pub const REASONS: [(Reason, &str); 9] = [
    (Reason::UnknownByte, "a byte of class 0 in the second"),
    (Reason::OpenInternal, "an internal row's word not nested"),
    (Reason::OpenPair, "a call's and a return's word not nested"),
    (Reason::LongWord, "a word of the first over 16 bytes"),
    (Reason::States, "states over 64"),
    (Reason::Markers, "markers over 64"),
    (Reason::Rows, "rows over 256"),
    (Reason::LongJoinedWord, "a joined word over 255 bytes"),
    (Reason::Words, "words together over 4,096"),
];

/// What joining two good tables comes to, room aside.
pub enum Answer {
    Joined(Table),
    /// A number and every reason there is for it.
    Refused(Number, Vec<Reason>),
    /// There are more readings than are followed here.
    TooMany,
}

/// A marker of the first with the list of markers that the second left, from its bottom.
type Mark = (u8, Vec<u8>);

/// The field order is the scope's row order; a mark is numbered in the order of marks.
#[derive(Clone, PartialEq, Eq, PartialOrd, Ord)]
struct JoinedRow {
    symbol: u8,
    from: usize,
    mark: Option<Mark>,
    to: usize,
    word: Vec<u8>,
}

struct Ending {
    state: u8,
    stack: Vec<u8>,
    written: Vec<u8>,
}

pub fn join(first: &Table, second: &Table) -> Answer {
    let unnested = unnested(first, second);
    if !unnested.is_empty() {
        return Answer::Refused(Number::NotNested, unnested);
    }
    let Some(rows) = joined_rows(first, second) else {
        return Answer::TooMany;
    };
    let marks: BTreeSet<&Mark> = rows
        .iter()
        .filter(|row| first.class(row.symbol) == CALL)
        .filter_map(|row| row.mark.as_ref())
        .collect();
    let excess = excess(first, second, &rows, marks.len());
    if !excess.is_empty() {
        return Answer::Refused(Number::TooLarge, excess);
    }

    Answer::Joined(joined(
        first,
        second,
        &rows,
        marks.into_iter().zip(1..).collect(),
    ))
}

fn joined(
    first: &Table,
    second: &Table,
    rows: &BTreeSet<JoinedRow>,
    numbers: BTreeMap<&Mark, u8>,
) -> Table {
    let row = |row: &JoinedRow| Row {
        symbol: row.symbol,
        from: row.from as u8,
        marker: row.mark.as_ref().map_or(0, |mark| numbers[mark]),
        to: row.to as u8,
        word: row.word.clone(),
    };
    let both = |of_first: &dyn Fn(u8) -> bool, of_second: &dyn Fn(u8) -> bool| {
        let mut set = 0;
        for p in (0..first.states).filter(|&p| of_first(p)) {
            for q in (0..second.states).filter(|&q| of_second(q)) {
                set |= 1 << state(p, q, second);
            }
        }
        set
    };
    Table {
        states: first.states * second.states,
        markers: numbers.len() as u8,
        depth_cap: first.depth_cap,
        waiting_cap: second.waiting_cap,
        classes: first.classes,
        starting: both(&|p| first.is_starting(p), &|q| second.is_starting(q)),
        finals: both(&|p| first.is_final(p), &|q| second.is_final(q)),
        rows: rows.iter().map(row).collect(),
    }
}

fn state(p: u8, q: u8, second: &Table) -> usize {
    usize::from(p) * usize::from(second.states) + usize::from(q)
}

fn unnested(first: &Table, second: &Table) -> Vec<Reason> {
    let of_class = |class: u8| {
        first
            .rows
            .iter()
            .filter(move |row| first.class(row.symbol) == class)
    };
    let mut reasons = vec![];
    let mut bytes = first.rows.iter().flat_map(|row| &row.word);
    if bytes.any(|&byte| second.class(byte) == 0) {
        reasons.push(Reason::UnknownByte);
    }
    if of_class(INTERNAL).any(|row| !well_nested(&row.word, second)) {
        reasons.push(Reason::OpenInternal);
    }
    let open_pair = of_class(CALL).any(|call| {
        of_class(RETURN)
            .filter(|back| back.marker == call.marker)
            .any(|back| !well_nested(&[&call.word[..], &back.word].concat(), second))
    });
    if open_pair {
        reasons.push(Reason::OpenPair);
    }
    reasons
}

fn well_nested(word: &[u8], second: &Table) -> bool {
    let mut open = 0;
    for &byte in word {
        match second.class(byte) {
            CALL => open += 1,
            RETURN if open == 0 => return false,
            RETURN => open -= 1,
            _ => {}
        }
    }
    open == 0
}

fn joined_rows(first: &Table, second: &Table) -> Option<BTreeSet<JoinedRow>> {
    let mut rows = BTreeSet::new();
    let mut left = MOST_READING;
    let mut marks: BTreeSet<Mark> = BTreeSet::new();
    for row in &first.rows {
        let class = first.class(row.symbol);
        for q in (0..second.states).filter(|_| class != RETURN) {
            for ending in endings(second, q, &[], &row.word, &mut left)? {
                let mark = (class == CALL).then_some((row.marker, ending.stack.clone()));
                if class == CALL || ending.stack.is_empty() {
                    marks.extend(mark.clone());
                    rows.insert(joined_row(row, q, mark, ending, second));
                }
            }
        }
    }
    for row in first
        .rows
        .iter()
        .filter(|row| first.class(row.symbol) == RETURN)
    {
        for mark in marks.iter().filter(|mark| mark.0 == row.marker) {
            for q in 0..second.states {
                for ending in endings(second, q, &mark.1, &row.word, &mut left)? {
                    if ending.stack.is_empty() {
                        rows.insert(joined_row(row, q, Some(mark.clone()), ending, second));
                    }
                }
            }
        }
    }
    Some(rows)
}

fn joined_row(row: &Row, q: u8, mark: Option<Mark>, ending: Ending, second: &Table) -> JoinedRow {
    JoinedRow {
        symbol: row.symbol,
        from: state(row.from, q, second),
        mark,
        to: state(row.to, ending.state, second),
        word: ending.written,
    }
}

/// Every reading of a word, row by row; nothing when there are too many.
fn endings(
    second: &Table,
    q: u8,
    stack: &[u8],
    word: &[u8],
    left: &mut usize,
) -> Option<Vec<Ending>> {
    *left = left.checked_sub(1)?;
    let Some((&byte, rest)) = word.split_first() else {
        return Some(vec![Ending {
            state: q,
            stack: stack.to_vec(),
            written: vec![],
        }]);
    };
    let mut all = vec![];
    for row in second
        .rows
        .iter()
        .filter(|row| row.symbol == byte && row.from == q)
    {
        let mut stack = stack.to_vec();
        match second.class(byte) {
            CALL => stack.push(row.marker),
            RETURN => {
                if stack.pop() != Some(row.marker) {
                    continue;
                }
            }
            _ => {}
        }
        for ending in endings(second, row.to, &stack, rest, left)? {
            let written = [&row.word[..], &ending.written].concat();
            all.push(Ending { written, ..ending });
        }
    }
    Some(all)
}

fn excess(first: &Table, second: &Table, rows: &BTreeSet<JoinedRow>, marks: usize) -> Vec<Reason> {
    let states = usize::from(first.states) * usize::from(second.states);
    let words: usize = rows.iter().map(|row| row.word.len()).sum();
    let ways = [
        (
            Reason::LongWord,
            first.rows.iter().any(|row| row.word.len() > LONGEST_READ),
        ),
        (Reason::States, states > MOST_STATES),
        (Reason::Markers, marks > MOST_MARKERS),
        (Reason::Rows, rows.len() > MOST_ROWS),
        (
            Reason::LongJoinedWord,
            rows.iter().any(|row| row.word.len() > LONGEST_WORD),
        ),
        (Reason::Words, words > MOST_WORDS),
    ];
    ways.into_iter()
        .filter_map(|(reason, holds)| holds.then_some(reason))
        .collect()
}

/// A run told by what its future needs: a state, a stack, and all that it wrote.
type Plain = (u8, Vec<u8>, Vec<u8>);

/// Runs or outputs that are listed for one message; messages with more are left alone.
const MOST_PLAIN: usize = 3_000;

/// What a table allows on a message: the outputs of all accepting runs. Caps play no part.
pub fn allowed(table: &Table, message: &[u8]) -> Option<BTreeSet<Vec<u8>>> {
    let mut runs: BTreeSet<Plain> = (0..table.states)
        .filter(|&state| table.is_starting(state))
        .map(|state| (state, vec![], vec![]))
        .collect();
    for &symbol in message {
        runs = runs
            .iter()
            .flat_map(|run| moves(table, run, symbol))
            .collect();
        if runs.len() > MOST_PLAIN {
            return None;
        }
    }
    let accepting = runs
        .into_iter()
        .filter(|(state, stack, _)| table.is_final(*state) && stack.is_empty());
    Some(accepting.map(|(_, _, output)| output).collect())
}

fn moves<'a>(
    table: &'a Table,
    (state, stack, output): &'a Plain,
    symbol: u8,
) -> impl Iterator<Item = Plain> + 'a {
    let rows = table
        .rows
        .iter()
        .filter(move |row| row.symbol == symbol && row.from == *state);
    rows.filter_map(move |row| {
        let mut stack = stack.clone();
        match table.class(symbol) {
            CALL => stack.push(row.marker),
            RETURN => {
                if stack.pop() != Some(row.marker) {
                    return None;
                }
            }
            _ => {}
        }
        Some((row.to, stack, [&output[..], &row.word].concat()))
    })
}

/// What the second table allows on some output that the first allows on a message.
pub fn allowed_by_hops(first: &Table, second: &Table, message: &[u8]) -> Option<BTreeSet<Vec<u8>>> {
    let mut all = BTreeSet::new();
    for between in allowed(first, message)? {
        all.extend(allowed(second, &between)?);
        if all.len() > MOST_PLAIN {
            return None;
        }
    }
    Some(all)
}
