//! Runs by definition: every run is kept whole and moved by every row that fits.

use crate::file::{Row, Table, CALL, INTERNAL, RETURN};
use crate::session::MOST_LINKS;
use std::collections::{BTreeMap, BTreeSet};

#[derive(Clone, Copy, Debug, PartialEq, Eq)]
pub enum Number {
    Taken,
    BadTable,
    BadSession,
    UnknownSymbol,
    Unopened,
    TooDeep,
    NoRun,
    Crowded,
    Conflict,
    Backlog,
    NoRoom,
    Unclosed,
    NotFinal,
    Ambiguous,
    NotNested,
    TooLarge,
}

#[derive(Clone, Copy, Debug, Default, PartialEq, Eq, PartialOrd, Ord)]
pub struct Pair {
    pub state: u8,
    pub marker: u8,
}

/// The field order is the scope's link order; `below` is 0, 0 at level 0.
#[derive(Clone, Copy, Debug, PartialEq, Eq, PartialOrd, Ord)]
pub struct Link {
    pub level: u8,
    pub pair: Pair,
    pub below: Pair,
}

#[derive(Clone, Debug, PartialEq, Eq, PartialOrd, Ord)]
pub struct Run {
    pub trail: Vec<Pair>,
    pub waiting: Vec<u8>,
}

impl Run {
    pub fn depth(&self) -> usize {
        self.trail.len() - 1
    }

    pub fn present(&self) -> Pair {
        self.trail[self.depth()]
    }

    pub fn link(&self, level: usize) -> Link {
        Link {
            level: level as u8,
            pair: self.trail[level],
            below: if level == 0 {
                Pair::default()
            } else {
                self.trail[level - 1]
            },
        }
    }

    pub fn links(&self) -> impl Iterator<Item = Link> + '_ {
        (0..self.trail.len()).map(|level| self.link(level))
    }
}

pub struct Moved {
    pub sent: Vec<u8>,
    pub runs: Vec<Run>,
}

/// The runs of the empty message, in the order of their trails.
pub fn begin(table: &Table) -> Vec<Run> {
    (0..table.states)
        .filter(|&state| table.is_starting(state))
        .map(|state| Run {
            trail: vec![Pair { state, marker: 0 }],
            waiting: Vec::new(),
        })
        .collect()
}

/// How many moves a symbol asks for, so that a caller may turn down what is too many to list.
pub fn fan(table: &Table, runs: &[Run], symbol: u8) -> usize {
    let mut rows_of: BTreeMap<Pair, usize> = BTreeMap::new();
    runs.iter()
        .map(|run| {
            let pair = run.present();
            *rows_of
                .entry(pair)
                .or_insert_with(|| fitting(table, pair, symbol).count())
        })
        .sum()
}

/// The rows that a run with this present pair can take; the depth's own refusals aside.
fn fitting(table: &Table, pair: Pair, symbol: u8) -> impl Iterator<Item = &Row> {
    let pops = table.class(symbol) == RETURN;
    table
        .rows
        .iter()
        .filter(move |row| row.symbol == symbol && row.from == pair.state)
        .filter(move |row| !pops || row.marker == pair.marker)
}

pub fn step(table: &Table, runs: &[Run], symbol: u8, room: usize) -> Result<Moved, Number> {
    let depth = runs[0].depth();
    match table.class(symbol) {
        CALL if depth == usize::from(table.depth_cap) => return Err(Number::TooDeep),
        RETURN if depth == 0 => return Err(Number::Unopened),
        CALL | RETURN | INTERNAL => {}
        _ => return Err(Number::UnknownSymbol),
    }

    // A set: two ways to one trail with one output are one run from here on.
    let mut moved: BTreeSet<Run> = BTreeSet::new();
    for run in runs {
        for row in fitting(table, run.present(), symbol) {
            let mut trail = run.trail.clone();
            match table.class(symbol) {
                CALL => trail.push(Pair {
                    state: row.to,
                    marker: row.marker,
                }),
                class => {
                    if class == RETURN {
                        trail.pop();
                    }
                    let top = trail.len() - 1;
                    trail[top].state = row.to;
                }
            }
            let waiting = [run.waiting.as_slice(), &row.word].concat();
            moved.insert(Run { trail, waiting });
        }
    }
    let mut runs: Vec<Run> = moved.into_iter().collect();
    if runs.is_empty() {
        return Err(Number::NoRun);
    }
    let links: BTreeSet<Link> = runs.iter().flat_map(Run::links).collect();
    if links.len() > MOST_LINKS {
        return Err(Number::Crowded);
    }
    if runs.windows(2).any(|two| two[0].trail == two[1].trail) {
        return Err(Number::Conflict);
    }

    let sent = common_beginning(&runs).to_vec();
    for run in &mut runs {
        run.waiting.drain(..sent.len());
    }
    let cap = usize::from(table.waiting_cap);
    if runs.iter().any(|run| run.waiting.len() > cap) {
        return Err(Number::Backlog);
    }
    if sent.len() > room {
        return Err(Number::NoRoom);
    }
    Ok(Moved { sent, runs })
}

pub fn finish(table: &Table, runs: &[Run], room: usize) -> Result<Vec<u8>, Number> {
    if runs[0].depth() > 0 {
        return Err(Number::Unclosed);
    }
    let mut accepting = runs
        .iter()
        .filter(|run| table.is_final(run.present().state));
    let Some(first) = accepting.next() else {
        return Err(Number::NotFinal);
    };
    if accepting.any(|other| other.waiting != first.waiting) {
        return Err(Number::Ambiguous);
    }
    if first.waiting.len() > room {
        return Err(Number::NoRoom);
    }
    Ok(first.waiting.clone())
}

/// The longest common beginning of all runs' outputs.
pub fn common_beginning(runs: &[Run]) -> &[u8] {
    let first = runs[0].waiting.as_slice();
    let shared = |run: &Run| {
        first
            .iter()
            .zip(&run.waiting)
            .take_while(|(a, b)| a == b)
            .count()
    };
    &first[..runs.iter().map(shared).min().unwrap_or(0)]
}

/// A run told without trails: a state, a stack, and its whole output since the beginning.
#[derive(Clone, PartialEq, Eq, PartialOrd, Ord)]
struct Whole {
    state: u8,
    stack: Vec<u8>,
    before_open_calls: Vec<Pair>,
    output: Vec<u8>,
}

/// All runs over a message, afresh, each as its trail and its whole output.
/// This second way of counting catches a model that goes wrong bit by bit.
pub fn afresh(table: &Table, message: &[u8]) -> BTreeSet<Run> {
    let mut runs: BTreeSet<Whole> = (0..table.states)
        .filter(|&state| table.is_starting(state))
        .map(|state| Whole {
            state,
            stack: vec![],
            before_open_calls: vec![],
            output: vec![],
        })
        .collect();
    for &symbol in message {
        let mut next = BTreeSet::new();
        for run in &runs {
            for row in table
                .rows
                .iter()
                .filter(|row| row.symbol == symbol && row.from == run.state)
            {
                let mut run = run.clone();
                let top = run.stack.last().copied();
                match table.class(symbol) {
                    CALL => {
                        run.before_open_calls.push(Pair {
                            state: run.state,
                            marker: top.unwrap_or(0),
                        });
                        run.stack.push(row.marker);
                    }
                    RETURN if top == Some(row.marker) => {
                        run.stack.pop();
                        run.before_open_calls.pop();
                    }
                    RETURN => continue,
                    _ => {}
                }
                run.state = row.to;
                run.output.extend(&row.word);
                next.insert(run);
            }
        }
        runs = next;
    }
    runs.into_iter()
        .map(|run| {
            let present = Pair {
                state: run.state,
                marker: run.stack.last().copied().unwrap_or(0),
            };
            let mut trail = run.before_open_calls;
            trail.push(present);
            Run {
                trail,
                waiting: run.output,
            }
        })
        .collect()
}
