//! What is timed: tables and messages of the scope, and the largest and worst that we know.

use crate::engine;

/// What a workload calls, on which tables.
pub enum Kind {
    Check,
    Begin,
    /// The first message leads to a session; the second is timed from there, symbol by symbol.
    Steps {
        before: Vec<u8>,
        timed: Vec<u8>,
    },
    Finish {
        before: Vec<u8>,
    },
    Join {
        second: Vec<u8>,
    },
}

pub struct Workload {
    pub name: &'static str,
    pub file: Vec<u8>,
    pub kind: Kind,
}

fn steps(name: &'static str, file: Vec<u8>, before: &[u8], timed: &[u8]) -> Workload {
    let kind = Kind::Steps {
        before: before.to_vec(),
        timed: timed.to_vec(),
    };
    Workload { name, file, kind }
}

pub fn all() -> Vec<Workload> {
    let (first, second) = bridge();
    let (large, larger) = full();
    let (steep, steeper) = branching();
    let of = |name, file, kind| Workload { name, file, kind };
    let bridged = joined(&first, &second);
    let up_and_down = [[b'('; 8], [b')'; 8]].concat();
    let deep = [&b"("[..], &[b'<'; 31]].concat();
    let crossed = vec![b'('; 15];
    vec![
        steps("step: one run", one_run(), b"", b"1"),
        steps("step: G, 10 1 11", g(), b"", &[10, 1, 11]),
        steps("step: 8 runs, 100 bytes wait", runs(), b"", b"12223"),
        steps("step: 8 runs become 64 links", crowd(), b"", b"("),
        steps(
            "step: 64 links at depth 32, internal",
            chains(),
            &deep,
            b"1",
        ),
        steps(
            "step: 64 links at depth 32, return and call",
            chains(),
            &deep,
            b")<",
        ),
        steps(
            "step: 62 links at depth 15, all crossed, internal",
            crossing(),
            &crossed,
            b"1",
        ),
        steps(
            "step: bridged, 8 headers in each other",
            bridged,
            b"",
            &up_and_down,
        ),
        steps(
            "step: return, 52 links on 12 pairs, 14 rows each",
            wide_return(),
            b"1(",
            b")",
        ),
        steps(
            "step: return, 39 links on a pair on 8 pairs, 5 rows each",
            steep_return(),
            b"<1(",
            b")",
        ),
        of(
            "finish: G after 10 1 11",
            g(),
            Kind::Finish {
                before: vec![10, 1, 11],
            },
        ),
        of("begin: G", g(), Kind::Begin),
        of("check: G, 6 rows", g(), Kind::Check),
        of(
            "check: 256 rows, 4,096 bytes of words",
            joined(&large, &larger),
            Kind::Check,
        ),
        of("join: 6 rows and 6 rows", first, Kind::Join { second }),
        of(
            "join: to 256 rows, 64 markers, 6,444 bytes",
            large,
            Kind::Join { second: larger },
        ),
        of(
            "join: a word of 12 bytes, 2 ways for each",
            steep,
            Kind::Join { second: steeper },
        ),
    ]
}

/// The file that the Rust engine joins to; the library's must be the same, as `main` sees to.
fn joined(first: &[u8], second: &[u8]) -> Vec<u8> {
    let mut out = vec![0; 6444];
    let (number, _, count) = engine::join(first, second, &mut out);
    assert_eq!(number, engine::TAKEN, "the workload's tables join");
    out.truncate(count);
    out
}

struct Rows {
    classes: [u8; 256],
    rows: Vec<([u8; 4], Vec<u8>)>,
}

impl Rows {
    fn new() -> Rows {
        Rows {
            classes: [0; 256],
            rows: vec![],
        }
    }

    fn call(&mut self, symbol: u8, from: usize, marker: usize, to: usize, word: &[u8]) {
        self.row(1, symbol, from, marker, to, word);
    }

    fn back(&mut self, symbol: u8, from: usize, marker: usize, to: usize, word: &[u8]) {
        self.row(2, symbol, from, marker, to, word);
    }

    fn internal(&mut self, symbol: u8, from: usize, to: usize, word: &[u8]) {
        self.row(3, symbol, from, 0, to, word);
    }

    fn row(&mut self, class: u8, symbol: u8, from: usize, marker: usize, to: usize, word: &[u8]) {
        self.classes[usize::from(symbol)] = class;
        self.rows
            .push(([symbol, from as u8, marker as u8, to as u8], word.to_vec()));
    }

    /// The rule file; every state is final, and the lowest ones start.
    fn file(mut self, states: usize, markers: usize, starting: usize, caps: (u8, u16)) -> Vec<u8> {
        self.rows.sort();
        let (mut rows, mut words): (Vec<u8>, Vec<u8>) = (vec![], vec![]);
        for ([symbol, from, marker, to], word) in &self.rows {
            let found = words
                .windows(word.len().max(1))
                .position(|part| part == word);
            let start = found.unwrap_or(words.len());
            if found.is_none() {
                words.extend(word);
            }
            let [low, high] = (start as u16).to_le_bytes();
            rows.extend([*symbol, *from, *to, *marker, low, high, word.len() as u8, 0]);
        }
        let mut file = vec![1, states as u8, markers as u8, caps.0];
        let mut two = |number: usize| file.extend((number as u16).to_le_bytes());
        two(usize::from(caps.1));
        two(300 + rows.len() + words.len());
        for (start, length) in [(28, 256), (284, 8), (292, 8), (300, rows.len())] {
            two(start);
            two(length);
        }
        two(300 + rows.len());
        two(words.len());
        let low = |count: usize| (u64::MAX >> (64 - count)).to_le_bytes();
        file.extend(self.classes);
        file.extend(low(starting));
        file.extend(low(states));
        file.extend(rows);
        file.extend(words);
        file
    }
}

fn one_run() -> Vec<u8> {
    let mut rows = Rows::new();
    rows.internal(b'1', 0, 0, b"x");
    rows.file(1, 0, 1, (1, 0))
}

/// The scope's table G.
fn g() -> Vec<u8> {
    let mut rows = Rows::new();
    rows.call(10, 0, 1, 1, b"OK");
    rows.call(10, 0, 1, 2, b"ON");
    rows.internal(1, 1, 1, b"p");
    rows.internal(1, 2, 2, b"p");
    rows.back(11, 1, 1, 3, b"");
    rows.back(12, 2, 1, 3, b"");
    rows.file(4, 1, 1, (4, 4))
}

/// Eight runs part, wait, and come to one.
fn runs() -> Vec<u8> {
    let mut rows = Rows::new();
    for run in 0..8 {
        let letter = b'a' + run as u8;
        rows.internal(b'1', run, run, &[letter; 100]);
        rows.internal(b'2', run, run, &[letter]);
    }
    rows.internal(b'3', 0, 0, b"!");
    rows.file(8, 0, 8, (1, 512))
}

/// The scope's eight starting states with seven rows each.
fn crowd() -> Vec<u8> {
    let mut rows = Rows::new();
    for from in 0..8 {
        (0..7).for_each(|to| rows.call(b'(', from, 1, to, b""));
    }
    rows.file(8, 1, 8, (1, 4))
}

/// One run, then two that go up side by side and write different bytes.
fn chains() -> Vec<u8> {
    let mut rows = Rows::new();
    rows.call(b'(', 0, 1, 1, b"");
    for (run, letter) in [(2, b"a"), (3, b"b")] {
        rows.call(b'<', 1, 2, run, letter);
        rows.call(b'<', run, run, run, letter);
        rows.internal(b'1', run, run, b"");
        rows.back(b')', run, run, run, b"");
    }
    rows.file(4, 3, 1, (32, 512))
}

/// Two pairs on each level, each on each of the level below: 2 + 4 times 15 links.
fn crossing() -> Vec<u8> {
    let mut rows = Rows::new();
    for from in 0..2 {
        (0..2).for_each(|to| rows.call(b'(', from, 1, to, b""));
        rows.internal(b'1', from, from, b"");
    }
    rows.file(2, 1, 2, (16, 4))
}

/// The scope's join worked by hand, with four rows more in each table.
fn bridge() -> (Vec<u8>, Vec<u8>) {
    let mut first = Rows::new();
    first.call(b'(', 0, 1, 0, b"[{");
    first.back(b')', 0, 1, 0, b"}]");
    first.call(b'<', 0, 2, 0, b"[");
    first.back(b'>', 0, 2, 0, b"]");
    first.internal(b'1', 0, 0, b"x");
    first.internal(b'2', 0, 0, b"y");
    let mut second = Rows::new();
    second.call(b'[', 0, 1, 0, b"a");
    second.call(b'{', 0, 2, 0, b"b");
    second.back(b'}', 0, 2, 0, b"c");
    second.back(b']', 0, 1, 0, b"d");
    second.internal(b'x', 0, 0, b"x");
    second.internal(b'y', 0, 0, b"y");
    (
        first.file(1, 2, 1, (32, 64)),
        second.file(1, 2, 1, (32, 64)),
    )
}

/// Eight states each, whose join has 64 states, 64 markers, 256 rows and 4,096 bytes of words.
fn full() -> (Vec<u8>, Vec<u8>) {
    let (mut first, mut second) = (Rows::new(), Rows::new());
    for state in 0..8 {
        first.call(b'(', state, state + 1, (state + 1) % 8, b"[xxx");
        first.back(b')', state, state + 1, state, b"xxx]");
        first.internal(b'1', state, state, b"xxxx");
        first.internal(b'2', state, state, b"xxxx");
        second.call(b'[', state, state + 1, state, b"open");
        second.back(b']', state, state + 1, state, b"shut");
        second.internal(b'x', state, state, b"text");
    }
    (
        first.file(8, 8, 1, (32, 64)),
        second.file(8, 8, 1, (32, 64)),
    )
}

/// 4,096 ways to read one word from each of two states, and only 4 rows.
fn branching() -> (Vec<u8>, Vec<u8>) {
    let (mut first, mut second) = (Rows::new(), Rows::new());
    first.internal(b'1', 0, 0, &[b'x'; 12]);
    for from in 0..2 {
        (0..2).for_each(|to| second.internal(b'x', from, to, b""));
    }
    (first.file(1, 0, 1, (1, 0)), second.file(2, 0, 2, (1, 0)))
}

/// 12 links at level 0 with 510 bytes each, of two sorts; 13 pairs stand on 4 of one sort each.
fn wide_return() -> Vec<u8> {
    let mut rows = Rows::new();
    let long = |letter: u8| [letter; 255];
    for sort in 0..2 {
        let letter = b'a' + sort as u8;
        for i in 0..6 {
            let state = 6 * sort + i;
            rows.internal(b'1', state, state, &long(letter));
            for k in 0..4 {
                // Pairs 0 to 6 stand on the first sort, 7 to 12 on the second.
                for pair in (0..7 - sort).filter(|pair| (pair + k) % 6 == i) {
                    rows.call(b'(', state, 1, 12 + 7 * sort + pair, b"");
                }
            }
        }
        for pair in 0..7 - sort {
            for k in 0..14 {
                let to = 26 * sort + (pair * 2 + k) % 26;
                rows.back(b')', 12 + 7 * sort + pair, 1, to, b"zz");
            }
        }
    }
    rows.file(52, 1, 12, (2, 512))
}

/// 8 pairs at level 0 with two links on each, of which one has 39 links on it; 5 rows each: the
/// worst return that we know.
fn steep_return() -> Vec<u8> {
    let mut rows = Rows::new();
    for (state, letter) in [(8, b'a'), (9, b'b')] {
        (0..8).for_each(|from| rows.call(b'<', from, 1, state, &[letter; 255]));
        rows.internal(b'1', state, state, &[letter; 255]);
    }
    for i in 0..39 {
        rows.call(b'(', 8, 1, 10 + i, b"");
        (0..5).for_each(|k| rows.back(b')', 10 + i, 1, 49 + (i + k) % 7, b"z"));
    }
    rows.call(b'(', 9, 1, 0, b"");
    rows.file(56, 1, 8, (3, 512))
}
