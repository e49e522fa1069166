//! Pairs of tables to join: seconds with brackets, firsts that write what they read, and edges.

use super::{tables, Rng};
use crate::file::{Row, Table, CALL, INTERNAL, RETURN};

/// The longest word that joining reads.
const READ: usize = 16;

/// A pair; mostly it joins, and often it only just doesn't.
pub fn pair(rng: &mut Rng) -> (Table, Table) {
    let (mut first, mut second) = match rng.below(24) {
        0..=1 => (tables::table(rng), tables::table(rng)),
        2..=3 => {
            let second = tables::table(rng);
            (over(rng, &second), second)
        }
        4..=12 => {
            let second = hop(rng);
            (over(rng, &second), second)
        }
        13 => long_read(rng),
        14 => many_states(rng),
        15 | 16 => many_markers(rng),
        17 => many_rows(rng),
        18 | 19 => long_word(rng),
        20 | 21 => many_words(rng),
        _ => bridge(rng),
    };
    if rng.chance(25) {
        disturb(rng, &mut first, &second);
    }
    if rng.chance(6) && !second.rows.is_empty() {
        second.rows.remove(rng.below(second.rows.len()));
    }
    if rng.chance(6) && !first.rows.is_empty() {
        first.rows.remove(rng.below(first.rows.len()));
    }
    tables::tidy(rng, &mut first);
    tables::tidy(rng, &mut second);
    (first, second)
}

fn bare(states: usize, markers: usize, symbols: &[(&[u8], u8)]) -> Table {
    let mut classes = [0; 256];
    for (of_class, class) in symbols {
        of_class
            .iter()
            .for_each(|&symbol| classes[usize::from(symbol)] = *class);
    }
    let all = u64::MAX >> (64 - states);
    Table {
        states: states as u8,
        markers: markers as u8,
        depth_cap: 8,
        waiting_cap: 100,
        classes,
        starting: all,
        finals: all,
        rows: vec![],
    }
}

fn row(symbol: u8, from: usize, marker: usize, to: usize, word: &[u8]) -> Row {
    Row {
        symbol,
        from: from as u8,
        marker: marker as u8,
        to: to as u8,
        word: word.to_vec(),
    }
}

const OPEN: &[u8] = b"[{(<";
const SHUT: &[u8] = b"]})>";
const PLAIN: &[u8] = b"abcxyz";

/// How many calls the word of a call row leaves open.
const OPENED: [usize; 5] = [1, 0, 2, 1, 3];

/// A table over brackets and letters, dense enough to read most of what is well nested.
fn hop(rng: &mut Rng) -> Table {
    let states = rng.pick(&[1, 1, 2, 2, 3, 4, 6, 8]);
    let markers = rng.within(1, 3);
    let (open, shut, plain) = (rng.within(1, 3), rng.within(1, 3), rng.within(0, 4));
    let symbols = [
        (&OPEN[..open], CALL),
        (&SHUT[..shut], RETURN),
        (&PLAIN[..plain], INTERNAL),
    ];
    let mut table = bare(states, markers, &symbols);
    (table.depth_cap, table.waiting_cap) = tables::caps(rng);
    let density = rng.pick(&[30, 60, 90, 100]);
    let branching = rng.pick(&[0, 0, 5, 30]);
    let longest = rng.pick(&[0, 1, 2, 2, 8, 40]);
    for (of_class, class) in symbols {
        for &symbol in of_class {
            for from in 0..states {
                let markers = if class == INTERNAL {
                    0..=0
                } else {
                    1..=markers
                };
                for marker in markers {
                    let one = usize::from(rng.chance(density));
                    for _ in 0..one + usize::from(rng.chance(branching)) {
                        let letters: Vec<u8> = (0..rng.below(longest + 1))
                            .map(|_| rng.pick(b"pqr"))
                            .collect();
                        table
                            .rows
                            .push(row(symbol, from, marker, rng.below(states), &letters));
                    }
                }
            }
        }
    }
    thin_calls(rng, &mut table);
    table.starting = rng.set(states, 60);
    table.finals = rng.set(states, 70);
    table
}

/// A call row for every marker is much branching: often only one marker stays for a symbol.
fn thin_calls(rng: &mut Rng, table: &mut Table) {
    if rng.chance(30) {
        return;
    }
    let markers = usize::from(table.markers);
    let kept: Vec<u8> = (0..256).map(|_| rng.within(1, markers) as u8).collect();
    let classes = table.classes;
    table.rows.retain(|row| {
        classes[usize::from(row.symbol)] != CALL || row.marker == kept[usize::from(row.symbol)]
    });
}

/// Where the second table stands while a word for it is made up.
struct Reader {
    state: u8,
    stack: Vec<u8>,
    open: usize,
}

/// A word from one number of open calls to another, mostly along rows that can be taken.
fn word(
    rng: &mut Rng,
    second: &Table,
    reader: &mut Reader,
    target: usize,
    length: usize,
) -> Vec<u8> {
    let mut word = vec![];
    loop {
        let away = reader.open.abs_diff(target);
        let free = length.saturating_sub(word.len());
        if free == 0 && away == 0 {
            return word;
        }
        let wanted = match (away >= free, reader.open < target) {
            (false, _) => None,
            (true, true) => Some(CALL),
            (true, false) => Some(RETURN),
        };
        let Some((symbol, marker, to)) = next(rng, second, reader, wanted) else {
            return word;
        };
        match second.class(symbol) {
            CALL => {
                reader.open += 1;
                reader.stack.push(marker);
            }
            RETURN => {
                reader.open -= 1;
                reader.stack.pop();
            }
            _ => {}
        }
        reader.state = to;
        word.push(symbol);
    }
}

/// A symbol to write next, with the row that takes it; without such a row, any that nests.
fn next(
    rng: &mut Rng,
    second: &Table,
    reader: &Reader,
    wanted: Option<u8>,
) -> Option<(u8, u8, u8)> {
    let suits = |class: u8| {
        class != 0
            && wanted.is_none_or(|wanted| class == wanted)
            && !(class == RETURN && reader.open == 0)
    };
    let fitting: Vec<(u8, u8, u8)> = second
        .rows
        .iter()
        .filter(|row| row.from == reader.state && suits(second.class(row.symbol)))
        .filter(|row| {
            second.class(row.symbol) != RETURN || reader.stack.last() == Some(&row.marker)
        })
        .map(|row| (row.symbol, row.marker, row.to))
        .collect();
    if !fitting.is_empty() && rng.chance(95) {
        return Some(rng.pick(&fitting));
    }
    let symbols: Vec<u8> = (0..=255)
        .filter(|&symbol| suits(second.class(symbol)))
        .collect();
    if symbols.is_empty() {
        return None;
    }
    let state = rng.below(usize::from(second.states)) as u8;
    Some((rng.pick(&symbols), 1, state))
}

/// A table that writes what the second reads: each marker stands for a number of open calls.
fn over(rng: &mut Rng, second: &Table) -> Table {
    let most = (64 / usize::from(second.states)).clamp(1, 6);
    let states = rng.within(1, most);
    let markers = rng.within(1, 3);
    let longest = rng.pick(&[1, 2, 3, 3, 6, READ]);
    let symbols: [(&[u8], u8); 3] = [(b"(<", CALL), (b")>", RETURN), (b"12", INTERNAL)];
    let mut table = bare(states, markers, &symbols);
    (table.depth_cap, table.waiting_cap) = tables::caps(rng);
    for marker in 1..=markers {
        for _ in 0..rng.pick(&[0, 1, 1, 2]) {
            bracket(rng, second, &mut table, marker, longest);
        }
    }
    for _ in 0..rng.below(4) {
        let mut reader = anywhere(rng, second);
        let length = rng.below(longest + 1);
        let inner = word(rng, second, &mut reader, 0, length);
        let (from, to) = (rng.below(states), rng.below(states));
        table.rows.push(row(rng.pick(b"12"), from, 0, to, &inner));
    }
    table.starting = rng.set(states, 60);
    table.finals = rng.set(states, 80);
    table
}

/// A call row, and return rows whose words mostly shut what its word leaves open. All call rows
/// of a marker should leave as many open, so that they suit all its return rows.
fn bracket(rng: &mut Rng, second: &Table, table: &mut Table, marker: usize, longest: usize) {
    let states = usize::from(table.states);
    let nests = second.classes.contains(&CALL) && second.classes.contains(&RETURN);
    let open = if nests {
        OPENED[(marker + longest) % OPENED.len()]
    } else {
        0
    };
    let mut reader = anywhere(rng, second);
    let length = rng.below(longest + 1);
    let call = word(rng, second, &mut reader, open, length);
    let (from, inside) = (rng.below(states), rng.below(states));
    table
        .rows
        .push(row(rng.pick(b"(<"), from, marker, inside, &call));
    for _ in 0..rng.pick(&[0, 1, 1, 2]) {
        let mut reader = Reader {
            stack: reader.stack.clone(),
            ..reader
        };
        if rng.chance(30) {
            reader.state = rng.below(usize::from(second.states)) as u8;
        }
        let length = rng.below(longest + 1);
        let back = word(rng, second, &mut reader, 0, length);
        let from = if rng.chance(60) {
            inside
        } else {
            rng.below(states)
        };
        table
            .rows
            .push(row(rng.pick(b")>"), from, marker, rng.below(states), &back));
    }
}

fn anywhere(rng: &mut Rng, second: &Table) -> Reader {
    Reader {
        state: rng.below(usize::from(second.states)) as u8,
        stack: vec![],
        open: 0,
    }
}

/// Changes one word of the first: a stranger in it, a bracket more or less, brackets the wrong
/// way round, or only more bytes.
fn disturb(rng: &mut Rng, first: &mut Table, second: &Table) {
    let of_class = |class: u8| -> Vec<u8> {
        (0..=255)
            .filter(|&symbol| second.class(symbol) == class)
            .collect()
    };
    let [strange, open, shut, plain] = [0, CALL, RETURN, INTERNAL].map(of_class);
    if first.rows.is_empty() {
        return;
    }
    let at = rng.below(first.rows.len());
    let word = &mut first.rows[at].word;
    let place = rng.below(word.len() + 1);
    match rng.below(8) {
        0 | 1 if !strange.is_empty() => word.insert(place, rng.pick(&strange)),
        2 if !open.is_empty() => word.insert(place, rng.pick(&open)),
        3 if !shut.is_empty() => word.insert(place, rng.pick(&shut)),
        // As many calls as returns, and yet not nested.
        4 | 5 if !open.is_empty() && !shut.is_empty() => {
            word.insert(0, rng.pick(&shut));
            word.push(rng.pick(&open));
        }
        // An internal symbol nests anywhere, so only the word's length can be wrong.
        6 if !plain.is_empty() => {
            let length = rng.pick(&[16, 17, 17, 20]);
            while word.len() < length {
                let place = rng.below(word.len() + 1);
                word.insert(place, rng.pick(&plain));
            }
        }
        _ if !word.is_empty() => drop(word.remove(place.min(word.len() - 1))),
        _ => {}
    }
}

/// A word of 16 bytes, or of 17, in a row of any class.
fn long_read(rng: &mut Rng) -> (Table, Table) {
    let length = rng.pick(&[15, 16, 16, 17, 17, 18]);
    let mut second = bare(1, 1, &[(b"[", CALL), (b"]", RETURN), (b"a", INTERNAL)]);
    second.rows = vec![
        row(b'[', 0, 1, 0, b"o"),
        row(b']', 0, 1, 0, b"s"),
        row(b'a', 0, 0, 0, b"i"),
    ];
    let mut first = bare(1, 1, &[(b"(", CALL), (b")", RETURN), (b"1", INTERNAL)]);
    let long = rng.below(3);
    let word = |class: usize, bracket: &[u8]| -> Vec<u8> {
        let fill = if class == long {
            length - bracket.len()
        } else {
            1
        };
        [bracket, &vec![b'a'; fill]].concat()
    };
    first.rows = vec![
        row(b'(', 0, 1, 0, &word(0, b"[")),
        row(b')', 0, 1, 0, &word(1, b"]")),
        row(b'1', 0, 0, 0, &word(2, b"")),
    ];
    (first, second)
}

/// State counts whose product is 64, or over.
fn many_states(rng: &mut Rng) -> (Table, Table) {
    let (p, q) = rng.pick(&[
        (8, 8),
        (16, 4),
        (4, 16),
        (64, 1),
        (1, 64),
        (2, 32),
        (9, 7),
        (5, 13),
        (13, 5),
        (11, 6),
        (2, 33),
        (64, 2),
        (2, 64),
        (16, 16),
        (64, 64),
    ]);
    let mut second = bare(q, 1, &[(b"[", CALL), (b"]", RETURN), (b"a", INTERNAL)]);
    let mut first = bare(p, 1, &[(b"(", CALL), (b")", RETURN), (b"1", INTERNAL)]);
    for _ in 0..rng.below(12) {
        let (from, to) = (rng.below(q), rng.below(q));
        let (symbol, marker) = rng.pick(&[(b'[', 1), (b']', 1), (b'a', 0)]);
        second.rows.push(row(symbol, from, marker, to, b"w"));
        let (from, to) = (rng.below(p), rng.below(p));
        let (symbol, marker, word) =
            rng.pick(&[(b'(', 1, b"[a"), (b')', 1, b"a]"), (b'1', 0, b"aa")]);
        first.rows.push(row(symbol, from, marker, to, word));
    }
    first.starting = 1 << rng.below(p);
    second.finals = 1 << (q - 1);
    (first, second)
}

/// Lists of markers by branching calls: 64 marks, and then one more or one fewer.
fn many_markers(rng: &mut Rng) -> (Table, Table) {
    let (kinds, nested, of_first) = rng.pick(&[
        (8, 2, 1),
        (4, 3, 1),
        (64, 1, 1),
        (32, 1, 2),
        (2, 6, 1),
        (4, 2, 4),
    ]);
    let mut second = bare(1, kinds, &[(b"[", CALL), (b"]", RETURN)]);
    for marker in 1..=kinds {
        second.rows.push(row(b'[', 0, marker, 0, b""));
        second.rows.push(row(b']', 0, marker, 0, b""));
    }
    if rng.chance(20) {
        second.rows.remove(rng.below(kinds) * 2);
    }
    let mut first = bare(1, of_first + 1, &[(b"(<", CALL), (b")", RETURN)]);
    for marker in 1..=of_first {
        first
            .rows
            .push(row(b'(', 0, marker, 0, &vec![b'['; nested]));
        if rng.chance(50) {
            first
                .rows
                .push(row(b')', 0, marker, 0, &vec![b']'; nested]));
        }
    }
    if rng.chance(60) {
        first.rows.push(row(b'<', 0, of_first + 1, 0, b""));
    }
    (first, second)
}

/// 256 rows from rows of every state to every other, and then one more; some are made twice.
fn many_rows(rng: &mut Rng) -> (Table, Table) {
    let states = rng.pick(&[2, 4, 8]);
    let mut second = bare(states, 0, &[(b"xye", INTERNAL)]);
    for from in 0..states {
        (0..states).for_each(|to| second.rows.push(row(b'x', from, 0, to, b"")));
        second.rows.push(row(b'e', from, 0, from, b""));
    }
    second.rows.push(row(b'y', 0, 0, 0, b"w"));
    let symbols: Vec<u8> = (1..=(256 / (states * states)) as u8).collect();
    let mut first = bare(1, 0, &[(&symbols, INTERNAL), (b"~", INTERNAL)]);
    for &symbol in &symbols {
        first.rows.push(row(symbol, 0, 0, 0, b"x"));
        if rng.chance(20) {
            first
                .rows
                .push(row(symbol, 0, 0, 0, rng.pick(&[&b"xe"[..], b"ex", b"ye"])));
        }
    }
    if rng.chance(50) {
        first.rows.push(row(b'~', 0, 0, 0, b"y"));
    }
    (first, second)
}

/// A joined word of 255 bytes, or of 256.
fn long_word(rng: &mut Rng) -> (Table, Table) {
    let target = rng.pick(&[254, 255, 255, 256, 256, 300]);
    let times = rng.within(1, READ - 1);
    let each = target / (times + 1);
    let mut second = bare(1, 1, &[(b"[", CALL), (b"]", RETURN), (b"ab", INTERNAL)]);
    second.rows = vec![
        row(b'[', 0, 1, 0, b""),
        row(b']', 0, 1, 0, b""),
        row(b'a', 0, 0, 0, &vec![b'p'; each]),
        row(b'b', 0, 0, 0, &vec![b'q'; target - each * times]),
    ];
    let long = [&vec![b'a'; times][..], b"b"].concat();
    let mut first = bare(1, 1, &[(b"(", CALL), (b")", RETURN), (b"1", INTERNAL)]);
    first.rows = match rng.below(3) {
        0 => vec![row(b'1', 0, 0, 0, &long)],
        1 => vec![row(b'(', 0, 1, 0, &long), row(b')', 0, 1, 0, b"a")],
        _ => vec![row(b'(', 0, 1, 0, b"b"), row(b')', 0, 1, 0, &long)],
    };
    (first, second)
}

/// Words that come to 4,096 bytes together, and then one more.
fn many_words(rng: &mut Rng) -> (Table, Table) {
    let (states, symbols, each) = rng.pick(&[
        (8, 8, 64),
        (1, 64, 64),
        (16, 16, 16),
        (64, 4, 16),
        (32, 1, 128),
        (1, 32, 128),
        (4, 8, 128),
    ]);
    let mut second = bare(states, 0, &[(b"ab", INTERNAL)]);
    for state in 0..states {
        second
            .rows
            .push(row(b'a', state, 0, state, &vec![b'p'; each]));
    }
    second.rows.push(row(b'b', 0, 0, 0, b"q"));
    let symbols: Vec<u8> = (1..=symbols as u8).collect();
    let mut first = bare(1, 0, &[(&symbols, INTERNAL), (b"~", INTERNAL)]);
    for &symbol in &symbols {
        first.rows.push(row(symbol, 0, 0, 0, b"a"));
    }
    if rng.chance(60) {
        first.rows.push(row(b'~', 0, 0, 0, b"b"));
    }
    (first, second)
}

/// The scope's join worked by hand, and its near relations.
fn bridge(rng: &mut Rng) -> (Table, Table) {
    let mut first = bare(1, 1, &[(b"(", CALL), (b")", RETURN)]);
    first.rows = vec![row(b'(', 0, 1, 0, b"[{")];
    let back: &[u8] = rng.pick(&[b"}]", b"}]", b"}]", b"}", b"]}", b"}]]"]);
    first.rows.push(row(b')', 0, 1, 0, back));
    let mut second = bare(1, 2, &[(b"[{", CALL), (b"}]", RETURN)]);
    second.rows = vec![
        row(b'[', 0, 1, 0, b"a"),
        row(b'{', 0, 2, 0, b"b"),
        row(b'}', 0, 2, 0, b"c"),
        row(b']', 0, 1, 0, b"d"),
    ];
    if rng.chance(30) {
        second.rows.push(row(b'[', 0, 2, 0, b"e"));
        second.rows.push(row(b']', 0, 2, 0, b"f"));
    }
    (first, second)
}

/// A message for a table: mostly along rows of one run, which then mostly comes down again.
pub fn message(rng: &mut Rng, table: &Table) -> Vec<u8> {
    let starting: Vec<u8> = (0..table.states)
        .filter(|&state| table.is_starting(state))
        .collect();
    let (mut state, mut stack) = (rng.pick(&starting), vec![]);
    let mut message = vec![];
    let length = rng.below(9);
    while message.len() < length || (!stack.is_empty() && message.len() < 2 * length) {
        let falling = message.len() >= length;
        let fitting: Vec<&Row> = table
            .rows
            .iter()
            .filter(|row| row.from == state)
            .filter(|row| match table.class(row.symbol) {
                CALL => !falling,
                RETURN => stack.last() == Some(&row.marker),
                _ => true,
            })
            .collect();
        if fitting.is_empty() {
            break;
        }
        let row = rng.pick(&fitting);
        match table.class(row.symbol) {
            CALL => stack.push(row.marker),
            RETURN => drop(stack.pop()),
            _ => {}
        }
        state = row.to;
        message.push(row.symbol);
    }
    if rng.chance(10) {
        message.insert(rng.below(message.len() + 1), rng.byte());
    }
    message
}
