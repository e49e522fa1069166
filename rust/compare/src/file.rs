//! The rule file, judged by the scope's section of that name.

pub const CALL: u8 = 1;
pub const RETURN: u8 = 2;
pub const INTERNAL: u8 = 3;

pub const HEAD: usize = 28;
pub const BODIES: usize = 5;
pub const ROW: usize = 8;
pub const MOST_ROWS: usize = 256;
pub const MOST_WORDS: usize = 4096;

/// The field order is the scope's row order, so the derived comparison is it too.
#[derive(Clone, Debug, PartialEq, Eq, PartialOrd, Ord)]
pub struct Row {
    pub symbol: u8,
    pub from: u8,
    pub marker: u8,
    pub to: u8,
    pub word: Vec<u8>,
}

#[derive(Clone, Debug, PartialEq, Eq)]
pub struct Table {
    pub states: u8,
    pub markers: u8,
    pub depth_cap: u8,
    pub waiting_cap: u16,
    pub classes: [u8; 256],
    pub starting: u64,
    pub finals: u64,
    pub rows: Vec<Row>,
}

impl Table {
    pub fn class(&self, symbol: u8) -> u8 {
        self.classes[usize::from(symbol)]
    }

    pub fn is_starting(&self, state: u8) -> bool {
        self.starting >> state & 1 == 1
    }

    pub fn is_final(&self, state: u8) -> bool {
        self.finals >> state & 1 == 1
    }

    /// The table a file says, or nothing when the file breaks a rule.
    pub fn read(file: &[u8]) -> Option<Table> {
        let head = file.get(..HEAD)?;
        let number = |at: usize| usize::from(u16::from_le_bytes([head[at], head[at + 1]]));
        let (states, markers, depth_cap) = (head[1], head[2], head[3]);
        let in_range = head[0] == 1
            && (1..=64).contains(&states)
            && markers <= 64
            && (1..=32).contains(&depth_cap)
            && number(4) <= 512
            && number(6) == file.len();
        if !in_range {
            return None;
        }

        let mut bodies: [&[u8]; BODIES] = [&[]; BODIES];
        let mut end = HEAD;
        for (i, body) in bodies.iter_mut().enumerate() {
            let (start, length) = (number(8 + 4 * i), number(10 + 4 * i));
            if start != end {
                return None;
            }
            end = start + length;
            *body = file.get(start..end)?;
        }
        if end != file.len() {
            return None;
        }

        let [classes, starting, finals, rows, words] = bodies;
        let classes: [u8; 256] = classes.try_into().ok()?;
        let starting = set(starting, states)?;
        let finals = set(finals, states)?;
        let sizes =
            rows.len() % ROW == 0 && rows.len() / ROW <= MOST_ROWS && words.len() <= MOST_WORDS;
        if classes.iter().any(|&class| class > INTERNAL) || starting == 0 || !sizes {
            return None;
        }

        let rows: Vec<Row> = rows
            .chunks_exact(ROW)
            .map(|bytes| row(bytes, &classes, states, markers, words))
            .collect::<Option<_>>()?;
        if rows.windows(2).any(|two| two[0] >= two[1]) {
            return None;
        }
        Some(Table {
            states,
            markers,
            depth_cap,
            waiting_cap: u16::try_from(number(4)).ok()?,
            classes,
            starting,
            finals,
            rows,
        })
    }
}

fn set(body: &[u8], states: u8) -> Option<u64> {
    let set = u64::from_le_bytes(body.try_into().ok()?);
    (0..64)
        .all(|bit| bit < states || set >> bit & 1 == 0)
        .then_some(set)
}

fn row(bytes: &[u8], classes: &[u8; 256], states: u8, markers: u8, words: &[u8]) -> Option<Row> {
    let &[symbol, from, to, marker, low, high, length, zero] = bytes else {
        return None;
    };
    let marker_fits = match classes[usize::from(symbol)] {
        CALL | RETURN => (1..=markers).contains(&marker),
        INTERNAL => marker == 0,
        _ => false,
    };
    let start = usize::from(u16::from_le_bytes([low, high]));
    let word = words.get(start..start + usize::from(length))?.to_vec();
    (marker_fits && from < states && to < states && zero == 0).then_some(Row {
        symbol,
        from,
        marker,
        to,
        word,
    })
}

/// A file whose contents agree with its bodies, whatever those are.
pub fn assemble(caps: [u8; 6], bodies: &[Vec<u8>; BODIES]) -> Vec<u8> {
    let length = HEAD + bodies.iter().map(Vec::len).sum::<usize>();
    let mut file = caps.to_vec();
    file.extend((length as u16).to_le_bytes());
    let mut start = HEAD;
    for body in bodies {
        file.extend((start as u16).to_le_bytes());
        file.extend((body.len() as u16).to_le_bytes());
        start += body.len();
    }
    file.extend(bodies.concat());
    file
}

/// The file of a table whose rows each start at a place of the words body.
pub fn lay(table: &Table, starts: &[usize], words: Vec<u8>) -> Vec<u8> {
    let mut rows = vec![];
    for (row, &start) in table.rows.iter().zip(starts) {
        let [low, high] = (start as u16).to_le_bytes();
        let length = row.word.len() as u8;
        rows.extend([
            row.symbol, row.from, row.to, row.marker, low, high, length, 0,
        ]);
    }
    let [low, high] = table.waiting_cap.to_le_bytes();
    let caps = [1, table.states, table.markers, table.depth_cap, low, high];
    let [starting, finals] = [table.starting, table.finals].map(|set| set.to_le_bytes().to_vec());
    assemble(
        caps,
        &[table.classes.to_vec(), starting, finals, rows, words],
    )
}

/// The file of a joined table: words are laid in row order, none shared.
pub fn lay_in_order(table: &Table) -> Vec<u8> {
    let (mut starts, mut words) = (vec![], vec![]);
    for row in &table.rows {
        starts.push(words.len());
        words.extend(&row.word);
    }
    lay(table, &starts, words)
}
