//! The rule file, checked in one pass over its rows.

pub const CALL: u8 = 1;
pub const RETURN: u8 = 2;

pub type Row = [u8; 8];

pub struct Table<'a> {
    pub states: u8,
    pub markers: u8,
    pub depth_cap: usize,
    pub waiting_cap: usize,
    pub classes: &'a [u8; 256],
    pub starting: u64,
    pub finals: u64,
    pub rows: &'a [Row],
    pub words: &'a [u8],
}

/// Starts and lengths of the first three bodies, and the start of the rows: always the same.
pub const FIXED: [u8; 14] = [28, 0, 0, 1, 28, 1, 8, 0, 36, 1, 8, 0, 44, 1];
const ROWS_AT: usize = 300;

/// Symbol, from, marker, to: what rows rise by before their words.
pub fn key(row: &Row) -> u32 {
    u32::from_be_bytes([row[0], row[1], row[3], row[2]])
}

pub fn word<'a>(words: &'a [u8], row: &Row) -> &'a [u8] {
    let start = usize::from(u16::from_le_bytes([row[4], row[5]]));
    &words[start..start + usize::from(row[6])]
}

pub fn check(file: &[u8]) -> Option<Table<'_>> {
    let head: &[u8; 28] = file.first_chunk()?;
    let number = |at: usize| usize::from(u16::from_le_bytes([head[at], head[at + 1]]));
    let [edition, states, markers, depth_cap, ..] = *head;
    let (rows_len, words_len) = (number(22), number(26));
    let good = edition == 1
        && states.wrapping_sub(1) < 64
        && markers <= 64
        && depth_cap.wrapping_sub(1) < 32
        && number(4) <= 512
        && number(6) == file.len()
        && head[8..22] == FIXED
        && number(24) == ROWS_AT + rows_len
        && ROWS_AT + rows_len + words_len == file.len()
        && rows_len % 8 == 0
        && rows_len <= 2048
        && words_len <= 4096;
    if !good {
        return None;
    }

    let body = &file[28..];
    let classes: &[u8; 256] = body.first_chunk()?;
    let sets: &[u8; 16] = body[256..].first_chunk()?;
    let (starting, finals) = sets.split_at(8);
    let starting = u64::from_le_bytes(starting.try_into().ok()?);
    let finals = u64::from_le_bytes(finals.try_into().ok()?);
    let strange = !(u64::MAX >> (64 - u32::from(states)));
    let classes_or = classes.iter().fold(0, |all, class| all | class);
    if classes_or > 3 || starting == 0 || (starting | finals) & strange != 0 {
        return None;
    }
    let (rows, words) = body[272..].split_at(rows_len);
    let (rows, _) = rows.as_chunks::<8>();
    let table = Table {
        states,
        markers,
        depth_cap: usize::from(depth_cap),
        waiting_cap: number(4),
        classes,
        starting,
        finals,
        rows,
        words,
    };
    rows_good(&table).then_some(table)
}

fn rows_good(table: &Table) -> bool {
    // By class: the least and the greatest marker; class 0 has none.
    let least = [1, 1, 1, 0];
    let greatest = [0, table.markers, table.markers, 0];
    let mut before: Option<(u32, &Row)> = None;
    for row in table.rows {
        let &[symbol, from, to, marker, low, high, length, zero] = row;
        let class = usize::from(table.classes[usize::from(symbol)] & 3);
        let end = usize::from(u16::from_le_bytes([low, high])) + usize::from(length);
        let good = (from < table.states)
            & (to < table.states)
            & (marker >= least[class])
            & (marker <= greatest[class])
            & (end <= table.words.len())
            & (zero == 0);
        if !good {
            return false;
        }
        let key = key(row);
        if let Some((key_before, row_before)) = before {
            let rising = key_before < key
                || key_before == key && word(table.words, row_before) < word(table.words, row);
            if !rising {
                return false;
            }
        }
        before = Some((key, row));
    }
    true
}

impl<'a> Table<'a> {
    /// The rows of a symbol from a state.
    pub fn rows_from(&self, symbol: u8, from: u8) -> &'a [Row] {
        let wanted = u16::from_be_bytes([symbol, from]);
        let of = |row: &Row| u16::from_be_bytes([row[0], row[1]]);
        let start = self.rows.partition_point(|row| of(row) < wanted);
        let rest = &self.rows[start..];
        let count = rest.iter().take_while(|row| of(row) == wanted).count();
        &rest[..count]
    }

    /// The rows of a return symbol from a state with a marker.
    pub fn rows_popping(&self, symbol: u8, from: u8, marker: u8) -> &'a [Row] {
        let rows = self.rows_from(symbol, from);
        let start = rows.iter().take_while(|row| row[3] < marker).count();
        let count = rows[start..]
            .iter()
            .take_while(|row| row[3] == marker)
            .count();
        &rows[start..start + count]
    }
}
