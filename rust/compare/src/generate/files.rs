//! Rule files, good and damaged.

use super::Rng;
use crate::file::{self, assemble, Row, Table, BODIES, HEAD, INTERNAL, MOST_ROWS, MOST_WORDS, ROW};

/// The bytes of a good table; rows whose words find no more room are dropped.
pub fn lay(rng: &mut Rng, table: &Table) -> Vec<u8> {
    let sharing = rng.chance(60);
    let mut words: Vec<u8> = (0..rng.pick(&[0, 0, 1, 9])).map(|_| rng.byte()).collect();
    let mut laid: Vec<(&Row, usize)> = vec![];
    for row in &table.rows {
        let found = words
            .windows(row.word.len().max(1))
            .position(|part| part == row.word);
        match found.filter(|_| sharing) {
            Some(start) => laid.push((row, start)),
            None if words.len() + row.word.len() <= MOST_WORDS => {
                laid.push((row, words.len()));
                words.extend(&row.word);
            }
            None => {}
        }
    }
    words.extend((0..rng.pick(&[0, 0, 3])).map(|_| rng.byte()));
    words.truncate(MOST_WORDS);

    let mut starts = vec![];
    for (row, start) in &laid {
        // An empty word may start anywhere, the body's end included.
        let anywhere = rng.below(words.len() + 1);
        starts.push(if row.word.is_empty() {
            rng.pick(&[0, words.len(), anywhere])
        } else {
            *start
        });
    }
    let rows = laid.into_iter().map(|(row, _)| row.clone()).collect();
    file::lay(
        &Table {
            rows,
            ..table.clone()
        },
        &starts,
        words,
    )
}

fn disassemble(file: &[u8]) -> ([u8; 6], [Vec<u8>; BODIES]) {
    let number = |at: usize| usize::from(u16::from_le_bytes([file[at], file[at + 1]]));
    let caps = [file[0], file[1], file[2], file[3], file[4], file[5]];
    (
        caps,
        std::array::from_fn(|i| file[number(8 + 4 * i)..][..number(10 + 4 * i)].to_vec()),
    )
}

/// A good file with something changed; most often that breaks a rule.
pub fn damage(rng: &mut Rng, good: &[u8]) -> Vec<u8> {
    let mut file = good.to_vec();
    match rng.below(12) {
        0 | 1 => {
            let at = rng.below(file.len());
            file[at] = rng.byte();
        }
        2 => {
            let at = rng.below(HEAD);
            file[at] ^= 1 << rng.below(8);
        }
        3 => {
            let at = rng.below(HEAD / 2) * 2;
            let number = u16::from_le_bytes([file[at], file[at + 1]]);
            let changed = rng.pick(&[
                number.wrapping_add(1),
                number.wrapping_sub(1),
                0,
                u16::MAX,
                number ^ 0x100,
            ]);
            file[at..at + 2].copy_from_slice(&changed.to_le_bytes());
        }
        4 => {
            let length = rng.pick(&[0, 1, 8, 27, 28, 29, 300, file.len() - 1]);
            file.truncate(length.min(file.len() - 1));
        }
        5 => {
            let more = rng.pick(&[1, 2, 8, 8, 100, 65_536]);
            file.resize(file.len() + more, rng.byte());
            if rng.chance(50) {
                let length = (file.len() as u16).to_le_bytes();
                file[6..8].copy_from_slice(&length);
            }
        }
        6 => {
            let (at, value) = rng.pick(&[
                (0, 0),
                (0, 2),
                (1, 0),
                (1, 65),
                (1, 64),
                (1, 255),
                (2, 65),
                (2, 64),
                (2, 255),
                (2, 0),
                (3, 0),
                (3, 33),
                (3, 32),
                (3, 255),
                (5, 2),
                (5, 3),
                (4, 1),
                (1, 1),
            ]);
            file[at] = value;
        }
        _ => file = break_a_body(rng, good),
    }
    file
}

/// Changes a body and makes the contents agree again, so that only a deeper rule can break.
fn break_a_body(rng: &mut Rng, good: &[u8]) -> Vec<u8> {
    let (mut caps, mut bodies) = disassemble(good);
    let states = usize::from(caps[1]);
    let rows = bodies[3].len() / ROW;
    let words = bodies[4].len();
    match rng.below(15) {
        // An empty body still starts where the one before it ends.
        14 => {
            bodies[3].clear();
            if rng.chance(70) {
                bodies[4].clear();
            }
            let mut file = assemble(caps, &bodies);
            let entry = 8 + 4 * rng.within(3, 4);
            let start = rng.pick(&[0, 28, 299, 300, 301]);
            file[entry..entry + 2].copy_from_slice(&u16::to_le_bytes(start));
            return file;
        }
        0 => bodies[0][rng.below(256)] = rng.pick(&[4, 5, 128, 255, 0]),
        1 => bodies[1].fill(0),
        2 => {
            let which = rng.within(1, 2);
            let bit = rng.within(states.saturating_sub(1), states + 1).min(63);
            bodies[which][bit / 8] |= 1 << (bit % 8);
        }
        3 => {
            let which = rng.below(BODIES);
            if rng.chance(50) {
                bodies[which].push(0);
            } else {
                bodies[which].pop();
            }
        }
        4 => {
            let length = rng.pick(&[MOST_WORDS, MOST_WORDS + 1]);
            bodies[4].resize(length, b'w');
        }
        5 => (caps[4], caps[5]) = rng.pick(&[(0, 2), (1, 2), (255, 1), (0, 3), (0, 0)]),
        6 => bodies.swap(rng.below(BODIES), rng.below(BODIES)),
        // Rising rows without end: 256 are good and one more is not.
        7 => {
            let (symbol, target) = (rng.byte(), rng.pick(&[MOST_ROWS, MOST_ROWS, MOST_ROWS + 1]));
            bodies[0][usize::from(symbol)] = INTERNAL;
            caps[1] = 64;
            bodies[3] = (0..target)
                .flat_map(|i| [symbol, (i / 64) as u8, (i % 64) as u8, 0, 0, 0, 0, 0])
                .collect();
        }
        _ if rows == 0 => bodies[3].extend([
            rng.byte(),
            0,
            0,
            rng.below(2) as u8,
            0,
            0,
            rng.below(2) as u8,
            0,
        ]),
        8 => {
            let (from, to) = (rng.below(rows) * ROW, rng.below(rows) * ROW);
            (0..ROW).for_each(|k| bodies[3].swap(from + k, to + k));
        }
        9 => {
            let row = bodies[3][rng.below(rows) * ROW..][..ROW].to_vec();
            let at = rng.below(rows) * ROW;
            bodies[3].splice(at..at, row);
        }
        // The same row with the same word, kept elsewhere: still the same row.
        10 => {
            let at = rng.below(rows) * ROW;
            let mut row = bodies[3][at..][..ROW].to_vec();
            let start = usize::from(u16::from_le_bytes([row[4], row[5]]));
            let word = bodies[4][start..][..usize::from(row[6])].to_vec();
            row[4..6].copy_from_slice(&(words as u16).to_le_bytes());
            bodies[4].extend(word);
            if rng.chance(30) {
                bodies[4].pop();
            }
            bodies[3].splice(at..at, row);
        }
        11 => {
            let at = rng.below(rows) * ROW;
            let length = usize::from(bodies[3][at + 6]);
            let start = rng.within(words.saturating_sub(length), words + 1);
            bodies[3][at + 4..at + 6].copy_from_slice(&(start as u16).to_le_bytes());
        }
        _ => {
            let at = rng.below(rows) * ROW;
            let field = rng.pick(&[0, 1, 2, 3, 3, 3, 4, 5, 6, 7]);
            bodies[3][at + field] = match field {
                1 | 2 => rng.pick(&[caps[1], caps[1] - 1, 255]),
                3 => rng.pick(&[0, 1, caps[2], caps[2].wrapping_add(1), 255]),
                6 => rng.pick(&[0, 1, 255, bodies[3][at + 6].wrapping_add(1)]),
                7 => rng.pick(&[1, 128, 255]),
                _ => rng.byte(),
            };
        }
    }
    assemble(caps, &bodies)
}
