//! Joins held against the model, and what the three tables allow.

use super::{hex, tell, Difference, Outcome, Subject, Trial};
use crate::face::{self, Call, Reply};
use crate::file;
use crate::generate::{files, joins, Rng};
use crate::join::{self, Answer, Reason, REASONS};
use crate::model::Number;
use crate::session;

/// No joined file is longer, so this room always suffices.
const LONGEST_FILE: usize = 28 + 256 + 16 + 256 * 8 + 4096;

/// What came up in joins.
#[derive(Default)]
pub struct Seen {
    /// How often a reason held, and how often it was the only one.
    reasons: [(u64, u64); REASONS.len()],
    which: [u64; 3],
    left_alone: u64,
    messages: u64,
    allowing: u64,
    ambiguous: u64,
    unlisted: u64,
    most_rows: usize,
    most_markers: usize,
    most_states: usize,
    most_bytes: usize,
}

impl Seen {
    pub fn report(&self) {
        let [_, first, second] = self.which;
        println!("joins refused for the first table: {first}, for the second: {second}");
        for ((_, name), (often, alone)) in REASONS.iter().zip(self.reasons) {
            println!("{often:>8} refused for {name}, {alone} for that alone");
        }
        println!(
            "messages over three tables: {}, with an output: {}, with several: {}, not listed: {}",
            self.messages, self.allowing, self.ambiguous, self.unlisted
        );
        println!(
            "joined at most: states {}, markers {}, rows {}, bytes {}; left alone: {}",
            self.most_states, self.most_markers, self.most_rows, self.most_bytes, self.left_alone
        );
    }

    pub fn messages(&self) -> u64 {
        self.messages
    }

    /// Every reason alone, and either table: what a long run must have seen.
    pub fn all(&self) -> bool {
        self.reasons.iter().all(|(_, alone)| *alone > 0) && self.which.iter().all(|&n| n > 0)
    }
}

/// What joining must give: a number, which table is bad, and the file.
struct Expected {
    number: Number,
    which: u32,
    file: Vec<u8>,
}

impl Trial {
    /// Pairs of tables, joined as they are and damaged, and the joined table put to use.
    pub fn joins(&mut self, rng: &mut Rng) -> Outcome {
        for _ in 0..16 {
            let (first, second) = joins::pair(rng);
            let first = Subject::new(files::lay(rng, &first));
            let second = Subject::new(files::lay(rng, &second));
            let joined = self.join(&first, &second, rng)?;
            if rng.chance(30) {
                self.join(&second, &first, rng)?;
            }
            if let Some(joined) = joined {
                self.use_joined(&first, &second, &joined, rng)?;
            }
            let (bad_first, bad_second) = rng.pick(&[(true, false), (false, true), (true, true)]);
            let mut damaged = |subject: &Subject, damage: bool| match damage {
                true => Subject::new(files::damage(rng, &subject.file)),
                false => Subject::new(subject.file.clone()),
            };
            let (first, second) = (damaged(&first, bad_first), damaged(&second, bad_second));
            self.join(&first, &second, rng)?;
        }
        Ok(())
    }

    /// One pair with two rooms: one that suits or not, and often one that surely suffices.
    fn join(
        &mut self,
        first: &Subject,
        second: &Subject,
        rng: &mut Rng,
    ) -> Result<Option<Subject>, Difference> {
        let Some(expected) = self.expect(first, second) else {
            self.joined.left_alone += 1;
            return Ok(None);
        };
        let needed = expected.file.len();
        let room = match rng.below(8) {
            0 => 0,
            1 | 2 => needed.saturating_sub(1),
            3 => needed,
            4 => rng.below(needed + 1),
            _ => LONGEST_FILE + rng.below(3),
        };
        self.compare_join(first, second, room, &expected)?;
        if expected.number != Number::Taken {
            return Ok(None);
        }
        self.compare_join(first, second, needed, &expected)?;
        Ok(Some(Subject::new(expected.file)))
    }

    fn expect(&mut self, first: &Subject, second: &Subject) -> Option<Expected> {
        let refused = |number: Number, which: u32| Expected {
            number,
            which,
            file: vec![],
        };
        let (one, other) = match (&first.table, &second.table) {
            (None, _) => return Some(refused(Number::BadTable, 1)),
            (_, None) => return Some(refused(Number::BadTable, 2)),
            (Some(one), Some(other)) => (one, other),
        };
        match join::join(one, other) {
            Answer::TooMany => None,
            Answer::Refused(number, reasons) => {
                self.note_reasons(&reasons);
                Some(refused(number, 0))
            }
            Answer::Joined(table) => {
                let seen = &mut self.joined;
                seen.most_states = seen.most_states.max(usize::from(table.states));
                seen.most_markers = seen.most_markers.max(usize::from(table.markers));
                seen.most_rows = seen.most_rows.max(table.rows.len());
                let file = file::lay_in_order(&table);
                seen.most_bytes = seen.most_bytes.max(file.len());
                let number = Number::Taken;
                Some(Expected {
                    number,
                    which: 0,
                    file,
                })
            }
        }
    }

    fn note_reasons(&mut self, reasons: &[Reason]) {
        for &reason in reasons {
            let (often, alone) = &mut self.joined.reasons[reason as usize];
            *often += 1;
            *alone += u64::from(reasons.len() == 1);
        }
    }

    fn compare_join(
        &mut self,
        first: &Subject,
        second: &Subject,
        room: usize,
        expected: &Expected,
    ) -> Outcome {
        self.compare_call(Call::Join, first, second, room, expected)?;
        self.compare_call(Call::JoinIn, first, second, room, expected)
    }

    fn compare_call(
        &mut self,
        call: Call,
        first: &Subject,
        second: &Subject,
        room: usize,
        expected: &Expected,
    ) -> Outcome {
        self.turn += 1;
        let reply = face::ask_join(call, &first.file, &second.file, room, self.turn);
        let fits = expected.file.len() <= room;
        let number = if fits {
            expected.number
        } else {
            Number::NoRoom
        };
        let written = if fits { &expected.file[..] } else { &[] };
        let mut out = face::filling(room);
        out[..written.len()].copy_from_slice(written);
        let wanted = Reply {
            number: number as u32,
            which: expected.which,
            count: written.len(),
            out,
            session: vec![],
            harm: None,
        };
        if reply != wanted {
            let told = [
                format!("{call:?}, room {room}"),
                format!("first   {}", hex(&first.file)),
                format!("second  {}", hex(&second.file)),
                format!("model   {} ({number:?})", tell(&wanted)),
                format!("library {}", tell(&reply)),
            ];
            return Err(self.difference(&told.join("\n")));
        }
        self.joined.which[expected.which as usize] += 1;
        self.count(call, number);
        Ok(())
    }

    /// The joined file checks good, takes messages, and allows what the two hops allow.
    fn use_joined(
        &mut self,
        first: &Subject,
        second: &Subject,
        joined: &Subject,
        rng: &mut Rng,
    ) -> Outcome {
        self.check(joined)?;
        let (Some(one), Some(other), Some(both)) = (&first.table, &second.table, &joined.table)
        else {
            return Err(self.difference("the model joins to a table that it refuses"));
        };
        for _ in 0..4 {
            let along = if rng.chance(70) { both } else { one };
            let message = joins::message(rng, along);
            let allowed = join::allowed(both, &message);
            let hops = join::allowed_by_hops(one, other, &message);
            let (Some(allowed), Some(hops)) = (allowed, hops) else {
                self.joined.unlisted += 1;
                continue;
            };
            if allowed != hops {
                let told = [
                    format!("the tables allow different outputs on {}", hex(&message)),
                    format!("first  {}", hex(&first.file)),
                    format!("second {}", hex(&second.file)),
                    format!("joined {}", hex(&joined.file)),
                ];
                return Err(self.difference(&told.join("\n")));
            }
            self.joined.messages += 1;
            self.joined.allowing += u64::from(!allowed.is_empty());
            self.joined.ambiguous += u64::from(allowed.len() > 1);
        }
        let unknown = vec![rng.byte(); session::BYTES];
        if let Some(fresh) = self.begin(joined, &unknown)? {
            self.walk(joined, first, &fresh, true, rng)?;
        }
        Ok(())
    }
}
