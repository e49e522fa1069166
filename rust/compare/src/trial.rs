//! Calls made and held against the model, counted by call and number.

mod joins;

use crate::face::{self, Call, Reply, CALLS};
use crate::file::Table;
use crate::generate::{self, Rng};
use crate::model::{self, Moved, Number, Run};
use crate::session::{self, Verdict};
use std::collections::BTreeSet;

const NUMBERS: usize = 16;

/// From this many calls on, every number must have come up once in so many calls.
const MANY_CALLS: u64 = 50_000;
const RAREST: u64 = 2_000;

/// Moves that would have to be listed one by one for a step; more are left alone.
const MOST_MOVES: usize = 12_000;

/// A file as the library gets it, and the table that it says, if it is good.
pub struct Subject {
    pub file: Vec<u8>,
    pub table: Option<Table>,
}

impl Subject {
    pub fn new(file: Vec<u8>) -> Subject {
        let table = Table::read(&file);
        Subject { file, table }
    }
}

/// A good table with the runs of a sound session, or the number that refuses them.
type Judged<'a> = Result<(&'a Table, &'a [Run]), Number>;

/// What the model says a call must give back and leave behind.
struct Expected {
    number: Number,
    count: usize,
    written: Vec<u8>,
    session: Vec<u8>,
}

impl Expected {
    fn refusal(number: Number, session: &[u8]) -> Expected {
        Expected {
            number,
            count: 0,
            written: vec![],
            session: session.to_vec(),
        }
    }

    fn taken(written: Vec<u8>, session: Vec<u8>) -> Expected {
        Expected {
            number: Number::Taken,
            count: written.len(),
            written,
            session,
        }
    }
}

/// The library and the model disagree, or the model with itself: told in full, for replay.
pub struct Difference(pub String);

pub type Outcome = Result<(), Difference>;

/// What came up, so that a reader can see that the comparison wasn't idle.
#[derive(Default)]
struct Seen {
    numbers: [[u64; NUMBERS]; CALLS.len()],
    left_alone: u64,
    branching: u64,
    waiting: u64,
    pieces_on_levels: u64,
    most_deep: usize,
    most_trails: usize,
    most_links: usize,
    most_sent: usize,
    most_waiting: usize,
}

pub struct Trial {
    seed: u64,
    case: u64,
    turn: usize,
    seen: Seen,
    joined: joins::Seen,
}

impl Trial {
    pub fn new(seed: u64) -> Trial {
        Trial {
            seed,
            case: 0,
            turn: 0,
            seen: Seen::default(),
            joined: joins::Seen::default(),
        }
    }

    /// Starts a case; its turns count from its own number, so that it can be played alone.
    pub fn open(&mut self, case: u64) -> Rng {
        self.case = case;
        self.turn = case as usize;
        Rng::new(self.seed, case)
    }

    pub fn calls(&self) -> u64 {
        self.seen.numbers.iter().flatten().sum()
    }

    pub fn difference(&self, what: &str) -> Difference {
        let (seed, case) = (self.seed, self.case);
        Difference(format!(
            "seed {seed} case {case}: {what}\nagain: rust/compare/check {seed} 1 {case}"
        ))
    }

    /// Makes one call and holds every byte of its answer against the model's.
    fn compare(
        &mut self,
        call: Call,
        subject: &Subject,
        before: &[u8],
        (symbol, room): (u8, usize),
        expected: &Expected,
    ) -> Outcome {
        self.turn += 1;
        let reply = face::ask(call, &subject.file, before, symbol, room, self.turn);
        let mut out = face::filling(room);
        out[..expected.written.len()].copy_from_slice(&expected.written);
        let wanted = Reply {
            number: expected.number as u32,
            which: 0,
            count: expected.count,
            out,
            session: expected.session.clone(),
            harm: None,
        };
        if reply != wanted {
            let (_, name) = CALLS[call as usize];
            let told = [
                format!("{name}, symbol {symbol}, room {room}"),
                format!("table   {}", hex(&subject.file)),
                format!("session {}", sparse_hex(before)),
                format!("model   {} ({:?})", tell(&wanted), expected.number),
                format!("library {}", tell(&reply)),
            ];
            return Err(self.difference(&told.join("\n")));
        }
        self.count(call, expected.number);
        Ok(())
    }

    fn count(&mut self, call: Call, number: Number) {
        self.seen.numbers[call as usize][number as usize] += 1;
    }

    pub fn check(&mut self, subject: &Subject) -> Outcome {
        let untouched = vec![self.turn as u8; session::BYTES];
        let expected = match subject.table {
            Some(_) => Expected::taken(vec![], untouched.clone()),
            None => Expected::refusal(Number::BadTable, &untouched),
        };
        self.compare(Call::Check, subject, &untouched, (0, 0), &expected)
    }

    /// Begins over whatever bytes the session holds; gives the fresh session.
    pub fn begin(
        &mut self,
        subject: &Subject,
        before: &[u8],
    ) -> Result<Option<Vec<u8>>, Difference> {
        let expected = match &subject.table {
            None => Expected::refusal(Number::BadTable, before),
            Some(table) => {
                let runs = model::begin(table);
                let session = self.encode(&runs)?;
                Expected {
                    count: runs.len(),
                    ..Expected::taken(vec![], session)
                }
            }
        };
        self.compare(Call::Begin, subject, before, (0, 0), &expected)?;
        Ok((expected.number == Number::Taken).then_some(expected.session))
    }

    fn encode(&self, runs: &[Run]) -> Result<Vec<u8>, Difference> {
        session::write(runs).ok_or_else(|| self.difference("the model's runs have no session"))
    }

    /// Both steps on the same bytes, with a room that suits what the step would send.
    fn step(
        &mut self,
        subject: &Subject,
        before: &[u8],
        judged: Judged,
        symbol: u8,
        rng: &mut Rng,
    ) -> Result<Option<Moved>, Difference> {
        let answer =
            |room: usize| judged.and_then(|(table, runs)| model::step(table, runs, symbol, room));
        if judged.is_ok_and(|(table, runs)| model::fan(table, runs, symbol) > MOST_MOVES) {
            self.seen.left_alone += 1;
            return Ok(None);
        }
        let needed = answer(usize::MAX).map_or(1, |moved| moved.sent.len());
        let room = generate::room(rng, needed);
        let answer = answer(room);
        let expected = match &answer {
            Err(number) => Expected::refusal(*number, before),
            Ok(moved) => Expected::taken(moved.sent.clone(), self.encode(&moved.runs)?),
        };
        self.compare(Call::Step, subject, before, (symbol, room), &expected)?;
        self.compare(Call::StepIn, subject, before, (symbol, room), &expected)?;
        Ok(answer.ok())
    }

    /// Asked twice, with the same room: finishing changes nothing.
    fn finish(
        &mut self,
        subject: &Subject,
        before: &[u8],
        judged: Judged,
        rng: &mut Rng,
    ) -> Outcome {
        let answer =
            |room: usize| judged.and_then(|(table, runs)| model::finish(table, runs, room));
        let needed = answer(usize::MAX).map_or(1, |written| written.len());
        let room = generate::room(rng, needed);
        let expected = match answer(room) {
            Err(number) => Expected::refusal(number, before),
            Ok(written) => Expected::taken(written, before.to_vec()),
        };
        self.compare(Call::Finish, subject, before, (0, room), &expected)?;
        self.compare(Call::Finish, subject, before, (0, room), &expected)
    }

    /// A finish and a step with session bytes of any kind.
    pub fn poke(&mut self, subject: &Subject, bytes: &[u8], rng: &mut Rng) -> Outcome {
        let verdict = subject
            .table
            .as_ref()
            .map(|table| session::judge(bytes, table));
        let judged = match (&subject.table, &verdict) {
            (Some(table), Some(Verdict::Sound(runs))) => Ok((table, runs.as_slice())),
            (Some(_), Some(Verdict::SoundButMany)) => {
                self.seen.left_alone += 1;
                return self.finish(subject, bytes, Err(Number::Unclosed), rng);
            }
            (Some(_), _) => Err(Number::BadSession),
            (None, _) => Err(Number::BadTable),
        };
        let symbol = match judged {
            Ok((table, runs)) => generate::symbol(rng, table, runs, false),
            Err(_) => rng.byte(),
        };
        self.finish(subject, bytes, judged, rng)?;
        self.step(subject, bytes, judged, symbol, rng).map(drop)
    }

    /// A message from a session on, with refused symbols and odd moments among it.
    /// From a fresh session, the runs are in the end counted again, afresh.
    pub fn walk(
        &mut self,
        subject: &Subject,
        sibling: &Subject,
        start: &[u8],
        fresh: bool,
        rng: &mut Rng,
    ) -> Outcome {
        let Some(table) = &subject.table else {
            return Ok(());
        };
        let Verdict::Sound(mut runs) = session::judge(start, table) else {
            return Ok(());
        };
        let mut bytes = start.to_vec();
        let (mut message, mut sent) = (vec![], vec![]);
        let mut climbing = true;
        for _ in 0..rng.pick(&[3, 8, 20, 40]) {
            climbing ^= rng.chance(12);
            let judged = Ok((table, runs.as_slice()));
            if rng.chance(if runs[0].depth() == 0 { 25 } else { 8 }) {
                self.finish(subject, &bytes, judged, rng)?;
            }
            if rng.chance(12) {
                let tampered = generate::sessions::tamper(rng, &bytes, table);
                self.poke(subject, &tampered, rng)?;
            }
            if rng.chance(4) {
                self.poke(sibling, &bytes, rng)?;
            }
            let symbol = likely_symbol(table, &runs, climbing, rng);
            let Some(moved) = self.step(subject, &bytes, judged, symbol, rng)? else {
                continue;
            };
            bytes = self.encode(&moved.runs)?;
            runs = moved.runs;
            self.note(&runs, moved.sent.len(), &bytes);
            message.push(symbol);
            sent.extend(moved.sent);
            match session::judge(&bytes, table) {
                Verdict::Sound(same) if same == runs => {}
                Verdict::SoundButMany => break,
                _ => return Err(self.difference("the model's session isn't sound for its runs")),
            }
        }
        let whole = |run: Run| Run {
            waiting: [&sent[..], &run.waiting].concat(),
            ..run
        };
        let told: BTreeSet<Run> = runs.into_iter().map(whole).collect();
        if fresh && model::afresh(table, &message) != told {
            return Err(self.difference("runs counted afresh differ from runs moved by steps"));
        }
        Ok(())
    }

    fn note(&mut self, runs: &[Run], sent: usize, bytes: &[u8]) {
        let seen = &mut self.seen;
        let (depth, entries) = session::unlay(bytes);
        let waiting = runs.iter().map(|run| run.waiting.len()).max().unwrap_or(0);
        let levels: BTreeSet<u8> = entries
            .iter()
            .filter(|(_, piece)| !piece.is_empty())
            .map(|(link, _)| link.level)
            .collect();
        seen.branching += u64::from(runs.len() > 1);
        seen.waiting += u64::from(waiting > 0);
        seen.pieces_on_levels += u64::from(levels.len() > 1);
        seen.most_deep = seen.most_deep.max(depth);
        seen.most_trails = seen.most_trails.max(runs.len());
        seen.most_links = seen.most_links.max(entries.len());
        seen.most_sent = seen.most_sent.max(sent);
        seen.most_waiting = seen.most_waiting.max(waiting);
    }

    /// Prints how often each number was given and what else came up.
    pub fn report(&self) {
        let seen = &self.seen;
        print!("number");
        CALLS.iter().for_each(|(_, name)| print!("{name:>10}"));
        println!("{:>10}", "all");
        for number in 0..NUMBERS {
            print!("{number:>6}");
            seen.numbers
                .iter()
                .for_each(|counts| print!("{:>10}", counts[number]));
            println!("{:>10}", self.often(number));
        }
        println!(
            "steps taken to more than one run: {}, to waiting output: {}, on several levels: {}",
            seen.branching, seen.waiting, seen.pieces_on_levels
        );
        println!(
            "at most: depth {}, trails {}, links {}, bytes sent {}, bytes waiting {}",
            seen.most_deep, seen.most_trails, seen.most_links, seen.most_sent, seen.most_waiting
        );
        println!(
            "steps left alone for too many trails or moves: {}",
            seen.left_alone
        );
        self.joined.report();
    }

    fn often(&self, number: usize) -> u64 {
        self.seen.numbers.iter().map(|counts| counts[number]).sum()
    }

    /// A line for each kind of comparison; a run of many calls must have seen every number often.
    pub fn verdicts(&self) -> (usize, usize) {
        let calls = self.calls();
        let of_call = |call: usize| self.seen.numbers[call].iter().sum::<u64>() > 0;
        let rarest = (0..NUMBERS)
            .map(|number| self.often(number))
            .min()
            .unwrap_or(0);
        let mut good: Vec<bool> = (0..CALLS.len()).map(of_call).collect();
        good.push(self.joined.messages() > 0);
        if calls >= MANY_CALLS {
            good.push(rarest >= calls / RAREST);
            good.push(self.joined.all());
        }
        let passed = good.iter().filter(|&&good| good).count();
        (passed, good.len() - passed)
    }
}

/// A panic is the model's own fault; it too must say where to look.
impl Drop for Trial {
    fn drop(&mut self) {
        if std::thread::panicking() {
            println!("{}", self.difference("the model broke down").0);
        }
    }
}

/// Of a few symbols, often the first that is taken, so that messages go far.
fn likely_symbol(table: &Table, runs: &[Run], climbing: bool, rng: &mut Rng) -> u8 {
    let insisting = rng.chance(60);
    let mut symbol = generate::symbol(rng, table, runs, climbing);
    for _ in 0..3 {
        let small = model::fan(table, runs, symbol) <= MOST_MOVES;
        if !insisting || small && model::step(table, runs, symbol, usize::MAX).is_ok() {
            break;
        }
        symbol = generate::symbol(rng, table, runs, climbing);
    }
    symbol
}

fn hex(bytes: &[u8]) -> String {
    bytes.iter().map(|byte| format!("{byte:02x}")).collect()
}

/// The bytes that aren't 0, in stretches with their places.
fn sparse_hex(bytes: &[u8]) -> String {
    let mut told = vec![];
    let mut at = 0;
    for stretch in bytes.chunk_by(|a, b| (*a == 0) == (*b == 0)) {
        if stretch[0] != 0 {
            told.push(format!("{at}:{}", hex(stretch)));
        }
        at += stretch.len();
    }
    let told = told.join(" ");
    if told.len() > 6000 {
        return "(large; play the case again)".to_string();
    }
    told
}

fn tell(reply: &Reply) -> String {
    let untouched = face::filling(reply.out.len());
    let changed = reply.out.iter().zip(&untouched).rposition(|(a, b)| a != b);
    let shown = changed
        .map_or(0, |last| last + 1)
        .max(reply.count.min(reply.out.len()));
    format!(
        "number {}, which {}, count {}, out {}, harm {:?}, session {}",
        reply.number,
        reply.which,
        reply.count,
        hex(&reply.out[..shown]),
        reply.harm,
        sparse_hex(&reply.session),
    )
}
