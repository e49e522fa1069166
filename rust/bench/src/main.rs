//! Ours beside a fast engine in plain Rust: the same answers first, then times and instructions.
//!
//! `bench` writes docs/BENCHMARKS.md; `bench once NUMBER ours|rust` makes the calls of one
//! workload once, for callgrind.

mod engine;
mod report;
mod workloads;

use engine::{Work, SESSION};
use jermanuts::{numbers as ours, JoinRoom, WORK};
use std::hint::black_box;
use std::process::ExitCode;
use std::time::{Duration, Instant};
use workloads::{Kind, Workload};

const OUT: usize = 6444;
const BLOCK: usize = 64;
/// How long a workload is timed.
const TIMED: Duration = Duration::from_millis(1500);

#[derive(Clone, Copy, PartialEq, Eq)]
pub enum Side {
    Ours,
    Rust,
}

/// What one call gives back.
#[derive(Debug, PartialEq, Eq)]
struct Given {
    number: u32,
    which: u32,
    count: usize,
}

/// A workload with everything lent that its calls need.
struct Desk<'a> {
    workload: &'a Workload,
    /// The session before the timed calls, and the blocks of it that those change.
    before: Box<[u8; SESSION]>,
    changed: Vec<usize>,
    session: Box<[u8; SESSION]>,
    out: Vec<u8>,
    work: Box<Work>,
    our_work: Box<[u8; WORK]>,
    our_room: Box<JoinRoom>,
}

impl<'a> Desk<'a> {
    fn new(workload: &'a Workload) -> Desk<'a> {
        let mut desk = Desk {
            workload,
            before: Box::new([0; SESSION]),
            changed: vec![],
            session: Box::new([0; SESSION]),
            out: vec![0; OUT],
            work: Box::new(Work::new()),
            our_work: Box::new([0; WORK]),
            our_room: Box::new(JoinRoom::new()),
        };
        let led = match &workload.kind {
            Kind::Steps { before, .. } | Kind::Finish { before } => before.as_slice(),
            _ => &[],
        };
        engine::begin(&workload.file, &mut desk.session);
        for &symbol in led {
            let (number, _) = engine::step(
                &workload.file,
                &mut desk.session,
                symbol,
                &mut desk.out,
                &mut desk.work,
            );
            assert_eq!(number, engine::TAKEN, "{}: a symbol before", workload.name);
        }
        desk.before.copy_from_slice(&desk.session[..]);
        desk
    }

    fn symbols(&self) -> &'a [u8] {
        match &self.workload.kind {
            Kind::Steps { timed, .. } => timed,
            _ => &[0],
        }
    }

    fn call(&mut self, side: Side, symbol: u8) -> Given {
        let (file, out) = (&self.workload.file[..], &mut self.out[..]);
        let with_count = |(number, count)| Given {
            number,
            which: 0,
            count,
        };
        let with_which = |(number, which, count)| Given {
            number,
            which,
            count,
        };
        let begun = |(number, states)| Given {
            number,
            which: states,
            count: 0,
        };
        match (&self.workload.kind, side) {
            (Kind::Check, Side::Ours) => with_count((ours::check(file), 0)),
            (Kind::Check, Side::Rust) => {
                let good = engine::check(black_box(file)).is_some();
                with_count((
                    if good {
                        engine::TAKEN
                    } else {
                        engine::BAD_TABLE
                    },
                    0,
                ))
            }
            (Kind::Begin, Side::Ours) => begun(ours::begin(file, &mut self.session)),
            (Kind::Begin, Side::Rust) => begun(engine::begin(file, &mut self.session)),
            (Kind::Steps { .. }, Side::Ours) => with_count(ours::step_in(
                file,
                &mut self.session,
                symbol,
                out,
                &mut self.our_work,
            )),
            (Kind::Steps { .. }, Side::Rust) => with_count(engine::step(
                file,
                &mut self.session,
                symbol,
                out,
                &mut self.work,
            )),
            (Kind::Finish { .. }, Side::Ours) => with_count(ours::finish(file, &self.session, out)),
            (Kind::Finish { .. }, Side::Rust) => {
                with_count(engine::finish(file, &self.session, out))
            }
            (Kind::Join { second }, Side::Ours) => {
                with_which(ours::join_in(file, second, out, &mut self.our_room))
            }
            (Kind::Join { second }, Side::Rust) => with_which(engine::join(file, second, out)),
        }
    }

    /// Every call by both, from the same bytes to the same bytes.
    fn same_answers(&mut self) -> bool {
        let mut left = [false; SESSION / BLOCK + 1];
        for &symbol in self.symbols() {
            let start = self.session.clone();
            self.out.fill(0x5a);
            let our = self.call(Side::Ours, symbol);
            let (our_session, our_out) = (self.session.clone(), self.out.clone());
            self.session.copy_from_slice(&start[..]);
            self.out.fill(0x5a);
            let rust = self.call(Side::Rust, symbol);
            let taken = our.number == engine::TAKEN;
            if our != rust || !taken || our_session != self.session || our_out != self.out {
                println!(
                    "{}: symbol {symbol}: ours {our:?}, Rust's {rust:?}",
                    self.workload.name
                );
                return false;
            }
            for (at, left) in left.iter_mut().enumerate() {
                let block = at * BLOCK..(at * BLOCK + BLOCK).min(SESSION);
                *left |= self.before[block.clone()] != self.session[block];
            }
        }
        self.changed = (0..left.len()).filter(|&at| left[at]).collect();
        self.restore();
        true
    }

    /// Puts back only what the timed calls change, since copying a session costs as much as a step.
    fn restore(&mut self) {
        for &at in &self.changed {
            let block = at * BLOCK..(at * BLOCK + BLOCK).min(SESSION);
            self.session[block.clone()].copy_from_slice(&self.before[block]);
        }
    }

    fn batch(&mut self, side: Side, times: u32) -> Duration {
        let start = Instant::now();
        for _ in 0..times {
            for &symbol in self.symbols() {
                black_box(self.call(side, symbol));
            }
            self.restore();
        }
        start.elapsed()
    }

    /// The least time of one call for each side, in turns and in batches so short that most run
    /// without being interrupted.
    fn least_times(&mut self) -> (f64, f64) {
        let once = self.batch(Side::Rust, 3).max(Duration::from_nanos(300)) / 3;
        let times = (300_000 / once.as_nanos().max(1)).clamp(1, 100_000) as u32;
        let calls = f64::from(times) * self.symbols().len() as f64;
        let mut least = (f64::MAX, f64::MAX);
        let start = Instant::now();
        let mut rounds = 0;
        while rounds < 5 || start.elapsed() < TIMED {
            least.0 = least
                .0
                .min(self.batch(Side::Ours, times).as_secs_f64() / calls);
            least.1 = least
                .1
                .min(self.batch(Side::Rust, times).as_secs_f64() / calls);
            rounds += 1;
        }
        least
    }
}

/// What callgrind counts: its name must stay, and it must stay a function.
#[no_mangle]
#[inline(never)]
fn jermanuts_bench_measured(desk: &mut Desk, side: Side) {
    for &symbol in desk.symbols() {
        black_box(desk.call(side, symbol));
    }
}

fn once(arguments: &[String]) -> Option<()> {
    let [number, side] = arguments else {
        return None;
    };
    let all = workloads::all();
    let mut desk = Desk::new(all.get(number.parse::<usize>().ok()?)?);
    let side = match side.as_str() {
        "ours" => Side::Ours,
        "rust" => Side::Rust,
        _ => return None,
    };
    jermanuts_bench_measured(&mut desk, side);
    Some(())
}

fn main() -> ExitCode {
    let arguments: Vec<String> = std::env::args().skip(1).collect();
    if arguments.first().is_some_and(|word| word == "once") {
        return match once(&arguments[1..]) {
            Some(()) => ExitCode::SUCCESS,
            None => ExitCode::from(2),
        };
    }
    let all = workloads::all();
    let mut lines = vec![];
    for (number, workload) in all.iter().enumerate() {
        let mut desk = Desk::new(workload);
        if !desk.same_answers() {
            return ExitCode::FAILURE;
        }
        let (our, rust) = desk.least_times();
        let calls = desk.symbols().len() as u64;
        let line = report::Line {
            name: workload.name,
            ratio: our / rust,
            instructions: report::instructions(number, calls),
        };
        println!("{line}");
        lines.push(line);
    }
    match report::write(&lines) {
        Ok(()) => ExitCode::SUCCESS,
        Err(error) => {
            println!("docs/BENCHMARKS.md: {error}");
            ExitCode::FAILURE
        }
    }
}
