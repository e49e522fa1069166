//! An independent second program: it compares the library with runs counted one by one.
//!
//! `compare [SEED [CALLS [CASE]]]`: whole cases from CASE on until there are so many calls; so
//! `compare SEED 1 CASE` plays one case again. With `COMPARE_EXACT` set, buffers have no guards.

mod face;
mod file;
mod generate;
mod join;
mod model;
mod session;
mod trial;

use generate::{files, sessions, tables, Rng};
use std::process::ExitCode;
use trial::{Difference, Outcome, Subject, Trial};

const SEED: u64 = 20_260_101;
const CALLS: u64 = 400_000;

/// One table with its relations, its messages, its sessions and its damage.
fn case(trial: &mut Trial, rng: &mut Rng) -> Outcome {
    let drawn = tables::table(rng);
    let subject = Subject::new(files::lay(rng, &drawn));
    let Some(table) = &subject.table else {
        return Err(trial.difference("the model refuses a table that was made to be good"));
    };
    let related = tables::sibling(rng, table);
    let sibling = Subject::new(files::lay(rng, &related));
    trial.check(&subject)?;
    trial.check(&sibling)?;

    let mut bytes = vec![rng.byte(); session::BYTES];
    for _ in 0..rng.within(1, 2) {
        if let Some(fresh) = trial.begin(&subject, &bytes)? {
            trial.walk(&subject, &sibling, &fresh, true, rng)?;
            bytes = fresh;
        }
    }
    for _ in 0..3 {
        if let Some(made) = sessions::session(rng, table) {
            trial.poke(&subject, &made, rng)?;
            trial.poke(&sibling, &made, rng)?;
            trial.walk(&subject, &sibling, &made, false, rng)?;
            bytes = made;
        }
    }
    let stranger = tables::table(rng);
    if let Some(foreign) = sessions::session(rng, &stranger) {
        trial.poke(&subject, &foreign, rng)?;
    }
    for _ in 0..4 {
        let damaged = Subject::new(files::damage(rng, &subject.file));
        trial.check(&damaged)?;
        let fresh = trial.begin(&damaged, &bytes)?;
        let tampered = sessions::tamper(rng, &bytes, table);
        let held = if rng.chance(70) { &bytes } else { &tampered };
        trial.poke(&damaged, held, rng)?;
        if let Some(fresh) = fresh.filter(|_| rng.chance(40)) {
            trial.walk(&damaged, &subject, &fresh, true, rng)?;
        }
    }
    trial.joins(rng)
}

fn main() -> ExitCode {
    let given: Result<Vec<u64>, _> = std::env::args().skip(1).map(|word| word.parse()).collect();
    let Ok(given) = given else {
        eprintln!("compare [SEED [CALLS [CASE]]]");
        return ExitCode::from(2);
    };
    let argument = |at: usize, default: u64| given.get(at).copied().unwrap_or(default);
    let (seed, calls, first) = (argument(0, SEED), argument(1, CALLS), argument(2, 0));

    if std::env::var_os("COMPARE_EXACT").is_some() {
        face::lend_exactly();
    }
    let mut trial = Trial::new(seed);
    println!("seed {seed}, at least {calls} calls from case {first}");
    for number in first.. {
        let mut rng = trial.open(number);
        if let Err(Difference(told)) = case(&mut trial, &mut rng) {
            println!("{told}");
            println!("0 passed, 1 failed");
            return ExitCode::FAILURE;
        }
        if trial.calls() >= calls {
            break;
        }
    }
    trial.report();
    println!("{} calls, no difference", trial.calls());
    let (passed, failed) = trial.verdicts();
    println!("{passed} passed, {failed} failed");
    if failed == 0 {
        ExitCode::SUCCESS
    } else {
        ExitCode::FAILURE
    }
}
