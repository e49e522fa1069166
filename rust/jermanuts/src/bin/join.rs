//! Joins two rule files: `join FIRST SECOND >JOINED`. The exit status is the number given back, with what it means on
//! standard error; 64 for bad usage, 66 where a file can't be read, 74 where the joined one can't be written.

use std::io::{self, Write};
use std::process::ExitCode;

use jermanuts::{Refusal, Table, FILE};

const USAGE: u8 = 64;
const NO_INPUT: u8 = 66;
const NO_OUTPUT: u8 = 74;

/// What the exit status is, and what is said beside it.
type Failure = (u8, String);

fn refused(what: &str, refusal: Refusal) -> Failure {
    let number = refusal.number() as u8;
    (number, format!("{what}: {number} {refusal}"))
}

fn read(name: &str) -> Result<Vec<u8>, Failure> {
    std::fs::read(name).map_err(|error| (NO_INPUT, format!("{name}: {error}")))
}

fn join(first: &str, second: &str) -> Result<(), Failure> {
    let (one, two) = (read(first)?, read(second)?);
    let one = Table::new(&one).map_err(|refusal| refused(first, refusal))?;
    let two = Table::new(&two).map_err(|refusal| refused(second, refusal))?;
    let mut out = [0; FILE];
    let joined = one.join(two, &mut out);
    let joined = joined.map_err(|refusal| refused(&format!("{first}, {second}"), refusal))?;
    io::stdout()
        .write_all(joined.file())
        .map_err(|error| (NO_OUTPUT, format!("standard output: {error}")))
}

fn main() -> ExitCode {
    let names: Vec<String> = std::env::args().skip(1).collect();
    let ended = match &names[..] {
        [first, second] => join(first, second),
        _ => Err((USAGE, "usage: join FIRST SECOND >JOINED".to_string())),
    };
    match ended {
        Ok(()) => ExitCode::SUCCESS,
        Err((status, said)) => {
            eprintln!("join: {said}");
            ExitCode::from(status)
        }
    }
}
