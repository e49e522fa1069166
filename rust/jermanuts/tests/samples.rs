//! Every message of `samples/` gives the bytes and the number that its `.lines` say.

use std::fs;
use std::path::{Path, PathBuf};

use jermanuts::{Refusal, Table, OUT, SESSION, WORK};

/// What was sent, and the last number given back.
type Ended = (Vec<u8>, u32);

fn rewritten(file: &[u8], message: &[u8], lent: bool) -> Ended {
    let mut sent = Vec::new();
    let number = match rewrite(file, message, lent, &mut sent) {
        Ok(()) => 0,
        Err(refusal) => refusal.number(),
    };
    (sent, number)
}

fn rewrite(file: &[u8], message: &[u8], lent: bool, sent: &mut Vec<u8>) -> Result<(), Refusal> {
    let (mut session, _) = Table::new(file)?.begin(Box::new([0; SESSION]));
    let (mut out, mut work) = ([0; OUT], [0; WORK]);
    for &symbol in message {
        sent.extend_from_slice(match lent {
            true => session.step_in(symbol, &mut out, &mut work)?,
            false => session.step(symbol, &mut out)?,
        });
    }
    sent.extend_from_slice(session.finish(&mut out)?);
    Ok(())
}

fn bytes(hex: &str) -> Vec<u8> {
    let digits = hex.trim_matches('-');
    (0..digits.len())
        .step_by(2)
        .map(|at| u8::from_str_radix(&digits[at..at + 2], 16).unwrap())
        .collect()
}

/// A symbol's line is place, symbol, number, depth, bytes; then `end`, number, bytes; or `table`,
/// number alone.
fn promised(lines: &str) -> Ended {
    let mut ended = (Vec::new(), 0);
    for line in lines.lines() {
        let words: Vec<&str> = line.split(' ').collect();
        let (number, hex) = match words[0] {
            "table" => (words[1], "-"),
            "end" => (words[1], words[2]),
            _ => (words[2], words[4]),
        };
        ended.0.extend(bytes(hex));
        ended.1 = number.parse().unwrap();
    }
    ended
}

fn messages() -> Vec<PathBuf> {
    let samples = Path::new(env!("CARGO_MANIFEST_DIR")).join("../../samples");
    fs::read_dir(samples)
        .unwrap()
        .map(|entry| entry.unwrap().path())
        .filter(|path| path.extension().is_some_and(|ending| ending == "message"))
        .collect()
}

#[test]
fn messages_give_their_lines() {
    let messages = messages();
    assert!(messages.len() > 20);
    for path in messages {
        // A table's name ends at the first dash of its messages' names.
        let stem = path.file_stem().unwrap().to_str().unwrap();
        let table = path.with_file_name(stem.split('-').next().unwrap().to_string() + ".table");
        let (file, message) = (fs::read(table).unwrap(), fs::read(&path).unwrap());
        let promised = promised(&fs::read_to_string(path.with_extension("lines")).unwrap());
        assert_eq!(rewritten(&file, &message, false), promised, "{stem}");
        assert_eq!(rewritten(&file, &message, true), promised, "{stem}");
    }
}
