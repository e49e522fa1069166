//! The program `join` on tables of `samples/`.

use std::process::{Command, Output};

const SAMPLES: &str = concat!(env!("CARGO_MANIFEST_DIR"), "/../../samples/");

fn join(tables: &[&str]) -> Output {
    let names = tables.iter().map(|name| format!("{SAMPLES}{name}.table"));
    let mut program = Command::new(env!("CARGO_BIN_EXE_join"));
    program.args(names).output().expect("the program was built")
}

/// Nothing is written, and the last thing said is why.
fn refused(tables: &[&str], status: i32, said: &str) {
    let ended = join(tables);
    assert_eq!((ended.status.code(), ended.stdout.len()), (Some(status), 0));
    let told = String::from_utf8_lossy(&ended.stderr);
    assert!(told.trim_end().ends_with(said), "{told}");
}

#[test]
fn two_tables_become_one() {
    let ended = join(&["brackets", "bridge"]);
    assert_eq!((ended.status.code(), ended.stderr.len()), (Some(0), 0));
    assert_eq!(ended.stdout.len(), 320);
    assert!(jermanuts::Table::new(&ended.stdout).is_ok());
}

#[test]
fn a_refusal_is_the_exit_status() {
    let nested = "NotNested: words of the first table don't nest by the classes of the second";
    refused(&["bridge", "brackets"], 14, nested);
    refused(
        &["cut", "bridge"],
        1,
        "cut.table: 1 BadTable: the rule file breaks a rule",
    );
    refused(
        &["brackets", "cut"],
        1,
        "cut.table: 1 BadTable: the rule file breaks a rule",
    );
}

#[test]
fn what_cannot_be_read_is_said() {
    assert_eq!(join(&["brackets"]).status.code(), Some(64));
    assert_eq!(join(&["brackets", "no such"]).status.code(), Some(66));
}
