//! The table of ratios, on the screen and in docs/BENCHMARKS.md.

use std::fmt;
use std::path::Path;
use std::process::Command;

pub struct Line {
    pub name: &'static str,
    /// Our time over Rust's.
    pub ratio: f64,
    /// Instructions of a call, ours and Rust's, where callgrind is at hand.
    pub instructions: Option<(u64, u64)>,
}

impl fmt::Display for Line {
    fn fmt(&self, f: &mut fmt::Formatter) -> fmt::Result {
        write!(f, "| {} | {:.2} |", self.name, self.ratio)?;
        match self.instructions {
            Some((our, rust)) => {
                let ratio = our as f64 / rust as f64;
                write!(f, " {} | {} | {ratio:.2} |", grouped(our), grouped(rust))
            }
            None => write!(f, " - | - | - |"),
        }
    }
}

fn grouped(number: u64) -> String {
    let digits = number.to_string();
    let mut told = String::new();
    for (at, digit) in digits.chars().enumerate() {
        if at > 0 && (digits.len() - at) % 3 == 0 {
            told.push(',');
        }
        told.push(digit);
    }
    told
}

/// Instructions of a workload's calls, counted by callgrind, for one call on the mean.
pub fn instructions(number: usize, calls: u64) -> Option<(u64, u64)> {
    let count = |side: &str| -> Option<u64> {
        let program = std::env::current_exe().ok()?;
        let told = Command::new("valgrind")
            .args(["--tool=callgrind", "--callgrind-out-file=/dev/null"])
            .arg("--toggle-collect=jermanuts_bench_measured")
            .arg(program)
            .args(["once", &number.to_string(), side])
            .output()
            .ok()?;
        let told = String::from_utf8_lossy(&told.stderr).into_owned();
        let collected = told.split("Collected : ").nth(1)?;
        collected.split_whitespace().next()?.parse().ok()
    };
    Some((count("ours")? / calls, count("rust")? / calls))
}

const START: &str = "<!-- figures -->";
const END: &str = "<!-- end of figures -->";

/// Puts the table between its two marks; the words around it are written by hand.
pub fn write(lines: &[Line]) -> std::io::Result<()> {
    let path = Path::new(env!("CARGO_MANIFEST_DIR")).join("../../docs/BENCHMARKS.md");
    let text = std::fs::read_to_string(&path)?;
    let missing = || std::io::Error::other("a mark is missing");
    let (before, rest) = text.split_once(START).ok_or_else(missing)?;
    let (_, after) = rest.split_once(END).ok_or_else(missing)?;
    let mut table = String::from(
        "| Workload | Time, ours / Rust's | Instructions, ours | Rust's | Ours / Rust's |\n\
         |---|---|---|---|---|\n",
    );
    for line in lines {
        table.push_str(&format!("{line}\n"));
    }
    std::fs::write(path, format!("{before}{START}\n\n{table}\n{END}{after}"))
}
