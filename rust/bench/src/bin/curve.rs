//! How long `join` reads: over the number of rows that fit each byte, and the length of the first table's word.
//! Prints the table of docs/JOINING.md and, with a path as its argument, writes the plot there.
use std::fmt::Write;

use jermanuts::{Table, FILE};

const WORDS: usize = 16;
const ROWS: usize = 4;
/// Beyond so many readings a time is told by the one before it: one byte more takes as many times longer as rows fit.
const READINGS: f64 = 7e7;

/// A rule file with one state, one internal symbol, and a row from that state to itself for each word.
fn table(symbol: u8, words: &[Vec<u8>]) -> Vec<u8> {
    let said: Vec<u8> = words.concat();
    let length = 300 + 8 * words.len() + said.len();
    let two = |n: usize| (n as u16).to_le_bytes();
    let mut file = vec![1, 1, 0, 1];
    for n in [
        0,
        length,
        28,
        256,
        284,
        8,
        292,
        8,
        300,
        8 * words.len(),
        300 + 8 * words.len(),
        said.len(),
    ] {
        file.extend(two(n));
    }
    let mut classes = [0u8; 256];
    classes[symbol as usize] = 3;
    file.extend(classes);
    file.extend(1u64.to_le_bytes());
    file.extend(1u64.to_le_bytes());
    let mut start = 0;
    for word in words {
        file.extend([symbol, 0, 0, 0]);
        file.extend(two(start));
        file.extend(two(word.len()));
        start += word.len();
    }
    file.extend(said);
    file
}

/// The seconds that this process has run, whatever else runs beside it.
fn clock() -> f64 {
    let text =
        std::fs::read_to_string("/proc/self/schedstat").expect("Linux tells a process's time");
    let spent: f64 = text
        .split(' ')
        .next()
        .and_then(|n| n.parse().ok())
        .expect("nanoseconds");
    spent / 1e9
}

/// Joins so many times; each must be taken.
fn joined(first: &[u8], second: &[u8], times: u32) {
    let good = |file| Table::new(file).expect("a good table");
    let (first, second) = (good(first), good(second));
    for _ in 0..times {
        let mut out = [0u8; FILE];
        assert!(
            first.join(second, &mut out).is_ok(),
            "two tables that can be joined"
        );
    }
}

/// The seconds of one join: a word of `length` bytes, each of which `branching` rows fit.
fn seconds(branching: usize, length: usize) -> f64 {
    let first = table(1, &[vec![b'a'; length]]);
    let second = table(
        b'a',
        &(0..branching).map(|n| vec![b'x'; n]).collect::<Vec<_>>(),
    );
    let mut times = 1;
    loop {
        let began = clock();
        joined(&first, &second, times);
        let spent = clock() - began;
        if spent > 0.1 {
            return spent / f64::from(times);
        }
        times *= 2;
    }
}

/// A time in the unit that a reader wants.
fn told(seconds: f64) -> String {
    let (value, unit) = match seconds {
        s if s < 1e-3 => (s * 1e6, "µs"),
        s if s < 1.0 => (s * 1e3, "ms"),
        s if s < 120.0 => (s, "s"),
        s => (s / 60.0, "min"),
    };
    if value < 9.95 {
        format!("{value:.1} {unit}")
    } else {
        format!("{value:.0} {unit}")
    }
}

/// Where a plot's points stand: words across, time upward by powers of ten.
struct Frame {
    low: f64,
    high: f64,
}

impl Frame {
    const LEFT: f64 = 70.0;
    const TOP: f64 = 20.0;
    const WIDTH: f64 = 560.0;
    const HEIGHT: f64 = 360.0;

    fn of(times: &[Vec<f64>]) -> Frame {
        let powers = || times.iter().flatten().map(|time| time.log10());
        Frame {
            low: powers().fold(0.0, f64::min).floor(),
            high: powers().fold(0.0, f64::max).ceil(),
        }
    }

    fn across(&self, bytes: usize) -> f64 {
        Frame::LEFT + Frame::WIDTH * (bytes as f64 - 1.0) / (WORDS as f64 - 1.0)
    }

    fn down(&self, time: f64) -> f64 {
        Frame::TOP + Frame::HEIGHT * (self.high - time.log10()) / (self.high - self.low)
    }

    /// Lines and names for the times, names for the words.
    fn axes(&self, svg: &mut String) {
        let (left, right) = (Frame::LEFT, Frame::LEFT + Frame::WIDTH);
        let bottom = Frame::TOP + Frame::HEIGHT;
        for power in self.low as i32..=self.high as i32 {
            let time = 10f64.powi(power);
            let (at, name) = (self.down(time), told(time).replace(".0 ", " "));
            *svg += &format!("<path d=\"M{left} {at:.1}H{right}\" stroke=\"#ddd\"/>\n");
            *svg += &text(left - 8.0, at + 4.0, "end", "black", &name);
        }
        for bytes in 1..=WORDS {
            *svg += &text(
                self.across(bytes),
                bottom + 20.0,
                "middle",
                "black",
                &bytes.to_string(),
            );
        }
        let name = "bytes in the word of the first table";
        *svg += &text((left + right) / 2.0, bottom + 45.0, "middle", "black", name);
    }

    /// The times of one branching, with its name at the end.
    fn line(&self, svg: &mut String, times: &[f64], colour: &str, name: &str) {
        let points: Vec<String> = (1..)
            .zip(times)
            .map(|(bytes, &time)| format!("{:.1},{:.1}", self.across(bytes), self.down(time)))
            .collect();
        let points = points.join(" ");
        *svg += &format!("<polyline points=\"{points}\" fill=\"none\" stroke=\"{colour}\" stroke-width=\"2\"/>\n");
        let end = (self.across(times.len()), self.down(times[times.len() - 1]));
        *svg += &text(end.0 + 6.0, end.1 + 4.0, "start", colour, name);
    }
}

fn text(x: f64, y: f64, anchor: &str, colour: &str, words: &str) -> String {
    format!("<text x=\"{x:.1}\" y=\"{y:.1}\" text-anchor=\"{anchor}\" fill=\"{colour}\">{words}</text>\n")
}

fn plot(times: &[Vec<f64>]) -> String {
    let frame = Frame::of(times);
    let mut svg =
        String::from("<svg xmlns=\"http://www.w3.org/2000/svg\" viewBox=\"0 0 720 440\" ");
    svg += "font-family=\"sans-serif\" font-size=\"13\">\n<rect width=\"720\" height=\"440\" fill=\"white\"/>\n";
    frame.axes(&mut svg);
    let looks = [
        ("#1b6ca8", "1 row"),
        ("#2e8b57", "2 rows"),
        ("#c77700", "3 rows"),
        ("#b22222", "4 rows"),
    ];
    for (line, (colour, name)) in times.iter().zip(looks) {
        frame.line(&mut svg, line, colour, name);
    }
    svg + "</svg>\n"
}

fn main() {
    let mut times = vec![Vec::new(); ROWS];
    println!("| Bytes | 1 row | 2 rows | 3 rows | 4 rows |\n|---|---|---|---|---|");
    for length in 1..=WORDS {
        let mut line = format!("| {length} |");
        for branching in 1..=ROWS {
            if (branching as f64).powi(length as i32) <= READINGS {
                let time = seconds(branching, length);
                times[branching - 1].push(time);
                let _ = write!(line, " {} |", told(time));
            } else {
                let seen = &times[branching - 1];
                let more = (branching as f64).powi((length - seen.len()) as i32);
                let _ = write!(line, " about {} |", told(seen[seen.len() - 1] * more));
            }
        }
        println!("{line}");
    }
    if let Some(path) = std::env::args().nth(1) {
        std::fs::write(&path, plot(&times)).unwrap_or_else(|e| panic!("{path}: {e}"));
    }
}
