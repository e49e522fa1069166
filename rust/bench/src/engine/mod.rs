//! A fast engine in plain safe Rust, with the checks, numbers and bytes of the library's calls.
//! It is what the library is timed against; nothing of it is proved.

mod finishing;
mod joining;
mod session;
mod stepping;
mod table;

pub use finishing::finish;
pub use joining::join;
pub use session::{begin, SESSION};
pub use stepping::{step, Work};
pub use table::check;

pub const TAKEN: u32 = 0;
pub const BAD_TABLE: u32 = 1;
const BAD_SESSION: u32 = 2;
const UNKNOWN_SYMBOL: u32 = 3;
const UNOPENED: u32 = 4;
const TOO_DEEP: u32 = 5;
const NO_RUN: u32 = 6;
const CROWDED: u32 = 7;
const CONFLICT: u32 = 8;
const BACKLOG: u32 = 9;
const NO_ROOM: u32 = 10;
const UNCLOSED: u32 = 11;
const NOT_FINAL: u32 = 12;
const AMBIGUOUS: u32 = 13;
const NOT_NESTED: u32 = 14;
const TOO_LARGE: u32 = 15;
