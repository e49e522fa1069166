//! Nested messages rewritten by rule table, one symbol at a time.
//!
//! Check a table, begin a session, take symbols, finish. What all readings of the symbols so far
//! agree on is sent at once.
//!
//! ```
//! use jermanuts::{Refusal, Table, OUT, SESSION};
//!
//! fn rewrite(file: &[u8], message: &[u8]) -> Result<Vec<u8>, Refusal> {
//!     let (mut session, _) = Table::new(file)?.begin(Box::new([0; SESSION]));
//!     let (mut sent, mut out) = (Vec::new(), [0; OUT]);
//!     for &symbol in message {
//!         sent.extend_from_slice(session.step(symbol, &mut out)?);
//!     }
//!     sent.extend_from_slice(session.finish(&mut out)?);
//!     Ok(sent)
//! }
//! # const G: &[u8] = include_bytes!(concat!(env!("CARGO_MANIFEST_DIR"), "/../../samples/g.table"));
//! assert_eq!(rewrite(G, &[10, 1, 11]), Ok(b"OKp".to_vec()));
//! assert_eq!(rewrite(G, &[10, 1]), Err(Refusal::Unclosed));
//! ```
//!
//! There is no allocation and no dependency. The calls are those of `libface.a`, which are proved;
//! this crate gives them their types. The numbers of [`Refusal`] and the lengths below are those of
//! `include/jermanuts.h`.

#![no_std]
#![deny(missing_docs, unsafe_code)]

#[allow(unsafe_code)]
pub mod numbers;
mod refusal;
mod session;
mod table;

pub use refusal::Refusal;
pub use session::Session;
pub use table::Table;

/// Bytes of a session.
///
/// ```
/// let room = [0; jermanuts::SESSION];
/// assert_eq!(room.len(), 33_218);
/// ```
pub const SESSION: usize = 33_218;

/// Bytes of the room that [`Session::step_in`] works in.
///
/// ```
/// let work = [0; jermanuts::WORK];
/// assert_eq!(work.len(), 49_920);
/// ```
pub const WORK: usize = 49_920;

/// Bytes of each of the two shelves that a join works with.
///
/// ```
/// assert_eq!(jermanuts::JoinRoom::new().marks.len(), jermanuts::SHELF);
/// assert_eq!(jermanuts::SHELF, 5_890);
/// ```
pub const SHELF: usize = 5_890;

/// Bytes of the tape that a join works with.
///
/// ```
/// assert_eq!(jermanuts::JoinRoom::new().tape.len(), jermanuts::TAPE);
/// assert_eq!(jermanuts::TAPE, 4_128);
/// ```
pub const TAPE: usize = 4_128;

/// The room that [`Table::join_in`] works in, in its three parts. What they hold doesn't matter.
///
/// ```
/// static ROOM: jermanuts::JoinRoom = jermanuts::JoinRoom::new();
/// assert_eq!(ROOM.rows.len(), ROOM.marks.len());
/// ```
pub struct JoinRoom {
    /// The joined markers.
    pub marks: [u8; SHELF],
    /// The joined rows.
    pub rows: [u8; SHELF],
    /// The second table's stack, and what it wrote.
    pub tape: [u8; TAPE],
}

impl JoinRoom {
    /// A room of zeros.
    ///
    /// ```
    /// let room = jermanuts::JoinRoom::new();
    /// assert_eq!(room.tape[0], 0);
    /// ```
    #[must_use]
    pub const fn new() -> JoinRoom {
        JoinRoom {
            marks: [0; SHELF],
            rows: [0; SHELF],
            tape: [0; TAPE],
        }
    }
}

impl Default for JoinRoom {
    fn default() -> JoinRoom {
        JoinRoom::new()
    }
}

/// Bytes of output that suffice for every step and finish.
///
/// ```
/// let out = [0; jermanuts::OUT];
/// assert_eq!(out.len(), 1_024);
/// ```
pub const OUT: usize = 1_024;

/// Bytes of the longest rule file, which suffice for every [`Table::join`].
///
/// ```
/// let file = [0; jermanuts::FILE];
/// assert_eq!(file.len(), 6_444);
/// ```
pub const FILE: usize = 6_444;
