//! The library under comparison, called through its C interface with guarded buffers.

use crate::session::BYTES;
use std::sync::atomic::{AtomicBool, Ordering};

const WORK: usize = 49_920;
const SHELF: usize = 5_890;
const TAPE: usize = 4_128;
const GUARD: usize = 64;
const UNTOUCHED: usize = 0x5a5a_5a5a_5a5a;

extern "C" {
    fn jermanuts_check(file: *const u8, file_len: usize) -> u32;
    fn jermanuts_begin(file: *const u8, file_len: usize, session: *mut u8, states: *mut u32)
        -> u32;
    fn jermanuts_step(
        file: *const u8,
        file_len: usize,
        session: *mut u8,
        symbol: u8,
        out: *mut u8,
        out_len: usize,
        count: *mut usize,
    ) -> u32;
    fn jermanuts_step_in(
        file: *const u8,
        file_len: usize,
        session: *mut u8,
        symbol: u8,
        out: *mut u8,
        out_len: usize,
        count: *mut usize,
        work: *mut u8,
    ) -> u32;
    fn jermanuts_finish(
        file: *const u8,
        file_len: usize,
        session: *const u8,
        out: *mut u8,
        out_len: usize,
        count: *mut usize,
    ) -> u32;
    fn jermanuts_join(
        first: *const u8,
        first_len: usize,
        second: *const u8,
        second_len: usize,
        out: *mut u8,
        out_len: usize,
        which: *mut u32,
        count: *mut usize,
    ) -> u32;
    fn jermanuts_join_in(
        first: *const u8,
        first_len: usize,
        second: *const u8,
        second_len: usize,
        out: *mut u8,
        out_len: usize,
        which: *mut u32,
        count: *mut usize,
        marks: *mut u8,
        rows: *mut u8,
        tape: *mut u8,
    ) -> u32;
}

/// What a call gave back and left behind, as far as the call has such a thing.
#[derive(Clone, Debug, PartialEq, Eq)]
pub struct Reply {
    pub number: u32,
    pub which: u32,
    pub count: usize,
    pub out: Vec<u8>,
    pub session: Vec<u8>,
    pub harm: Option<&'static str>,
}

#[derive(Clone, Copy, Debug, PartialEq, Eq)]
pub enum Call {
    Check,
    Begin,
    Step,
    StepIn,
    Finish,
    Join,
    JoinIn,
}

pub const CALLS: [(Call, &str); 7] = [
    (Call::Check, "check"),
    (Call::Begin, "begin"),
    (Call::Step, "step"),
    (Call::StepIn, "step_in"),
    (Call::Finish, "finish"),
    (Call::Join, "join"),
    (Call::JoinIn, "join_in"),
];

/// Under a memory checker buffers end where they end, since reads past the end leave guards whole.
static EXACT: AtomicBool = AtomicBool::new(false);

pub fn lend_exactly() {
    EXACT.store(true, Ordering::Relaxed);
}

/// A lent buffer between two guards; where it starts changes, so no alignment is promised.
struct Lent {
    bytes: Box<[u8]>,
    start: usize,
    length: usize,
}

fn guard(at: usize) -> u8 {
    (at as u8).wrapping_mul(29) ^ 0xa7
}

impl Lent {
    fn new(turn: usize, content: &[u8]) -> Lent {
        let guarded = if EXACT.load(Ordering::Relaxed) {
            0
        } else {
            GUARD
        };
        let start = guarded + turn % 8;
        let mut bytes: Vec<u8> = (0..start).map(guard).collect();
        bytes.extend_from_slice(content);
        bytes.extend((bytes.len()..bytes.len() + guarded).map(guard));
        Lent {
            bytes: bytes.into_boxed_slice(),
            start,
            length: content.len(),
        }
    }

    /// Taken from the whole, so that a write into a guard would be seen, not assumed away.
    fn pointer(&mut self) -> *mut u8 {
        self.bytes.as_mut_ptr().wrapping_add(self.start)
    }

    fn content(&self) -> &[u8] {
        &self.bytes[self.start..][..self.length]
    }

    fn guards_hold(&self) -> bool {
        let holds = |at: usize| self.bytes[at] == guard(at);
        (0..self.start).all(holds) && (self.start + self.length..self.bytes.len()).all(holds)
    }
}

/// The byte that fills the lent output before a call, by its place.
pub fn filling(room: usize) -> Vec<u8> {
    (0..room)
        .map(|at| (at as u8).wrapping_mul(31) ^ 0x3c)
        .collect()
}

/// Calls the library once; calls that lack a symbol, a room or a session pass over it.
pub fn ask(call: Call, file: &[u8], session: &[u8], symbol: u8, room: usize, turn: usize) -> Reply {
    assert_eq!(session.len(), BYTES);
    let mut lent_file = Lent::new(turn, file);
    let mut lent_session = Lent::new(turn / 3, session);
    let mut out = Lent::new(turn / 5, &filling(room));
    // The work comes with dirt that changes from turn to turn.
    let dirt = (turn as u8).wrapping_mul(37) ^ 0x55;
    let mut work = Lent::new(
        turn / 7,
        &vec![dirt; if call == Call::StepIn { WORK } else { 0 }],
    );
    let mut counts = [UNTOUCHED; 3];
    let mut states = [UNTOUCHED as u32; 3];

    let (f, n) = (lent_file.pointer().cast_const(), file.len());
    let (s, o) = (lent_session.pointer(), out.pointer());
    // A memory checker gets a room that nobody has written to, and sees what depends on it.
    let mut unwritten: Vec<u8> = Vec::with_capacity(WORK);
    let w = match EXACT.load(Ordering::Relaxed) {
        true => unwritten.as_mut_ptr(),
        false => work.pointer(),
    };
    let c = counts.as_mut_ptr().wrapping_add(1);
    let t = states.as_mut_ptr().wrapping_add(1);
    // SAFETY: every pointer leads to a live buffer of the length that the interface asks for,
    // and no two of them overlap.
    let number = unsafe {
        match call {
            Call::Check => jermanuts_check(f, n),
            Call::Begin => jermanuts_begin(f, n, s, t),
            Call::Step => jermanuts_step(f, n, s, symbol, o, room, c),
            Call::StepIn => jermanuts_step_in(f, n, s, symbol, o, room, c, w),
            Call::Finish => jermanuts_finish(f, n, s.cast_const(), o, room, c),
            Call::Join | Call::JoinIn => unreachable!("a join has two files: ask_join"),
        }
    };

    let harm = first_harm(&[
        ("a guard of the file", !lent_file.guards_hold()),
        ("the file", lent_file.content() != file),
        ("a guard of the session", !lent_session.guards_hold()),
        ("a guard of the output", !out.guards_hold()),
        ("a guard of the work", !work.guards_hold()),
        (
            "a neighbour of the byte count",
            counts[0] != UNTOUCHED || counts[2] != UNTOUCHED,
        ),
        (
            "a neighbour of the state count",
            states[0] != UNTOUCHED as u32 || states[2] != states[0],
        ),
    ]);
    Reply {
        number,
        which: 0,
        count: match call {
            Call::Check => 0,
            Call::Begin => states[1] as usize,
            _ => counts[1],
        },
        out: out.content().to_vec(),
        session: lent_session.content().to_vec(),
        harm,
    }
}

fn first_harm(harms: &[(&'static str, bool)]) -> Option<&'static str> {
    harms
        .iter()
        .find(|(_, harmed)| *harmed)
        .map(|(name, _)| *name)
}

/// Joins two files once, by the call or in rooms that are lent with dirt.
pub fn ask_join(call: Call, first: &[u8], second: &[u8], room: usize, turn: usize) -> Reply {
    let mut lent_first = Lent::new(turn, first);
    let mut lent_second = Lent::new(turn / 3, second);
    let mut out = Lent::new(turn / 5, &filling(room));
    let mut counts = [UNTOUCHED; 3];
    let mut which = [UNTOUCHED as u32; 3];

    let (f, s) = (
        lent_first.pointer().cast_const(),
        lent_second.pointer().cast_const(),
    );
    let o = out.pointer();
    let w = which.as_mut_ptr().wrapping_add(1);
    let c = counts.as_mut_ptr().wrapping_add(1);
    let (n, m) = (first.len(), second.len());
    let dirt = (turn as u8).wrapping_mul(37) ^ 0x55;
    let mut lent = [SHELF, SHELF, TAPE].map(|length| Lent::new(turn / 7, &vec![dirt; length]));
    // A memory checker gets rooms that nobody has written to, and sees what depends on them.
    let mut unwritten = [SHELF, SHELF, TAPE].map(Vec::<u8>::with_capacity);
    let exact = EXACT.load(Ordering::Relaxed);
    let [x, y, z] = [0, 1, 2].map(|at| match exact {
        true => unwritten[at].as_mut_ptr(),
        false => lent[at].pointer(),
    });
    // SAFETY: every pointer leads to a live buffer of the length told, and no two overlap.
    let number = unsafe {
        match call {
            Call::JoinIn => jermanuts_join_in(f, n, s, m, o, room, w, c, x, y, z),
            _ => jermanuts_join(f, n, s, m, o, room, w, c),
        }
    };

    let harm = first_harm(&[
        ("a guard of the first file", !lent_first.guards_hold()),
        ("the first file", lent_first.content() != first),
        ("a guard of the second file", !lent_second.guards_hold()),
        ("the second file", lent_second.content() != second),
        ("a guard of the output", !out.guards_hold()),
        ("a guard of a room", !lent.iter().all(Lent::guards_hold)),
        (
            "a neighbour of the byte count",
            counts[0] != UNTOUCHED || counts[2] != UNTOUCHED,
        ),
        (
            "a neighbour of which",
            which[0] != UNTOUCHED as u32 || which[2] != which[0],
        ),
    ]);
    Reply {
        number,
        which: which[1],
        count: counts[1],
        out: out.content().to_vec(),
        session: vec![],
        harm,
    }
}
