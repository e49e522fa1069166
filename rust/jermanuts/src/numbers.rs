//! The calls with numbers for answers, as they are in C: for programs that compare or measure.
//! [`Table`](crate::Table) and [`Session`](crate::Session) are made of them.
//!
//! Here is the only unsafe code: each function is called with slices and arrays, whose types say
//! what the header `include/jermanuts.h` asks in words. Lengths are right, no pointer is null, and
//! nothing that is written overlaps anything.

use crate::{JoinRoom, SESSION, WORK};

extern "C" {
    fn jermanuts_check(file: *const u8, file_len: usize) -> u32;
    fn jermanuts_begin(file: *const u8, file_len: usize, session: *mut u8, states: *mut u32)
        -> u32;
    fn jermanuts_step(
        file: *const u8,
        file_len: usize,
        session: *mut u8,
        symbol: u8,
        out: *mut u8,
        out_len: usize,
        count: *mut usize,
    ) -> u32;
    fn jermanuts_step_in(
        file: *const u8,
        file_len: usize,
        session: *mut u8,
        symbol: u8,
        out: *mut u8,
        out_len: usize,
        count: *mut usize,
        work: *mut u8,
    ) -> u32;
    fn jermanuts_finish(
        file: *const u8,
        file_len: usize,
        session: *const u8,
        out: *mut u8,
        out_len: usize,
        count: *mut usize,
    ) -> u32;
    fn jermanuts_join(
        first: *const u8,
        first_len: usize,
        second: *const u8,
        second_len: usize,
        out: *mut u8,
        out_len: usize,
        which: *mut u32,
        count: *mut usize,
    ) -> u32;
    fn jermanuts_join_in(
        first: *const u8,
        first_len: usize,
        second: *const u8,
        second_len: usize,
        out: *mut u8,
        out_len: usize,
        which: *mut u32,
        count: *mut usize,
        marks: *mut u8,
        rows: *mut u8,
        tape: *mut u8,
    ) -> u32;
}

/// The number.
///
/// ```
/// use jermanuts::numbers;
///
/// # const G: &[u8] = include_bytes!(concat!(env!("CARGO_MANIFEST_DIR"), "/../../samples/g.table"));
/// assert_eq!(numbers::check(G), 0);
/// assert_eq!(numbers::check(b"no rule file"), 1);
/// ```
pub fn check(file: &[u8]) -> u32 {
    // SAFETY: `file` is a slice.
    unsafe { jermanuts_check(file.as_ptr(), file.len()) }
}

/// The number, and the starting states.
///
/// ```
/// use jermanuts::numbers;
///
/// # const G: &[u8] = include_bytes!(concat!(env!("CARGO_MANIFEST_DIR"), "/../../samples/g.table"));
/// let mut session = [0; jermanuts::SESSION];
/// assert_eq!(numbers::begin(G, &mut session), (0, 1));
/// ```
pub fn begin(file: &[u8], session: &mut [u8; SESSION]) -> (u32, u32) {
    let mut states = 0;
    // SAFETY: the session has its length by its type; it and `states` are borrowed for writing, so
    // they overlap nothing.
    let number =
        unsafe { jermanuts_begin(file.as_ptr(), file.len(), session.as_mut_ptr(), &mut states) };
    (number, states)
}

/// The number, and the byte count.
///
/// ```
/// use jermanuts::numbers;
///
/// # const G: &[u8] = include_bytes!(concat!(env!("CARGO_MANIFEST_DIR"), "/../../samples/g.table"));
/// let (mut session, mut out) = ([0; jermanuts::SESSION], [0; jermanuts::OUT]);
/// numbers::begin(G, &mut session);
/// assert_eq!(numbers::step(G, &mut session, 10, &mut out), (0, 1));
/// ```
pub fn step(file: &[u8], session: &mut [u8; SESSION], symbol: u8, out: &mut [u8]) -> (u32, usize) {
    let mut count = 0;
    // SAFETY: as in `begin`; `out` is a slice that is borrowed for writing.
    let number = unsafe {
        jermanuts_step(
            file.as_ptr(),
            file.len(),
            session.as_mut_ptr(),
            symbol,
            out.as_mut_ptr(),
            out.len(),
            &mut count,
        )
    };
    (number, count)
}

/// The number, and the byte count.
///
/// ```
/// use jermanuts::numbers;
///
/// # const G: &[u8] = include_bytes!(concat!(env!("CARGO_MANIFEST_DIR"), "/../../samples/g.table"));
/// let (mut session, mut out) = ([0; jermanuts::SESSION], [0; jermanuts::OUT]);
/// let mut work = [0; jermanuts::WORK];
/// numbers::begin(G, &mut session);
/// assert_eq!(numbers::step_in(G, &mut session, 7, &mut out, &mut work), (3, 0));
/// ```
pub fn step_in(
    file: &[u8],
    session: &mut [u8; SESSION],
    symbol: u8,
    out: &mut [u8],
    work: &mut [u8; WORK],
) -> (u32, usize) {
    let mut count = 0;
    // SAFETY: as in `step`; the work has its length by its type.
    let number = unsafe {
        jermanuts_step_in(
            file.as_ptr(),
            file.len(),
            session.as_mut_ptr(),
            symbol,
            out.as_mut_ptr(),
            out.len(),
            &mut count,
            work.as_mut_ptr(),
        )
    };
    (number, count)
}

/// The number, and the byte count.
///
/// ```
/// use jermanuts::numbers;
///
/// # const G: &[u8] = include_bytes!(concat!(env!("CARGO_MANIFEST_DIR"), "/../../samples/g.table"));
/// let (mut session, mut out) = ([0; jermanuts::SESSION], [0; jermanuts::OUT]);
/// numbers::begin(G, &mut session);
/// assert_eq!(numbers::finish(G, &session, &mut out), (12, 0));
/// ```
pub fn finish(file: &[u8], session: &[u8; SESSION], out: &mut [u8]) -> (u32, usize) {
    let mut count = 0;
    // SAFETY: as in `step`; the session is only read.
    let number = unsafe {
        jermanuts_finish(
            file.as_ptr(),
            file.len(),
            session.as_ptr(),
            out.as_mut_ptr(),
            out.len(),
            &mut count,
        )
    };
    (number, count)
}

/// The number, the table that is bad (1 or 2; 0 where none is), and the byte count.
///
/// ```
/// use jermanuts::numbers;
///
/// # const G: &[u8] = include_bytes!(concat!(env!("CARGO_MANIFEST_DIR"), "/../../samples/g.table"));
/// let mut out = [0; jermanuts::FILE];
/// assert_eq!(numbers::join(G, b"no rule file", &mut out), (1, 2, 0));
/// ```
pub fn join(first: &[u8], second: &[u8], out: &mut [u8]) -> (u32, u32, usize) {
    let mut which = 0;
    let mut count = 0;
    // SAFETY: three slices; `out`, `which` and `count` are borrowed for writing, so they overlap
    // nothing.
    let number = unsafe {
        jermanuts_join(
            first.as_ptr(),
            first.len(),
            second.as_ptr(),
            second.len(),
            out.as_mut_ptr(),
            out.len(),
            &mut which,
            &mut count,
        )
    };
    (number, which, count)
}

/// The number, the table that is bad (1 or 2; 0 where none is), and the byte count.
///
/// ```
/// use jermanuts::{numbers, JoinRoom};
///
/// # const G: &[u8] = include_bytes!(concat!(env!("CARGO_MANIFEST_DIR"), "/../../samples/g.table"));
/// let (mut out, mut room) = ([0; jermanuts::FILE], JoinRoom::new());
/// assert_eq!(numbers::join_in(G, b"no rule file", &mut out, &mut room), (1, 2, 0));
/// ```
pub fn join_in(
    first: &[u8],
    second: &[u8],
    out: &mut [u8],
    room: &mut JoinRoom,
) -> (u32, u32, usize) {
    let mut which = 0;
    let mut count = 0;
    // SAFETY: as in `join`; the parts of the room have their lengths by their types.
    let number = unsafe {
        jermanuts_join_in(
            first.as_ptr(),
            first.len(),
            second.as_ptr(),
            second.len(),
            out.as_mut_ptr(),
            out.len(),
            &mut which,
            &mut count,
            room.marks.as_mut_ptr(),
            room.rows.as_mut_ptr(),
            room.tape.as_mut_ptr(),
        )
    };
    (number, which, count)
}
