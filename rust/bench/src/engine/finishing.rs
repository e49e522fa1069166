//! The end of a message.

use super::session::{read, Links, SESSION};
use super::table::check;
use super::{AMBIGUOUS, BAD_SESSION, BAD_TABLE, NOT_FINAL, NO_ROOM, TAKEN, UNCLOSED};

pub fn finish(file: &[u8], session: &[u8; SESSION], out: &mut [u8]) -> (u32, usize) {
    let Some(table) = check(file) else {
        return (BAD_TABLE, 0);
    };
    let mut links = Links::new();
    if !read(&table, session, &mut links) {
        return (BAD_SESSION, 0);
    }
    if links.depth > 0 {
        return (UNCLOSED, 0);
    }
    let mut accepting = (0..links.count)
        .filter(|&i| table.finals >> links.pairs[usize::from(links.pair_of[i])][0] & 1 == 1)
        .map(|i| links.piece(session, i));
    let Some(waiting) = accepting.next() else {
        return (NOT_FINAL, 0);
    };
    if accepting.any(|other| other != waiting) {
        return (AMBIGUOUS, 0);
    }
    let Some(room) = out.get_mut(..waiting.len()) else {
        return (NO_ROOM, 0);
    };
    room.copy_from_slice(waiting);
    (TAKEN, waiting.len())
}
