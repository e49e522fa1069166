//! A call writes what it says and nothing beside it; a refusal writes nothing.

use jermanuts::{Refusal, Session, Table, FILE, OUT, SESSION, WORK};

const G: &[u8] = include_bytes!("../../../samples/g.table");
const BRACKETS: &[u8] = include_bytes!("../../../samples/brackets.table");
const BRIDGE: &[u8] = include_bytes!("../../../samples/bridge.table");
const GUARD: usize = 64;

/// Bytes between two guards.
#[repr(C)]
struct Guarded<const N: usize> {
    before: [u8; GUARD],
    bytes: [u8; N],
    after: [u8; GUARD],
}

impl<const N: usize> Guarded<N> {
    fn new(fill: u8) -> Box<Guarded<N>> {
        Box::new(Guarded {
            before: [0xa7; GUARD],
            bytes: [fill; N],
            after: [0x5c; GUARD],
        })
    }

    fn holds(&self) -> bool {
        self.before == [0xa7; GUARD] && self.after == [0x5c; GUARD]
    }
}

#[test]
fn begin_writes_the_whole_session() {
    let table = Table::new(G).unwrap();
    let (mut one, mut two) = (Guarded::<SESSION>::new(0xff), Guarded::<SESSION>::new(0x00));
    assert_eq!(table.begin(&mut one.bytes).1, 1);
    assert_eq!(table.begin(&mut two.bytes).1, 1);
    assert!(one.bytes == two.bytes && one.holds() && two.holds());
}

#[test]
fn a_step_writes_what_it_sends() {
    let table = Table::new(G).unwrap();
    let mut room = Guarded::<SESSION>::new(0);
    let mut work = Guarded::<WORK>::new(0xee);
    let mut out = Guarded::<2>::new(0x33);
    let (mut session, _) = table.begin(&mut room.bytes);
    assert_eq!(
        session.step_in(10, &mut out.bytes, &mut work.bytes),
        Ok(&b"O"[..])
    );
    assert_eq!(out.bytes, [b'O', 0x33]);
    assert_eq!(session.step(11, &mut out.bytes), Ok(&b"K"[..]));
    assert_eq!(out.bytes, [b'K', 0x33]);
    assert!(room.holds() && work.holds() && out.holds());
}

#[test]
fn a_refused_step_writes_nothing() {
    let table = Table::new(G).unwrap();
    let (mut session, _) = table.begin([0; SESSION]);
    let fresh = *session.bytes();
    let mut out = Guarded::<OUT>::new(0x33);
    for (symbol, room, refusal) in [
        (7, OUT, Refusal::UnknownSymbol),
        (11, OUT, Refusal::Unopened),
        (1, OUT, Refusal::NoRun),
        (10, 0, Refusal::NoRoom),
    ] {
        assert_eq!(session.step(symbol, &mut out.bytes[..room]), Err(refusal));
        let again = session.step_in(symbol, &mut out.bytes[..room], &mut [0; WORK]);
        assert_eq!(again, Err(refusal));
        assert!(*session.bytes() == fresh && out.bytes == [0x33; OUT] && out.holds());
    }
}

#[test]
fn a_session_that_is_not_sound_is_refused() {
    let table = Table::new(G).unwrap();
    let mut session = Session::resume(table, [9; SESSION]);
    let mut out = [0x33; OUT];
    assert_eq!(session.step(10, &mut out), Err(Refusal::BadSession));
    assert_eq!(session.finish(&mut out), Err(Refusal::BadSession));
    assert!(*session.bytes() == [9; SESSION] && out == [0x33; OUT]);
}

#[test]
fn join_writes_the_file_alone() {
    let (first, second) = (Table::new(BRACKETS).unwrap(), Table::new(BRIDGE).unwrap());
    let mut out = Guarded::<FILE>::new(0x33);
    let joined = first.join(second, &mut out.bytes).unwrap();
    assert_eq!(Table::new(joined.file()), Ok(joined));
    assert_eq!(joined.file().len(), 320);
    assert!(out.bytes[320..].iter().all(|&byte| byte == 0x33) && out.holds());
}

#[test]
fn a_refused_join_writes_nothing() {
    let (first, second) = (Table::new(BRACKETS).unwrap(), Table::new(BRIDGE).unwrap());
    let mut out = Guarded::<FILE>::new(0x33);
    assert_eq!(
        first.join(second, &mut out.bytes[..319]),
        Err(Refusal::NoRoom)
    );
    assert_eq!(second.join(first, &mut out.bytes), Err(Refusal::NotNested));
    assert!(out.bytes == [0x33; FILE] && out.holds());
}
