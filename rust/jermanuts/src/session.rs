use core::borrow::BorrowMut;
use core::fmt::{self, Debug, Formatter};

use crate::{numbers, Refusal, Table, SESSION, WORK};

/// A message being rewritten: its table, and a room of [`SESSION`] bytes. [`Table::begin`] makes
/// one.
///
/// It holds its table, so that no symbol can be taken under another table by accident. `R` is where
/// the bytes are: a room that is lent, a box, or the array itself.
///
/// ```
/// use jermanuts::{Refusal, Table, OUT, SESSION};
///
/// # const G: &[u8] = include_bytes!(concat!(env!("CARGO_MANIFEST_DIR"), "/../../samples/g.table"));
/// let mut room = [0; SESSION];
/// let (mut session, _) = Table::new(G)?.begin(&mut room);
/// let mut out = [0; OUT];
/// assert_eq!(session.step(10, &mut out)?, b"O"); // `OK` or `ON`: what both begin with is sent
/// assert_eq!(session.step(1, &mut out)?, b"");
/// assert_eq!(session.step(11, &mut out)?, b"Kp"); // it was `OK`
/// assert_eq!(session.finish(&mut out)?, b"");
/// # Ok::<(), Refusal>(())
/// ```
#[derive(Clone)]
pub struct Session<'t, R> {
    table: Table<'t>,
    room: R,
}

impl<'t, R: BorrowMut<[u8; SESSION]>> Session<'t, R> {
    /// Goes on with a session that was kept, under the table that it was begun with. Bytes that no
    /// session of the table can have are refused by the next call ([`Refusal::BadSession`]); a
    /// sound session of another table is not noticed.
    ///
    /// ```
    /// use jermanuts::{Refusal, Session, Table, OUT, SESSION};
    ///
    /// # const G: &[u8] = include_bytes!(concat!(env!("CARGO_MANIFEST_DIR"), "/../../samples/g.table"));
    /// let table = Table::new(G)?;
    /// let (mut session, _) = table.begin([0; SESSION]);
    /// session.step(10, &mut [0; OUT])?;
    /// let kept: [u8; SESSION] = *session.bytes();
    ///
    /// let mut again = Session::resume(table, kept);
    /// assert_eq!(again.step(12, &mut [0; OUT])?, b"N");
    /// assert_eq!(
    ///     Session::resume(table, [7; SESSION]).step(12, &mut [0; OUT]),
    ///     Err(Refusal::BadSession)
    /// );
    /// # Ok::<(), Refusal>(())
    /// ```
    pub fn resume(table: Table<'t>, room: R) -> Session<'t, R> {
        Session { table, room }
    }

    /// The table that the session was begun with.
    ///
    /// ```
    /// # use jermanuts::{Refusal, Table, SESSION};
    /// # const G: &[u8] = include_bytes!(concat!(env!("CARGO_MANIFEST_DIR"), "/../../samples/g.table"));
    /// let table = Table::new(G)?;
    /// assert_eq!(table.begin([0; SESSION]).0.table(), table);
    /// # Ok::<(), Refusal>(())
    /// ```
    pub fn table(&self) -> Table<'t> {
        self.table
    }

    /// The session as bytes, to be kept and resumed. Equal sessions have equal bytes.
    ///
    /// ```
    /// # use jermanuts::{Refusal, Table, SESSION};
    /// # const G: &[u8] = include_bytes!(concat!(env!("CARGO_MANIFEST_DIR"), "/../../samples/g.table"));
    /// let (fresh, _) = Table::new(G)?.begin([0; SESSION]);
    /// let (other, _) = Table::new(G)?.begin([7; SESSION]);
    /// assert_eq!(fresh.bytes(), other.bytes());
    /// # Ok::<(), Refusal>(())
    /// ```
    pub fn bytes(&self) -> &[u8; SESSION] {
        self.room.borrow()
    }

    /// Takes one symbol and gives what is sent: what all runs agree on and was not sent before,
    /// written to the start of `out`. [`OUT`](crate::OUT) bytes always suffice. A refused symbol
    /// was not taken, and the next may be tried.
    ///
    /// Refusals, the first that applies: those from [`BadSession`](Refusal::BadSession) to
    /// [`NoRoom`](Refusal::NoRoom). About 52 KB of stack are used: [`step_in`](Session::step_in)
    /// uses 3.
    ///
    /// ```
    /// use jermanuts::{Refusal, Table, OUT, SESSION};
    ///
    /// # const G: &[u8] = include_bytes!(concat!(env!("CARGO_MANIFEST_DIR"), "/../../samples/g.table"));
    /// let (mut session, _) = Table::new(G)?.begin([0; SESSION]);
    /// let mut out = [0; OUT];
    /// assert_eq!(session.step(11, &mut out), Err(Refusal::Unopened));
    /// assert_eq!(session.step(10, &mut []), Err(Refusal::NoRoom));
    /// assert_eq!(session.step(10, &mut out)?, b"O");
    /// # Ok::<(), Refusal>(())
    /// ```
    pub fn step<'o>(&mut self, symbol: u8, out: &'o mut [u8]) -> Result<&'o [u8], Refusal> {
        let (number, count) = numbers::step(self.table.file(), self.room.borrow_mut(), symbol, out);
        Refusal::told(number).map(|()| &out[..count])
    }

    /// The same as [`step`](Session::step) in a room that is lent, whatever it holds.
    ///
    /// ```
    /// use jermanuts::{Refusal, Table, OUT, SESSION, WORK};
    ///
    /// # const G: &[u8] = include_bytes!(concat!(env!("CARGO_MANIFEST_DIR"), "/../../samples/g.table"));
    /// let (mut session, _) = Table::new(G)?.begin([0; SESSION]);
    /// let (mut out, mut work) = ([0; OUT], [0; WORK]);
    /// assert_eq!(session.step_in(10, &mut out, &mut work)?, b"O");
    /// assert_eq!(session.step_in(12, &mut out, &mut work)?, b"N");
    /// # Ok::<(), Refusal>(())
    /// ```
    pub fn step_in<'o>(
        &mut self,
        symbol: u8,
        out: &'o mut [u8],
        work: &mut [u8; WORK],
    ) -> Result<&'o [u8], Refusal> {
        let session = self.room.borrow_mut();
        let (number, count) = numbers::step_in(self.table.file(), session, symbol, out, work);
        Refusal::told(number).map(|()| &out[..count])
    }

    /// Asks whether the message may end here, and gives what still waits, written to the start of
    /// `out`. The session doesn't change: asking twice gives the same, and symbols may follow.
    ///
    /// Refusals, the first that applies: [`BadSession`](Refusal::BadSession),
    /// [`Unclosed`](Refusal::Unclosed), [`NotFinal`](Refusal::NotFinal),
    /// [`Ambiguous`](Refusal::Ambiguous), [`NoRoom`](Refusal::NoRoom).
    ///
    /// ```
    /// use jermanuts::{Refusal, Table, OUT, SESSION};
    ///
    /// # const G: &[u8] = include_bytes!(concat!(env!("CARGO_MANIFEST_DIR"), "/../../samples/g.table"));
    /// let (mut session, _) = Table::new(G)?.begin([0; SESSION]);
    /// let mut out = [0; OUT];
    /// assert_eq!(session.finish(&mut out), Err(Refusal::NotFinal));
    /// session.step(10, &mut out)?;
    /// assert_eq!(session.finish(&mut out), Err(Refusal::Unclosed));
    /// session.step(11, &mut out)?;
    /// assert_eq!(session.finish(&mut out)?, b"");
    /// # Ok::<(), Refusal>(())
    /// ```
    pub fn finish<'o>(&self, out: &'o mut [u8]) -> Result<&'o [u8], Refusal> {
        let (number, count) = numbers::finish(self.table.file(), self.room.borrow(), out);
        Refusal::told(number).map(|()| &out[..count])
    }
}

impl<R> Debug for Session<'_, R> {
    fn fmt(&self, f: &mut Formatter<'_>) -> fmt::Result {
        f.debug_struct("Session")
            .field("table", &self.table)
            .finish_non_exhaustive()
    }
}
