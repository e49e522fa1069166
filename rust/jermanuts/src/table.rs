use core::borrow::BorrowMut;
use core::fmt::{self, Debug, Formatter};

use crate::{numbers, JoinRoom, Refusal, Session, SESSION};

/// A rule file that was checked and keeps every rule. It borrows the file, and copies are cheap.
///
/// ```
/// use jermanuts::{Refusal, Table};
///
/// # const G: &[u8] = include_bytes!(concat!(env!("CARGO_MANIFEST_DIR"), "/../../samples/g.table"));
/// // const G: &[u8] = include_bytes!("g.table");
/// let table = Table::new(G)?;
/// assert_eq!(table.file(), G);
/// # Ok::<(), Refusal>(())
/// ```
#[derive(Clone, Copy, PartialEq, Eq)]
pub struct Table<'a> {
    file: &'a [u8],
}

impl<'a> Table<'a> {
    /// Checks a rule file. [`Refusal::BadTable`] exactly where it breaks a rule.
    ///
    /// ```
    /// use jermanuts::{Refusal, Table};
    ///
    /// assert_eq!(Table::new(b"no rule file"), Err(Refusal::BadTable));
    /// ```
    pub fn new(file: &'a [u8]) -> Result<Table<'a>, Refusal> {
        Refusal::told(numbers::check(file))?;
        Ok(Table { file })
    }

    /// The rule file.
    ///
    /// ```
    /// # use jermanuts::{Refusal, Table};
    /// # const G: &[u8] = include_bytes!(concat!(env!("CARGO_MANIFEST_DIR"), "/../../samples/g.table"));
    /// assert_eq!(Table::new(G)?.file().len(), 354);
    /// # Ok::<(), Refusal>(())
    /// ```
    pub fn file(self) -> &'a [u8] {
        self.file
    }

    /// A fresh session of this table in a room that is lent (`&mut [u8; SESSION]`) or given
    /// (`Box<[u8; SESSION]>`, or the array itself), whatever it holds; and the number of the
    /// table's starting states.
    ///
    /// ```
    /// use jermanuts::{Refusal, Table, SESSION};
    ///
    /// # const G: &[u8] = include_bytes!(concat!(env!("CARGO_MANIFEST_DIR"), "/../../samples/g.table"));
    /// let table = Table::new(G)?;
    /// let mut room = [0; SESSION];
    /// let (_lent, states) = table.begin(&mut room);
    /// assert_eq!(states, 1);
    /// let (_owned, _) = table.begin(Box::new([0; SESSION]));
    /// # Ok::<(), Refusal>(())
    /// ```
    pub fn begin<R: BorrowMut<[u8; SESSION]>>(self, mut room: R) -> (Session<'a, R>, u32) {
        let (number, states) = numbers::begin(self.file, room.borrow_mut());
        debug_assert_eq!(number, 0, "the file was checked");
        (Session::resume(self, room), states)
    }

    /// Joins this table and a second: writes the rule file of a table that allows exactly what the
    /// second allows on some output of this one, and gives that table. `out` of
    /// [`FILE`](crate::FILE) bytes always suffices.
    ///
    /// Refusals, the first that applies: [`NotNested`](Refusal::NotNested),
    /// [`TooLarge`](Refusal::TooLarge), [`NoRoom`](Refusal::NoRoom). Time can grow steeply where
    /// the second table branches.
    ///
    /// ```
    /// use jermanuts::{Refusal, Table, FILE, OUT, SESSION};
    ///
    /// # const BRACKETS: &[u8] =
    /// #     include_bytes!(concat!(env!("CARGO_MANIFEST_DIR"), "/../../samples/brackets.table"));
    /// # const BRIDGE: &[u8] =
    /// #     include_bytes!(concat!(env!("CARGO_MANIFEST_DIR"), "/../../samples/bridge.table"));
    /// // `(` writes `[{` and `)` writes `}]`; then `[`, `{`, `}`, `]` write `a`, `b`, `c`, `d`.
    /// let (brackets, bridge) = (Table::new(BRACKETS)?, Table::new(BRIDGE)?);
    /// let mut file = [0; FILE];
    /// let joined = brackets.join(bridge, &mut file)?;
    /// assert_eq!(joined.file().len(), 320);
    ///
    /// let (mut session, _) = joined.begin([0; SESSION]);
    /// let mut out = [0; OUT];
    /// assert_eq!(session.step(b'(', &mut out)?, b"ab");
    /// assert_eq!(session.step(b')', &mut out)?, b"cd");
    ///
    /// assert_eq!(bridge.join(brackets, &mut [0; FILE]), Err(Refusal::NotNested));
    /// # Ok::<(), Refusal>(())
    /// ```
    pub fn join<'o>(self, second: Table<'_>, out: &'o mut [u8]) -> Result<Table<'o>, Refusal> {
        let (number, _, count) = numbers::join(self.file, second.file, out);
        Refusal::told(number)?;
        // What join writes is a good file: proved, so not checked again.
        Ok(Table {
            file: &out[..count],
        })
    }

    /// The same in a room that is lent, for stacks that are small.
    ///
    /// # Errors
    ///
    /// As [`join`](Table::join).
    ///
    /// ```
    /// use jermanuts::{JoinRoom, Refusal, Table, FILE};
    ///
    /// # const BRACKETS: &[u8] =
    /// #     include_bytes!(concat!(env!("CARGO_MANIFEST_DIR"), "/../../samples/brackets.table"));
    /// # const BRIDGE: &[u8] =
    /// #     include_bytes!(concat!(env!("CARGO_MANIFEST_DIR"), "/../../samples/bridge.table"));
    /// let (brackets, bridge) = (Table::new(BRACKETS)?, Table::new(BRIDGE)?);
    /// let (mut file, mut room) = ([0; FILE], JoinRoom::new());
    /// let joined = brackets.join_in(bridge, &mut file, &mut room)?;
    /// assert_eq!(joined.file().len(), 320);
    /// # Ok::<(), Refusal>(())
    /// ```
    pub fn join_in<'o>(
        self,
        second: Table<'_>,
        out: &'o mut [u8],
        room: &mut JoinRoom,
    ) -> Result<Table<'o>, Refusal> {
        let (number, _, count) = numbers::join_in(self.file, second.file, out, room);
        Refusal::told(number)?;
        // What join writes is a good file: proved, so not checked again.
        Ok(Table {
            file: &out[..count],
        })
    }
}

impl Debug for Table<'_> {
    fn fmt(&self, f: &mut Formatter<'_>) -> fmt::Result {
        write!(f, "Table({} bytes)", self.file.len())
    }
}
