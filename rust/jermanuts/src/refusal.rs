use core::error::Error;
use core::fmt::{self, Display, Formatter};

/// Why a call did not do what was asked, by the number that the library gives back. A refusal
/// changes nothing.
///
/// ```
/// use jermanuts::Refusal;
///
/// assert_eq!(Refusal::Unopened.number(), 4);
/// assert_eq!(Refusal::Unopened.to_string(), "Unopened: a return at depth 0");
/// ```
#[derive(Clone, Copy, Debug, PartialEq, Eq, Hash)]
pub enum Refusal {
    /// 1: the rule file breaks a rule.
    BadTable = 1,
    /// 2: the session is not sound for its table.
    BadSession = 2,
    /// 3: the symbol has class 0.
    UnknownSymbol = 3,
    /// 4: a return at depth 0.
    Unopened = 4,
    /// 5: a call at the depth cap.
    TooDeep = 5,
    /// 6: no run can take the symbol.
    NoRun = 6,
    /// 7: more than 64 links would follow.
    Crowded = 7,
    /// 8: two runs would have one trail and different outputs.
    Conflict = 8,
    /// 9: after sending, some run would have more waiting than the cap.
    Backlog = 9,
    /// 10: the lent output is too short for what must be written.
    NoRoom = 10,
    /// 11: finish above depth 0.
    Unclosed = 11,
    /// 12: finish, no run in a final state.
    NotFinal = 12,
    /// 13: finish, two accepting runs differ in output.
    Ambiguous = 13,
    /// 14: joining, words of the first table don't nest by the classes of the second.
    NotNested = 14,
    /// 15: joining, a word of the first table or the joined table is over a limit.
    TooLarge = 15,
}

impl Refusal {
    /// Every refusal, in the order of their numbers.
    ///
    /// ```
    /// use jermanuts::Refusal;
    ///
    /// let numbers: Vec<u32> = Refusal::ALL.iter().map(|refusal| refusal.number()).collect();
    /// assert_eq!(numbers, (1..=15).collect::<Vec<u32>>());
    /// ```
    pub const ALL: [Refusal; 15] = [
        Refusal::BadTable,
        Refusal::BadSession,
        Refusal::UnknownSymbol,
        Refusal::Unopened,
        Refusal::TooDeep,
        Refusal::NoRun,
        Refusal::Crowded,
        Refusal::Conflict,
        Refusal::Backlog,
        Refusal::NoRoom,
        Refusal::Unclosed,
        Refusal::NotFinal,
        Refusal::Ambiguous,
        Refusal::NotNested,
        Refusal::TooLarge,
    ];

    /// The number that the library gives back, 1 to 15.
    ///
    /// ```
    /// assert_eq!(jermanuts::Refusal::NoRoom.number(), 10);
    /// ```
    pub fn number(self) -> u32 {
        self as u32
    }

    /// What the library's answer means: 0 is no refusal, and no answer is over 15.
    pub(crate) fn told(number: u32) -> Result<(), Refusal> {
        match number {
            0 => Ok(()),
            n => Err(Refusal::ALL[n as usize - 1]),
        }
    }

    fn sentence(self) -> &'static str {
        match self {
            Refusal::BadTable => "the rule file breaks a rule",
            Refusal::BadSession => "the session is not sound for its table",
            Refusal::UnknownSymbol => "the symbol has class 0",
            Refusal::Unopened => "a return at depth 0",
            Refusal::TooDeep => "a call at the depth cap",
            Refusal::NoRun => "no run can take the symbol",
            Refusal::Crowded => "more than 64 links would follow",
            Refusal::Conflict => "two runs would have one trail and different outputs",
            Refusal::Backlog => "after sending, some run would have more waiting than the cap",
            Refusal::NoRoom => "the lent output is too short for what must be written",
            Refusal::Unclosed => "finish above depth 0",
            Refusal::NotFinal => "finish, no run in a final state",
            Refusal::Ambiguous => "finish, two accepting runs differ in output",
            Refusal::NotNested => {
                "words of the first table don't nest by the classes of the second"
            }
            Refusal::TooLarge => "a word of the first table or the joined table is over a limit",
        }
    }
}

impl Display for Refusal {
    fn fmt(&self, f: &mut Formatter<'_>) -> fmt::Result {
        write!(f, "{self:?}: {}", self.sentence())
    }
}

impl Error for Refusal {}
