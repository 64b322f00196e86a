//! What a call answers.

use crate::raw::Answered;
use std::error::Error;
use std::fmt;

/// Why a record was refused; `docs/HOSTS.md` says what a host does then. All memory is as before.
#[derive(Clone, Copy, PartialEq, Eq, Debug)]
#[repr(u8)]
pub enum Refusal {
    /// The lent memory can't be worked on.
    UnlawfulMemory = 1,
    /// The octets are no record.
    BadRecord = 2,
    /// The id is in use (`MB`) or unknown.
    WrongId = 3,
    /// Another mailbox has the name.
    NameHeld = 4,
    /// The UID is no new one (`ME`), no such message is there, or the counter is not above the mailbox's.
    WrongUid = 5,
    /// The mailbox can't be selected, is the selected one, or more was drained than the queue holds.
    WrongState = 6,
    /// The table of mailboxes or messages is full.
    TableFull = 7,
    /// A command's answer finds no room in the queue.
    NoRoom = 8,
}

impl Refusal {
    const ALL: [Refusal; 8] = [
        Refusal::UnlawfulMemory,
        Refusal::BadRecord,
        Refusal::WrongId,
        Refusal::NameHeld,
        Refusal::WrongUid,
        Refusal::WrongState,
        Refusal::TableFull,
        Refusal::NoRoom,
    ];

    /// The number that 01 gives it, 1 to 8.
    pub fn number(self) -> u8 {
        self as u8
    }

    fn reason(self) -> &'static str {
        match self {
            Refusal::UnlawfulMemory => "the lent memory can't be worked on",
            Refusal::BadRecord => "the octets are no record",
            Refusal::WrongId => "the id is in use or unknown",
            Refusal::NameHeld => "another mailbox has the name",
            Refusal::WrongUid => {
                "the UID is no new one or not there, or the counter is not above the mailbox's"
            }
            Refusal::WrongState => {
                "the mailbox can't be selected or is selected, or too much was drained"
            }
            Refusal::TableFull => "the table of mailboxes or messages is full",
            Refusal::NoRoom => "the command's answer finds no room in the queue",
        }
    }
}

impl fmt::Display for Refusal {
    fn fmt(&self, out: &mut fmt::Formatter<'_>) -> fmt::Result {
        write!(out, "refused with {}: {}", self.number(), self.reason())
    }
}

impl Error for Refusal {}

/// The answer of a call. A refused record has changed nothing, so a host must look.
#[derive(Clone, Copy, PartialEq, Eq, Debug)]
#[must_use = "a refused record has changed nothing"]
pub enum Answer {
    /// The record was taken in.
    Done,
    /// Of `CE`: so many lines are still owed to its class.
    Counted(u64),
    /// The record was refused, and all memory is as before.
    Refused(Refusal),
}

impl Answer {
    /// The refusal as an error, so that `?` hands it on. The count stays, where one is given.
    ///
    /// ```
    /// use borjavid::records::{command_ended, select, Class};
    /// use borjavid::{Memory, Refusal};
    ///
    /// /// How many lines are still owed at the end of a NOOP.
    /// fn ended(session: &mut Memory) -> Result<u64, Refusal> {
    ///     Ok(session.step(&command_ended(Class::Rest)).ok()?.unwrap_or(0))
    /// }
    ///
    /// let mut session = Memory::new(1024);
    /// assert_eq!(ended(&mut session), Ok(0));
    /// let refused = session.step(&select(7)).ok().unwrap_err();
    /// assert_eq!(refused.to_string(), "refused with 3: the id is in use or unknown");
    /// ```
    pub fn ok(self) -> Result<Option<u64>, Refusal> {
        match self {
            Answer::Done => Ok(None),
            Answer::Counted(count) => Ok(Some(count)),
            Answer::Refused(why) => Err(why),
        }
    }

    /// The refusal's number, 0 for none.
    pub fn number(self) -> u8 {
        self.ok().map_or_else(Refusal::number, |_| 0)
    }

    /// The count, where one is given.
    pub fn count(self) -> Option<u64> {
        self.ok().ok().flatten()
    }
}

impl From<Answered> for Answer {
    fn from(numbers: Answered) -> Answer {
        match (numbers.refusal, numbers.counted) {
            (0, 0) => Answer::Done,
            (0, _) => Answer::Counted(numbers.count),
            // the step's contract gives no number above 8
            (number, _) => Answer::Refused(Refusal::ALL[number as usize - 1]),
        }
    }
}
