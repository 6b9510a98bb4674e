//! Why a call failed.

use crate::words::{Cause, Node, Refusal, TxnNumber};
use std::fmt;

/// Why a call failed.
#[derive(Clone, Debug, PartialEq, Eq)]
#[non_exhaustive]
pub enum Error {
    /// The tree text has a fault: its line.
    BadTree(String),
    /// The tree has no table, type or node of this name.
    NoSuchName(String),
    /// All 32 sessions of the store are taken.
    NoSession,
    /// The session is one of another store.
    OtherStore,
    /// The request has to wait for the transaction `who` at `node`, and nothing has changed: call again.
    Again {
        who: TxnNumber,
        node: Node,
    },
    /// The transaction was aborted, and is over.
    Aborted(Cause),
    /// The request cannot be answered. Its transaction, if it has one, was aborted, and is over.
    Refused(Refusal),
    /// The transaction is over.
    Over,
    /// The printed run is wrong at this line, counted from 1.
    BadRun {
        line: u32,
        why: RunFault,
    },
    /// The text has 2^32 - 1 bytes or more, or the file more than 67,108,864.
    TooLong,
    /// The tables of the tree are not those of the store.
    OtherTables,
    /// A transaction is unfinished.
    Unfinished(TxnNumber),
    /// A session, by its number, was not told that its transaction was aborted.
    Untold(u8),
    /// Memory is out. Nothing was asked, and nothing has changed.
    OutOfMemory,
    /// The file is open as a store already, in this process or another.
    Busy,
    /// The file cannot be opened, read or written: the number of the system's error.
    Io(i32),
    /// The file is no store, or a damaged one, at this byte.
    Damaged {
        place: u64,
    },
    /// The file has a store of another capacity.
    OtherCapacity,
    /// The commit does not fit what is left of its epoch, or the rows do not fit the file. Nothing has changed. After a commit
    /// [`Store::next_epoch`](crate::Store::next_epoch) makes room, unless the rows alone fill their half of the file: see
    /// [`Store::left`](crate::Store::left).
    NoRoom,
    /// A call on the file failed. The file may have this commit, or the new epoch, or not, and the store is stopped. What the store still
    /// tells, its rows among it, has the commit: open the file anew to see what the file has.
    /// [`Store::stopped_by`](crate::Store::stopped_by) says why.
    Unsure,
    /// A call on the file has failed earlier. Open the file anew: it has every commit that was told.
    Stopped,
}

/// What a line of a printed run breaks.
#[derive(Clone, Copy, Debug, PartialEq, Eq)]
pub enum RunFault {
    /// It is no line of a printed run, or not at this place.
    Form,
    /// It is an event that its transaction cannot have here: it has not begun, or has finished.
    Txn,
    /// The order does not list each committed transaction once.
    Order,
    /// A transaction commits before one that it read from.
    After,
    /// A committed transaction read another value than in the serial run.
    Read,
    /// The rows are not those of the serial run.
    Row,
}

impl fmt::Display for Error {
    fn fmt(&self, f: &mut fmt::Formatter<'_>) -> fmt::Result {
        match self {
            Error::BadTree(line) => f.write_str(line),
            Error::NoSuchName(name) => write!(f, "the tree has no {name}"),
            Error::NoSession => f.write_str("all 32 sessions are taken"),
            Error::OtherStore => f.write_str("the session is one of another store"),
            Error::Again { who, node } => {
                write!(
                    f,
                    "has to wait for transaction {} at node {}",
                    who.0, node.0
                )
            }
            Error::Aborted(cause) => write!(f, "aborted: {cause:?}"),
            Error::Refused(why) => write!(f, "refused: {why:?}"),
            Error::Over => f.write_str("the transaction is over"),
            Error::BadRun { line, why } => write!(f, "line {line} is wrong: {why:?}"),
            Error::TooLong => f.write_str("the text is too long"),
            Error::OtherTables => f.write_str("the tree has other tables than the store"),
            Error::Unfinished(txn) => write!(f, "transaction {} is unfinished", txn.0),
            Error::Untold(session) => write!(f, "session {session} was not told of its abort"),
            Error::OutOfMemory => f.write_str("out of memory"),
            Error::Busy => f.write_str("the file is open as a store already"),
            Error::Io(number) => write!(f, "{}", std::io::Error::from_raw_os_error(*number)),
            Error::Damaged { place } => write!(f, "the file is damaged at byte {place}"),
            Error::OtherCapacity => f.write_str("the file has a store of another capacity"),
            Error::NoRoom => f.write_str("it does not fit the file"),
            Error::Unsure => f.write_str("a call on the file failed: it may have this or not"),
            Error::Stopped => f.write_str("a call on the file has failed"),
        }
    }
}

impl std::error::Error for Error {}
