//! Tebaldi, a proved transactional key-value store of whole numbers, for Rust.
//!
//! A [`Store`] is opened from a tree text, which says how each type of transaction is controlled. A [`Session`] runs transactions:
//! [`Store::run`] waits, starts over after an abort, and commits; [`Session::begin`] leaves that to its caller.
//!
//! ```
//! let store = tebaldi::Store::open("")?;
//! let (t, any) = (store.table("t")?, store.kind("any")?);
//! let mut session = store.session()?;
//! let sum = store.run(&mut session, any, |txn| {
//!     txn.write(t, 1, 5)?;
//!     txn.add(t, 1, 2)?;
//!     txn.read(t, 1)
//! })?;
//! assert_eq!(sum, Some(7));
//! # Ok::<(), tebaldi::Error>(())
//! ```
//!
//! What the store answers is proved in its own language. This wrapper is not: it keeps the library's rules for callers by its types
//! and a lock.

mod error;
mod ffi;
mod session;
mod store;
mod words;

pub use error::{Error, RunFault};
pub use session::{Limits, Session, Txn};
pub use store::{audit, version, Store};
pub use words::{Cause, Cell, Event, Kind, Node, Refusal, Reply, Request, Table, TxnNumber};
