//! Sessions and their transactions.

use crate::error::Error;
use crate::store::Store;
use crate::words::{Cell, Kind, Reply, Request, Table, TxnNumber};
use std::fmt;
use std::time::{Duration, Instant};

/// How often [`Session::run`] starts over, and how long one of its requests waits.
#[derive(Clone, Copy, Debug, PartialEq, Eq)]
pub struct Limits {
    /// The number of times that the transaction is started, at least 1. 100 by default.
    pub attempts: u32,
    /// How long a request sleeps while the answer is to ask again. 10 seconds by default; `Duration::MAX` has no end.
    pub wait: Duration,
}

impl Default for Limits {
    fn default() -> Limits {
        Limits {
            attempts: 100,
            wait: Duration::from_secs(10),
        }
    }
}

/// A session of a store, which runs one transaction at a time. It is given back to the store when it is dropped.
pub struct Session {
    store: Store,
    number: u8,
    limits: Limits,
}

impl fmt::Debug for Session {
    fn fmt(&self, f: &mut fmt::Formatter<'_>) -> fmt::Result {
        f.debug_struct("Session")
            .field("number", &self.number)
            .field("limits", &self.limits)
            .finish_non_exhaustive()
    }
}

impl Drop for Session {
    fn drop(&mut self) {
        self.store.shared.give_back(self.number);
    }
}

impl Session {
    pub(crate) fn new(store: Store, number: u8) -> Session {
        Session {
            store,
            number,
            limits: Limits::default(),
        }
    }

    /// The session's number, 1 to 32.
    pub fn number(&self) -> u8 {
        self.number
    }

    /// The store that the session is of.
    pub fn store(&self) -> &Store {
        &self.store
    }

    /// Sets the limits of `run`.
    pub fn set_limits(&mut self, limits: Limits) {
        self.limits = limits;
    }

    /// Begins a transaction. Its calls do not wait: they return [`Error::Again`].
    ///
    /// # Errors
    /// [`Error::Again`], [`Error::Refused`], [`Error::OutOfMemory`]; of a store in a file also
    /// [`Error::Stopped`]. [`Error::Aborted`] if [`Store::ask`] has begun a transaction in
    /// this session that was aborted, and the session was not told of that: nothing is begun, and the next call begins.
    ///
    /// ```
    /// let store = tebaldi::Store::open("")?;
    /// let (t, any) = (store.table("t")?, store.kind("any")?);
    /// let (mut first, mut second) = (store.session()?, store.session()?);
    /// let (mut older, mut newer) = (first.begin(any)?, second.begin(any)?);
    /// older.read(t, 7)?;
    /// assert!(matches!(newer.write(t, 7, 4), Err(tebaldi::Error::Again { .. })));
    /// older.commit()?;
    /// newer.write(t, 7, 4)?;
    /// newer.commit()?;
    /// # Ok::<(), tebaldi::Error>(())
    /// ```
    pub fn begin(&mut self, kind: Kind) -> Result<Txn<'_>, Error> {
        self.begin_at(kind, 0)
    }

    /// Begins a transaction with an instance, which says in which leaf of its type it runs.
    ///
    /// # Errors
    /// Those of [`Session::begin`].
    pub fn begin_at(&mut self, kind: Kind, instance: u32) -> Result<Txn<'_>, Error> {
        Txn::begin(self, kind, instance, None)
    }

    /// Runs a transaction and commits it. While the answer to a request is to ask again, the session sleeps until another session
    /// has changed something. After an abort the body is called anew, in a new transaction, so it does nothing that may not happen twice. If
    /// the body returns an error and its transaction is not over, the transaction is aborted and the error is returned. If the body returns
    /// `Ok` after a call by which its transaction is over, nothing is committed: after an abort it is called anew, and after a refusal
    /// [`Error::Refused`] is returned.
    ///
    /// # Errors
    /// [`Error::Again`] if a request waited longer than [`Limits::wait`], and [`Error::Aborted`] if the last of
    /// [`Limits::attempts`] was aborted; [`Error::Refused`], [`Error::OutOfMemory`]; of a store in a file also [`Error::NoRoom`],
    /// [`Error::Unsure`] and [`Error::Stopped`]; and those of the body.
    pub fn run<T, E: From<Error>>(
        &mut self,
        kind: Kind,
        body: impl FnMut(&mut Txn<'_>) -> Result<T, E>,
    ) -> Result<T, E> {
        self.run_at(kind, 0, body)
    }

    /// The same with an instance.
    ///
    /// # Errors
    /// Those of [`Session::run`].
    pub fn run_at<T, E: From<Error>>(
        &mut self,
        kind: Kind,
        instance: u32,
        mut body: impl FnMut(&mut Txn<'_>) -> Result<T, E>,
    ) -> Result<T, E> {
        let Limits { attempts, wait } = self.limits;
        for attempt in 1.. {
            let mut txn = match Txn::begin(self, kind, instance, Some(wait)) {
                Err(Error::Aborted(_)) if attempt < attempts => continue,
                begun => begun?,
            };
            let done = match body(&mut txn) {
                Ok(value) => match txn.commit() {
                    Ok(()) => Ok(value),
                    Err(Error::Over) => match txn.ended_by.clone() {
                        // (the body has committed it by itself)
                        None => Ok(value),
                        Some(error) => Err(error.into()),
                    },
                    Err(error) => Err(error.into()),
                },
                Err(error) => Err(error),
            };
            let was_aborted = matches!(txn.ended_by, Some(Error::Aborted(_)));
            if done.is_ok() || !was_aborted || attempt >= attempts {
                return done;
            }
        }
        unreachable!()
    }
}

/// A transaction. One that is dropped before it is over is aborted; if memory is out then, before its session begins the next one.
///
/// Each call returns [`Error::Again`] if it has to wait (in [`Session::run`] only after it has slept as long as it may): nothing
/// has changed, and the same call may be made again. At [`Error::Aborted`] and [`Error::Refused`] the transaction is over, and all
/// later calls return [`Error::Over`]. [`Error::OutOfMemory`] changes nothing either. Of a store in a file each call may also return
/// [`Error::Stopped`], and a commit [`Error::NoRoom`], at which nothing has changed, and [`Error::Unsure`].
pub struct Txn<'a> {
    session: &'a mut Session,
    number: TxnNumber,
    wait: Option<Duration>,
    is_over: bool,
    /// The abort or the refusal by which it is over.
    ended_by: Option<Error>,
}

impl fmt::Debug for Txn<'_> {
    fn fmt(&self, f: &mut fmt::Formatter<'_>) -> fmt::Result {
        f.debug_struct("Txn")
            .field("number", &self.number)
            .field("is_over", &self.is_over)
            .finish_non_exhaustive()
    }
}

impl Drop for Txn<'_> {
    fn drop(&mut self) {
        if !self.is_over {
            self.session.store.shared.abort(self.session.number);
        }
    }
}

impl<'a> Txn<'a> {
    fn begin(
        session: &'a mut Session,
        kind: Kind,
        instance: u32,
        wait: Option<Duration>,
    ) -> Result<Txn<'a>, Error> {
        let mut txn = Txn {
            session,
            number: TxnNumber(0),
            wait,
            is_over: true,
            ended_by: None,
        };
        let session = &txn.session;
        session.store.shared.abort_left_open(session.number)?;
        match txn.reply(Request::Begin { kind, instance })? {
            Reply::Begun(number) => txn.number = number,
            Reply::Again { who, node } => return Err(Error::Again { who, node }),
            // (an earlier transaction of the session, of which it was not told)
            Reply::Aborted(cause) => return Err(Error::Aborted(cause)),
            Reply::Refused(why) => return Err(Error::Refused(why)),
            reply => unreachable!("a begin was answered {reply:?}"),
        }
        txn.is_over = false;
        Ok(txn)
    }

    /// The transaction's number.
    pub fn number(&self) -> TxnNumber {
        self.number
    }

    /// The value of a row, or `None` if there is no row.
    ///
    /// # Errors
    /// Those of [`Txn`].
    pub fn read(&mut self, table: Table, key: u32) -> Result<Option<i64>, Error> {
        match self.ask(Request::Read(Cell { table, key }))? {
            Reply::Value(value) => Ok(value),
            reply => unreachable!("a read was answered {reply:?}"),
        }
    }

    /// Writes a value to a row, which need not exist.
    ///
    /// # Errors
    /// Those of [`Txn`].
    pub fn write(&mut self, table: Table, key: u32, value: i64) -> Result<(), Error> {
        self.ask(Request::Write(Cell { table, key }, value))
            .map(drop)
    }

    /// Adds to the value that the transaction last wrote or read there; a row that is absent counts as 0.
    ///
    /// # Errors
    /// Those of [`Txn`].
    pub fn add(&mut self, table: Table, key: u32, by: i64) -> Result<(), Error> {
        self.ask(Request::Add(Cell { table, key }, by)).map(drop)
    }

    /// Deletes a row, which need not exist.
    ///
    /// # Errors
    /// Those of [`Txn`].
    pub fn delete(&mut self, table: Table, key: u32) -> Result<(), Error> {
        self.ask(Request::Delete(Cell { table, key })).map(drop)
    }

    /// The values of `count` rows, 1 to 16, with consecutive keys from `key` on.
    ///
    /// # Errors
    /// Those of [`Txn`].
    pub fn scan(&mut self, table: Table, key: u32, count: u8) -> Result<Vec<Option<i64>>, Error> {
        let cell = Cell { table, key };
        match self.ask(Request::Scan { cell, count })? {
            Reply::Values(values) => Ok(values),
            reply => unreachable!("a scan was answered {reply:?}"),
        }
    }

    /// Makes sure that the transaction can commit. It can then read and write no more.
    ///
    /// # Errors
    /// Those of [`Txn`].
    pub fn prepare(&mut self) -> Result<(), Error> {
        self.ask(Request::Prepare).map(drop)
    }

    /// Commits the transaction, which is then over.
    ///
    /// # Errors
    /// Those of [`Txn`].
    pub fn commit(&mut self) -> Result<(), Error> {
        self.ask(Request::Commit)?;
        self.is_over = true;
        Ok(())
    }

    /// Aborts the transaction, which is then over.
    pub fn abort(self) {}

    fn ask(&mut self, request: Request) -> Result<Reply, Error> {
        if self.is_over {
            return Err(Error::Over);
        }
        match self.reply(request)? {
            Reply::Again { who, node } => Err(Error::Again { who, node }),
            Reply::Aborted(cause) => Err(self.end_by(Error::Aborted(cause))),
            Reply::Refused(why) => {
                self.session.store.shared.abort(self.session.number);
                Err(self.end_by(Error::Refused(why)))
            }
            reply => Ok(reply),
        }
    }

    /// Keeps that the transaction is over by an error, and returns the error.
    fn end_by(&mut self, error: Error) -> Error {
        self.is_over = true;
        self.ended_by = Some(error.clone());
        error
    }

    fn reply(&mut self, request: Request) -> Result<Reply, Error> {
        let shared = &self.session.store.shared;
        match self.wait {
            None => shared.ask(self.session.number, request),
            Some(wait) => {
                let until = Instant::now().checked_add(wait);
                shared.ask_until(self.session.number, request, until)
            }
        }
    }
}
