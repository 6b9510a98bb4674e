//! A store that threads share.

use crate::error::{Error, RunFault};
use crate::ffi::{self, RawEvent, RawFile, RawFileState, RawReply, RawRow, NO_SUCH, OK};
use crate::session::{Session, Txn};
use crate::words::{cell, Cell, Event, Kind, Node, Reply, Request, Table, TxnNumber};
use std::ffi::CString;
use std::fmt;
use std::io;
use std::os::unix::ffi::OsStrExt;
use std::path::Path;
use std::sync::{Arc, Condvar, Mutex, MutexGuard, PoisonError};
use std::time::{Duration, Instant};

/// The number of the system for an argument that is none, here a path with a 0 in it.
const EINVAL: i32 = 22;

/// A store. Clones share it, also between threads: a lock admits one call at a time. A child process that `fork` makes does not use it.
///
/// ```
/// let store = tebaldi::Store::open("")?; // the blank tree: a table `t` and a type `any`
/// let (t, any) = (store.table("t")?, store.kind("any")?);
/// let mut session = store.session()?;
/// store.run(&mut session, any, |txn| {
///     let old = txn.read(t, 7)?.unwrap_or(0);
///     txn.write(t, 7, old + 4)
/// })?;
/// assert_eq!(store.rows()?, [(tebaldi::Cell { table: t, key: 7 }, 4)]);
/// # Ok::<(), tebaldi::Error>(())
/// ```
#[derive(Clone)]
pub struct Store {
    pub(crate) shared: Arc<Shared>,
}

pub(crate) struct Shared {
    state: Mutex<State>,
    /// Notified when `State::changes` grows.
    changed: Condvar,
}

struct State {
    raw: RawFile,
    /// The number of the system's error that has stopped the store.
    stopped_by: Option<i32>,
    taken: [bool; 32],
    /// Whether memory was out when a session's last transaction was to be aborted.
    left_open: [bool; 32],
    /// The number of calls so far that may let another session go on.
    changes: u64,
    waiters: u32,
}

impl fmt::Debug for Store {
    fn fmt(&self, f: &mut fmt::Formatter<'_>) -> fmt::Result {
        f.debug_struct("Store").finish_non_exhaustive()
    }
}

impl Drop for State {
    fn drop(&mut self) {
        // SAFETY: the store is not used after this call.
        unsafe { ffi::tebaldi_file_close(&mut self.raw) }
    }
}

impl Store {
    /// Opens the store of a tree text.
    ///
    /// # Errors
    /// [`Error::BadTree`], [`Error::OutOfMemory`].
    ///
    /// ```
    /// let fault = tebaldi::Store::open("format = 9").err();
    /// assert!(matches!(fault, Some(tebaldi::Error::BadTree(line)) if line.starts_with("bad tree: ")));
    /// ```
    pub fn open(tree: impl AsRef<[u8]>) -> Result<Store, Error> {
        let tree = tree.as_ref();
        let mut raw = RawFile::closed();
        let mut fault = [0; 256];
        let mut len = 0;
        // SAFETY: the store is closed, and each pointer is beside its length.
        let status = unsafe {
            ffi::tebaldi_open(
                &mut raw.store,
                tree.as_ptr(),
                tree.len(),
                fault.as_mut_ptr(),
                fault.len(),
                &mut len,
            )
        };
        match status {
            OK => Ok(Store::of(raw)),
            ffi::BAD_TREE => Err(Error::BadTree(text(&fault, len).trim_end().to_string())),
            _ => Err(error_of(status)),
        }
    }

    /// Opens the store that a file has, or makes the file. A commit is in the file before it is told: if the file keeps what was synced, it is
    /// there after a crash of the program or the system. Each commit waits for two syncs, and the other threads wait meanwhile. The file is
    /// locked until the last clone and the last session of the store are dropped. It is kept in memory too.
    ///
    /// The tree has the tables that the file has, in their order, and its rows count only if the file is new. Its controls may differ from the
    /// last ones. A file of at most 13 bytes counts as new, whatever they are.
    ///
    /// # Errors
    /// [`Error::BadTree`], [`Error::Busy`], [`Error::Io`], [`Error::TooLong`], [`Error::Damaged`], [`Error::OtherCapacity`],
    /// [`Error::OtherTables`], [`Error::NoRoom`], [`Error::OutOfMemory`].
    ///
    /// ```
    /// let path = std::env::temp_dir().join(format!("tebaldi-doc-{}", std::process::id()));
    /// # let _ = std::fs::remove_file(&path);
    /// let store = tebaldi::Store::open_file(&path, "")?;
    /// let (t, any) = (store.table("t")?, store.kind("any")?);
    /// store.run(&mut store.session()?, any, |txn| txn.write(t, 7, 4))?;
    /// assert_eq!(tebaldi::Store::open_file(&path, "").err(), Some(tebaldi::Error::Busy));
    /// drop(store);
    /// let again = tebaldi::Store::open_file(&path, "")?;
    /// assert_eq!(again.rows()?, [(tebaldi::Cell { table: t, key: 7 }, 4)]);
    /// # std::fs::remove_file(&path).unwrap();
    /// # Ok::<(), tebaldi::Error>(())
    /// ```
    pub fn open_file(path: impl AsRef<Path>, tree: impl AsRef<[u8]>) -> Result<Store, Error> {
        let path =
            CString::new(path.as_ref().as_os_str().as_bytes()).map_err(|_| Error::Io(EINVAL))?;
        let tree = tree.as_ref();
        let mut raw = RawFile::closed();
        let (mut fault, mut len, mut place) = ([0; 256], 0, 0);
        // SAFETY: the store is closed, the path ends with a 0, and each other pointer is beside its length.
        let status = unsafe {
            ffi::tebaldi_file_open(
                &mut raw,
                path.as_ptr(),
                tree.as_ptr(),
                tree.len(),
                fault.as_mut_ptr(),
                fault.len(),
                &mut len,
                &mut place,
            )
        };
        match status {
            OK => Ok(Store::of(raw)),
            ffi::BAD_TREE => Err(Error::BadTree(text(&fault, len).trim_end().to_string())),
            ffi::DAMAGED => Err(Error::Damaged { place }),
            _ => Err(error_of(status)),
        }
    }

    fn of(raw: RawFile) -> Store {
        let state = State {
            raw,
            stopped_by: None,
            taken: [false; 32],
            left_open: [false; 32],
            changes: 0,
            waiters: 0,
        };
        Store {
            shared: Arc::new(Shared {
                state: Mutex::new(state),
                changed: Condvar::new(),
            }),
        }
    }

    /// The number of commits of this epoch that are in the file, or `None` if the store has no file.
    pub fn kept(&self) -> Option<u64> {
        self.file_state().map(|file| file.kept)
    }

    /// The number of bytes that are left in the file for the commits of this epoch, or `None` if the store has no file. A commit needs 6, and
    /// 14 for each row that it puts. One that does not fit is answered [`Error::NoRoom`]: begin the next epoch. What is left at the beginning
    /// of an epoch grows only if rows are deleted.
    pub fn left(&self) -> Option<u64> {
        self.file_state().map(|file| file.left)
    }

    /// The number of the system's error by which a call on the file failed at [`Error::Unsure`]; `None` if none has.
    pub fn stopped_by(&self) -> Option<i32> {
        self.shared.lock().stopped_by
    }

    fn file_state(&self) -> Option<RawFileState> {
        let mut file = RawFileState::default();
        let mut state = self.shared.lock();
        // SAFETY: one call at a time, by the lock.
        let status = unsafe { ffi::tebaldi_file_state(&mut state.raw.store, &mut file) };
        (status == OK).then_some(file)
    }

    /// Ends the present epoch, and begins the next one with the rows that it leaves, under a tree text with the same tables, whose
    /// rows are not used. The history begins anew, and transactions count from 1 again. An epoch has room for 8,192 transactions.
    /// A [`Table`] keeps its number. Under another tree a [`Kind`] or a [`Node`] may have another one: ask for it anew.
    ///
    /// # Errors
    /// [`Error::BadTree`], [`Error::Unfinished`], [`Error::Untold`], [`Error::OtherTables`], [`Error::NoRoom`], [`Error::OutOfMemory`]. The
    /// store is unchanged. [`Error::Unsure`] and [`Error::Stopped`] of a store in a file: it is stopped, and the file has its rows.
    ///
    /// ```
    /// let store = tebaldi::Store::open("")?;
    /// let (t, any) = (store.table("t")?, store.kind("any")?);
    /// let mut session = store.session()?;
    /// store.run(&mut session, any, |txn| txn.write(t, 7, 4))?;
    /// store.next_epoch("")?;
    /// assert_eq!(store.run(&mut session, any, |txn| txn.read(t, 7))?, Some(4));
    /// assert_eq!(store.order()?, [tebaldi::TxnNumber(1)]);
    /// # Ok::<(), tebaldi::Error>(())
    /// ```
    pub fn next_epoch(&self, tree: impl AsRef<[u8]>) -> Result<(), Error> {
        let tree = tree.as_ref();
        let (mut fault, mut len, mut who) = ([0; 256], 0, 0);
        let mut state = self.shared.lock();
        // SAFETY: one call at a time, by the lock; each pointer is beside its length.
        let status = unsafe {
            ffi::tebaldi_file_next_epoch(
                &mut state.raw,
                tree.as_ptr(),
                tree.len(),
                fault.as_mut_ptr(),
                fault.len(),
                &mut len,
                &mut who,
            )
        };
        match status {
            OK => {
                self.shared.note_change(&mut state);
                Ok(())
            }
            ffi::BAD_TREE => Err(Error::BadTree(text(&fault, len).trim_end().to_string())),
            ffi::OTHER_TABLES => Err(Error::OtherTables),
            ffi::UNFINISHED => Err(Error::Unfinished(TxnNumber(who))),
            ffi::UNTOLD => Err(Error::Untold(who as u8)),
            _ => Err(self.shared.error_of(&mut state, status)),
        }
    }

    /// The table of a name.
    ///
    /// # Errors
    /// [`Error::NoSuchName`].
    pub fn table(&self, name: &str) -> Result<Table, Error> {
        self.number(ffi::TABLES, "table", name).map(Table)
    }

    /// The type of transactions of a name.
    ///
    /// # Errors
    /// [`Error::NoSuchName`].
    pub fn kind(&self, name: &str) -> Result<Kind, Error> {
        self.number(ffi::TYPES, "type", name).map(Kind)
    }

    /// The node of a name.
    ///
    /// # Errors
    /// [`Error::NoSuchName`].
    pub fn node(&self, name: &str) -> Result<Node, Error> {
        self.number(ffi::NODES, "node", name).map(Node)
    }

    /// The name of a table, or `None` if there is no such table.
    pub fn table_name(&self, table: Table) -> Option<String> {
        self.name(ffi::TABLES, table.0)
    }

    /// The name of a type, or `None` if there is no such type.
    pub fn kind_name(&self, kind: Kind) -> Option<String> {
        self.name(ffi::TYPES, kind.0)
    }

    /// The name of a node, or `None` if there is no such node.
    pub fn node_name(&self, node: Node) -> Option<String> {
        self.name(ffi::NODES, node.0)
    }

    /// Takes a free session. It is given back when it is dropped.
    ///
    /// # Errors
    /// [`Error::NoSession`] if all 32 are taken.
    pub fn session(&self) -> Result<Session, Error> {
        let mut state = self.shared.lock();
        let free = state
            .taken
            .iter()
            .position(|taken| !taken)
            .ok_or(Error::NoSession)?;
        state.taken[free] = true;
        Ok(Session::new(self.clone(), free as u8 + 1))
    }

    /// Runs a transaction and commits it. See [`Session::run`].
    ///
    /// # Errors
    /// [`Error::OtherStore`] if the session is one of another store; else those of [`Session::run`].
    pub fn run<T, E: From<Error>>(
        &self,
        session: &mut Session,
        kind: Kind,
        body: impl FnMut(&mut Txn<'_>) -> Result<T, E>,
    ) -> Result<T, E> {
        if !Arc::ptr_eq(&self.shared, &session.store().shared) {
            return Err(Error::OtherStore.into());
        }
        session.run(kind, body)
    }

    /// Asks for a session by its number, 1 to 32, whether or not it is taken, and returns the reply as it is.
    ///
    /// [`Store::session`] takes from the same sessions. A transaction that is begun here is found by the [`Session`] of that number, so
    /// a program that calls both asks only for sessions that it has taken.
    ///
    /// # Errors
    /// [`Error::OutOfMemory`]; of a store in a file also [`Error::NoRoom`], [`Error::Unsure`] and [`Error::Stopped`].
    pub fn ask(&self, session: u8, request: Request) -> Result<Reply, Error> {
        self.shared.ask(session, request)
    }

    /// The line of a reply to a session, as `tebaldi replay` prints it, with its line feed. `None` if the reply has a node or a
    /// table that the store does not have, or more than sixteen values.
    ///
    /// # Errors
    /// [`Error::OutOfMemory`].
    pub fn line(&self, session: u8, reply: &Reply) -> Result<Option<String>, Error> {
        let raw = match reply.raw() {
            Some(raw) => raw,
            None => return Ok(None),
        };
        let mut out = [0; 512];
        let mut len = 0;
        let mut state = self.shared.lock();
        // SAFETY: one call at a time, by the lock; each pointer is beside its length.
        let status = unsafe {
            ffi::tebaldi_line(
                &mut state.raw.store,
                session,
                &raw,
                out.as_mut_ptr(),
                out.len(),
                &mut len,
            )
        };
        match status {
            OK => Ok(Some(text(&out, len))),
            NO_SUCH => Ok(None),
            _ => Err(error_of(status)),
        }
    }

    /// The committed transactions, in the serial order.
    ///
    /// # Errors
    /// [`Error::OutOfMemory`].
    pub fn order(&self) -> Result<Vec<TxnNumber>, Error> {
        let mut state = self.shared.lock();
        // SAFETY: one call at a time, by the lock; the room is that of the vector.
        let numbers = filled(|out: *mut u32, room, len| unsafe {
            ffi::tebaldi_order(&mut state.raw.store, out, room, len)
        })?;
        Ok(numbers.into_iter().map(TxnNumber).collect())
    }

    /// The committed rows, in ascending order of table and key.
    ///
    /// # Errors
    /// [`Error::OutOfMemory`].
    pub fn rows(&self) -> Result<Vec<(Cell, i64)>, Error> {
        let mut state = self.shared.lock();
        // SAFETY: as in `order`.
        let rows = filled(|out: *mut RawRow, room, len| unsafe {
            ffi::tebaldi_rows(&mut state.raw.store, out, room, len)
        })?;
        Ok(rows
            .iter()
            .map(|row| (cell(row.table, row.key), row.value))
            .collect())
    }

    /// The printed run of the present epoch: its starting rows, events, serial order and final rows, as `tebaldi threads` prints them.
    /// [`audit`] accepts it, if it has fewer than 2^32 - 1 bytes.
    ///
    /// # Errors
    /// [`Error::OutOfMemory`].
    ///
    /// ```
    /// let store = tebaldi::Store::open("")?;
    /// let (t, any) = (store.table("t")?, store.kind("any")?);
    /// store.run(&mut store.session()?, any, |txn| txn.write(t, 7, 4))?;
    /// let run = store.run_text()?;
    /// assert_eq!(run, "began t1 1 any\nput t1 t 7 4\ndone t1\norder t1\nrow t 7 4\nend\n");
    /// assert_eq!(tebaldi::audit(&run), Ok(()));
    /// # Ok::<(), tebaldi::Error>(())
    /// ```
    pub fn run_text(&self) -> Result<String, Error> {
        let mut state = self.shared.lock();
        // SAFETY: as in `order`.
        let bytes = filled(|out: *mut u8, room, len| unsafe {
            ffi::tebaldi_run_text(&mut state.raw.store, out, room, len)
        })?;
        Ok(text(&bytes, bytes.len()))
    }

    /// The event at a place of the history, or `None` past the last one. Place 0 is the oldest.
    pub fn event(&self, place: usize) -> Option<Event> {
        let mut raw = RawEvent::default();
        let mut state = self.shared.lock();
        // SAFETY: one call at a time, by the lock.
        let status = unsafe { ffi::tebaldi_event(&mut state.raw.store, place, &mut raw) };
        (status == OK).then(|| Event::of(&raw))
    }

    /// The history, the oldest event first. Events that happen while it is read are part of it.
    pub fn events(&self) -> impl Iterator<Item = Event> + '_ {
        (0..).map_while(|place| self.event(place))
    }

    fn number(&self, list: u8, what: &str, name: &str) -> Result<u8, Error> {
        let mut number = 0;
        let mut state = self.shared.lock();
        // SAFETY: one call at a time, by the lock; the pointer is beside its length.
        let status = unsafe {
            ffi::tebaldi_number(
                &mut state.raw.store,
                list,
                name.as_ptr(),
                name.len(),
                &mut number,
            )
        };
        match status {
            OK => Ok(number),
            NO_SUCH => Err(Error::NoSuchName(format!("{what} {name}"))),
            _ => Err(error_of(status)),
        }
    }

    fn name(&self, list: u8, number: u8) -> Option<String> {
        let mut out = [0; 32];
        let mut len = 0;
        let mut state = self.shared.lock();
        // SAFETY: as in `number`.
        let status = unsafe {
            ffi::tebaldi_name(
                &mut state.raw.store,
                list,
                number,
                out.as_mut_ptr(),
                out.len(),
                &mut len,
            )
        };
        (status == OK).then(|| text(&out, len))
    }
}

impl Shared {
    fn lock(&self) -> MutexGuard<'_, State> {
        self.state.lock().unwrap_or_else(PoisonError::into_inner)
    }

    pub(crate) fn ask(&self, session: u8, request: Request) -> Result<Reply, Error> {
        self.ask_locked(&mut self.lock(), session, request)
    }

    /// Aborts the transaction of a session. If memory is out, `abort_left_open` does so later.
    pub(crate) fn abort(&self, session: u8) {
        let mut state = self.lock();
        let aborted = self.ask_locked(&mut state, session, Request::Abort);
        state.left_open[usize::from(session) - 1] = aborted == Err(Error::OutOfMemory);
    }

    /// Aborts the transaction that a session still has because memory was out.
    pub(crate) fn abort_left_open(&self, session: u8) -> Result<(), Error> {
        let (mut state, place) = (self.lock(), usize::from(session) - 1);
        if state.left_open[place] {
            self.ask_locked(&mut state, session, Request::Abort)?;
            state.left_open[place] = false;
        }
        Ok(())
    }

    /// Asks, and sleeps as long as the reply is to ask again and `until` has not come, if there is such a time. A reply can only become another
    /// once a session has changed something, so nothing is asked in between.
    pub(crate) fn ask_until(
        &self,
        session: u8,
        request: Request,
        until: Option<Instant>,
    ) -> Result<Reply, Error> {
        let mut state = self.lock();
        loop {
            let reply = self.ask_locked(&mut state, session, request)?;
            if !matches!(reply, Reply::Again { .. }) {
                return Ok(reply);
            }
            let seen = state.changes;
            state.waiters += 1;
            while state.changes == seen {
                let left = until.map_or(Duration::MAX, |until| {
                    until.saturating_duration_since(Instant::now())
                });
                if left.is_zero() {
                    state.waiters -= 1;
                    return Ok(reply);
                }
                let woken = self.changed.wait_timeout(state, left);
                state = woken.unwrap_or_else(PoisonError::into_inner).0;
            }
            state.waiters -= 1;
        }
    }

    fn ask_locked(&self, state: &mut State, session: u8, request: Request) -> Result<Reply, Error> {
        let asked = request.raw();
        let mut told = RawReply::default();
        // SAFETY: one call at a time, by the lock.
        let status = unsafe {
            if state.raw.fd < 0 {
                ffi::tebaldi_ask(&mut state.raw.store, session, &asked, &mut told)
            } else {
                ffi::tebaldi_file_ask(&mut state.raw, session, &asked, &mut told)
            }
        };
        if status != OK {
            return Err(self.error_of(state, status));
        }
        let reply = Reply::of(&told);
        if !matches!(reply, Reply::Again { .. } | Reply::Refused(_)) {
            self.note_change(state);
        }
        Ok(reply)
    }

    /// The error of a status that a call has just returned. If it stops the store, those that sleep wake up, and find it stopped.
    fn error_of(&self, state: &mut State, status: u32) -> Error {
        if status == ffi::UNSURE {
            state.stopped_by = Some(errno());
            self.note_change(state);
        }
        error_of(status)
    }

    /// Wakes those that sleep, if there are any, since a call has changed something.
    fn note_change(&self, state: &mut State) {
        state.changes += 1;
        if state.waiters > 0 {
            self.changed.notify_all();
        }
    }

    pub(crate) fn give_back(&self, session: u8) {
        self.lock().taken[usize::from(session) - 1] = false;
    }
}

/// Checks a printed run, as `tebaldi audit` does.
///
/// # Errors
/// [`Error::BadRun`] names the first wrong line; [`Error::TooLong`], [`Error::OutOfMemory`].
///
/// ```
/// use tebaldi::{Error, RunFault, audit};
/// assert_eq!(audit("order\nend\n"), Ok(()));
/// assert_eq!(audit("order t1\nend\n"), Err(Error::BadRun { line: 1, why: RunFault::Order }));
/// ```
pub fn audit(text: impl AsRef<[u8]>) -> Result<(), Error> {
    const WHYS: [RunFault; 6] = [
        RunFault::Form,
        RunFault::Txn,
        RunFault::Order,
        RunFault::After,
        RunFault::Read,
        RunFault::Row,
    ];
    let text = text.as_ref();
    let (mut line, mut why) = (0, 0);
    // SAFETY: the pointer is beside its length.
    match unsafe { ffi::tebaldi_audit(text.as_ptr(), text.len(), &mut line, &mut why) } {
        OK => Ok(()),
        ffi::BAD_RUN => Err(Error::BadRun {
            line,
            why: WHYS[usize::from(why) - 1],
        }),
        status => Err(error_of(status)),
    }
}

/// The version of the library: major, minor and patch.
///
/// ```
/// assert_eq!(tebaldi::version().0, 1);
/// ```
pub fn version() -> (u32, u32, u32) {
    let mut version = ffi::RawVersion::default();
    // SAFETY: the pointer is to a version.
    unsafe { ffi::tebaldi_version(&mut version) };
    (version.major, version.minor, version.patch)
}

/// The number of the system's error that the last call has left.
fn errno() -> i32 {
    io::Error::last_os_error().raw_os_error().unwrap_or(0)
}

/// The error of a status that needs nothing else of its call.
fn error_of(status: u32) -> Error {
    match status {
        ffi::OUT_OF_MEMORY => Error::OutOfMemory,
        ffi::TOO_LONG => Error::TooLong,
        ffi::OTHER_TABLES => Error::OtherTables,
        ffi::STOPPED => Error::Stopped,
        ffi::UNSURE => Error::Unsure,
        ffi::NO_ROOM => Error::NoRoom,
        ffi::OTHER_CAPACITY => Error::OtherCapacity,
        ffi::BUSY => Error::Busy,
        ffi::IO => Error::Io(errno()),
        // (the store is open, each request has a verb, and no call on its file waits)
        _ => unreachable!("the library returned status {status}, which this call does not have"),
    }
}

fn text(bytes: &[u8], len: usize) -> String {
    String::from_utf8_lossy(&bytes[..len.min(bytes.len())]).into_owned()
}

/// Asks how long a list is, and then for all of it.
fn filled<T: Default + Clone>(
    mut call: impl FnMut(*mut T, usize, *mut usize) -> u32,
) -> Result<Vec<T>, Error> {
    let mut list: Vec<T> = Vec::new();
    let mut len = 0;
    loop {
        let status = call(list.as_mut_ptr(), list.len(), &mut len);
        if status != OK {
            return Err(error_of(status));
        }
        if len == list.len() {
            return Ok(list);
        }
        list.resize(len, T::default());
    }
}
