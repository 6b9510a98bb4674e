//! What transactions, sessions and errors do.

use std::os::unix::io::AsRawFd;
use std::thread;
use std::time::{Duration, Instant};
use tebaldi::{Cause, Cell, Error, Event, Limits, Refusal, Reply, Request, Store};

fn blank() -> (Store, tebaldi::Table, tebaldi::Kind) {
    let store = Store::open("").unwrap();
    let (table, kind) = (store.table("t").unwrap(), store.kind("any").unwrap());
    (store, table, kind)
}

#[test]
fn a_dropped_transaction_is_aborted() {
    let (store, t, any) = blank();
    let mut session = store.session().unwrap();
    session.begin(any).unwrap().write(t, 1, 5).unwrap();
    assert_eq!(store.rows().unwrap(), []);
    let events: Vec<Event> = store.events().collect();
    assert!(matches!(
        events[2],
        Event::Gone {
            cause: Cause::Asked,
            ..
        }
    ));
    assert_eq!(store.event(events.len()), None);
}

#[test]
fn a_refused_request_aborts_its_transaction() {
    let (store, t, any) = blank();
    let mut session = store.session().unwrap();
    let mut txn = session.begin(any).unwrap();
    txn.write(t, 1, 5).unwrap();
    assert_eq!(txn.add(t, 2, 1), Err(Error::Refused(Refusal::NotRead)));
    assert_eq!(txn.read(t, 1), Err(Error::Over));
    drop(txn);
    let sum = store.run(&mut session, any, |txn| txn.read(t, 1));
    assert_eq!(sum, Ok(None));
}

#[test]
fn a_body_that_goes_on_after_a_refusal_is_not_taken_for_a_commit() {
    let (store, t, any) = blank();
    let mut session = store.session().unwrap();
    let done: Result<u8, Error> = store.run(&mut session, any, |txn| {
        let _ = txn.add(t, 2, 1);
        Ok(7)
    });
    assert_eq!(done, Err(Error::Refused(Refusal::NotRead)));
    assert_eq!(store.order().unwrap(), []);
    let done: Result<u8, Error> = store.run(&mut session, any, |txn| {
        txn.write(t, 2, 1)?;
        txn.commit()?;
        Ok(7)
    });
    assert_eq!(done, Ok(7));
}

#[test]
fn a_run_starts_over_after_an_abort_that_its_body_drops() {
    let (store, t, any) = blank();
    let (mut first, mut second) = (store.session().unwrap(), store.session().unwrap());
    let mut starts = 0;
    let done: Result<i32, Error> = first.run(any, |txn| {
        starts += 1;
        if starts == 1 {
            let mut other = second.begin(any)?;
            other.write(t, 1, 9)?;
            let _ = txn.write(t, 1, 5);
            other.commit()?;
            return Ok(0);
        }
        txn.write(t, 1, 6)?;
        Ok(starts)
    });
    assert_eq!(done, Ok(2));
    assert_eq!(store.rows().unwrap(), [(Cell { table: t, key: 1 }, 6)]);
}

#[test]
fn a_wait_may_have_no_end() {
    let (store, t, any) = blank();
    let (mut first, mut second) = (store.session().unwrap(), store.session().unwrap());
    let mut older = first.begin(any).unwrap();
    older.read(t, 7).unwrap();
    second.set_limits(Limits {
        attempts: 1,
        wait: Duration::MAX,
    });
    let newer = thread::spawn(move || second.run(any, |txn| txn.write(t, 7, 4)));
    thread::sleep(Duration::from_millis(50));
    older.commit().unwrap();
    assert_eq!(newer.join().unwrap(), Ok(()));
}

#[test]
fn stores_and_what_they_lend_are_shown_and_go_to_other_threads() {
    fn is_shared<T: Send + Sync>(_: &T) {}
    let (store, _, any) = blank();
    let mut session = store.session().unwrap();
    is_shared(&store);
    is_shared(&session);
    let fault = Store::open("format = 9").unwrap_err();
    assert!(fault.to_string().starts_with("bad tree: "));
    let shown = format!("{store:?} {session:?}");
    assert!(shown.starts_with("Store { .. } Session { number: 1"));
    let txn = session.begin(any).unwrap();
    is_shared(&txn);
    assert_eq!(
        format!("{txn:?}"),
        "Txn { number: TxnNumber(1), is_over: false, .. }"
    );
}

#[test]
fn a_session_that_waits_goes_on_when_the_other_commits() {
    let (store, t, any) = blank();
    let (mut first, mut second) = (store.session().unwrap(), store.session().unwrap());
    let mut older = first.begin(any).unwrap();
    older.read(t, 7).unwrap();
    let newer = thread::spawn(move || second.run(any, |txn| txn.write(t, 7, 4)));
    thread::sleep(Duration::from_millis(50));
    older.commit().unwrap();
    assert_eq!(newer.join().unwrap(), Ok(()));
    assert_eq!(store.rows().unwrap(), [(Cell { table: t, key: 7 }, 4)]);
}

#[test]
fn a_wait_ends_at_its_limit() {
    let (store, t, any) = blank();
    let (mut first, mut second) = (store.session().unwrap(), store.session().unwrap());
    let mut older = first.begin(any).unwrap();
    older.read(t, 7).unwrap();
    second.set_limits(Limits {
        attempts: 1,
        wait: Duration::from_millis(30),
    });
    let start = Instant::now();
    let waited = second.run(any, |txn| txn.write(t, 7, 4));
    assert!(matches!(waited, Err(Error::Again { who, .. }) if who == older.number()));
    assert!(start.elapsed() >= Duration::from_millis(30));
}

#[test]
fn a_run_starts_over_after_an_abort_and_within_its_limit() {
    let (store, t, any) = blank();
    let (mut first, mut second) = (store.session().unwrap(), store.session().unwrap());
    let mut newer = None;
    let mut starts = 0;
    // The first start waits for a newer transaction, and is aborted; the second goes on.
    let done: Result<(), Error> = first.run(any, |txn| {
        starts += 1;
        if starts == 1 {
            let mut other = second.begin(any)?;
            other.write(t, 1, 9)?;
            let stopped = txn.write(t, 1, 5);
            newer = Some(other.commit());
            return stopped;
        }
        txn.write(t, 1, 5)
    });
    assert_eq!((done, starts, newer), (Ok(()), 2, Some(Ok(()))));
    let mut third = store.session().unwrap();
    third.set_limits(Limits {
        attempts: 3,
        ..Limits::default()
    });
    let mut starts = 0;
    let done: Result<(), Error> = third.run(any, |txn| {
        starts += 1;
        let mut other = second.begin(any)?;
        other.write(t, 1, 9)?;
        txn.write(t, 1, 5)
    });
    assert!(matches!(done, Err(Error::Aborted(Cause::Newer { .. }))));
    assert_eq!(starts, 3);
}

#[test]
fn a_begin_tells_of_an_abort_that_was_left_in_its_session() {
    let store = Store::open("format = 1\ntables = [\"t\"]\n[[type]]\nname = \"any\"\n[[node]]\nname = \"root\"\ncontrol = \"timestamp\"\ntypes = [\"any\"]\n").unwrap();
    let (t, any) = (store.table("t").unwrap(), store.kind("any").unwrap());
    let (mut first, mut second) = (store.session().unwrap(), store.session().unwrap());
    // A transaction in the second session reads from one that is aborted then.
    let mut leave = |session: u8| {
        let mut older = first.begin(any).unwrap();
        older.write(t, 1, 5).unwrap();
        let begin = Request::Begin {
            kind: any,
            instance: 0,
        };
        assert!(matches!(store.ask(session, begin), Ok(Reply::Begun(_))));
        let read = store.ask(session, Request::Read(Cell { table: t, key: 1 }));
        assert_eq!(read, Ok(Reply::Value(Some(5))));
        older.abort();
    };
    leave(second.number());
    assert!(matches!(
        second.begin(any),
        Err(Error::Aborted(Cause::After(_)))
    ));
    assert_eq!(second.begin(any).unwrap().commit(), Ok(()));
    leave(second.number());
    assert_eq!(second.run(any, |txn| txn.read(t, 1)), Ok(None));
    leave(second.number());
    second.set_limits(Limits {
        attempts: 1,
        ..Limits::default()
    });
    let done = second.run(any, |txn| txn.read(t, 1));
    assert!(matches!(done, Err(Error::Aborted(Cause::After(_)))));
}

#[test]
fn sessions_are_given_back() {
    let (store, _, any) = blank();
    let mut sessions: Vec<_> = (0..32).map(|_| store.session().unwrap()).collect();
    assert!(matches!(store.session(), Err(Error::NoSession)));
    assert_eq!(sessions.remove(6).number(), 7);
    assert_eq!(store.session().unwrap().number(), 7);
    let other = Store::open("").unwrap();
    let result: Result<(), Error> = other.run(&mut sessions[0], any, |_| Ok(()));
    assert_eq!(result, Err(Error::OtherStore));
}

#[test]
fn replies_have_lines_and_names_are_found() {
    let (store, t, any) = blank();
    let reply = store
        .ask(
            1,
            Request::Begin {
                kind: any,
                instance: 0,
            },
        )
        .unwrap();
    assert_eq!(
        store.line(1, &reply).unwrap().as_deref(),
        Some("1 begun t1\n")
    );
    let values = Reply::Values(vec![None, Some(-3)]);
    assert_eq!(
        store.line(2, &values).unwrap().as_deref(),
        Some("2 values none -3\n")
    );
    assert_eq!(store.line(2, &Reply::Values(vec![None; 17])).unwrap(), None);
    assert_eq!(store.table_name(t).as_deref(), Some("t"));
    assert_eq!(store.kind_name(any).as_deref(), Some("any"));
    assert_eq!(
        store.node_name(store.node("root").unwrap()).as_deref(),
        Some("root")
    );
    assert_eq!(
        store.table("u"),
        Err(Error::NoSuchName("table u".to_string()))
    );
}

#[test]
fn scans_adds_and_deletes() {
    let (store, t, any) = blank();
    let mut session = store.session().unwrap();
    let mut txn = session.begin(any).unwrap();
    txn.write(t, 3, 1).unwrap();
    txn.add(t, 3, 4).unwrap();
    txn.write(t, 4, 2).unwrap();
    txn.delete(t, 4).unwrap();
    assert_eq!(txn.scan(t, 2, 3), Ok(vec![None, Some(5), None]));
    txn.prepare().unwrap();
    txn.commit().unwrap();
    assert_eq!(txn.commit(), Err(Error::Over));
}

#[test]
fn the_audit_accepts_the_run_of_each_epoch() {
    let (store, t, any) = blank();
    assert_eq!(store.run_text().as_deref(), Ok("order\nend\n"));
    let (mut first, mut second) = (store.session().unwrap(), store.session().unwrap());
    for value in 0..50 {
        let _ = first.run(any, |txn| txn.write(t, value % 7, i64::from(value)));
        let mut open = second.begin(any).unwrap();
        open.read(t, value % 5).unwrap();
        if value % 3 == 0 {
            open.commit().unwrap();
        }
    }
    let run = store.run_text().unwrap();
    assert_eq!(tebaldi::audit(&run), Ok(()));
    let wrong = run.replacen("\nput t1 t 0 0\n", "\nput t1 t 0 1\n", 1);
    assert!(matches!(tebaldi::audit(wrong), Err(Error::BadRun { .. })));
    store.next_epoch("").unwrap();
    let next = store.run_text().unwrap();
    assert!(next.starts_with("start t 0 49\n") && next.ends_with("order\nrow t 0 49\nrow t 1 43\nrow t 2 44\nrow t 3 45\nrow t 4 46\nrow t 5 47\nrow t 6 48\nend\n"));
    assert_eq!(tebaldi::audit(next), Ok(()));
}

#[test]
fn an_epoch_waits_for_its_transactions() {
    let (store, t, any) = blank();
    let mut session = store.session().unwrap();
    let mut txn = session.begin(any).unwrap();
    txn.write(t, 1, 5).unwrap();
    assert_eq!(store.next_epoch(""), Err(Error::Unfinished(txn.number())));
    txn.commit().unwrap();
    drop(txn);
    let fault = store.next_epoch("format = 9");
    assert!(matches!(fault, Err(Error::BadTree(_))));
    assert_eq!(store.next_epoch(""), Ok(()));
    assert_eq!(store.events().count(), 0);
    assert_eq!(store.rows().unwrap(), [(Cell { table: t, key: 1 }, 5)]);
}

/// A path for a new file, which is removed in the end.
struct Place(std::path::PathBuf);

impl Place {
    fn new(name: &str) -> Place {
        let place = std::env::temp_dir().join(format!("tebaldi-{name}-{}", std::process::id()));
        let _ = std::fs::remove_file(&place);
        Place(place)
    }
}

impl Drop for Place {
    fn drop(&mut self) {
        let _ = std::fs::remove_file(&self.0);
    }
}

#[test]
fn a_file_keeps_its_commits() {
    let place = Place::new("keeps");
    for told in 1..=3 {
        let store = Store::open_file(&place.0, "").unwrap();
        let (t, any) = (store.table("t").unwrap(), store.kind("any").unwrap());
        let mut session = store.session().unwrap();
        let add = |txn: &mut tebaldi::Txn<'_>| {
            let old = txn.read(t, 7)?.unwrap_or(0);
            txn.write(t, 7, old + 1)
        };
        assert_eq!(store.run(&mut session, any, add), Ok(()));
        assert_eq!(store.kept(), Some(1));
        store.next_epoch("").unwrap();
        assert_eq!(store.kept(), Some(0));
        assert_eq!(store.rows().unwrap(), [(Cell { table: t, key: 7 }, told)]);
    }
}

#[test]
fn a_file_is_refused() {
    let place = Place::new("refused");
    let store = Store::open_file(&place.0, "").unwrap();
    assert_eq!(Store::open_file(&place.0, "").err(), Some(Error::Busy));
    drop(store);
    let other = "format = 1\ntables = [\"u\"]\n[[type]]\nname = \"any\"\n[[node]]\nname = \"root\"\ncontrol = \"locks\"\ntypes = [\"any\"]\n";
    assert_eq!(
        Store::open_file(&place.0, other).err(),
        Some(Error::OtherTables)
    );
    std::fs::write(&place.0, "hello, this is no store").unwrap();
    assert_eq!(
        Store::open_file(&place.0, "").err(),
        Some(Error::Damaged { place: 1 })
    );
    assert!(matches!(
        Store::open_file("no/such/folder/file", ""),
        Err(Error::Io(2))
    ));
    assert_eq!(blank().0.kept(), None);
}

extern "C" {
    fn dup2(from: i32, to: i32) -> i32;
}

/// The descriptor by which this process has a file open.
fn descriptor_of(path: &std::path::Path) -> i32 {
    let path = path.canonicalize().unwrap();
    let open = std::fs::read_dir("/proc/self/fd").unwrap();
    let found = open.map(Result::unwrap).find(|it| {
        let leads_to = std::fs::read_link(it.path());
        leads_to.map_or(false, |file| file == path)
    });
    found
        .unwrap()
        .file_name()
        .to_str()
        .unwrap()
        .parse()
        .unwrap()
}

#[test]
fn a_store_says_what_has_stopped_it() {
    let place = Place::new("stopped");
    let store = Store::open_file(&place.0, "").unwrap();
    let (t, any) = (store.table("t").unwrap(), store.kind("any").unwrap());
    let mut session = store.session().unwrap();
    assert_eq!(
        store.run(&mut session, any, |txn| txn.write(t, 1, 5)),
        Ok(())
    );
    assert_eq!(store.stopped_by(), None);
    let none = std::fs::File::open("/dev/null").unwrap();
    // SAFETY: the store's descriptor is open, and becomes one that cannot be written.
    unsafe { dup2(none.as_raw_fd(), descriptor_of(&place.0)) };
    let unsure = store.run(&mut session, any, |txn| txn.write(t, 1, 6));
    assert_eq!((unsure, store.stopped_by()), (Err(Error::Unsure), Some(9)));
    let stopped = store.run(&mut session, any, |txn| txn.write(t, 1, 7));
    assert_eq!(
        (stopped, store.stopped_by()),
        (Err(Error::Stopped), Some(9))
    );
    drop((session, store));
    let again = Store::open_file(&place.0, "").unwrap();
    assert_eq!(again.rows().unwrap(), [(Cell { table: t, key: 1 }, 5)]);
}
