//! Requests, replies and events, and their forms in C.

use crate::ffi::{RawCause, RawEvent, RawReply, RawRequest};

/// A table, by its number.
#[derive(Clone, Copy, Debug, PartialEq, Eq, PartialOrd, Ord, Hash)]
pub struct Table(pub u8);

/// A type of transactions, by its number. After [`Store::next_epoch`](crate::Store::next_epoch) under another tree the type of that name
/// may have another number: ask for it anew.
#[derive(Clone, Copy, Debug, PartialEq, Eq, PartialOrd, Ord, Hash)]
pub struct Kind(pub u8);

/// A node of the tree, by its number, which may be that of another node after [`Store::next_epoch`](crate::Store::next_epoch) under
/// another tree.
#[derive(Clone, Copy, Debug, PartialEq, Eq, PartialOrd, Ord, Hash)]
pub struct Node(pub u8);

/// A transaction, numbered from 1 in order of beginning. 0 stands for the starting rows.
#[derive(Clone, Copy, Debug, PartialEq, Eq, PartialOrd, Ord, Hash)]
pub struct TxnNumber(pub u32);

/// A row: its table and its key.
#[derive(Clone, Copy, Debug, PartialEq, Eq, PartialOrd, Ord, Hash)]
pub struct Cell {
    pub table: Table,
    pub key: u32,
}

/// What a session asks.
#[derive(Clone, Copy, Debug, PartialEq, Eq)]
pub enum Request {
    Begin { kind: Kind, instance: u32 },
    Read(Cell),
    Write(Cell, i64),
    Add(Cell, i64),
    Delete(Cell),
    Scan { cell: Cell, count: u8 },
    Prepare,
    Commit,
    Abort,
    End,
}

/// What a session is answered.
#[derive(Clone, Debug, PartialEq, Eq)]
pub enum Reply {
    Begun(TxnNumber),
    /// The value that was read; `None` if there is no row.
    Value(Option<i64>),
    /// The values of a scan, in ascending order of keys.
    Values(Vec<Option<i64>>),
    Done,
    Prepared,
    Committed,
    /// The request has to wait for the transaction `who` at `node`. Nothing has changed: ask again.
    Again {
        who: TxnNumber,
        node: Node,
    },
    Aborted(Cause),
    /// The request cannot be answered here. Nothing has changed.
    Refused(Refusal),
}

/// Why a transaction was aborted.
#[derive(Clone, Copy, Debug, PartialEq, Eq)]
pub enum Cause {
    /// It would write before what `reader` has already read.
    Late {
        node: Node,
        reader: TxnNumber,
        cell: Cell,
    },
    /// It would write what a concurrent `writer` has committed.
    First {
        node: Node,
        writer: TxnNumber,
        cell: Cell,
    },
    /// It would close a dangerous structure of four transactions.
    Pivot { node: Node, txns: [TxnNumber; 4] },
    /// It would wait for a transaction that began later.
    Newer { node: Node, other: TxnNumber },
    /// It read from a transaction that was aborted.
    After(TxnNumber),
    /// The session asked for it.
    Asked,
    /// The session ended.
    Ended,
}

/// Why a request was refused.
#[derive(Clone, Copy, Debug, PartialEq, Eq)]
pub enum Refusal {
    /// The session is not 1 to 32.
    BadSession,
    /// A begin while the session has a transaction.
    InTxn,
    /// The tree has no such type.
    UnknownType,
    /// 8,192 transactions have begun: [`Store::next_epoch`](crate::Store::next_epoch) goes on.
    Full,
    /// The session has no transaction.
    NoTxn,
    /// The tree has no such table.
    UnknownTable,
    /// The transaction is prepared: it can only commit or abort.
    Prepared,
    /// No remaining step of the type has the table.
    NotInProfile,
    /// A scan of no rows, of more than 16, or past the last key.
    Range,
    /// An add to a row that the transaction has neither written nor read.
    NotRead,
    /// The sum of an add does not fit 64 bits.
    Overflow,
}

/// What happened to a transaction.
#[derive(Clone, Copy, Debug, PartialEq, Eq)]
pub enum Event {
    Began {
        txn: TxnNumber,
        session: u8,
        kind: Kind,
        instance: u32,
    },
    Got {
        txn: TxnNumber,
        cell: Cell,
        from: TxnNumber,
        value: Option<i64>,
    },
    /// A put without a value deletes the row.
    Put {
        txn: TxnNumber,
        cell: Cell,
        value: Option<i64>,
    },
    Ready(TxnNumber),
    Done(TxnNumber),
    Gone {
        txn: TxnNumber,
        cause: Cause,
    },
    Told(TxnNumber),
}

const REFUSALS: [Refusal; 11] = [
    Refusal::BadSession,
    Refusal::InTxn,
    Refusal::UnknownType,
    Refusal::Full,
    Refusal::NoTxn,
    Refusal::UnknownTable,
    Refusal::Prepared,
    Refusal::NotInProfile,
    Refusal::Range,
    Refusal::NotRead,
    Refusal::Overflow,
];

pub(crate) fn cell(table: u8, key: u32) -> Cell {
    Cell {
        table: Table(table),
        key,
    }
}

impl Request {
    pub(crate) fn raw(self) -> RawRequest {
        let blank = |verb| RawRequest {
            verb,
            ..RawRequest::default()
        };
        let at = |verb, cell: Cell, value| RawRequest {
            table: cell.table.0,
            key: cell.key,
            value,
            ..blank(verb)
        };
        match self {
            Request::Begin { kind, instance } => RawRequest {
                kind: kind.0,
                instance,
                ..blank(1)
            },
            Request::Read(cell) => at(2, cell, 0),
            Request::Write(cell, value) => at(3, cell, value),
            Request::Add(cell, value) => at(4, cell, value),
            Request::Delete(cell) => at(5, cell, 0),
            Request::Scan { cell, count } => RawRequest {
                count,
                ..at(6, cell, 0)
            },
            Request::Prepare => blank(7),
            Request::Commit => blank(8),
            Request::Abort => blank(9),
            Request::End => blank(10),
        }
    }
}

impl Reply {
    pub(crate) fn of(raw: &RawReply) -> Reply {
        match raw.kind {
            1 => Reply::Begun(TxnNumber(raw.txn)),
            2 => Reply::Value(raw.values.present[0].then_some(raw.values.values[0])),
            3 => {
                let pairs = raw.values.present.iter().zip(raw.values.values);
                let values = pairs.map(|(present, value)| present.then_some(value));
                Reply::Values(values.take(raw.values.len).collect())
            }
            4 => Reply::Done,
            5 => Reply::Prepared,
            6 => Reply::Committed,
            7 => Reply::Again {
                who: TxnNumber(raw.txn),
                node: Node(raw.node),
            },
            8 => Reply::Aborted(Cause::of(&raw.cause)),
            9 => Reply::Refused(REFUSALS[usize::from(raw.refusal) - 1]),
            kind => unreachable!("the library has no reply of kind {kind}"),
        }
    }

    /// The form of a reply. A scan with more than sixteen values, which no store answers, has none.
    pub(crate) fn raw(&self) -> Option<RawReply> {
        let mut raw = RawReply::default();
        match self {
            Reply::Begun(txn) => (raw.kind, raw.txn) = (1, txn.0),
            Reply::Value(value) => {
                raw.kind = 2;
                raw.put(&[*value]);
            }
            Reply::Values(values) if values.len() > 16 => return None,
            Reply::Values(values) => {
                raw.kind = 3;
                raw.put(values);
            }
            Reply::Done => raw.kind = 4,
            Reply::Prepared => raw.kind = 5,
            Reply::Committed => raw.kind = 6,
            Reply::Again { who, node } => (raw.kind, raw.txn, raw.node) = (7, who.0, node.0),
            Reply::Aborted(cause) => (raw.kind, raw.cause) = (8, cause.raw()),
            Reply::Refused(why) => {
                raw.kind = 9;
                raw.refusal = *why as u8 + 1;
            }
        }
        Some(raw)
    }
}

impl RawReply {
    fn put(&mut self, values: &[Option<i64>]) {
        self.values.len = values.len();
        for (i, value) in values.iter().enumerate() {
            self.values.present[i] = value.is_some();
            self.values.values[i] = value.unwrap_or(0);
        }
    }
}

impl Cause {
    pub(crate) fn of(raw: &RawCause) -> Cause {
        let (node, txn) = (Node(raw.node), TxnNumber(raw.txn));
        let cell = cell(raw.table, raw.key);
        match raw.why {
            1 => Cause::Late {
                node,
                reader: txn,
                cell,
            },
            2 => Cause::First {
                node,
                writer: txn,
                cell,
            },
            3 => Cause::Pivot {
                node,
                txns: [raw.txn, raw.second, raw.third, raw.fourth].map(TxnNumber),
            },
            4 => Cause::Newer { node, other: txn },
            5 => Cause::After(txn),
            6 => Cause::Asked,
            7 => Cause::Ended,
            why => unreachable!("the library has no cause {why}"),
        }
    }

    fn raw(self) -> RawCause {
        let at = |why, node: Node, txn: TxnNumber| RawCause {
            why,
            node: node.0,
            txn: txn.0,
            ..RawCause::default()
        };
        let at_cell = |why, node, txn, cell: Cell| RawCause {
            table: cell.table.0,
            key: cell.key,
            ..at(why, node, txn)
        };
        match self {
            Cause::Late { node, reader, cell } => at_cell(1, node, reader, cell),
            Cause::First { node, writer, cell } => at_cell(2, node, writer, cell),
            Cause::Pivot { node, txns } => RawCause {
                second: txns[1].0,
                third: txns[2].0,
                fourth: txns[3].0,
                ..at(3, node, txns[0])
            },
            Cause::Newer { node, other } => at(4, node, other),
            Cause::After(txn) => at(5, Node(0), txn),
            Cause::Asked => at(6, Node(0), TxnNumber(0)),
            Cause::Ended => at(7, Node(0), TxnNumber(0)),
        }
    }
}

impl Event {
    pub(crate) fn of(raw: &RawEvent) -> Event {
        let txn = TxnNumber(raw.txn);
        let cell = cell(raw.table, raw.key);
        let value = raw.present.then_some(raw.value);
        match raw.happened {
            1 => Event::Began {
                txn,
                session: raw.session,
                kind: Kind(raw.kind),
                instance: raw.instance,
            },
            2 => Event::Got {
                txn,
                cell,
                from: TxnNumber(raw.from),
                value,
            },
            3 => Event::Put { txn, cell, value },
            4 => Event::Ready(txn),
            5 => Event::Done(txn),
            6 => Event::Gone {
                txn,
                cause: Cause::of(&raw.cause),
            },
            7 => Event::Told(txn),
            happened => unreachable!("the library has no event {happened}"),
        }
    }
}
