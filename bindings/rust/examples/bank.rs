//! Moves money between two accounts of a store in a file, one unit at a time, until it has moved so many or is killed. Run again, it goes
//! on: every transfer that it has told is there. Usage: bank FILE COUNT

use std::error::Error as StdError;
use tebaldi::{Cell, Error, Kind, Refusal, Session, Store, Table};

const TREE: &str = r#"
format = 1
tables = ["account"]
[[type]]
name = "transfer"
[[node]]
name = "root"
control = "locks"
types = ["transfer"]
[[row]]
table = "account"
key = 1
value = 1000000
[[row]]
table = "account"
key = 2
value = 0
"#;

/// Moves one unit, and begins the next epoch if this one is full.
fn transfer(store: &Store, session: &mut Session, kind: Kind, table: Table) -> Result<(), Error> {
    loop {
        let moved = store.run(session, kind, |txn| {
            txn.read(table, 1)?;
            txn.add(table, 1, -1)?;
            txn.read(table, 2)?;
            txn.add(table, 2, 1)
        });
        match moved {
            Err(Error::NoRoom | Error::Refused(Refusal::Full)) => store.next_epoch(TREE)?,
            other => return other,
        }
    }
}

fn main() -> Result<(), Box<dyn StdError>> {
    let words: Vec<String> = std::env::args().collect();
    let [_, path, count] = words.as_slice() else {
        return Err("usage: bank FILE COUNT".into());
    };
    let store = Store::open_file(path, TREE)?;
    let (table, kind) = (store.table("account")?, store.kind("transfer")?);
    let mut session = store.session()?;
    let rows = store.rows()?;
    let balance = |key| {
        let is_here = |row: &&(Cell, i64)| row.0 == Cell { table, key };
        rows.iter().find(is_here).map_or(0, |row| row.1)
    };
    let moved = balance(2);
    println!("found {moved} of {}", balance(1) + moved);
    for told in moved + 1..=moved + count.parse::<i64>()? {
        transfer(&store, &mut session, kind, table)?;
        println!("told {told}");
    }
    Ok(())
}
