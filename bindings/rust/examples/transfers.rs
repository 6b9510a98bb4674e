//! Four threads transfer money between three accounts of one store.

use std::thread;
use tebaldi::{Error, Kind, Session, Store, Table};

const TREE: &str = r#"
format = 1
tables = ["account"]
[[type]]
name = "transfer"
[[node]]
name = "root"
control = "timestamp"
types = ["transfer"]
[[row]]
table = "account"
key = 0
value = 100
[[row]]
table = "account"
key = 1
value = 100
[[row]]
table = "account"
key = 2
value = 100
"#;

fn main() -> Result<(), Error> {
    let store = Store::open(TREE)?;
    let (account, transfer) = (store.table("account")?, store.kind("transfer")?);
    let threads: Vec<_> = (0..4)
        .map(|first| {
            let mut session = store.session()?;
            Ok(thread::spawn(move || {
                (0..50).try_for_each(|i| {
                    move_money(
                        &mut session,
                        account,
                        transfer,
                        (first + i) % 3,
                        (first + i + 1) % 3,
                    )
                })
            }))
        })
        .collect::<Result<_, Error>>()?;
    for thread in threads {
        thread.join().expect("no thread panics")?;
    }
    let sum: i64 = store.rows()?.iter().map(|row| row.1).sum();
    println!("committed {}, sum {sum}", store.order()?.len());
    Ok(())
}

fn move_money(
    session: &mut Session,
    account: Table,
    kind: Kind,
    from: u32,
    to: u32,
) -> Result<(), Error> {
    session.run(kind, |txn| {
        let (there, here) = (txn.read(account, from)?, txn.read(account, to)?);
        txn.write(account, from, there.unwrap_or(0) - 1)?;
        txn.write(account, to, here.unwrap_or(0) + 1)
    })
}
