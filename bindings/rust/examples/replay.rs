//! Runs a script over a store, as `./tebaldi replay` does: the tree text, a line `%%`, then a line for each request. A bad line ends
//! the program with an error.

use std::error::Error;
use std::io::{stdin, stdout, Read, Write};
use std::process::ExitCode;
use tebaldi::{Cell, Kind, Reply, Request, Store, Table};

fn main() -> Result<ExitCode, Box<dyn Error>> {
    let mut input = Vec::new();
    stdin().read_to_end(&mut input)?;
    let mut out = Vec::new();
    let (tree, script) = match split(&input) {
        Some(parts) => parts,
        None => {
            println!("bad tree: no separator");
            return Ok(ExitCode::from(6));
        }
    };
    match Store::open(tree) {
        Ok(store) => run(&store, script, &mut out)?,
        Err(tebaldi::Error::BadTree(line)) => {
            println!("{line}");
            return Ok(ExitCode::from(6));
        }
        Err(error) => return Err(error.into()),
    }
    stdout().write_all(&out)?;
    Ok(ExitCode::SUCCESS)
}

fn run(store: &Store, script: &[u8], out: &mut impl Write) -> Result<(), Box<dyn Error>> {
    for line in std::str::from_utf8(script)?.lines() {
        let words: Vec<&str> = line.split_ascii_whitespace().collect();
        if words.is_empty() || words[0].starts_with('#') {
            continue;
        }
        let session = words[0].parse()?;
        let reply = store.ask(session, request(store, &words[1..])?)?;
        put(store, out, session, &reply)?;
    }
    for session in 1..=32 {
        let reply = store.ask(session, Request::End)?;
        if matches!(reply, Reply::Aborted(_)) {
            put(store, out, session, &reply)?;
        }
    }
    write!(out, "order")?;
    for txn in store.order()? {
        write!(out, " t{}", txn.0)?;
    }
    writeln!(out)?;
    for (cell, value) in store.rows()? {
        let table = store.table_name(cell.table).ok_or("a table has no name")?;
        writeln!(out, "row {table} {} {value}", cell.key)?;
    }
    writeln!(out, "end")?;
    Ok(())
}

fn put(
    store: &Store,
    out: &mut impl Write,
    session: u8,
    reply: &Reply,
) -> Result<(), Box<dyn Error>> {
    let line = store.line(session, reply)?.ok_or("a reply has no line")?;
    Ok(out.write_all(line.as_bytes())?)
}

fn split(input: &[u8]) -> Option<(&[u8], &[u8])> {
    let mut start = 0;
    for line in input.split_inclusive(|b| *b == b'\n') {
        let end = start + line.len();
        let bare = line.strip_suffix(b"\n").unwrap_or(line);
        if bare.strip_suffix(b"\r").unwrap_or(bare) == b"%%" {
            return Some((&input[..start], &input[end..]));
        }
        start = end;
    }
    None
}

fn request(store: &Store, words: &[&str]) -> Result<Request, Box<dyn Error>> {
    let word = |i: usize| words.get(i).copied().ok_or("too few words");
    let cell = || -> Result<Cell, Box<dyn Error>> {
        Ok(Cell {
            table: store.table(word(1)?).unwrap_or(Table(255)),
            key: word(2)?.parse()?,
        })
    };
    Ok(match word(0)? {
        "begin" => Request::Begin {
            kind: store.kind(word(1)?).unwrap_or(Kind(255)),
            instance: words.get(2).map_or(Ok(0), |word| word.parse())?,
        },
        "read" => Request::Read(cell()?),
        "write" => Request::Write(cell()?, word(3)?.parse()?),
        "add" => Request::Add(cell()?, word(3)?.parse()?),
        "delete" => Request::Delete(cell()?),
        "scan" => Request::Scan {
            cell: cell()?,
            count: word(3)?.parse()?,
        },
        "prepare" => Request::Prepare,
        "commit" => Request::Commit,
        "abort" => Request::Abort,
        verb => return Err(format!("no verb: {verb}").into()),
    })
}
