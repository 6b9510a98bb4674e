"""Moves money between two accounts of a store in a file, one unit at a time, until it has moved so many or is killed. Run again, it goes on:
every transfer that it has told is there. Usage: bank.py FILE COUNT"""

import sys

import tebaldi

TREE = """
format = 1
tables = ["account"]
[[type]]
name = "transfer"
[[node]]
name = "root"
control = "locks"
types = ["transfer"]
[[row]]
table = "account"
key = 1
value = 1000000
[[row]]
table = "account"
key = 2
value = 0
"""


def move(t: tebaldi.Transaction) -> None:
    t.write("account", 1, t.read("account", 1) - 1)
    t.write("account", 2, t.read("account", 2) + 1)


def transfer(store: tebaldi.Store) -> None:
    """Moves one unit, and begins the next epoch if this one is full."""
    while True:
        try:
            return store.run("transfer", move)
        except tebaldi.NoRoom:
            store.next_epoch()
        except tebaldi.Refused as refused:
            if refused.why != "full":
                raise
            store.next_epoch()


def main() -> None:
    path, count = sys.argv[1], int(sys.argv[2])
    with tebaldi.open_file(path, TREE) as store:
        balances = {key: value for _, key, value in store.rows()}
        moved = balances[2]
        print(f"found {moved} of {balances[1] + moved}", flush=True)
        for told in range(moved + 1, moved + count + 1):
            transfer(store)
            print(f"told {told}", flush=True)


if __name__ == "__main__":
    main()
