"""Four threads transfer money between three accounts of one store."""

import threading

from tebaldi import Store, Transaction

TREE = """
format = 1
tables = ["account"]
[[type]]
name = "transfer"
[[node]]
name = "root"
control = "timestamp"
types = ["transfer"]
[[row]]
table = "account"
key = 0
value = 100
[[row]]
table = "account"
key = 1
value = 100
[[row]]
table = "account"
key = 2
value = 100
"""


def move_money(store: Store, origin: int, target: int) -> None:
    def body(t: Transaction) -> None:
        there, here = t.read("account", origin), t.read("account", target)
        t.write("account", origin, (there or 0) - 1)
        t.write("account", target, (here or 0) + 1)

    store.run("transfer", body)


def main() -> None:
    with Store(TREE) as store:

        def worker(first: int) -> None:
            for i in range(50):
                move_money(store, (first + i) % 3, (first + i + 1) % 3)

        threads = [threading.Thread(target=worker, args=(first,)) for first in range(4)]
        for thread in threads:
            thread.start()
        for thread in threads:
            thread.join()
        print(f"committed {len(store.order())}, sum {sum(value for _, _, value in store.rows())}")


if __name__ == "__main__":
    main()
