"""Prints the microseconds of processor time that a transfer takes: a transaction of two reads and two writes. The best of seven rounds."""

import time

from tebaldi import Store

ROUNDS, TRANSFERS = 7, 1000


def round_of(store: Store) -> float:
    start = time.process_time()
    for _ in range(TRANSFERS):
        with store.transaction("any") as t:
            there, here = t.read("t", 1), t.read("t", 2)
            t.write("t", 1, (there or 0) - 1)
            t.write("t", 2, (here or 0) + 1)
    return (time.process_time() - start) / TRANSFERS


def main() -> None:
    with Store() as store:
        print(f"{min(round_of(store) for _ in range(ROUNDS)) * 1e6:.1f}")


if __name__ == "__main__":
    main()
