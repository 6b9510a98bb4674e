#!/usr/bin/env python3
"""Writes the sessions' scripts of a workload, for `turns`, `threads` and `pool`. The same words give the same bytes.

    tools/workload.py NAME [OPTION..]                the script part
    tools/workload.py NAME --tree FILE [OPTION..]    the whole input: the tree, the workload's starting rows, and the script part
    tools/workload.py NAME --rows [OPTION..]         the starting rows, as they are written in a tree text

    tpcc        an order desk after TPC-C: new orders, payments, deliveries, and two types of reports, over eleven tables
    seats       flight bookings after SEATS: find, reserve, change, cancel, and updates of customers
    smallbank   accounts after SmallBank: six short types over three tables
    transfers   transfers between accounts, deposits, and audits that scan 16 accounts at once

A row holds one number, and a script is fixed before it runs. So keys are drawn here, and no line depends on what another one reads.
A new order's number is counted here. The row that counts orders is still read and added to, so the conflicts are those of the benchmark.

Transaction i, from 0, belongs to session 1 + i mod N. Each begins with an instance: the warehouse, flight or branch that it mostly works on, which
says in which part of a leaf it runs. With --guards, a transaction that adds to a row that many want first writes a guard row beside it.
"""
import argparse
import pathlib
import sys

GUARD = 1 << 20  # the key of a row's guard is the row's key plus this


class Draws:
    """Numbers drawn from a seed, by SplitMix64: the same in every version of Python."""

    def __init__(self, seed):
        self.state = seed

    def next(self):
        self.state = (self.state + 0x9E3779B97F4A7C15) % (1 << 64)
        mixed = self.state
        mixed = (mixed ^ (mixed >> 30)) * 0xBF58476D1CE4E5B9 % (1 << 64)
        mixed = (mixed ^ (mixed >> 27)) * 0x94D049BB133111EB % (1 << 64)
        return mixed ^ (mixed >> 31)

    def below(self, count):
        return self.next() * count >> 64

    def one_in(self, count):
        return self.below(count) == 0

    def some_of(self, count, wanted):
        """Returns `wanted` different numbers below `count`, in ascending order."""
        chosen = set()
        while len(chosen) < wanted:
            chosen.add(self.below(count))
        return sorted(chosen)

    def by_share(self, shares):
        """Returns one of the names, each as often as its share."""
        at = self.below(sum(shares.values()))
        for name, share in shares.items():
            if at < share:
                return name
            at -= share


class Workload:
    """A subclass has `shares`, a method for each type that returns a transaction's lines, and `rows`."""

    def __init__(self, given):
        self.draws, self.sessions, self.guards = Draws(given.seed), given.sessions, given.guards
        self.scale = given.scale or self.scale
        self.session = 0

    def home(self):
        """The part that the session mostly works on, from 0."""
        return (self.session - 1) % self.scale

    def guard(self, table, key):
        return [f"write {table} {key + GUARD} 1"] if self.guards else []

    def transactions(self, count):
        """Yields the session, the type, the instance and the lines of each transaction."""
        for number in range(count):
            self.session = 1 + number % self.sessions
            name = self.draws.by_share(self.shares)
            yield self.session, name, self.home(), getattr(self, name)(number)


def increase(table, key, value):
    return [f"read {table} {key}", f"add {table} {key} {value}"]


class Tpcc(Workload):
    """The scale is the number of warehouses. Each has 4 districts, with 16 customers each, and 64 items in stock."""

    scale = 1
    DISTRICTS, CUSTOMERS, ITEMS, FIRST_ORDERS = 4, 16, 64, 8
    shares = {"new_order": 45, "payment": 43, "delivery": 4, "order_status": 4, "stock_level": 4}

    def __init__(self, given):
        super().__init__(given)
        places = [self.district(warehouse, number) for warehouse in range(self.scale) for number in range(self.DISTRICTS)]
        # (by district: the customer of each order, from the first one on, and how many of them are delivered)
        self.orders = {place: [number % self.CUSTOMERS for number in range(self.FIRST_ORDERS)] for place in places}
        self.delivered = {place: 0 for place in places}

    def district(self, warehouse, number):
        return warehouse * self.DISTRICTS + number

    def customer(self, district, number):
        return district * self.CUSTOMERS + number

    def order(self, district, number):
        return district * 4096 + number

    def last_order(self, district, customer):
        """The number of a customer's last order, or of the district's first if there is none."""
        return max((number for number, one in enumerate(self.orders[district]) if one == customer), default=0)

    def some_district(self):
        return self.district(self.home(), self.draws.below(self.DISTRICTS))

    def rows(self):
        for warehouse in range(self.scale):
            yield "warehouse", warehouse, 0
            yield from (("stock", warehouse * self.ITEMS + item, 100) for item in range(self.ITEMS))
        for district in self.orders:
            yield "district", district, self.FIRST_ORDERS
            yield "delivered", district, 0
            yield from (("customer", self.customer(district, number), 0) for number in range(self.CUSTOMERS))
            for number in range(self.FIRST_ORDERS):
                order = self.order(district, number)
                yield from (("orders", order, number % self.CUSTOMERS), ("new_order", order, 1))
                yield "last_order", self.customer(district, number % self.CUSTOMERS), number
                yield from (("order_line", order * 16 + line, 10) for line in range(3))
        yield from (("item", item, 5 + item) for item in range(self.ITEMS))

    def new_order(self, _):
        warehouse, district, buyer = self.home(), self.some_district(), self.draws.below(self.CUSTOMERS)
        number, customer = len(self.orders[district]), self.customer(district, buyer)
        self.orders[district].append(buyer)
        order, items = self.order(district, number), self.draws.some_of(self.ITEMS, 2 + self.draws.below(3))
        lines = [f"read warehouse {warehouse}", *self.guard("district", district), *increase("district", district, 1), f"read customer {customer}"]
        lines += [f"write orders {order} {buyer}", f"write new_order {order} 1", f"write last_order {customer} {number}"]
        for item in items:
            lines += [f"read item {item}", *increase("stock", warehouse * self.ITEMS + item, -1)]
        return lines + [f"write order_line {order * 16 + at} {5 + item}" for at, item in enumerate(items)]

    def payment(self, number):
        """One in eight pays for a customer of another warehouse, if there is one."""
        warehouse, district, amount = self.home(), self.some_district(), 1 + self.draws.below(50)
        away = (warehouse + self.draws.one_in(8)) % self.scale
        customer = self.customer(self.district(away, self.draws.below(self.DISTRICTS)), self.draws.below(self.CUSTOMERS))
        lines = self.guard("warehouse", warehouse) + increase("warehouse", warehouse, amount)
        lines += self.guard("district", district) + increase("district", district, 10_000 * amount)
        return lines + increase("customer", customer, -amount) + [f"write history {number} {amount}"]

    def delivery(self, _):
        """Delivers the oldest order of one district."""
        district = self.some_district()
        number = self.delivered[district]
        if number == len(self.orders[district]):
            return [f"read delivered {district}"]
        self.delivered[district] += 1
        order = self.order(district, number)
        lines = [*increase("delivered", district, 1), f"delete new_order {order}", *increase("orders", order, 1000)]
        return lines + [f"scan order_line {order * 16} 4", *increase("customer", self.customer(district, self.orders[district][number]), 10)]

    def order_status(self, _):
        district, buyer = self.some_district(), self.draws.below(self.CUSTOMERS)
        customer, order = self.customer(district, buyer), self.order(district, self.last_order(district, buyer))
        return [f"read customer {customer}", f"read last_order {customer}", f"read orders {order}", f"scan order_line {order * 16} 4"]

    def stock_level(self, _):
        district = self.some_district()
        last = len(self.orders[district])
        lines = [f"read district {district}"] + [f"scan order_line {self.order(district, last - back) * 16} 4" for back in (3, 2, 1)]
        return lines + [f"read stock {self.home() * self.ITEMS + item}" for item in self.draws.some_of(self.ITEMS, 4)]


class Seats(Workload):
    """The scale is the number of flights, each with 256 seats, of which every fourth is taken at first. There are 64 customers."""

    scale = 4
    SEATS, CUSTOMERS = 256, 64
    shares = {"find_flights": 35, "reserve": 35, "change": 10, "cancel": 10, "update_customer": 10}

    def __init__(self, given):
        super().__init__(given)
        self.is_first = given.hot_first
        self.free = {flight: [seat for seat in range(self.SEATS) if seat % 4] for flight in range(self.scale)}
        self.taken = {flight: [(seat, seat // 4) for seat in range(0, self.SEATS, 4)] for flight in range(self.scale)}

    def reservation(self, customer, flight):
        return customer * 64 + flight

    def rows(self):
        for flight, taken in self.taken.items():
            yield "flight", flight, self.SEATS - len(taken)
            for seat, customer in taken:
                yield "seat", flight * self.SEATS + seat, customer
                yield "reservation", self.reservation(customer, flight), seat
        yield from (("customer", customer, 0) for customer in range(self.CUSTOMERS))

    def looked_at(self, flight):
        """What a type does if the flight is full, or empty: it looks at a seat."""
        return [f"read seat {flight * self.SEATS + self.draws.below(self.SEATS)}"]

    def taken_out(self, flight):
        return self.taken[flight].pop(self.draws.below(len(self.taken[flight])))

    def counted(self, flight, change, others):
        """The lines that count a flight's seats, a row that all transactions of the flight want, before or after the others."""
        count = self.guard("flight", flight) + increase("flight", flight, change)
        return count + others if self.is_first else others + count

    def find_flights(self, _):
        flight = self.home()
        return [f"scan flight 0 {min(self.scale, 16)}", f"scan seat {flight * self.SEATS + 16 * self.draws.below(16)} 16"]

    def reserve(self, _):
        flight, customer = self.home(), self.draws.below(self.CUSTOMERS)
        if not self.free[flight]:
            return self.looked_at(flight)
        seat = self.free[flight].pop(self.draws.below(len(self.free[flight])))
        self.taken[flight].append((seat, customer))
        place = flight * self.SEATS + seat
        others = [f"read seat {place}", f"write seat {place} {customer}", *increase("customer", customer, 1)]
        return self.counted(flight, -1, others + [f"write reservation {self.reservation(customer, flight)} {seat}"])

    def change(self, _):
        flight = self.home()
        if not self.free[flight] or not self.taken[flight]:
            return self.looked_at(flight)
        seat, customer = self.taken_out(flight)
        other = self.free[flight].pop(self.draws.below(len(self.free[flight])))
        self.free[flight].append(seat)
        self.taken[flight].append((other, customer))
        lines = [f"read seat {flight * self.SEATS + other}", f"write seat {flight * self.SEATS + other} {customer}", f"delete seat {flight * self.SEATS + seat}"]
        return lines + [f"read reservation {self.reservation(customer, flight)}", f"write reservation {self.reservation(customer, flight)} {other}"]

    def cancel(self, _):
        flight = self.home()
        if not self.taken[flight]:
            return self.looked_at(flight)
        seat, customer = self.taken_out(flight)
        self.free[flight].append(seat)
        others = [f"read seat {flight * self.SEATS + seat}", f"delete seat {flight * self.SEATS + seat}", *increase("customer", customer, -1)]
        return self.counted(flight, 1, others + [f"delete reservation {self.reservation(customer, flight)}"])

    def update_customer(self, _):
        return increase("customer", self.draws.below(self.CUSTOMERS), 100)


class Smallbank(Workload):
    """The scale is the number of branches, each with 32 customers. Half of all accesses go to the first 4 customers of a branch."""

    scale = 2
    CUSTOMERS, HOT = 32, 4
    shares = {"balance": 15, "deposit_checking": 15, "transact_savings": 15, "amalgamate": 15, "write_check": 15, "send_payment": 25}

    def customer(self, branch=None):
        count = self.HOT if self.draws.one_in(2) else self.CUSTOMERS
        return (self.home() if branch is None else branch) * self.CUSTOMERS + self.draws.below(count)

    def two(self):
        """Two customers. One in eight times the second is of the next branch."""
        one, branch = self.customer(), (self.home() + self.draws.one_in(8)) % self.scale
        other = self.customer(branch)
        while other == one:
            other = self.customer(branch)
        return one, other

    def rows(self):
        for customer in range(self.scale * self.CUSTOMERS):
            yield from (("account", customer, customer), ("savings", customer, 1000), ("checking", customer, 1000))

    def balance(self, _):
        customer = self.customer()
        return [f"read {table} {customer}" for table in ("account", "savings", "checking")]

    def deposit_checking(self, _):
        customer = self.customer()
        return [f"read account {customer}", *self.guard("checking", customer), *increase("checking", customer, 13)]

    def transact_savings(self, _):
        customer = self.customer()
        return [f"read account {customer}", *self.guard("savings", customer), *increase("savings", customer, 20)]

    def amalgamate(self, _):
        """Moves all of one customer's money to another customer. The amount is fixed here."""
        one, other = self.two()
        lines = [f"read account {one}", f"read account {other}", *self.guard("savings", one), f"read savings {one}", f"write savings {one} 0"]
        return lines + self.guard("checking", one) + [f"read checking {one}", f"write checking {one} 0"] + self.guard("checking", other) + increase("checking", other, 50)

    def write_check(self, _):
        customer = self.customer()
        return [f"read account {customer}", f"read savings {customer}", *self.guard("checking", customer), *increase("checking", customer, -5)]

    def send_payment(self, _):
        one, other = self.two()
        lines = [f"read account {one}", f"read account {other}", *self.guard("checking", one), *increase("checking", one, -5)]
        return lines + self.guard("checking", other) + increase("checking", other, 5)


class Transfers(Workload):
    """The scale is the number of branches, each with 16 accounts. One in eight transfers goes to the next branch."""

    scale = 4
    ACCOUNTS = 16
    shares = {"transfer": 60, "deposit": 25, "audit": 15}

    def rows(self):
        yield from (("account", account, 100) for account in range(self.scale * self.ACCOUNTS))

    def transfer(self, _):
        branch = self.home()
        one, other = branch * self.ACCOUNTS + self.draws.below(self.ACCOUNTS), (branch + self.draws.one_in(8)) % self.scale * self.ACCOUNTS
        other += self.draws.below(self.ACCOUNTS)
        if one == other:
            other = other // self.ACCOUNTS * self.ACCOUNTS + (other + 1) % self.ACCOUNTS
        amount = 1 + self.draws.below(9)
        return self.guard("account", one) + increase("account", one, -amount) + self.guard("account", other) + increase("account", other, amount)

    def deposit(self, _):
        account = self.home() * self.ACCOUNTS + self.draws.below(self.ACCOUNTS)
        return self.guard("account", account) + increase("account", account, 10)

    def audit(self, _):
        return [f"scan account {self.home() * self.ACCOUNTS} {self.ACCOUNTS}"]


WORKLOADS = {"tpcc": Tpcc, "seats": Seats, "smallbank": Smallbank, "transfers": Transfers}


def options():
    """The options that make a workload; `compare.py` takes the same."""
    made = argparse.ArgumentParser(add_help=False)
    made.add_argument("--sessions", type=int, default=8, help="1 to 32; 8 if not given")
    made.add_argument("--transactions", type=int, default=200, help="in all sessions; 200 if not given")
    made.add_argument("--seed", type=int, default=1)
    made.add_argument("--scale", type=int, help="warehouses, flights or branches, 1 to 16")
    made.add_argument("--guards", action="store_true", help="writes a guard row before a row that is read and added to")
    made.add_argument("--hot-first", action="store_true", help="seats: counts the seats of a flight first, not last")
    return made


def rows_of(given):
    """The starting rows, as they are written in a tree text."""
    return "".join(f'[[row]]\ntable = "{table}"\nkey = {key}\nvalue = {value}\n' for table, key, value in WORKLOADS[given.workload](given).rows())


def script_of(given):
    """The script part: whole transactions, each with its session before every line."""
    lines = []
    for session, name, instance, asked in WORKLOADS[given.workload](given).transactions(given.transactions):
        lines += [f"{session} {line}" for line in (f"begin {name} {instance}", *asked, "commit")]
    return "".join(f"{line}\n" for line in lines)


def main():
    parser = argparse.ArgumentParser(description=__doc__, formatter_class=argparse.RawDescriptionHelpFormatter, parents=[options()])
    parser.add_argument("workload", choices=WORKLOADS)
    parser.add_argument("--tree", type=pathlib.Path)
    parser.add_argument("--rows", action="store_true")
    given = parser.parse_args()
    if given.tree:
        sys.stdout.write(given.tree.read_text() + rows_of(given) + "%%\n")
    sys.stdout.write(rows_of(given) if given.rows else script_of(given))
    return 0


if __name__ == "__main__":
    sys.exit(main())
