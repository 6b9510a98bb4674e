"""The dependency graph of the repository's crates, as crates.txt lists it."""
import dataclasses


@dataclasses.dataclass
class Graph:
    # (the crates that each crate lists, without those of the kit)
    below: dict

    @classmethod
    def read(cls, file):
        listed = {}
        for line in file.read_text(encoding="utf-8").splitlines():
            head, colon, tail = line.partition("#")[0].partition(":")
            if colon:
                listed[head.split()[0]] = tail.split()
        return cls({name: [it for it in deps if it in listed] for name, deps in listed.items()})

    def lowest_first(self):
        """Returns all crates, each after those that it depends on."""
        order = {}

        def visit(name):
            if name not in order:
                for it in self.below[name]:
                    visit(it)
                order[name] = None

        for name in self.below:
            visit(name)
        return list(order)

    def all_below(self, names):
        """Returns these crates and all that they depend on, directly or not."""
        found, left = set(), list(names)
        while left:
            name = left.pop()
            if name not in found:
                found.add(name)
                left += self.below[name]
        return found

    def above(self):
        """Returns, for each crate, those that list it."""
        above = {name: [] for name in self.below}
        for name, deps in self.below.items():
            for it in deps:
                above[it].append(name)
        return above

    def paths(self):
        """Returns, for each crate, the number of paths that begin at it."""
        counts = {}
        for name in self.lowest_first():
            counts[name] = 1 + sum(counts[it] for it in self.below[name])
        return counts
