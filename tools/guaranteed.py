"""What a tree guarantees, in short words: those of the sentences of the shell's `.guarantees` that hold of this tree and not of every tree. `compare.py` uses it."""
import pathlib
import re
import subprocess
import tempfile

OF_EVERY_TREE = (
    "running the committed transactions serially in the serial order reproduces every read and the final tables",
    "no transaction commits before one that it read from",
    "the wait-for graph has no cycle",
)
WORDS = {
    "a transaction that committed before another began precedes it in the serial order": "strict",
    "the serial order is the order of the commits": "commit order",
    "an abort takes no other transaction with it": "no cascades",
}
READS = r"each read and each scan of a running transaction of type (\S+) is granted at once, unless it is refused"
NOTHING_MORE = "as every tree"


def told(shell, tree):
    """The words for a tree text, over a new file."""
    with tempfile.TemporaryDirectory() as room:
        file = pathlib.Path(room, "tree")
        file.write_text(tree)
        ran = subprocess.run([shell, f"{room}/store", file], input=".guarantees\n", capture_output=True, text=True)
    if ran.returncode:
        raise SystemExit(f"guarantees: status {ran.returncode}: {(ran.stderr or ran.stdout).strip()}")
    return in_words(ran.stdout)


def in_words(text):
    """The words for what `.guarantees` answers. The types whose reads never wait are named, unless all are."""
    words, reads = [], {}
    for line in text.splitlines():
        sentence = line.partition("guaranteed: ")[2]
        holds, of_type = line.startswith("guaranteed: "), re.fullmatch(READS, sentence)
        if of_type:
            reads[of_type[1]] = holds
        elif sentence in WORDS:
            words += [WORDS[sentence]] * holds
        elif line != "end" and not (holds and sentence in OF_EVERY_TREE):
            raise SystemExit(f"guarantees: there is no word for the line: {line}")
    free = [name for name, holds in reads.items() if holds]
    if free:
        words.append("reads never wait" if len(free) == len(reads) else f"reads never wait: {', '.join(free)}")
    return ", ".join(words) or NOTHING_MORE
