"""Pairs the replies of `replay` and `turns` with the requests that they answer. `compare.py` and `picture.py` use it."""
import dataclasses


@dataclasses.dataclass
class Step:
    """A request of a session and its reply, both as words without the session's number."""

    session: int
    asked: list
    reply: list
    txn: int = None  # the number of the transaction that asked, or that the request began
    kind: str = None  # its type


def parts(text):
    """The tree part and the script part of an input."""
    lines = text.splitlines()
    at = lines.index("%%") if "%%" in lines else -1
    return "".join(f"{line}\n" for line in lines[: max(at, 0)]), lines[at + 1 :]


def asked_lines(lines):
    """The lines of a script part that ask something: the session and the words after it."""
    split = [line.split() for line in lines]
    return [(int(words[0]), words[1:]) for words in split if words and not words[0].startswith("#")]


def replies_and_report(text):
    """The reply lines, the serial order and the final rows of a text of `replay` or `turns`, each as words."""
    lines = [line.split() for line in text.splitlines()]
    at = next((number for number, words in enumerate(lines) if words[0] == "order"), len(lines))
    report = lines[at:]
    return lines[:at], report[0][1:] if report else [], [words[1:] for words in report if words[0] == "row"]


class Session:
    """A session that follows its lines by the replies."""

    def __init__(self, number):
        self.number, self.lines, self.at, self.began = number, [], 0, 0
        self.txn = self.kind = None

    def step(self, asked, reply):
        """The step of a reply, after which the session holds what it then holds."""
        if reply[0] == "begun":
            self.txn, self.kind = int(reply[1][1:]), asked[1]
        made = Step(self.number, asked, reply, self.txn, self.kind if self.txn else asked[1] if asked[0] == "begin" else None)
        if reply[0] in ("aborted", "committed"):
            self.txn = self.kind = None
        return made

    def follow(self, reply):
        """The same in `turns`: the session stays, goes back to the line that began its transaction, or goes on."""
        asked = self.lines[self.at] if self.at < len(self.lines) else ["end"]
        if reply[0] == "begun":
            self.began = self.at
        if reply[0] == "aborted" and reply[1] not in ("asked", "ended"):
            self.at = self.began
        elif reply[0] != "again":
            self.at += 1
        return self.step(asked, reply)


def sessions_of(script):
    sessions = {}
    for number, words in script:
        sessions.setdefault(number, Session(number)).lines.append(words)
    return sessions


def turns(script, replies):
    """The steps of a text of `turns`, in order."""
    sessions = sessions_of(script)
    return [sessions[int(words[0])].follow(words[1:]) for words in replies]


def replay(script, replies):
    """The steps of a text of `replay`: a reply for each line, and for the end of each session that holds a transaction."""
    sessions = sessions_of(script)
    asked = [words for _, words in script] + [["end"]] * (len(replies) - len(script))
    return [sessions[int(words[0])].step(line, words[1:]) for line, words in zip(asked, replies)]
