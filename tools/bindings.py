#!/usr/bin/env python3
"""Builds the store's bindings for C, Rust and Python, and tries them. The last line is `N passed, M failed`.

    tools/bindings.py                   over the library that is proved; it is built if its sources have changed
    tools/bindings.py --library FILE    over another libtebaldi_c.a, as it is
    tools/bindings.py --skip-missing    what needs a program that is missing is skipped, and has not failed
    tools/bindings.py --after-gate      takes what the gate, which has just passed, has proved below the library, and builds the library over it
    tools/bindings.py --figures         the two figures count as well: they are to be within their bounds, on a machine that is idle

It builds bindings/out/libtebaldi.a and libtebaldi.so, and then counts: the C tests and examples under the address and undefined behaviour
sanitizers, a store in a file that 32 threads share under these and the thread sanitizer, the memory of a store in a file over 200,000 commits, the tests and examples in Rust and in Python, four threads over one store in each language, a program over a file in each language
that is killed again and again, the programs of README.md, and each worked run of `replay` in each language. It prints two figures: what an ask costs from C, and a transfer from Python. If a program is missing, it is named with the apt package that has it, and what
needs it has failed. After the gate a library that is missing has failed too.
"""

import argparse
import concurrent.futures
import os
import pathlib
import random
import re
import shutil
import subprocess
import sys
import tempfile
import time

sys.dont_write_bytecode = True
sys.path.insert(0, str(pathlib.Path(__file__).resolve().parent))
import kit_rt  # noqa: E402
import worked_runs  # noqa: E402

TOP = pathlib.Path(__file__).resolve().parent.parent
BINDINGS, CRATE = TOP / "bindings", TOP / "crates" / "tebaldi_c"
C, RUST, PYTHON, OUT = BINDINGS / "c", BINDINGS / "rust", BINDINGS / "python", BINDINGS / "out"
WARNINGS = ["-std=c11", "-Wall", "-Wextra", "-Wpedantic", "-Werror"]
SANITIZED = [*WARNINGS, "-g", "-O1", "-fsanitize=address,undefined", "-fno-sanitize-recover=all"]
THREADED = [*WARNINGS, "-g", "-O1", "-fsanitize=thread"]
# The functions that the test of a shared store wraps, to count their calls.
WRAPPED = ["fdatasync", *(f"tebaldi_{name}" for name in ("ask_ahead", "write", "next_call", "performed", "failed", "file_state"))]
PACKAGES = {"rt": None, "gcc": "gcc libc6-dev", "ar": "binutils", "cargo": "cargo", "rustc": "rustc", "valgrind": "valgrind"}
COMMITTED = r"committed 200, sum 300\n"
# The bounds of the figures: an ask from C beside the engine's answer, in instructions, and a transfer from Python, in microseconds.
MOST_COST, MOST_MICROSECONDS = 1.2, 20.0
# How often the program over a file is killed in each language.
KILLS = {"C": 50, "Rust": 10, "Python": 10}


class Tally:
    def __init__(self, skips):
        self.passed = self.failed = 0
        self.skips, self.skipped = skips, []

    def count(self, name, why):
        """Counts what passed if there is no reason why it failed. Returns whether it passed."""
        self.passed += not why
        self.failed += bool(why)
        if why:
            print(f"bindings: FAILED {name}: {why}", flush=True)
        return not why

    def has(self, what, *programs):
        """Whether these programs are there. If not, what needs them has failed, or is skipped."""
        missing = [program for program in programs if not shutil.which(program)]
        hints = [f"there is no {program}" + (f": apt install {PACKAGES[program]}" if PACKAGES[program] else "") for program in missing]
        if missing and self.skips:
            self.skipped.append(f"{what}: {'; '.join(hints)}")
            print(f"bindings: SKIPPED {self.skipped[-1]}", flush=True)
        elif missing:
            self.count(what, "; ".join(hints))
        return not missing


def run(*words, **how):
    environment = {
        **os.environ,
        "TEBALDI_LIB_DIR": str(OUT),
        "TEBALDI_SO": str(OUT / "libtebaldi.so"),
        "CARGO_TARGET_DIR": str(OUT / "cargo"),
        "PYTHONPATH": str(PYTHON),
        "PYTHONDONTWRITEBYTECODE": "1",
    }
    return subprocess.run([str(word) for word in words], stdout=subprocess.PIPE, stderr=subprocess.PIPE, timeout=3000, env=environment, **how)


def why_of(ran, wanted=None):
    """Why a program failed, or None: it ends with status 0, and says what is wanted."""
    text = ran.stdout.decode(errors="replace")
    if ran.returncode == 0 and (wanted is None or re.fullmatch(wanted, text)):
        return None
    return f"status {ran.returncode}: {text[-1000:]}{ran.stderr.decode(errors='replace')[-2000:]}".strip()


def make_library(given):
    """Makes libtebaldi.a, which is the proved library, heap.c, tebaldi_file.c and tebaldi_shared.c, and libtebaldi.so of it. Returns why that failed, or None."""
    OUT.mkdir(parents=True, exist_ok=True)
    archive, parts = OUT / "libtebaldi.a", ["heap", "tebaldi_file", "tebaldi_shared"]
    if not given:
        quick = TOP / "tools" / "rt_quick"
        why = why_of(run(quick if quick.exists() else "rt", "lib", cwd=CRATE))
        if why:
            return why
    shutil.copyfile(given or CRATE / "out" / "libtebaldi_c.a", archive)
    commands = [
        *(["gcc", *WARNINGS, "-O2", "-fPIC", "-pthread", "-c", C / f"{part}.c", "-o", OUT / f"{part}.o"] for part in parts),
        ["ar", "rs", archive, *(OUT / f"{part}.o" for part in parts)],
        ["gcc", "-shared", "-pthread", "-Wl,--whole-archive", archive, "-Wl,--no-whole-archive", "-o", OUT / "libtebaldi.so"],
    ]
    return next(filter(None, (why_of(run(*command)) for command in commands)), None)


def compiled(tally, source, flags=SANITIZED, *more):
    """The program of a C file, or None."""
    program = OUT / f"c_{source.stem}"
    why = why_of(run("gcc", *flags, "-I", C, source, OUT / "libtebaldi.a", *more, "-o", program))
    return program if tally.count(f"gcc {source.name}", why) else None


def try_shared(tally):
    """Tries a store that threads share, whose C files are built with each sanitizer too."""
    files, wraps = [C / "tebaldi_shared.c", C / "tebaldi_file.c"], [f"-Wl,--wrap={name}" for name in WRAPPED]
    for name, flags in (("shared", SANITIZED), ("shared, thread sanitizer", THREADED)):
        program = compiled(tally, C / "tests" / "shared.c", [*flags, *files], "-pthread", *wraps)
        if not program:
            continue
        with tempfile.TemporaryDirectory() as folder:
            ran = run(program, folder)
        # (that sanitizer does not start if the system spreads addresses too far)
        if b"unexpected memory mapping" in ran.stderr:
            with tempfile.TemporaryDirectory() as folder:
                ran = run("setarch", "-R", program, folder)
        if tally.count(f"C {name}", why_of(ran, r"shared: \d+ commits in \d+ epochs, 0\.\d\d syncs for each; \d+ as wanted, 0 not\n")):
            print(f"bindings: {ran.stdout.decode()}", end="", flush=True)


def try_c(tally):
    """Tries the tests and the examples. Returns the command that replays a script, or None."""
    for name, wanted in [
        ("misuse", r"misuse: \d+ as wanted, 0 not\n"),
        ("refused_memory", r"\d+ blocks refused in turn: [1-9]\d* calls asked again, 0 other answers\n"),
        ("threads", COMMITTED),
    ]:
        program = compiled(tally, C / "tests" / f"{name}.c", SANITIZED, "-pthread")
        if program:
            tally.count(f"C {name}", why_of(run(program), wanted))
    for name in ("file", "refused_calls"):
        program = compiled(tally, C / "tests" / f"{name}.c")
        if program:
            with tempfile.TemporaryDirectory() as folder:
                tally.count(f"C {name}", why_of(run(program, folder), rf"{name}: \d+ as wanted, 0 not\n"))
    try_shared(tally)
    program = compiled(tally, C / "tests" / "level.c", [*WARNINGS, "-O2"])
    if program:
        for word in ("commits", "rows"):
            ran = run(program, word)
            if tally.count(f"C level {word}", why_of(ran, r"\d+ commits in \d+ epochs: \d+ KiB in the first \d+, \d+ KiB at most later\n")):
                print(f"bindings: a store in a file from C: {ran.stdout.decode()}", end="", flush=True)
    try_kills(tally, "C", [compiled(tally, C / "examples" / "bank.c", [*WARNINGS, "-O2"])])
    for source in sorted((C / "examples").glob("*.out")):
        program = compiled(tally, source.with_suffix(".c"))
        if program:
            tally.count(f"C {source.stem}", why_of(run(program), re.escape(source.read_text())))
    replay = compiled(tally, C / "examples" / "replay.c")
    return replay and [replay]


def killed(command, path, seconds):
    """Kills a run of the bank a while after it has begun to tell transfers. Returns what it has found and the last that it told, or None."""
    environment = {**os.environ, "TEBALDI_SO": str(OUT / "libtebaldi.so"), "PYTHONPATH": str(PYTHON), "PYTHONDONTWRITEBYTECODE": "1"}
    process = subprocess.Popen([str(word) for word in [*command, path, 1000000]], stdout=subprocess.PIPE, env=environment)
    lines = [process.stdout.readline()]
    time.sleep(seconds)
    process.kill()
    lines += process.stdout.read().splitlines(keepends=True)
    process.wait()
    found = re.fullmatch(rb"found (\d+) of 1000000\n", lines[0])
    told = [int(line.split()[1]) for line in lines[1:] if re.fullmatch(rb"told \d+\n", line)]
    return found and (int(found[1]), told[-1] if told else int(found[1]))


def try_kills(tally, language, command):
    """Kills the bank amid its transfers, and runs it again: each transfer that it told is there, and at most one more."""
    if not all(command):
        return
    chance, most, why = random.Random(KILLS[language]), 0, None
    with tempfile.TemporaryDirectory() as folder:
        for time_of in range(KILLS[language]):
            said = killed(command, pathlib.Path(folder) / "bank", chance.uniform(0.0, 0.2))
            if not said or not most <= said[0] <= most + 1:
                why = f"run {time_of}: {most} were told, and then {said} found and told"
                break
            most = said[1]
    print(f"bindings: {language} killed {KILLS[language]} times, {most} transfers told", flush=True)
    tally.count(f"{language} kills", why or (None if most else "no transfer was told"))


def try_rust(tally):
    if not tally.has("Rust", "cargo", "rustc"):
        return None
    for words in (["cargo", "test", "--offline", "--quiet"], ["cargo", "build", "--offline", "--release", "--lib", "--examples"]):
        if not tally.count(" ".join(words[:2]), why_of(run(*words, cwd=RUST))):
            return None
    examples = OUT / "cargo" / "release" / "examples"
    tally.count("Rust transfers", why_of(run(examples / "transfers"), COMMITTED))
    try_kills(tally, "Rust", [examples / "bank"])
    return [examples / "replay"]


def try_python(tally):
    tally.count("Python tests", why_of(run(sys.executable, "-m", "unittest", "discover", "-s", PYTHON / "tests")))
    tally.count("Python transfers", why_of(run(sys.executable, PYTHON / "examples" / "transfers.py"), COMMITTED))
    try_kills(tally, "Python", [sys.executable, PYTHON / "examples" / "bank.py"])
    return [sys.executable, PYTHON / "examples" / "replay.py"]


def command_of(tally, language, source):
    """The command that runs a program of README.md; None if it does not compile, or its compiler is missing."""
    if language == "python":
        return [sys.executable, source]
    if language == "c":
        program = compiled(tally, source)
        return program and [program]
    if not tally.has("README rust", "cargo", "rustc"):
        return None
    program, library = OUT / "readme_rust", OUT / "cargo" / "release" / "libtebaldi.rlib"
    built = run("rustc", "--edition", "2021", source, "--extern", f"tebaldi={library}", "-L", f"native={OUT}", "-o", program)
    return [program] if tally.count("rustc readme.rs", why_of(built)) else None


def try_readme(tally):
    """Runs the programs that README.md shows, each with its output below it."""
    text = (TOP / "README.md").read_text()
    for language in ("c", "rust", "python"):
        found = re.search(rf"(?ms)^```{language}\n(.*?)^```\n\n```\n(.*?)^```$", text)
        if not tally.count(f"README {language}", None if found else "it shows no program with its output"):
            continue
        source = OUT / ("readme" + {"c": ".c", "rust": ".rs", "python": ".py"}[language])
        source.write_text(found[1])
        command = command_of(tally, language, source)
        if command:
            tally.count(f"README {language} runs", why_of(run(*command), re.escape(found[2])))


def instructions(program, rounds, *names):
    """The instructions that these functions, with all that they call, take in a program with so many rounds; None if it failed."""
    profile = OUT / "callgrind.out"
    ran = run("valgrind", "--tool=callgrind", f"--callgrind-out-file={profile}", program, rounds)
    if ran.returncode:
        return None
    listed = run("callgrind_annotate", "--inclusive=yes", "--threshold=100", profile).stdout.decode()
    lines = [(int(count.replace(",", "")), name) for count, name in re.findall(r"(?m)^ *([\d,]+) \(.*?\) +(.*)$", listed)]
    return [max((count for count, line in lines if re.search(name, line)), default=0) for name in names]


def try_figures(tally, judges):
    """Prints what an ask from C costs, in instructions and beside the engine's answer alone, and the microseconds of a transfer from Python."""
    program = compiled(tally, C / "tests" / "asks.c", [*WARNINGS, "-O2"])
    if program and tally.has("the cost of an ask", "valgrind"):
        whole, answer = instructions(program, 1000, r":tebaldi_ask\b", r"engine_core.*respond") or (0, 0)
        cost = whole / answer if answer else 0.0
        print(f"bindings: {whole / 6000:.0f} instructions an ask from C, {cost:.2f} times the engine's answer", flush=True)
        tally.count("the cost of an ask", None if cost and (cost <= MOST_COST or not judges) else f"{cost} is not within {MOST_COST}")
    ran = run(sys.executable, PYTHON / "tests" / "transfer_cost.py")
    if tally.count("the time of a transfer", why_of(ran, r"[\d.]+\n")):
        taken = float(ran.stdout)
        print(f"bindings: {taken} microseconds a transfer from Python", flush=True)
        if judges:
            tally.count("the bound of a transfer", None if taken <= MOST_MICROSECONDS else f"{taken} is not within {MOST_MICROSECONDS}")


def is_replayed(it):
    """Whether a worked run replays an input of its own, in a tree that is right, or refused."""
    is_plain = isinstance(it, worked_runs.Run) and it.words == [b"replay"] and it.statuses in ([0], [6])
    return is_plain and isinstance(it.text, bytes) and isinstance(it.input, bytes) and not (it.output or it.breaks) and it.room is None


def try_runs(tally, replayers):
    """Replays the worked runs in each language."""
    runs = [(it, language) for it in worked_runs.all_runs([]) if is_replayed(it) for language in replayers]

    def differs(of):
        it, language = of
        ran = run(*replayers[language], input=it.input)
        return it.wrong(ran.returncode, ran.stdout)

    with concurrent.futures.ThreadPoolExecutor(len(os.sched_getaffinity(0))) as pool:
        for (it, language), why in zip(runs, pool.map(differs, runs)):
            tally.count(f"{language} {it.name}", why)
    print(f"bindings: {len(runs) // max(len(replayers), 1)} worked runs in {', '.join(replayers)}", flush=True)


def main():
    options = argparse.ArgumentParser(description=__doc__, formatter_class=argparse.RawDescriptionHelpFormatter)
    options.add_argument("--library", type=pathlib.Path)
    options.add_argument("--skip-missing", action="store_true")
    options.add_argument("--after-gate", action="store_true")
    options.add_argument("--figures", action="store_true")
    given = options.parse_args()
    tally = Tally(given.skip_missing)
    lacking = kit_rt.note_libraries(kit_rt.load(), str(TOP), "tebaldi_c") if given.after_gate else []
    if lacking:
        why = f"the gate has left none of the present files for {', '.join(lacking)}: ./check build proves them again, and ./check bindings tries them"
        tally.count("the libraries below tebaldi_c", why)
    elif tally.has("the library", *(["gcc", "ar"] if given.library else ["rt", "gcc", "ar"])) and tally.count("the library", make_library(given.library)):
        replayers = {"C": try_c(tally), "Rust": try_rust(tally), "Python": try_python(tally)}
        try_readme(tally)
        try_figures(tally, given.figures)
        try_runs(tally, {language: words for language, words in replayers.items() if words})
    for it in tally.skipped:
        print(f"bindings: not tried: {it}")
    print(f"{tally.passed} passed, {tally.failed} failed")
    return tally.failed != 0


if __name__ == "__main__":
    sys.exit(main())
