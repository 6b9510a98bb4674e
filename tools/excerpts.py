#!/usr/bin/env python3
"""Checks that the code shown in docs/, README.md and CONTRIBUTING.md is cut out of the files that it names, and that the links of each page lead to what they name.

A block below a line `<!-- excerpt: FILE -->` is a run of lines of that file; some page has one. A link leads to a file, or to a heading of a page. If the text of
a link is names in backticks, each is in the file or in its path. The last line is `excerpts: N passed, M failed`; the links of a page count as one.
"""
import re
import sys

from pages import PAGES, TOP, name_of


def headings(page):
    """The anchors of a page: one for each heading."""
    text = re.sub(r"(?ms)^```.*?^```$", "", page.read_text())
    return {re.sub(r"[^\w\- ]", "", it.lower()).replace(" ", "-") for it in re.findall(r"(?m)^#+ (.*)$", text)}


def missing(text, file):
    """The names in backticks of a link's text that are neither in the file nor in its path; none if the text is anything else."""
    if not file.is_file() or not re.fullmatch(r"`[^`]+`(, `[^`]+`)*", text):
        return []
    words = [it.split()[0].split("::")[-1] for it in re.findall(r"`([^`]+)`", text)]
    return [it for it in words if it not in str(file.relative_to(TOP)) and not re.search(rf"\b{re.escape(it)}\b", file.read_text())]


def faults_of_links(page):
    """What is wrong with the links of a page."""
    for text, name, anchor in re.findall(r"\[([^\]]*)\]\(([^)#:]*)(?:#([^)]*))?\)", page.read_text()):
        file = (page.parent / name).resolve() if name else page
        if not file.exists():
            yield f"there is no {name}"
            continue
        if anchor and anchor not in headings(file):
            yield f"{file.name} has no heading {anchor}"
        yield from (f"{it} is not in {name}" for it in missing(text, file))


def main():
    passed = failed = excerpts = 0
    for page in PAGES:
        text = page.read_text()
        blocks = re.findall(r"(?ms)^<!-- excerpt: (\S+) -->\n```\w*\n(.*?)^```$", text)
        lost = text.count("<!-- excerpt") - len(blocks)
        excerpts, failed = excerpts + len(blocks), failed + lost
        if lost:
            print(f"FAILED {name_of(page)}: {lost} lines `<!-- excerpt: FILE -->` have no block below them")
        for name, block in blocks:
            file = TOP / name
            is_there = file.exists() and f"\n{block}" in f"\n{file.read_text()}"
            passed, failed = passed + is_there, failed + (not is_there)
            if not is_there:
                print(f"FAILED {name_of(page)}: the block that begins with `{block.splitlines()[0].strip()}` is not in {name}")
        faults = list(faults_of_links(page))
        passed, failed = passed + (not faults), failed + bool(faults)
        for fault in faults:
            print(f"FAILED {name_of(page)}: {fault}")
    if not excerpts:
        failed += 1
        print("FAILED: no page has an excerpt")
    print(f"excerpts: {passed} passed, {failed} failed")
    return 1 if failed else 0


if __name__ == "__main__":
    sys.exit(main())
