#!/usr/bin/env python3
"""Finds dead links in README.md, docs/*.md and fire/README.md: a relative link whose file or folder is not there, or whose
anchor no heading of the page has. Prints a line for each with its page and line, and then ends with 1."""
import functools
import pathlib
import re

TOP = pathlib.Path(__file__).resolve().parent.parent
LINK = re.compile(r"\[[^\]]*\]\(([^)\s]+)\)")
ELSEWHERE = re.compile(r"[a-z]+:")


def prose(page):
    """The lines of a page by number, without those of code blocks."""
    fenced = False
    for number, line in enumerate(page.read_text().splitlines(), 1):
        if line.startswith("```"):
            fenced = not fenced
        elif not fenced:
            yield number, line


@functools.cache
def anchors(page):
    """The anchors of a page's headings: small letters, no punctuation, a hyphen for a space, and a number where one is there."""
    found = set()
    for _, line in prose(page):
        if heading := re.match(r"#+ +(.*)", line):
            anchor = re.sub(r"[^\w\- ]", "", heading[1].lower()).replace(" ", "-")
            count = sum(it == anchor or re.fullmatch(re.escape(anchor) + r"-\d+", it) is not None for it in found)
            found.add(f"{anchor}-{count}" if count else anchor)
    return found


def is_dead(page, target):
    path, _, anchor = target.partition("#")
    to = (page.parent / path).resolve() if path else page
    return not to.exists() or (anchor != "" and (to.suffix != ".md" or anchor not in anchors(to)))


def dead_links():
    for page in [TOP / "README.md", *sorted((TOP / "docs").glob("*.md")), TOP / "fire/README.md"]:
        for number, line in prose(page):
            for target in LINK.findall(re.sub(r"`[^`]*`", "", line)):
                if not ELSEWHERE.match(target) and is_dead(page, target):
                    yield f"{page.relative_to(TOP)}:{number}: {target}"


if __name__ == "__main__":
    found = list(dead_links())
    print("\n".join(found) or "no dead link")
    raise SystemExit(1 if found else 0)
