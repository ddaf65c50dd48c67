"""Looks for links that lead nowhere and lines that are too long. See scripts/links."""

import re
import sys
from functools import cache
from pathlib import Path
from urllib.parse import unquote

TOP = Path(__file__).resolve().parent.parent
PAGES = ("README.md", "docs/**/*.md", "bridges/**/*.md")
MOST_COLUMNS, MOST_LINES_OF_README = 100, 80
FENCE = re.compile(r" {0,3}(```+|~~~+)")
CODE = re.compile(r"(`+)(?!`).*?(?<!`)\1(?!`)")
HEADING = re.compile(r" {0,3}#{1,6}\s+(.*?)(?:\s+#+)?\s*$")
# Where links stand: [text](target "title"), [name]: target, and attributes of HTML.
TARGETS = (
    re.compile(r"\]\(\s*<?([^\s)>]+)>?(?:\s+[\"'(][^)]*)?\)"),
    re.compile(r"^ {0,3}\[[^\]^][^\]]*\]:\s*<?([^\s>]+)"),
    re.compile(r"<[^>]*?\b(?:href|src)=[\"']([^\"']+)"),
)
# A link that names its target elsewhere, [text][name], and what gives such a name.
NAMED = re.compile(r"\]\[([^\]]+)\]")
NAME = re.compile(r"^ {0,3}\[([^\]^][^\]]*)\]:")
# A row of a table, or a word alone, be it in a list: no line break can stand in it.
UNBROKEN = re.compile(r" *\||[ >*+-]*(?:\d+\. +)?\S+$")
OTHER_SITE = re.compile(r"[a-z][a-z0-9+.-]*:|//", re.I)
OWN_ANCHOR = re.compile(r"<[^>]*?\b(?:id|name)=[\"']([^\"']+)")


@cache
def lines_of(page):
    """The lines of a page, each with whether it stands in a fenced block."""
    lines, fence = [], ""
    for line in page.read_text().splitlines():
        found = FENCE.match(line)
        is_edge = found and (not fence or found[1].startswith(fence))
        lines.append((line, bool(fence or is_edge)))
        if is_edge:
            fence = "" if fence else found[1]
    return lines


def slug_of(heading):
    """The anchor of a heading: its words as they are shown, in small letters, joined by hyphens."""
    shown = re.sub(r"!?\[([^\]]*)\](?:\([^)]*\)|\[[^\]]*\])", r"\1", heading)
    shown = re.sub(r"<[^>]+>|[*`]|(?<!\w)_|_(?!\w)", "", shown)
    return re.sub(r"[^\w\- ]", "", shown.strip().lower()).replace(" ", "-")


@cache
def anchors_of(page):
    """The anchors of a page. A heading that stands more than once gets a number after the first."""
    anchors, counts = set(), {}
    for line, is_fenced in lines_of(page):
        if is_fenced:
            continue
        anchors.update(OWN_ANCHOR.findall(line))
        if heading := HEADING.match(line):
            slug = slug_of(heading[1])
            count = counts[slug] = counts.get(slug, -1) + 1
            anchors.add(f"{slug}-{count}" if count else slug)
    return anchors


def fault_of(page, target):
    """What is wrong with the target of a link, if anything is."""
    path, _, anchor = map(unquote, target.partition("#"))
    if path.startswith("/"):
        return f"{target} is no relative link"
    to = (page.parent / path).resolve() if path else page
    if TOP not in to.parents and to != TOP:
        return f"{target} leads out of the repository"
    if not to.exists():
        return f"{target} leads nowhere"
    if anchor and to.suffix == ".md" and anchor not in anchors_of(to):
        return f"{target}: there is no such heading"
    return None


def link_faults(page):
    """The links of a page that lead nowhere, with their lines."""
    shown = [(number, line) for number, (line, is_fenced) in enumerate(lines_of(page), 1) if not is_fenced]
    lines = [(number, CODE.sub("", line)) for number, line in shown]
    names = {found[1].lower() for _, line in lines if (found := NAME.match(line))}
    for number, line in lines:
        for target in (it for form in TARGETS for it in form.findall(line)):
            if not OTHER_SITE.match(target) and (fault := fault_of(page, target)):
                yield number, fault
        for name in NAMED.findall(line):
            if name.lower() not in names:
                yield number, f"[{name}] is given no target"


def length_faults(page):
    """The lines of a page that are too long though they could be broken, and a README that is too long."""
    lines = lines_of(page)
    for number, (line, is_fenced) in enumerate(lines, 1):
        if len(line) > MOST_COLUMNS and not is_fenced and not UNBROKEN.match(line):
            yield number, f"{len(line)} columns, where {MOST_COLUMNS} are the most"
    if page == TOP / "README.md" and len(lines) > MOST_LINES_OF_README:
        yield len(lines), f"{len(lines)} lines, where {MOST_LINES_OF_README} are the most"


def main():
    pages = [Path(it).resolve() for it in sys.argv[1:]] or sorted(page for it in PAGES for page in TOP.glob(it))
    count = 0
    for page in pages:
        shown = page.relative_to(TOP) if TOP in page.parents else page
        for number, fault in sorted([*link_faults(page), *length_faults(page)]):
            print(f"{shown}:{number}: {fault}")
            count += 1
    print(f"links: {len(pages)} pages, {count} faults")
    return 1 if count else 0


sys.exit(main())
