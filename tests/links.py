#!/usr/bin/env python3
"""links.py [FOLDER]: names each link of a page of the repository that leads to no file, or to no heading of that file. Of a folder, as that of a release, all pages
are looked at, and no link may lead out of it. Links to the web are left alone. The status is 1 where a link leads nowhere, or there is none."""
import re
import subprocess
import sys
from pathlib import Path

TOP = Path(__file__).resolve().parent.parent
FENCE = re.compile(r"^(```|~~~).*?^\1[^\S\n]*$", re.MULTILINE | re.DOTALL)
LINK = re.compile(r"\]\(([^()\s]+)\)")
HEADING = re.compile(r"^#+ +(.*?) *#*$", re.MULTILINE)
MARKUP = re.compile(r"\[([^\]]*)\]\([^)]*\)")


def anchors(text):
    """The anchors of a page's headings: small letters, hyphens for spaces, no marks, and a number where a heading comes again."""
    count = {}
    for heading in HEADING.findall(FENCE.sub("", text)):
        name = re.sub(r"[^\w\- ]", "", MARKUP.sub(r"\1", heading).lower()).replace(" ", "-")
        again = count.get(name, 0)
        count[name] = again + 1
        yield f"{name}-{again}" if again else name


def pages_of(folder):
    """All pages of a folder; without one those that the repository knows."""
    if folder:
        return sorted(folder.rglob("*.md"))
    listed = subprocess.run(["git", "ls-files", "*.md"], cwd=TOP, check=True, capture_output=True, text=True).stdout.split()
    return [TOP / name for name in listed]


def main(words):
    folder = Path(words[0]).resolve() if words else None
    top = folder or TOP
    pages = {page: page.read_text() for page in pages_of(folder)}
    heads = {page: set(anchors(text)) for page, text in pages.items()}
    links = dead = 0
    for page, text in pages.items():
        for link in LINK.findall(FENCE.sub("", text)):
            if re.match(r"[a-z]+:", link):
                continue
            links += 1
            name, _, anchor = link.partition("#")
            target = (page.parent / name).resolve() if name else page
            if not (target.is_relative_to(top) and target.exists()) or anchor and anchor not in heads.get(target, ()):
                dead += 1
                print(f"{page.relative_to(top)}: {link} leads nowhere")
    print(f"links.py: {len(pages)} pages, {links} links, {dead} lead nowhere")
    return dead > 0 or links == 0


if __name__ == "__main__":
    sys.exit(main(sys.argv[1:]))
