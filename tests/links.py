#!/usr/bin/env python3
"""Follows the links of the pages: tests/links.py [FOLDER]

- Each link of README.md, docs/*.md and the crates' READMEs that is no address of the web leads to a file or a folder
  that is there, and if it has an anchor, to a heading of that page.
- No line of README.md outside tables and blocks has over 160 characters.
- Each line of a call that a crate's README quotes is a line of the crate's src.

FOLDER is that of the pages, by default the repository. The last line that is printed is 'N passed, M failed'.
"""
import glob
import os
import re
import sys

ROOT = os.path.abspath(sys.argv[1]) if sys.argv[1:] else os.path.dirname(os.path.dirname(os.path.abspath(__file__)))
LINK = re.compile(r"\[[^\]]*\]\(([^)\s]+)\)")
COLUMNS = 160


def lines_of(page):
    with open(page, encoding="utf-8") as file:
        return file.read().splitlines()


def prose(page):
    """The lines of a page outside blocks."""
    return [line for line in lines_of(page) if not line.startswith("    ")]


def anchors(page):
    """The anchors of a page's headings, as GitHub makes them."""
    headings = [line.lstrip("#").strip().lower() for line in prose(page) if line.startswith("#")]
    return {re.sub(r"[^\w\- ]", "", heading).replace(" ", "-") for heading in headings}


def leads_somewhere(page, link):
    path, _, anchor = link.partition("#")
    target = os.path.normpath(os.path.join(os.path.dirname(page), path)) if path else page
    return os.path.exists(target) and (not anchor or anchor in anchors(target))


def quoted(page):
    """The lines of the calls that a page quotes with their clauses."""
    blocks = re.findall(r"^```rust\n(.*?)^```$", "\n".join(lines_of(page)) + "\n", re.M | re.S)
    return [line.strip() for block in blocks if "ensures" in block for line in block.splitlines() if line.strip()]


def misquoted(page):
    """The lines of quoted calls that no file of the crate's src has."""
    files = glob.glob(f"{os.path.dirname(page)}/src/**/*.rt", recursive=True)
    source = {line.strip() for file in files for line in lines_of(file)}
    return [line for line in quoted(page) if line not in source]


def main():
    patterns = ["README.md", "docs/*.md", "crates/*/README.md"]
    pages = sorted(page for pattern in patterns for page in glob.glob(f"{ROOT}/{pattern}"))
    links = [(page, link) for page in pages for line in prose(page) for link in LINK.findall(line)]
    links = [(page, link) for page, link in links if "://" not in link]
    failed = [f"{os.path.relpath(page, ROOT)}: {link}" for page, link in links if not leads_somewhere(page, link)]
    long = [line for line in prose(f"{ROOT}/README.md") if len(line) > COLUMNS and not line.startswith("|")]
    failed += [f"README.md: over {COLUMNS} characters: {line}" for line in long]
    readmes = [page for page in pages if "/crates/" in page]
    failed += [f"{os.path.relpath(page, ROOT)}: not in src: {line}" for page in readmes for line in misquoted(page)]
    quotes = sum(len(quoted(page)) for page in readmes)
    print("".join(f"FAILED {it}\n" for it in failed), end="")
    print(f"links: {len(links) + quotes + 1 - len(failed)} passed, {len(failed)} failed")
    return 1 if failed or not links else 0


if __name__ == "__main__":
    sys.exit(main())
