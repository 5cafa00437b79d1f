#!/usr/bin/env python3
"""Each link of the pages, to a file of the repository or to a heading, leads somewhere, and each wrong body that
docs/PROOFS.md names is one, and README.md has at most 900 words."""

import pathlib
import re
import sys

TOP = pathlib.Path(__file__).resolve().parent.parent
PAGES = [*TOP.glob("*.md"), *TOP.glob("docs/**/*.md"), TOP / "rust/README.md", TOP / "python/README.md"]


def prose(page):
    """The page without its blocks."""
    return re.sub(r"^```.*?^```", "", page.read_text(), flags=re.M | re.S)


def anchors(page):
    """What a link to a heading of this page may be called."""
    headings = re.findall(r"^#+ (.*)$", prose(page), flags=re.M)
    return {re.sub(r"[^\w\- ]", "", heading.strip().lower()).replace(" ", "-") for heading in headings}


def no_wrong_bodies():
    """The wrong bodies that docs/PROOFS.md names and that are none, as a crate and an edit of it."""
    for crate, name in re.findall(r"`(\w+)/(\w+)`", (TOP / "docs/PROOFS.md").read_text()):
        folder = TOP / "crates" / crate
        if folder.is_dir() and not (folder / "specs" / name).exists() and not any(folder.rglob(f"{name}.edit")):
            yield f"docs/PROOFS.md: there is no wrong body {crate}/{name}"


def main():
    wrong, count = [*no_wrong_bodies()], 0
    for page in PAGES:
        for link in re.findall(r"\]\(([^)]+)\)", prose(page)):
            if link.startswith("http"):
                continue
            count += 1
            name, _, anchor = link.partition("#")
            leads_to = (page.parent / name).resolve() if name else page
            if not leads_to.exists() or (anchor and anchor not in anchors(leads_to)):
                wrong.append(f"{page.relative_to(TOP)}: {link} leads nowhere")
    words = len((TOP / "README.md").read_text().split())
    if words > 900:
        wrong.append(f"README.md: expected at most 900 words, got {words}")
    if wrong:
        sys.exit("\n".join(f"tests/links.py: {one}" for one in wrong))
    print(f"tests/links.py: {count} links of {len(PAGES)} pages lead somewhere")


if __name__ == "__main__":
    main()
