"""Lays the pages of the repository out for Sphinx: README.md as the first page, each page where its links lead to it,
and a table of contents."""

import pathlib
import re
import shutil

# The pages in their order, by headings of the table of contents; a page that stands in none comes last.
CONTENTS = {
    "Guides": ["docs/INSTALL", "docs/PYTHON", "docs/RUST", "docs/C", "docs/COOKBOOK"],
    "Limits": ["docs/BUDGETS", "docs/LIMITS", "docs/MACHINES", "docs/STORMS"],
    "Moving here": [
        "docs/FROM-TENACITY",
        "docs/FROM-BACKOFF-PYTHON",
        "docs/FROM-BACKOFF",
        "docs/FROM-TOWER",
        "docs/FROM-RESILIENCE4J",
    ],
    "Reference": ["reference/python", "reference/rust", "reference/c", "reference/programs", "docs/GLOSSARY"],
    "The engine": ["docs/RATTLE", "docs/ARCHITECTURE", "docs/DESIGN", "docs/DECISIONS", "docs/decisions/*"],
    "Proofs and tests": ["docs/PROOFS", "docs/TESTING", "docs/BENCHMARKS", "docs/reports/*"],
    "The project": ["CHANGELOG", "docs/VERSIONS", "CONTRIBUTING", "SECURITY"],
}
# Files that the site shows as a page of the reference.
SHOWN = [
    ("include/hikebox.h", "reference/c.md"),
    ("python/src/hikebox/limits/", "reference/python/limits.rst"),
    ("python/src/hikebox/leased/", "reference/python/leased.rst"),
    ("python/src/hikebox/retry/", "reference/python/retries.rst"),
    ("python/src/hikebox/", "reference/python.rst"),
    ("rust/README.md", "reference/rust.md"),
]


def links_of(text):
    """The links of a page outside of its blocks, as matches of the name and the anchor."""
    blocks = [match.span() for match in re.finditer(r"^```.*?^```", text, flags=re.M | re.S)]
    for match in re.finditer(r"(?<=\]\()([^)#\s]+)", text):
        if not match[1].startswith("http") and not any(start < match.start() < end for start, end in blocks):
            yield match


def led_to(top, page, name):
    """What a link of a page leads to in the site, from the top; a file that is no page is copied there."""
    path = str((top / page).parent.joinpath(name).resolve().relative_to(top))
    if path == "README.md":
        return "index.md"
    return next((shown for prefix, shown in SHOWN if path.startswith(prefix)), path)


def relinked(top, page, text):
    """The text of a page with each link as the site has it, and the files that are no pages and that it leads to."""
    files, parts, end = [], [], 0
    up = "../" * (len(pathlib.PurePath("index.md" if page == "README.md" else page).parts) - 1)
    for match in links_of(text):
        target = led_to(top, page, match[1])
        parts += [text[end : match.start()], up + target]
        end = match.end()
        if not target.endswith((".md", ".rst")):
            files.append(target)
    return "".join([*parts, text[end:]]), files


def lay_out(top, folder):
    """Writes all pages into the folder, with the files that they lead to."""
    pages = [*top.glob("*.md"), *top.glob("docs/**/*.md")]
    for path in pages:
        page = str(path.relative_to(top))
        text, files = relinked(top, page, path.read_text(encoding="utf-8").replace("```rust,ignore", "```rust"))
        to = folder / ("index.md" if page == "README.md" else page)
        to.parent.mkdir(parents=True, exist_ok=True)
        to.write_text(text, encoding="utf-8")
        for name in files:
            (folder / name).parent.mkdir(parents=True, exist_ok=True)
            if (top / name).is_dir():
                shutil.copytree(top / name, folder / name, dirs_exist_ok=True)
            else:
                shutil.copy(top / name, folder / name)


def add_contents(folder):
    """Adds the table of contents to the first page."""
    left = {
        str(path.relative_to(folder).with_suffix("")) for path in folder.rglob("*") if path.suffix in (".md", ".rst")
    }
    left = {name for name in left if name != "index" and not name.startswith("reference/python/")}
    lines = []
    for caption, patterns in [*CONTENTS.items(), ("More", ["*"])]:
        names = []
        for pattern in patterns:
            found = sorted(name for name in left if pathlib.PurePath(name).match(pattern))
            names += found
            left -= set(found)
        if names:
            lines += ["", "```{toctree}", ":hidden:", f":caption: {caption}", ":maxdepth: 1", "", *names, "```"]
    with (folder / "index.md").open("a", encoding="utf-8") as index:
        index.write("\n".join([*lines, ""]))
