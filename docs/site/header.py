"""The reference of the C library, made of what include/hikebox.h says: a page of MyST with Sphinx' directives for C."""

import re
import textwrap

HEAD = "# C\n\n"
# A comment, or a declaration up to what ends it.
ITEM = re.compile(
    r"/\*(?P<comment>.*?)\*/(?P<after>\n*)"
    r"|^#define (?P<macro>HIKEBOX_\w+(?:\([^)]*\))?)(?:\\\n|[^\n])*"
    r"|^typedef struct \{(?P<members>.*?)\} (?P<struct>\w+);"
    r"|^typedef \w+ (?P<type>\w+);"
    r"|^(?:typedef )?enum \{(?P<values>.*?)\}(?: (?P<enum>\w+))?;"
    r"|^(?:HIKEBOX_(?:CHECKED|IMPORTED) )?(?P<func>(?:hikebox_status |const char \*)hikebox_\w+\([^;]*\));",
    re.M | re.S,
)
# A comment between the braces of a struct or an enum, or a member or a value.
PART = re.compile(r"/\*(?P<comment>.*?)\*/|(?P<part>[^;,\s/][^;,/]*?)\s*(?:[;,]|$)", re.S)
NAMES = re.compile(r"`[^`]*`|\b(?:hikebox|HIKEBOX)_\w*[a-zA-Z0-9]\b(?![_.]\.)|(?<!\w)_[A-Z]\w+")


def said(comment):
    """The text of a comment, as Markdown: lines that stand further in are a block of code."""
    lines = textwrap.dedent(re.sub(r"^ \* ?| \*$", "", f" {comment.lstrip('*')}", flags=re.M)).strip().splitlines()
    out = []
    for line in lines:
        if line.startswith("    ") != bool(out and out[-1].startswith("    ")) and out and line and out[-1]:
            out.append("")
        out.append(line)
    return "\n".join(out)


def role_of(header):
    """The role of Sphinx for each name that the header declares."""
    roles = {}
    for item in ITEM.finditer(header):
        for kind in ("macro", "struct", "type", "enum", "func"):
            if item[kind]:
                roles[re.sub(r"\(.*", "", item[kind], flags=re.S).split()[-1].lstrip("*")] = kind
        if item["values"]:
            roles.update((match, "enumerator") for match in re.findall(r"^ +(HIKEBOX_\w+) =", item["values"], re.M))
    return roles


def linked(text, roles):
    """The text with each name of the header as a link, outside of blocks and of other code."""

    def link(match):
        name = match[0].strip("`")
        full = f"HIKEBOX{name}" if name.startswith("_") else name
        return f"{{c:{roles[full]}}}`{name} <{full}>`" if full in roles else f"`{name}`"

    lines = text.splitlines()
    return "\n".join(line if line.startswith("    ") else NAMES.sub(link, line) for line in lines)


def directive(kind, what, text, fence="```"):
    return f"{fence}{{c:{kind}}} {' '.join(what.split())}\n{text}\n{fence}\n\n"


def parts_of(body, kind, roles):
    """The members of a struct, or the values of an enum, each with the comment above it."""
    text = ""
    for match in PART.finditer(body):
        if match["part"]:
            yield directive(kind, match["part"], text)
        text = linked(said(match["comment"]), roles) if match["comment"] else ""


def declared(item, text, roles):
    """What stands for a declaration, with the text of the comment above it."""
    if item["struct"]:
        members = "".join(parts_of(item["members"], "member", roles))
        return directive("struct", item["struct"], f"{text}\n\n{members}", "````")
    if item["values"]:
        above = directive("enum", item["enum"], text) if item["enum"] else f"{text}\n\n"
        return above + "".join(parts_of(item["values"], "enumerator", roles))
    (kind,) = [kind for kind in ("macro", "type", "func") if item[kind]]
    return directive("function" if kind == "func" else kind, item[kind], text)


def page_of(header):
    """The whole page."""
    header = re.sub(r"^#if.*?^#endif\n|^#ifndef.*?\n", "", header, flags=re.M | re.S)
    roles, out, above = role_of(header), [HEAD], ""
    for item in ITEM.finditer(header):
        if item["comment"] is None:
            out.append(declared(item, above, roles))
            above = ""
            continue
        heading = re.fullmatch(r" -+ (.*?) -+ ", item["comment"])
        text = f"## {heading[1]}" if heading else linked(said(item["comment"]), roles)
        text = re.sub(r"(?<=\n\n)([A-Z]{4,}(?: [A-Z]+)*)\. ", lambda word: f"## {word[1].capitalize()}\n\n", text)
        is_above = item["after"] == "\n" and not heading
        above = text if is_above else ""
        out += [] if is_above else [text, "\n\n"]
    return "".join(out)
