"""Makes the manual pages: `manual.py HEADER FOLDER [ZSCHED]` writes hikebox.3, which is what hikebox.h says, and
zsched.1, which is what that program's help says."""

import pathlib
import re
import subprocess
import sys


def escaped(line):
    """A line of text as roff has it."""
    line = line.replace("\\", "\\e").replace("-", "\\-")
    return "\\&" + line if line.startswith((".", "'")) else line


def verbatim(text):
    """Lines that stay as they are."""
    return [".nf", *map(escaped, text.strip("\n").split("\n")), ".fi"]


def comment(text):
    """The paragraphs of a comment of C; what is set in stays as it is."""
    lines = [re.sub(r"^\s*\* ?", "", line) for line in text.split("\n")]
    page, is_set_in, is_item = [], False, False
    for line in lines:
        is_item = line.startswith(" - ") or is_item and line.startswith("   ")
        if is_item:
            page += [".IP \\(bu 2", escaped(line[3:])] if line.startswith(" - ") else [escaped(line.strip())]
            continue
        if line.startswith("  ") != is_set_in:
            is_set_in = not is_set_in
            page.append(".nf" if is_set_in else ".fi")
        page.append(escaped(line) if line.strip() else ".PP")
    return page + [".fi"] * is_set_in


def header_page(text, version):
    page = [
        f'.TH HIKEBOX 3 "" "hikebox {version}" "Hikebox"',
        ".SH NAME",
        "hikebox \\- retry policies, retry budgets and quotas, and retries",
        ".SH SYNOPSIS",
        ".nf",
        "#include <hikebox.h>",
        ".PP",
        "cc program.c $(pkg\\-config \\-\\-cflags \\-\\-libs hikebox)",
        ".fi",
        ".SH DESCRIPTION",
    ]
    body = re.sub(r"(?m)^#(?:ifdef __cplusplus\n.*\n#endif|ifndef HIKEBOX_H|define HIKEBOX_H$|include .*)\n?", "", text)
    body = re.sub(r"#endif\s*\Z", "", body)
    for at, (said, declared) in enumerate(re.findall(r"(?ms)^/\*(.*?)\*/\n?(.*?)(?=^/\*|\Z)", body)):
        section = re.match(r" -+ (.*?) -+ ?$", said)
        if section:
            page.append(f".SH {section[1].upper()}")
        else:
            page += [".PP"] * bool(at) + comment(said.strip())
        if declared.strip():
            page += [".PP", *verbatim(declared)]
    return "\n".join(page) + "\n"


STATUSES = """\
0  what was asked for is done
2  a bad command line; a second line on standard error says why
3  a text that is no plan or no jobs; a second line (of check: one on standard output) says where, and what is
   wanted there. Or a text of more than 1048576 bytes
4  what can't be read or written; a second line says which stream, and why. Nothing is said where nobody reads
   the output
5  no memory
6  of pool: a job was not over, cancelled or broken; of storm: it was cut
7  of pool: a worker was not started
8  of pool: jobs were mixed up
"""


def program_page(zsched, version):
    def help_of(*words):
        return subprocess.run([zsched, *words, "--help"], capture_output=True, text=True, check=True).stdout

    whole = help_of()
    page = [
        f'.TH ZSCHED 1 "" "hikebox {version}" "Hikebox"',
        ".SH NAME",
        "zsched \\- runs recurrence schedules on a virtual clock",
        ".SH SYNOPSIS",
        *verbatim("zsched COMMAND [OPTIONS] [FILE]"),
        ".SH DESCRIPTION",
        *verbatim(whole),
    ]
    for command in re.findall(
        r"(?m)^  ([a-z]+) ", whole[whole.index("Commands:") : whole.index("\n\n", whole.index("Commands:"))]
    ):
        if command != "help":
            page += [f".SH {command.upper()}", *verbatim(help_of(command))]
    page += [".SH EXIT STATUS", *verbatim(STATUSES)]
    return "\n".join(page) + "\n"


def main():
    header, folder, *programs = map(pathlib.Path, sys.argv[1:])
    text = header.read_text()
    version = re.search(r'HIKEBOX_VERSION "(.*)"', text)[1]
    (folder / "hikebox.3").write_text(header_page(text, version))
    for program in programs:
        (folder / "zsched.1").write_text(program_page(program, version))


main()
