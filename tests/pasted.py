#!/usr/bin/env python3
"""tests/pasted.py [--but WORD].. COMMAND..: starts a shell by this command on a terminal, enters the folder hikebox
and types all of its blocks in README.md there at once, as one who pastes them. It prints a line for each block, with
the status that the shell has after it, and what the shell showed where that is not 0, or what the page promises is not
there. --but leaves out the blocks that have this word."""

import os
import pathlib
import pty
import re
import select
import sys
import time

README = pathlib.Path(__file__).resolve().parent.parent / "README.md"
#: What the page says that a block does: a word in the block, and what is shown then.
PROMISED = [
    ("first.py", ["# Hikebox"]),
    ("hikebox run", ["0: (0, 100) next 100", "here at last", "it ended with 0"]),
    ("cc ", ["won after 3 runs, 2 retries granted"]),
    ("bin/zsched", ["0: (0, 0) next 100", "100: (1, 1) next 200", " passed, 0 failed"]),
]
#: What no shell shows where all goes well.
WRONG = re.compile(r"not found|[Ss]yntax ?[Ee]rror|parse error|Traceback|warning:", re.M)
#: Seconds without a word after which the shell is taken to hang.
PATIENCE = 900


def blocks(text, without):
    """The blocks that are typed."""
    found = re.findall(r"^```sh\n(.*?)^```$", text, re.M | re.S)
    return [block for block in found if not any(word in block for word in without)]


def shows(terminal, text):
    """Types the text, and returns all that the terminal shows until the shell ends."""
    left, shown, last = text.encode(), b"", time.monotonic()
    while time.monotonic() < last + PATIENCE:
        ready = select.select([terminal], [terminal] if left else [], [], 1)
        if ready[0]:
            try:
                got = os.read(terminal, 65536)
            except OSError:
                break
            if not got:
                break
            shown, last = shown + got, time.monotonic()
        if ready[1]:
            left = left[os.write(terminal, left[:256]) :]
            time.sleep(0.01)
    return re.sub(r"\x1b(\[[0-9;?]*[a-zA-Z]|[=>])|\r", "", shown.decode(errors="replace"))


def main():
    words, without = sys.argv[1:], []
    while words and words[0] == "--but":
        without.append(words[1])
        words = words[2:]
    if not words:
        sys.exit(__doc__)
    child, terminal = pty.fork()
    if not child:
        os.execvp(words[0], words)
    os.set_blocking(terminal, False)
    pasted = blocks(README.read_text(), without)
    # (after a block the shell says its number and the status)
    text = "".join(f'{block}echo "<$?> after {number}"\n' for number, block in enumerate(pasted, 1))
    shown = shows(terminal, f"cd hikebox\n{text}exit\n")
    os.close(terminal)
    os.waitpid(child, 0)
    failed = False
    for number, block in enumerate(pasted, 1):
        # (the line itself is shown too, with another word in the place of the status)
        part, status, shown = (re.split(rf"<(\d+)> after {number}\b", shown, maxsplit=1) + ["none", ""])[:3]
        promised = [line for word, lines in PROMISED if word in block for line in lines if line not in part]
        wrong = sorted(set(WRONG.findall(part)))
        good = status == "0" and not promised and not wrong
        failed |= not good
        print(f"{'passed' if good else 'FAILED'}  block {number} ends with {status}: {block.splitlines()[0][:70]}")
        if not good:
            print(f"missing: {promised}; wrong: {wrong}\n" + re.sub("^", "    ", part, flags=re.M))
    sys.exit(failed)


if __name__ == "__main__":
    main()
