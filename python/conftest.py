"""Where no variable says otherwise, the tests run on the files of dist/."""

import os
from pathlib import Path

DIST = Path(__file__).resolve().parent.parent / "dist"

os.environ.setdefault("HIKEBOX_LIBRARY", str(DIST / "libhikebox.so"))
os.environ.setdefault("HIKEBOX_ZSCHED", str(DIST / "zsched"))
