"""What the engine says that it is built for."""

from __future__ import annotations

import os
import platform
from pathlib import Path

import hikebox
from hikebox.built import BuildInfo


def test_the_engine_here_is_proved_for_its_target() -> None:
    target = f"{platform.machine()}-unknown-linux-gnu"
    assert hikebox.build_info() == BuildInfo(hikebox.__version__, target, target)
    assert hikebox.build_info().is_proved


def test_each_engine_of_dist_names_its_target_and_the_one_that_is_proved() -> None:
    dist = Path(os.environ.get("HIKEBOX_LIB_DIR") or Path(__file__).resolve().parents[2] / "dist")
    for engine in dist.glob("*-*-*/*hikebox.d*"):
        target = engine.parent.name
        processor = target.split("-")[0]
        assert f"{target} of {processor}-unknown-linux-gnu\0".encode() in engine.read_bytes()
    assert not BuildInfo("1.0.0", "x86_64-pc-windows-gnu", "x86_64-unknown-linux-gnu").is_proved
