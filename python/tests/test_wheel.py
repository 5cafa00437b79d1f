"""How the wheel and the source archive are built: with the engine of the platform in them, or not at all."""

from __future__ import annotations

import os
import shutil
import subprocess
import sys
import tarfile
import zipfile
from pathlib import Path
from typing import Any

import pytest
from conftest import TOP

VERSION = (TOP / "VERSION").read_text().strip()
X86_64 = b"\x7fELF".ljust(18, b"\0") + b"\x3e\0"
AARCH64 = b"\x7fELF".ljust(18, b"\0") + b"\xb7\0"
#: What libraries for other systems begin with, and the tag of their wheels.
OTHERS = {
    "x86_64-apple-darwin": (b"\xcf\xfa\xed\xfe\x07\0\0\x01", "macosx_10_13_x86_64"),
    "aarch64-apple-darwin": (b"\xcf\xfa\xed\xfe\x0c\0\0\x01", "macosx_11_0_arm64"),
    "x86_64-pc-windows-gnu": (b"MZ".ljust(60, b"\0") + b"\x40\0\0\0PE\0\0\x64\x86", "win_amd64"),
}


def build(kind: str, sources: Path, folder: Path, before: str = "", **environment: str) -> Any:
    """What build_backend.py does there, after the statements in `before`."""
    kept = {name: value for name, value in os.environ.items() if not name.startswith("HIKEBOX_")}
    words = ["build_backend.py", kind, str(folder)]
    code = f"import platform, sys, build_backend; {before}\nsys.argv = {words}; build_backend.main()"
    return subprocess.run(
        [sys.executable, "-c", code],
        cwd=sources,
        env={**kept, **environment},
        capture_output=True,
        text=True,
        timeout=100,
    )


def engine_in(folder: Path) -> Any:
    """The names of the files in the wheel there, and the engine."""
    (wheel,) = folder.glob("*.whl")
    with zipfile.ZipFile(wheel) as files:
        return wheel.name, set(files.namelist()), files.read("hikebox/libhikebox.so")


@pytest.fixture
def sources(tmp_path: Path) -> Path:
    """The package's sources, far from any dist/."""
    made = tmp_path / "far" / "python"
    shutil.copytree(
        TOP / "python" / "src", made / "src", ignore=shutil.ignore_patterns("*.so", "__pycache__", "*.egg-info")
    )
    shutil.copytree(TOP / "python" / "share", made / "share")
    for name in ("build_backend.py", "pyproject.toml", "PKG-INFO", "README.md", "LICENSE"):
        shutil.copy(TOP / "python" / name, made)
    return made


@pytest.fixture
def with_engines(sources: Path) -> Path:
    """The same with an engine for each machine beside it."""
    for machine, engine in {"x86_64": X86_64, "aarch64": AARCH64}.items():
        (sources / "lib" / machine).mkdir(parents=True)
        (sources / "lib" / machine / "libhikebox.so").write_bytes(engine)
    return sources


def test_a_wheel_without_the_engine_is_not_built(sources: Path, tmp_path: Path) -> None:
    for kind in ("wheel", "sdist"):
        done = build(kind, sources, tmp_path / "out")
        assert done.returncode == 1 and "hikebox: the engine is missing: no " in done.stderr
    assert build("wheel", sources, tmp_path / "out", HIKEBOX_LIBRARY="/none.so").returncode == 1
    assert not list((tmp_path / "out").iterdir())


@pytest.mark.parametrize(
    "machine, engine, tag",
    [
        ("x86_64", X86_64, "manylinux_2_14_x86_64.musllinux_1_2_x86_64"),
        ("aarch64", AARCH64, "manylinux_2_17_aarch64.musllinux_1_2_aarch64"),
    ],
)
def test_the_engine_is_that_of_the_machine(
    with_engines: Path, tmp_path: Path, machine: str, engine: bytes, tag: str
) -> None:
    done = build("wheel", with_engines, tmp_path / "a", f"platform.machine = lambda: {machine!r}")
    assert done.returncode == 0, done.stderr
    name, files, inside = engine_in(tmp_path / "a")
    assert (name, inside) == (f"hikebox-{VERSION}-py3-none-{tag}.whl", engine)
    assert {"hikebox_program.py", "hikebox/py.typed", "hikebox/adapters/httpx.py"} <= files
    assert {"hikebox/lab/page.html", "hikebox/lab/lab.css", "hikebox/lab/lab.js"} <= files
    assert "hikebox_pytest.py" in files
    done = build("wheel", with_engines, tmp_path / "b", HIKEBOX_PLATFORM=machine)
    assert engine_in(tmp_path / "b") == (name, files, inside)


@pytest.mark.parametrize(
    "before, got",
    [
        ("sys.platform = 'darwin'; platform.machine = lambda: 'arm64'", "darwin on arm64"),
        ("sys.platform = 'win32'; platform.machine = lambda: 'AMD64'", "win32 on AMD64"),
        ("platform.machine = lambda: 'riscv64'", "linux on riscv64"),
        ("platform.machine = lambda: 'x86_64'; sys.maxsize = 2**31 - 1", "linux on x86_64"),
    ],
)
def test_another_platform_is_refused_in_a_sentence(with_engines: Path, tmp_path: Path, before: str, got: str) -> None:
    done = build("wheel", with_engines, tmp_path, before)
    assert done.returncode == 1
    assert done.stderr == (
        f"hikebox: expected 64-bit Linux on x86_64 or aarch64, got {got}; for another platform set "
        "HIKEBOX_LIBRARY to a libhikebox.so of your own and HIKEBOX_PLATFORM to its wheel tag\n"
    )


def test_an_engine_of_ones_own(with_engines: Path, tmp_path: Path) -> None:
    own = tmp_path / "own.so"
    own.write_bytes(b"\x7fELF".ljust(18, b"\0") + b"\xf3\0")
    done = build("wheel", with_engines, tmp_path / "a", HIKEBOX_PLATFORM="linux_riscv64", HIKEBOX_LIBRARY=str(own))
    assert done.returncode == 0, done.stderr
    assert engine_in(tmp_path / "a")[::2] == (f"hikebox-{VERSION}-py3-none-linux_riscv64.whl", own.read_bytes())
    done = build("wheel", with_engines, tmp_path / "b", HIKEBOX_PLATFORM="linux_riscv64")
    assert done.stderr == "hikebox: expected HIKEBOX_LIBRARY to name the libhikebox.so for linux_riscv64, got none\n"
    done = build("wheel", with_engines, tmp_path / "b", HIKEBOX_PLATFORM="aarch64", HIKEBOX_LIBRARY=str(own))
    assert done.stderr == f"hikebox: expected an engine for aarch64, got one for another platform: {own}\n"


@pytest.mark.parametrize("name", OTHERS)
def test_the_engine_of_another_system(with_engines: Path, tmp_path: Path, name: str) -> None:
    engine, tag = OTHERS[name]
    own = tmp_path / "engine"
    own.write_bytes(engine)
    for number, given in enumerate((name, tag)):
        made = tmp_path / str(number)
        done = build("wheel", with_engines, made, HIKEBOX_PLATFORM=given, HIKEBOX_LIBRARY=str(own))
        assert done.returncode == 0, done.stderr
        assert engine_in(made)[::2] == (f"hikebox-{VERSION}-py3-none-{tag}.whl", engine)
    done = build("wheel", with_engines, tmp_path, HIKEBOX_PLATFORM="x86_64", HIKEBOX_LIBRARY=str(own))
    assert done.stderr == f"hikebox: expected an engine for x86_64, got one for {name}: {own}\n"
    done = build("wheel", with_engines, tmp_path, HIKEBOX_PLATFORM=name)
    assert done.stderr == f"hikebox: expected HIKEBOX_LIBRARY to name the libhikebox.so for {tag}, got none\n"


def test_a_source_archive_builds_the_wheel_of_each_machine(with_engines: Path, tmp_path: Path) -> None:
    done = build("sdist", with_engines, tmp_path / "sdist")
    assert done.returncode == 0, done.stderr
    archive = tmp_path / "sdist" / f"hikebox-{VERSION}.tar.gz"
    with tarfile.open(archive) as files:
        assert {name.split("/")[0] for name in files.getnames()} == {f"hikebox-{VERSION}"}
        files.extractall(tmp_path / "unpacked")
    for machine in ("x86_64", "aarch64"):
        made = tmp_path / machine
        assert (
            build("wheel", tmp_path / "unpacked" / f"hikebox-{VERSION}", made, HIKEBOX_PLATFORM=machine).returncode == 0
        )
        build("wheel", with_engines, made / "again", HIKEBOX_PLATFORM=machine)
        assert [file.read_bytes() for file in made.glob("*.whl")] == [
            file.read_bytes() for file in made.glob("again/*.whl")
        ]


def test_an_engine_for_another_processor_is_refused_in_a_sentence(tmp_path: Path) -> None:
    other = tmp_path / "other.so"
    other.write_bytes(AARCH64 if os.uname().machine == "x86_64" else X86_64)
    environment = {**os.environ, "HIKEBOX_LIBRARY": str(other), "PYTHONPATH": str(TOP / "python" / "src")}
    done = subprocess.run([sys.executable, "-c", "import hikebox"], env=environment, capture_output=True, text=True)
    assert done.stderr.splitlines()[-1].startswith(f"ImportError: the engine of hikebox can't be loaded: {other}: ")
    assert done.stderr.endswith(
        f"; each system and processor has a wheel of its own, and this is Linux on {os.uname().machine}; "
        "HIKEBOX_LIBRARY names another engine\n"
    )
