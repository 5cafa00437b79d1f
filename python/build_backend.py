"""Builds the wheel and the source archive with the standard library alone, as PEP 517 asks, so that pip needs no index.

A wheel is for one platform and for any Python 3: the engine in it is a shared library that ctypes loads, under one name
whatever the system calls such a file. In the repository that is the one of `dist/`, and in a source archive the one in
`lib/MACHINE/`: both have the engines for Linux. HIKEBOX_LIBRARY names another file, and HIKEBOX_PLATFORM another
platform: by its wheel tag, or by a name below. The same files give the same bytes.

    build_backend.py wheel FOLDER    puts a wheel into the folder and prints its path
    build_backend.py sdist FOLDER    puts a source archive there
"""

import base64
import gzip
import hashlib
import io
import os
import platform
import sys
import tarfile
import zipfile
from pathlib import Path

HERE = Path(__file__).resolve().parent
NAME = "libhikebox.so"
#: The tags of each platform: of Linux by its machine, of others by their triple.
TAGS = {
    "x86_64": ("manylinux_2_14_x86_64", "musllinux_1_2_x86_64"),
    "aarch64": ("manylinux_2_17_aarch64", "musllinux_1_2_aarch64"),
    "x86_64-apple-darwin": ("macosx_10_13_x86_64",),
    "aarch64-apple-darwin": ("macosx_11_0_arm64",),
    "x86_64-pc-windows-gnu": ("win_amd64",),
}
#: The folder of the engine of each machine with Linux.
MACHINES = {"x86_64": "dist", "aarch64": "dist/aarch64"}
#: The time of each file in an archive, 1 January 2020: for a wheel, and for a source archive.
DATE, MOMENT = (2020, 1, 1, 0, 0, 0), 1577836800
ENTRY_POINTS = "[console_scripts]\nhikebox = hikebox_program:main\n\n[pytest11]\nhikebox = hikebox_pytest\n"
BESIDE_SOURCES = ("LICENSE", "PKG-INFO", "README.md", "build_backend.py", "pyproject.toml")
#: The manual page of the program, its completions and a dashboard for Grafana, and where they are installed, below the
#: environment's folder.
SHARED = {
    "share/hikebox.1": "share/man/man1/hikebox.1",
    "share/hikebox.bash": "share/bash-completion/completions/hikebox",
    "share/hikebox.zsh": "share/zsh/site-functions/_hikebox",
    "share/grafana.json": "share/hikebox/grafana.json",
}


def refuse(text):
    """Ends the build with one sentence."""
    raise SystemExit(f"hikebox: {text}")


def version():
    """The version in PKG-INFO."""
    lines = (HERE / "PKG-INFO").read_text().splitlines()
    return next(line.split()[1] for line in lines if line.startswith("Version:"))


def sources():
    """The files of the package, by their paths in it."""
    root = HERE / "src"
    found = (path for path in root.rglob("*") if path.is_file() and "__pycache__" not in path.parts)
    kept = (path for path in found if path.suffix == ".py" or path.name == "py.typed" or path.parent.name == "lab")
    return {path.relative_to(root).as_posix(): path.read_bytes() for path in sorted(kept)}


def platform_tags():
    """The tags of the platform to build for."""
    named = os.environ.get("HIKEBOX_PLATFORM")
    if named:
        return TAGS.get(named, tuple(named.split(".")))
    machine = platform.machine()
    if not sys.platform.startswith("linux") or sys.maxsize < 2**32 or machine not in MACHINES:
        refuse(
            f"expected 64-bit Linux on {' or '.join(MACHINES)}, got {sys.platform} on {machine}; for another platform "
            "set HIKEBOX_LIBRARY to a libhikebox.so of your own and HIKEBOX_PLATFORM to its wheel tag"
        )
    return TAGS[machine]


def platform_of(tags):
    """The platform of these tags, or of one of them."""
    return next((name for name, known in TAGS.items() if set(tags) <= set(known)), None)


def built_for(engine):
    """The platform for which a library is built, by how it begins."""
    if engine.startswith(b"\x7fELF"):
        return {62: "x86_64", 183: "aarch64"}.get(int.from_bytes(engine[18:20], "little"))
    if engine.startswith(b"\xcf\xfa\xed\xfe"):
        kinds = {0x01000007: "x86_64-apple-darwin", 0x0100000C: "aarch64-apple-darwin"}
        return kinds.get(int.from_bytes(engine[4:8], "little"))
    at = int.from_bytes(engine[60:64], "little")
    return "x86_64-pc-windows-gnu" if engine.startswith(b"MZ") and engine[at : at + 6] == b"PE\0\0\x64\x86" else None


def engine_of(machine):
    """The engine of a machine."""
    places = [HERE / "lib" / machine / NAME, HERE.parent / MACHINES[machine] / NAME]
    found = next((place for place in places if place.is_file()), None)
    if found is None:
        looked_at = " or ".join(map(str, places))
        refuse(f"the engine is missing: no {looked_at}; set HIKEBOX_LIBRARY to the libhikebox.so to use")
    return found.read_bytes()


def engine_for(tags):
    """The engine for a platform."""
    platform_name, named = platform_of(tags), os.environ.get("HIKEBOX_LIBRARY")
    if not named and platform_name not in MACHINES:
        refuse(f"expected HIKEBOX_LIBRARY to name the libhikebox.so for {tags[0]}, got none")
    if named and not Path(named).is_file():
        refuse(f"the engine is missing: no {named}, which HIKEBOX_LIBRARY names")
    library = Path(named).read_bytes() if named else engine_of(platform_name)
    got = built_for(library)
    if platform_name and got != platform_name:
        refuse(f"expected an engine for {platform_name}, got one for {got or 'another platform'}: {named}")
    return library


def wheel_files(tags):
    """The files of the wheel, by their paths in it, but RECORD."""
    about = f"hikebox-{version()}.dist-info"
    tag_lines = "".join(f"Tag: py3-none-{tag}\n" for tag in tags)
    metadata = (HERE / "PKG-INFO").read_bytes() + b"\n" + (HERE / "README.md").read_bytes()
    return {
        **sources(),
        f"hikebox/{NAME}": engine_for(tags),
        **{f"hikebox-{version()}.data/data/{path}": (HERE / name).read_bytes() for name, path in SHARED.items()},
        f"{about}/METADATA": metadata,
        f"{about}/WHEEL": f"Wheel-Version: 1.0\nGenerator: hikebox\nRoot-Is-Purelib: false\n{tag_lines}".encode(),
        f"{about}/entry_points.txt": ENTRY_POINTS.encode(),
        f"{about}/LICENSE": (HERE / "LICENSE").read_bytes(),
    }


def record_line(path, data):
    """The line of RECORD for a file."""
    digest = base64.urlsafe_b64encode(hashlib.sha256(data).digest()).rstrip(b"=").decode()
    return f"{path},sha256={digest},{len(data)}\n"


def build_wheel(wheel_directory, config_settings=None, metadata_directory=None):
    """Builds the wheel, and returns its name."""
    tags = platform_tags()
    files = wheel_files(tags)
    record = f"hikebox-{version()}.dist-info/RECORD"
    files[record] = "".join([*(record_line(*file) for file in files.items()), f"{record},,\n"]).encode()
    name = f"hikebox-{version()}-py3-none-{'.'.join(tags)}.whl"
    with zipfile.ZipFile(Path(wheel_directory) / name, "w", zipfile.ZIP_DEFLATED) as archive:
        for path, data in files.items():
            entry = zipfile.ZipInfo(path, DATE)
            entry.compress_type = zipfile.ZIP_DEFLATED
            entry.external_attr = (0o100755 if path.endswith(".so") else 0o100644) << 16
            archive.writestr(entry, data)
    return name


def sdist_files():
    """The files of the source archive, by their paths in it."""
    return {
        **{name: (HERE / name).read_bytes() for name in (*BESIDE_SOURCES, *SHARED)},
        **{f"src/{path}": data for path, data in sources().items()},
        **{f"lib/{machine}/{NAME}": engine_of(machine) for machine in MACHINES},
    }


def build_sdist(sdist_directory, config_settings=None):
    """Builds the source archive, and returns its name."""
    base = f"hikebox-{version()}"
    written = io.BytesIO()
    with tarfile.open(fileobj=written, mode="w", format=tarfile.PAX_FORMAT) as archive:
        for path, data in sdist_files().items():
            entry = tarfile.TarInfo(f"{base}/{path}")
            entry.size, entry.mtime, entry.mode = len(data), MOMENT, 0o644
            archive.addfile(entry, io.BytesIO(data))
    name = f"{base}.tar.gz"
    with open(Path(sdist_directory) / name, "wb") as file:
        file.write(gzip.compress(written.getvalue(), mtime=MOMENT))
    return name


def main():
    builds = {"wheel": build_wheel, "sdist": build_sdist}
    if len(sys.argv) != 3 or sys.argv[1] not in builds:
        sys.exit(__doc__)
    folder = Path(sys.argv[2])
    folder.mkdir(parents=True, exist_ok=True)
    print(folder / builds[sys.argv[1]](folder))


if __name__ == "__main__":
    main()
