#!/usr/bin/env python3
"""Reads a dylib for macOS: `macho.py WHEEL HEADER`. The engine in this wheel is for the processor and the macOS that
the wheel's tag names, shows the calls that the header declares and no more, and needs what libSystem has alone. (Nobody
runs it here.)"""

import re
import struct
import sys
import zipfile

PROCESSORS = {0x01000007: "x86_64", 0x0100000C: "arm64"}
#: The names that macOS's libSystem has, of those that the engine may call.
SYSTEM = set("_malloc _realloc _free _memcpy _memmove _memset _bzero ___bzero ___udivti3 dyld_stub_binder".split())
SYMTAB, ID_DYLIB, LOAD_DYLIB, MIN_VERSION, BUILD_VERSION = 0x2, 0xD, 0xC, 0x24, 0x32


def commands(data):
    """The load commands: the number of each, and its bytes."""
    count, at = struct.unpack_from("<I", data, 16)[0], 32
    for _ in range(count):
        kind, size = struct.unpack_from("<II", data, at)
        yield kind, data[at : at + size]
        at += size


def name_in(command):
    start = struct.unpack_from("<I", command, 8)[0]
    return command[start:].split(b"\0")[0].decode()


def symbols(data, command):
    """The external names that it defines, and those that it needs."""
    at, count, text = struct.unpack_from("<III", command, 8)
    defined, needed = set(), set()
    for index in range(count):
        start, kind = struct.unpack_from("<IB", data, at + 16 * index)
        name = data[text + start :].split(b"\0", 1)[0].decode()
        if kind & 0x01 and not kind & 0xE0:
            (defined if kind & 0x0E else needed).add(name)
    return defined, needed


def expect(what, wanted, got):
    if wanted != got:
        sys.exit(f"{sys.argv[1]}: {what}: expected {wanted}, got {got}")


def main():
    wheel, header = sys.argv[1:]
    major, minor, processor = re.search(r"-macosx_(\d+)_(\d+)_(\w+)\.whl$", wheel).groups()
    data = zipfile.ZipFile(wheel).read("hikebox/libhikebox.so")
    magic, kind, _, is_library = struct.unpack_from("<IIII", data)
    expect("the kind of file", (0xFEEDFACF, 6), (magic, is_library))
    expect("the processor", processor, PROCESSORS.get(kind))
    found = list(commands(data))
    versions = [
        struct.unpack_from("<I", command, 8 if kind == MIN_VERSION else 12)[0]
        for kind, command in found
        if kind in (MIN_VERSION, BUILD_VERSION)
    ]
    expect("the least macOS", [int(major) << 16 | int(minor) << 8], versions)
    expect("its name", ["@rpath/libhikebox.1.dylib"], [name_in(one) for kind, one in found if kind == ID_DYLIB])
    expect("what it loads", ["/usr/lib/libSystem.B.dylib"], [name_in(one) for kind, one in found if kind == LOAD_DYLIB])
    defined, needed = next(symbols(data, command) for kind, command in found if kind == SYMTAB)
    declared = re.findall(r"(?m)^(?:.* )?(?:hikebox_status |const char \*)(hikebox_[a-z_]*)\(", open(header).read())
    expect("its calls", {f"_{name}" for name in declared}, defined)
    expect("what it needs beside libSystem", set(), needed - SYSTEM)


main()
