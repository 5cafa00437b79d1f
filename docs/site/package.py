"""The reference of the Python package, made of its docstrings: pages with Sphinx' directives for what is exported."""

import importlib
import inspect
import pathlib
import re

HTTP = ["requests", "urllib3", "httpx", "aiohttp"]
# The pages, each with its heading, the modules that it shows, and where its names come from: what `hikebox` exports
# stands on several pages, and what comes from no other page's modules on the first one.
PAGES = {
    "retries": ("Retries", ["hikebox"], ("",)),
    "policies": ("Policies", ["hikebox"], ("hikebox.policy",)),
    "limits": ("Limits", ["hikebox"], ("hikebox.limits", "hikebox.budget", "hikebox.quota")),
    "leased": ("Limits that processes share", ["hikebox.leased"], ("",)),
    "storms": ("Storms", ["hikebox", "hikebox.sweeps"], ("hikebox.storm", "hikebox.sweeps")),
    "http": ("HTTP", ["hikebox.http", *(f"hikebox.adapters.{name}" for name in HTTP)], ("",)),
    "tenacity": ("tenacity", ["hikebox.adapters.tenacity"], ("",)),
    "backoff": ("backoff", ["hikebox.adapters.backoff"], ("",)),
    "errors": ("Exceptions", ["hikebox"], ("hikebox.errors",)),
    "metrics": ("Metrics", ["hikebox.metrics"], ("",)),
    "testing": ("Tests", ["hikebox.testing"], ("",)),
}
# The classes of other libraries, whose members are not shown.
FOREIGN = "int, tuple, BaseException, Protocol, Enum, Retry, HTTPAdapter, BaseTransport, AsyncBaseTransport"


def stands_on(page, value):
    """Whether a name stands on a page, by the module that it comes from."""
    home = getattr(value, "__module__", None) or ""
    others = [prefix for _, _, homes in PAGES.values() for prefix in homes if prefix]
    homes = PAGES[page][2]
    return not home.startswith(tuple(others)) if homes == ("",) else home.startswith(homes)


def directive(module, name, value):
    """What stands for a name on its page."""
    if inspect.isclass(value):
        return f".. autoclass:: {module}.{name}\n   :members:\n   :inherited-members: {FOREIGN}\n"
    if inspect.isroutine(value):
        return f".. autofunction:: {module}.{name}\n"
    # (a value has no docstring, but a comment where it is defined)
    for path in pathlib.Path(importlib.import_module("hikebox").__file__).parent.rglob("*.py"):
        found = re.search(rf"((?:^#: .*\n)+){name}\b.* = ", path.read_text(), re.M)
        if found:
            said = re.sub(r"^#: ", "   ", found[1], flags=re.M)
            return f".. py:data:: {name}\n\n{said}\n"
    return f".. py:data:: {name}\n"


def place_of(exported):
    """Functions come first, then classes, then values."""
    name, value = exported
    return 0 if inspect.isroutine(value) else 1 if inspect.isclass(value) else 2


def page_of(page):
    """The text of a page."""
    heading, modules, _ = PAGES[page]
    lines = [heading, "=" * len(heading), ""]
    for name in modules:
        module = importlib.import_module(name)
        if len(modules) > 1:
            lines += [name, "-" * len(name), ""]
        lines += [f".. currentmodule:: {name}\n"]
        lines += [inspect.getdoc(module).partition("\n\n")[0], ""] if name != "hikebox" else []
        exported = sorted(((one, getattr(module, one)) for one in module.__all__), key=place_of)
        lines += [directive(name, one, value) for one, value in exported if name != "hikebox" or stands_on(page, value)]
    return "\n".join(lines)


def pages():
    """The name of each page below `reference`, and its text."""
    names = "\n   ".join(f"python/{page}" for page in PAGES)
    yield "python", f"Python\n======\n\nWhat each name is, from its docstring.\n\n.. toctree::\n\n   {names}\n"
    for page in PAGES:
        yield f"python/{page}", page_of(page)
