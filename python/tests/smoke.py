"""What an installed hikebox is tried with, by any Python with nothing else installed: its examples, and one of each.

    python smoke.py FOLDER [--no-lab]    the folder that hikebox has to be installed in; without `hikebox lab`, which
                                         starts interpreters by their own name
"""

import asyncio
import doctest
import importlib.util
import os
import pkgutil
import signal
import subprocess
import sys
import threading
import urllib.request
from typing import Any, List

# the library that a module's examples import, where it is not named as an adapter is
EXAMPLES_OF = {"hikebox.metrics": "prometheus_client"}


def main() -> None:
    import hikebox
    from hikebox._engine.calls import library_path

    folder = os.path.realpath(sys.argv[1])
    for path in (hikebox.__file__, library_path()):
        assert os.path.realpath(path).startswith(folder + os.sep), path
    failed = tried = 0
    names = ["hikebox", *(module.name for module in pkgutil.walk_packages(hikebox.__path__, "hikebox."))]
    names = [name for name in names if name not in ("hikebox.__main__", "hikebox.libhikebox")]
    for name in names:
        try:
            loaded = importlib.import_module(name)
        except ImportError as error:
            assert name.startswith("hikebox.adapters."), error
            continue
        library = EXAMPLES_OF.get(name, name.partition("hikebox.adapters.")[2].lstrip("_"))
        if library and importlib.util.find_spec(library) is None:
            continue  # (its example imports the library)
        result = doctest.testmod(loaded, optionflags=doctest.IGNORE_EXCEPTION_DETAIL)
        failed += result.failed
        tried += result.attempted
    assert not failed and tried > 50, (failed, tried)
    assert os.path.exists(os.path.join(os.path.dirname(hikebox.__file__), "py.typed"))

    budget = hikebox.Budget(1000)
    retrying = hikebox.Retrying(hikebox.recurs(100), limit=budget, fallback=lambda state: state.granted)
    granted = []
    threads = [threading.Thread(target=lambda: granted.append(retrying(int, "x"))) for _ in range(16)]
    for thread in threads:
        thread.start()
    for thread in threads:
        thread.join()
    assert sum(granted) == 1000 == budget.close(), granted

    quota = hikebox.Quota(reserve=10, share=0.5, per=100_000)
    retrying = retrying.copy(limit=quota)
    assert [retrying(int, "x") for _ in range(4)] == [10, 1, 0, 1]
    assert quota.seen().asked == 4 and quota.close() == 12

    @hikebox.retry(hikebox.recurs(3) & hikebox.spaced(0.001), on=KeyError)
    async def later(left: List[int] = [2]) -> str:
        left[0] -= 1
        if left[0] >= 0:
            raise KeyError()
        return "won"

    assert asyncio.run(later()) == "won"
    if "--no-lab" not in sys.argv:
        tries_lab()
    try:
        hikebox.retry(hikebox.recurs(1))(int)("x")
    except ValueError as error:
        assert hikebox.state_of(error).attempt_number == 2  # type: ignore[union-attr]
        assert "gave up after 2 attempts" in getattr(error, "__notes__")[0]
    else:
        raise AssertionError("int('x') succeeded")
    print(f"smoke.py: Python {sys.version.split()[0]}: {tried} examples, and one of each")


def tries_lab() -> None:
    """The page of `hikebox lab` with its parts, and a storm."""
    command = [os.path.join(sys.argv[1], "bin", "hikebox"), "lab", "--no-browser"]
    with subprocess.Popen(command, stdout=subprocess.PIPE, text=True) as lab:
        assert lab.stdout is not None
        address = lab.stdout.readline().split()[2]
        body = b'{"page":"p","sides":[{"text":"recurs(0)","limit":""}],"storm":{"seconds":1}}'
        asked = urllib.request.Request(address + "storm", body, {"Content-Type": "application/json"})
        parts: List[Any] = [address, address + "lab.css", address + "lab.js", asked]
        for part in parts:
            with urllib.request.urlopen(part, timeout=120) as answer:
                assert answer.status == 200 and len(answer.read()) > 1000, part
        lab.send_signal(signal.SIGINT)
        assert (lab.wait(timeout=120), lab.stdout.read()) == (0, "")


if __name__ == "__main__":
    main()
