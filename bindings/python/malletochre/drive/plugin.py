"""A plugin of pytest: an installed package has it, a clone asks for it, `-p malletochre.drive.plugin`.

`--rehearse-seeds N` has each `check` draw from N seeds, `--rehearse FILE.schedule` try that schedule alone. The fixture `rehearse_seeds` is
what `check` is to be given as `seeds` where pytest-xdist is to run one test on all its workers: each gets its share."""
from __future__ import annotations

import os
from contextlib import nullcontext
from typing import Any

from . import progress
from .search import USUAL_SEEDS, Share

COUNT = "PYTEST_XDIST_WORKER_COUNT"


def pytest_addoption(parser: Any) -> None:
    group = parser.getgroup("malletochre.drive")
    group.addoption("--rehearse-seeds", type=int, metavar="N", help="seeds that each check draws from")
    group.addoption("--rehearse", metavar="FILE", help="a schedule or a record, which each check tries alone")


def pytest_configure(config: Any) -> None:
    for option, variable in (("rehearse_seeds", "CT_SEEDS"), ("rehearse", "CT_REHEARSE")):
        if config.getoption(option) is not None:
            os.environ[variable] = str(config.getoption(option))


def pytest_sessionstart(session: Any) -> None:   # there is no reporter before
    reporter, capture = map(session.config.pluginmanager.getplugin, ("terminalreporter", "capturemanager"))
    if reporter and reporter.isatty:
        writer = session.config.get_terminal_writer()
        progress.write = lambda text: _shown(writer, capture, text)


def _shown(writer: Any, capture: Any, text: str) -> None:
    """On a line of its own."""
    with capture.global_and_fixture_disabled() if capture else nullcontext():
        if writer.width_of_current_line:
            writer.line()
        print(text, end="", flush=True)


def pytest_generate_tests(metafunc: Any) -> None:
    if "rehearse_seeds" in metafunc.fixturenames:
        parts, seeds = int(os.environ.get(COUNT, "1")), int(os.environ.get("CT_SEEDS", USUAL_SEEDS))
        shares = [Share(range(part, seeds, parts)) for part in range(parts)]
        metafunc.parametrize("rehearse_seeds", shares, ids=[f"{part + 1}of{parts}" for part in range(parts)])
