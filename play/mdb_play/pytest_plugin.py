"""The fixture `played` for pytest. A test that failed shows the verdicts and the time line of its servers."""

from __future__ import annotations

from typing import Any, Iterator

import pytest

from .thread import Played


@pytest.fixture
def played(request: pytest.FixtureRequest) -> Iterator[Played]:
    """Servers that fail over by a plan: `played.plan("at insert 3 before-reply kill 0; at +200ms elect 1")`, `played.uri`, `played.verdict`."""
    made = Played()
    request.node.stash[_KEY] = made
    yield made
    made.close()


_KEY = pytest.StashKey[Played]()


@pytest.hookimpl(hookwrapper=True)
def pytest_runtest_makereport(item: pytest.Item) -> Iterator[None]:
    """Adds what the servers saw to the report of a test that failed."""
    outcome: Any = yield
    report = outcome.get_result()
    made = item.stash.get(_KEY, None)
    if report.when == "call" and report.failed and made is not None:
        report.sections.append(("mdb_play", str(made.verdict)))
