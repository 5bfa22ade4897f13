"""The worked rows through the library, by lines and by calls."""

import pytest

from mdb import Driver, Malformed
from rows import fits, rows
from spoken import by_call

ROWS = rows()


def test_there_are_rows():
    assert len(ROWS) >= 100


@pytest.mark.parametrize("title, lines", ROWS, ids=[f"{n}" for n in range(len(ROWS))])
@pytest.mark.parametrize("calls", [False, True], ids=["lines", "calls"])
def test_row(title, lines, calls):
    driver = None
    for line, wanted in lines:
        if wanted.startswith("status 5: "):
            # the line is malformed
            with pytest.raises(Malformed):
                Driver(line) if driver is None else driver.line(line)
            break
        if driver is None:
            driver = Driver(line)
        elif calls:
            by_call(driver, line)
        else:
            driver.line(line)
        assert fits(driver.entry_text(), f"{line} | {wanted}\n"), title
        assert facts_of(driver) == facts_in(driver.entry_text())
    if driver is not None:
        driver.close()


def facts_of(driver):
    return [fact.text for fact in driver.facts()]


def facts_in(text):
    # no text of a fact has a bar, since no message has one
    return text.rstrip("\n").split(" | ")[2:]


@pytest.mark.parametrize("line", ["", "open seeds=a:1", "claim", "claim 01", "request 1 2", "request 1 2 A:1", "claim 1 ", "claim 18446744073709551616", "claim 1\n"])
def test_malformed_lines_change_nothing(line):
    with Driver("open seeds=a:1 lb") as driver:
        before = driver.entry_text()
        with pytest.raises(Malformed):
            driver.line(line)
        assert driver.entry_text() == before
