"""A client that inserts documents one after the other, by the small driver of the tests.

usage: one_by_one.py COUNT [MUTANT]      MDB_HOSTS says where
"""

from __future__ import annotations

import os
import sys

from mini import Mini


def main() -> int:
    """The status: 3 where an insert is not acknowledged."""
    driver = Mini([int(it.split(":")[1]) for it in os.environ["MDB_HOSTS"].split(",")], sys.argv[2] if len(sys.argv) > 2 else "")
    fine = [driver.insert({"number": number}) for number in range(int(sys.argv[1]))]
    driver.close()
    return 0 if all(fine) else 3


if __name__ == "__main__":
    sys.exit(main())
