"""`python -m mdb_play`."""

import sys

try:
    from .cli import main
except ImportError as why:
    print(f"mdb-play: {why}", file=sys.stderr)
    sys.exit(2)

sys.exit(main())
