"""Refused allocations: each of the library's in turn. A call raises NoMemory and changed nothing, or it was done."""

import os
import shutil
import subprocess
import sys

import pytest

import mdb
from mdb import _library

HERE = os.path.dirname(os.path.abspath(__file__))
LIBRARY = os.environ.get("MDB_LIBRARY") or os.path.join(HERE, "..", "..", "out", "libmdb.so")
ARCHIVE = os.environ.get("MDB_ARCHIVE") or os.path.join(os.path.dirname(LIBRARY), "libmdb.a")


@pytest.fixture(scope="module")
def library(tmp_path_factory):
    """The library over a heap that refuses."""
    if not os.path.exists(ARCHIVE) or not shutil.which("gcc"):
        pytest.skip("needs gcc and libmdb.a: beside libmdb.so, or what MDB_ARCHIVE names")
    to = tmp_path_factory.mktemp("refusing") / "libmdb.so"
    wanted = [f"-Wl,-u,{it}" for it in (*_library._CALLS, "mdb_abi", "mdb_close", "mdb_pool_free", "mdb_srv_rescan")]
    subprocess.run(["gcc", "-shared", "-fPIC", "-O1", *wanted, os.path.join(HERE, "refusing.c"), ARCHIVE, "-o", str(to)], check=True)
    return to


@pytest.mark.parametrize("steps", ["", "ctypes"] if mdb.COMPILED else ["ctypes"])
def test_each_allocation_refused_in_turn(library, steps):
    folders = os.pathsep.join([HERE, os.path.dirname(os.path.dirname(os.path.abspath(mdb.__file__)))])
    variables = {**os.environ, "MDB_LIBRARY": str(library), "MDB_STEPS": steps, "PYTHONPATH": folders}
    ran = subprocess.run([sys.executable, os.path.join(HERE, "refused.py")], env=variables, capture_output=True, text=True)
    assert ran.returncode == 0, ran.stderr
    refused, steps_done = map(int, ran.stdout.split())
    assert refused > 200 and steps_done > 100
