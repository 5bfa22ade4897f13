"""The command line: statuses, JSON, transcripts that are replayed, plans that are shrunk, and TLS."""

from __future__ import annotations

import json
import os
import shutil
import socket
import ssl
import struct
import subprocess
import sys
from pathlib import Path

import bson
import pytest

HERE = Path(__file__).parent
PROGRAM = [sys.executable, "-m", "mdb_play"]
ENVIRONMENT = {**os.environ, "PYTHONPATH": os.pathsep.join([str(HERE.parent), str(HERE), os.environ.get("PYTHONPATH", "")])}
CLIENT = [sys.executable, str(HERE / "one_by_one.py"), "12"]
PLAN = "set rs 3; at insert 5 before-reply reset; at insert 9 stepdown; at +50ms elect 1"


def played(*words: str) -> subprocess.CompletedProcess[str]:
    return subprocess.run([*PROGRAM, *words], env=ENVIRONMENT, capture_output=True, text=True, timeout=300, check=False)


def test_a_run_that_is_fine_has_status_0_and_is_followed_by_its_replay(tmp_path: Path) -> None:
    first, second = tmp_path / "first", tmp_path / "second"
    told = played("run", "--do", PLAN, "--transcript", str(first), "--json", str(tmp_path / "json"), "--", *CLIENT)
    assert told.returncode == 0, told.stdout
    verdicts = {it["name"]: it for it in json.loads((tmp_path / "json").read_text())["verdicts"]}
    assert verdicts["retries"]["numbers"]["again"] == 2 and verdicts["client"]["state"] == "ok"
    again = played("run", "--replay", str(first), "--transcript", str(second), "--", *CLIENT)
    assert again.returncode == 0 and "replay: followed" in again.stdout
    decided = [[line.split(" ", 1)[1] for line in it.read_text().splitlines() if "point" in line and not line.endswith("|")] for it in (first, second)]
    assert decided[0] == decided[1] and len(decided[0]) == 2


def test_a_client_that_parts_is_told(tmp_path: Path) -> None:
    transcript = tmp_path / "transcript"
    played("run", "--do", PLAN, "--transcript", str(transcript), "--", *CLIENT)
    told = played("run", "--replay", str(transcript), "--", *CLIENT[:2], "4")
    assert "replay: parted at 0 application 1" in told.stdout


def test_a_client_that_is_accused_has_status_7_and_a_picture() -> None:
    told = played("run", "--do", PLAN, "--", *CLIENT, "never-retries")
    assert told.returncode == 7
    assert "retries FAILS" in told.stdout and "client FAILS: ended with status 3" in told.stdout and "P takes writes" in told.stdout


def test_a_plan_is_shrunk() -> None:
    told = played("run", "--shrink", "--do", "set rs 3; at insert 2 delay 1ms; at insert 5 before-reply reset; at insert 7 delay 1ms", "--", *CLIENT, "never-retries")
    assert told.returncode == 7
    assert told.stdout.splitlines()[1:] == ["set rs 3", "at insert 5 before-reply reset"]


@pytest.mark.parametrize("end, expected", [("end 500ms", "hung"), ("until 500ms", "ended when it was told to")])
def test_a_client_that_does_not_end(end: str, expected: str) -> None:
    told = played("run", "--do", end, "--", "sleep", "60")
    assert expected in told.stdout and told.returncode == (7 if expected == "hung" else 0)


def test_what_cannot_be_read_has_its_status(tmp_path: Path) -> None:
    assert played("run", "--do", "at once kill 0", "--", "true").returncode == 5
    assert played("run", "--do", "set rs 3").returncode == 2
    assert played("run", "--do", "set rs 3", "--", str(tmp_path / "nothing")).returncode == 2
    assert played("check", *map(str, sorted((HERE.parent / "plans").glob("*.plan")))).returncode == 0


def test_servers_are_told_by_lines() -> None:
    lines = "elect 1\nexplode\nafter 1ms kill 0\nverdicts\nquit\n"
    told = subprocess.run([*PROGRAM, "serve", "--do", "set rs 2"], env=ENVIRONMENT, input=lines, capture_output=True, text=True, timeout=120, check=False)
    ready, first, second, third, verdicts = told.stdout.splitlines()
    assert ready.startswith("ready mongodb://127.0.0.1:") and first == "done elect 1" and second.startswith("failed explode") and third.startswith("done after")
    assert json.loads(verdicts)["failed"] == 0


def test_the_server_of_names_has_the_port_that_is_asked_for() -> None:
    with socket.socket(socket.AF_INET, socket.SOCK_DGRAM) as free:
        free.bind(("127.0.0.1", 0))
        port = free.getsockname()[1]
    words = [*PROGRAM, "serve", "--do", "routers 2; names 1", "--names-port", str(port)]
    told = subprocess.run(words, env=ENVIRONMENT, input="names 0\nnames 2\nquit\n", capture_output=True, text=True, timeout=120, check=False)
    lines = told.stdout.splitlines()
    assert lines[:2] == [f"ready mongodb+srv://mdb.play.test/?ssl=false 127.0.0.1:{port}", "done names 0"], told.stderr
    assert lines[2].startswith("failed names 2")


@pytest.mark.skipif(shutil.which("openssl") is None, reason="no openssl")
def test_connections_are_tls(tmp_path: Path) -> None:
    key, certificate = str(tmp_path / "key"), str(tmp_path / "certificate")
    made = ["openssl", "req", "-x509", "-newkey", "rsa:2048", "-nodes", "-keyout", key, "-out", certificate, "-days", "2", "-subj", "/CN=localhost"]
    subprocess.run([*made, "-addext", "subjectAltName=IP:127.0.0.1"], check=True, capture_output=True)
    process = subprocess.Popen([*PROGRAM, "serve", "--do", "set rs 1", "--tls", certificate, key], env=ENVIRONMENT, stdin=subprocess.PIPE, stdout=subprocess.PIPE, text=True)
    assert process.stdin and process.stdout
    uri = process.stdout.readline().split()[1]
    assert "tls=true" in uri
    context = ssl.create_default_context(cafile=certificate)
    port = int(uri.split(":")[2].split("/")[0])
    body = bytes(5) + bson.encode({"ping": 1, "$db": "admin"})
    with context.wrap_socket(socket.create_connection(("127.0.0.1", port), 60), server_hostname="127.0.0.1") as link:
        link.sendall(struct.pack("<iiii", 16 + len(body), 7, 0, 2013) + body)
        assert struct.unpack("<iiii", link.recv(16))[2] == 7
    process.stdin.close()
    assert process.wait(60) == 0
    process.stdout.close()
