#!/usr/bin/env python3
"""Tries the completions of the tool mdb in bash, zsh and fish: what each offers behind words that were typed.

usage: checks/completions.py

A shell that is not there is left out, and said. What is wanted are the commands of the tool's help, and their options as it names them. zsh is asked in a terminal
of its own, as it completes nowhere else.
"""
from __future__ import annotations

import os
import pty
import re
import select
import shutil
import subprocess
import sys
import tempfile
import time
from pathlib import Path

TOP = Path(__file__).resolve().parent.parent
COMPLETIONS = TOP / "packaging/completions"
HELP = TOP / "crates/mdb_commands/src/help.rt"
FILE = "failover.script"


def commands() -> set[str]:
    """The commands by the tool's help."""
    return set(re.findall(r"^  ([a-z]+) ", HELP.read_text(encoding="utf-8").split('";')[0], re.M))


def wanted() -> list[tuple[str, set[str]]]:
    """Words that were typed, and what is to be offered for the last one."""
    every = commands()
    return [
        ("mdb ", every),
        ("mdb s", {"share"}),
        ("mdb help p", {"proxy"}),
        ("mdb share ", set("12345678")),
        ("mdb share 3 fail", {FILE}),
        ("mdb run fail", {FILE}),
        ("mdb judge --cmap ", {"2020", "2021"}),
        ("mdb judge --c", {"--cmap"}),
        ("mdb version ", set()),
    ]


def in_bash(typed: str, folder: str) -> set[str]:
    words = typed.split(" ")
    quoted = " ".join(f"'{it}'" for it in words)
    script = f"""
        source '{COMPLETIONS}/mdb.bash'
        compopt() {{ files=1; }}
        COMP_WORDS=({quoted}) COMP_CWORD={len(words) - 1}
        _mdb
        printf '%s\\n' "${{COMPREPLY[@]}}"
        if [[ $files && ${{#COMPREPLY[@]}} == 0 ]]; then compgen -f -- '{words[-1]}'; fi
    """
    return set(subprocess.run(["bash", "-c", script], cwd=folder, capture_output=True, text=True, check=True).stdout.split())


def in_fish(typed: str, folder: str) -> set[str]:
    script = f"source '{COMPLETIONS}/mdb.fish'; complete -C '{typed}'"
    said = subprocess.run(["fish", "--no-config", "-c", script], cwd=folder, capture_output=True, text=True, check=True).stdout
    return {it.split("\t")[0] for it in said.splitlines()}


def in_zsh(typed: str, folder: str) -> set[str]:
    """The words that zsh writes to a terminal behind what was typed, where Control-D lists what could stand there and Tab completes it."""
    process, terminal = pty.fork()
    if process == 0:
        os.chdir(folder)
        os.execvpe("zsh", ["zsh", "-f"], {**os.environ, "TERM": "dumb", "COLUMNS": "200"})
    try:
        setup = f"fpath=('{COMPLETIONS}' $fpath); autoload -U compinit; compinit -u -D; _mdb 2> /dev/null; print STAR''TED\n"
        os.write(terminal, setup.encode())
        heard(terminal, "STARTED", 20)
        os.write(terminal, typed.encode() + b"\x04")
        listed = heard(terminal, "NOTHING", 1.5)
        os.write(terminal, b"\t\t")
        listed += heard(terminal, "NOTHING", 1.5)
    finally:
        os.close(terminal)
        os.kill(process, 9)
        os.waitpid(process, 0)
    return set(re.findall(r"[\w.-]+", re.sub(r"\x1b\[[0-9;?]*[a-zA-Z]|\a", "", listed)))


def heard(terminal: int, wanted_text: str, seconds: float) -> str:
    """What the terminal writes until the text came, or for so long."""
    text, until = "", time.monotonic() + seconds
    while wanted_text not in text and select.select([terminal], [], [], max(0.0, until - time.monotonic()))[0]:
        text += os.read(terminal, 65536).decode(errors="replace")
    return text


def main() -> None:
    wrong = tried = 0
    with tempfile.TemporaryDirectory() as folder:
        (Path(folder) / FILE).touch()
        for shell, offers in (("bash", in_bash), ("fish", in_fish), ("zsh", in_zsh)):
            if not shutil.which(shell):
                print(f"{shell} is not there, and was left out")
                continue
            for typed, want in wanted():
                tried += 1
                offered = offers(typed, folder)
                right = want <= offered if shell == "zsh" else {it for it in offered if not it.startswith("--") or it in want} == want
                if not right:
                    wrong += 1
                    print(f"{shell}: behind {typed!r}: {sorted(offered)}, wanted: {sorted(want)}")
    print(f"{tried} completions, {wrong} wrong")
    sys.exit(1 if wrong else 0)


if __name__ == "__main__":
    main()
