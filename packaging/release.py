"""A release: of what it is made, and what all of its packages say."""
from __future__ import annotations

import hashlib
import json
import re
import time
from dataclasses import dataclass, field
from pathlib import Path

from gate_log import GateLog
from packed import sum_of
from shipped import HERE, PROGRAMS


def manual_of(programs: tuple[str, ...]) -> str:
    """The page of the manual, with what it says of these programs alone: lines that begin with @NAME@ are said of NAME."""
    lines = (HERE / "man/mdb.1").read_text(encoding="utf-8").replace("@PROGRAMS@", ", ".join(programs)).splitlines()
    said = (re.fullmatch(r"(?:@(mdb\w*)@)?(.*)", it) for it in lines)
    return "".join(f"{it[2]}\n" for it in said if it and it[1] in (None, *programs))


@dataclass
class Release:
    sources: Path
    to: Path
    version: str
    interface: int
    commit: str
    date: int
    built: dict[str, object]
    verdicts: dict[str, dict[str, str]]
    gate: GateLog | None
    tools: dict[str, str]
    # Pages of docs/ that go along with the programs.
    documents: tuple[str, ...] = ("SCRIPT.md", "CLAIMS.md", "RECORDED.md", "RELEASE.md")
    sums: dict[str, str] = field(default_factory=dict)

    def manual(self) -> str:
        day = time.strftime("%Y-%m-%d", time.gmtime(self.date))
        text = manual_of(PROGRAMS)
        return text.replace("@VERSION@", self.version).replace("@DATE@", day)

    def pkg_config(self, prefix: str, libraries: str = "${prefix}/lib") -> str:
        text = (self.sources / "bindings/mdb.pc.in").read_text(encoding="utf-8")
        text = text.replace("@PREFIX@", prefix).replace("@VERSION@", self.version)
        return re.sub(r"(?m)^libdir=.*", f"libdir={libraries}", text)

    def notice(self) -> str:
        return (HERE / "NOTICE").read_text(encoding="utf-8")

    def facts(self) -> dict[str, object]:
        """What is in the manifest of each package: of what it was made, and who says that it is proved."""
        gate = {"passed": self.gate.passed, "verdicts": self.gate.verdicts} if self.gate else "none: this build is not proved"
        return {
            "name": "mdb", "version": self.version, "interface": self.interface, "commit": self.commit, "kit": self.built["kit"],
            "logic": self.built["logic"], "compiler": self.built["compiler"], "gate": gate, "built": self.verdicts, "sources": self.sums,
            "tools": self.tools,
        }

    def manifest(self, **more: object) -> str:
        return json.dumps({**self.facts(), **more}, indent=1, sort_keys=True) + "\n"

    def sum_sources(self, names: list[str]) -> None:
        """A sum for each crate and each folder beside them: the SHA-256 of the lines `SUM  PATH` of its files, as sha256sum writes them, by name."""
        parts: dict[str, str] = {}
        for it in sorted(names):
            part = "/".join(it.split("/")[: 2 if it.startswith("crates/") else 1])
            parts[part] = parts.get(part, "") + f"{sum_of(self.sources / it)}  {it}\n"
        self.sums = {part: hashlib.sha256(lines.encode()).hexdigest() for part, lines in parts.items()}
