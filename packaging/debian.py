"""The three Debian packages of a processor."""
from __future__ import annotations

import os
from email.utils import formatdate
from pathlib import Path

import packages as plain_packages
import packed
from linked import Made
from plain import files_below, put, write
from release import Release
from shipped import HERE, MAINTAINER, TOOL

# The oldest glibc that has what the shared library asks for, malloc and five more.
OLDEST = {"x86_64": "2.14", "aarch64": "2.17"}


def control_of(name: str, of: Release, made: Made, tree: Path) -> str:
    size = sum((tree / it).lstat().st_size for it in files_below(tree)) // 1024 + 1
    text = (HERE / "debian" / f"{name}.control").read_text(encoding="utf-8")
    target = made.target
    said = {"ABI": of.interface, "DEBIAN": of.version, "ARCH": target.debian, "SIZE": size, "LIBC": OLDEST[target.cpu], "MAINTAINER": MAINTAINER}
    for word, value in said.items():
        text = text.replace(f"@{word}@", str(value))
    return text


def documents(package: str, of: Release, tree: Path) -> None:
    """What each package has: its licence and its changes."""
    folder = tree / "usr/share/doc" / package
    put(HERE / "debian/copyright", folder / "copyright")
    date = formatdate(of.date, localtime=False).replace("-0000", "+0000")
    changes = f"mdb ({of.version}) unstable; urgency=medium\n\n  * Version {of.version}, of commit {of.commit[:12]}.\n"
    changes += f"\n -- {MAINTAINER}  {date}\n"
    packed.gz(changes.encode(), folder / "changelog.gz")


def close(name: str, package: str, of: Release, made: Made, tree: Path) -> None:
    documents(package, of, tree)
    write(tree / "DEBIAN/control", control_of(name, of, made, tree))
    packed.deb(tree, of.to / f"{package}_{of.version}_{made.target.debian}.deb", of.date)


def library(of: Release, made: Made, room: Path) -> None:
    tree, package = room / "libmdb", f"libmdb{of.interface}"
    put(made.debian, tree / "usr/lib" / made.target.multiarch / f"libmdb.so.{of.interface}")
    write(tree / "DEBIAN/shlibs", f"libmdb {of.interface} {package} (>= {of.version})\n")
    write(tree / "DEBIAN/triggers", "activate-noawait ldconfig\n")
    close("libmdb", package, of, made, tree)


def development(of: Release, made: Made, room: Path) -> None:
    tree, package = room / "libmdb-dev", "libmdb-dev"
    folder, documents_at = tree / "usr/lib" / made.target.multiarch, tree / "usr/share/doc" / package
    put(of.sources / "include/mdb.h", tree / "usr/include/mdb.h")
    put(made.archive, folder / "libmdb.a")
    os.symlink(f"libmdb.so.{of.interface}", folder / "libmdb.so")
    write(folder / "pkgconfig/mdb.pc", of.pkg_config("/usr", f"${{prefix}}/lib/{made.target.multiarch}"))
    put(of.sources / "bindings/examples/round.c", documents_at / "examples/round.c")
    put(of.sources / "bindings/heap.c", documents_at / "examples/heap.c")
    packed.gz((of.sources / "docs/C_LIBRARY.md").read_bytes(), documents_at / "C_LIBRARY.md.gz")
    close("libmdb-dev", package, of, made, tree)


def tools(of: Release, made: Made, room: Path) -> None:
    tree, package = room / "mdb-tools", "mdb-tools"
    manual = tree / "usr/share/man/man1"
    packed.gz(of.manual().encode(), manual / "mdb.1.gz")
    for it in made.programs:
        put(it, tree / "usr/bin" / it.name, 0o755)
        if it.name != TOOL:
            os.symlink("mdb.1.gz", manual / f"{it.name}.1.gz")
    plain_packages.completions(tree / "usr/share")
    for it in of.documents:
        packed.gz((of.sources / "docs" / it).read_bytes(), tree / "usr/share/doc" / package / f"{it}.gz")
    put(HERE / "debian/mdb-tools.overrides", tree / "usr/share/lintian/overrides" / package)
    close("mdb-tools", package, of, made, tree)


def packages(of: Release, made: Made, room: Path) -> None:
    library(of, made, room)
    development(of, made, room)
    if made.programs:
        tools(of, made, room)
