"""The packages of a release for each language, and those of no package manager."""
from __future__ import annotations

import os
import re
from pathlib import Path

import packed
from linked import Made
from plain import files_below, put, write
from release import Release
from shipped import HERE, TOOL

BINDINGS = "bindings"
# Where a shell looks for the completions of the tool below /usr/share, or below the `share` of a folder.
COMPLETIONS = {"mdb.bash": "bash-completion/completions/mdb", "_mdb": "zsh/vendor-completions/_mdb", "mdb.fish": "fish/vendor_completions.d/mdb.fish"}


def completions(share: Path) -> None:
    for name, to in COMPLETIONS.items():
        put(HERE / "completions" / name, share / to)


def papers(of: Release, folder: Path) -> None:
    """What each package has: its licence, whose code is in it, and of what it was made."""
    put(of.sources / "LICENSE", folder / "LICENSE")
    write(folder / "NOTICE", of.notice())
    write(folder / "MANIFEST.json", of.manifest())


def plain_folder(of: Release, made: Made, tree: Path) -> None:
    """A folder that may stand anywhere: its mdb.pc finds itself."""
    name, share = f"mdb-{of.version}-{made.target.cpu}-linux", tree / "share/doc/mdb"
    put(of.sources / "include/mdb.h", tree / "include/mdb.h")
    put(made.archive, tree / "lib/libmdb.a")
    put(made.shared, tree / f"lib/libmdb.so.{of.interface}", 0o755)
    os.symlink(f"libmdb.so.{of.interface}", tree / "lib/libmdb.so")
    write(tree / "lib/pkgconfig/mdb.pc", of.pkg_config("${pcfiledir}/../.."))
    write(tree / "share/man/man1/mdb.1", of.manual())
    completions(tree / "share")
    for it in made.programs:
        put(it, tree / "bin" / it.name, 0o755)
        if it.name != TOOL:
            os.symlink("mdb.1", tree / f"share/man/man1/{it.name}.1")
        for stream in ("stdin", "stdout"):
            if (of.sources / "crates" / it.name / stream).is_file():
                put(of.sources / "crates" / it.name / stream, share / f"examples/{it.name}.{stream}")
    for it in ("C_LIBRARY.md", *of.documents):
        put(of.sources / "docs" / it, share / it)
    for it in ("heap.c", "examples/round.c"):
        put(of.sources / BINDINGS / it, share / it)
    papers(of, share)
    packed.tar_gz(tree, of.to / f"{name}.tar.gz", of.date, name)


def wheel(of: Release, made: Made, tree: Path) -> None:
    """The Python package with the library and the compiled steps in it. It is for every Python 3.9 and later, and for glibc and musl."""
    info, source = f"mdb-{of.version}.dist-info", of.sources / BINDINGS / "python"
    for it in sorted((source / "mdb").iterdir()):
        if it.suffix == ".py" or it.name == "py.typed":
            put(it, tree / "mdb" / it.name)
    put(made.shared, tree / "mdb/libmdb.so", 0o755)
    put(made.python_steps, tree / "mdb/_compiled.abi3.so", 0o755)
    head = {"Metadata-Version": "2.1", "Name": "mdb", "Version": of.version, "Summary": "Connection pools and server discovery of a MongoDB driver, proved"}
    head |= {"Requires-Python": ">=3.9", "License": "Apache-2.0", "Description-Content-Type": "text/markdown"}
    metadata = "".join(f"{name}: {value}\n" for name, value in head.items())
    write(tree / info / "METADATA", metadata + "\n" + (source / "README.md").read_text(encoding="utf-8"))
    tags = "".join(f"Tag: {it}\n" for it in made.target.wheel_tags)
    write(tree / info / "WHEEL", f"Wheel-Version: 1.0\nGenerator: packaging/dist.py\nRoot-Is-Purelib: false\n{tags}")
    papers(of, tree / info)
    write(tree / info / "RECORD", packed.record_of(tree, info))
    systems = ".".join(it.split("-", 2)[2] for it in made.target.wheel_tags)
    packed.zip_file(tree, of.to / f"mdb-{of.version}-py3-none-{systems}.whl", of.date)


def rust(of: Release, all_made: list[Made], tree: Path) -> None:
    """The two crates, with an archive for each processor where mdb-sys looks for it."""
    source = of.sources / BINDINGS / "rust"
    for it in files_below(source):
        if it.parts[0] != "target" and it.name not in ("Cargo.lock", ".gitignore"):
            put(source / it, tree / it)
    for made in all_made:
        put(made.archive, tree / "mdb-sys/lib" / made.target.folder / "libmdb.a")
    for crate in ("mdb-sys", "mdb"):
        papers(of, tree / crate)
    name = f"mdb-{of.version}-rust"
    packed.tar_gz(tree, of.to / f"{name}.tar.gz", of.date, name)


def go(of: Release, all_made: list[Made], tree: Path) -> None:
    """The module, with an archive for each processor beside its files: so `go mod vendor` takes them along."""
    source = of.sources / BINDINGS / "go"
    for it in files_below(source):
        if it.name != "link.go":
            put(source / it, tree / it)
    put(of.sources / "include/mdb.h", tree / "mdb.h")
    flags = "// #cgo CFLAGS: -I${SRCDIR}\n"
    for made in all_made:
        archive = f"libmdb_linux_{made.target.go}.a"
        put(made.archive, tree / archive)
        flags += f"// #cgo linux,{made.target.go} LDFLAGS: ${{SRCDIR}}/{archive}\n"
    write(tree / "link.go", f'package mdb\n\n{flags}import "C"\n')
    papers(of, tree)
    name = f"mdb-{of.version}-go"
    packed.tar_gz(tree, of.to / f"{name}.tar.gz", of.date, name)


def pages(of: Release) -> None:
    """The pages that run in a browser: each is one file, which opens from the disk."""
    for it in sorted((of.sources / "pages").glob("*.html")):
        put(it, of.to / f"mdb-{of.version}-{it.name}")


def without_comments(text: str, cpu: str) -> str:
    """The preprocessor would read a comment that begins with # as its own."""
    return re.sub(r'(?m)[ \t]*(?<!")#[ -].*$' if cpu == "x86_64" else r"(?m)[ \t]*//.*$", "", text)


def with_plain_names(text: str) -> str:
    """Older assemblers read no name with signs such as # and '. Texts of data stay as they are."""
    plain: dict[str, str] = {}
    taken: set[str] = set()

    def renamed(found: re.Match[str]) -> str:
        name = found[1]
        if name not in plain:
            made = re.sub(r"[^\w.$]", "_", name)
            plain[name] = f"{made}.{len(plain)}" if made in taken else made
            taken.add(plain[name])
        return plain[name]

    odd = re.compile(r"\"([^\"\n]*[#<>:'][^\"\n]*)\"")
    lines = text.splitlines(keepends=True)
    return "".join(it if it.lstrip().startswith((".ascii", ".ident")) else odd.sub(renamed, it) for it in lines)


def assembly(of: Release, all_made: list[Made], tree: Path) -> None:
    """One file for every compiler of C: cc prog.c mdb.S heap.c."""
    text, word = f"/* The library of mdb.h, version {of.version}: cc prog.c mdb.S heap.c */\n", "if"
    for made in all_made:
        cpu = made.target.cpu
        text += f"#{word} defined(__{cpu}__) && defined(__linux__)\n{with_plain_names(without_comments(made.assembly.read_text(encoding='utf-8'), cpu))}\n"
        word = "elif"
    write(tree / "mdb.S", text + '#else\n#error "mdb.S is for Linux on ' + " and ".join(it.target.cpu for it in all_made) + '"\n#endif\n')
    put(of.sources / "include/mdb.h", tree / "mdb.h")
    for it in ("heap.c", "examples/round.c"):
        put(of.sources / BINDINGS / it, tree / Path(it).name)
    papers(of, tree)
    name = f"mdb-{of.version}-assembly"
    packed.tar_gz(tree, of.to / f"{name}.tar.gz", of.date, name)
