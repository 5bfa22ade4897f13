"""What a stranger does with each file of a release."""
from __future__ import annotations

import re
import shutil
import tarfile
from functools import partial
from pathlib import Path
from typing import Callable, Iterator

from plain import Stop, put, run
from rooms import Room
from shipped import PROGRAMS, TARGETS, TOP

X86_64 = TARGETS[0]
WANTED = b"return 4 1 ok | Done | Pool 0 ConnectionCheckedIn a:27017 1\n"
Trial = tuple[str, Callable[[Room], None]]


class Packed:
    """The files of a release, by what they are."""

    def __init__(self, dist: Path) -> None:
        if not (dist / "SHA256SUMS").is_file():
            raise Stop(f"{dist} is no release: run make -C packaging dist")
        self.dist = dist

    def one(self, pattern: str) -> Path:
        found = sorted(self.dist.glob(pattern))
        if len(found) != 1:
            raise Stop(f"{self.dist} has {len(found)} files {pattern}, and not one")
        return found[0]

    def plain(self, target=X86_64) -> Path:
        return self.one(f"mdb-*-{target.cpu}-linux.tar.gz")

    def unpacked(self, pattern: str, to: Path) -> Path:
        """A packed folder, unpacked below `to` without its top folder's name."""
        archive, place = self.one(pattern), to / pattern.strip("*").split("*")[-1].split(".")[0].strip("-")
        if not place.is_dir():
            with tarfile.open(archive) as tar:
                tar.extractall(to)
            (to / archive.name[: -len(".tar.gz")]).rename(place)
        return place


def same(said: bytes, wanted: bytes, of: str) -> None:
    if said != wanted:
        raise Stop(f"{of} wrote {said[:200]!r}, and not {wanted[:200]!r}")


def sums(of: Packed, room: Room) -> None:
    for it in of.dist.iterdir():
        put(it, room.place / "dist" / it.name)
    room.run("cd dist && sha256sum --quiet -c SHA256SUMS")


def plain(of: Packed, words: str, room: Room) -> None:
    """The first example with the unpacked folder."""
    of.unpacked(f"mdb-*-{X86_64.cpu}-linux.tar.gz", room.place)
    folder = "/try/x86_64-linux"
    room.run(f"export PKG_CONFIG_PATH={folder}/lib/pkgconfig D={folder}\n{words.format(example=f'{folder}/share/doc/mdb/examples/round.c')}")
    same(room.run("./round", LD_LIBRARY_PATH=f"{folder}/lib"), WANTED, "round")


def programs(run_one: Callable[[str, bytes, int], bytes]) -> None:
    """By what runs a command: each program's stdin, with its args, gives its stdout and its status. One that has none says its version."""
    for name in PROGRAMS:
        folder = TOP / "crates" / name
        if not (folder / "stdout").is_file():
            run_one(f"{name} --version", b"", 0)
            continue
        status = int((folder / "status").read_text()) if (folder / "status").is_file() else 0
        words = (folder / "args").read_text().split() if (folder / "args").is_file() else []
        same(run_one(" ".join([name, *words]), (folder / "stdin").read_bytes(), status), (folder / "stdout").read_bytes(), name)


def packed_programs(of: Packed, room: Room) -> None:
    of.unpacked(f"mdb-*-{X86_64.cpu}-linux.tar.gz", room.place)
    programs(lambda name, feed, status: room.run(f"x86_64-linux/bin/{name}", feed, status))


def debs(of: Packed, room: Room) -> None:
    """The three packages: installed, used, and removed."""
    for it in of.dist.glob(f"*_{X86_64.debian}.deb"):
        put(it, room.place / "debs" / it.name)
    room.run("dpkg -i debs/*.deb")
    try:
        room.run("cc /usr/share/doc/libmdb-dev/examples/round.c $(pkg-config --cflags --libs mdb) -o round-deb\nldd round-deb | grep -q libmdb.so")
        same(room.run("./round-deb"), WANTED, "round")
        room.run("cc /usr/share/doc/libmdb-dev/examples/round.c $(pkg-config --variable=libdir mdb)/libmdb.a -o round-static")
        same(room.run("./round-static"), WANTED, "round")
        programs(lambda name, feed, status: room.run(name, feed, status))
    finally:
        room.run("dpkg --purge mdb-tools libmdb-dev $(dpkg-query -W -f '${Package} ' 'libmdb[0-9]*')")


def wheel(of: Packed, room: Room) -> None:
    """The wheel, and the tests of the binding against it."""
    file = of.one(f"mdb-*_{X86_64.cpu}.whl")
    put(file, room.place / file.name)
    room.run(f"python3 -m pip install --quiet --no-index --no-deps --target /try/site ./{file.name}")
    put(TOP / "bindings/examples/round.py", room.place / "round.py")
    same(room.run("python3 round.py", PYTHONPATH="/try/site"), WANTED, "round.py")


def wheel_tests(of: Packed, room: Room) -> None:
    """The tests of the binding, laid out as in a checkout, with the package of the wheel and the program of the folder."""
    of.unpacked(f"mdb-*-{X86_64.cpu}-linux.tar.gz", room.place)
    shutil.copytree(TOP / "bindings/python/tests", room.place / "bindings/python/tests", dirs_exist_ok=True, ignore=shutil.ignore_patterns("__pycache__"))
    put(TOP / "checks/cases.py", room.place / "checks/cases.py")
    for it in (TOP / "crates").glob("mdb_checks_*/std*"):
        put(it, room.place / it.relative_to(TOP))
    variables = {"MDB_SCRIPT": "/try/x86_64-linux/bin/mdb_script", "MDB_ARCHIVE": "/try/x86_64-linux/lib/libmdb.a"}
    said = room.run("python3 -m pytest -q -p no:cacheprovider bindings/python/tests", PYTHONPATH="/try/site", **variables)
    if b" passed" not in said or b"skipped" in said:
        raise Stop(f"not all tests ran: {said.decode().strip().splitlines()[-1]}")


def rust(of: Packed, room: Room) -> None:
    """The two crates: their tests and their example, and a program of one's own over them."""
    of.unpacked("mdb-*-rust.tar.gz", room.place)
    room.run("cd rust && cargo test --offline --quiet && cargo run --offline --quiet --example rounds")
    room.run("""mkdir -p own/src
printf '[package]\\nname = "own"\\nversion = "0.1.0"\\nedition = "2021"\\n[dependencies]\\nmdb = { path = "../rust/mdb" }\\n' > own/Cargo.toml
cp rust/mdb/examples/rounds.rs own/src/main.rs
cd own && cargo run --offline --quiet""")


def go(of: Packed, room: Room) -> None:
    """The module: its tests, and a program of one's own that vendors it."""
    of.unpacked("mdb-*-go.tar.gz", room.place)
    room.run("cd go && go vet ./... && go test ./...", GOPROXY="off", GOFLAGS="-mod=mod")
    room.run("""mkdir -p own-go && cd own-go
printf 'module own\\n\\ngo 1.19\\n\\nrequire mdb v0.0.0\\n\\nreplace mdb => ../go\\n' > go.mod
printf 'package main\\n\\nimport (\\n\\t"fmt"\\n\\t"mdb"\\n)\\n\\nfunc main() { fmt.Println(mdb.Malformed) }\\n' > main.go
go mod vendor && go run -mod=vendor .""", GOPROXY="off")


def assembly(of: Packed, room: Room) -> None:
    of.unpacked("mdb-*-assembly.tar.gz", room.place)
    room.run("cd assembly && cc round.c mdb.S heap.c -o round")
    same(room.run("assembly/round"), WANTED, "round")


def pages(of: Packed, _: Room) -> None:
    """Each page is one file: it asks for no other."""
    for it in of.dist.glob("*.html"):
        asked = re.search(r"""\b(?:src|href)=["']?(?!#|data:|["'])[^"'>]+|@import|\bfetch\(""", it.read_text(encoding="utf-8"))
        if asked:
            raise Stop(f"{it.name} asks for another file: {asked[0][:100]}")


def lintian(of: Packed, room: Room) -> None:
    said = run("lintian", "--fail-on", "error,warning", *sorted(of.dist.glob("*.deb")))
    if said.strip():
        raise Stop(said.strip().splitlines()[0])


COMPILED = {
    "tar.gz, gcc, shared": "cc {example} $(pkg-config --cflags --libs mdb) -o round",
    "tar.gz, gcc, libmdb.a": "cc {example} -I$D/include $D/lib/libmdb.a -o round",
    "tar.gz, gcc -static": "cc -static {example} $(pkg-config --static --cflags --libs mdb) -o round",
    "tar.gz, musl-gcc -static": "musl-gcc -static {example} -I$D/include $D/lib/libmdb.a -o round",
}


def in_debian(of: Packed, has_all: bool) -> Iterator[Trial]:
    yield "sha256sum -c", partial(sums, of)
    for title, words in COMPILED.items():
        yield f"{title}: the first example", partial(plain, of, words)
    yield "tar.gz: each program's stdin and stdout", partial(packed_programs, of)
    yield "deb: installed, the first example, each program", partial(debs, of)
    yield "wheel: installed, the first example", partial(wheel, of)
    yield "wheel: the tests of the binding", partial(wheel_tests, of)
    if has_all:
        yield "Rust: tests, example, a program of one's own", partial(rust, of)
        yield "Go: tests, a program of one's own that vendors it", partial(go, of)
    yield "assembly: the first example", partial(assembly, of)
    yield "pages: each is one file", partial(pages, of)


def in_musl(of: Packed, debian: Room) -> Iterator[Trial]:
    """What runs where nothing but musl is. It was compiled in the room of Debian, by musl-gcc."""
    folder = of.unpacked(f"mdb-*-{X86_64.cpu}-linux.tar.gz", debian.place)

    def shared(room: Room) -> None:
        debian.run("musl-gcc x86_64-linux/share/doc/mdb/examples/round.c -Ix86_64-linux/include -Lx86_64-linux/lib -lmdb -o round-musl")
        put(debian.place / "round-musl", room.place / "round", 0o755)
        shared_library = next((folder / "lib").glob("libmdb.so.*"))
        put(shared_library, room.place / shared_library.name)
        same(room.run("/try/round", LD_LIBRARY_PATH="/try"), WANTED, "round")

    def alone(room: Room) -> None:
        for name in PROGRAMS:
            put(folder / "bin" / name, room.place / name, 0o755)
        programs(lambda name, feed, status: room.run(f"/try/{name}", feed, status))

    yield "tar.gz, musl-gcc, shared: the first example", shared
    yield "tar.gz: each program's stdin and stdout", alone
