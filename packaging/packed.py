"""Archives whose bytes follow from what is in them: sorted names, one date, no owner."""
from __future__ import annotations

import base64
import gzip
import hashlib
import os
import tarfile
import time
import zipfile
from pathlib import Path

from plain import files_below, run, write


def is_run(path: Path) -> bool:
    return path.is_symlink() or os.access(path, os.X_OK)


def tar_gz(folder: Path, to: Path, date: int, top: str) -> None:
    """A folder's files, in a folder `top` of the archive."""
    with open(to, "wb") as raw, gzip.GzipFile(filename="", mode="wb", fileobj=raw, mtime=date) as packed:
        with tarfile.open(fileobj=packed, mode="w", format=tarfile.GNU_FORMAT) as tar:
            for name in files_below(folder):
                item = tar.gettarinfo(folder / name, f"{top}/{name}")
                item.mtime, item.uid, item.gid, item.uname, item.gname = date, 0, 0, "", ""
                item.mode = 0o755 if is_run(folder / name) else 0o644
                if item.issym():
                    tar.addfile(item)
                else:
                    with open(folder / name, "rb") as file:
                        tar.addfile(item, file)


def zip_file(folder: Path, to: Path, date: int) -> None:
    with zipfile.ZipFile(to, "w", zipfile.ZIP_DEFLATED, compresslevel=9) as made:
        for name in files_below(folder):
            item = zipfile.ZipInfo(str(name), time.gmtime(max(date, 315532800))[:6])
            item.external_attr, item.create_system = (0o100755 if is_run(folder / name) else 0o100644) << 16, 3
            item.compress_type = zipfile.ZIP_DEFLATED
            made.writestr(item, (folder / name).read_bytes())


def gz(text: bytes, to: Path) -> None:
    write(to, gzip.compress(text, 9, mtime=0))


def sum_of(path: Path) -> str:
    return hashlib.sha256(path.read_bytes()).hexdigest()


def record_of(folder: Path, info: str) -> str:
    """The RECORD of a wheel's files."""
    rows = []
    for name in files_below(folder):
        data = (folder / name).read_bytes()
        told = base64.urlsafe_b64encode(hashlib.sha256(data).digest()).decode().rstrip("=")
        rows.append(f"{name},sha256={told},{len(data)}")
    return "\n".join([*rows, f"{info}/RECORD,,"]) + "\n"


def deb(folder: Path, to: Path, date: int) -> None:
    """A Debian package of a folder that has DEBIAN/control: the sums of its files are added, and each gets the one date."""
    plain = [it for it in files_below(folder) if it.parts[0] != "DEBIAN" and not (folder / it).is_symlink()]
    sums = [f"{hashlib.md5((folder / it).read_bytes()).hexdigest()}  {it}\n" for it in plain]
    write(folder / "DEBIAN/md5sums", "".join(sums))
    for at, _, names in os.walk(folder):
        os.chmod(at, 0o755)
        for path in (at, *(os.path.join(at, it) for it in names)):
            os.utime(path, (date, date), follow_symlinks=False)
    run("dpkg-deb", "--root-owner-group", "-Zxz", "--build", folder, to, env={**os.environ, "SOURCE_DATE_EPOCH": str(date)})
