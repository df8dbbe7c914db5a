#!/usr/bin/env python3
"""release.py FOLDER: packs the proved program into an archive in a folder, with all that someone without the toolchain needs. Made twice of
one commit, it has the same bytes: each file has the time of the commit, and no owner.
"""
import gzip
import hashlib
import io
import os
import subprocess
import sys
import tarfile
import tempfile
from typing import IO, cast

sys.dont_write_bytecode = True
TOP = os.path.dirname(os.path.dirname(os.path.abspath(__file__)))
sys.path.insert(0, TOP)
from build.proved import MADE, PROGRAM, Wanted
from build.toolchain import kit

TEXT = """{version}: a PDP-8 programming system, proved

This archive has the program for Linux on x86-64. It needs the C library (glibc) and nothing else; its scripts need a shell, and
`teletype` at a terminal needs bash and stty.

    bin/pdp8 tape < tape.bin              runs it from here
    cp -r bin libexec share ~/.local      lays it, with its manual page

The folder page/ has a page that runs the program in a browser. Any server of static files can give it out:

    python3 -m http.server --bind 127.0.0.1 --directory page 8008

The program is proved with {kit}. The sum of all that its proof rests on, the toolchain and the sources, is
{sum}
"""


def commit_time() -> int:
    """The time that each file of the archive has, in seconds: that of the commit, or SOURCE_DATE_EPOCH."""
    if os.environ.get("SOURCE_DATE_EPOCH", "").isdigit():
        return int(os.environ["SOURCE_DATE_EPOCH"])
    said = subprocess.run(["git", "-C", TOP, "log", "-1", "--format=%ct"], capture_output=True, text=True).stdout.strip()
    return int(said) if said.isdigit() else 0


def pack(folder: str, root: str, time: int) -> bytes:
    """The bytes of an archive of all files below a folder, under the name `root`."""
    packed = io.BytesIO()
    with gzip.GzipFile(fileobj=packed, mode="wb", mtime=time, filename="") as stream, tarfile.open(
        fileobj=cast(IO[bytes], stream), mode="w", format=tarfile.USTAR_FORMAT
    ) as archive:
        for at, folders, names in os.walk(folder):
            folders.sort()
            for name in sorted(names):
                path = f"{at}/{name}"
                entry = tarfile.TarInfo(f"{root}/{os.path.relpath(path, folder)}")
                entry.size, entry.mtime = os.path.getsize(path), time
                entry.mode = 0o755 if os.path.relpath(at, folder).startswith(("bin", "libexec")) else 0o644
                with open(path, "rb") as file:
                    archive.addfile(entry, file)
    return packed.getvalue()


def run(words: list[str]) -> None:
    """Runs a script of this folder. Where it fails, that is the end."""
    if subprocess.run([f"{TOP}/build/{words[0]}", *words[1:]]).returncode:
        sys.exit(70)


def main(folder: str) -> int:
    wanted = Wanted()
    if not wanted.is_proved(PROGRAM):
        print("release: the program is not proved as its sources stand; ./prove proves it", file=sys.stderr)
        return 70
    asked = subprocess.run([MADE, "--version"], capture_output=True, text=True)
    if asked.returncode:
        print(f"release: the program ends with status {asked.returncode} where its version is asked", file=sys.stderr)
        return 70
    version = asked.stdout.strip()
    root = f"{version.replace(' ', '-')}-linux-x86_64"
    with tempfile.TemporaryDirectory() as room:
        made = f"{room}/{root}"
        os.makedirs(f"{room}/scripts")
        run(["lay.sh", MADE, PROGRAM, f"{room}/scripts", made])
        run(["page.py", "--proved", f"{made}/page"])
        with open(f"{made}/README.txt", "w", encoding="utf-8") as text:
            text.write(TEXT.format(version=version, kit=kit(), sum=wanted.sums[PROGRAM]))
        archive = pack(made, root, commit_time())
    os.makedirs(folder, exist_ok=True)
    name = f"{root}.tar.gz"
    with open(f"{folder}/{name}", "wb") as file:
        file.write(archive)
    with open(f"{folder}/{name}.sha256", "w", encoding="utf-8") as file:
        file.write(f"{hashlib.sha256(archive).hexdigest()}  {name}\n")
    print(f"made {folder}/{name}, {len(archive) >> 10} kB, and {name}.sha256")
    return 0


if __name__ == "__main__":
    sys.exit(main(sys.argv[1]))
