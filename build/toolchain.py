"""The toolchain, whose commands are on the path."""
import os
import shutil


def toolchain() -> str:
    """The folder of the toolchain."""
    return os.path.dirname(os.path.dirname(os.path.realpath(shutil.which("rt") or "/")))


def kit() -> str:
    """The toolchain's identity, one line."""
    return open(f"{toolchain()}/KIT-ID", encoding="utf-8").read().strip()
