"""Where a machine's kernel and its modules come from: a folder, a Debian package, or a package's name."""

from __future__ import annotations

import os
import re
import subprocess
import tempfile
from contextlib import contextmanager
from dataclasses import dataclass, field
from pathlib import Path
from typing import Iterator

from shared.command_line import Refused
from shared.kernel_modules import Module, is_module, name_of, read_module
from shared.needed import Need

PACKAGE = re.compile(r"[a-z0-9][a-z0-9+.-]+")
MODULES = ("usr/lib/modules", "lib/modules")
NEEDS_TO_UNPACK = (Need("dpkg-deb", "dpkg"),)
NEEDS_TO_DOWNLOAD = (*NEEDS_TO_UNPACK, Need("apt-get", "apt"))


@dataclass(slots=True)
class Kernel:
    """A kernel of this release, and the folder of its modules."""

    release: str
    image: Path
    modules: Path
    paths: dict[str, Path] = field(default_factory=dict)

    def __post_init__(self) -> None:
        for path in sorted(self.modules.rglob("*.ko*")):
            if is_module(path.name):
                self.paths[name_of(path.name)] = path

    def module(self, name: str) -> Module | None:
        path = self.paths.get(name)
        return read_module(str(path.relative_to(self.modules)), path.read_bytes()) if path else None


def needs_of(source: str) -> tuple[Need, ...]:
    if Path(source).is_dir():
        return ()
    return NEEDS_TO_UNPACK if Path(source).is_file() else NEEDS_TO_DOWNLOAD


@contextmanager
def kernel_of(source: str, release: str | None) -> Iterator[Kernel]:
    """The kernel in a folder, a package's file, or a package that is downloaded; what is unpacked goes again."""
    if Path(source).is_dir():
        yield kernel_in(Path(source), release)
        return
    with tempfile.TemporaryDirectory(prefix="netboot-kernel-") as name:
        file = Path(source).resolve() if Path(source).is_file() else _downloaded(source, Path(name))
        _run(["dpkg-deb", "--extract", str(file), f"{name}/files"], Path(name))
        yield kernel_in(Path(name) / "files", release)


def kernel_in(folder: Path, release: str | None) -> Kernel:
    """A folder with boot/vmlinuz-RELEASE, as a package or a Debian machine has it, or with vmlinuz itself."""
    images = {path.name.removeprefix("vmlinuz-"): path for path in folder.glob("boot/vmlinuz-*")}
    of_modules = {path.name: path for base in MODULES for path in sorted(folder.glob(f"{base}/*"))}
    if (folder / "vmlinuz").is_file() and len(of_modules) == 1:
        images = {next(iter(of_modules)): folder / "vmlinuz"}
    if release is None and len(images) > 1:
        raise Refused(f"{folder} has several kernels: --release {', --release '.join(sorted(images))}")
    chosen = release or next(iter(images), "")
    if chosen not in images:
        raise Refused(f"{folder} has no kernel boot/vmlinuz-{chosen or 'RELEASE'}")
    if chosen not in of_modules:
        raise Refused(f"{folder} has no modules lib/modules/{chosen}")
    return Kernel(chosen, images[chosen], of_modules[chosen])


def _run(words: list[str], folder: Path) -> str:
    done = subprocess.run(
        words, cwd=folder, capture_output=True, text=True, check=False, env={**os.environ, "LC_ALL": "C"}
    )
    if done.returncode:
        lines = done.stderr.strip().splitlines() or ["it failed"]
        raise Refused(f"{' '.join(words[:2])}: {lines[-1]}")
    return done.stdout


def _downloaded(package: str, folder: Path) -> Path:
    """The package's file, or that of the kernel which it stands for: a name without a release has no files."""
    if not PACKAGE.fullmatch(package):
        raise Refused(f"{package} is no folder, no file and no package's name")
    _run(["apt-get", "download", package], folder)
    file = next(folder.glob("*.deb"))
    depends = _run(["dpkg-deb", "--field", str(file), "Depends"], folder)
    named = re.match(r"(linux-image-[0-9]\S*)", depends)
    if not named:
        return file
    file.unlink()
    return _downloaded(named[1], folder)
