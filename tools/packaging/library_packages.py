"""Builds the Debian packages of the library for C: libmelfjits0, libmelfjits-dev and python3-melfjits. tools/run build_package starts it."""

import os
import pathlib
import shutil
import tempfile

from . import build_library, packing
from .packing import Commit, Refused, build_text, changelog, newer_source, run, sum_of, version_of

SOURCE = "melfjits"
LIBDIR = "lib/x86_64-linux-gnu"
# What the rules of the packages read: from the repository, to the folder in which they run.
FILES = {"packaging/library": "debian", "bindings/README.md": "README.md", "bindings/c": "c", "bindings/python/melfjits": "melfjits",
         "examples/cmts_loop": "cmts_loop", "examples/simulation": "simulation", "examples/plant_p2.toml": "plant_p2.toml", "CHANGELOG.md": "CHANGELOG.md"}
COMMANDS = {**packing.COMMANDS, "dh_python3": "dh-python", "gcc": "gcc"}


def proved_archive(root):
    """Returns the path of the static library whose build has proved it, if it is newer than its sources."""
    archive = root / build_library.ARCHIVE.relative_to(build_library.ROOT)
    if not os.access(archive, os.R_OK):
        raise Refused("the library for C is not built; prove and build it with tools/ci/build_channel_c (--unproved packs another one, for a trial)")
    source = newer_source(root, archive)
    if source:
        raise Refused(f"{source} is newer than the library for C; prove and build it again with tools/ci/build_channel_c")
    return archive


def copy_files(root, folder):
    for source, target in FILES.items():
        if (root / source).is_dir():
            shutil.copytree(root / source, folder / target, ignore=shutil.ignore_patterns("__pycache__"))
        else:
            shutil.copy(root / source, folder / target)


def build(root, output, archive, is_proved, revision):
    """Builds all files of the output folder, and returns them."""
    commit = Commit(root)
    version = version_of(root, commit, is_proved, revision)
    output.mkdir(parents=True, exist_ok=True)
    with tempfile.TemporaryDirectory() as work:
        folder = pathlib.Path(work, f"{SOURCE}-{version}")
        folder.mkdir()
        copy_files(root, folder)
        build_library.install(build_library.archives(archive), folder / "built", "/usr", LIBDIR)
        (folder / "debian/changelog").write_text(changelog(folder / "debian/control", version, commit, is_proved, "library"))
        (folder / "build.txt").write_text(build_text(version, commit, is_proved, archive, None, "library"))
        run(["dpkg-buildpackage", "--build=binary", "--no-sign"], folder, commit.seconds)
        files = [pathlib.Path(shutil.copy(path, output)) for path in (*sorted(pathlib.Path(work).glob("*.deb")), folder / "build.txt")]
    files.append(output / "SHA256SUMS")
    files[-1].write_text("".join(f"{sum_of(path)}  {path.name}\n" for path in files[:-1]))
    return files
