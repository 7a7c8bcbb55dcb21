"""What dev/release and tests/scripts/release share: the version, which files the program is made of, and the program in dist/."""
import hashlib
import lzma
import os
import re
import subprocess

ROOT = os.path.dirname(os.path.dirname(os.path.realpath(__file__)))
DIST = f"{ROOT}/dist"
PACKED = "bq-x86_64-linux.xz"
# what `rt ci` builds by LLVM
BUILT = f"{ROOT}/crates/bq/out/bq"
VERSION = re.compile(r'^pub const VERSION: &str = "(\d+\.\d+\.\d+)";$', re.M)
VERSION_IN = "crates/bq_command_line/src/command.rt"
RELEASE = re.compile(r"^## (\d+\.\d+\.\d+), (\d{4}-\d{2}-\d{2})$", re.M)


class Refused(Exception):
    """Why there is nothing to compare or to make."""


def text_of(path):
    """The text of a file of the repository."""
    try:
        with open(f"{ROOT}/{path}", encoding="utf-8") as file:
            return file.read()
    except OSError as error:
        raise Refused(f"{path} can't be read: {error.strerror}") from error


def bytes_of(path):
    """The bytes of a file."""
    try:
        with open(path, "rb") as file:
            return file.read()
    except OSError as error:
        raise Refused(f"{os.path.relpath(path, ROOT)} can't be read: {error.strerror}") from error


def version():
    """The version of the program."""
    found = VERSION.search(text_of(VERSION_IN))
    if not found:
        raise Refused(f"{VERSION_IN} has no line that defines VERSION as three numbers")
    return found[1]


def released():
    """The day of the release, by docs/CHANGELOG.md, whose first entry has to be the program's version."""
    found = RELEASE.search(text_of("docs/CHANGELOG.md"))
    if not found or found[1] != version():
        raise Refused(f"the first entry of docs/CHANGELOG.md isn't `## {version()}, YEAR-MONTH-DAY`, the version in {VERSION_IN}")
    return found[2]


def sources():
    """The source files with their checksums, and the crates, as `./bq` counts them."""
    return subprocess.run([f"{ROOT}/dev/sources"], capture_output=True, check=True).stdout.decode()


def differing(listed):
    """The source files that aren't as this text lists them."""
    changed = set(listed.splitlines()) ^ set(sources().splitlines())
    return sorted({line.split(" ", 2)[-1] for line in changed})


def toolchain():
    """The line by which the toolchain names itself, of which one word is its release."""
    try:
        return subprocess.run(["rt", "version"], capture_output=True, check=True).stdout.decode()
    except (OSError, subprocess.CalledProcessError) as error:
        raise Refused("there is no rt on the PATH, or it doesn't say its version") from error


def sum_of(content):
    """The checksum of these bytes."""
    return hashlib.sha256(content).hexdigest()


def is_there():
    """Whether there is a dist/."""
    return os.path.isdir(DIST)


def stop_on_other_text():
    """Refuses a dist/ that isn't of the source files as they are."""
    if not is_there():
        raise Refused("there is no dist/: run `rt ci`, and then dev/release --dist")
    changed = differing(text_of("dist/SOURCES"))
    if changed:
        raise Refused(f"dist/ isn't of the source files as they are ({changed[0]} differs): run `rt ci`, and then dev/release --dist")


def check_sums():
    """Refuses a file of dist/ that isn't as SHA256SUMS says."""
    lines = dict(line.split("  ")[::-1] for line in text_of("dist/SHA256SUMS").splitlines() if "  " in line)
    for name in (PACKED, "SOURCES", "TOOLCHAIN"):
        if lines.get(name) != sum_of(bytes_of(f"{DIST}/{name}")):
            raise Refused(f"dist/{name} isn't what dist/SHA256SUMS says")


def unpacked():
    """The program in dist/."""
    check_sums()
    try:
        return lzma.decompress(bytes_of(f"{DIST}/{PACKED}"))
    except lzma.LZMAError as error:
        raise Refused(f"dist/{PACKED} can't be unpacked: {error}") from error
