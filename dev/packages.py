"""Makes the packages of a release: a tarball that is laid out as the repository is, and a Debian package. The same program, text and day
give the same bytes."""
import datetime
import gzip
import hashlib
import io
import os
import re
import shutil
import subprocess
import tarfile
import tempfile
import textwrap

from program import ROOT, Refused, bytes_of, text_of

PAGE_HEAD = re.compile(r'^(\.TH \w+ 1) "" "bq"', re.M)
MAINTAINER = "The developers of bq <bq@users.noreply.invalid>"

CONTROL = """\
Package: bq
Version: {version}
Architecture: amd64
Maintainer: {maintainer}
Installed-Size: {size}
Depends: libc6 (>= {glibc})
Recommends: python3
Section: devel
Priority: optional
Description: queries over the targets of a workspace of BUILD files
 bq loads the BUILD and .bzl files of a workspace, as the loading phase of
 Bazel does, and answers queries in Bazel's query language: what a target
 depends on, what breaks when a file changes, which tests that concerns.
 It needs no server and no output tree, and fetches and builds nothing.
 .
 That it writes the bytes that its specification defines is proved by
 machine. bzlq queries the workspace that you are in. It and its module in
 /usr/share/bq/bzlq need python3; the program doesn't.
"""

COPYRIGHT = """\
Format: https://www.debian.org/doc/packaging-manuals/copyright-format/1.0/
Upstream-Name: bq

Files: *
Copyright: {year} the developers of bq
License: Apache-2.0
Comment: {comment}

License: Apache-2.0
 On Debian systems, the text of the Apache License, version 2.0, is in
 /usr/share/common-licenses/Apache-2.0.
"""

COMMANDS = ("bq", "bzlq")
LINKS = {"usr/bin/bzlq": "../share/bq/bzlq/__main__.py"}

# the command bq is another program's on some machines (BigQuery's): theirs stays, and ours is there where it has no other
AFTER = """\
#!/bin/sh
set -e
[ "$1" != configure ] || update-alternatives --install /usr/bin/bq bq /usr/lib/bq/bq 10
"""
BEFORE = """\
#!/bin/sh
set -e
[ "$1" != remove ] || update-alternatives --remove bq /usr/lib/bq/bq
"""

# what lintian takes for a mistake, and why it isn't one
OVERRIDES = """\
# The program is the one that the proofs are about, byte for byte (dev/release --check), so nothing strips it.
bq: unstripped-binary-or-object [usr/lib/bq/bq]
"""


def moment_of(day):
    """The day of a release begins at midnight in UTC: a file of an hour to come would be told of by tar."""
    return datetime.datetime.fromisoformat(f"{day}T00:00:00+00:00")


def tree(folder):
    """The files in a folder of the repository, with their contents."""
    found = {}
    for at, folders, names in os.walk(f"{ROOT}/{folder}"):
        folders[:] = sorted(it for it in folders if it not in ("out", "__pycache__"))
        for name in sorted(names):
            found[os.path.relpath(f"{at}/{name}", ROOT)] = bytes_of(f"{at}/{name}")
    return found


def manual(name, version, day):
    """A man page, with the version and the day in its head."""
    page, count = PAGE_HEAD.subn(rf'\1 "{day}" "bq {version}"', text_of(f"docs/{name}"))
    if count != 1:
        raise Refused(f"docs/{name} has no line `.TH NAME 1 \"\" \"bq\" ..`, in which the version is to be")
    return page.encode()


def manuals(version, day):
    """The man pages of a version, by their names."""
    return {f"{it}.1": manual(f"{it}.1", version, day) for it in COMMANDS}


def tools():
    """The scripts that users run, and their modules."""
    return {**tree("tools"), **tree("bzlq")}


def is_run(path, content):
    """Whether a file of a package may be run."""
    return content.startswith(b"#!") or path in ("bq", "usr/lib/bq/bq")


def make_tarball(program, version, day, to):
    """Writes the tarball: the program at its top, and the pages, examples and tools at their places in the repository."""
    files = {"bq": program, **{name: bytes_of(f"{ROOT}/{name}") for name in ("README.md", "LICENSE")}}
    files |= {**tree("docs"), **tree("examples"), **tools()}
    files |= {f"docs/{name}": page for name, page in manuals(version, day).items()}
    with tarfile.open(to, "w:xz", preset=9) as made:
        for path, content in sorted(files.items()):
            entry = tarfile.TarInfo(f"bq-{version}-x86_64-linux/{path}")
            entry.size, entry.mtime = len(content), int(moment_of(day).timestamp())
            entry.mode = 0o755 if is_run(path, content) else 0o644
            made.addfile(entry, io.BytesIO(content))


def changelog(version):
    """docs/CHANGELOG.md in Debian's format. Releases of one day are a second apart: Debian wants each later than the one before."""
    parts = re.split(r"^## (\S+), (\S+)$", text_of("docs/CHANGELOG.md"), flags=re.M)[1:]
    written, days = [], parts[1::3]
    for at, (number, day, text) in enumerate(zip(parts[::3], days, parts[2::3])):
        items = re.split(r"^- ", text, flags=re.M)[1:]
        lines = "\n".join(textwrap.fill(it, 78, initial_indent="  * ", subsequent_indent="    ") for it in items)
        moment = moment_of(day) + datetime.timedelta(seconds=days[at + 1:].count(day))
        stamp = moment.strftime("%a, %d %b %Y %H:%M:%S +0000")
        written.append(f"bq ({number}) unstable; urgency=medium\n\n{lines}\n\n -- {MAINTAINER}  {stamp}\n")
    return "\n".join(written).encode()


def packed(content):
    """Bytes as gzip has them, the same at each time."""
    return gzip.compress(content, compresslevel=9, mtime=0)


def copyright_of(day):
    """Debian's copyright file. What the program has of others is the last paragraph of LICENSE."""
    others = text_of("LICENSE").strip().split("\n\n")[-1].replace("\n", "\n ")
    return COPYRIGHT.format(year=day[:4], comment=others).encode()


def debian_files(program, version, day):
    """The files of the Debian package, by their paths from the root."""
    share, doc = "usr/share", "usr/share/doc/bq"
    pages = {**tree("docs"), **tree("examples"), "README.md": bytes_of(f"{ROOT}/README.md")}
    files = {
        "usr/lib/bq/bq": program,
        **{f"{share}/man/man1/{name}.gz": packed(page) for name, page in manuals(version, day).items()},
        **{f"{share}/bash-completion/completions/{it}": pages.pop(f"docs/completions/{it}.bash") for it in COMMANDS},
        **{f"{share}/zsh/vendor-completions/_{it}": pages.pop(f"docs/completions/_{it}") for it in COMMANDS},
        **{f"{share}/fish/vendor_completions.d/{it}.fish": pages.pop(f"docs/completions/{it}.fish") for it in COMMANDS},
        f"{share}/lintian/overrides/bq": OVERRIDES.encode(),
        f"{doc}/changelog.gz": packed(changelog(version)),
        f"{doc}/copyright": copyright_of(day),
    }
    del pages["docs/bq.1"], pages["docs/bzlq.1"], pages["docs/CHANGELOG.md"]
    return {**files, **{f"{doc}/{path}": it for path, it in pages.items()}, **{f"{share}/bq/{path}": it for path, it in tools().items()}}


def control(program, version, files):
    """The control file. The program needs the C library that has the newest symbol of it."""
    symbols = [tuple(map(int, it)) for it in re.findall(rb"GLIBC_(\d+)\.(\d+)", program)]
    if not symbols:
        raise Refused("the program names no symbol of the GNU C library")
    size = sum(-(-len(it) // 1024) for it in files.values())
    return CONTROL.format(version=version, maintainer=MAINTAINER, size=size, glibc=".".join(map(str, max(symbols)))).encode()


def make_package(program, version, day, to):
    """Writes the Debian package, by dpkg-deb."""
    if not shutil.which("dpkg-deb"):
        raise Refused("there is no dpkg-deb on the PATH, which makes the Debian package (its package is dpkg)")
    files = debian_files(program, version, day)
    sums = "".join(f"{hashlib.md5(content).hexdigest()}  {path}\n" for path, content in sorted(files.items()))
    whole = {**files, "DEBIAN/control": control(program, version, files), "DEBIAN/md5sums": sums.encode()}
    whole |= {"DEBIAN/postinst": AFTER.encode(), "DEBIAN/prerm": BEFORE.encode()}
    with tempfile.TemporaryDirectory(prefix="release-") as root:
        os.chmod(root, 0o755)
        for path, content in whole.items():
            os.makedirs(os.path.dirname(f"{root}/{path}"), mode=0o755, exist_ok=True)
            with open(f"{root}/{path}", "wb") as file:
                file.write(content)
            os.chmod(f"{root}/{path}", 0o755 if is_run(path, content) else 0o644)
        for path, target in LINKS.items():
            os.makedirs(os.path.dirname(f"{root}/{path}"), mode=0o755, exist_ok=True)
            os.symlink(target, f"{root}/{path}")
        moment = int(moment_of(day).timestamp())
        # (dpkg-deb moves back only what is later, and a release's day may be to come)
        for at, folders, names in os.walk(root, topdown=False):
            for path in (*folders, *names, "."):
                os.utime(f"{at}/{path}", (moment, moment), follow_symlinks=False)
        command = ["dpkg-deb", "--root-owner-group", "-Zxz", "--build", root, to]
        made = {**os.environ, "SOURCE_DATE_EPOCH": str(moment)}
        ran = subprocess.run(command, env=made, capture_output=True, text=True, check=False)
        if ran.returncode:
            raise Refused(f"dpkg-deb didn't make the package: {ran.stderr.strip()}")


def make(program, version, day, folder):
    """Writes both packages into the folder, and returns their paths."""
    os.umask(0o022)
    os.makedirs(folder, exist_ok=True)
    tarball, package = f"{folder}/bq-{version}-x86_64-linux.tar.xz", f"{folder}/bq_{version}_amd64.deb"
    make_tarball(program, version, day, tarball)
    make_package(program, version, day, package)
    return tarball, package
